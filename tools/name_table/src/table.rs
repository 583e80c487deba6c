//! The table of names: each name at its place, and the numbers of what it stands for.

use crate::groups::Grouped;
use crate::lists::{Added, Entry, EventType, Lists, Modifier};
use crate::lists::{CODES, MODIFIER_BITS, NAMED_MODIFIERS};

/// The rows of places are rows of bytes.
const MOST_PLACES: usize = 255;

/// The first number that stands for no modifier bit.
const NO_BIT: u8 = *MODIFIER_BITS.end() + 1;

/// A place and the name there.
pub type Place<'a> = (usize, &'a str);

pub struct Table<'a> {
    pub lists: &'a Lists,
    pub modifiers: Grouped<'a, Modifier>,
    pub types: Grouped<'a, EventType>,
    /// The first place of each kind: the five of details, directives, `None`, `Any`, modifiers and
    /// event types. The last number is how many places there are.
    pub starts: [usize; 11],
    pub written: Written<'a>,
}

/// The places of the names that the writer uses.
pub struct Written<'a> {
    pub button_motion: usize,
    /// By code.
    pub types: Vec<Place<'a>>,
    /// By bit.
    pub bits: Vec<Place<'a>>,
    /// Of Meta, Alt, Hyper and Super.
    pub longs: Vec<Place<'a>>,
}

impl<'a> Table<'a> {
    pub fn new(lists: &'a Lists) -> Result<Table<'a>, String> {
        let starts = starts(lists);
        let [.., modifiers_at, types_at, total] = starts;
        if total > MOST_PLACES {
            return Err(format!(
                "there are {total} names, and {MOST_PLACES} is the most"
            ));
        }
        let modifiers = Grouped::new(&lists.modifiers);
        let types = Grouped::new(&lists.types);
        let written = Written::new(lists, &modifiers, modifiers_at, &types, types_at)?;
        Ok(Table {
            lists,
            modifiers,
            types,
            starts,
            written,
        })
    }

    /// The names in the order of their places.
    pub fn names(&self) -> Vec<&'a str> {
        let details = self.lists.details.iter().flatten().map(|e| e.name.as_str());
        let directives = self.lists.directives.iter().map(|e| e.name.as_str());
        details
            .chain(directives)
            .chain(["None", "Any"])
            .chain(self.modifiers.names())
            .chain(self.types.names())
            .collect()
    }
}

fn starts(lists: &Lists) -> [usize; 11] {
    let [keysyms, buttons, motions, modes, requests] = lists.details.each_ref().map(Vec::len);
    let counts = [
        keysyms,
        buttons,
        motions,
        modes,
        requests,
        lists.directives.len(),
        1,
        1,
        lists.modifiers.len(),
        lists.types.len(),
    ];
    let mut starts = [0; 11];
    for (kind, count) in counts.into_iter().enumerate() {
        starts[kind + 1] = starts[kind] + count;
    }
    starts
}

impl<'a> Written<'a> {
    fn new(
        lists: &'a Lists,
        modifiers: &Grouped<'a, Modifier>,
        modifiers_at: usize,
        types: &Grouped<'a, EventType>,
        types_at: usize,
    ) -> Result<Written<'a>, String> {
        // The writer uses the first name of each meaning.
        let protocol = &lists.types[..lists.protocol];
        let of_code = |code| {
            let first = protocol.iter().find(|entry| entry.meaning.code == code);
            place(types_at, types, first, || format!("the code {code}"))
        };
        let of_modifier = |meaning| {
            let first = lists.modifiers.iter().find(|e| e.meaning == meaning);
            place(modifiers_at, modifiers, first, || format!("{meaning:?}"))
        };
        let motion = lists.types.iter().find(|entry| entry.name == "BtnMotion");
        let (button_motion, _) = place(types_at, types, motion, || "BtnMotion".to_string())?;
        Ok(Written {
            button_motion,
            types: CODES.map(of_code).collect::<Result<_, _>>()?,
            bits: MODIFIER_BITS
                .map(|bit| of_modifier(Modifier::Bit(bit)))
                .collect::<Result<_, _>>()?,
            longs: NAMED_MODIFIERS
                .map(|number| of_modifier(Modifier::Named(number)))
                .collect::<Result<_, _>>()?,
        })
    }
}

/// The place of an entry that the writer needs.
fn place<'a, T>(
    start: usize,
    grouped: &Grouped<'a, T>,
    entry: Option<&'a Entry<T>>,
    what: impl Fn() -> String,
) -> Result<Place<'a>, String> {
    let name = entry.map(|entry| entry.name.as_str());
    let mut places = (start..).zip(grouped.names());
    places
        .find(|(_, other)| Some(*other) == name)
        .ok_or_else(|| {
            format!(
                "crates/model/specs/Names.antt: the writer needs a name for {}",
                what()
            )
        })
}

impl Modifier {
    pub fn number(self) -> u8 {
        match self {
            Modifier::Bit(bit) => bit,
            Modifier::Named(number) => NO_BIT + number,
        }
    }
}

impl Added {
    pub fn number(self) -> u8 {
        match self {
            Added::Modifier(bit) => bit,
            Added::Nothing => NO_BIT,
            Added::AnyButton => NO_BIT + 1,
            Added::Meta => NO_BIT + 2,
        }
    }
}

#[cfg(test)]
pub mod tests {
    use super::*;

    fn entry<T>(name: impl Into<String>, meaning: T) -> Entry<T> {
        Entry {
            name: name.into(),
            line: 1,
            meaning,
        }
    }

    fn plain(name: impl Into<String>, code: u8) -> Entry<EventType> {
        let meaning = EventType {
            code,
            added: Added::Nothing,
            fixed: None,
        };
        entry(name, meaning)
    }

    /// Just the names that the writer needs, and a detail of each kind.
    pub fn lists() -> Lists {
        let bits = MODIFIER_BITS.map(|bit| entry(format!("Bit{bit}"), Modifier::Bit(bit)));
        let named = NAMED_MODIFIERS.map(|k| entry(format!("Long{k}"), Modifier::Named(k)));
        let mut types: Vec<_> = CODES
            .map(|code| plain(format!("Code{code}"), code))
            .collect();
        let protocol = types.len();
        types.push(plain("BtnMotion", 6));
        Lists {
            modifiers: bits.chain(named).collect(),
            types,
            protocol,
            details: [1, 2, 3, 4, 5].map(|value| vec![entry("Detail", value)]),
            directives: vec![entry("#one", ())],
        }
    }

    fn refused(lists: &Lists) -> String {
        Table::new(lists).err().expect("a refusal")
    }

    #[test]
    fn places() {
        let mut lists = lists();
        // A second name of a bit is not the writer's, though its group comes first.
        lists.modifiers.push(entry("B", Modifier::Bit(0)));
        let table = Table::new(&lists).unwrap();
        assert_eq!(table.starts, [0, 1, 2, 3, 4, 5, 6, 7, 8, 26, 60]);
        let names = table.names();
        assert_eq!(names.len(), 60);
        assert_eq!(names[4..10], ["Detail", "#one", "None", "Any", "B", "Bit0"]);
        assert_eq!(table.written.button_motion, 26);
        assert_eq!(table.written.bits[0], (9, "Bit0"));
        assert_eq!(table.written.longs[3], (25, "Long3"));
        let written = &table.written;
        for (place, name) in [&written.types, &written.bits, &written.longs]
            .into_iter()
            .flatten()
        {
            assert_eq!(names[*place], *name);
        }
    }

    #[test]
    fn names_that_the_writer_needs() {
        let mut without_bit = lists();
        without_bit.modifiers.remove(3);
        assert!(refused(&without_bit).ends_with("the writer needs a name for Bit(3)"));
        let mut without_code = lists();
        // A synonym is not the protocol's name.
        without_code.types[0].meaning.code = 3;
        without_code.types.push(plain("Synonym", 2));
        assert!(refused(&without_code).ends_with("the writer needs a name for the code 2"));
        let mut without_motion = lists();
        without_motion.types.pop();
        assert!(refused(&without_motion).ends_with("the writer needs a name for BtnMotion"));
    }

    #[test]
    fn at_most_255_places() {
        let mut lists = lists();
        for k in 59..255 {
            lists.types.push(plain(format!("T{k}"), 2));
        }
        assert!(Table::new(&lists).is_ok());
        lists.types.push(plain("T255", 2));
        assert_eq!(refused(&lists), "there are 256 names, and 255 is the most");
    }

    #[test]
    fn numbers_of_meanings() {
        assert_eq!(
            [Modifier::Bit(12), Modifier::Named(0)].map(Modifier::number),
            [12, 13]
        );
        let added = [
            Added::Modifier(12),
            Added::Nothing,
            Added::AnyButton,
            Added::Meta,
        ];
        assert_eq!(added.map(Added::number), [12, 13, 14, 15]);
    }
}
