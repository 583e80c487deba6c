//! The lists of names with their meanings, as the specs have them. An entry in a form that is not
//! known here is refused and never left out.

use std::ops::RangeInclusive;
use std::path::Path;

use crate::antt::Token::{self, Close, Open, Text, Word};
use crate::antt::{Item, Source};

/// A longer name does not fit the two numbers of a spelling.
const LONGEST_NAME: usize = 16;

pub const MODIFIER_BITS: RangeInclusive<u8> = 0..=12;
/// Meta, Alt, Hyper, Super.
pub const NAMED_MODIFIERS: RangeInclusive<u8> = 0..=3;
pub const CODES: RangeInclusive<u8> = 2..=34;
/// The buttons that an event type may fix. The rows have 0 where it fixes none.
const FIXED_DETAILS: RangeInclusive<u8> = 1..=255;

const TYPE_NAMES: &str = "protocol_entries ++ (synonym_entries ++ abbreviation_entries)";

/// What stands before modifiers and event types in the table.
const OTHER_NAMES: &str = "names_in keysym_entries ++ (names_in button_entries \
    ++ (names_in motion_entries ++ (names_in mode_entries ++ (names_in request_entries \
    ++ (names_in directive_entries ++ (bytes \"None\" ∷ bytes \"Any\" ∷ []))))))";

pub struct Entry<T> {
    pub name: String,
    /// Where the entry stands in its file.
    pub line: usize,
    pub meaning: T,
}

#[derive(Clone, Copy, Debug, PartialEq, Eq)]
pub enum Modifier {
    Bit(u8),
    Named(u8),
}

#[derive(Clone, Copy, Debug, PartialEq, Eq)]
pub enum Added {
    Nothing,
    Modifier(u8),
    AnyButton,
    Meta,
}

#[derive(Clone, Copy, Debug, PartialEq, Eq)]
pub struct EventType {
    pub code: u8,
    pub added: Added,
    pub fixed: Option<u8>,
}

pub struct Lists {
    pub modifiers: Vec<Entry<Modifier>>,
    /// The protocol's names, then synonyms and abbreviations.
    pub types: Vec<Entry<EventType>>,
    /// How many of the types are the protocol's.
    pub protocol: usize,
    /// Keysyms, buttons, motions, modes, requests.
    pub details: [Vec<Entry<u32>>; 5],
    pub directives: Vec<Entry<()>>,
}

impl Lists {
    pub fn read(root: &Path) -> Result<Lists, String> {
        let names = Source::read(root, "crates/model/specs/Names.antt")?;
        let details = Source::read(root, "crates/model/specs/Details.antt")?;
        let table = Source::read(root, "crates/names/specs/Table.antt")?;
        Lists::of(&names, &details, &table)
    }

    pub fn of(names: &Source, details: &Source, table: &Source) -> Result<Lists, String> {
        names.expect("type_entries", TYPE_NAMES)?;
        table.expect("other_names", OTHER_NAMES)?;
        let mut types = entries(names, "protocol_entries", event_type)?;
        let protocol = types.len();
        types.extend(entries(names, "synonym_entries", event_type)?);
        types.extend(entries(names, "abbreviation_entries", event_type)?);
        Ok(Lists {
            modifiers: kind(names, "modifier_entries", modifier)?,
            types: distinct(names, types)?,
            protocol,
            details: [
                kind(details, "keysym_entries", value)?,
                kind(details, "button_entries", value)?,
                kind(details, "motion_entries", value)?,
                kind(details, "mode_entries", value)?,
                kind(details, "request_entries", value)?,
            ],
            directives: kind(table, "directive_entries", directive)?,
        })
    }
}

/// Reads the name of an entry and what it stands for.
pub type Form<T> = for<'a> fn(&Item<'a>) -> Result<(&'a str, T), String>;

/// The entries of a kind that has one list.
pub fn kind<T>(source: &Source, list: &str, form: Form<T>) -> Result<Vec<Entry<T>>, String> {
    distinct(source, entries(source, list, form)?)
}

fn entries<T>(source: &Source, list: &str, form: Form<T>) -> Result<Vec<Entry<T>>, String> {
    let items = source.list(list)?;
    items.iter().map(|item| entry(item, form)).collect()
}

fn entry<T>(item: &Item, form: Form<T>) -> Result<Entry<T>, String> {
    let (name, meaning) = form(item)?;
    match fault(name) {
        Some(fault) => Err(item.refusal(format!("the name \"{name}\" {fault}"))),
        None => Ok(Entry {
            name: name.to_string(),
            line: item.line,
            meaning,
        }),
    }
}

/// Why a name cannot stand in the table.
fn fault(name: &str) -> Option<String> {
    if name.is_empty() {
        Some("is empty".to_string())
    } else if !name.bytes().all(|byte| byte.is_ascii_graphic()) {
        Some("has a byte outside of ASCII 33..126".to_string())
    } else if name.len() > LONGEST_NAME {
        Some(format!("is longer than {LONGEST_NAME} bytes"))
    } else {
        None
    }
}

/// Refuses a name that stands twice.
fn distinct<T>(source: &Source, entries: Vec<Entry<T>>) -> Result<Vec<Entry<T>>, String> {
    for (i, entry) in entries.iter().enumerate() {
        if let Some(earlier) = entries[..i].iter().find(|e| e.name == entry.name) {
            let what = format!("\"{}\" stands on line {} too", entry.name, earlier.line);
            return Err(source.refusal(entry.line, what));
        }
    }
    Ok(entries)
}

// ---- The forms of entries

fn modifier<'a>(item: &Item<'a>) -> Result<(&'a str, Modifier), String> {
    match item.tokens[..] {
        [Word("modifier"), Text(name), Open, Word("ModifierName.Bit"), Word(bit), Close] => {
            Ok((name, Modifier::Bit(within(MODIFIER_BITS, item, bit)?)))
        }
        [Word("modifier"), Text(name), Open, Word("ModifierName.Named"), Word(number), Close] => {
            Ok((
                name,
                Modifier::Named(within(NAMED_MODIFIERS, item, number)?),
            ))
        }
        _ => Err(unread(item)),
    }
}

fn event_type<'a>(item: &Item<'a>) -> Result<(&'a str, EventType), String> {
    let (name, code, added, fixed) = match item.tokens[..] {
        [Word("plain"), Text(name), Word(code)] => (name, code, Added::Nothing, None),
        [Word("event_type"), Text(name), Word(code), ref rest @ ..] => {
            let (added, rest) = added(item, rest)?;
            (name, code, added, fixed(item, rest)?)
        }
        _ => return Err(unread(item)),
    };
    let code = within(CODES, item, code)?;
    Ok((name, EventType { code, added, fixed }))
}

/// What an event type adds, and the tokens after that.
fn added<'t, 'a>(item: &Item, tokens: &'t [Token<'a>]) -> Result<(Added, &'t [Token<'a>]), String> {
    match tokens {
        [Word("Added.Nothing"), rest @ ..] => Ok((Added::Nothing, rest)),
        [Word("Added.AnyButton"), rest @ ..] => Ok((Added::AnyButton, rest)),
        [Word("Added.Meta"), rest @ ..] => Ok((Added::Meta, rest)),
        [Open, Word("Added.Modifier"), Word(bit), Close, rest @ ..] => {
            Ok((Added::Modifier(within(MODIFIER_BITS, item, bit)?), rest))
        }
        _ => Err(unread(item)),
    }
}

fn fixed(item: &Item, tokens: &[Token]) -> Result<Option<u8>, String> {
    match *tokens {
        [Word("Detail.Unspecified")] => Ok(None),
        [Open, Word("Detail.Value"), Word(detail), Close] => {
            Ok(Some(within(FIXED_DETAILS, item, detail)?))
        }
        _ => Err(unread(item)),
    }
}

pub fn value<'a>(item: &Item<'a>) -> Result<(&'a str, u32), String> {
    match item.tokens[..] {
        [Word("value"), Text(name), Word(number)] => Ok((name, item.number(number)?)),
        _ => Err(unread(item)),
    }
}

/// What a directive stands for is no row: its function is written by hand.
fn directive<'a>(item: &Item<'a>) -> Result<(&'a str, ()), String> {
    match item.tokens[..] {
        [Word("directive"), Text(name), Word(case)] if case.starts_with("Directive.") => {
            Ok((name, ()))
        }
        _ => Err(unread(item)),
    }
}

fn unread(item: &Item) -> String {
    item.refusal("an entry in a form that this program does not read")
}

fn within(range: RangeInclusive<u8>, item: &Item, word: &str) -> Result<u8, String> {
    let number = item.number(word)?;
    match u8::try_from(number) {
        Ok(small) if range.contains(&small) => Ok(small),
        _ => {
            let (least, most) = (range.start(), range.end());
            Err(item.refusal(format!("{number} is not in {least}..{most}")))
        }
    }
}

#[cfg(test)]
mod tests {
    use super::*;

    fn read<T>(list: &str, form: Form<T>) -> Result<Vec<(String, T)>, String> {
        let source = Source::of(&format!("seven = 7\nlist =\n    {list}\n    ∷ []\n"));
        let entries = kind(&source, "list", form)?;
        Ok(entries.into_iter().map(|e| (e.name, e.meaning)).collect())
    }

    fn refused<T>(list: &str, form: Form<T>) -> String {
        read(list, form).err().expect("a refusal")
    }

    fn named<T: Clone>(expected: &[(&str, T)]) -> Vec<(String, T)> {
        let owned = |(name, meaning): &(&str, T)| (name.to_string(), meaning.clone());
        expected.iter().map(owned).collect()
    }

    #[test]
    fn modifiers_read() {
        let list = "modifier \"Mod5\" (ModifierName.Bit seven)\n    \
            ∷ modifier \"a\" (ModifierName.Named 1)";
        let expected = [("Mod5", Modifier::Bit(7)), ("a", Modifier::Named(1))];
        assert_eq!(read(list, modifier), Ok(named(&expected)));
    }

    #[test]
    fn types_read() {
        let list =
            "plain \"Key\" 2 ∷ event_type \"Btn1Down\" 4 Added.Nothing (Detail.Value 1)\n    \
            ∷ event_type \"Ctrl\" 2 (Added.Modifier 2) Detail.Unspecified\n    \
            ∷ event_type \"BtnMotion\" 6 Added.AnyButton Detail.Unspecified\n    \
            ∷ event_type \"Meta\" 2 Added.Meta Detail.Unspecified";
        let of = |code, added, fixed| EventType { code, added, fixed };
        let expected = [
            ("Key", of(2, Added::Nothing, None)),
            ("Btn1Down", of(4, Added::Nothing, Some(1))),
            ("Ctrl", of(2, Added::Modifier(2), None)),
            ("BtnMotion", of(6, Added::AnyButton, None)),
            ("Meta", of(2, Added::Meta, None)),
        ];
        assert_eq!(read(list, event_type), Ok(named(&expected)));
    }

    #[test]
    fn values_and_directives_read() {
        let list = "value \"space\" 0x20 ∷ value \"Hint\" 1";
        assert_eq!(
            read(list, value),
            Ok(named(&[("space", 0x20), ("Hint", 1)]))
        );
        let list = "directive \"#augment\" Directive.Augment";
        assert_eq!(read(list, directive), Ok(named(&[("#augment", ())])));
    }

    #[test]
    fn other_forms_refused() {
        let what = "Test.antt:3: an entry in a form that this program does not read";
        for list in [
            "modifier \"Mod5\" ModifierName.Unknown",
            "modifier \"Mod5\" (ModifierName.Bit 7) 7",
            "modifier Mod5 (ModifierName.Bit 7)",
            "plain \"Key\" 2",
        ] {
            assert_eq!(refused(list, modifier), what, "{list}");
        }
        for list in [
            "",
            "plain \"Key\"",
            "plain \"Key\" 2 plain \"KeyUp\" 3",
            "event_type \"Key\" 2",
            "event_type \"Key\" 2 Added.Nothing",
            "event_type \"Key\" 2 Added.Meta (Detail.Value 1) 1",
            "event_type \"Key\" 2 Added.Modifier 2 Detail.Unspecified",
        ] {
            assert!(refused(list, event_type).ends_with(&what[12..]), "{list}");
        }
        assert_eq!(refused("value \"Tab\" (1)", value), what);
        assert_eq!(refused("directive \"#x\" Replace", directive), what);
    }

    #[test]
    fn an_entry_is_refused_with_its_line() {
        let list = "plain \"Key\" 2\n    ∷ plain \"KeyUp\" 3\n    -- note\n    ∷ plane \"Zap\" 12";
        assert!(refused(list, event_type).starts_with("Test.antt:6: an entry"));
        let list = "plain \"Key\" 2\n    ∷ ∷ plain \"KeyUp\" 3";
        assert!(refused(list, event_type).starts_with("Test.antt:4: an entry"));
    }

    #[test]
    fn numbers_out_of_range_refused() {
        let bit = "modifier \"x\" (ModifierName.Bit 13)";
        assert_eq!(refused(bit, modifier), "Test.antt:3: 13 is not in 0..12");
        let long = "modifier \"x\" (ModifierName.Named 4)";
        assert_eq!(refused(long, modifier), "Test.antt:3: 4 is not in 0..3");
        let code = "plain \"x\" 35";
        assert_eq!(refused(code, event_type), "Test.antt:3: 35 is not in 2..34");
        let none = "event_type \"x\" 4 Added.Nothing (Detail.Value 0)";
        assert_eq!(refused(none, event_type), "Test.antt:3: 0 is not in 1..255");
        let unknown = "plain \"x\" eight";
        assert!(refused(unknown, event_type).starts_with("Test.antt:3: `eight` is no number"));
    }

    #[test]
    fn names_refused() {
        let entry = |name: &str| format!("plain \"{name}\" 2");
        for (name, what) in [
            ("", "is empty"),
            ("Two Words", "has a byte outside of ASCII 33..126"),
            ("Käse", "has a byte outside of ASCII 33..126"),
            ("SeventeenLetters_", "is longer than 16 bytes"),
        ] {
            let expected = format!("Test.antt:3: the name \"{name}\" {what}");
            assert_eq!(refused(&entry(name), event_type), expected);
        }
        assert!(read(&entry("SixteenLetters__"), event_type).is_ok());
        assert!(read(&entry("!~"), event_type).is_ok());
    }

    #[test]
    fn equal_names_refused() {
        let list = "plain \"Key\" 2\n    ∷ plain \"key\" 2\n    ∷ plain \"Key\" 3";
        assert_eq!(
            refused(list, event_type),
            "Test.antt:5: \"Key\" stands on line 3 too"
        );
    }
}
