//! The list of Latin-1 names of keysyms, which is a table in byte order, and the first name of each
//! keysym in it.

use std::ops::RangeInclusive;
use std::path::Path;

use crate::antt::{Item, Source};
use crate::lists::{self, Entry};

/// The keysyms of which each has a name.
const KEYSYMS: [RangeInclusive<u8>; 2] = [0x20..=0x7e, 0xa0..=0xff];

pub struct Latin1 {
    pub entries: Vec<Entry<u8>>,
    /// The place of the first name of each of the keysyms.
    pub firsts: Vec<usize>,
}

impl Latin1 {
    pub fn read(root: &Path) -> Result<Latin1, String> {
        Latin1::of(&Source::read(root, "crates/model/specs/Latin1.antt")?)
    }

    fn of(source: &Source) -> Result<Latin1, String> {
        let entries = lists::kind(source, "latin1_entries", named_keysym)?;
        in_byte_order(source, &entries)?;
        let (start, _) = source.definition("latin1_entries")?;
        let first = |keysym: u8| {
            let place = entries.iter().position(|entry| entry.meaning == keysym);
            place.ok_or_else(|| source.refusal(start, format!("{keysym:#x} has no name")))
        };
        let keysyms = KEYSYMS.into_iter().flatten();
        let firsts = keysyms.map(first).collect::<Result<_, _>>()?;
        Ok(Latin1 { entries, firsts })
    }

    /// Where each name begins among the bytes of all, and where the last one ends.
    pub fn starts(&self) -> Vec<usize> {
        let mut starts = vec![0];
        let mut end = 0;
        for entry in &self.entries {
            end += entry.name.len();
            starts.push(end);
        }
        starts
    }
}

/// Refuses a name that does not stand after the one before it. A name that stands twice is refused
/// before.
fn in_byte_order(source: &Source, entries: &[Entry<u8>]) -> Result<(), String> {
    for (before, after) in entries.iter().zip(entries.iter().skip(1)) {
        if before.name > after.name {
            let what = format!("\"{}\" stands before \"{}\"", after.name, before.name);
            return Err(source.refusal(after.line, format!("in byte order {what}")));
        }
    }
    Ok(())
}

fn named_keysym<'a>(item: &Item<'a>) -> Result<(&'a str, u8), String> {
    let (name, value) = lists::value(item)?;
    match u8::try_from(value) {
        Ok(keysym) if KEYSYMS.iter().any(|range| range.contains(&keysym)) => Ok((name, keysym)),
        _ => Err(item.refusal(format!("{value:#x} is not in 0x20..0x7e or 0xa0..0xff"))),
    }
}

#[cfg(test)]
pub mod tests {
    use super::*;

    /// A name for each keysym, in byte order.
    fn entries() -> Vec<String> {
        let keysyms = KEYSYMS.into_iter().flatten();
        keysyms
            .map(|keysym| format!("value \"n{keysym:02x}\" {keysym:#x}"))
            .collect()
    }

    fn list(entries: &[String]) -> Source {
        Source::of(&format!(
            "latin1_entries =\n    {}\n    ∷ []\n",
            entries.join("\n    ∷ ")
        ))
    }

    /// A name for each keysym, and a second one for two of them.
    pub fn latin1() -> Latin1 {
        let mut entries = entries();
        entries.insert(0, "value \"Capital\" 0xe9".to_string());
        entries.push("value \"other\" 0x20".to_string());
        Latin1::of(&list(&entries)).unwrap()
    }

    fn refused(entries: &[String]) -> String {
        Latin1::of(&list(entries)).err().expect("a refusal")
    }

    #[test]
    fn first_names() {
        let latin1 = latin1();
        assert_eq!((latin1.entries.len(), latin1.firsts.len()), (193, 191));
        // The place of 0x20 is that of its first name, and that of 0xe9 of its other one.
        assert_eq!(latin1.firsts[..2], [1, 2]);
        assert_eq!(latin1.firsts[95 + 0xe9 - 0xa0], 0);
        assert_eq!(latin1.firsts[190], 191);
    }

    #[test]
    fn starts_of_names() {
        let starts = latin1().starts();
        assert_eq!(starts[..3], [0, 7, 10]);
        assert_eq!(starts[192..], [7 + 191 * 3, 7 + 191 * 3 + 5]);
    }

    #[test]
    fn names_out_of_order_refused() {
        let mut swapped = entries();
        swapped.swap(1, 2);
        assert_eq!(
            refused(&swapped),
            "Test.antt:4: in byte order \"n21\" stands before \"n22\""
        );
        let mut twice = entries();
        twice[1] = twice[0].clone();
        assert_eq!(refused(&twice), "Test.antt:3: \"n20\" stands on line 2 too");
    }

    #[test]
    fn keysyms_refused() {
        for value in ["0x1f", "0x7f", "0x9f", "0x100"] {
            let mut entries = entries();
            entries.push(format!("value \"other\" {value}"));
            let what = format!("{value} is not in 0x20..0x7e or 0xa0..0xff");
            assert!(refused(&entries).ends_with(&what));
        }
        let mut fewer = entries();
        fewer.remove(7);
        assert_eq!(refused(&fewer), "Test.antt:1: 0x27 has no name");
    }
}
