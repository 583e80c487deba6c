//! Details (01, "The text", "Details"; 02, R-4).

use crate::keysyms;
use crate::names::{self, EventType};
use crate::numbers::Number;

pub const LARGEST_KEYSYM: u32 = 0x1FFF_FFFF;
pub const LARGEST_NUMBER: u32 = 255;

/// A detail that is not refused with 5.
#[derive(Clone, Copy, Debug, PartialEq, Eq)]
pub enum Detail {
    Absent,
    Value(u32),
    /// Refused with 6.
    TooLarge,
    /// An atom, refused with 10.
    NotBuilt,
}

impl Detail {
    pub fn value(self) -> Option<u32> {
        match self {
            Detail::Value(value) => Some(value),
            _ => None,
        }
    }
}

const BUTTONS: &[(&str, u32)] = &[
    ("Button1", 1),
    ("Button2", 2),
    ("Button3", 3),
    ("Button4", 4),
    ("Button5", 5),
];

/// The details of a motion that have names.
pub const NORMAL: u32 = 0;
pub const HINT: u32 = 1;

const MOTIONS: &[(&str, u32)] = &[("Normal", NORMAL), ("Hint", HINT)];

const MODES: &[(&str, u32)] = &[
    ("Normal", 0),
    ("Grab", 1),
    ("Ungrab", 2),
    ("WhileGrabbed", 3),
];

const MAPPINGS: &[(&str, u32)] = &[("Modifier", 0), ("Keyboard", 1), ("Pointer", 2)];

/// The details an event type takes.
#[derive(Clone, Copy, Debug, PartialEq, Eq)]
pub enum Taken {
    Keysym,
    /// Names only.
    Names(&'static [(&'static str, u32)]),
    /// Names and decimal 0..255.
    NamesAndNumbers(&'static [(&'static str, u32)]),
    Atom,
    Nothing,
}

pub fn taken(code: u8) -> Taken {
    match code {
        names::KEY_PRESS | names::KEY_RELEASE => Taken::Keysym,
        names::BUTTON_PRESS | names::BUTTON_RELEASE => Taken::Names(BUTTONS),
        names::MOTION_NOTIFY => Taken::NamesAndNumbers(MOTIONS),
        names::ENTER_NOTIFY..=names::FOCUS_OUT => Taken::NamesAndNumbers(MODES),
        names::MAPPING_NOTIFY => Taken::NamesAndNumbers(MAPPINGS),
        names::PROPERTY_NOTIFY..=names::SELECTION_NOTIFY | names::CLIENT_MESSAGE => Taken::Atom,
        _ => Taken::Nothing,
    }
}

/// Reads a written detail, or refuses it with 5: an unknown name, a malformed number, or a
/// detail where none is taken.
pub fn read(event_type: &EventType, written: Option<&[u8]>) -> Result<Detail, Number> {
    let Some(written) = written else {
        return Ok(event_type.detail.map_or(Detail::Absent, Detail::Value));
    };
    if event_type.detail.is_some() {
        return Err(Number::UnknownName);
    }
    let read = match taken(event_type.code) {
        Taken::Keysym => keysym(written),
        Taken::Names(known) => named(known, written),
        Taken::NamesAndNumbers(known) => named(known, written).or_else(|| decimal(written)),
        Taken::Atom => Some(Detail::NotBuilt),
        Taken::Nothing => None,
    };
    read.ok_or(Number::UnknownName)
}

/// A key's detail, or the run after `@`, which "is read as a key detail is" (02, R-1).
pub fn keysym(written: &[u8]) -> Option<Detail> {
    match written {
        [character] => Some(Detail::Value(u32::from(*character))),
        [b'0', b'x' | b'X', digits @ ..] => number(digits, 16, LARGEST_KEYSYM),
        [b'0', digits @ ..] => number(digits, 8, LARGEST_KEYSYM),
        [b'1'..=b'9', ..] => number(written, 10, LARGEST_KEYSYM),
        _ => keysyms::named(written).map(Detail::Value),
    }
}

fn named(known: &[(&str, u32)], written: &[u8]) -> Option<Detail> {
    known
        .iter()
        .find(|(name, _)| name.as_bytes() == written)
        .map(|&(_, value)| Detail::Value(value))
}

/// A decimal number without a leading zero.
fn decimal(written: &[u8]) -> Option<Detail> {
    match written {
        [b'0', _, ..] => None,
        _ => number(written, 10, LARGEST_NUMBER),
    }
}

/// None for a malformed number, of whatever size.
fn number(digits: &[u8], radix: u32, largest: u32) -> Option<Detail> {
    if digits.is_empty() {
        return None;
    }
    let mut value = 0u64;
    for &byte in digits {
        let digit = char::from(byte).to_digit(radix)?;
        // Once too large it stays so.
        value = (value * u64::from(radix) + u64::from(digit)).min(u64::from(largest) + 1);
    }
    match u32::try_from(value) {
        Ok(value) if value <= largest => Some(Detail::Value(value)),
        _ => Some(Detail::TooLarge),
    }
}

/// A value as the writer gives it. A table's bytes can hold values that no text gives, of which
/// 01 says nothing; there this follows the definitions (crates/model/specs/Canonical.antt): a
/// detail of a type that takes none reads as mapping's.
pub fn canonical(code: u8, value: u32) -> String {
    let known = match taken(code) {
        Taken::Keysym => return canonical_keysym(value),
        Taken::Names(known) | Taken::NamesAndNumbers(known) => known,
        Taken::Atom | Taken::Nothing => MAPPINGS,
    };
    match known.iter().find(|&&(_, named)| named == value) {
        Some((name, _)) => name.to_string(),
        None => value.to_string(),
    }
}

/// "For a key detail the writer gives the name where there is one .. and hexadecimal otherwise."
fn canonical_keysym(value: u32) -> String {
    match keysyms::first_name(value) {
        Some(name) => name.to_string(),
        None => format!("{value:#x}"),
    }
}
