//! Modifier tests (01, "Modifier tests"; 02, R-1).

use crate::details;
use crate::names::{self, Adds, Modifier, Name};
use crate::numbers::Number;
use crate::text::{ModifierList, ModifierName};

pub const SHIFT: u16 = 1;
pub const LOCK: u16 = 1 << 1;
pub const CTRL: u16 = 1 << 2;
pub const MOD1: u16 = 1 << 3;
pub const MOD2: u16 = 1 << 4;
pub const MOD3: u16 = 1 << 5;
pub const MOD4: u16 = 1 << 6;
pub const MOD5: u16 = 1 << 7;
pub const BUTTON1: u16 = 1 << 8;
pub const BUTTON2: u16 = 1 << 9;
pub const BUTTON3: u16 = 1 << 10;
pub const BUTTON4: u16 = 1 << 11;
pub const BUTTON5: u16 = 1 << 12;

pub const BUTTONS: u16 = BUTTON1 | BUTTON2 | BUTTON3 | BUTTON4 | BUTTON5;
/// The modifiers that a keyboard lookup applies.
pub const STANDARD: u16 = SHIFT | LOCK;
/// Bits 0..12.
pub const ALL: u16 = (1 << 13) - 1;

/// What a table keeps of an event's modifier list and of what its type's name adds.
#[derive(Clone, Debug, Default, PartialEq, Eq)]
pub struct ModifierTest {
    /// Bits asked set.
    pub set: u16,
    /// Bits asked clear. With a name these are only those listed with `~`.
    pub clear: u16,
    /// The state's Shift and Lock are applied to the keyboard lookup.
    pub colon: bool,
    /// The kept clause of `<BtnMotion>`: at least one button.
    pub clause: bool,
    /// "An event with such a name keeps `!`." Without a name, what `!` asks is in `clear`.
    pub exclamation: bool,
    /// The names in the writer's order, each form once.
    pub names: Vec<ListedName>,
}

/// A name as it is listed. "Of one name the set form first": so is the order here.
#[derive(Clone, Copy, Debug, PartialEq, Eq, PartialOrd, Ord)]
pub struct ListedName {
    pub name: Name,
    /// Listed with `~`.
    pub negated: bool,
}

/// The bits that an event's names mean.
#[derive(Clone, Copy, Debug, Default, PartialEq, Eq)]
pub struct Named {
    /// Of the names listed without `~`.
    pub set: u16,
    /// Of the names listed with `~`.
    pub clear: u16,
    /// A name listed without `~` has no bit.
    pub missing: bool,
}

/// What is asked of a modifier state.
#[derive(Clone, Copy, Debug, Default, PartialEq, Eq)]
pub struct Asked {
    pub set: u16,
    pub clear: u16,
    pub clause: bool,
    /// "A name with no bit, listed without `~`, makes its event match nothing."
    pub never: bool,
}

impl Asked {
    pub fn holds(&self, state: u16) -> bool {
        !self.never
            && state & self.set == self.set
            && state & self.clear == 0
            && (!self.clause || state & BUTTONS != 0)
    }

    /// Whether some state meets the test. One that does can lose every bit not asked set,
    /// except one button for the clause.
    pub fn can_hold(&self) -> bool {
        [0, BUTTON1, BUTTON2, BUTTON3, BUTTON4, BUTTON5]
            .iter()
            .any(|button| self.holds(self.set | button))
    }

    pub fn cared_for(&self) -> u16 {
        self.set | self.clear
    }
}

impl ModifierTest {
    /// What is kept of a list and of an event type's name.
    pub fn new(list: &Listed, adds: Adds) -> ModifierTest {
        let asked = list.asked(adds);
        let mut names = list.names.clone();
        if let Adds::Name(name) = adds {
            let negated = false;
            names.push(ListedName { name, negated });
        }
        names.sort();
        names.dedup();
        // "An event with such a name keeps `!` and its plain names, clear ones too, as written."
        let (clear, exclamation) = match names.is_empty() {
            true => (asked.clear, false),
            false => (list.clear, list.exact),
        };
        ModifierTest {
            set: asked.set,
            clear,
            colon: list.colon,
            clause: asked.clause,
            exclamation,
            names,
        }
    }

    /// What is asked where the names mean these bits.
    pub fn asked(&self, named: Named) -> Asked {
        let testable = testable(self.colon);
        // "With `!`, the bits of a listed name count as listed."
        let listed = self.set | self.clear | named.set | named.clear;
        let unlisted = match self.exclamation {
            true => testable & !listed,
            false => 0,
        };
        // "Beside a colon a resolved Shift or Lock isn't tested."
        Asked {
            set: self.set | named.set & testable,
            clear: self.clear | named.clear & testable | unlisted,
            clause: self.clause,
            never: named.missing,
        }
    }

    pub fn has_names(&self) -> bool {
        !self.names.is_empty()
    }

    /// The different keysyms after `@`, rising.
    pub fn keysyms(&self) -> Vec<u32> {
        let keysym = |listed: &ListedName| match listed.name {
            Name::Keysym(keysym) => Some(keysym),
            _ => None,
        };
        let mut keysyms: Vec<u32> = self.names.iter().filter_map(keysym).collect();
        keysyms.dedup();
        keysyms
    }

    /// Whether every testable bit is asked set or clear by plain names.
    pub fn is_exact(&self) -> bool {
        testable(self.colon) & !(self.set | self.clear) == 0
    }
}

/// "With a colon, Shift and Lock are not tested."
pub fn testable(colon: bool) -> u16 {
    match colon {
        true => ALL & !STANDARD,
        false => ALL,
    }
}

/// A modifier list with its names looked up.
#[derive(Clone, Debug, Default, PartialEq, Eq)]
pub struct Listed {
    pub written: bool,
    /// `!` or `None`: every unlisted bit is asked clear.
    pub exact: bool,
    pub colon: bool,
    pub set: u16,
    pub clear: u16,
    pub names: Vec<ListedName>,
    /// A keysym after `@` is too large (6).
    pub too_large: bool,
}

impl Listed {
    /// Refuses an unknown name, and a run after `@` that is no keysym (5).
    pub fn look_up(list: &ModifierList) -> Result<Listed, Number> {
        let mut listed = Listed {
            written: list.is_written(),
            exact: list.exclamation || list.none,
            colon: list.colon,
            ..Listed::default()
        };
        for written in &list.modifiers {
            let negated = written.negated;
            match modifier(written.name).ok_or(Number::UnknownName)? {
                Some(Modifier::Bit(bit)) if negated => listed.clear |= bit,
                Some(Modifier::Bit(bit)) => listed.set |= bit,
                Some(Modifier::Name(name)) => listed.names.push(ListedName { name, negated }),
                None => listed.too_large = true,
            }
        }
        Ok(listed)
    }

    pub fn lists(&self, bits: u16) -> bool {
        (self.set | self.clear) & bits != 0
    }

    /// What the list and an event type's name ask for, with the names left out.
    pub fn asked(&self, adds: Adds) -> Asked {
        let added = match adds {
            Adds::Bit(bit) => bit,
            _ => 0,
        };
        let set = self.set | added;
        // An added modifier is not a listed one, so `!` asks it clear as well.
        let unlisted = match self.exact {
            true => testable(self.colon) & !(self.set | self.clear),
            false => 0,
        };
        Asked {
            set,
            clear: self.clear | unlisted,
            clause: adds == Adds::AnyButton && set & BUTTONS == 0,
            never: false,
        }
    }
}

/// What a written name stands for, if it is known. A keysym after `@` that is too large stands
/// for none.
fn modifier(name: ModifierName) -> Option<Option<Modifier>> {
    match name {
        ModifierName::Plain(name) => names::modifier(name).map(Some),
        ModifierName::Keysym(run) => {
            let keysym = details::keysym(run)?.value();
            Some(keysym.map(|keysym| Modifier::Name(Name::Keysym(keysym))))
        }
    }
}
