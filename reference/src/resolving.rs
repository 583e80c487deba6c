//! What names mean under the maps in use (02, R-1).

use crate::keyboard::{lent_pair, FIRST_KEYCODE, MAP_LENGTH};
use crate::modifiers::{Asked, ModifierTest, Named};
use crate::names::Name;
use crate::numbers::Number;

/// The rows of a modifier map, for the bits 0..7 in their order.
pub const ROWS: usize = 8;
pub const MOST_KEYCODES_IN_ROW: usize = 8;
/// An entry of a row that is no keycode.
pub const UNUSED: u8 = 0;

/// The maps that a matcher call is lent.
#[derive(Clone, Copy, Debug)]
pub struct Maps<'a> {
    /// Two keysyms for each keycode 8..255.
    pub keyboard: &'a [u32],
    /// "The modifier map of the protocol's GetModifierMapping reply: eight rows of equal length,
    /// 1 to 8 keycodes, 0 unused."
    pub modifiers: &'a [u8],
}

impl Maps<'_> {
    /// 1 for a keyboard map that is not 496 numbers; "18 for a modifier map of another length or
    /// with an entry 1..7, after 1".
    pub fn check(&self) -> Result<(), Number> {
        if self.keyboard.len() != MAP_LENGTH {
            return Err(Number::ShortBuffer);
        }
        let mut lengths = (1..=MOST_KEYCODES_IN_ROW).map(|in_row| ROWS * in_row);
        let has_rows = lengths.any(|length| length == self.modifiers.len());
        let mut entries = self.modifiers.iter();
        match has_rows && entries.all(|&entry| entry == UNUSED || entry >= FIRST_KEYCODE) {
            true => Ok(()),
            false => Err(Number::BadModifierMap),
        }
    }

    /// "Every modifier bit with a keycode in its row whose pair as lent holds the named keysym
    /// (left or right)", under maps that are not refused.
    pub fn bits(&self, name: Name) -> u16 {
        let rows = self.modifiers.chunks(self.modifiers.len() / ROWS);
        rows.enumerate()
            .filter(|(_, row)| row.iter().any(|&entry| self.holds(entry, name)))
            .fold(0, |bits, (at, _)| bits | 1 << at)
    }

    /// Whether an entry of a row is a keycode whose pair holds a keysym of the name.
    fn holds(&self, entry: u8, name: Name) -> bool {
        if entry == UNUSED {
            return false;
        }
        let pair = lent_pair(self.keyboard, entry);
        name.keysyms().iter().any(|keysym| pair.contains(keysym))
    }

    /// What the names of a test mean.
    pub fn named(&self, test: &ModifierTest) -> Named {
        let mut named = Named::default();
        for listed in &test.names {
            let bits = self.bits(listed.name);
            match listed.negated {
                true => named.clear |= bits,
                false => {
                    named.set |= bits;
                    named.missing |= bits == 0;
                }
            }
        }
        named
    }

    /// What a test asks of an event's state.
    pub fn asked(&self, test: &ModifierTest) -> Asked {
        test.asked(self.named(test))
    }
}
