//! Damaged tables and states.

use crate::matching::Keys;
use crate::tables::{Compared, Comparison, Given, LentTexts};
use glykorant_reference::calls::Texts;
use glykorant_reference::generate::events;
use glykorant_reference::layout::sections::*;
use glykorant_reference::layout::{Section, Used, STATE_BYTES, TABLE_BYTES};
use glykorant_reference::names::{BUTTON_PRESS, BUTTON_RELEASE, ENTER_NOTIFY, MOTION_NOTIFY};
use glykorant_reference::Table;

/// Values at the ends of ranges.
const EDGES: [u16; 20] = [
    0, 1, 2, 3, 4, 5, 6, 7, 8, 9, 10, 24, 25, 34, 35, 64, 255, 8191, 8192, 0xFFFF,
];

/// Keysym slots at the ends of their range: unused, without a mark, with one, both, or more.
const SLOT_VALUES: [u32; 12] = [
    0,
    1,
    0x1FFF_FFFF,
    0x2000_0000,
    0x2000_0001,
    0x2000_0061,
    0x3FFF_FFFF,
    0x4000_0061,
    0x6000_0000,
    0x7FFF_FFFF,
    0x8000_0000,
    0xFFFF_FFFF,
];

/// Bytes at the ends of the ranges of an event's code, keycode and state.
const SLOT_EDGES: [u8; 10] = [0, 1, 2, 3, 7, 8, 31, 32, 34, 35];

impl Comparison {
    /// Damages a copy of an accepted table, and compares all that reads it.
    pub fn damaged_table(&mut self, given: &Given, texts: Texts) -> Compared<()> {
        let Ok(table) = &given.table else {
            return Ok(());
        };
        let mut bytes = given.lent.bytes().to_vec();
        self.damage_table(&mut bytes, &Used::of(table));
        if bytes == given.lent.bytes() {
            return Ok(());
        }
        let damaged = Given::new(&mut self.random, &bytes);
        self.counts.damaged_tables += 1;
        self.counts.whole_damaged_tables += u64::from(damaged.table.is_ok());
        let lent = LentTexts::new(&mut self.random, texts);
        self.read(&damaged, &lent)?;
        match self.random.percent(50) {
            true => self.merge(&damaged, given)?,
            false => self.merge(given, &damaged)?,
        };
        let played = damaged.table.as_ref().unwrap_or(table);
        self.match_some(&damaged, played)
    }

    /// A few calls with a table, from a fresh state on.
    fn match_some(&mut self, given: &Given, played: &Table) -> Compared<()> {
        let mut list = events::list(&mut self.random, played);
        if self.random.percent(4) {
            events::spoil_modifier_map(&mut self.random, &mut list.modifier_map);
        }
        let keys = Keys::new(self, &list);
        let mut running = self.fresh(given, &keys)?;
        let length = if given.table.is_ok() { 8 } else { 1 };
        for call in list.calls.iter().take(length) {
            self.call(given, &keys, &mut running, call)?;
        }
        self.count_runs(&running);
        Ok(())
    }

    /// Changes a few words or bytes, mostly used ones, so that some tables stay whole.
    fn damage_table(&mut self, bytes: &mut [u8], used: &Used) {
        for _ in 0..self.random.range(1, 2) {
            match self.random.below(10) {
                0 => self.flip(&mut bytes[..TABLE_BYTES]),
                1..=2 => {
                    let at = self.random.below(HEADER.words);
                    self.change_word(bytes, at);
                }
                3 => self.change_flags(bytes, used),
                4 => self.change_slot(bytes, used),
                _ => {
                    let at = self.used_word(used);
                    self.change_word(bytes, at);
                }
            }
        }
    }

    /// A used word of some section, or the first unused one.
    fn used_word(&mut self, used: &Used) -> usize {
        let (sections, count): (&[Section], usize) = match self.random.below(10) {
            0 => (&OF_PRODUCTIONS, used.productions),
            1..=4 => (&OF_EVENTS, used.events),
            5 => (&OF_SLOTS, used.events),
            6..=7 => (&OF_CALLS, used.calls),
            _ => (&OF_PARAMETERS, used.parameters),
        };
        let section = *self.random.pick(sections);
        let past = usize::from(self.random.percent(5));
        let at = self.random.below((count + past).clamp(1, section.words));
        section.first + at
    }

    /// Turns a bit over of an event's flags.
    fn change_flags(&mut self, bytes: &mut [u8], used: &Used) {
        let at = FLAGS.first + self.random.below(used.events.max(1));
        let bit = self.random.below(16);
        bytes[2 * at + bit / 8] ^= 1 << (bit % 8);
    }

    /// Changes a keysym slot of an event: the first unused one, or any. It becomes a number at
    /// some end of the range, one near the slot before, or the one before itself.
    fn change_slot(&mut self, bytes: &mut [u8], used: &Used) {
        let event = self.random.below(used.events.max(1));
        let slots = SLOTS.map(|sections| slot(bytes, sections, event));
        let unused = slots.iter().position(|&slot| slot == 0);
        let which = match unused {
            Some(which) if self.random.percent(60) => which,
            _ => self.random.below(slots.len()),
        };
        let before = slots[which.saturating_sub(1)];
        let value = match self.random.below(8) {
            0..=2 => *self.random.pick(&SLOT_VALUES),
            3..=4 => before.wrapping_add(1),
            5 => before ^ 1 << self.random.range(29, 31),
            6 => before,
            _ => (self.random.card32() & 0x1FFF_FFFF) + 0x2000_0000,
        };
        for (section, value) in SLOTS[which].into_iter().zip([value, value >> 16]) {
            let at = 2 * (section.first + event);
            bytes[at..at + 2].copy_from_slice(&(value as u16).to_le_bytes());
        }
    }

    fn change_word(&mut self, bytes: &mut [u8], word: usize) {
        let place = &mut bytes[2 * word..2 * word + 2];
        let value = u16::from_le_bytes([place[0], place[1]]);
        let changed = match self.random.below(8) {
            0..=1 => value ^ 1 << self.random.below(4),
            2 => value ^ 1 << self.random.below(16),
            3..=4 => value.wrapping_add(1),
            5 => value.wrapping_sub(1),
            6 => *self.random.pick(&EDGES),
            _ => self.random.card16(),
        };
        place.copy_from_slice(&changed.to_le_bytes());
    }

    fn flip(&mut self, bytes: &mut [u8]) {
        let at = self.random.below(bytes.len());
        bytes[at] ^= self.random.range(1, 255) as u8;
    }

    /// Changes a few bytes of a state's, mostly used ones.
    pub fn damage_state(&mut self, bytes: &mut [u8]) {
        for _ in 0..self.random.range(1, 2) {
            let kept = usize::from(bytes[0]);
            match self.random.below(16) {
                0..=1 => {
                    let word = self.random.below(4);
                    self.change_word(bytes, word);
                }
                2 => self.flip(&mut bytes[..STATE_BYTES]),
                // One event fewer or more, with all that goes with it.
                3 if (1..25).contains(&kept) => forget_last(bytes, kept),
                4 if (1..24).contains(&kept) => repeat_last(bytes, kept),
                5..=6 if (1..25).contains(&kept) => {
                    // A byte of an event's code, detail or state.
                    let at = 8 + 8 * self.random.below(kept) + self.random.below(4);
                    bytes[at] = *self.random.pick(&SLOT_EDGES);
                }
                7..=10 if (1..25).contains(&kept) => self.damage_open(bytes, kept),
                _ => self.flip(&mut bytes[..(8 + 8 * kept).min(STATE_BYTES)]),
            }
        }
    }

    /// Changes whether a context is open, or what that asks of the rest.
    fn damage_open(&mut self, bytes: &mut [u8], kept: usize) {
        match self.random.below(8) {
            // No context is open, and all that goes with it.
            0..=2 => {
                bytes[2] = 0;
                bytes[4] = 0;
                bytes[8 * kept] = MOTION_NOTIFY;
            }
            // All that goes with it but one thing: what is selected, the last event.
            3 => {
                bytes[2] = self.random.range(1, kept) as u8;
                bytes[4] = 0;
                bytes[8 * kept] = MOTION_NOTIFY;
            }
            4 => {
                bytes[2] = 0;
                bytes[4] = 0;
                bytes[8 * kept] = *self
                    .random
                    .pick(&[BUTTON_PRESS, BUTTON_RELEASE, ENTER_NOTIFY]);
            }
            5..=6 => bytes[4] ^= 1,
            _ => bytes[2] = self.random.below(kept + 1) as u8,
        }
    }
}

/// The number in a slot of an event.
fn slot(bytes: &[u8], [low, high]: [Section; 2], event: usize) -> u32 {
    let word = |section: Section| {
        let at = 2 * (section.first + event);
        u32::from(u16::from_le_bytes([bytes[at], bytes[at + 1]]))
    };
    word(low) + (word(high) << 16)
}

fn forget_last(bytes: &mut [u8], kept: usize) {
    bytes[8 * kept..8 + 8 * kept].fill(0);
    bytes[0] -= 1;
    bytes[2] = bytes[2].min(bytes[0]);
    bytes[4] = bytes[4].min(bytes[0]);
}

fn repeat_last(bytes: &mut [u8], kept: usize) {
    bytes.copy_within(8 * kept..8 + 8 * kept, 8 + 8 * kept);
    bytes[0] += 1;
}
