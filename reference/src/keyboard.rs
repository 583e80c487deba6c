//! Keyboard lookup (01, "Modifier tests").

use crate::modifiers::{LOCK, SHIFT, STANDARD};

pub const FIRST_KEYCODE: u8 = 8;
/// 248 pairs of keysyms, for the keycodes 8..255.
pub const MAP_LENGTH: usize = 496;

/// The pair of a keycode, 8 or more, as lent.
pub fn lent_pair(map: &[u32], keycode: u8) -> [u32; 2] {
    let at = 2 * usize::from(keycode - FIRST_KEYCODE);
    [map[at], map[at + 1]]
}

/// The keysym that a keycode, 8 or more, gives with the Shift and Lock of a state.
pub fn keysym(map: &[u32], keycode: u8, state: u16) -> u32 {
    let (unshifted, shifted) = pair(lent_pair(map, keycode));
    let picked = match state & SHIFT {
        0 => unshifted,
        _ => shifted,
    };
    match state & LOCK {
        0 => picked,
        _ => upper(picked),
    }
}

/// "If the second keysym is 0, a Latin-1 letter becomes its lower and upper pair; any other
/// is doubled."
fn pair([first, second]: [u32; 2]) -> (u32, u32) {
    match second {
        0 => (lower(first), upper(first)),
        _ => (first, second),
    }
}

/// 0x20 between the cases of a pair.
const CASE_DISTANCE: u32 = 0x20;

fn is_lower(keysym: u32) -> bool {
    matches!(keysym, 0x61..=0x7A | 0xE0..=0xF6 | 0xF8..=0xFE)
}

pub fn upper(keysym: u32) -> u32 {
    match is_lower(keysym) {
        true => keysym - CASE_DISTANCE,
        false => keysym,
    }
}

pub fn lower(keysym: u32) -> u32 {
    match is_lower(keysym.saturating_add(CASE_DISTANCE)) {
        true => keysym + CASE_DISTANCE,
        false => keysym,
    }
}

/// Whether a key event's keycode and state give the detail. With a colon the event's own
/// Shift and Lock are applied.
pub fn gives_with_colon(map: &[u32], keycode: u8, state: u16, detail: u32) -> bool {
    keysym(map, keycode, state) == detail
}

/// "Without one, the cared-for bits are kept and some setting of the uncared-for Shift and Lock
/// must give it."
pub fn gives(map: &[u32], keycode: u8, state: u16, cared_for: u16, detail: u32) -> bool {
    let uncared_for = STANDARD & !cared_for;
    [0, SHIFT, LOCK, SHIFT | LOCK].iter().any(|setting| {
        let tried = (state & !uncared_for) | (setting & uncared_for);
        keysym(map, keycode, tried) == detail
    })
}
