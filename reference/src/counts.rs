//! Counts and time (01, "Counts and time").

use crate::names;
use crate::numbers::Number;
use crate::table::{EventSpec, Table};
use crate::text::WrittenCount;

pub const LARGEST_COUNT: u8 = 9;

/// Reads a count, or refuses it with 6. No count reads as 1.
pub fn read(code: u8, written: Option<&WrittenCount>) -> Result<u8, Number> {
    let Some(written) = written else {
        return Ok(1);
    };
    match written.digits {
        [digit @ b'1'..=b'9'] if names::is_key_or_button(code) => Ok(digit - b'0'),
        _ => Err(Number::BadNumber),
    }
}

/// One event of an expanded production.
#[derive(Clone, Debug, PartialEq, Eq)]
pub struct Element {
    pub code: u8,
    pub spec: EventSpec,
    /// The place, in the same production, of the element that this one must come less than
    /// the multi-click time after.
    pub timed_from: Option<usize>,
}

/// The expanded events of each production.
pub fn sequences(table: &Table) -> Vec<Vec<Element>> {
    let productions = table.productions.iter();
    productions
        .map(|production| expand(&production.events))
        .collect()
}

fn expand(events: &[EventSpec]) -> Vec<Element> {
    let mut elements = Vec::new();
    for spec in events {
        let first = elements.len();
        for (at, code) in codes(spec).enumerate() {
            // Every second element is of one kind, so the one of that kind before is two back.
            let timed = code == spec.code && at >= 2;
            elements.push(Element {
                code,
                spec: spec.clone(),
                timed_from: timed.then(|| first + at - 2),
            });
        }
    }
    elements
}

/// "A press counted n is press, then n-1 times release, press. A release counted n is n times
/// press, release." A release counted 1 reads as no count.
pub fn expanded_length(spec: &EventSpec) -> usize {
    let count = usize::from(spec.count);
    match spec.code {
        _ if count == 1 => 1,
        names::KEY_PRESS | names::BUTTON_PRESS => 2 * count - 1,
        _ => 2 * count,
    }
}

/// The types of an event's expansion. With a count, press and release alternate from a press on.
fn codes(spec: &EventSpec) -> impl Iterator<Item = u8> {
    let code = spec.code;
    let (press, release) = match (spec.count, code) {
        (1, _) => (code, code),
        (_, names::KEY_PRESS | names::BUTTON_PRESS) => (code, code + 1),
        _ => (code - 1, code),
    };
    (0..expanded_length(spec)).map(move |at| if at % 2 == 0 { press } else { release })
}

/// Whether a time is less than the multi-click time after an earlier one. "The difference of
/// the two times is taken modulo 4,294,967,296."
pub fn in_time(earlier: u32, later: u32, multi_click_time: u32) -> bool {
    later.wrapping_sub(earlier) < multi_click_time
}
