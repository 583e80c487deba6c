//! The limits (01, "What is built"; 02, R-1).

use crate::counts;
use crate::table::{EventSpec, Production};

pub const TEXT_BYTES: usize = 8192;
pub const PRODUCTIONS: usize = 64;
pub const EVENTS_IN_PRODUCTION: usize = 24;
pub const EVENTS: usize = 256;
pub const CALLS_IN_PRODUCTION: usize = 8;
pub const CALLS: usize = 128;
pub const PARAMETERS_IN_CALL: usize = 8;
pub const PARAMETERS: usize = 256;
/// "Over four different keysyms in an event is 11."
pub const KEYSYMS_IN_EVENT: usize = 4;

/// Whether the productions pass a limit (number 11).
pub fn passed(productions: &[Production]) -> bool {
    productions.len() > PRODUCTIONS
        || productions.iter().any(production_passes)
        || total(productions, events) > EVENTS
        || total(productions, calls) > CALLS
        || total(productions, parameters) > PARAMETERS
}

fn production_passes(production: &Production) -> bool {
    events(production) > EVENTS_IN_PRODUCTION
        || production.events.iter().any(event_passes)
        || calls(production) > CALLS_IN_PRODUCTION
        || production
            .calls
            .iter()
            .any(|call| call.parameters.len() > PARAMETERS_IN_CALL)
}

fn event_passes(spec: &EventSpec) -> bool {
    spec.test.keysyms().len() > KEYSYMS_IN_EVENT
}

/// The number of all productions' items of one kind.
pub fn total(productions: &[Production], of_one: fn(&Production) -> usize) -> usize {
    productions.iter().map(of_one).sum()
}

/// Events after expansion.
pub fn events(production: &Production) -> usize {
    production.events.iter().map(counts::expanded_length).sum()
}

pub fn calls(production: &Production) -> usize {
    production.calls.len()
}

pub fn parameters(production: &Production) -> usize {
    production
        .calls
        .iter()
        .map(|call| call.parameters.len())
        .sum()
}
