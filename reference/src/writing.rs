//! The canonical writer (01, "Merging and writing"; 001, "Canonical Representation"; 02, R-1 and R-4).

use crate::calls::{self, CallContents, ProductionContents, Texts};
use crate::details;
use crate::modifiers::ListedName;
use crate::names::{self, Modifier};
use crate::numbers::Number;
use crate::table::{EventSpec, Table};

/// The canonical text of a table. Checks 12.
pub fn write(table: &Table, texts: &Texts) -> Result<Vec<u8>, Number> {
    let productions = calls::contents(table, texts)?;
    Ok(productions.iter().flat_map(production).collect())
}

fn production(production: &ProductionContents) -> Vec<u8> {
    let events: Vec<String> = production.events.iter().map(event).collect();
    let calls: Vec<Vec<u8>> = production.calls.iter().map(call).collect();
    let mut line = events.join(",").into_bytes();
    line.push(b':');
    line.extend(calls.join(&b' '));
    line.push(b'\n');
    line
}

fn event(spec: &EventSpec) -> String {
    let list = modifier_list(spec);
    let type_name = match spec.test.clause {
        true => names::BTN_MOTION,
        false => names::canonical_event_type(spec.code),
    };
    let count = match spec.count {
        1 => String::new(),
        count => format!("({count})"),
    };
    let detail = spec
        .detail
        .map_or(String::new(), |value| details::canonical(spec.code, value));
    format!("{list}<{type_name}>{count}{detail}")
}

/// "On codes 2..8 alone `!` (or `!:`) wherever every testable bit is asked set or clear, then
/// only set bits listed." With a name, `!` and the plain names stand as they were written. No
/// text gives a list on another code or a kept `!` without a name, but a table's bytes can.
fn modifier_list(spec: &EventSpec) -> String {
    let test = &spec.test;
    let as_written = test.exclamation || test.has_names();
    let exact = !as_written && names::has_state(spec.code) && test.is_exact();
    let mut listed = Vec::new();
    for &(name, modifier) in &names::MODIFIERS[..names::CANONICAL_MODIFIERS] {
        match modifier {
            Modifier::Bit(bit) if test.set & bit != 0 => listed.push(name.to_string()),
            Modifier::Bit(bit) if test.clear & bit != 0 && !exact => {
                listed.push(format!("~{name}"));
            }
            _ => {}
        }
    }
    // "The writer puts the names after Button5."
    listed.extend(test.names.iter().map(listed_name));
    let exclamation = if exact || test.exclamation { "!" } else { "" };
    let colon = if test.colon { ":" } else { "" };
    format!("{exclamation}{colon}{}", listed.join(" "))
}

fn listed_name(listed: &ListedName) -> String {
    let tilde = if listed.negated { "~" } else { "" };
    format!("{tilde}{}", listed.name.canonical())
}

fn call(call: &CallContents) -> Vec<u8> {
    let quoted = |parameter: &Vec<u8>| [b"\"", parameter.as_slice(), b"\""].concat();
    let parameters: Vec<Vec<u8>> = call.parameters.iter().map(quoted).collect();
    [
        call.name.as_slice(),
        b"(",
        parameters.join(&b',').as_slice(),
        b")",
    ]
    .concat()
}
