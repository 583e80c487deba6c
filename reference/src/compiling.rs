//! The compiler, and the order of its checks (01, "Numbers handed back"; 02, R-1).

use crate::counts;
use crate::details::{self, Detail};
use crate::limits;
use crate::modifiers::{Listed, ListedName, ModifierTest, CTRL, SHIFT, STANDARD};
use crate::names::{self, Adds, EventType, Name};
use crate::numbers::{Number, Refusal};
use crate::table::{EventSpec, Production, Table};
use crate::text::{self, Description, KeyCharacter, WrittenEvent};
use std::ops::Range;

/// Checks 2, then 3 over the whole text, then line by line.
pub fn compile(text: &[u8]) -> Result<Table, Refusal> {
    if text.len() > limits::TEXT_BYTES {
        return Err(Refusal {
            number: Number::TextTooLong,
            place: 0,
        });
    }
    if let Some(place) = text.iter().position(|&byte| !text::is_text_byte(byte)) {
        return Err(Refusal {
            number: Number::BadByte,
            place,
        });
    }
    let mut table = Table {
        text_lengths: [text.len(), 0],
        ..Table::default()
    };
    for line in text::lines(text) {
        let place = line.start;
        compile_line(&mut table, text, line).map_err(|number| Refusal { number, place })?;
    }
    Ok(table)
}

fn compile_line(table: &mut Table, text: &[u8], line: Range<usize>) -> Result<(), Number> {
    let bytes = &text[line.clone()];
    if bytes.iter().all(|&byte| text::is_blank(byte)) {
        return Ok(());
    }
    if line.start == 0 {
        if let Some(directive) = text::directive(bytes) {
            table.directive = directive;
            return Ok(());
        }
    }
    table.productions.push(production(text, line)?);
    match limits::passed(&table.productions) {
        true => Err(Number::LimitPassed),
        false => Ok(()),
    }
}

/// 4 for the whole line, then event by event the other checks.
fn production(text: &[u8], line: Range<usize>) -> Result<Production, Number> {
    let written = text::parse(text, line)?;
    let events: Result<Vec<EventSpec>, Number> = written.events.iter().map(event).collect();
    Ok(Production {
        events: events?,
        calls: written.calls,
    })
}

fn event(written: &WrittenEvent) -> Result<EventSpec, Number> {
    match written {
        WrittenEvent::Described(description) => described(description),
        WrittenEvent::KeyCharacter(character) => Ok(key_character(character)),
    }
}

/// 5, 6, 10, 7, 9, 8 in this order.
fn described(written: &Description) -> Result<EventSpec, Number> {
    let listed = Listed::look_up(&written.list)?;
    let event_type = names::event_type(written.type_name).ok_or(Number::UnknownName)?;
    let code = event_type.code;
    let detail = details::read(event_type, written.detail)?;

    let count = counts::read(code, written.count.as_ref())?;
    if detail == Detail::TooLarge || listed.too_large {
        return Err(Number::BadNumber);
    }

    let plus = written.count.as_ref().is_some_and(|count| count.plus);
    if plus || detail == Detail::NotBuilt {
        return Err(Number::NotBuilt);
    }

    if listed.written && !names::has_state(code) {
        return Err(Number::ListNotTaken);
    }

    if listed.colon && !takes_colon(&listed, event_type) {
        return Err(Number::ColonNotTaken);
    }

    // "8 as if these names weren't there."
    if !listed.asked(event_type.adds).can_hold() {
        return Err(Number::NoStateMeets);
    }

    Ok(EventSpec {
        code,
        count,
        test: ModifierTest::new(&listed, event_type.adds),
        detail: detail.value(),
    })
}

/// A colon stands on a key event only, and beside no listed Shift or Lock and no `<Shift>`.
fn takes_colon(listed: &Listed, event_type: &EventType) -> bool {
    names::is_key(event_type.code) && !listed.lists(STANDARD) && event_type.adds != Adds::Bit(SHIFT)
}

/// A character of a key sequence is a KeyPress; `^` adds Ctrl, and `$` reads as Meta listed.
fn key_character(written: &KeyCharacter) -> EventSpec {
    let mut test = ModifierTest::default();
    match written.mark {
        Some(b'^') => test.set = CTRL,
        Some(b'$') => test.names.push(ListedName {
            name: Name::Meta,
            negated: false,
        }),
        _ => {}
    }
    EventSpec {
        code: names::KEY_PRESS,
        count: 1,
        test,
        detail: Some(u32::from(written.byte)),
    }
}
