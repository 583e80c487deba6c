//! Reading names and parameters of action calls (01, "Numbers handed back", "Merging and
//! writing").

use crate::numbers::Number;
use crate::table::{Call, EventSpec, Span, Table};

/// A table's first and second text. An unmerged table has no second one.
pub type Texts<'t> = [&'t [u8]; 2];

/// A part of one of the two texts. The default, "the empty part at the start of the first
/// text", goes with a refusal.
#[derive(Clone, Copy, Debug, Default, PartialEq, Eq)]
pub struct Part {
    pub text: usize,
    pub span: Span,
}

impl Part {
    pub fn bytes<'t>(&self, texts: &Texts<'t>) -> &'t [u8] {
        &texts[self.text][self.span.start..self.span.start + self.span.length]
    }
}

/// The name of a production's call. Checks 12, then 16.
pub fn name(table: &Table, texts: &Texts, production: usize, call: usize) -> Result<Part, Number> {
    check_texts(table, texts)?;
    let call = find_call(table, production, call)?;
    Ok(Part {
        text: call.text,
        span: call.name,
    })
}

/// A parameter of a production's call, without quotes. Checks 12, then 16.
pub fn parameter(
    table: &Table,
    texts: &Texts,
    production: usize,
    call: usize,
    parameter: usize,
) -> Result<Part, Number> {
    check_texts(table, texts)?;
    let call = find_call(table, production, call)?;
    let span = call.parameters.get(parameter).ok_or(Number::NotThere)?;
    Ok(Part {
        text: call.text,
        span: *span,
    })
}

/// "A lent text shorter than that is 12."
pub fn check_texts(table: &Table, texts: &Texts) -> Result<(), Number> {
    let long_enough = |at: usize| texts[at].len() >= table.text_lengths[at];
    match long_enough(0) && long_enough(1) {
        true => Ok(()),
        false => Err(Number::TableNotWhole),
    }
}

fn find_call(table: &Table, production: usize, call: usize) -> Result<&Call, Number> {
    let production = table.productions.get(production);
    let found = production.and_then(|production| production.calls.get(call));
    found.ok_or(Number::NotThere)
}

/// A production with its calls read from the texts, so that productions of different texts can
/// be compared.
#[derive(Clone, Debug, PartialEq, Eq)]
pub struct ProductionContents {
    pub events: Vec<EventSpec>,
    pub calls: Vec<CallContents>,
}

#[derive(Clone, Debug, PartialEq, Eq)]
pub struct CallContents {
    pub name: Vec<u8>,
    pub parameters: Vec<Vec<u8>>,
}

/// All productions of a table with their calls. Checks 12.
pub fn contents(table: &Table, texts: &Texts) -> Result<Vec<ProductionContents>, Number> {
    check_texts(table, texts)?;
    let productions = table.productions.iter().map(|production| {
        let calls = production.calls.iter();
        ProductionContents {
            events: production.events.clone(),
            calls: calls.map(|call| call_contents(call, texts)).collect(),
        }
    });
    Ok(productions.collect())
}

fn call_contents(call: &Call, texts: &Texts) -> CallContents {
    let bytes = |&span: &Span| {
        let part = Part {
            text: call.text,
            span,
        };
        part.bytes(texts).to_vec()
    };
    CallContents {
        name: bytes(&call.name),
        parameters: call.parameters.iter().map(bytes).collect(),
    }
}
