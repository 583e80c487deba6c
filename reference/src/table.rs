//! A table as the compiler and the merger give it.

use crate::modifiers::ModifierTest;

/// What merging does with the old table (01, "Merging and writing").
#[derive(Clone, Copy, Debug, Default, PartialEq, Eq)]
pub enum Directive {
    #[default]
    Replace,
    Override,
    Augment,
}

/// The default is the empty table.
#[derive(Clone, Debug, Default, PartialEq, Eq)]
pub struct Table {
    pub directive: Directive,
    pub merged: bool,
    /// The lengths of the first and the second text; the second is 0 unless merged.
    pub text_lengths: [usize; 2],
    pub productions: Vec<Production>,
}

impl Table {
    /// The events of all productions, before expansion.
    pub fn events(&self) -> impl Iterator<Item = &EventSpec> {
        self.productions
            .iter()
            .flat_map(|production| &production.events)
    }
}

#[derive(Clone, Debug, PartialEq, Eq)]
pub struct Production {
    pub events: Vec<EventSpec>,
    pub calls: Vec<Call>,
}

/// One event of a production, before its count is expanded. Two are equal for merging
/// exactly if all fields are equal: "merging compares names as names".
#[derive(Clone, Debug, PartialEq, Eq)]
pub struct EventSpec {
    pub code: u8,
    pub count: u8,
    pub test: ModifierTest,
    pub detail: Option<u32>,
}

/// An action call. Its name and parameters are spans of one of the two texts.
#[derive(Clone, Debug, PartialEq, Eq)]
pub struct Call {
    pub text: usize,
    pub name: Span,
    pub parameters: Vec<Span>,
}

/// A part of a text.
#[derive(Clone, Copy, Debug, Default, PartialEq, Eq)]
pub struct Span {
    pub start: usize,
    pub length: usize,
}
