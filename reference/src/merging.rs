//! Merging (01, "Merging and writing").

use crate::limits;
use crate::numbers::Number;
use crate::table::{Directive, Production, Table};

/// Merges by the new table's directive. Checks 17, the old table first, then 11.
pub fn merge(old: &Table, new: &Table) -> Result<Table, Number> {
    if old.merged || new.merged {
        return Err(Number::AlreadyMerged);
    }
    let old_productions = old.productions.clone();
    let new_productions = marked_second(&new.productions);
    let productions = match new.directive {
        Directive::Replace => new_productions,
        Directive::Override => joined(new_productions, old_productions),
        Directive::Augment => joined(old_productions, new_productions),
    };
    if limits::passed(&productions) {
        return Err(Number::LimitPassed);
    }
    Ok(Table {
        directive: Directive::Replace,
        merged: true,
        text_lengths: [old.text_lengths[0], new.text_lengths[0]],
        productions,
    })
}

/// The first ones, then the further ones whose events equal no first one's.
fn joined(first: Vec<Production>, further: Vec<Production>) -> Vec<Production> {
    let mut productions = first.clone();
    productions.extend(further.into_iter().filter(|production| {
        first
            .iter()
            .all(|earlier| earlier.events != production.events)
    }));
    productions
}

/// The productions with their calls in the second text.
fn marked_second(productions: &[Production]) -> Vec<Production> {
    let mut marked = productions.to_vec();
    for call in marked
        .iter_mut()
        .flat_map(|production| &mut production.calls)
    {
        call.text = 1;
    }
    marked
}
