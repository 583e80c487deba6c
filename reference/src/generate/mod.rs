//! Generated cases. A case is determined by a seed and the case's number.

pub mod damage;
pub mod events;
pub mod limits;
pub mod productions;
pub mod spelling;

use crate::calls::ProductionContents;
use crate::compiling::compile;
use crate::limits::TEXT_BYTES;
use crate::merging;
use crate::numbers::Number;
use crate::random::Random;
use crate::table::{Directive, Table};
use events::EventList;
use limits::Aim;

#[derive(Debug)]
pub enum Case {
    Compile(Text),
    Merge {
        old: Text,
        new: Text,
        expected: Expected,
        aim: Option<Aim>,
    },
    /// Records against the text's table, or against the old text's table merged with it.
    Match {
        old: Option<Text>,
        text: Text,
        list: EventList,
    },
}

#[derive(Debug)]
pub struct Text {
    pub bytes: Vec<u8>,
    pub expected: Expected,
    pub aim: Option<Aim>,
}

/// What the generator knows of the result.
#[derive(Debug)]
pub enum Expected {
    Accepted(Directive, Vec<ProductionContents>),
    Refused(Number),
    Unknown,
}

pub fn case(seed: u64, number: u64) -> Case {
    let random = &mut Random::new(seed, number);
    match random.below(100) {
        0..=41 => Case::Compile(compile_text(random)),
        42..=44 => Case::Compile(limits::text(random)),
        45..=57 => merge(random),
        58..=59 => limits::merge(random),
        _ => match_case(random),
    }
}

/// A text of any forms. More than half are damaged, and about half are accepted.
fn compile_text(random: &mut Random) -> Text {
    let directive = directive(random);
    let productions = productions::productions(random, 5, 4);
    let mut text = spelled(random, directive, &productions);
    match random.below(100) {
        0..=41 => return text,
        42..=72 => damage::insert_line(random, &mut text.bytes),
        _ => damage::edit(random, &mut text.bytes),
    }
    text.expected = Expected::Unknown;
    text
}

/// A valid text for these productions, or for as many of them as fit in a text.
fn spelled(random: &mut Random, directive: Directive, productions: &[ProductionContents]) -> Text {
    let roomy = random.percent(50);
    let bytes = spelling::text(random, roomy, directive, productions);
    match productions.split_last() {
        Some((_, fewer)) if bytes.len() > TEXT_BYTES => spelled(random, directive, fewer),
        _ => Text {
            bytes,
            expected: Expected::Accepted(directive, productions.to_vec()),
            aim: None,
        },
    }
}

fn directive(random: &mut Random) -> Directive {
    *random.pick(&[Directive::Replace, Directive::Override, Directive::Augment])
}

/// Two texts that share lines, each in its own spelling and with its own calls, or nearly so: a
/// name or a `!` differs.
fn merge(random: &mut Random) -> Case {
    let old_productions = productions::productions(random, 6, 3);
    let mut new_productions = productions::productions(random, 4, 3);
    for production in &old_productions {
        if random.percent(40) {
            let calls = productions::calls(random);
            let at = random.below(new_productions.len() + 1);
            let mut events = production.events.clone();
            if random.percent(30) {
                let at = random.below(events.len());
                productions::vary_names(random, &mut events[at]);
            }
            new_productions.insert(at, ProductionContents { events, calls });
        }
    }
    let old_directive = directive(random);
    let new_directive = directive(random);
    let mut new = spelled(random, new_directive, &new_productions);
    if random.percent(8) {
        damage::edit(random, &mut new.bytes);
        new.expected = Expected::Unknown;
    }
    Case::Merge {
        old: spelled(random, old_directive, &old_productions),
        new,
        expected: Expected::Unknown,
        aim: None,
    }
}

/// A table of few event kinds and a list of records that follows its productions.
fn match_case(random: &mut Random) -> Case {
    let productions = productions::related_productions(random);
    let cut = match random.percent(20) {
        true => random.below(productions.len() + 1),
        false => 0,
    };
    let old = match cut {
        0 => None,
        _ => Some(spelled(random, Directive::Replace, &productions[..cut])),
    };
    let directive = directive(random);
    let text = spelled(random, directive, &productions[cut..]);
    let table = table(old.as_ref(), &text).unwrap_or_default();
    let list = events::list(random, &table);
    Case::Match { old, text, list }
}

/// The text's table, merged into the old text's if there is one.
pub fn table(old: Option<&Text>, text: &Text) -> Result<Table, Number> {
    let compiled = |text: &Text| compile(&text.bytes).map_err(|refusal| refusal.number);
    let new = compiled(text)?;
    match old {
        Some(old) => merging::merge(&compiled(old)?, &new),
        None => Ok(new),
    }
}
