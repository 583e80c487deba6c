//! Checks on generated cases of what 01 and 02 say of any table and any list of events.

use crate::calls::{self, Texts};
use crate::compiling::compile;
use crate::generate::events::{EventList, RecordCall};
use crate::generate::{self, Case, Expected, Text};
use crate::limits;
use crate::merging::merge;
use crate::numbers::Number;
use crate::random::Random;
use crate::records::Event;
use crate::selection::{tested_bits, Matcher, Step};
use crate::statistics::Statistics;
use crate::table::{Directive, Table};
use crate::writing::write;
use std::fmt;
use std::ops::Range;

/// A case that a check failed on.
#[derive(Debug)]
pub struct Failure {
    pub seed: u64,
    pub number: u64,
    pub message: String,
}

impl fmt::Display for Failure {
    fn fmt(&self, out: &mut fmt::Formatter) -> fmt::Result {
        let Failure {
            seed,
            number,
            message,
        } = self;
        write!(out, "seed {seed}, case {number}: {message}")
    }
}

/// Checks the cases of these numbers.
pub fn run(seed: u64, numbers: Range<u64>) -> Result<Statistics, Failure> {
    let mut statistics = Statistics::default();
    for number in numbers {
        let case = generate::case(seed, number);
        // The checks draw their own numbers, so that they leave the cases as they are.
        let random = &mut Random::new(!seed, number);
        check_case(&case, random, &mut statistics).map_err(|message| Failure {
            seed,
            number,
            message,
        })?;
    }
    Ok(statistics)
}

type Checked<T> = Result<T, String>;

fn check_case(case: &Case, random: &mut Random, statistics: &mut Statistics) -> Checked<()> {
    match case {
        Case::Compile(text) => {
            let compiled = check_text(text, statistics)?;
            statistics.count_compile_case(number_of(&compiled));
        }
        Case::Merge {
            old,
            new,
            expected,
            aim,
        } => {
            statistics.merge_cases += 1;
            let tables = (check_text(old, statistics)?, check_text(new, statistics)?);
            if let (Ok(old_table), Ok(new_table)) = tables {
                let merged = merge(&old_table, &new_table);
                check_result(&merged, &[&old.bytes, &new.bytes], expected, statistics)?;
                statistics.count_merge(number_of(&merged), *aim);
            }
        }
        Case::Match { old, text, list } => {
            statistics.count_match_case(old.is_some());
            for text in old.iter().chain([text]) {
                check_text(text, statistics)?.map_err(|number| format!("{number:?}"))?;
            }
            if let Ok(table) = generate::table(old.as_ref(), text) {
                check_list(&table, list, random, statistics)?;
            }
        }
    }
    Ok(())
}

fn number_of<T>(result: &Result<T, Number>) -> Number {
    result.as_ref().err().copied().unwrap_or(Number::Accepted)
}

/// Compiles the text and checks the result.
fn check_text(text: &Text, statistics: &mut Statistics) -> Checked<Result<Table, Number>> {
    let compiled = compile(&text.bytes).map_err(|refusal| refusal.number);
    check_result(&compiled, &[&text.bytes, b""], &text.expected, statistics)?;
    statistics.count_aim(text.aim);
    if let Ok(table) = &compiled {
        statistics.count_forms(table);
    }
    Ok(compiled)
}

/// The result is what the generator meant, and an accepted table can be written and read back.
fn check_result(
    result: &Result<Table, Number>,
    texts: &Texts,
    expected: &Expected,
    statistics: &mut Statistics,
) -> Checked<()> {
    let as_expected = match (result, expected) {
        (_, Expected::Unknown) => true,
        (Ok(table), Expected::Accepted(directive, productions)) => {
            table.directive == *directive
                && calls::contents(table, texts).as_ref() == Ok(productions)
        }
        (Err(number), Expected::Refused(expected)) => number == expected,
        _ => false,
    };
    ensure(as_expected, || {
        let number = number_of(result);
        format!(
            "{number:?} or its table was not expected of {}",
            shown(texts)
        )
    })?;
    match result {
        Ok(table) => check_written(table, texts, statistics),
        Err(_) => Ok(()),
    }
}

/// "The canonical text of an accepted table" compiles to the same productions if it is not too
/// long.
fn check_written(table: &Table, texts: &Texts, statistics: &mut Statistics) -> Checked<()> {
    let written = write(table, texts).map_err(|number| format!("not written: {number:?}"))?;
    if written.len() > limits::TEXT_BYTES {
        statistics.too_long_written += 1;
        return Ok(());
    }
    statistics.written_and_compiled += 1;
    let same = compile(&written).is_ok_and(|again| {
        again.directive == Directive::Replace
            && calls::contents(&again, &[&written, b""]) == calls::contents(table, texts)
    });
    ensure(same, || {
        let written = String::from_utf8_lossy(&written);
        format!("other productions in {written:?} than in {}", shown(texts))
    })
}

fn shown(texts: &Texts) -> String {
    let [first, second] = texts.map(String::from_utf8_lossy);
    format!("{first:?} {second:?}")
}

fn ensure(holds: bool, message: impl Fn() -> String) -> Checked<()> {
    match holds {
        true => Ok(()),
        false => Err(message()),
    }
}

/// What one call gave.
#[derive(Clone, Debug, PartialEq, Eq)]
pub struct Outcome {
    pub number: Number,
    pub selected: Option<usize>,
    /// The events of the context after it, by their numbers over all heard ones. The replaced ones
    /// have theirs, so that "a replaced event belongs to the selections it ended and to no later
    /// one".
    pub context: Vec<usize>,
    /// What the event did, if it was heard.
    pub step: Option<Step>,
}

/// The outcomes of a list of calls, with the events that were heard and the runs of the history.
pub struct Outcomes {
    pub calls: Vec<Outcome>,
    /// All heard events, the replaced ones too.
    pub heard: Vec<Event>,
    /// How many heard events each place of the history has held.
    pub runs: Vec<usize>,
}

impl Outcomes {
    fn of(table: &Table, list: &EventList, calls: &[RecordCall]) -> Outcomes {
        let mut matcher = Matcher::new(table, list.maps(), list.multi_click_time);
        let mut heard = Vec::new();
        let outcome = |call: &RecordCall| {
            let (number, selected) = matcher.call(&call.record, call.order);
            let step = matcher.step();
            if step.is_some() {
                heard.extend(matcher.history().last());
            }
            Outcome {
                number,
                selected,
                context: matcher.context().to_vec(),
                step,
            }
        };
        Outcomes {
            calls: calls.iter().map(outcome).collect(),
            heard,
            runs: matcher.runs().collect(),
        }
    }

    /// The events that each selection was made on.
    pub fn selections(&self) -> impl Iterator<Item = &[usize]> {
        let selecting = self.calls.iter().filter(|call| call.selected.is_some());
        selecting.map(|call| call.context.as_slice())
    }
}

fn check_list(
    table: &Table,
    list: &EventList,
    random: &mut Random,
    statistics: &mut Statistics,
) -> Checked<()> {
    let outcomes = Outcomes::of(table, list, &list.calls);
    check_contexts(&outcomes)?;
    check_selections(&outcomes)?;
    check_untested_bits(table, list, random, &outcomes)?;
    check_moved_times(table, list, random, &outcomes)?;
    statistics.count_outcomes(table, &outcomes);
    statistics.count_motion(&outcomes);
    statistics.count_names(table, list.maps());
    statistics.count_clicks(&outcomes.heard, list.multi_click_time);
    Ok(())
}

/// The context never keeps more than 24 events, so 15 is never given.
fn check_contexts(outcomes: &Outcomes) -> Checked<()> {
    for outcome in &outcomes.calls {
        let few = outcome.context.len() <= limits::EVENTS_IN_PRODUCTION;
        ensure(few && outcome.number != Number::ContextTooLong, || {
            format!("the context is too long: {outcome:?}")
        })?;
    }
    Ok(())
}

/// Any two selections' events start at the same event or are disjoint.
fn check_selections(outcomes: &Outcomes) -> Checked<()> {
    let selections: Vec<&[usize]> = outcomes.selections().collect();
    for (at, first) in selections.iter().enumerate() {
        ensure(!first.is_empty(), || {
            "a selection without a context".to_string()
        })?;
        for second in &selections[at + 1..] {
            let disjoint = || first.iter().all(|event| !second.contains(event));
            ensure(first[0] == second[0] || disjoint(), || {
                format!("selections on {first:?} and {second:?}")
            })?;
        }
    }
    Ok(())
}

/// State bits that the table does not test under the maps change nothing. Under maps that are
/// refused none does.
fn check_untested_bits(
    table: &Table,
    list: &EventList,
    random: &mut Random,
    expected: &Outcomes,
) -> Checked<()> {
    let untested = match list.maps().check() {
        Ok(()) => !tested_bits(table, list.maps()),
        Err(_) => !0,
    };
    check_alike(table, list, expected, |call| {
        call.with_state_bits_turned(random.card16() & untested)
    })
    .map_err(|message| format!("untested bits changed {message}"))
}

/// Only differences of times count, modulo 4,294,967,296.
fn check_moved_times(
    table: &Table,
    list: &EventList,
    random: &mut Random,
    expected: &Outcomes,
) -> Checked<()> {
    let by = random.card32();
    check_alike(table, list, expected, |call| call.with_time_moved(by))
        .map_err(|message| format!("times moved by {by} changed {message}"))
}

/// The list with each call changed has the same outcomes.
fn check_alike(
    table: &Table,
    list: &EventList,
    expected: &Outcomes,
    change: impl FnMut(&RecordCall) -> RecordCall,
) -> Checked<()> {
    let changed: Vec<RecordCall> = list.calls.iter().map(change).collect();
    let found = Outcomes::of(table, list, &changed);
    for (at, (found, expected)) in found.calls.iter().zip(&expected.calls).enumerate() {
        ensure(found == expected, || {
            format!("call {at} from {expected:?} to {found:?}")
        })?;
    }
    Ok(())
}
