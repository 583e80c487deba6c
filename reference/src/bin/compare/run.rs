//! The generated cases of a seed, shared out to threads.

use crate::capi;
use crate::counts::Counts;
use crate::keys;
use crate::tables::{ensure, Compared, Comparison, Given};
use crate::vectors;
use crate::words;
use glykorant_reference::generate::{self, Case, Text};
use glykorant_reference::layout::{STATE_BYTES, TABLE_BYTES};
use glykorant_reference::random::Random;
use std::process::ExitCode;
use std::sync::atomic::{AtomicU64, Ordering};
use std::thread;

/// The gate's seeds, each with the number of its cases.
const GATE: [(u64, u64); 3] = [(1, 140_000), (2_026, 140_000), (4_294_967_296, 100_000)];

/// So many cases are one thread's at a time.
const CHUNK: u64 = 500;

pub fn main() -> ExitCode {
    let arguments: Vec<String> = std::env::args().skip(1).collect();
    let compared = match parse(&arguments) {
        Some(Some(run)) => compare(&[run]).map(|counts| (counts, true)),
        Some(None) => compare(&GATE).map(|counts| {
            let enough = counts.are_enough();
            (counts, enough)
        }),
        None => {
            eprintln!("usage: compare [--seed N --count M]");
            return ExitCode::FAILURE;
        }
    };
    match compared {
        Ok((counts, true)) => {
            println!("{counts}");
            println!("no difference");
            ExitCode::SUCCESS
        }
        Ok((counts, false)) => {
            eprintln!("{counts}");
            eprintln!("no difference, but too few cases of some kind");
            ExitCode::FAILURE
        }
        Err(message) => {
            eprintln!("{message}");
            ExitCode::FAILURE
        }
    }
}

/// No arguments: the gate's run. Otherwise a seed and the number of its cases.
fn parse(arguments: &[String]) -> Option<Option<(u64, u64)>> {
    match arguments {
        [] => Some(None),
        [seed_flag, seed, count_flag, count]
            if seed_flag == "--seed" && count_flag == "--count" =>
        {
            Some(Some((seed.parse().ok()?, count.parse().ok()?)))
        }
        _ => None,
    }
}

/// The worked examples, the names and the words next to them, the keysyms, then all cases of each
/// seed.
fn compare(runs: &[(u64, u64)]) -> Compared<Counts> {
    let lengths = (capi::table_length(), capi::state_length());
    ensure(lengths == (TABLE_BYTES, STATE_BYTES), || {
        format!("the lengths are {lengths:?}")
    })?;
    let mut examples = Comparison::new(Random::new(0, 0));
    vectors::run(&mut examples)?;
    words::run(&mut examples)?;
    keys::run(&mut examples)?;
    let mut counts = examples.counts;
    for &(seed, count) in runs {
        counts += &cases(seed, count)?;
    }
    Ok(counts)
}

fn cases(seed: u64, count: u64) -> Compared<Counts> {
    let next = AtomicU64::new(0);
    let threads = thread::available_parallelism().map_or(1, |threads| threads.get());
    thread::scope(|scope| {
        let work = || -> Compared<Counts> {
            let mut counts = Counts::default();
            loop {
                let first = next.fetch_add(CHUNK, Ordering::Relaxed);
                if first >= count {
                    return Ok(counts);
                }
                for number in first..count.min(first + CHUNK) {
                    counts += &case(seed, number)?;
                }
            }
        };
        let running: Vec<_> = (0..threads).map(|_| scope.spawn(work)).collect();
        let mut counts = Counts::default();
        for thread in running {
            counts += &thread
                .join()
                .map_err(|_| "a thread panicked".to_string())??;
        }
        Ok(counts)
    })
}

fn case(seed: u64, number: u64) -> Compared<Counts> {
    let case = generate::case(seed, number);
    // The comparison draws its own numbers, so that it leaves the cases as they are.
    let mut comparison = Comparison::new(Random::new(!seed, number));
    comparison.counts.cases = 1;
    compare_case(&mut comparison, &case)
        .map_err(|message| format!("seed {seed}, case {number}: {message}\n{case:?}"))?;
    Ok(comparison.counts)
}

fn compare_case(comparison: &mut Comparison, case: &Case) -> Compared<()> {
    match case {
        Case::Compile(text) => {
            text_case(comparison, text)?;
        }
        Case::Merge { old, new, .. } => {
            let old_given = text_case(comparison, old)?;
            let new_given = text_case(comparison, new)?;
            if let (Some(old_given), Some(new_given)) = (old_given, new_given) {
                let merged = comparison.merge(&old_given, &new_given)?;
                if let Some(merged) = merged {
                    merged_case(comparison, &merged, [old, new])?;
                    merge_again(comparison, &merged, &old_given)?;
                }
            }
        }
        Case::Match { old, text, list } => {
            let Some((given, texts)) = match_table(comparison, old.as_ref(), text)? else {
                return Ok(());
            };
            comparison.list(&given, list)?;
            comparison.damaged_table(&given, [texts[0], texts[1]])?;
        }
    }
    Ok(())
}

/// Compiles a text, reads the table, and goes over damaged copies of it.
fn text_case(comparison: &mut Comparison, text: &Text) -> Compared<Option<Given>> {
    let bytes = &text.bytes;
    let Some(given) = comparison.compile(bytes)? else {
        return Ok(None);
    };
    let second: &[u8] = match comparison.random.below(3) {
        0 => b"",
        1 => bytes,
        _ => b"another text",
    };
    let texts = comparison.lend_texts(bytes, second);
    comparison.read(&given, &texts)?;
    if comparison.random.percent(10) {
        comparison.read_short(&given, &texts)?;
    }
    comparison.damaged_table(&given, [bytes, second])?;
    Ok(Some(given))
}

fn merged_case(comparison: &mut Comparison, merged: &Given, texts: [&Text; 2]) -> Compared<()> {
    let [old, new] = texts;
    let lent = comparison.lend_texts(&old.bytes, &new.bytes);
    comparison.read(merged, &lent)?;
    comparison.damaged_table(merged, [&old.bytes, &new.bytes])
}

/// "A table to merge is itself merged": 17, whichever of the two it is.
fn merge_again(comparison: &mut Comparison, merged: &Given, other: &Given) -> Compared<()> {
    match comparison.random.below(8) {
        0 => comparison.merge(merged, other)?,
        1 => comparison.merge(other, merged)?,
        _ => None,
    };
    Ok(())
}

/// The text's table, merged into the old text's if there is one, and its texts.
#[allow(clippy::type_complexity)]
fn match_table<'t>(
    comparison: &mut Comparison,
    old: Option<&'t Text>,
    text: &'t Text,
) -> Compared<Option<(Given, [&'t [u8]; 2])>> {
    let Some(new_given) = comparison.compile(&text.bytes)? else {
        return Ok(None);
    };
    let Some(old) = old else {
        return Ok(Some((new_given, [&text.bytes, b""])));
    };
    let Some(old_given) = comparison.compile(&old.bytes)? else {
        return Ok(None);
    };
    let merged = comparison.merge(&old_given, &new_given)?;
    Ok(merged.map(|merged| (merged, [old.bytes.as_slice(), &text.bytes])))
}
