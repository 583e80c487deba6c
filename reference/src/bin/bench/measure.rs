//! The proved library and plain Rust side by side, with their results compared.

use crate::capi;
use crate::desk::{self, Lines, Measured, Record, MULTI_CLICK_TIME, ORDER};
use glykorant_reference::layout::{self, State, STATE_BYTES, TABLE_BYTES};
use glykorant_reference::{compile, BoundedMatcher, Maps, Matcher, Number, Table};
use std::hint::black_box;
use std::process::ExitCode;
use std::time::{Duration, Instant};

/// Events of a stream.
const LENGTH: usize = 400;

/// How long each measurement is repeated. Its least time counts, since other work on the machine
/// only adds to it.
const REPEATED: Duration = Duration::from_millis(1500);

/// What is measured: the table in both forms, and the maps in both forms.
struct Desk {
    text: Vec<u8>,
    table: Table,
    bytes: Vec<u8>,
    map: Vec<u32>,
    modifier_map: Vec<u8>,
    maps_bytes: Vec<u8>,
}

impl Desk {
    fn maps(&self) -> Maps<'_> {
        Maps {
            keyboard: &self.map,
            modifiers: &self.modifier_map,
        }
    }
}

type Outcome = (u8, Option<usize>);

pub fn main() -> ExitCode {
    match run() {
        Ok(()) => ExitCode::SUCCESS,
        Err(message) => {
            eprintln!("{message}");
            ExitCode::FAILURE
        }
    }
}

fn run() -> Result<(), String> {
    let desk = make(Lines::Ctrl)?;
    let with_meta = make(Lines::Meta)?;
    let with_drag = make(Lines::Drag)?;
    println!(
        "{} productions, {} bytes of text, {LENGTH} events a stream; the least of many runs",
        desk.table.productions.len(),
        desk.text.len()
    );
    println!("proved: tt_match and tt_compile, on lent bytes that are checked at each call");
    println!("reference: the second implementation, on the same bytes, checked at each call too");
    println!("kept: the same with the table and the state kept ready, the table's bytes checked");
    println!("unchecked: the same again, nothing checked");
    println!();
    println!(
        "{:<30}{:>8}{:>11}{:>7}{:>7}{:>7}{:>11}{:>7}",
        "ns per event", "proved", "reference", "times", "kept", "times", "unchecked", "times"
    );
    for Measured {
        name,
        lines,
        records,
    } in desk::streams(LENGTH)
    {
        let desk = match lines {
            Lines::Ctrl => &desk,
            Lines::Meta => &with_meta,
            Lines::Drag => &with_drag,
        };
        same_results(desk, &records).map_err(|message| format!("{name}: {message}"))?;
        let proved = nanoseconds(&records, || on_bytes(desk, &records, proved_call));
        let reference = nanoseconds(&records, || on_bytes(desk, &records, reference_call));
        let kept = nanoseconds(&records, || prepared(desk, &records, layout::is_whole));
        let unchecked = nanoseconds(&records, || prepared(desk, &records, |_| true));
        println!(
            "{name:<30}{proved:>8.0}{reference:>11.0}{:>7.1}{kept:>7.0}{:>7.1}{unchecked:>11.0}{:>7.1}",
            reference / proved,
            kept / proved,
            unchecked / proved
        );
    }
    println!();
    compiling(&desk);
    Ok(())
}

fn make(lines: Lines) -> Result<Desk, String> {
    let text = desk::text(lines).into_bytes();
    let table = compile(&text).map_err(|refusal| format!("the table: {refusal:?}"))?;
    let mut bytes = vec![0; TABLE_BYTES];
    let answer = capi::compile(&text, &mut bytes);
    if answer.number != 0 || layout::decode(&bytes).as_ref() != Some(&table) {
        return Err(format!("the tables differ: {answer:?}"));
    }
    let map = desk::map();
    let modifier_map = desk::modifier_map();
    let maps_bytes = layout::encode_maps(Maps {
        keyboard: &map,
        modifiers: &modifier_map,
    });
    Ok(Desk {
        text,
        table,
        bytes,
        map,
        modifier_map,
        maps_bytes,
    })
}

/// Every event's number and selection, and the state after it. The matcher over the history
/// decides.
fn same_results(desk: &Desk, records: &[Record]) -> Result<(), String> {
    let mut rules = Matcher::new(&desk.table, desk.maps(), MULTI_CLICK_TIME);
    let mut prepared = prepared_matcher(desk);
    let mut states = [[0; STATE_BYTES]; 2];
    capi::fresh(&mut states[0]);
    for (at, record) in records.iter().enumerate() {
        let expected = outcome(rules.call(record, ORDER));
        let found = [
            proved_call(desk, &mut states[0], record),
            reference_call(desk, &mut states[1], record),
            outcome(prepared.call(record, ORDER)),
        ];
        let kept = prepared.kept();
        let bytes = layout::encode_state(kept);
        let same_states = rules.is_kept_by(kept) && states.iter().all(|state| *state == *bytes);
        if found != [expected; 3] || !same_states {
            return Err(format!("event {at}: {found:?} and not {expected:?}"));
        }
    }
    Ok(())
}

fn outcome((number, selected): (Number, Option<usize>)) -> Outcome {
    (number as u8, selected)
}

type StateBytes = [u8; STATE_BYTES];

fn proved_call(desk: &Desk, state: &mut StateBytes, record: &Record) -> Outcome {
    let answer = capi::match_event(
        &desk.bytes,
        &desk.maps_bytes,
        MULTI_CLICK_TIME,
        state,
        record,
        ORDER,
    );
    (answer.number, (answer.value as usize).checked_sub(1))
}

/// The same call in plain Rust.
fn reference_call(desk: &Desk, state: &mut StateBytes, record: &Record) -> Outcome {
    let Some(table) = layout::decode(&desk.bytes) else {
        return outcome((Number::TableNotWhole, None));
    };
    let Some(kept) = layout::decode_state(state) else {
        return outcome((Number::StateNotWhole, None));
    };
    let (keyboard, modifiers) = layout::decode_maps(&desk.maps_bytes);
    let maps = Maps {
        keyboard: &keyboard,
        modifiers,
    };
    let mut matcher = BoundedMatcher::new(&table, maps, MULTI_CLICK_TIME, kept);
    let answer = matcher.call(record, ORDER);
    state.copy_from_slice(&layout::encode_state(matcher.kept()));
    outcome(answer)
}

fn prepared_matcher(desk: &Desk) -> BoundedMatcher<'_> {
    BoundedMatcher::new(&desk.table, desk.maps(), MULTI_CLICK_TIME, State::default())
}

/// The least time of an event of the stream, in nanoseconds. A run gives its own time.
fn nanoseconds(records: &[Record], run: impl Fn() -> Duration) -> f64 {
    least(run).as_nanos() as f64 / records.len() as f64
}

fn least(run: impl Fn() -> Duration) -> Duration {
    let begun = Instant::now();
    let mut least = run();
    while begun.elapsed() < REPEATED {
        least = least.min(run());
    }
    least
}

fn on_bytes(
    desk: &Desk,
    records: &[Record],
    call: impl Fn(&Desk, &mut StateBytes, &Record) -> Outcome,
) -> Duration {
    let mut state = [0; STATE_BYTES];
    let begun = Instant::now();
    for record in records {
        black_box(call(desk, &mut state, black_box(record)));
    }
    begun.elapsed()
}

/// Plain Rust with the table read and expanded beforehand, and the state in memory of its own.
/// Each call first asks whether the table's bytes are whole.
fn prepared(desk: &Desk, records: &[Record], whole: impl Fn(&[u8]) -> bool) -> Duration {
    let mut matcher = prepared_matcher(desk);
    let begun = Instant::now();
    for record in records {
        let answer = match whole(black_box(&desk.bytes)) {
            true => matcher.call(black_box(record), ORDER),
            false => (Number::TableNotWhole, None),
        };
        black_box(answer);
    }
    begun.elapsed()
}

fn compiling(desk: &Desk) {
    let timed = |run: &dyn Fn()| {
        least(|| {
            let begun = Instant::now();
            run();
            begun.elapsed()
        })
    };
    let proved = timed(&|| {
        let mut table = [0; TABLE_BYTES];
        black_box(capi::compile(black_box(&desk.text), &mut table));
        black_box(table);
    });
    let reference = timed(&|| {
        let compiled = compile(black_box(&desk.text));
        black_box(compiled.map(|table| layout::encode(&table)).is_ok());
    });
    let microseconds = |time: Duration| time.as_nanos() as f64 / 1000.0;
    let (proved, reference) = (microseconds(proved), microseconds(reference));
    println!(
        "{:<30}{proved:>8.1}{reference:>11.1}{:>7.1}",
        "µs to compile the text",
        reference / proved
    );
}
