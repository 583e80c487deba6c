//! Short forms for tests.

#![allow(dead_code, unused_imports)]

use glykorant_reference::calls::{contents, CallContents};
use glykorant_reference::keyboard::{FIRST_KEYCODE, MAP_LENGTH};
use glykorant_reference::resolving::ROWS;
use glykorant_reference::{compile, merge, write, EventSpec, Maps, Matcher, Number, Table};

pub use glykorant_reference::modifiers::{
    ALL, BUTTON1, BUTTON2, CTRL, LOCK, MOD1, MOD2, MOD3, MOD4, MOD5, SHIFT,
};
pub use glykorant_reference::names::{
    BUTTON_PRESS, BUTTON_RELEASE, KEY_PRESS, KEY_RELEASE, MOTION_NOTIFY,
};

pub const EXPOSE: u8 = 12;

pub fn table(text: impl AsRef<[u8]>) -> Table {
    let text = text.as_ref();
    compile(text).unwrap_or_else(|refusal| panic!("{refusal:?}: {}", lossy(text)))
}

fn lossy(text: &[u8]) -> String {
    String::from_utf8_lossy(text).into_owned()
}

/// The compiler's number.
pub fn number(text: impl AsRef<[u8]>) -> u8 {
    compile(text.as_ref()).map_or_else(|refusal| refusal.number as u8, |_| 0)
}

/// The compiler's number and, for a refusal, its place.
pub fn refusal(text: impl AsRef<[u8]>) -> (u8, usize) {
    let refusal = compile(text.as_ref()).expect_err(&lossy(text.as_ref()));
    (refusal.number as u8, refusal.place)
}

/// Each text gives the number.
pub fn all_give<T: AsRef<[u8]>>(expected: u8, texts: &[T]) {
    for text in texts {
        assert_eq!(number(text), expected, "{}", lossy(text.as_ref()));
    }
}

/// The events of the first production.
pub fn events(text: impl AsRef<[u8]>) -> Vec<EventSpec> {
    table(text).productions.remove(0).events
}

/// The first event of the first production.
pub fn event(text: impl AsRef<[u8]>) -> EventSpec {
    events(text).remove(0)
}

pub fn detail(text: impl AsRef<[u8]>) -> Option<u32> {
    event(text).detail
}

/// The calls of the first production.
pub fn calls(text: impl AsRef<[u8]>) -> Vec<CallContents> {
    let text = text.as_ref();
    contents(&table(text), &[text, b""])
        .unwrap()
        .remove(0)
        .calls
}

/// The parameters of the first call of the first production.
pub fn parameters(text: impl AsRef<[u8]>) -> Vec<Vec<u8>> {
    calls(text).remove(0).parameters
}

pub fn written(text: impl AsRef<[u8]>) -> String {
    let text = text.as_ref();
    String::from_utf8(write(&table(text), &[text, b""]).unwrap()).unwrap()
}

pub fn written_merged(old: &str, new: &str) -> String {
    let merged = merge(&table(old), &table(new)).unwrap();
    let bytes = write(&merged, &[old.as_bytes(), new.as_bytes()]).unwrap();
    String::from_utf8(bytes).unwrap()
}

/// A record with its high bytes first.
pub fn record(code: u8, detail: u8, time: u32, state: u16) -> Vec<u8> {
    let mut record = vec![0; 32];
    record[0] = code;
    record[1] = detail;
    record[4..8].copy_from_slice(&time.to_be_bytes());
    record[28..30].copy_from_slice(&state.to_be_bytes());
    record
}

pub fn press(button: u8, time: u32) -> Vec<u8> {
    record(BUTTON_PRESS, button, time, 0)
}

pub fn release(button: u8, time: u32) -> Vec<u8> {
    record(BUTTON_RELEASE, button, time, 0)
}

/// The keycode that `key_map` fills.
pub const KEYCODE: u8 = 38;

pub fn key(state: u16) -> Vec<u8> {
    record(KEY_PRESS, KEYCODE, 0, state)
}

/// A map with one pair.
pub fn key_map(first: u32, second: u32) -> Vec<u32> {
    let mut map = vec![0; MAP_LENGTH];
    let at = 2 * usize::from(KEYCODE - FIRST_KEYCODE);
    map[at] = first;
    map[at + 1] = second;
    map
}

/// Maps without modifiers.
pub fn bare(map: &[u32]) -> Maps<'_> {
    Maps {
        keyboard: map,
        modifiers: &[0; ROWS],
    }
}

/// What each record selects, under a multi-click time of 100; none is refused.
pub fn selected(text: &str, records: &[Vec<u8>]) -> Vec<Option<usize>> {
    selected_with(text, bare(&key_map(0x61, 0x41)), 100, records)
}

pub fn selected_with(
    text: &str,
    maps: Maps,
    multi_click_time: u32,
    records: &[Vec<u8>],
) -> Vec<Option<usize>> {
    let table = table(text);
    let mut matcher = Matcher::new(&table, maps, multi_click_time);
    let select = |record: &Vec<u8>| {
        let (number, selected) = matcher.call(record, b'B');
        assert_eq!(number, Number::Accepted);
        selected
    };
    records.iter().map(select).collect()
}

/// Whether a text of one key event matches a key in a state.
pub fn key_matches(text: &str, pair: (u32, u32), state: u16) -> bool {
    let map = key_map(pair.0, pair.1);
    selected_with(text, bare(&map), 100, &[key(state)]) == [Some(0)]
}
