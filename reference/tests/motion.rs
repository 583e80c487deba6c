//! what 02 says of runs of motions, and examples on each side of what it leaves open
//! (docs/DECISIONS.md).

mod common;

use common::*;
use glykorant_reference::layout::State;
use glykorant_reference::{BoundedMatcher, Event, Matcher, Number};

/// "Line D."
const D: &str = "<Btn1Down>,<Btn1Motion>,<Btn1Up>:x()";

const HINT: u8 = 1;

/// "Idle is a motion with no bit set, drag one with Button1."
fn idle() -> Vec<u8> {
    record(MOTION_NOTIFY, 0, 0, 0)
}

fn drag() -> Vec<u8> {
    record(MOTION_NOTIFY, 0, 0, BUTTON1)
}

fn down() -> Vec<u8> {
    press(1, 0)
}

fn up() -> Vec<u8> {
    release(1, 0)
}

fn a() -> Vec<u8> {
    key(0)
}

/// The selections "call by call, `-` for none". What a matcher of states selects is the same, and
/// it keeps what it must of the history.
fn check(text: &str, records: &[Vec<u8>], expected: &str) {
    let (table, map) = (table(text), key_map(0x61, 0x41));
    let mut matcher = Matcher::new(&table, bare(&map), 100);
    let mut bounded = BoundedMatcher::new(&table, bare(&map), 100, State::default());
    let mut found = Vec::new();
    for record in records {
        let (number, selected) = matcher.call(record, b'B');
        assert_eq!(bounded.call(record, b'B'), (number, selected), "{text}");
        assert!(matcher.is_kept_by(bounded.kept()), "{text}");
        found.push(match (number, selected) {
            (Number::Accepted, Some(production)) => production.to_string(),
            (Number::Accepted, None) => "-".to_string(),
            (number, _) => format!("{number:?}"),
        });
    }
    assert_eq!(found.join(" "), expected, "{text}");
}

#[test]
fn one_matches_any_number() {
    let drags = [vec![down()], vec![drag(); 40], vec![up()]].concat();
    check(D, &drags, &format!("- {}0", "- ".repeat(40)));
    check(D, &[down(), drag(), up()], "- - 0");
    check(D, &[down(), up()], "- -");
    check(D, &[drag(), up()], "- -");
    // "With the action run after each."
    let text = "<Btn1Down>,<Btn1Motion>:x()";
    check(text, &[down(), drag(), drag()], "- 0 0");
}

/// "The context that the earlier one left", and not the one it found.
#[test]
fn what_a_replaced_motion_left() {
    check(D, &[down(), idle(), drag(), up()], "- - - -");
    check(D, &[down(), drag(), idle(), up()], "- - - -");
    check(D, &[down(), drag(), idle(), drag(), up()], "- - - - -");
}

/// "A context opened at it is closed": one that starts at it.
#[test]
fn contexts_opened_at_a_replaced_motion() {
    let text = "<BtnDown>,<BtnDown>,<BtnUp>:x()\n<BtnDown>,<Motion>,<BtnUp>:y()";
    let records = [down(), down(), idle(), idle(), up()];
    check(text, &records, "- - - - 1");
    let text = "<Btn1Down>,<Motion>Hint:x()\n<Motion>Normal,<Key>a:y()";
    let hint = record(MOTION_NOTIFY, HINT, 0, 0);
    check(text, &[down(), idle(), hint.clone()], "- - -");
    check(text, &[down(), hint.clone()], "- 0");
    // The one that is put in its place opens another.
    check(text, &[idle(), hint, idle(), a()], "- - - 1");
}

/// "Falls back by one": to the place before, not to the mark before.
#[test]
fn marks_fall_back_by_one() {
    let three = "<BtnDown>,<BtnDown>,<BtnDown>:x()\n<BtnDown>,<Btn1Motion>,<BtnUp>:y()\n";
    let records = [down(), down(), idle(), drag(), up()];
    let with_start = format!("{three}<Motion>,<BtnDown>:z()");
    check(&with_start, &records, "- - - - -");
    let text = "<BtnDown>,<BtnDown>,<Btn1Motion>:x()\n<BtnDown>,<Motion>,<BtnUp>:y()";
    let records = [down(), down(), drag(), idle(), up()];
    check(text, &records, "- - 0 - -");
}

#[test]
fn with_no_context_open_every_start_is_tried() {
    let text = "<BtnDown>,<BtnDown>,<BtnDown>:x()\n<BtnDown>,<Btn1Motion>,<BtnUp>:y()";
    let records = [down(), down(), idle(), drag(), up()];
    check(text, &records, "- - - - 1");
    let more = [down(), down(), idle(), idle(), idle(), drag(), up()];
    check(text, &more, "- - - - - - 1");
    // "Those after both marks stay while the last is a motion."
    let parted = [down(), down(), idle(), up(), drag(), up()];
    check(text, &parted, "- - - - - -");
}

#[test]
fn a_fallen_mark_frees_the_place() {
    let text = "<Btn1Down>,<Btn1Motion>:x()\n<Motion>:y()";
    check(text, &[down(), drag(), idle(), drag()], "- 0 1 1");
}

/// "A motion event directly after another motion event in the history."
#[test]
fn what_parts_two_motions() {
    let expose = record(EXPOSE, 0, 0, 0);
    let bad_code = record(35, 0, 0, 0);
    let dropped = [down(), drag(), expose.clone(), drag(), up()];
    check(D, &dropped, "- - - - 0");
    let refused = [down(), drag(), bad_code, drag()[1..].to_vec(), drag(), up()];
    check(D, &refused, "- - BadRecord BadRecord - 0");
    let heard = format!("{D}\n<Expose>:y()");
    check(&heard, &dropped, "- - 1 - -");
    // A press or a release parts them too.
    let text = "<Motion>,<Btn1Down>,<Motion>:x()";
    check(text, &[idle(), drag(), down(), drag(), idle()], "- - - 0 0");
}

/// "Any two of code 6 count, whatever state or detail."
#[test]
fn any_two_motions() {
    check("<Motion>,<Motion>:x()", &vec![idle(); 4], "- - - -");
    check(
        "<Motion>,<BtnMotion>:x()",
        &[idle(), drag(), drag()],
        "- - -",
    );
    let hint = record(MOTION_NOTIFY, HINT, 0, 0);
    check("<Motion>Hint,<Motion>Normal:x()", &[hint, idle()], "- -");
    // The top bit marks an event that a client sent.
    let sent = record(MOTION_NOTIFY | 0x80, 0, 0, BUTTON1);
    check(D, &[down(), sent.clone(), drag(), sent, up()], "- - - - 0");
    assert_eq!(number("<Motion>,<Motion>:x()"), 0);
}

/// "Mouse motion is always discarded .. where no motion event is specified."
#[test]
fn motion_that_no_line_names() {
    let text = "<Btn1Down>,<Btn1Up>:x()";
    check(text, &[down(), drag(), drag(), up()], "- - - 0");
}

/// "A replaced event belongs to the selections it ended and to no later one."
#[test]
fn events_of_selections() {
    let (table, map) = (
        table("<Btn1Down>,<Btn1Motion>:x()\n<Motion>:y()"),
        key_map(0, 0),
    );
    let mut matcher = Matcher::new(&table, bare(&map), 100);
    let mut contexts = Vec::new();
    for record in [down(), drag(), drag(), idle(), drag()] {
        matcher.call(&record, b'B');
        contexts.push(matcher.context().to_vec());
    }
    assert_eq!(
        contexts,
        [vec![1], vec![1, 2], vec![1, 3], vec![4], vec![5]]
    );
    assert_eq!(matcher.runs().collect::<Vec<_>>(), [1, 4]);
}

fn event(code: u8, state: u16) -> Event {
    Event {
        code,
        detail: 1,
        time: 0,
        state,
    }
}

/// What a call makes of a state, any whole one.
fn after(text: &str, state: State, record: Vec<u8>) -> (Option<usize>, State) {
    let (table, map) = (table(text), key_map(0x61, 0x41));
    let mut bounded = BoundedMatcher::new(&table, bare(&map), 100, state);
    let (number, selected) = bounded.call(&record, b'B');
    assert_eq!(number, Number::Accepted);
    (selected, bounded.kept().clone())
}

/// What is kept with no context open: the events that a motion may open one with.
#[test]
fn states_with_no_context_open() {
    let text = "<BtnDown>,<BtnDown>,<BtnDown>:x()\n<BtnDown>,<Btn1Motion>,<BtnUp>:y()";
    let kept = |events: &[Event], selected, open| State {
        events: events.to_vec(),
        selected,
        open,
    };
    let down = event(BUTTON_PRESS, 0);
    let still = Event {
        detail: 0,
        ..event(MOTION_NOTIFY, 0)
    };
    let moved = Event {
        state: BUTTON1,
        ..still
    };
    // Open, and a motion that nothing reads with: the first event is used up.
    let (selected, state) = after(text, kept(&[down, down], 0, true), idle());
    assert_eq!((selected, &state), (None, &kept(&[down, still], 0, false)));
    let (_, opened) = after(text, state.clone(), drag());
    assert_eq!(opened, kept(&[down, moved], 0, true));
    let (_, idled) = after(text, state.clone(), idle());
    assert_eq!(idled, state);
    let (_, forgotten) = after(text, state, press(1, 0));
    let down_again = Event { detail: 1, ..down };
    assert_eq!(forgotten, kept(&[down_again], 0, true));
    // What was selected is used up.
    let (_, state) = after(text, kept(&[down, down], 2, true), idle());
    assert_eq!(state, kept(&[still], 0, false));
    // Nothing is kept after another event.
    let (_, state) = after(text, kept(&[down, still], 0, false), up());
    assert_eq!(state, State::default());
}

/// Whole states that no call leaves go on alike.
#[test]
fn states_that_no_call_leaves() {
    let text = "<Motion>:x()\n<BtnDown>,<Motion>:y()\n<Key>a:z()";
    let down = event(BUTTON_PRESS, 0);
    let moved = event(MOTION_NOTIFY, BUTTON1);
    let closed = State {
        events: vec![down, moved],
        selected: 0,
        open: false,
    };
    // No context was open, though one could have been.
    let (selected, state) = after(text, closed.clone(), drag());
    assert_eq!((selected, state.selected, state.open), (Some(1), 2, true));
    let (selected, state) = after(text, closed, a());
    assert_eq!((selected, state.events.len()), (Some(2), 1));
    // A full one is still full after a motion in its last one's place.
    let full = State {
        events: [vec![down; 23], vec![moved]].concat(),
        selected: 0,
        open: false,
    };
    let never = "Button5<BtnMotion>:x()";
    let (_, state) = after(never, full.clone(), drag());
    assert_eq!((state.events.len(), state.open), (24, false));
    // A full open one keeps 24 of the 25.
    let open = State {
        events: vec![down; 24],
        open: true,
        ..full
    };
    let (_, state) = after(never, open, drag());
    assert_eq!((state.events.len(), state.open), (24, false));
}
