//! The bytes of tables and states, and the matcher that keeps what a state does.

mod common;

use common::*;
use glykorant_reference::generate::{self, Case};
use glykorant_reference::layout::{self, State, STATE_BYTES, TABLE_BYTES};
use glykorant_reference::{merge, write, BoundedMatcher, Event, Maps, Matcher, Number, Table};

#[test]
fn an_empty_table_and_a_fresh_state_are_zeros() {
    assert_eq!(layout::encode(&Table::default()), [0; TABLE_BYTES]);
    assert_eq!(layout::encode_state(&State::default()), [0; STATE_BYTES]);
}

#[test]
fn tables_read_back() {
    let old = table("#augment\nCtrl<Key>a,<Btn1Up>(2): f() g(x, \"\")\n!:<KeyUp>0x12345678:");
    let new = table("#override\n<BtnMotion>1: h(\"a b\")");
    let named = table("!~m ~a h @00 ~@0x1fffffff @1 ~@1<Key>,\"$a\",su<Enter>,!:<Meta>b:");
    for table in [&old, &new, &named, &merge(&old, &new).unwrap()] {
        let mut bytes = layout::encode(table);
        assert_eq!(bytes.len(), TABLE_BYTES);
        bytes.push(7);
        assert!(layout::is_whole(&bytes));
        assert_eq!(layout::decode(&bytes).as_ref(), Some(table));
    }
}

/// Each change of one word of a table's bytes, and whether they are whole after it.
#[test]
fn ranges_of_a_table() {
    let bytes = layout::encode(&table("<Btn1Up>(2),<Key>: f(x)"));
    let whole = |word: usize, value: u16| {
        let mut bytes = bytes.clone();
        bytes[2 * word..2 * word + 2].copy_from_slice(&value.to_le_bytes());
        let whole = layout::is_whole(&bytes);
        assert_eq!(layout::decode(&bytes).is_some(), whole);
        whole
    };
    // The directive, and the mark of a merged table.
    assert!(whole(0, 2) && !whole(0, 3) && whole(1, 1) && !whole(1, 2));
    // The lengths of the texts: the parameter ends at byte 22, and no second text is kept.
    assert!(whole(2, 22) && !whole(2, 21) && whole(2, 8192) && !whole(2, 8193) && !whole(3, 1));
    // The counts.
    assert!(!whole(4, 0) && !whole(5, 3) && !whole(6, 2) && !whole(7, 0));
    assert!(!whole(8, 1) && !whole(72, 0) && !whole(9, 1));
    // Codes 2..34, counts above 1 on codes 2..5 only.
    assert!(whole(136, 2) && !whole(136, 1) && !whole(136, 6) && !whole(136, 35));
    assert!(whole(137, 34) && whole(392, 9) && !whole(392, 0) && !whole(392, 10));
    assert!(!whole(393, 13) && whole(393, 1));
    // Bits, flags and details.
    assert!(whole(648, 8191) && !whole(648, 8192) && whole(904, 1) && !whole(904, 0xFFFF));
    assert!(whole(1160, 7) && whole(1160, 0xFF0F) && !whole(1160, 3) && whole(1161, 3));
    assert!(!whole(1160, 0x14) && !whole(1160, 0x24) && !whole(1160, 0x44) && !whole(1160, 0x84));
    assert!(whole(1672, 0x1FFF) && !whole(1672, 0x2000) && !whole(1417, 1));
    // The mark, the name, the parameters, and an unused word.
    assert!(!whole(3976, 1) && whole(4104, 22) && !whole(4104, 23) && !whole(4360, 2));
    assert!(whole(4488, 22) && !whole(4488, 23) && !whole(4999, 1));
    // A keysym's slot: the mark is in its high word, and slots are used in turn.
    assert!(whole(2184, 0x2000) && whole(2184, 0x7FFF) && !whole(2184, 0x1FFF));
    assert!(!whole(2184, 0x8000) && !whole(1928, 1) && !whole(2696, 0x2000));
    assert!(!whole(2186, 0x2000) && !whole(3975, 0x2000));
}

/// The words of a table with names.
#[test]
fn words_of_names() {
    let text = "!~m a~a su ~@0x1fffffff @0x10000 ~@0x10000 @00<Key>b,@2 @3 @4 @5<Btn1Up>:";
    let bytes = layout::encode(&table(text));
    let word = |word: usize| u16::from_le_bytes([bytes[2 * word], bytes[2 * word + 1]]);
    // `!`, the detail; Alt and Super, Meta and Alt with `~`.
    assert_eq!(
        word(1160),
        0x0008 | 0x0004 | 0x0200 | 0x0800 | 0x1000 | 0x2000
    );
    assert_eq!(word(904), 0);
    let slots = |event: usize| -> Vec<u32> {
        [1928, 2440, 2952, 3464]
            .map(|low| u32::from(word(low + event)) + (u32::from(word(low + 256 + event)) << 16))
            .to_vec()
    };
    assert_eq!(slots(0), [0x2000_0000, 0x6001_0000, 0x5FFF_FFFF, 0]);
    assert_eq!(
        slots(1),
        [0x2000_0032, 0x2000_0033, 0x2000_0034, 0x2000_0035]
    );
    assert_eq!((word(1161), slots(2)), (4, vec![0; 4]));

    // Each change of slots, and whether the bytes are whole after it.
    let whole = |event: usize, slots: [u32; 4]| {
        let mut bytes = bytes.clone();
        for (low, slot) in [1928, 2440, 2952, 3464].into_iter().zip(slots) {
            let mut put = |word: usize, value: u32| {
                bytes[2 * word..2 * word + 2].copy_from_slice(&(value as u16).to_le_bytes());
            };
            put(low + event, slot & 0xFFFF);
            put(low + 256 + event, slot >> 16);
        }
        let whole = layout::is_whole(&bytes);
        assert_eq!(layout::decode(&bytes).is_some(), whole);
        whole
    };
    let listed = 0x2000_0000;
    assert!(whole(0, [0; 4]) && whole(1, [listed, listed + 1, 0, 0]));
    // Equal and falling keysyms, whatever their marks.
    assert!(!whole(0, [listed, listed, 0, 0]) && !whole(0, [listed, 2 * listed, 0, 0]));
    assert!(!whole(0, [listed + 1, listed, 0, 0]) && !whole(0, [listed + 1, 3 * listed, 0, 0]));
    assert!(whole(
        0,
        [3 * listed, listed + 1, 2 * listed + 2, 0x7FFF_FFFF]
    ));
    // A used slot after an unused one, no mark, and a number past the marks.
    assert!(!whole(0, [0, listed, 0, 0]) && !whole(0, [listed, 0, listed + 1, 0]));
    assert!(!whole(0, [1, 0, 0, 0]) && !whole(0, [listed - 1, 0, 0, 0]));
    assert!(!whole(0, [0x8000_0000, 0, 0, 0]) && !whole(0, [0xFFFF_FFFF, 0, 0, 0]));
    // An event that is not there.
    assert!(!whole(2, [listed, 0, 0, 0]));
}

/// Whole tables that no text gives: a kept `!` without a name, and names on any type.
#[test]
fn tables_that_no_text_gives() {
    let with_flags = |text: &str, flags: u16| {
        let mut bytes = layout::encode(&table(text));
        bytes[2 * 1160..2 * 1160 + 2].copy_from_slice(&flags.to_le_bytes());
        layout::decode(&bytes).unwrap()
    };
    let text_of = |table: &Table| {
        let texts = [[b' '; 100].as_slice(), b""];
        String::from_utf8(write(table, &texts).unwrap()).unwrap()
    };
    let map = key_map(0x61, 0x41);
    let selects = |table: &Table, state: u16| {
        let mut matcher = Matcher::new(table, bare(&map), 100);
        matcher.call(&key(state), b'B').1 == Some(0)
    };

    // Without a name too, `!` asks every unlisted bit clear.
    let exact = with_flags("Ctrl ~Shift<Key>A:", 4 | 8);
    assert_eq!(text_of(&exact), "!Ctrl ~Shift<KeyPress>A:\n");
    assert!(!selects(&exact, CTRL) && !selects(&exact, CTRL | LOCK));
    let exact = with_flags("Ctrl<Key>a:", 4 | 8);
    assert!(selects(&exact, CTRL) && !selects(&exact, CTRL | LOCK) && !selects(&exact, 0));
    let with_colon = with_flags(":Ctrl<Key>A:", 1 | 4 | 8);
    assert_eq!(text_of(&with_colon), "!:Ctrl<KeyPress>A:\n");
    assert!(selects(&with_colon, CTRL | LOCK) && !selects(&with_colon, CTRL | LOCK | MOD1));
    // All testable bits asked, and `!` kept: written as it stands.
    let all_asked = with_flags("None<Enter>:", 8);
    assert!(text_of(&all_asked).starts_with("!~Ctrl ~Shift ~Lock ~Mod1"));

    // The state of an event that has none is 0.
    let on_expose = with_flags("<Expose>:", 0x1000);
    assert_eq!(text_of(&on_expose), "~Meta<Expose>:\n");
    let expose = record(EXPOSE, 0, 0, 0xFFFF);
    let call = |table: &Table| Matcher::new(table, bare(&map), 100).call(&expose, b'B').1;
    assert_eq!(call(&on_expose), Some(0));
    assert_eq!(call(&with_flags("<Expose>:", 0x0100)), None);
}

#[test]
fn maps_read_back() {
    let map = key_map(0x61, 0xFFE7_0001);
    for modifiers in [vec![], vec![7; 3], vec![9; 64], vec![0; 72]] {
        let maps = Maps {
            keyboard: &map,
            modifiers: &modifiers,
        };
        let bytes = layout::encode_maps(maps);
        assert_eq!(bytes.len(), 1984 + modifiers.len());
        assert_eq!(
            layout::decode_maps(&bytes),
            (map.clone(), modifiers.as_slice())
        );
    }
    for length in [0, 3, 1980, 1983] {
        let bytes = vec![1; length];
        let (keyboard, modifiers) = layout::decode_maps(&bytes);
        assert_eq!(
            Maps {
                keyboard: &keyboard,
                modifiers
            }
            .check(),
            Err(Number::ShortBuffer)
        );
    }
    assert_eq!(
        layout::decode_maps(&[0; 1984]),
        (vec![0; 496], [].as_slice())
    );
}

fn slot(code: u8, detail: u8, time: u32, state: u16) -> Event {
    Event {
        code,
        detail,
        time,
        state,
    }
}

/// Whether the bytes of a state are whole after a change of one of them.
fn whole_with(state: &State, at: usize, value: u8) -> bool {
    let mut bytes = layout::encode_state(state);
    bytes[at] = value;
    layout::decode_state(&bytes).is_some()
}

#[test]
fn ranges_of_a_state() {
    let state = State {
        events: vec![slot(2, 8, u32::MAX, 8191), slot(4, 0, 0, 0)],
        selected: 1,
        open: true,
    };
    let bytes = layout::encode_state(&state);
    assert_eq!(layout::decode_state(&bytes), Some(state.clone()));
    let whole = |at: usize, value: u8| whole_with(&state, at, value);
    assert!(!whole(0, 1) && !whole(0, 3) && whole(2, 2) && !whole(2, 3));
    assert!(!whole(4, 0) && !whole(4, 2) && !whole(5, 1) && !whole(6, 1) && !whole(1, 1));
    assert!(!whole(8, 1) && whole(8, 34) && !whole(8, 35) && !whole(9, 7));
    assert!(whole(11, 0) && !whole(11, 32) && whole(12, 1) && whole(17, 255));
    assert!(!whole(24, 1) && !whole(199, 1));
}

/// With no context open nothing is selected, and the last kept event is a motion.
#[test]
fn ranges_of_a_state_with_no_context_open() {
    let state = State {
        events: vec![slot(4, 1, 5, 0), slot(6, 0, 7, 256)],
        selected: 0,
        open: false,
    };
    let bytes = layout::encode_state(&state);
    assert_eq!(bytes[..8], [2, 0, 0, 0, 0, 0, 0, 0]);
    assert_eq!(layout::decode_state(&bytes), Some(state.clone()));
    let whole = |at: usize, value: u8| whole_with(&state, at, value);
    assert!(!whole(2, 1) && !whole(2, 2) && whole(4, 1));
    assert!(whole(8, 34) && !whole(16, 5) && !whole(16, 7) && whole(16, 6));
    // No event: none is open, and none is selected.
    let fresh = State::default();
    assert_eq!(layout::decode_state(&[0; STATE_BYTES]), Some(fresh.clone()));
    assert!(!whole_with(&fresh, 4, 1) && !whole_with(&fresh, 2, 1) && !whole_with(&fresh, 0, 1));
    // 24 events, open or not.
    let full = |code: u8, open: bool| State {
        events: vec![slot(code, 8, 0, 0); 24],
        selected: 0,
        open,
    };
    for (state, whole) in [
        (full(6, false), true),
        (full(6, true), true),
        (full(4, true), true),
        (full(4, false), false),
    ] {
        let bytes = layout::encode_state(&state);
        assert_eq!(layout::decode_state(&bytes).is_some(), whole);
        assert!(!whole_with(&state, 0, 25));
    }
}

#[test]
fn the_bounded_matcher_agrees() {
    let mut selections = 0;
    let mut kept_closed = 0;
    for number in 0..20_000 {
        let Case::Match { old, text, list } = generate::case(7, number) else {
            continue;
        };
        let table = generate::table(old.as_ref(), &text).unwrap();
        let (maps, time) = (list.maps(), list.multi_click_time);
        let mut matcher = Matcher::new(&table, maps, time);
        let mut bounded = BoundedMatcher::new(&table, maps, time, State::default());
        for call in &list.calls {
            let expected = matcher.call(&call.record, call.order);
            assert_eq!(bounded.call(&call.record, call.order), expected);
            assert!(matcher.is_kept_by(bounded.kept()));
            selections += usize::from(expected.1.is_some());
            kept_closed += usize::from(!bounded.kept().open && bounded.kept().events.len() > 1);
            // The state's bytes are all that it goes on by.
            let state = layout::decode_state(&layout::encode_state(bounded.kept())).unwrap();
            assert_eq!(state, *bounded.kept());
            if number % 2 == 1 {
                bounded = BoundedMatcher::new(&table, maps, time, state);
            }
        }
    }
    assert!(selections > 10_000 && kept_closed > 1000);
}
