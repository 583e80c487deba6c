//! The examples of 01, and one on each side of its other rules.

mod common;

use common::*;
use glykorant_reference::calls::{contents, Part};
use glykorant_reference::keyboard::{keysym, MAP_LENGTH};
use glykorant_reference::selection::tested_bits;
use glykorant_reference::{
    compile, merge, name, parameter, read_record, write, Directive, Event, Matcher, Number, Span,
    Table,
};

/// Table P.
const P: &str = "<Btn1Down>,<Btn1Up>:toves()\n<Btn1Up>:did()";

// "Examples on each side"

#[test]
fn empty_text() {
    assert_eq!(table(""), Table::default());
}

#[test]
fn press_and_release() {
    let records = [press(1, 0), release(1, 0)];
    assert_eq!(selected(P, &records), [None, Some(0)]);
}

#[test]
fn press_and_two_releases() {
    let records = [press(1, 0), release(2, 0), release(1, 0)];
    assert_eq!(selected(P, &records), [None, None, Some(1)]);
}

/// Press, release, press and so on, each one unit of time after the other.
fn quick_events(count: u32) -> Vec<Vec<u8>> {
    let event = |time| match time % 2 {
        0 => press(1, time),
        _ => release(1, time),
    };
    (0..count).map(event).collect()
}

#[test]
fn five_quick_events() {
    assert_eq!(
        selected("<Btn1Down>(2):g()", &quick_events(5)),
        [None, None, Some(0), None, None]
    );
}

#[test]
fn times_across_the_wrap() {
    let records = [press(1, 4_294_967_290), release(1, 0), press(1, 94)];
    let map = key_map(0, 0);
    let pair = |limit| selected_with("<Btn1Down>(2):g()", bare(&map), limit, &records)[2];
    assert_eq!((pair(100), pair(101)), (None, Some(0)));
}

#[test]
fn no_state_meets() {
    all_give(8, &["Shift ~Shift<Key>a:x()", "None<Ctrl>a:x()"]);
}

#[test]
fn key_pair_with_and_without_colon() {
    let pair = (0x61, 0x41);
    assert!(key_matches("<Key>A:x()", pair, 0));
    assert!(key_matches("<Key>A:x()", pair, SHIFT));
    assert!(key_matches(":<Key>a:x()", pair, 0));
    assert!(!key_matches(":<Key>a:x()", pair, SHIFT));
}

#[test]
fn counts() {
    all_give(10, &["<Key>(2+)a:x()"]);
    all_give(6, &["<Key>(0)a:x()"]);
}

#[test]
fn events_in_a_production() {
    let production = |events| format!("{}:x()", vec!["<Map>"; events].join(","));
    assert_eq!((number(production(24)), number(production(25))), (0, 11));
}

// "Easy errors"

#[test]
fn second_click_is_not_used_again() {
    let found = selected("<Btn1Down>(2):g()", &quick_events(7));
    assert_eq!(found, [None, None, Some(0), None, None, None, Some(0)]);
}

#[test]
fn did_is_not_taken_inside_a_click() {
    let records = [press(1, 0), release(1, 0), release(1, 0)];
    assert_eq!(selected(P, &records), [None, Some(0), Some(1)]);
}

#[test]
fn lock_is_tried_both_ways() {
    assert!(key_matches("<Key>a:x()", (0x61, 0x41), LOCK));
    assert!(key_matches("<Key>a:x()", (0x61, 0x41), LOCK | SHIFT));
}

// "What is built"

#[test]
fn forms_not_built() {
    all_give(10, &["<Key>(2+)a:"]);
    for name in [
        "Prop",
        "SelClr",
        "SelReq",
        "Select",
        "Message",
        "ClientMessage",
    ] {
        all_give(10, &[format!("<{name}>WM_NAME:")]);
        all_give(0, &[format!("<{name}>:")]);
    }
}

#[test]
fn limits() {
    let joined = |part: &str, times: usize, between: &str| vec![part; times].join(between);
    assert_eq!(number(" ".repeat(8192)), 0);
    assert_eq!(refusal(" ".repeat(8193)), (2, 0));

    assert_eq!(number(joined("<Key>a:\n", 64, "")), 0);
    assert_eq!(refusal(joined("<Key>a:\n", 65, "")), (11, 64 * 8));

    let sixteen = joined("<Map>", 16, ",") + ":\n";
    assert_eq!(number(sixteen.repeat(16)), 0);
    assert_eq!(
        refusal(sixteen.repeat(16) + "<Map>:"),
        (11, 16 * sixteen.len())
    );
    // 17 and 18 events after expansion.
    assert_eq!(number("<BtnDown>(9),<BtnDown>(4):"), 0);
    assert_eq!(number("<BtnUp>(9),<BtnDown>(4):"), 11);

    assert_eq!(number(format!("<Map>:{}", "f()".repeat(8))), 0);
    assert_eq!(number(format!("<Map>:{}", "f()".repeat(9))), 11);
    let eight = format!("<Map>:{}\n", "f()".repeat(8));
    assert_eq!(number(eight.repeat(16)), 0);
    assert_eq!(number(eight.repeat(16) + "<Map>:f()"), 11);

    assert_eq!(number(format!("<Map>:f({})", ",".repeat(7))), 0);
    assert_eq!(number(format!("<Map>:f({})", ",".repeat(8))), 11);
    let sixty_four = format!("<Map>:{}\n", "f(,,,,,,,)".repeat(8));
    assert_eq!(number(sixty_four.repeat(4)), 0);
    assert_eq!(number(sixty_four.repeat(4) + "<Map>:f(a)"), 11);
}

// "Numbers handed back"

#[test]
fn a_map_of_another_length() {
    let table = table(P);
    for length in [0, MAP_LENGTH - 1, MAP_LENGTH + 1] {
        let map = vec![0; length];
        let mut matcher = Matcher::new(&table, bare(&map), 100);
        assert_eq!(
            matcher.call(&press(1, 0), b'B'),
            (Number::ShortBuffer, None)
        );
        // 1 comes before 13.
        assert_eq!(matcher.call(&[], b'x'), (Number::ShortBuffer, None));
    }
}

#[test]
fn bytes_of_a_text() {
    for byte in 0..=255u8 {
        let text = [b"<Map>:f(\"", [byte].as_slice(), b"\")"].concat();
        let expected = match byte {
            // These end the line or the parameter.
            b'\n' | b'"' => 4,
            b'\t' | 32..=126 | 160..=255 => 0,
            _ => 3,
        };
        assert_eq!(number(&text), expected, "byte {byte}");
    }
    assert_eq!(refusal(b"<Map>:\nno line\n\x80\x81"), (3, 15));
    assert_eq!(
        refusal([b"\x80".as_slice(), &[b' '; 8192]].concat()),
        (2, 0)
    );
}

#[test]
fn places_are_the_starts_of_lines() {
    assert_eq!(refusal("<Map>:\n\n \t<Foo>:"), (5, 8));
    assert_eq!(refusal("  \n<Map>"), (4, 3));
    assert_eq!(refusal("#augment\n<Map>x:"), (5, 9));
}

#[test]
fn order_within_a_line() {
    let pairs = [
        ("<Foo>:x(", 4),
        ("<Key>(0)bogus:", 5),
        ("Shift ~Shift<Key>(0)a:", 6),
        ("Shift ~Shift<Prop>x:", 10),
        (":<Expose>:", 7),
        (":Shift ~Shift<Key>a:", 9),
        (":Shift ~Shift<Key>a,<Foo>:", 9),
        ("Shift ~Shift<Key>a,<Foo>:", 8),
        ("<Key>a,<Foo>:", 5),
    ];
    for (text, expected) in pairs {
        all_give(expected, &[text]);
    }
    all_give(5, &[format!("{},<Foo>:", vec!["<Map>"; 30].join(","))]);
    all_give(4, &[format!("{}:x", vec!["<Map>"; 30].join(","))]);
}

#[test]
fn a_short_text_is_12() {
    let text = b"<Map>:f(a)".as_slice();
    let table = table(text);
    let short = &text[..text.len() - 1];
    assert_eq!(write(&table, &[short, b""]), Err(Number::TableNotWhole));
    assert_eq!(
        name(&table, &[short, b""], 9, 9),
        Err(Number::TableNotWhole)
    );
    assert_eq!(contents(&table, &[short, b""]), Err(Number::TableNotWhole));
    // A longer text is taken.
    assert!(write(&table, &[b"<Map>:f(a) and more", b""]).is_ok());

    let new = b"#augment\n<Key>:g()".as_slice();
    let merged = merge(&table, &compile(new).unwrap()).unwrap();
    assert!(write(&merged, &[text, new]).is_ok());
    assert_eq!(write(&merged, &[short, new]), Err(Number::TableNotWhole));
    assert_eq!(write(&merged, &[text, b""]), Err(Number::TableNotWhole));
}

#[test]
fn parts_of_the_texts() {
    let text = b"<Map>: go( now,\"a b\" )stop()".as_slice();
    let texts = [text, b"".as_slice()];
    let table = table(text);
    let part = |start, length| {
        Ok(Part {
            text: 0,
            span: Span { start, length },
        })
    };
    assert_eq!(name(&table, &texts, 0, 0), part(7, 2));
    assert_eq!(parameter(&table, &texts, 0, 0, 0), part(11, 3));
    assert_eq!(parameter(&table, &texts, 0, 0, 1), part(16, 3));
    assert_eq!(name(&table, &texts, 0, 1), part(22, 4));
    let missing = Err(Number::NotThere);
    assert_eq!(name(&table, &texts, 1, 0), missing);
    assert_eq!(name(&table, &texts, 0, 2), missing);
    assert_eq!(parameter(&table, &texts, 0, 0, 2), missing);
    assert_eq!(parameter(&table, &texts, 0, 1, 0), missing);
    let nothing = Part::default();
    assert_eq!((nothing.text, nothing.bytes(&texts)), (0, b"".as_slice()));
}

#[test]
fn a_merged_table_is_not_merged_again() {
    let (old, new) = (table("<Map>:a()"), table("#augment\n<Key>:b()"));
    let merged = merge(&old, &new).unwrap();
    assert_eq!(merge(&merged, &new), Err(Number::AlreadyMerged));
    assert_eq!(merge(&old, &merged), Err(Number::AlreadyMerged));
}

#[test]
fn limits_of_a_merged_table() {
    let lines = |letter: char, count: usize| -> String {
        (0..count)
            .map(|at| format!("<Key>0x{letter}{at:02}:\n"))
            .collect()
    };
    let merged = |old: usize, new: usize, directive: &str| {
        let new = format!("{directive}\n{}", lines('2', new));
        merge(&table(lines('1', old)), &table(new)).map(|table| table.productions.len())
    };
    for directive in ["#override", "#augment"] {
        assert_eq!(merged(60, 4, directive), Ok(64));
        assert_eq!(merged(60, 5, directive), Err(Number::LimitPassed));
    }
    assert_eq!(merged(60, 5, "#replace"), Ok(5));
}

// "The text"

#[test]
fn directives() {
    assert_eq!(table("#replace").directive, Directive::Replace);
    assert_eq!(table("#override\n<Map>:").directive, Directive::Override);
    assert_eq!(table("#augment\n").directive, Directive::Augment);
    assert_eq!(table("<Map>:").directive, Directive::Replace);
    all_give(4, &["#Override\n", "#overrid", "<Map>:\n#override"]);
}

#[test]
fn modifier_lists() {
    all_give(
        0,
        &[
            "!:Ctrl Mod1<Key>a:",
            "! Ctrl<Key>a:",
            "!<Key>a:",
            "None<Key>a:",
            "Any<Key>a:",
        ],
    );
    all_give(
        4,
        &[":!Ctrl<Key>a:", "Ctrl!<Key>a:", "~~Ctrl<Key>a:", "~<Key>a:"],
    );
    for (short, long) in [("c", "Ctrl"), ("s", "Shift"), ("l", "Lock")] {
        assert_eq!(
            events(format!("{short}<Key>:")),
            events(format!("{long}<Key>:"))
        );
    }
    all_give(
        5,
        &["ctrl<Key>a:", "S<Key>a:", "Mod6<Key>a:", "Button0<Key>a:"],
    );
}

#[test]
fn event_types() {
    for (name, code) in [
        ("KeyDown", 2),
        ("BtnUp", 5),
        ("MouseMoved", 6),
        ("Leave", 8),
    ] {
        assert_eq!(event(format!("<{name}>:")).code, code);
    }
    for (name, code) in [
        ("GrExp", 13),
        ("Circ", 26),
        ("Mapping", 34),
        ("MappingNotify", 34),
    ] {
        assert_eq!(event(format!("<{name}>:")).code, code);
    }
    all_give(5, &["<key>:", "<Mappings>:", "<Btn6Down>:"]);
    assert_eq!(event("<Ctrl>a:").test.set, CTRL);
    assert_eq!(event("<Shift>a:").test.set, SHIFT);
    assert_eq!(event("<Btn2Motion>:").test.set, BUTTON2);
    assert!(event("<BtnMotion>:").test.clause);
    assert_eq!(event("<Btn1Down>:"), event("<BtnDown>Button1:"));
}

#[test]
fn details() {
    let keysyms = [
        ("a", 0x61),
        ("7", 0x37),
        ("0x61", 0x61),
        ("0X6a", 0x6A),
        ("0141", 0x61),
        ("97", 97),
        ("0x1FFFFFFF", 0x1FFF_FFFF),
        ("space", 0x20),
        ("comma", 0x2C),
        ("colon", 0x3A),
        ("BackSpace", 0xFF08),
        ("Tab", 0xFF09),
        ("Return", 0xFF0D),
        ("Escape", 0xFF1B),
        ("Delete", 0xFFFF),
        ("Home", 0xFF50),
        ("Left", 0xFF51),
        ("Up", 0xFF52),
        ("Right", 0xFF53),
        ("Down", 0xFF54),
        ("F1", 0xFFBE),
        ("F12", 0xFFC9),
    ];
    for (written, value) in keysyms {
        assert_eq!(
            detail(format!("<KeyUp>{written}:")),
            Some(value),
            "{written}"
        );
    }
    assert_eq!(detail(b"<Key>\xE9:"), Some(0xE9));
    all_give(5, &["<Key>F13:", "<Key>return:", "<Key>12a:", "<Key>-1:"]);
    all_give(
        6,
        &["<Key>0x20000000:", "<Key>536870912:", "<Key>04000000000:"],
    );

    let others = [
        ("<BtnUp>Button5", 5),
        ("<Motion>Hint", 1),
        ("<Btn1Motion>Normal", 0),
        ("<Enter>Grab", 1),
        ("<Leave>Ungrab", 2),
        ("<FocusOut>WhileGrabbed", 3),
        ("<Mapping>Pointer", 2),
        ("<Mapping>Keyboard", 1),
        ("<Mapping>Modifier", 0),
        ("<FocusIn>255", 255),
        ("<Motion>0", 0),
    ];
    for (written, value) in others {
        assert_eq!(detail(format!("{written}:")), Some(value), "{written}");
    }
    all_give(
        5,
        &[
            "<Enter>Hint:",
            "<Motion>Grab:",
            "<Motion>00:",
            "<Motion>0x1:",
            "<Map>x:",
        ],
    );
    all_give(6, &["<FocusIn>256:", "<Mapping>99999999999999999999:"]);
}

#[test]
fn parameters_of_calls() {
    assert_eq!(parameters("<Map>:f()").len(), 0);
    assert_eq!(parameters("<Map>:f(\"\")"), [b""]);
    assert_eq!(parameters("<Map>:f(,)"), [b"", b""]);
    assert_eq!(
        parameters("<Map>:f(a, \"b,) \" )"),
        [b"a".as_slice(), b"b,) "]
    );
    all_give(
        4,
        &[
            "<Map>:f(",
            "<Map>:f(a",
            "<Map>:f(\"a)",
            "<Map>:f(\"a\n\")",
            "<Map>:f",
        ],
    );
    all_give(0, &["<Map>:a_B-9()", "<Map>:"]);
    all_give(4, &["<Map>:a.b()", "<Map>:(x)"]);
}

#[test]
fn key_sequences() {
    assert_eq!(events("\"a^b\\\"\":").len(), 3);
    assert_eq!(event("\"^b\":").test.set, CTRL);
    assert_eq!(detail("\"\\\"\":"), Some(0x22));
    assert_eq!(events("\"ab\":"), events("<Key>a,<Key>b:"));
    all_give(4, &["\"a\tb\":"]);
}

// "Modifier tests"

#[test]
fn bits_asked_set_and_clear() {
    let bits = |text| (event(text).test.set, event(text).test.clear);
    assert_eq!(bits("Ctrl ~Shift<Key>:"), (CTRL, SHIFT));
    assert_eq!(bits("!Ctrl ~Shift<Key>:"), (CTRL, ALL & !CTRL));
    assert_eq!(bits("None<Key>:"), (0, ALL));
    assert_eq!(bits("Any<Key>:"), (0, 0));
    assert_eq!(bits("!:Ctrl<Key>a:"), (CTRL, ALL & !CTRL & !SHIFT & !LOCK));
    assert_eq!(bits("!Ctrl<Ctrl>a:"), (CTRL, ALL & !CTRL));
    all_give(
        8,
        &["!<Ctrl>a:", "~Ctrl<Ctrl>a:", "!~Ctrl<Ctrl>a:", "!:<Ctrl>a:"],
    );
    all_give(
        7,
        &[
            "Shift<FocusIn>:",
            "!<Map>:",
            ":<Map>:",
            "None<Map>:",
            "Any<Map>:",
        ],
    );
    all_give(
        9,
        &[
            ":<Btn1Down>:",
            ":Shift<Key>a:",
            ":~Lock<Key>a:",
            ":<Shift>a:",
        ],
    );
    all_give(0, &[":Ctrl<Key>a:", ":<Ctrl>a:", ":<KeyUp>a:"]);
}

#[test]
fn button_clause() {
    assert!(event("Ctrl<BtnMotion>:").test.clause);
    assert!(!event("Button2<BtnMotion>:").test.clause);
    assert_eq!(event("Button2<BtnMotion>:"), event("Button2<Motion>:"));
    all_give(8, &["!<BtnMotion>:", "None<BtnMotion>:"]);
    let motion = |state| selected("<BtnMotion>:x()", &[record(MOTION_NOTIFY, 0, 0, state)]);
    assert_eq!(motion(BUTTON2), [Some(0)]);
    assert_eq!(motion(SHIFT | LOCK | CTRL), [None]);
}

#[test]
fn keyboard_lookup() {
    let all = |first, second| {
        let map = key_map(first, second);
        [0, SHIFT, LOCK, SHIFT | LOCK].map(|state| keysym(&map, KEYCODE, state))
    };
    assert_eq!(all(0x61, 0), [0x61, 0x41, 0x41, 0x41]);
    assert_eq!(all(0x41, 0), [0x61, 0x41, 0x41, 0x41]);
    assert_eq!(all(0xE9, 0), [0xE9, 0xC9, 0xC9, 0xC9]);
    assert_eq!(all(0xFF0D, 0), [0xFF0D; 4]);
    assert_eq!(all(0x31, 0x21), [0x31, 0x21, 0x31, 0x21]);
    assert_eq!(all(0x41, 0x61), [0x41, 0x61, 0x41, 0x41]);
    assert_eq!(all(0, 0), [0; 4]);
}

// "Counts and time"

#[test]
fn counted_events() {
    assert_eq!(events("<Btn1Down>(1):"), events("<Btn1Down>:"));
    let twice = [press(1, 0), release(1, 0), press(1, 99), release(1, 98)];
    assert_eq!(selected("<Btn1Down>(2):x()", &twice)[2], Some(0));
    assert_eq!(
        selected("<Btn1Up>(2):x()", &twice),
        [None, None, None, Some(0)]
    );
    let slow = [press(1, 0), release(1, 0), press(1, 100), release(1, 99)];
    assert_eq!(selected("<Btn1Down>(2):x()", &slow)[2], None);
    // Of a counted release only the releases are timed.
    assert_eq!(selected("<Btn1Up>(2):x()", &slow)[3], Some(0));
}

// "Event bytes"

#[test]
fn fields_of_records() {
    let bytes: Vec<u8> = (0..32).collect();
    let read = |code: u8, order| {
        let record = [&[code], &bytes[1..]].concat();
        read_record(&record, order).unwrap()
    };
    let event = |code, detail, time, state| Event {
        code,
        detail,
        time,
        state,
    };
    let with_detail_8 = |code| {
        let record = [&[code, 8], &bytes[2..]].concat();
        read_record(&record, b'B').unwrap()
    };
    assert_eq!(with_detail_8(2), event(2, 8, 0x0405_0607, 0x1C1D));
    assert_eq!(read(4, b'B'), event(4, 1, 0x0405_0607, 0x1C1D));
    assert_eq!(read(6, b'l'), event(6, 1, 0x0706_0504, 0x1D1C));
    assert_eq!(read(0x80 | 7, b'l'), event(7, 30, 0x0706_0504, 0x1D1C));
    assert_eq!(read(8, b'B'), event(8, 30, 0x0405_0607, 0x1C1D));
    assert_eq!(read(9, b'B'), event(9, 8, 0, 0));
    assert_eq!(read(10, b'l'), event(10, 8, 0, 0));
    assert_eq!(read(34, b'l'), event(34, 4, 0, 0));
    assert_eq!(read(12, b'l'), event(12, 0, 0, 0));
    let all_bits = read_record(&record(BUTTON_PRESS, 1, 0, 0xFFFF), b'B').unwrap();
    assert_eq!(all_bits.state, ALL);
}

#[test]
fn refused_records() {
    let refused = |record: &[u8], order| read_record(record, order) == Err(Number::BadRecord);
    let good = press(1, 0);
    assert!(!refused(&good, b'B') && !refused(&good, b'l'));
    assert!(refused(&good, b'b') && refused(&good, 0));
    assert!(refused(&good[..31], b'B') && refused(&[], b'B'));
    for code in 0..=255u8 {
        let in_range = (2..=34).contains(&(code & 0x7F));
        assert_eq!(
            refused(&record(code, 8, 0, 0), b'l'),
            !in_range,
            "code {code}"
        );
    }
    assert!(refused(&record(KEY_PRESS, 7, 0, 0), b'l'));
    assert!(refused(&record(KEY_RELEASE, 0, 0, 0), b'l'));
}

// "Selection"

#[test]
fn dropped_and_refused_records_are_not_heard() {
    let table = table(P);
    let map = key_map(0, 0);
    let mut matcher = Matcher::new(&table, bare(&map), 100);
    let none = (Number::Accepted, None);
    assert_eq!(matcher.call(&press(1, 0), b'B'), none);
    assert_eq!(matcher.call(&record(EXPOSE, 0, 0, 0), b'B'), none);
    assert_eq!(matcher.call(&press(2, 0), b'?'), (Number::BadRecord, None));
    assert_eq!(
        matcher.call(&release(1, 0), b'B'),
        (Number::Accepted, Some(0))
    );
    assert_eq!(matcher.history().len(), 2);
}

#[test]
fn releases_of_an_expansion_are_heard() {
    let records = [press(1, 0), release(2, 0), release(1, 0), press(1, 0)];
    assert_eq!(selected("<Btn1Down>(2):x()", &records), [None; 4]);
}

#[test]
fn the_earliest_production_is_selected() {
    let text = "<BtnDown>:a()\n<Btn1Down>:b()";
    assert_eq!(selected(text, &[press(1, 0)]), [Some(0)]);
}

#[test]
fn a_later_start_is_the_smallest_that_reads_on() {
    let text =
        "<Btn1Down>,<Btn1Down>,<Btn2Down>,<Btn3Down>:a()\n<Btn1Down>,<Btn2Down>,<Btn4Down>:b()";
    let buttons = [1, 1, 2, 4].map(|button| press(button, 0));
    assert_eq!(selected(text, &buttons), [None, None, None, Some(1)]);
}

#[test]
fn tested_bits_of_a_table() {
    let map = key_map(0, 0);
    let tested = |text| tested_bits(&table(text), bare(&map));
    assert_eq!(tested("Ctrl ~Button1<Key>a:"), CTRL | BUTTON1);
    assert_eq!(tested("<BtnMotion>:"), 0x1F00);
    assert_eq!(tested("Button2<BtnMotion>:"), BUTTON2);
    assert_eq!(tested(":<Key>a:"), SHIFT | LOCK);
    assert_eq!(tested(":<Key>:\n<Key>a:"), 0);
    assert_eq!(tested("None<Enter>:"), ALL);
}

// "Merging and writing"

#[test]
fn merging_by_directive() {
    let old = "<Key>a:old1()\n<Key>b:old2()";
    let new = "<Key>c:new1()\n<Key>b:new2()";
    let merged = |directive: &str| written_merged(old, &format!("{directive}{new}"));
    let [a, b_old] = ["<KeyPress>a:old1()\n", "<KeyPress>b:old2()\n"];
    let [c, b_new] = ["<KeyPress>c:new1()\n", "<KeyPress>b:new2()\n"];
    assert_eq!(merged(""), [c, b_new].concat());
    assert_eq!(merged("#override\n"), [c, b_new, a].concat());
    assert_eq!(merged("#augment\n"), [a, b_old, c].concat());

    let texts = [old.as_bytes(), b"#override\n<Key>c:new1(x)"];
    let table = merge(&table(old), &table(texts[1])).unwrap();
    assert_eq!((table.directive, table.merged), (Directive::Replace, true));
    let part = parameter(&table, &texts, 0, 0, 0).unwrap();
    assert_eq!((part.text, part.bytes(&texts)), (1, b"x".as_slice()));
    assert_eq!(name(&table, &texts, 1, 0).unwrap().text, 0);
}

#[test]
fn the_whole_written_example() {
    let text = "#override\ns c<Key>a : go(now,) stop()\n<Btn1Up>(2): ok()";
    assert_eq!(
        written(text),
        "Ctrl Shift<KeyPress>a:go(\"now\",\"\") stop()\n<ButtonRelease>(2)Button1:ok()\n"
    );
}

#[test]
fn written_events() {
    let pairs = [
        ("None<Key>a:", "!<KeyPress>a:\n"),
        ("!: Mod1 Ctrl<Key>A:", "!:Ctrl Mod1<KeyPress>A:\n"),
        (": ~Mod1<Key>Return:", ":~Mod1<KeyPress>Return:\n"),
        ("Button1~s<Enter>1:", "~Shift Button1<EnterNotify>Grab:\n"),
        (
            "<Enter>4,<Mapping>2:",
            "<EnterNotify>4,<MappingNotify>Pointer:\n",
        ),
        ("<BtnMotion>1:", "<BtnMotion>Hint:\n"),
        ("<Btn3Motion>:", "Button3<MotionNotify>:\n"),
        ("Button3<BtnMotion>:", "Button3<MotionNotify>:\n"),
        ("<GrExp> , <FocusIn>:", "<GraphicsExpose>,<FocusIn>:\n"),
    ];
    for (text, expected) in pairs {
        assert_eq!(written(text), expected);
    }
}
