//! Examples on each side of what document 01 leaves open (docs/DECISIONS.md), but for those that turn (`names.rs`, `motion.rs`).

mod common;

use common::*;
use glykorant_reference::keyboard::keysym;
use glykorant_reference::{merge, read_record, Matcher, Number};

// "Tokens, blanks, lines"

#[test]
fn blanks_around_tokens() {
    let same = [
        ("< Key >a:", "<Key>a:"),
        ("~ Shift<Key>a:", "~Shift<Key>a:"),
        ("! : Ctrl<Key>a:", "!:Ctrl<Key>a:"),
        ("<Key> ( 2 ) a:", "<Key>(2)a:"),
    ];
    for (blanks, none) in same {
        assert_eq!(events(blanks), events(none));
    }
    all_give(10, &["<Key>( 2 + )a:"]);
    all_give(4, &["<Key>(1 2)a:", "<Key>a:f ()", "@ x<Key>a:"]);
}

#[test]
fn letters_are_ascii() {
    all_give(
        4,
        &[
            b"\xE9<Key>a:".as_slice(),
            b"\xA0<Key>a:",
            b"<K\xE9y>a:",
            b"<Key>a:\xE9()",
        ],
    );
}

#[test]
fn lines_of_no_bytes() {
    assert_eq!(table("\n\n<Key>a:\n\n").productions.len(), 1);
    assert_eq!(refusal("<Key>a:\n  <Foo>:"), (5, 8));
}

#[test]
fn directives_stand_exactly() {
    all_give(0, &["#override", "#override\n", "#override\n\n<Key>a:"]);
    all_give(
        4,
        &[
            " #override\n",
            "#override \n",
            "\n#override\n",
            "#overrides\n",
        ],
    );
}

#[test]
fn line_by_line() {
    let long = vec!["<Map>"; 25].join(",");
    assert_eq!(refusal(format!("{long}:\nnonsense")), (11, 0));
    assert_eq!(refusal(format!("nonsense\n{long}:")), (4, 0));
}

// "Events"

#[test]
fn none_and_any_stand_alone() {
    all_give(
        4,
        &[
            "!None<Key>a:",
            ":None<Key>a:",
            "~None<Key>a:",
            "None Shift<Key>a:",
            "Shift None<Key>a:",
            "None Foo<Key>a:",
            "None None<Key>a:",
            "!Any<Key>a:",
            ":Any<Key>a:",
            "~Any<Key>a:",
            "Any Shift<Key>a:",
            "None Any<Key>a:",
        ],
    );
    all_give(5, &["none<Key>a:"]);
}

#[test]
fn modifiers_are_parted() {
    all_give(4, &["Shift@x<Key>a:", "@a@b<Key>a:"]);
    all_give(5, &["ShiftCtrl<Key>a:"]);
    all_give(0, &["s~c<Key>a:", "Shift @x<Key>a:", "@a~@b<Key>a:"]);
}

#[test]
fn at_sign_and_types() {
    all_give(4, &["@<Key>a:", ":x()", "<>:", "<Key_>:"]);
    all_give(5, &["<Foo>:"]);
}

#[test]
fn details_run_on() {
    all_give(5, &["<Key>a(2):", "<Key>a<Key>b:", "<Key>\"a\":"]);
    all_give(4, &["<Key>a b:"]);
    assert_eq!(detail("<Key>\":"), Some(0x22));
    let spec = event("<Key>(2)(:");
    assert_eq!((spec.count, spec.detail), (2, Some(0x28)));
}

#[test]
fn counts() {
    all_give(
        4,
        &["<Key>()a:", "<Key>(x)a:", "<Key>(-1)a:", "<Key>(2++)a:"],
    );
    all_give(
        6,
        &["<Key>(0)a:", "<Key>(01)a:", "<Key>(10)a:", "<Motion>(1):"],
    );
    all_give(6, &["<Key>(0+)a:", "<Motion>(2+):"]);
}

#[test]
fn key_sequences() {
    let pairs = |text: &str| -> Vec<(u16, u32)> {
        let events = events(text);
        events
            .iter()
            .map(|spec| (spec.test.set, spec.detail.unwrap()))
            .collect()
    };
    assert_eq!(pairs("\"^\"\":"), [(CTRL, 0x22)]);
    assert_eq!(pairs("\"^\\a\":"), [(CTRL, 0x5C), (0, 0x61)]);
    all_give(4, &["\"^\t\":", "\"\\\t\":", "\"$\t\":", "\"a:", "\"^\":"]);
    all_give(4, &["Ctrl\"a\":", "\"a\"(2):", "\"\":"]);
    assert_eq!(events("<Map>,\"ab\",<Map>:").len(), 4);
    all_give(0, &[format!("\"{}\":", "a".repeat(24))]);
    all_give(11, &[format!("\"{}\":", "a".repeat(25))]);
    // Each character is checked as an event of its own.
    all_give(10, &["\"a\",<Key>(2+)a,<Foo>:"]);
    all_give(5, &["\"a\",<Foo>,<Key>(2+)a:"]);
}

#[test]
fn all_checks_on_one_event_come_first() {
    all_give(8, &["s ~s<Key>a,<Foo>:"]);
    all_give(5, &["<Foo>,s ~s<Key>a:"]);
}

#[test]
fn meta_is_a_key_press() {
    all_give(5, &["<Meta>bogus:", "Foo Meta<Key>a:"]);
    all_give(6, &["<Meta>(0)a:"]);
    all_give(0, &["<Meta>a:", "<Meta>(2)a:"]);
}

#[test]
fn atoms_and_buttons() {
    for name in ["Prop", "SelClr", "SelReq", "Select", "Message"] {
        all_give(10, &[format!("<{name}>x:")]);
    }
    all_give(6, &["<Prop>(2)x:"]);
    all_give(
        5,
        &["<BtnDown>1:", "<BtnDown>Button6:", "<Btn1Down>Button1:"],
    );
}

#[test]
fn malformed_comes_before_too_large() {
    all_give(
        5,
        &[
            "<Key>0x99999999999g:",
            "<Key>08:",
            "<Key>0x:",
            "<Motion>0256:",
        ],
    );
    all_give(6, &["<Motion>256:", "<Key>0x20000000:"]);
    assert_eq!(detail("<Key>0x0:"), Some(0));
    assert_eq!(detail("<Key>00:"), Some(0));
    assert_eq!(detail("<Key>0:"), Some(0x30));
}

#[test]
fn expose_types() {
    all_give(0, &["<GraphicsExpose>:", "<NoExpose>:"]);
    all_give(5, &["<GraphicsExposure>:", "<NoExposure>:"]);
}

#[test]
fn added_modifiers_and_colons() {
    assert_eq!(event("Any<Ctrl>:").test.set, CTRL);
    assert!(event("Any<BtnMotion>:").test.clause);
    all_give(9, &[":~Shift<Key>a:"]);
    assert!(event(":<Key>:").test.colon);
}

#[test]
fn expanded_events_are_counted() {
    // Seventeen events a line.
    let line = "<Btn1Down>(9):\n";
    assert_eq!(number(line.repeat(15) + "<Map>:"), 0);
    assert_eq!(number(line.repeat(15) + "<Btn1Down>(2):"), 11);
    // "A release counted 1 is one release."
    assert_eq!(selected("<Btn1Up>(1):x()", &[release(1, 0)]), [Some(0)]);
}

// "Calls"

#[test]
fn calls_and_parameters() {
    assert_eq!(calls("<Map>:f()g()").len(), 2);
    assert_eq!(parameters("<Map>:f( )").len(), 0);
    assert_eq!(parameters("<Map>:f( , )"), [b"", b""]);
    assert_eq!(parameters("<Map>:f(a(b)"), [b"a(b"]);
    all_give(4, &["<Map>:f(\"a\"b)", "<Map>:f(a\"b)", "<Map>:f(a b)"]);
    assert_eq!(parameters("<Map>:f(it's)"), [b"it's"]);
    assert_eq!(parameters("<Map>:f(\"a\tb\\\")"), [b"a\tb\\"]);
}

// "Keyboard, records, matching"

#[test]
fn latin_1_letters() {
    for other in [0xDF, 0xFF, 0xAA, 0xBA, 0xD7, 0xF7] {
        let map = key_map(other, 0);
        for state in [0, SHIFT, LOCK, SHIFT | LOCK] {
            assert_eq!(keysym(&map, KEYCODE, state), other);
        }
    }
    // Lock acts on what Shift picked.
    let map = key_map(0x31, 0x61);
    assert_eq!(keysym(&map, KEYCODE, LOCK), 0x31);
    assert_eq!(keysym(&map, KEYCODE, SHIFT | LOCK), 0x41);
}

#[test]
fn details_and_cared_for_bits() {
    assert!(key_matches("<Key>0x0:", (0, 0), 0));
    assert!(!key_matches("<Key>0x0:", (0x61, 0), 0));
    for state in [0, SHIFT, LOCK, SHIFT | LOCK] {
        assert!(!key_matches("Shift<Key>a:", (0x61, 0x41), state));
    }
    assert!(key_matches("Shift<Key>A:", (0x61, 0x41), SHIFT));
    assert!(key_matches("!Shift<Key>A:", (0x61, 0x41), SHIFT));
    assert!(!key_matches("None<Key>A:", (0x61, 0x41), 0));
}

#[test]
fn records_refused_before_dropping() {
    let long = [press(1, 0), vec![0]].concat();
    assert_eq!(read_record(&long, b'B'), Err(Number::BadRecord));
    let empty = table("");
    let map = key_map(0, 0);
    let mut matcher = Matcher::new(&empty, bare(&map), 100);
    assert_eq!(matcher.call(&long, b'B'), (Number::BadRecord, None));
    assert_eq!(
        matcher.call(&record(EXPOSE, 0, 0, 0), b'x'),
        (Number::BadRecord, None)
    );
    assert_eq!(
        matcher.call(&record(EXPOSE, 0, 0, 0), b'l'),
        (Number::Accepted, None)
    );
}

#[test]
fn a_selection_does_not_close_the_context() {
    let text = "<Btn1Down>:x()\n<Btn1Down>,<Btn1Up>:y()";
    assert_eq!(
        selected(text, &[press(1, 0), release(1, 0)]),
        [Some(0), Some(1)]
    );
}

#[test]
fn only_the_counted_kind_is_timed() {
    let late_release = [press(1, 0), release(1, 1000), press(1, 99)];
    assert_eq!(
        selected("<Btn1Down>(2):x()", &late_release),
        [None, None, Some(0)]
    );
}

// "Merging and writing"

#[test]
fn equality_before_expansion() {
    let replaced = |old: &str, new: &str| {
        let new = format!("#override\n{new}:n()");
        let merged = merge(&table(format!("{old}:o()")), &table(new)).unwrap();
        merged.productions.len() == 1
    };
    assert!(replaced("<Btn1Down>", "<BtnDown>Button1"));
    assert!(replaced("\"ab\"", "<Key>a,<Key>b"));
    assert!(!replaced(":<Key>", "<Key>"));
    let clear = "~Button1 ~Button2 ~Button3 ~Button4";
    assert!(!replaced(
        &format!("{clear}<BtnMotion>"),
        &format!("{clear} Button5<Motion>")
    ));
    assert!(!replaced("<Btn1Down>(2)", "<Btn1Down>,<Btn1Up>,<Btn1Down>"));
}

#[test]
fn equal_productions_within_one_table_stay() {
    let merged = written_merged("<Key>a:a()\n<Key>a:b()", "#augment\n<Key>b:c()\n<Key>b:d()");
    assert_eq!(merged.lines().count(), 4);
    let replaced = merge(&table("<Key>a:o()"), &table("<Key>b:n()")).unwrap();
    assert!(replaced.merged);
    assert_eq!(replaced.productions[0].calls[0].text, 1);
}

#[test]
fn writing() {
    let pairs = [
        ("<Key>(1)a:f()", "<KeyPress>a:f()\n"),
        ("<Key>:", "<KeyPress>:\n"),
        ("", ""),
        ("#augment\n", ""),
        ("<Motion>0:", "<MotionNotify>Normal:\n"),
        ("Lock~Ctrl s<Key>:", "~Ctrl Shift Lock<KeyPress>:\n"),
    ];
    for (text, expected) in pairs {
        assert_eq!(written(text), expected);
    }
    // Testable bits are 13, beside a colon 11.
    let eleven = "Ctrl ~Mod1 ~Mod2 ~Mod3 ~Mod4 ~Mod5 ~Button1 ~Button2 ~Button3 ~Button4 ~Button5";
    assert_eq!(written(format!(":{eleven}<Key>a:")), "!:Ctrl<KeyPress>a:\n");
    assert_eq!(
        written(format!("{eleven}<Key>a:")),
        format!("{eleven}<KeyPress>a:\n")
    );
    let thirteen = format!("~Shift ~Lock {eleven}<Key>a:");
    assert_eq!(written(thirteen), "!Ctrl<KeyPress>a:\n");
}
