//! what 02 says of key names, and examples on each side of what it leaves open
//! (docs/DECISIONS.md).

mod common;

use common::*;
use glykorant_reference::keysyms::{first_name, names, KEYS, LATIN_1};
use glykorant_reference::modifiers::ListedName;
use glykorant_reference::names::Name;
use std::collections::BTreeSet;

/// The names and values that are given with the readings.
const GIVEN: &str = include_str!("data/02/latin1-names.txt");

fn given() -> Vec<(&'static str, u32)> {
    let pair = |line: &'static str| {
        let (name, value) = line.split_once(" 0x").unwrap();
        (name, u32::from_str_radix(value, 16).unwrap())
    };
    GIVEN.lines().map(pair).collect()
}

/// The one keysym after `@`.
fn after_at_sign(run: &str) -> u32 {
    let names = event(format!("@{run}<Key>:")).test.names;
    match names[..] {
        [ListedName {
            name: Name::Keysym(keysym),
            negated: false,
        }] => keysym,
        _ => panic!("{names:?}"),
    }
}

/// The detail that is written for a keysym.
fn written_detail(keysym: u32) -> String {
    let line = written(format!("<Key>{keysym:#x}:"));
    let detail = line.strip_prefix("<KeyPress>").unwrap();
    detail.strip_suffix(":\n").unwrap().to_string()
}

/// "197 names for 191 values, 1,100 name bytes", "0x20 to 0x7E and 0xA0 to 0xFF".
#[test]
fn the_names_of_the_header() {
    let given = given();
    let sorted = |names: &[(&'static str, u32)]| BTreeSet::from_iter(names.iter().copied());
    assert_eq!(sorted(LATIN_1), sorted(&given));
    assert_eq!((LATIN_1.len(), sorted(LATIN_1).len()), (197, 197));
    let bytes: usize = LATIN_1.iter().map(|(name, _)| name.len()).sum();
    assert_eq!(bytes, 1100);
    let values: BTreeSet<u32> = LATIN_1.iter().map(|&(_, value)| value).collect();
    assert_eq!(
        Vec::from_iter(values),
        Vec::from_iter((0x20..=0x7E).chain(0xA0..=0xFF))
    );
    // In the header's order they rise, and a letter or digit is its own name.
    assert!(LATIN_1.windows(2).all(|two| two[0].1 <= two[1].1));
    let short = LATIN_1.iter().filter(|(name, _)| name.len() == 1);
    for (name, value) in short {
        assert_eq!(u32::from(name.as_bytes()[0]), *value);
    }
}

#[test]
fn every_name_is_read() {
    assert_eq!(names().count(), 25 + 197);
    for (name, value) in names() {
        assert_eq!(detail(format!("<Key>{name}:")), Some(value), "{name}");
        assert_eq!(detail(format!("<KeyUp>{name}:")), Some(value), "{name}");
        assert_eq!(after_at_sign(name), value, "{name}");
    }
    // "Beside the names we have": three of them are of both kinds.
    let both = KEYS.iter().filter(|known| LATIN_1.contains(known));
    let both: Vec<&str> = both.map(|(name, _)| *name).collect();
    assert_eq!(both, ["space", "comma", "colon"]);
}

/// "A name not found is still 5."
#[test]
fn names_not_found() {
    let found = ["Eth", "Thorn", "quoteright", "quoteleft", "eacute"];
    let not_found = [
        // Of later headers.
        "guillemetleft",
        "ordmasculine",
        // Of the header, and not Latin-1.
        "Linefeed",
        "Meta_L",
        "dead_acute",
        "XK_a",
        // Next to a name.
        "EACUTE",
        "eacut",
        "eacutes",
        "eacuté",
        "Space",
        "eTH",
        "aa",
        "A1",
    ];
    all_give(0, &found.map(|name| format!("<Key>{name}:")));
    all_give(5, &not_found.map(|name| format!("<Key>{name}:")));
    // "Names are case-sensitive."
    assert_eq!(detail("<Key>Eacute:"), Some(0xC9));
    assert_eq!(detail("<Key>eacute:"), Some(0xE9));
    // They are names of keys alone.
    all_give(
        5,
        &[
            "<BtnDown>eacute:",
            "<Motion>eacute:",
            "<Enter>a:",
            "<Mapping>at:",
            "<Expose>eacute:",
            "eacute<Key>a:",
            "<eacute>:",
        ],
    );
    all_give(10, &["<Prop>eacute:"]);
}

/// "After `@` the run in 01 is read as a key detail is."
#[test]
fn names_after_the_at_sign() {
    assert_eq!(after_at_sign("eacute"), 0xE9);
    assert_eq!(after_at_sign("quoteleft"), 0x60);
    all_give(0, &["~@eacute @Return<Key>:"]);
    all_give(
        5,
        &[
            "@Meta_L<Key>:",
            "@None<Key>:",
            "@08<Key>:",
            "@guillemetleft<Key>:",
            "@XK_a<Key>:",
            "@Eacut<Key>:",
        ],
    );
    // Names of one keysym count once.
    all_give(0, &["@ETH @Eth @208 @0xd0 @0320 @b @c @d<Key>:"]);
    all_give(11, &["@ETH @eth @b @c @d<Key>:"]);
    // "After `@` it keeps hexadecimal."
    assert_eq!(written("@eacute<Key>eacute:"), "@0xe9<KeyPress>eacute:\n");
    assert_eq!(
        written("~@Return @a<Key>0xff0d:"),
        "@0x61 ~@0xff0d<KeyPress>Return:\n"
    );
}

/// "The name where there is one" means all names held, 01's too.
#[test]
fn written_names() {
    let named = [
        (0xFF0D, "Return"),
        (0xFFC9, "F12"),
        (0xFFFF, "Delete"),
        (0x35, "5"),
        (0x20, "space"),
        (0x2C, "comma"),
        (0x3A, "colon"),
        (0x28, "parenleft"),
        (0x7E, "asciitilde"),
        (0xA0, "nobreakspace"),
        (0xFF, "ydiaeresis"),
        // "The first in byte order where two share a value."
        (0x27, "apostrophe"),
        (0x60, "grave"),
        (0xD0, "ETH"),
        (0xDE, "THORN"),
        (0xD8, "Ooblique"),
        (0xF8, "ooblique"),
    ];
    for (keysym, name) in named {
        assert_eq!(written_detail(keysym), name);
    }
    // "And hexadecimal otherwise."
    for keysym in [0, 1, 0x1F, 0x7F, 0x80, 0x9F, 0x100, 0xFF0A, 0xFFE7] {
        assert_eq!(written_detail(keysym), format!("{keysym:#x}"));
    }
    let pairs = [
        ("<Key>00:", "<KeyPress>0x0:\n"),
        ("<KeyUp>0xff0d:", "<KeyRelease>Return:\n"),
        ("<Key>(2)(:", "<KeyPress>(2)parenleft:\n"),
        ("<Meta>Eth:", "Meta<KeyPress>ETH:\n"),
        (
            "\", :\":",
            "<KeyPress>comma,<KeyPress>space,<KeyPress>colon:\n",
        ),
        ("<Enter>97:", "<EnterNotify>97:\n"),
    ];
    for (text, expected) in pairs {
        assert_eq!(written(text), expected);
        assert_eq!(written(expected), expected);
    }
}

/// Whatever is written for a keysym reads as that keysym.
#[test]
fn written_details_read_back() {
    let of_names = names().map(|(_, value)| value);
    for keysym in (0..0x200).chain(of_names) {
        let text = written_detail(keysym);
        assert_eq!(detail(format!("<Key>{text}:")), Some(keysym), "{text}");
        let hexadecimal = text.starts_with("0x");
        assert_eq!(hexadecimal, first_name(keysym).is_none(), "{text}");
    }
}

/// A name is another spelling of its keysym.
#[test]
fn names_and_numbers() {
    let spellings: [&[u8]; 5] = [b"eacute", b"0xe9", b"233", b"0351", b"\xE9"];
    let of = |spelling: &[u8]| events([b"<Key>", spelling, b":"].concat());
    for spelling in spellings {
        assert_eq!(of(spelling), of(b"eacute"));
    }
    assert_ne!(of(b"eacute"), of(b"Eacute"));
    assert_eq!(
        written_merged("<Key>0xd0:o()", "#override\n<Key>Eth:n()"),
        "<KeyPress>ETH:n()\n"
    );
    assert!(key_matches("<Key>eacute:", (0xE9, 0), 0));
    assert!(key_matches(":<Key>Eacute:", (0xE9, 0), SHIFT));
    assert!(!key_matches(":<Key>Eacute:", (0xE9, 0), 0));
}
