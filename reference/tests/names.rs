//! Examples on each side of what R-1 leaves open (docs/DECISIONS.md), and those for document 01 that R-1 turns.

mod common;

use common::*;
use glykorant_reference::modifiers::ListedName;
use glykorant_reference::names::Name;
use glykorant_reference::resolving::ROWS;
use glykorant_reference::selection::tested_bits;
use glykorant_reference::{merge, Maps, Matcher, Number};

const META_L: u32 = 0xFFE7;
const META_R: u32 = 0xFFE8;
const HYPER_R: u32 = 0xFFEE;

/// A key with Meta's left keysym, and others for any pairs.
const META: u8 = 64;
const OTHER: u8 = 66;
const THIRD: u8 = 67;

/// A keyboard with the pair (a, A) and Meta's key, whose modifiers are still to be put on.
struct Keyboard {
    map: Vec<u32>,
    modifiers: Vec<u8>,
}

const IN_ROW: usize = 3;

impl Keyboard {
    fn new() -> Keyboard {
        let keyboard = Keyboard {
            map: key_map(0x61, 0x41),
            modifiers: vec![0; ROWS * IN_ROW],
        };
        keyboard.with_pair(META, META_L, 0)
    }

    fn with_pair(mut self, keycode: u8, first: u32, second: u32) -> Keyboard {
        let at = 2 * usize::from(keycode - 8);
        self.map[at..at + 2].copy_from_slice(&[first, second]);
        self
    }

    /// The keycode stands in the bit's row, after those that stand there.
    fn on(mut self, bit: u16, keycode: u8) -> Keyboard {
        let row = IN_ROW * bit.trailing_zeros() as usize;
        let unused = (row..row + IN_ROW).find(|&at| self.modifiers[at] == 0);
        self.modifiers[unused.expect("the row has room")] = keycode;
        self
    }

    fn maps(&self) -> Maps<'_> {
        Maps {
            keyboard: &self.map,
            modifiers: &self.modifiers,
        }
    }

    /// What is selected at the key with (a, A) in a state.
    fn selects(&self, text: &str, state: u16) -> Option<usize> {
        selected_with(text, self.maps(), 100, &[key(state)])[0]
    }

    fn matches(&self, text: &str, state: u16) -> bool {
        self.selects(text, state) == Some(0)
    }

    /// Whether a text matches the key in some state of the first eight bits.
    fn can_match(&self, text: &str) -> bool {
        (0..256).any(|state| self.matches(text, state))
    }

    fn tested(&self, text: &str) -> u16 {
        tested_bits(&table(text), self.maps())
    }
}

/// "Meta on Mod1."
fn meta_on(bit: u16) -> Keyboard {
    Keyboard::new().on(bit, META)
}

/// The names of the first event.
fn names(text: &str) -> Vec<(Name, bool)> {
    let names = event(text).test.names;
    let form = |listed: &ListedName| (listed.name, !listed.negated);
    names.iter().map(form).collect()
}

fn keysyms(text: &str) -> Vec<u32> {
    event(text).test.keysyms()
}

/// Whether a new production overrides the old one.
fn equal(old: &str, new: &str) -> bool {
    let new = format!("#override\n{new}:n()");
    let merged = merge(&table(format!("{old}:o()")), &table(new)).unwrap();
    merged.productions.len() == 1
}

// "Rows are bits 0..7 in the protocol's order."

#[test]
fn rows_are_bits() {
    for bit in (0..8).map(|at| 1 << at) {
        let keyboard = meta_on(bit);
        assert_eq!(keyboard.maps().bits(Name::Meta), bit);
        for other in (0..8).map(|at| 1 << at) {
            assert_eq!(keyboard.matches("Meta<Key>:", other), other == bit);
            assert_eq!(keyboard.matches("~Meta<Key>:", other), other != bit);
        }
    }
}

#[test]
fn left_or_right_first_or_second() {
    let relatives = [
        ("Meta", [0xFFE7, 0xFFE8]),
        ("Alt", [0xFFE9, 0xFFEA]),
        ("Super", [0xFFEB, 0xFFEC]),
        ("Hyper", [0xFFED, 0xFFEE]),
    ];
    for (name, own) in relatives {
        let text = format!("{name}<Key>a:");
        for keysym in 0xFFE6..=0xFFEF {
            for (first, second) in [(keysym, 0), (0x61, keysym)] {
                let keyboard = Keyboard::new().with_pair(OTHER, first, second);
                let keyboard = keyboard.on(MOD5, OTHER);
                assert_eq!(keyboard.matches(&text, MOD5), own.contains(&keysym));
            }
        }
    }
}

#[test]
fn any_keycode_of_a_row() {
    let keyboard = Keyboard::new().on(MOD2, 8).on(MOD2, 255).on(MOD2, META);
    assert!(keyboard.matches("Meta<Key>a:", MOD2));
    let keyboard = Keyboard::new().with_pair(8, META_L, 0).on(MOD3, 8);
    assert!(keyboard.matches("Meta<Key>a:", MOD3));
    let keyboard = Keyboard::new().with_pair(255, 0, META_R).on(MOD3, 255);
    assert!(keyboard.matches("Meta<Key>a:", MOD3));
}

/// "(s, 0) holds s and not S."
#[test]
fn pairs_as_lent() {
    let keyboard = Keyboard::new().with_pair(OTHER, 0x73, 0).on(CTRL, OTHER);
    assert!(keyboard.matches("@s<Key>a:", CTRL));
    assert!(!keyboard.can_match("@S<Key>a:"));
}

/// "'Holds' is literal for 0 too", and "only an entry 0 of a row is 'unused'".
#[test]
fn keysym_0() {
    let keyboard = Keyboard::new().with_pair(OTHER, 0x42, 0).on(MOD1, OTHER);
    assert!(keyboard.matches("@00<Key>a:", MOD1));
    assert!(!keyboard.matches("@00<Key>a:", 0));
    assert!(!Keyboard::new().can_match("@00<Key>a:"));
    assert!(Keyboard::new().matches("~@00<Key>a:", MOD1));
}

#[test]
fn all_bits_of_a_name() {
    let keyboard = meta_on(MOD1).with_pair(OTHER, META_R, 0).on(MOD2, OTHER);
    for (state, set, clear) in [
        (0, false, true),
        (MOD1, false, false),
        (MOD2, false, false),
        (MOD1 | MOD2, true, false),
        (MOD1 | MOD2 | MOD3, true, false),
    ] {
        assert_eq!(keyboard.matches("Meta<Key>a:", state), set);
        assert_eq!(keyboard.matches("~Meta<Key>a:", state), clear);
    }
}

// "After `@` the run 'is read as a key detail is'."

#[test]
fn runs_after_the_at_sign() {
    assert_eq!(keysyms("@5<Key>:"), [0x35]);
    assert_eq!(keysyms("@10<Key>:"), [10]);
    assert_eq!(keysyms("@a<Key>:"), [0x61]);
    assert_eq!(keysyms("@_<Key>:"), [0x5F]);
    assert_eq!(keysyms("@Return<Key>:"), [0xFF0D]);
    assert_eq!(keysyms("@0X1fffffff<Key>:"), [0x1FFF_FFFF]);
    assert_eq!(names("a<Key>:"), [(Name::Alt, true)]);
    all_give(
        5,
        &[
            "@Meta_L<Key>a:",
            "@None<Key>a:",
            "@08<Key>a:",
            "@0x<Key>a:",
            "@Meta<Key>a:",
        ],
    );
    all_give(0, &["@0xffe7<Key>a:", "~ @a<Key>a:"]);
    all_give(6, &["@0x20000000<Key>a:", "@99999999999999999999<Key>a:"]);
    all_give(4, &["@<Key>a:", "@ a<Key>a:", "@a-b<Key>a:"]);
}

// "Four different keysyms in an event."

#[test]
fn four_keysyms() {
    all_give(
        0,
        &[
            "@a ~@a @97 @b @c @d Meta Alt<Key>e:",
            "@a @b @c<Key>a,@d @e<Key>a:",
            "@a @b @c @d @0141 @0x61<Key>e:",
        ],
    );
    all_give(
        11,
        &[
            "@a @b @c @d ~@e<Key>a:",
            "<Key>a,@1 @2 @3 @4 @5<Key>a:",
            "~@a ~@b ~@c ~@d ~@e<Btn1Down>:",
        ],
    );
    assert_eq!(refusal("<Key>:\n@a @b @c @d ~@e<Key>a:"), (11, 7));
    // "In 11's turn."
    all_give(5, &["@a @b @c @d @e<Key>a,<Foo>:"]);
    all_give(8, &["@a @b @c @d @e<Key>a,s~s<Key>a:"]);
    all_give(7, &["@a @b @c @d @e<Expose>:"]);
}

// "`<Meta>` and `$` read as Meta listed."

#[test]
fn meta_as_a_type_and_in_key_sequences() {
    let same = [
        ("!<Meta>a:", "!Meta<Key>a:"),
        ("~Meta<Meta>a:", "Meta ~Meta<Key>a:"),
        ("None<Meta>a:", "!Meta<Key>a:"),
        ("Any<Meta>a:", "Meta<Key>a:"),
        ("Meta<Meta>a:", "Meta<Key>a:"),
        (":<Meta>a:", ":Meta<Key>a:"),
        ("\"$a\":", "Meta<Key>a:"),
        ("\"$\\\":", "Meta<Key>0x5c:"),
        ("\"$^a\":", "Meta<Key>0x5e,<Key>a:"),
        ("\"^$a\":", "Ctrl<Key>0x24,<Key>a:"),
        ("\"$\"\":", "Meta<Key>0x22:"),
        ("\"$$\":", "Meta<Key>0x24:"),
        ("\"\\$a\":", "<Key>0x24,<Key>a:"),
    ];
    for (text, meant) in same {
        assert_eq!(events(text), events(meant), "{text}");
    }
    all_give(8, &["!<Ctrl>a:"]);
    all_give(
        4,
        &["!None<Meta>a:", "None Meta<Key>a:", "\"$\":", "\"$\t\":"],
    );
    assert!(event("None<Meta>a:").test.exclamation);
    assert!(!event("Any<Meta>a:").test.exclamation);
    let keyboard = meta_on(MOD4);
    assert!(keyboard.matches("None<Meta>a:", MOD4));
    assert!(!keyboard.matches("None<Meta>a:", MOD4 | MOD1));
    assert!(keyboard.matches("Any<Meta>a:", MOD4 | MOD1));
    assert!(keyboard.matches("\"$a\":", MOD4 | MOD1));
    assert!(!keyboard.matches("\"$a\":", MOD1));
}

// "8 as if these names weren't there."

#[test]
fn the_order_of_the_checks() {
    all_give(
        8,
        &[
            "!Meta<Ctrl>a:",
            "!Meta<BtnMotion>:",
            "Shift ~Shift Meta<Key>a:",
            "None<BtnMotion>:",
        ],
    );
    all_give(
        0,
        &[
            "Meta ~Meta<Key>a:",
            "!Meta Ctrl<Ctrl>a:",
            "Meta ~Mod1<Key>a:",
            "!Meta Button1<BtnMotion>:",
        ],
    );
    all_give(7, &["Meta<Expose>:", "~@a<FocusIn>:"]);
    all_give(10, &["Meta<Prop>foo:", "Meta<Key>(2+)a:", "<Meta>(2+)a:"]);
    all_give(6, &["@0x20000000<Prop>foo:", "@0x20000000<Expose>:"]);
    all_give(
        5,
        &["@bogus<Expose>:", "@0x20000000<Foo>:", "@bogus<Key>(0)a:"],
    );
    all_give(
        9,
        &[":Meta Shift<Key>a:", ":Meta<Btn1Down>:", ":~Lock @a<Key>a:"],
    );
    all_give(0, &[":Meta<Key>a:", "!:~Meta @0xffe1<KeyUp>:"]);
}

/// Those for document 01 that were 10.
#[test]
fn no_longer_refused_with_10() {
    all_give(
        0,
        &[
            "@x~Shift<Key>a:x()",
            "\"$\"\":x()",
            "<Meta>a:",
            "\"a$b\":x()",
        ],
    );
    all_give(5, &["\"a$b\",<Foo>:x()"]);
    all_give(9, &[":Shift<Meta>a:x()"]);
    for name in [
        "Meta", "m", "Alt", "a", "Hyper", "h", "Super", "su", "@x", "@F12",
    ] {
        all_give(0, &[format!("{name}<Key>a:"), format!("~{name}<Key>a:")]);
    }
}

// "Kept are `!`, the plain bits and the names, as a set."

#[test]
fn short_forms() {
    for (short, long) in [("m", "Meta"), ("a", "Alt"), ("h", "Hyper"), ("su", "Super")] {
        assert_eq!(
            events(format!("{short}<Key>:")),
            events(format!("{long}<Key>:"))
        );
    }
}

#[test]
fn kept_as_written() {
    let kept = |text| {
        let test = event(text).test;
        (test.set, test.clear, test.exclamation, test.clause)
    };
    assert_eq!(kept("!Ctrl ~Shift Meta<Key>a:"), (CTRL, SHIFT, true, false));
    assert_eq!(
        kept("!Ctrl ~Shift<Key>a:"),
        (CTRL, ALL & !CTRL, false, false)
    );
    // "A type's bit is a plain one."
    assert_eq!(kept("Meta<Ctrl>a:"), (CTRL, 0, false, false));
    assert!(equal("Meta<Ctrl>a", "Ctrl Meta<Key>a"));
    // "`Meta<BtnMotion>` keeps the clause, for names ask no button."
    assert_eq!(kept("Meta<BtnMotion>:"), (0, 0, false, true));
    assert_eq!(kept("Meta Button1<BtnMotion>:"), (BUTTON1, 0, false, false));
}

#[test]
fn equal_as_written() {
    assert!(!equal("!Meta<Key>a", "!~Shift Meta<Key>a"));
    let keyboard = meta_on(SHIFT);
    assert!(keyboard.can_match("!Meta<Key>A:") && !keyboard.can_match("!~Shift Meta<Key>A:"));

    let thirteen = "~Ctrl ~Shift ~Lock ~Mod1 ~Mod2 ~Mod3 ~Mod4 ~Mod5 \
                    ~Button1 ~Button2 ~Button3 ~Button4 ~Button5";
    let with_meta = format!("{thirteen} Meta<Key>a");
    assert_eq!(
        written(format!("{with_meta}:")),
        format!("{thirteen} Meta<KeyPress>a:\n")
    );
    assert!(!equal(&with_meta, &format!("!{with_meta}")));
    let without = format!("{thirteen}<Key>a");
    assert!(equal(&without, &format!("!{without}")) && equal(&without, "!<Key>a"));
    assert_eq!(written(format!("{without}:")), "!<KeyPress>a:\n");
}

#[test]
fn names_as_names() {
    assert!(equal("Meta Alt<Key>a", "Alt m a<Key>a"));
    assert!(equal("@a<Key>a", "@97<Key>a"));
    assert!(!equal("Meta<Key>a", "@0xffe7 @0xffe8<Key>a"));
    assert!(!equal("Meta<Key>a", "~Meta<Key>a") && !equal("Meta<Key>a", "Meta ~Meta<Key>a"));
    assert!(!equal("Meta<Key>a", "Alt<Key>a") && !equal("@a<Key>a", "@b<Key>a"));
    assert!(!equal("@a<Key>a", "~@a<Key>a") && !equal("@a @b<Key>a", "@a<Key>a"));
    assert!(!equal("!Meta<Key>a", "Meta<Key>a") && !equal(":Meta<Key>a", "Meta<Key>a"));
    assert!(equal("None<Meta>a", "!Meta<Key>a") && equal("Any<Meta>a", "\"$a\""));
}

// "The writer, 'rising' by value."

#[test]
fn written_names() {
    let pairs = [
        (
            "~m @0x100 m ~@b a @a ~Shift Button5<Key>:",
            "~Shift Button5 Meta ~Meta Alt @0x61 ~@0x62 @0x100<KeyPress>:\n",
        ),
        ("su a h m<Key>a:", "Meta Alt Hyper Super<KeyPress>a:\n"),
        ("~@b @b @b ~@b<Key>:", "@0x62 ~@0x62<KeyPress>:\n"),
        (
            "@5 @10 @010 @Return<Key>:",
            "@0x8 @0xa @0x35 @0xff0d<KeyPress>:\n",
        ),
        ("!:h<Key>a:", "!:Hyper<KeyPress>a:\n"),
        ("! ~Ctrl su<Enter>:", "!~Ctrl Super<EnterNotify>:\n"),
        ("@00<Btn1Down>(2):", "@0x0<ButtonPress>(2)Button1:\n"),
        (
            "None<Meta>a:\nAny<Meta>a:",
            "!Meta<KeyPress>a:\nMeta<KeyPress>a:\n",
        ),
        (
            "Meta<BtnMotion>:\nMeta<Btn1Motion>:",
            "Meta<BtnMotion>:\nButton1 Meta<MotionNotify>:\n",
        ),
    ];
    for (text, expected) in pairs {
        assert_eq!(written(text), expected);
        assert_eq!(written(expected), expected);
    }
}

// "Colon."

#[test]
fn beside_a_colon() {
    // With Meta on Lock alone `:Meta<Key>a` matches as `:<Key>a` does.
    let keyboard = meta_on(LOCK);
    for state in 0..256 {
        assert_eq!(
            keyboard.matches(":Meta<Key>a:", state),
            keyboard.matches(":<Key>a:", state)
        );
    }
    assert!(keyboard.matches(":Meta<Key>a:", 0) && !keyboard.matches(":Meta<Key>a:", LOCK));
    assert!(!keyboard.can_match(":Hyper<Key>a:"));
    // What isn't tested contradicts nothing.
    let keyboard = meta_on(SHIFT);
    assert!(keyboard.matches(":Meta ~Meta<Key>a:", 0));
    assert!(!keyboard.can_match("Meta ~Meta<Key>a:") && !keyboard.can_match("Meta ~Meta<Key>A:"));
    // The other bits of the name are tested.
    let keyboard = meta_on(SHIFT).on(MOD1, META);
    assert!(keyboard.matches(":Meta<Key>a:", MOD1) && !keyboard.matches(":Meta<Key>a:", 0));
    assert!(keyboard.matches(":Meta<Key>A:", MOD1 | SHIFT));
    assert!(keyboard.matches(":~Meta<Key>A:", SHIFT));
    // Nor does `!` ask Shift or Lock clear there.
    assert!(keyboard.matches("!:Meta<Key>A:", MOD1 | LOCK));
    assert!(!keyboard.matches("!:Meta<Key>A:", MOD1 | LOCK | MOD2));
}

// "No colon: a resolved Shift or Lock is cared for in the lookup as a listed one is."

#[test]
fn without_a_colon() {
    let keyboard = meta_on(SHIFT);
    assert!(keyboard.matches("Meta<Key>A:", SHIFT));
    assert!(!keyboard.matches("Meta<Key>a:", SHIFT));
    assert!(keyboard.matches("~Meta<Key>a:", 0) && !keyboard.matches("~Meta<Key>a:", SHIFT));
    // With Lock left open, upper case can be had.
    assert!(keyboard.matches("~Meta<Key>A:", 0));
    let keyboard = meta_on(LOCK);
    assert!(keyboard.matches("Meta<Key>A:", LOCK) && !keyboard.matches("Meta<Key>a:", LOCK));
    // `!` cares for both.
    let keyboard = meta_on(MOD1);
    assert!(keyboard.matches("!Meta<Key>a:", MOD1) && !keyboard.matches("!Meta<Key>A:", MOD1));
    assert!(keyboard.matches("Meta<Key>A:", MOD1));
}

#[test]
fn exclamation_with_names() {
    let keyboard = meta_on(MOD1).with_pair(OTHER, HYPER_R, 0).on(MOD3, OTHER);
    assert!(keyboard.matches("!Meta<Key>a:", MOD1));
    assert!(!keyboard.matches("!Meta<Key>a:", MOD1 | MOD3));
    assert!(keyboard.matches("!Meta Hyper<Key>a:", MOD1 | MOD3));
    // A name with `~` is listed too, and one that has no bit lists none.
    assert!(keyboard.matches("!Meta ~Hyper<Key>a:", MOD1));
    assert!(keyboard.matches("!Meta ~Super<Key>a:", MOD1));
    assert!(!keyboard.matches("!Meta ~Super<Key>a:", MOD1 | MOD5));
    assert!(!keyboard.can_match("!Meta Super<Key>a:"));
}

#[test]
fn contradicting_tests_match_nothing() {
    let keyboard = meta_on(MOD1)
        .with_pair(OTHER, HYPER_R, 0x62)
        .on(MOD1, OTHER);
    for text in [
        "Meta ~Mod1<Key>a:",
        "~Meta Mod1<Key>a:",
        "Meta ~Hyper<Key>a:",
        "@b ~@0xffe7<Key>a:",
        "~@b @0xffe7<Key>a:",
    ] {
        assert!(!keyboard.can_match(text), "{text}");
    }
    assert!(keyboard.can_match("Meta Hyper @b Mod1<Key>a:"));
    let keyboard = meta_on(CTRL);
    assert!(!keyboard.can_match("~Meta<Ctrl>a:") && keyboard.can_match("Meta<Ctrl>a:"));
}

/// "The matcher resolves them under the map in use."
#[test]
fn names_by_the_maps_in_use() {
    let on_mod1 = meta_on(MOD1);
    let on_mod4 = meta_on(MOD4);
    for (keyboard, bit) in [(on_mod1, MOD1), (on_mod4, MOD4)] {
        assert!(keyboard.matches("Meta<Key>a:", bit) && !keyboard.matches("Meta<Key>a:", 0));
        assert!(keyboard.matches("Ctrl<Key>a:", CTRL));
    }
}

// "'Counts as tested' speaks of demand 3, beside a colon too."

#[test]
fn tested_bits_of_names() {
    let keyboard = meta_on(SHIFT)
        .on(MOD1, META)
        .with_pair(OTHER, 0x78, HYPER_R)
        .on(MOD5, OTHER);
    assert_eq!(keyboard.tested("Meta<Key>:"), SHIFT | MOD1);
    assert_eq!(keyboard.tested("~Meta<Key>:"), SHIFT | MOD1);
    assert_eq!(keyboard.tested(":Meta<Key>:"), SHIFT | MOD1);
    assert_eq!(keyboard.tested(":Meta<Key>a:"), SHIFT | LOCK | MOD1);
    assert_eq!(keyboard.tested("Ctrl ~@x<Btn1Down>:"), CTRL | MOD5);
    assert_eq!(keyboard.tested("!~Meta<Key>:"), ALL);
    assert_eq!(keyboard.tested("!:@y<Key>:"), ALL & !SHIFT & !LOCK);
    assert_eq!(keyboard.tested("!:~Meta<Key>:"), ALL & !LOCK);
    // A name with no bit tests none.
    assert_eq!(keyboard.tested("Super<Key>:\n~Alt<Key>a:"), 0);
    assert_eq!(keyboard.tested("Super Hyper<Key>:"), MOD5);
}

// "A name with no bit stops its event, not its type."

#[test]
fn a_name_with_no_bit() {
    let keyboard = Keyboard::new();
    let idle = record(MOTION_NOTIFY, 0, 0, 0);
    let records = [press(1, 0), idle, release(1, 0)];
    let selects = |text| selected_with(text, keyboard.maps(), 100, &records);
    assert_eq!(selects("<Btn1Down>,<Btn1Up>:\nMeta<Motion>:"), [None; 3]);
    assert_eq!(selects("<Btn1Down>,<Btn1Up>:"), [None, None, Some(0)]);
    // With `~` it asks nothing.
    assert!(keyboard.matches("~Meta<Key>a:", 0) && keyboard.matches("~Meta<Key>a:", ALL));
    assert_eq!(keyboard.selects("Meta<Key>a:\n~Meta<Key>a:", 0), Some(1));
}

// "18 at every matcher call, names or not."

#[test]
fn modifier_maps_of_another_length() {
    let map = key_map(0x61, 0x41);
    for text in ["<Key>a:", "Meta<Key>a:", ""] {
        let table = table(text);
        for length in 0..=80 {
            let modifiers = vec![0; length];
            let maps = Maps {
                keyboard: &map,
                modifiers: &modifiers,
            };
            let good = [8, 16, 24, 32, 40, 48, 56, 64].contains(&length);
            let expected = match good {
                true => Number::Accepted,
                false => Number::BadModifierMap,
            };
            let found = Matcher::new(&table, maps, 100).call(&key(0), b'B').0;
            assert_eq!(found, expected, "{length}");
        }
    }
}

#[test]
fn entries_of_a_modifier_map() {
    let map = key_map(0x61, 0x41);
    let table = table("<Key>a:");
    for at in [0, 7, 8, 15] {
        for entry in 0..=255 {
            let mut modifiers = [0; 16];
            modifiers[at] = entry;
            let maps = Maps {
                keyboard: &map,
                modifiers: &modifiers,
            };
            let expected = match entry {
                1..=7 => (Number::BadModifierMap, None),
                _ => (Number::Accepted, Some(0)),
            };
            assert_eq!(
                Matcher::new(&table, maps, 100).call(&key(0), b'B'),
                expected
            );
        }
    }
}

/// "Order 1, 18, 12, 14, 13": 1 before 18, and 18 before 13.
#[test]
fn one_before_18_before_13() {
    let table = table("Meta<Key>a:");
    let number = |map: &[u32], modifiers: &[u8], order: u8| {
        let maps = Maps {
            keyboard: map,
            modifiers,
        };
        Matcher::new(&table, maps, 100).call(&key(0), order).0
    };
    let map = key_map(0, 0);
    assert_eq!(number(&map[1..], &[], b'x'), Number::ShortBuffer);
    assert_eq!(number(&map, &[], b'x'), Number::BadModifierMap);
    assert_eq!(number(&map, &[0; 8], b'x'), Number::BadRecord);
    assert_eq!(number(&map, &[0; 8], b'B'), Number::Accepted);
}

#[test]
fn a_pair_holds_two_names() {
    let keyboard = meta_on(MOD1).with_pair(THIRD, 0x61, META_R).on(MOD2, THIRD);
    assert_eq!(keyboard.maps().bits(Name::Meta), MOD1 | MOD2);
    assert_eq!(keyboard.maps().bits(Name::Keysym(0x61)), MOD2);
    assert_eq!(keyboard.maps().bits(Name::Keysym(META_L)), MOD1);
    assert_eq!(keyboard.maps().bits(Name::Hyper), 0);
}
