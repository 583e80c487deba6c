//! Damage to valid texts.

use crate::keysyms;
use crate::names;
use crate::random::Random;

/// Signs of the grammar, parts of names, and bytes that no text may hold.
const BYTES: &[u8] = b"<>(),:\"!~@^$\\# \t\n+019aAx_-\xE9\xA0\x00\x7F\x9F";

/// Changes the text at a few places.
pub fn edit(random: &mut Random, text: &mut Vec<u8>) {
    for _ in 0..random.range(1, 2) {
        edit_once(random, text);
    }
}

fn edit_once(random: &mut Random, text: &mut Vec<u8>) {
    let at = random.below(text.len() + 1);
    let end = (at + random.range(1, 6)).min(text.len());
    let byte = *random.pick(BYTES);
    match random.below(6) {
        0 | 1 => text.insert(at, byte),
        2 if at < text.len() => text[at] = byte,
        3 => text.truncate(at),
        4 => {
            let copied = text[at..end].to_vec();
            let to = random.below(text.len() + 1);
            text.splice(to..to, copied);
        }
        _ => drop(text.drain(at..end)),
    }
}

/// Puts in a line of events whose parts were chosen without regard to each other.
pub fn insert_line(random: &mut Random, text: &mut Vec<u8>) {
    let mut line = b"\n".to_vec();
    for at in 0..random.range(1, 2) {
        if at > 0 {
            line.push(b',');
        }
        event(random, &mut line);
    }
    line.extend(b":f()\n");
    let ends: Vec<usize> = (0..text.len()).filter(|&at| text[at] == b'\n').collect();
    let at = match ends.is_empty() {
        true => text.len(),
        false => *random.pick(&ends),
    };
    text.splice(at..at, line);
}

const LEADS: &[&str] = &["!", ":", "!:", "None", "Any", "~"];
const ODD_MODIFIERS: &[&str] = &[
    "Foo",
    "none",
    "ctrl",
    "@x",
    "@",
    "@Meta_L",
    "@None",
    "@a@b",
    "@_",
    "@5",
    "@10",
    "@08",
    "@Return",
    "@eacute",
    "@0x1fffffff",
    "@0x20000000",
    "@99999999999999999999",
    "@a ~@a @97 @b @c @d",
    "@a @b @c @d @e",
    "~@1 @2 ~@3 @4 @5 @6",
    "ShiftCtrl",
];
const ODD_TYPES: &[&str] = &["Foo", "key", "GraphicsExposure", "NoExposure", "Key_", ""];
const COUNTS: &[&str] = &[
    "(1)", "(2)", "(3)", "(9)", "(0)", "(01)", "(10)", "(2+)", "(0+)", "()", "(x)", "(1 2)", "(2",
];
const DETAILS: &[&str] = &[
    "a",
    "A",
    "7",
    "0",
    "00",
    "08",
    "0x",
    "0x0",
    "0X61",
    "0x1fffffff",
    "0x1FFFFFFFg",
    "0x20000000",
    "04000000000",
    "536870911",
    "536870912",
    "99999999999999999999",
    "space",
    "Return",
    "F12",
    "F13",
    "eacute",
    "Button1",
    "Button5",
    "Button6",
    "Normal",
    "Hint",
    "Grab",
    "WhileGrabbed",
    "Modifier",
    "Pointer",
    "255",
    "256",
    "0256",
    "WM_PROTOCOLS",
    "\"a\"",
    "a(2)",
    "\"",
    "a b",
];
const KEY_SEQUENCES: &[&str] = &[
    "\"a\"",
    "\"^a\\\"\"",
    "\"$a\"",
    "\"a$\"\"",
    "\"$\\\"",
    "\"$^a^$b\"",
    "\"$\t\"",
    "\"$",
    "\"\"",
    "\"a",
    "\"a\tb\"",
    "Ctrl\"a\"",
    "\"a\"(2)",
];

fn event(random: &mut Random, out: &mut Vec<u8>) {
    if random.percent(8) {
        out.extend(random.pick(KEY_SEQUENCES).as_bytes());
        return;
    }
    modifier_list(random, out);
    out.push(b'<');
    out.extend(type_name(random).as_bytes());
    out.push(b'>');
    if random.percent(25) {
        out.extend(random.pick(COUNTS).as_bytes());
    }
    match random.below(100) {
        0..=29 => out.extend(random.pick(DETAILS).as_bytes()),
        30..=49 => out.extend(nearly_key_name(random)),
        _ => {}
    }
}

/// A key's name, or a word next to one: a byte changed, put in or left out, or in the other case.
fn nearly_key_name(random: &mut Random) -> Vec<u8> {
    let names: Vec<&str> = keysyms::names().map(|(name, _)| name).collect();
    let mut word = random.pick(&names).as_bytes().to_vec();
    let at = random.below(word.len());
    let byte = *random.pick(b"aeghilnorstuAEO019_-");
    match random.below(6) {
        0 => word[at] = byte,
        1 => word.insert(at + random.below(2), byte),
        2 => drop(word.remove(at)),
        3 if word[at].is_ascii_uppercase() => word[at].make_ascii_lowercase(),
        3 => word[at].make_ascii_uppercase(),
        _ => {}
    }
    word
}

fn modifier_list(random: &mut Random, out: &mut Vec<u8>) {
    if random.percent(25) {
        out.extend(random.pick(LEADS).as_bytes());
    }
    for at in 0..random.range(0, 4).saturating_sub(1) {
        if at > 0 {
            out.push(b' ');
        }
        if random.percent(30) {
            out.push(b'~');
        }
        let (of_bits, relatives) = names::MODIFIERS.split_at(names::BIT_MODIFIERS);
        match random.below(100) {
            0..=59 => out.extend(random.pick(of_bits).0.as_bytes()),
            60..=79 => out.extend(random.pick(relatives).0.as_bytes()),
            80..=89 => out.extend([b"@", nearly_key_name(random).as_slice()].concat()),
            _ => out.extend(random.pick(ODD_MODIFIERS).as_bytes()),
        }
    }
}

const KEYS_AND_BUTTONS: &[&str] = &["Key", "KeyUp", "Ctrl", "Shift", "Meta", "BtnDown", "Btn1Up"];
const OTHERS_WITH_DETAILS: &[&str] = &["Motion", "BtnMotion", "Btn1Motion", "Enter", "FocusIn"];

fn type_name(random: &mut Random) -> &'static str {
    let names = match random.below(100) {
        0..=3 => ODD_TYPES,
        4..=50 => KEYS_AND_BUTTONS,
        51..=65 => OTHERS_WITH_DETAILS,
        _ => return random.pick(names::EVENT_TYPES).name,
    };
    random.pick::<&str>(names)
}
