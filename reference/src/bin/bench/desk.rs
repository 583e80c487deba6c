//! A desk's tables of 64 productions, and streams of events for them.

use glykorant_reference::keyboard::{FIRST_KEYCODE, MAP_LENGTH};
use glykorant_reference::modifiers::{BUTTON1, CTRL, LOCK, MOD1, MOD4, SHIFT};
use glykorant_reference::names::{
    BUTTON_PRESS, BUTTON_RELEASE, ENTER_NOTIFY, KEY_PRESS, KEY_RELEASE, LEAVE_NOTIFY, MOTION_NOTIFY,
};
use glykorant_reference::random::Random;
use glykorant_reference::resolving::ROWS;

/// Less than this many milliseconds lie between the presses of a double click.
pub const MULTI_CLICK_TIME: u32 = 200;

/// The byte order of the records.
pub const ORDER: u8 = b'l';

pub type Record = [u8; 32];

const FIRST_BUTTON: &str = "\
Shift<Btn1Down>(2): grant(space,all)
<Btn1Down>(2): grant(space)
Shift<Btn1Down>: extend(bucket)
<Btn1Down>: look(bucket)
";

/// A click, and the drag that stands in its place in a table with one.
const CLICK: &str = "<Btn2Down>,<Btn2Up>: paste(clipboard)\n";
const DRAG: &str = "<Btn1Down>,<Btn1Motion>,<Btn1Up>: drag(bucket)\n";

const OTHER_POINTER: &str = "\
Ctrl<Btn3Down>: menu(desk)
<Btn3Down>(2): menu(all)
<Btn3Down>: menu(bucket)
<Enter>: highlight(on)
<Leave>: highlight(off)
";

const NAMED_KEYS: &str = "\
Shift<Key>Tab: focus(previous)
<Key>Tab: focus(next)
!Ctrl<Key>Return: confirm(everything)
<Key>Return: confirm(field)
<Key>Escape: cancel()
<Key>BackSpace: erase(before)
<Key>Delete: erase(after)
<Key>Home: move(start)
<Key>Left: move(left)
<Key>Up: move(up)
<Key>Right: move(right)
<Key>Down: move(down)
Mod1<Key>space: menu(window)
:<Key>?: help(keys)
:<Key>+: zoom(in)
:<Key>-: zoom(out)
";

/// A table: its letters are bound with Ctrl or with Meta, or it has a drag.
#[derive(Clone, Copy, PartialEq, Eq)]
pub enum Lines {
    Ctrl,
    Meta,
    Drag,
}

/// The modifier of the letters. Meta is the keyboard's fourth.
const LETTERS: u16 = CTRL;
const LETTERS_WITH_META: u16 = MOD4;

/// The table's text: 10 productions on the pointer, 54 on keys, 26 of them letters.
pub fn text(lines: Lines) -> String {
    let modifier = match lines {
        Lines::Ctrl | Lines::Drag => "Ctrl",
        Lines::Meta => "Meta",
    };
    let click = match lines {
        Lines::Ctrl | Lines::Meta => CLICK,
        Lines::Drag => DRAG,
    };
    let mut text = format!("#override\n{FIRST_BUTTON}{click}{OTHER_POINTER}{NAMED_KEYS}");
    for number in 1..=12 {
        text += &format!("<Key>F{number}: function(number, \"{number}\")\n");
    }
    for letter in 'a'..='z' {
        text += &format!("{modifier}<Key>{letter}: command({letter}, bucket, selection)\n");
    }
    text
}

/// A key of the keyboard, with the state under which a production names it.
#[derive(Clone, Copy)]
struct Key {
    keycode: u8,
    state: u16,
}

/// The keysyms of the keyboard: letters alone, then pairs.
const OTHER_KEYS: [(u32, u32, u16); 16] = [
    (0xFF09, 0xFF09, SHIFT),
    (0xFF09, 0xFF09, 0),
    (0xFF0D, 0xFF0D, CTRL),
    (0xFF0D, 0xFF0D, 0),
    (0xFF1B, 0, 0),
    (0xFF08, 0, 0),
    (0xFFFF, 0, 0),
    (0xFF50, 0, 0),
    (0xFF51, 0, 0),
    (0xFF52, 0, 0),
    (0xFF53, 0, 0),
    (0xFF54, 0, 0),
    (0x20, 0, MOD1),
    (0x2F, 0x3F, SHIFT),
    (0x3D, 0x2B, SHIFT),
    (0x2D, 0x5F, 0),
];

const LETTERS_FROM: u8 = 24;
const FUNCTIONS_FROM: u8 = 60;
const OTHERS_FROM: u8 = 80;
/// Ten digits, which no production names.
const DIGITS_FROM: u8 = 100;
const MODIFIERS_FROM: u8 = 120;

/// The keys that are modifiers: each one's keysyms and row.
const MODIFIER_KEYS: [(u32, u32, usize); 10] = [
    (0xFFE1, 0, 0),
    (0xFFE2, 0, 0),
    (0xFFE5, 0, 1),
    (0xFFE3, 0, 2),
    (0xFFE4, 0, 2),
    (0xFFE9, 0, 3),
    (0xFFEA, 0, 3),
    (0xFF7F, 0, 4),
    (0xFFEB, 0xFFE7, 6),
    (0xFFEC, 0xFFE8, 6),
];

/// Keycodes of a row.
const IN_ROW: usize = 4;

pub fn modifier_map() -> Vec<u8> {
    let mut rows = [[0; IN_ROW]; ROWS];
    for (at, (_, _, row)) in MODIFIER_KEYS.into_iter().enumerate() {
        let unused = rows[row].iter().position(|&keycode| keycode == 0);
        rows[row][unused.expect("a row has room")] = MODIFIERS_FROM + at as u8;
    }
    rows.concat()
}

pub fn map() -> Vec<u32> {
    let mut map = vec![0; MAP_LENGTH];
    let mut put = |keycode: u8, pair: (u32, u32)| {
        let at = 2 * usize::from(keycode - FIRST_KEYCODE);
        (map[at], map[at + 1]) = pair;
    };
    for at in 0..26 {
        put(LETTERS_FROM + at, (u32::from(b'a' + at), 0));
    }
    for at in 0..12 {
        put(FUNCTIONS_FROM + at, (0xFFBE + u32::from(at), 0));
    }
    for (at, &(first, second, _)) in OTHER_KEYS.iter().enumerate() {
        put(OTHERS_FROM + at as u8, (first, second));
    }
    for at in 0..10 {
        put(DIGITS_FROM + at, (u32::from(b'0' + at), 0x100));
    }
    for (at, &(first, second, _)) in MODIFIER_KEYS.iter().enumerate() {
        put(MODIFIERS_FROM + at as u8, (first, second));
    }
    map
}

fn letter_with_meta(random: &mut Random) -> Key {
    Key {
        keycode: LETTERS_FROM + random.below(26) as u8,
        state: LETTERS_WITH_META,
    }
}

/// Some key, with modifiers, that a production names.
fn named_key(random: &mut Random) -> Key {
    match random.below(54) {
        at @ 0..=25 => Key {
            keycode: LETTERS_FROM + at as u8,
            state: LETTERS,
        },
        at @ 26..=37 => Key {
            keycode: FUNCTIONS_FROM + (at - 26) as u8,
            state: 0,
        },
        at => Key {
            keycode: OTHERS_FROM + (at - 38) as u8,
            state: OTHER_KEYS[at - 38].2,
        },
    }
}

/// Some key that none names as it is pressed: a letter without Ctrl, or a digit.
fn unnamed_key(random: &mut Random) -> Key {
    Key {
        keycode: match random.percent(70) {
            true => LETTERS_FROM + random.below(26) as u8,
            false => DIGITS_FROM + random.below(10) as u8,
        },
        state: *random.pick(&[0, 0, SHIFT, LOCK]),
    }
}

pub fn record(code: u8, detail: u8, time: u32, state: u16) -> Record {
    let mut record = [0; 32];
    record[0] = code;
    if code < ENTER_NOTIFY {
        record[1] = detail;
    }
    record[4..8].copy_from_slice(&time.to_le_bytes());
    record[28..30].copy_from_slice(&state.to_le_bytes());
    record
}

/// A stream under way.
struct Stream {
    random: Random,
    clock: u32,
    records: Vec<Record>,
}

impl Stream {
    fn new(seed: u64) -> Stream {
        Stream {
            random: Random::new(seed, 0),
            // The clock wraps after a few events.
            clock: u32::MAX - 1000,
            records: Vec::new(),
        }
    }

    fn push(&mut self, code: u8, detail: u8, state: u16) {
        self.records.push(record(code, detail, self.clock, state));
    }

    fn wait(&mut self, least: usize, most: usize) {
        let waited = self.random.range(least, most) as u32;
        self.clock = self.clock.wrapping_add(waited);
    }

    fn press_and_release(&mut self, button: u8, state: u16) {
        self.push(BUTTON_PRESS, button, state);
        self.wait(20, 60);
        self.push(BUTTON_RELEASE, button, state | BUTTON1);
    }

    /// A click of the first button, or a double click.
    fn clicks(&mut self) {
        let state = *self.random.pick(&[0, 0, 0, SHIFT]);
        self.press_and_release(1, state);
        if self.random.percent(50) {
            self.wait(30, 100);
            self.press_and_release(1, state);
        }
        self.wait(300, 900);
    }

    fn named(&mut self) -> Key {
        self.wait(40, 300);
        named_key(&mut self.random)
    }

    fn unnamed(&mut self) -> Key {
        self.wait(40, 300);
        unnamed_key(&mut self.random)
    }

    fn motion(&mut self) {
        self.wait(5, 20);
        self.push(MOTION_NOTIFY, 0, 0);
    }

    /// A press, forty motions and a release.
    fn drag(&mut self) {
        self.push(BUTTON_PRESS, 1, 0);
        for _ in 0..40 {
            self.wait(5, 20);
            self.push(MOTION_NOTIFY, 0, BUTTON1);
        }
        self.wait(20, 60);
        self.push(BUTTON_RELEASE, 1, BUTTON1);
        self.wait(300, 900);
    }

    fn stroke(&mut self, key: Key) {
        self.push(KEY_PRESS, key.keycode, key.state);
        self.wait(30, 90);
        self.push(KEY_RELEASE, key.keycode, key.state);
    }

    /// The pointer moves, a click, a command, a typed word, or the pointer enters and leaves.
    fn mixed(&mut self) {
        match self.random.below(10) {
            0..=2 => {
                for _ in 0..self.random.range(2, 12) {
                    self.motion();
                }
            }
            3..=4 => self.clicks(),
            5..=6 => {
                let key = self.named();
                self.stroke(key);
            }
            7..=8 => {
                for _ in 0..self.random.range(2, 10) {
                    let key = self.unnamed();
                    self.stroke(key);
                }
            }
            _ => {
                self.push(ENTER_NOTIFY, 0, 0);
                self.wait(100, 2000);
                self.push(LEAVE_NOTIFY, 0, 0);
            }
        }
    }

    fn of(seed: u64, length: usize, step: impl Fn(&mut Stream)) -> Vec<Record> {
        let mut stream = Stream::new(seed);
        while stream.records.len() < length {
            step(&mut stream);
        }
        stream.records.truncate(length);
        stream.records
    }
}

/// A stream with its name, and the table that it is for.
pub struct Measured {
    pub name: &'static str,
    pub lines: Lines,
    pub records: Vec<Record>,
}

pub fn streams(length: usize) -> Vec<Measured> {
    let measured = |name, lines, records| Measured {
        name,
        lines,
        records,
    };
    vec![
        measured(
            "button pairs, double clicks",
            Lines::Ctrl,
            Stream::of(1, length, Stream::clicks),
        ),
        measured(
            "keys that hit",
            Lines::Ctrl,
            Stream::of(2, length, |stream| {
                let key = stream.named();
                stream.push(KEY_PRESS, key.keycode, key.state);
            }),
        ),
        measured(
            "keys that miss",
            Lines::Ctrl,
            Stream::of(3, length, |stream| {
                let key = stream.unnamed();
                stream.push(KEY_PRESS, key.keycode, key.state);
            }),
        ),
        measured(
            "motion that none names",
            Lines::Ctrl,
            Stream::of(4, length, Stream::motion),
        ),
        measured("mixed", Lines::Ctrl, Stream::of(5, length, Stream::mixed)),
        measured(
            "keys bound with Meta",
            Lines::Meta,
            Stream::of(6, length, |stream| {
                stream.wait(40, 300);
                let key = letter_with_meta(&mut stream.random);
                stream.push(KEY_PRESS, key.keycode, key.state);
            }),
        ),
        measured(
            "drags of forty motions",
            Lines::Drag,
            Stream::of(7, length, Stream::drag),
        ),
    ]
}
