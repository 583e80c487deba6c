//! Productions as the generator means them, before they are spelled.

use crate::calls::{CallContents, ProductionContents};
use crate::counts;
use crate::details::{self, Taken, HINT, LARGEST_KEYSYM, LARGEST_NUMBER, NORMAL};
use crate::keysyms::KEYS;
use crate::limits;
use crate::modifiers::{self, ListedName, ModifierTest, Named, ALL, BUTTON1, BUTTONS};
use crate::names::{self, Name, RELATIVES};
use crate::random::Random;
use crate::table::EventSpec;
use crate::text::is_text_byte;

/// The most parameters of one production here, so that ten of them stay within the limits.
const MOST_PARAMETERS: usize = 24;

/// Unrelated productions of all forms.
pub fn productions(random: &mut Random, most: usize, longest: usize) -> Vec<ProductionContents> {
    let named = name_chance(random);
    let mut all = Vec::new();
    let count = match random.percent(5) {
        true => 0,
        false => random.range(1, most),
    };
    for _ in 0..count {
        let mut events = (0..random.range(1, longest))
            .map(|_| event(random, named))
            .collect();
        cut_to_limit(&mut events);
        let calls = calls(random);
        all.push(ProductionContents { events, calls });
    }
    all
}

/// Productions over a few kinds of events, with shared beginnings and ends. Most tables have lines
/// with motions among them.
pub fn related_productions(random: &mut Random) -> Vec<ProductionContents> {
    let named = name_chance(random);
    let kinds: Vec<EventSpec> = (0..random.range(1, 4))
        .map(|_| event(random, named))
        .collect();
    let drags = random.percent(85).then(|| Drags::new(random, named));
    let longest = *random.pick(&[1, 2, 3, 3, 4, 6, 24]);
    let mut all: Vec<ProductionContents> = Vec::new();
    if let (Some(drags), true) = (&drags, random.percent(50)) {
        for lines in [AFTER_TWO, AFTER_ONE] {
            let events = drags.line(random, lines, &kinds);
            let calls = vec![call(random)];
            all.push(ProductionContents { events, calls });
        }
    }
    for _ in 0..random.range(1, 7) {
        let mut events = match random.percent(40) && !all.is_empty() {
            true => part_of(random, &all),
            false => Vec::new(),
        };
        match &drags {
            Some(drags) if random.percent(65) => {
                let lines = *random.pick(&[AFTER_ONE, AFTER_TWO, OTHERS, OTHERS]);
                events.extend(drags.line(random, lines, &kinds));
            }
            _ => {
                for _ in 0..random.range(1, longest) {
                    let kind = random.pick(&kinds).clone();
                    events.push(varied(random, kind));
                }
            }
        }
        cut_to_limit(&mut events);
        let calls = vec![call(random)];
        all.push(ProductionContents { events, calls });
    }
    all
}

/// The events of a table's lines with motions.
struct Drags {
    press: EventSpec,
    release: EventSpec,
    motions: Vec<EventSpec>,
}

/// What stands in a line: a motion, the press, the release, or another kind of event.
enum Part {
    Motion,
    Press,
    Release,
    Other,
}

/// Lines that begin with one press and a motion, and lines that begin with two presses. In a table
/// with both, a motion can close the context of the first press and leave the second for another.
const AFTER_ONE: &[&[Part]] = {
    use Part::*;
    &[
        &[Press, Motion],
        &[Press, Motion, Release],
        &[Press, Motion, Release],
        &[Press, Motion, Other],
        &[Press, Motion, Motion, Release],
    ]
};
const AFTER_TWO: &[&[Part]] = {
    use Part::*;
    &[
        &[Press, Press, Press],
        &[Press, Press, Release],
        &[Press, Press, Other],
        &[Press, Press, Motion],
        &[Press, Press, Motion, Release],
        &[Press, Press, Press, Motion],
    ]
};

/// Other lines with motions: at the start, in the middle, at the end, side by side; or with none.
const OTHERS: &[&[Part]] = {
    use Part::*;
    &[
        &[Motion],
        &[Motion],
        &[Motion, Other],
        &[Motion, Press],
        &[Motion, Press, Motion],
        &[Motion, Motion],
        &[Other, Motion],
        &[Other, Motion, Other],
        &[Press, Other, Motion, Release],
        &[Press, Release],
    ]
};

impl Drags {
    fn new(random: &mut Random, named: usize) -> Drags {
        let press = EventSpec {
            code: names::BUTTON_PRESS,
            count: 1,
            test: match random.percent(40) {
                true => ModifierTest::default(),
                false if random.percent(named) => named_test(random, names::BUTTON_PRESS),
                false => test(random, names::BUTTON_PRESS),
            },
            detail: random.percent(50).then_some(1),
        };
        let release = EventSpec {
            code: names::BUTTON_RELEASE,
            test: ModifierTest::default(),
            ..press.clone()
        };
        Drags {
            press,
            release,
            motions: (0..random.range(1, 3))
                .map(|_| motion(random, named))
                .collect(),
        }
    }

    /// One of the lines, with the other events of these kinds.
    fn line(&self, random: &mut Random, lines: &[&[Part]], kinds: &[EventSpec]) -> Vec<EventSpec> {
        let line = *random.pick(lines);
        let event = |part: &Part| match part {
            Part::Motion => random.pick(&self.motions).clone(),
            Part::Press => self.press.clone(),
            Part::Release => self.release.clone(),
            Part::Other => random.pick(kinds).clone(),
        };
        line.iter().map(event).collect()
    }
}

/// `<Btn1Motion>`, `<Motion>`, `<BtnMotion>` or any other motion, each with Normal or Hint at times.
fn motion(random: &mut Random, named: usize) -> EventSpec {
    let test = match random.below(10) {
        0..=1 => ModifierTest {
            set: BUTTON1,
            ..ModifierTest::default()
        },
        2..=3 => ModifierTest::default(),
        4 => ModifierTest {
            clause: true,
            ..ModifierTest::default()
        },
        _ if random.percent(named) => named_test(random, names::MOTION_NOTIFY),
        _ => test(random, names::MOTION_NOTIFY),
    };
    EventSpec {
        code: names::MOTION_NOTIFY,
        count: 1,
        test,
        detail: *random.pick(&[None, None, None, Some(NORMAL), Some(HINT)]),
    }
}

fn part_of(random: &mut Random, all: &[ProductionContents]) -> Vec<EventSpec> {
    let events = &random.pick(all).events;
    let cut = random.below(events.len() + 1);
    match random.percent(50) {
        true => events[..cut].to_vec(),
        false => events[cut..].to_vec(),
    }
}

/// The kind with another count, a press for a release, a name in another form, or as it is.
fn varied(random: &mut Random, kind: EventSpec) -> EventSpec {
    let mut spec = kind;
    if random.percent(10) {
        vary_names(random, &mut spec);
    }
    if names::is_key_or_button(spec.code) {
        match random.below(10) {
            0..=2 => spec.count = random.range(1, 3) as u8,
            // The two codes of a pair of press and release differ in the lowest bit.
            3..=4 => spec.code ^= 1,
            _ => {}
        }
    }
    spec
}

/// Changes the names of an event or its `!`, a little, if it has names.
pub fn vary_names(random: &mut Random, spec: &mut EventSpec) {
    let test = &mut spec.test;
    if !test.has_names() {
        return;
    }
    let at = random.below(test.names.len());
    match random.below(6) {
        0..=1 if !test.clause => test.exclamation = !test.exclamation,
        2 => test.names[at].negated = !test.names[at].negated,
        3 => test.names[at].name = name(random),
        // What the name means on many keyboards, but "names as names".
        4 => test.names[at].name = Name::Keysym(test.names[at].name.keysyms()[0]),
        _ => test.names.push(listed_name(random)),
    }
    order_names(&mut test.names);
}

/// The writer's order, each form once, and four different keysyms at most.
fn order_names(names: &mut Vec<ListedName>) {
    names.sort();
    names.dedup();
    let mut keysyms = Vec::new();
    names.retain(|listed| {
        let is_keysym = matches!(listed.name, Name::Keysym(_));
        if is_keysym && !keysyms.contains(&listed.name) {
            keysyms.push(listed.name);
        }
        !is_keysym || keysyms.len() <= limits::KEYSYMS_IN_EVENT
    });
}

fn cut_to_limit(events: &mut Vec<EventSpec>) {
    let length =
        |events: &[EventSpec]| -> usize { events.iter().map(counts::expanded_length).sum() };
    while length(events) > limits::EVENTS_IN_PRODUCTION {
        events.pop();
    }
}

/// How often, in percent, the events of a table that can have names do.
fn name_chance(random: &mut Random) -> usize {
    *random.pick(&[0, 40, 60, 60, 80, 80, 100, 100])
}

fn event(random: &mut Random, named: usize) -> EventSpec {
    let code = code(random);
    let counted = names::is_key_or_button(code) && random.percent(25);
    EventSpec {
        code,
        count: match counted {
            true => random.range(2, usize::from(counts::LARGEST_COUNT).min(4)) as u8,
            false => 1,
        },
        test: match random.percent(named) {
            true => named_test(random, code),
            false => test(random, code),
        },
        detail: detail(random, code),
    }
}

fn code(random: &mut Random) -> u8 {
    let (low, high) = match random.below(100) {
        0..=34 => (names::KEY_PRESS, names::KEY_RELEASE),
        35..=64 => (names::BUTTON_PRESS, names::BUTTON_RELEASE),
        65..=76 => (names::MOTION_NOTIFY, names::MOTION_NOTIFY),
        77..=84 => (names::ENTER_NOTIFY, names::FOCUS_OUT),
        85..=86 => (names::MAPPING_NOTIFY, names::MAPPING_NOTIFY),
        _ => (names::FIRST_CODE, names::LAST_CODE),
    };
    random.range(usize::from(low), usize::from(high)) as u8
}

/// A test that some state meets.
fn test(random: &mut Random, code: u8) -> ModifierTest {
    if !names::has_state(code) {
        return ModifierTest::default();
    }
    let colon = names::is_key(code) && random.percent(25);
    let testable = modifiers::testable(colon);
    let set = few_bits(random) & testable;
    let (set, clear) = match random.below(10) {
        0..=3 => (0, 0),
        4..=6 => (set, few_bits(random) & testable & !set),
        7..=8 => (set, testable & !set),
        _ => (set, random.card16() & testable & !set),
    };
    let test = ModifierTest {
        set,
        clear,
        colon,
        ..ModifierTest::default()
    };
    with_clause(random, code, test)
}

/// A test of an event with names that some state meets if they are left out.
fn named_test(random: &mut Random, code: u8) -> ModifierTest {
    let mut test = test(random, code);
    if !names::has_state(code) {
        return test;
    }
    // Bits that are all asked for stand seldom beside a name.
    if test.is_exact() && random.percent(80) {
        test.clear &= few_bits(random);
    }
    test.exclamation = !test.clause && random.percent(35);
    let most = *random.pick(&[1, 1, 1, 2, 2, 3, 6]);
    test.names = (0..random.range(1, most))
        .map(|_| listed_name(random))
        .collect();
    order_names(&mut test.names);
    test
}

fn with_clause(random: &mut Random, code: u8, mut test: ModifierTest) -> ModifierTest {
    if code == names::MOTION_NOTIFY && test.set & BUTTONS == 0 && random.percent(60) {
        test.clause = true;
        test.clause = test.asked(Named::default()).can_hold();
    }
    test
}

fn listed_name(random: &mut Random) -> ListedName {
    ListedName {
        name: name(random),
        negated: random.percent(30),
    }
}

/// Keysyms after `@`: of keys that are modifiers on many keyboards, some others, and the ends of
/// the range.
const NAMED_KEYSYMS: &[u32] = &[
    0xFFE7,
    0xFFE8,
    0xFFE9,
    0xFFE1,
    0xFFE5,
    0xFF7F,
    0x61,
    0x41,
    0x35,
    LARGEST_KEYSYM,
];

pub fn name(random: &mut Random) -> Name {
    match random.below(10) {
        0..=2 => Name::Meta,
        3..=5 => *random.pick(&RELATIVES),
        6..=8 => Name::Keysym(*random.pick(NAMED_KEYSYMS)),
        // Where few keys of a keyboard have both keysyms, 0 is in many rows.
        _ if random.percent(10) => Name::Keysym(0),
        _ => Name::Keysym(keysym(random)),
    }
}

/// No bit to three bits.
pub fn few_bits(random: &mut Random) -> u16 {
    random.card16() & random.card16() & random.card16() & ALL
}

fn detail(random: &mut Random, code: u8) -> Option<u32> {
    if random.percent(25) {
        return None;
    }
    match details::taken(code) {
        Taken::Keysym => Some(keysym(random)),
        Taken::Names(known) => Some(random.pick(known).1),
        Taken::NamesAndNumbers(known) => Some(match random.percent(70) {
            true => random.pick(known).1,
            false => random.card32() & LARGEST_NUMBER,
        }),
        Taken::Atom | Taken::Nothing => None,
    }
}

/// Keysyms with two names each.
const WITH_TWO_NAMES: &[u32] = &[0x27, 0x60, 0xD0, 0xD8, 0xDE, 0xF8];

/// The ends of the keysyms that have Latin-1 names, and those next to them.
const ENDS_OF_NAMED: &[u32] = &[0x1F, 0x20, 0x7E, 0x7F, 0x9F, 0xA0, 0xFF, 0x100];

pub fn keysym(random: &mut Random) -> u32 {
    match random.below(23) {
        0..=5 => random.range(0x61, 0x64) as u32,
        6..=8 => random.range(0x41, 0x44) as u32,
        // Those of Meta and its relatives.
        20 => random.range(0xFFE7, 0xFFEE) as u32,
        9..=10 => random.range(0xA0, 0xFF) as u32,
        11..=14 => random.range(0x20, 0x7E) as u32,
        15..=17 => random.pick(KEYS).1,
        18 => *random.pick(&[0, 1, 7, 8, 9, 10, LARGEST_KEYSYM - 1, LARGEST_KEYSYM]),
        21 => *random.pick(WITH_TWO_NAMES),
        22 => *random.pick(ENDS_OF_NAMED),
        _ => random.card32() & LARGEST_KEYSYM,
    }
}

pub fn calls(random: &mut Random) -> Vec<CallContents> {
    let most = *random.pick(&[1, 1, 2, 3, limits::CALLS_IN_PRODUCTION]);
    let mut calls: Vec<CallContents> = (0..random.below(most + 1)).map(|_| call(random)).collect();
    let mut room = MOST_PARAMETERS;
    for call in &mut calls {
        call.parameters.truncate(room);
        room -= call.parameters.len();
    }
    calls
}

fn call(random: &mut Random) -> CallContents {
    let most = *random.pick(&[0, 1, 2, 3, limits::PARAMETERS_IN_CALL]);
    CallContents {
        name: call_name(random),
        parameters: (0..random.below(most + 1))
            .map(|_| parameter(random))
            .collect(),
    }
}

fn call_name(random: &mut Random) -> Vec<u8> {
    let signs = b"abzAZ019_-";
    (0..random.range(1, 6))
        .map(|_| *random.pick(signs))
        .collect()
}

/// Any bytes that can be quoted.
fn parameter(random: &mut Random) -> Vec<u8> {
    let plain = random.percent(60);
    let byte = |random: &mut Random| match plain {
        true => *random.pick(b"abz09(<:\\$\xE9"),
        false => random.byte(),
    };
    let bytes = (0..random.below(8)).map(|_| byte(random));
    bytes
        .filter(|&byte| is_text_byte(byte) && !matches!(byte, b'"' | b'\n'))
        .collect()
}
