//! Cases at a limit, which are accepted, and one past it, which are refused.

use super::{productions, spelling, Case, Expected, Text};
use crate::calls::{CallContents, ProductionContents};
use crate::counts;
use crate::limits;
use crate::modifiers::{ListedName, ModifierTest};
use crate::names::{self, Name};
use crate::numbers::Number;
use crate::random::Random;
use crate::table::{Directive, EventSpec};

#[derive(Clone, Copy, Debug, PartialEq, Eq)]
pub enum Limit {
    TextBytes,
    Productions,
    EventsInProduction,
    Events,
    CallsInProduction,
    Calls,
    ParametersInCall,
    Parameters,
    KeysymsInEvent,
}

impl Limit {
    pub const ALL: [Limit; 9] = [
        Limit::TextBytes,
        Limit::Productions,
        Limit::EventsInProduction,
        Limit::Events,
        Limit::CallsInProduction,
        Limit::Calls,
        Limit::ParametersInCall,
        Limit::Parameters,
        Limit::KeysymsInEvent,
    ];

    /// The limits that a merged table can pass though neither of the two tables does.
    pub const OF_MERGED: [Limit; 4] = [
        Limit::Productions,
        Limit::Events,
        Limit::Calls,
        Limit::Parameters,
    ];

    pub fn amount(self) -> usize {
        match self {
            Limit::TextBytes => limits::TEXT_BYTES,
            Limit::Productions => limits::PRODUCTIONS,
            Limit::EventsInProduction => limits::EVENTS_IN_PRODUCTION,
            Limit::Events => limits::EVENTS,
            Limit::CallsInProduction => limits::CALLS_IN_PRODUCTION,
            Limit::Calls => limits::CALLS,
            Limit::ParametersInCall => limits::PARAMETERS_IN_CALL,
            Limit::Parameters => limits::PARAMETERS,
            Limit::KeysymsInEvent => limits::KEYSYMS_IN_EVENT,
        }
    }
}

/// A limit that a case is at, or one past.
#[derive(Clone, Copy, Debug)]
pub struct Aim {
    pub limit: Limit,
    pub past: bool,
}

impl Aim {
    fn choose(random: &mut Random, among: &[Limit]) -> Aim {
        Aim {
            limit: *random.pick(among),
            past: random.percent(50),
        }
    }

    fn amount(self) -> usize {
        self.limit.amount() + usize::from(self.past)
    }

    fn expected(self, directive: Directive, productions: Vec<ProductionContents>) -> Expected {
        match (self.past, self.limit) {
            (true, Limit::TextBytes) => Expected::Refused(Number::TextTooLong),
            (true, _) => Expected::Refused(Number::LimitPassed),
            (false, _) => Expected::Accepted(directive, productions),
        }
    }
}

/// A text at or one past any of the limits.
pub fn text(random: &mut Random) -> Text {
    let aim = Aim::choose(random, &Limit::ALL);
    if aim.limit == Limit::TextBytes {
        return long_text(random, aim);
    }
    let productions = match aim.limit {
        Limit::KeysymsInEvent => keysyms_in_event(random, aim.amount()),
        _ => productions_of(random, aim),
    };
    Text {
        bytes: spelling::text(random, false, Directive::Replace, &productions),
        expected: aim.expected(Directive::Replace, productions),
        aim: Some(aim),
    }
}

/// Productions of which one has an event with this many different keysyms, some of them both set
/// and clear, and Meta or a relative beside them.
fn keysyms_in_event(random: &mut Random, amount: usize) -> Vec<ProductionContents> {
    let mut keysyms = Vec::new();
    while keysyms.len() < amount {
        let keysym = productions::keysym(random);
        if !keysyms.contains(&keysym) {
            keysyms.push(keysym);
        }
    }
    let mut names = Vec::new();
    for keysym in keysyms {
        let name = Name::Keysym(keysym);
        let negated = random.percent(50);
        names.push(ListedName { name, negated });
        if random.percent(30) {
            let negated = !negated;
            names.push(ListedName { name, negated });
        }
    }
    if random.percent(50) {
        let name = *random.pick(&names::RELATIVES);
        let negated = random.percent(50);
        names.push(ListedName { name, negated });
    }
    names.sort();
    let mut spec = key(productions::keysym(random));
    spec.test.names = names;
    let mut events = vec![key(u32::from(b'a')), spec];
    random.shuffle(&mut events);
    let mut all = productions::productions(random, 3, 3);
    let at = random.below(all.len() + 1);
    let calls = Vec::new();
    all.insert(at, ProductionContents { events, calls });
    all
}

/// Two accepted texts whose lines together are at or one past a limit. Some lines of the one
/// stand in the other too, and are not counted twice.
pub fn merge(random: &mut Random) -> Case {
    let aim = Aim::choose(random, &Limit::OF_MERGED);
    let all = productions_of(random, aim);
    let (first, further) = all.split_at(random.range(1, all.len() - 1));
    let repeating = with_repeated(random, first, further);
    let (old, new, directive) = match random.percent(50) {
        true => (first, repeating.as_slice(), Directive::Augment),
        false => (repeating.as_slice(), first, Directive::Override),
    };
    Case::Merge {
        old: accepted(random, Directive::Replace, old),
        new: accepted(random, directive, new),
        expected: aim.expected(Directive::Replace, all.clone()),
        aim: Some(aim),
    }
}

/// The further productions with events of some first ones among them, as far as they fit.
fn with_repeated(
    random: &mut Random,
    first: &[ProductionContents],
    further: &[ProductionContents],
) -> Vec<ProductionContents> {
    let mut repeating = further.to_vec();
    for production in first {
        let at = random.below(repeating.len() + 1);
        repeating.insert(
            at,
            ProductionContents {
                events: production.events.clone(),
                calls: Vec::new(),
            },
        );
        if !within_limits(&repeating) || random.percent(20) {
            repeating.remove(at);
        }
    }
    repeating
}

fn within_limits(productions: &[ProductionContents]) -> bool {
    let events = productions.iter().flat_map(|production| &production.events);
    productions.len() <= limits::PRODUCTIONS
        && events.map(counts::expanded_length).sum::<usize>() <= limits::EVENTS
}

fn accepted(random: &mut Random, directive: Directive, productions: &[ProductionContents]) -> Text {
    Text {
        bytes: spelling::text(random, false, directive, productions),
        expected: Expected::Accepted(directive, productions.to_vec()),
        aim: None,
    }
}

/// A text filled up by blank lines, or by a line with a long parameter.
fn long_text(random: &mut Random, aim: Aim) -> Text {
    let mut productions = productions::productions(random, 3, 3);
    let mut bytes = spelling::text(random, true, Directive::Override, &productions);
    bytes.push(b'\n');
    let begin = b"<Key>a:f(\"";
    let end = b"\")";
    let filled = aim.amount() - bytes.len();
    if random.percent(50) {
        bytes.extend((0..filled).map(|_| *random.pick(b" \t\n")));
    } else {
        let parameter = vec![b'x'; filled - begin.len() - end.len()];
        bytes.extend([begin.as_slice(), &parameter, end].concat());
        productions.push(ProductionContents {
            events: vec![key(u32::from(b'a'))],
            calls: vec![CallContents {
                name: b"f".to_vec(),
                parameters: vec![parameter],
            }],
        });
    }
    Text {
        bytes,
        expected: aim.expected(Directive::Override, productions),
        aim: Some(aim),
    }
}

/// Productions, no two with the same events, that have the aimed amount and pass no other
/// limit.
fn productions_of(random: &mut Random, aim: Aim) -> Vec<ProductionContents> {
    let shapes = shapes(random, aim.limit, aim.amount());
    let shaped = |(at, shape)| fill(random, at, shape);
    shapes.iter().enumerate().map(shaped).collect()
}

/// A production's number of events after expansion, and each call's number of parameters.
#[derive(Clone)]
struct Shape {
    events: usize,
    calls: Vec<usize>,
}

fn shapes(random: &mut Random, limit: Limit, amount: usize) -> Vec<Shape> {
    let shape = |events, calls: &[usize]| Shape {
        events,
        calls: calls.to_vec(),
    };
    match limit {
        Limit::TextBytes | Limit::KeysymsInEvent => Vec::new(),
        Limit::Productions => vec![shape(1, &[0]); amount],
        Limit::EventsInProduction => vec![shape(amount, &[1])],
        Limit::Events => spread(
            random,
            amount,
            limits::EVENTS_IN_PRODUCTION,
            limits::PRODUCTIONS,
        )
        .iter()
        .map(|&events| shape(events, &[]))
        .collect(),
        Limit::CallsInProduction => vec![shape(1, &vec![0; amount])],
        Limit::Calls => in_productions(random, vec![0; amount]),
        Limit::ParametersInCall => vec![shape(1, &[amount])],
        Limit::Parameters => {
            let calls = spread(random, amount, limits::PARAMETERS_IN_CALL, limits::CALLS);
            in_productions(random, calls)
        }
    }
}

/// Shares out calls to productions of one event.
fn in_productions(random: &mut Random, calls: Vec<usize>) -> Vec<Shape> {
    let lengths = spread(
        random,
        calls.len(),
        limits::CALLS_IN_PRODUCTION,
        limits::PRODUCTIONS,
    );
    let mut calls = calls.into_iter();
    let shape = |length| Shape {
        events: 1,
        calls: calls.by_ref().take(length).collect(),
    };
    lengths.into_iter().map(shape).collect()
}

/// Parts of at least 1 and at most the largest, not more than so many, with this sum.
fn spread(random: &mut Random, sum: usize, largest: usize, most_parts: usize) -> Vec<usize> {
    let mut parts = Vec::new();
    let mut rest = sum;
    while rest > 0 {
        let parts_left = most_parts - parts.len();
        let part = random.range(rest.div_ceil(parts_left), largest.min(rest));
        parts.push(part);
        rest -= part;
    }
    parts
}

/// A production of this shape. Its first event is of its own.
fn fill(random: &mut Random, at: usize, shape: &Shape) -> ProductionContents {
    let mut events = vec![key(0x100 + at as u32)];
    let mut rest = shape.events - 1;
    while rest > 0 {
        let spec = short_event(random);
        let length = counts::expanded_length(&spec);
        if length <= rest {
            events.push(spec);
            rest -= length;
        }
    }
    let call = |&parameters: &usize| CallContents {
        name: b"f".to_vec(),
        parameters: (0..parameters).map(|_| short_parameter(random)).collect(),
    };
    ProductionContents {
        events,
        calls: shape.calls.iter().map(call).collect(),
    }
}

fn short_event(random: &mut Random) -> EventSpec {
    let code = random.range(
        usize::from(names::KEY_PRESS),
        usize::from(names::MOTION_NOTIFY),
    ) as u8;
    EventSpec {
        code,
        count: match names::is_key_or_button(code) && random.percent(40) {
            true => random.range(1, usize::from(counts::LARGEST_COUNT)) as u8,
            false => 1,
        },
        ..any(code)
    }
}

fn short_parameter(random: &mut Random) -> Vec<u8> {
    vec![b'x'; random.below(3)]
}

fn key(keysym: u32) -> EventSpec {
    EventSpec {
        detail: Some(keysym),
        ..any(names::KEY_PRESS)
    }
}

fn any(code: u8) -> EventSpec {
    EventSpec {
        code,
        count: 1,
        test: ModifierTest::default(),
        detail: None,
    }
}
