//! The bytes of tables and of matcher states, written and read by docs/LAYOUT.md and not by the
//! proved code.

use crate::counts;
use crate::details::LARGEST_KEYSYM;
use crate::keyboard::MAP_LENGTH;
use crate::limits;
use crate::modifiers::{ListedName, ModifierTest, ALL};
use crate::names::{self, Name, RELATIVES};
use crate::records::Event;
use crate::resolving::Maps;
use crate::table::{Call, Directive, EventSpec, Production, Span, Table};

pub const TABLE_BYTES: usize = 10_000;
pub const STATE_BYTES: usize = 200;
const TABLE_WORDS: usize = TABLE_BYTES / 2;

/// A run of words for one field.
#[derive(Clone, Copy, Debug, PartialEq, Eq)]
pub struct Section {
    pub first: usize,
    pub words: usize,
}

const fn section(first: usize, words: usize) -> Section {
    Section { first, words }
}

/// The sections in their order.
pub mod sections {
    use super::{section, Section};

    pub const HEADER: Section = section(0, 8);
    pub const PRODUCTION_EVENTS: Section = section(8, 64);
    pub const PRODUCTION_CALLS: Section = section(72, 64);
    pub const CODE: Section = section(136, 256);
    pub const COUNT: Section = section(392, 256);
    pub const SET: Section = section(648, 256);
    pub const CLEAR: Section = section(904, 256);
    pub const FLAGS: Section = section(1160, 256);
    pub const DETAIL_LOW: Section = section(1416, 256);
    pub const DETAIL_HIGH: Section = section(1672, 256);
    /// The low and the high words of each keysym slot.
    pub const SLOTS: [[Section; 2]; 4] = [
        [section(1928, 256), section(2184, 256)],
        [section(2440, 256), section(2696, 256)],
        [section(2952, 256), section(3208, 256)],
        [section(3464, 256), section(3720, 256)],
    ];
    pub const MARK: Section = section(3976, 128);
    pub const NAME_START: Section = section(4104, 128);
    pub const NAME_LENGTH: Section = section(4232, 128);
    pub const CALL_PARAMETERS: Section = section(4360, 128);
    pub const PARAMETER_START: Section = section(4488, 256);
    pub const PARAMETER_LENGTH: Section = section(4744, 256);

    pub const OF_PRODUCTIONS: [Section; 2] = [PRODUCTION_EVENTS, PRODUCTION_CALLS];
    pub const OF_EVENTS: [Section; 7] = [CODE, COUNT, SET, CLEAR, FLAGS, DETAIL_LOW, DETAIL_HIGH];
    pub const OF_SLOTS: [Section; 8] = [
        SLOTS[0][0],
        SLOTS[0][1],
        SLOTS[1][0],
        SLOTS[1][1],
        SLOTS[2][0],
        SLOTS[2][1],
        SLOTS[3][0],
        SLOTS[3][1],
    ];
    pub const OF_CALLS: [Section; 4] = [MARK, NAME_START, NAME_LENGTH, CALL_PARAMETERS];
    pub const OF_PARAMETERS: [Section; 2] = [PARAMETER_START, PARAMETER_LENGTH];
}

use sections::*;

// The words of the header.
const DIRECTIVE: usize = 0;
const MERGED: usize = 1;
const FIRST_TEXT: usize = 2;
const SECOND_TEXT: usize = 3;
const PRODUCTIONS: usize = 4;
const EVENTS: usize = 5;
const CALLS: usize = 6;
const PARAMETERS: usize = 7;

// The flags of an event.
const COLON: u16 = 1;
const CLAUSE: u16 = 2;
const DETAIL: u16 = 4;
const EXCLAMATION: u16 = 8;
/// Meta, Alt, Hyper and Super, listed without `~` and with it.
const RELATIVE: [u16; 4] = [1 << 8, 1 << 9, 1 << 10, 1 << 11];
const NEGATED_RELATIVE: [u16; 4] = [1 << 12, 1 << 13, 1 << 14, 1 << 15];
const NO_FLAGS: u16 = 0xF0;

/// A used keysym slot is a keysym with one of these added, or both: listed without `~`, with it.
const LISTED: u32 = 0x2000_0000;
const NEGATED: u32 = 0x4000_0000;
const PAST_SLOT: u32 = 0x8000_0000;

fn keysym(slot: u32) -> u32 {
    slot & LARGEST_KEYSYM
}

/// How many words are used of the sections of productions, events, calls and parameters.
#[derive(Clone, Copy, Debug)]
pub struct Used {
    pub productions: usize,
    pub events: usize,
    pub calls: usize,
    pub parameters: usize,
}

impl Used {
    pub fn of(table: &Table) -> Used {
        Used {
            productions: table.productions.len(),
            events: table.events().count(),
            calls: limits::total(&table.productions, limits::calls),
            parameters: limits::total(&table.productions, limits::parameters),
        }
    }
}

/// The bytes of a table.
pub fn encode(table: &Table) -> Vec<u8> {
    let mut words = Written(vec![0; TABLE_WORDS]);
    let used = Used::of(table);
    let header = [
        table.directive as usize,
        usize::from(table.merged),
        table.text_lengths[0],
        table.text_lengths[1],
        used.productions,
        used.events,
        used.calls,
        used.parameters,
    ];
    for (at, value) in header.into_iter().enumerate() {
        words.put(HEADER, at, value);
    }
    for (at, production) in table.productions.iter().enumerate() {
        words.put(PRODUCTION_EVENTS, at, production.events.len());
        words.put(PRODUCTION_CALLS, at, production.calls.len());
    }
    for (at, spec) in table.events().enumerate() {
        put_event(&mut words, at, spec);
    }
    let calls = table.productions.iter().flat_map(|p| &p.calls);
    let mut parameter = 0;
    for (at, call) in calls.enumerate() {
        words.put(MARK, at, call.text);
        words.put(NAME_START, at, call.name.start);
        words.put(NAME_LENGTH, at, call.name.length);
        words.put(CALL_PARAMETERS, at, call.parameters.len());
        for span in &call.parameters {
            words.put(PARAMETER_START, parameter, span.start);
            words.put(PARAMETER_LENGTH, parameter, span.length);
            parameter += 1;
        }
    }
    words.0.iter().flat_map(|word| word.to_le_bytes()).collect()
}

fn put_event(words: &mut Written, at: usize, spec: &EventSpec) {
    let flag = |there: bool, flag: u16| if there { flag } else { 0 };
    let lists = |name: Name, negated: bool| spec.test.names.contains(&ListedName { name, negated });
    let mut flags = flag(spec.test.colon, COLON)
        | flag(spec.test.clause, CLAUSE)
        | flag(spec.detail.is_some(), DETAIL)
        | flag(spec.test.exclamation, EXCLAMATION);
    for (which, name) in RELATIVES.into_iter().enumerate() {
        flags |= flag(lists(name, false), RELATIVE[which]);
        flags |= flag(lists(name, true), NEGATED_RELATIVE[which]);
    }
    let detail = spec.detail.unwrap_or(0);
    words.put(CODE, at, usize::from(spec.code));
    words.put(COUNT, at, usize::from(spec.count));
    words.put(SET, at, usize::from(spec.test.set));
    words.put(CLEAR, at, usize::from(spec.test.clear));
    words.put(FLAGS, at, usize::from(flags));
    words.put(DETAIL_LOW, at, (detail & 0xFFFF) as usize);
    words.put(DETAIL_HIGH, at, (detail >> 16) as usize);
    let keysyms = spec.test.keysyms();
    assert!(keysyms.len() <= SLOTS.len(), "an event has four slots");
    for ([low, high], keysym) in SLOTS.into_iter().zip(keysyms) {
        let mark = |negated, mark| match lists(Name::Keysym(keysym), negated) {
            true => mark,
            false => 0,
        };
        let slot = keysym + mark(false, LISTED) + mark(true, NEGATED);
        words.put(low, at, (slot & 0xFFFF) as usize);
        words.put(high, at, (slot >> 16) as usize);
    }
}

struct Written(Vec<u16>);

impl Written {
    fn put(&mut self, section: Section, at: usize, value: usize) {
        assert!(at < section.words, "{at} in {section:?}");
        self.0[section.first + at] = u16::try_from(value).expect("a word has 16 bits");
    }
}

/// Whether bytes are a whole table. It reads them where they stand and needs no memory of its own.
pub fn is_whole(bytes: &[u8]) -> bool {
    Reader::new(bytes).is_some_and(|reader| reader.entries_are_whole().is_some())
}

/// The table that bytes are, if they are whole. Bytes past a table are not read.
pub fn decode(bytes: &[u8]) -> Option<Table> {
    let reader = Reader::new(bytes)?;
    reader.entries_are_whole()?;
    Some(Table {
        directive: reader.directive,
        merged: reader.merged,
        text_lengths: reader.text_lengths,
        productions: reader.productions()?,
    })
}

fn require(holds: bool) -> Option<()> {
    holds.then_some(())
}

fn within(value: usize, low: usize, high: usize) -> Option<usize> {
    (low..=high).contains(&value).then_some(value)
}

/// The words of lent bytes.
#[derive(Clone, Copy)]
struct Words<'b>(&'b [u8]);

impl Words<'_> {
    fn get(self, section: Section, at: usize) -> usize {
        let at = 2 * (section.first + at);
        usize::from(u16::from_le_bytes([self.0[at], self.0[at + 1]]))
    }

    /// "Its used words come first, and the rest are 0."
    fn rest_is_zero(self, section: Section, used: usize) -> bool {
        let rest = 2 * (section.first + used)..2 * (section.first + section.words);
        self.0[rest].iter().fold(0, |joined, byte| joined | byte) == 0
    }
}

/// A table whose header is in range, with counts within the sections, and whose unused words
/// are 0.
struct Reader<'b> {
    words: Words<'b>,
    used: Used,
    directive: Directive,
    merged: bool,
    text_lengths: [usize; 2],
}

impl Reader<'_> {
    fn new(bytes: &[u8]) -> Option<Reader<'_>> {
        let words = Words(&bytes[..TABLE_BYTES]);
        let header = |at| words.get(HEADER, at);
        let used = Used {
            productions: within(header(PRODUCTIONS), 0, limits::PRODUCTIONS)?,
            events: within(header(EVENTS), 0, limits::EVENTS)?,
            calls: within(header(CALLS), 0, limits::CALLS)?,
            parameters: within(header(PARAMETERS), 0, limits::PARAMETERS)?,
        };
        let directive = match header(DIRECTIVE) {
            0 => Directive::Replace,
            1 => Directive::Override,
            2 => Directive::Augment,
            _ => return None,
        };
        let merged = within(header(MERGED), 0, 1)? == 1;
        let second_most = if merged { limits::TEXT_BYTES } else { 0 };
        let text_lengths = [
            within(header(FIRST_TEXT), 0, limits::TEXT_BYTES)?,
            within(header(SECOND_TEXT), 0, second_most)?,
        ];
        let unused_are_zero = [
            (OF_PRODUCTIONS.as_slice(), used.productions),
            (&OF_EVENTS, used.events),
            (&OF_SLOTS, used.events),
            (&OF_CALLS, used.calls),
            (&OF_PARAMETERS, used.parameters),
        ]
        .into_iter()
        .all(|(all, used)| all.iter().all(|&section| words.rest_is_zero(section, used)));
        require(unused_are_zero)?;
        Some(Reader {
            words,
            used,
            directive,
            merged,
            text_lengths,
        })
    }

    /// Whether every entry is in range and within the limits, and the counts add up to the
    /// header's.
    fn entries_are_whole(&self) -> Option<()> {
        let (mut event, mut call, mut parameter, mut expanded) = (0, 0, 0, 0);
        for at in 0..self.used.productions {
            let events = self.words.get(PRODUCTION_EVENTS, at);
            let calls = self.words.get(PRODUCTION_CALLS, at);
            require(events >= 1 && event + events <= self.used.events)?;
            require(calls <= limits::CALLS_IN_PRODUCTION && call + calls <= self.used.calls)?;
            let mut length = 0;
            for at in event..event + events {
                length += counts::expanded_length(&self.event_without_names(at)?);
                self.slots(at)?;
            }
            require(length <= limits::EVENTS_IN_PRODUCTION)?;
            for at in call..call + calls {
                parameter += self.call_parameters(at, parameter)?;
            }
            event += events;
            call += calls;
            expanded += length;
        }
        require(expanded <= limits::EVENTS)?;
        require(
            event == self.used.events
                && call == self.used.calls
                && parameter == self.used.parameters,
        )
    }

    /// "A production's events, a production's calls and a call's parameters follow each other
    /// without a gap."
    fn productions(&self) -> Option<Vec<Production>> {
        let (mut event, mut call, mut parameter) = (0, 0, 0);
        let mut productions = Vec::new();
        for at in 0..self.used.productions {
            let events = event..event + self.words.get(PRODUCTION_EVENTS, at);
            let calls = call..call + self.words.get(PRODUCTION_CALLS, at);
            event = events.end;
            call = calls.end;
            let events: Option<Vec<EventSpec>> = events.map(|at| self.event(at)).collect();
            let mut calls_read = Vec::new();
            for at in calls {
                let read = self.call(at, parameter)?;
                parameter += read.parameters.len();
                calls_read.push(read);
            }
            productions.push(Production {
                events: events?,
                calls: calls_read,
            });
        }
        Some(productions)
    }

    fn event(&self, at: usize) -> Option<EventSpec> {
        let mut spec = self.event_without_names(at)?;
        spec.test.names = self.names(at)?;
        Some(spec)
    }

    fn event_without_names(&self, at: usize) -> Option<EventSpec> {
        let word = |section| self.words.get(section, at);
        let code = within(
            word(CODE),
            usize::from(names::FIRST_CODE),
            usize::from(names::LAST_CODE),
        )? as u8;
        let most = if names::is_key_or_button(code) { 9 } else { 1 };
        let count = within(word(COUNT), 1, most)? as u8;
        let set = within(word(SET), 0, usize::from(ALL))? as u16;
        let clear = within(word(CLEAR), 0, usize::from(ALL))? as u16;
        let flags = word(FLAGS) as u16;
        require(flags & NO_FLAGS == 0)?;
        let detail = word(DETAIL_LOW) + (word(DETAIL_HIGH) << 16);
        let largest = if flags & DETAIL != 0 { 0x1FFF_FFFF } else { 0 };
        let detail = within(detail, 0, largest)? as u32;
        Some(EventSpec {
            code,
            count,
            test: ModifierTest {
                set,
                clear,
                colon: flags & COLON != 0,
                clause: flags & CLAUSE != 0,
                exclamation: flags & EXCLAMATION != 0,
                names: Vec::new(),
            },
            detail: (flags & DETAIL != 0).then_some(detail),
        })
    }

    /// The keysym slots of an event, if they are in range: "used slots come first, keysyms
    /// strictly rising".
    fn slots(&self, at: usize) -> Option<[u32; 4]> {
        let word = |section| self.words.get(section, at) as u32;
        let slots = SLOTS.map(|[low, high]| word(low) + (word(high) << 16));
        let first_unused = slots.iter().position(|&slot| slot == 0);
        let (used, unused) = slots.split_at(first_unused.unwrap_or(SLOTS.len()));
        require(unused.iter().all(|&slot| slot == 0))?;
        require(used.iter().all(|slot| (LISTED..PAST_SLOT).contains(slot)))?;
        require(used.windows(2).all(|two| keysym(two[0]) < keysym(two[1])))?;
        Some(slots)
    }

    /// An event's names: the relatives of its flags, then its keysyms.
    fn names(&self, at: usize) -> Option<Vec<ListedName>> {
        let flags = self.words.get(FLAGS, at) as u16;
        let mut names = Vec::new();
        let mut list = |there: bool, name: Name, negated: bool| {
            if there {
                names.push(ListedName { name, negated });
            }
        };
        for (which, name) in RELATIVES.into_iter().enumerate() {
            list(flags & RELATIVE[which] != 0, name, false);
            list(flags & NEGATED_RELATIVE[which] != 0, name, true);
        }
        for slot in self.slots(at)? {
            let name = Name::Keysym(keysym(slot));
            list(slot & LISTED != 0, name, false);
            list(slot & NEGATED != 0, name, true);
        }
        Some(names)
    }

    /// How many parameters a call has, if it and they are in range.
    fn call_parameters(&self, at: usize, first_parameter: usize) -> Option<usize> {
        let text = self.text(at)?;
        self.span(text, NAME_START, NAME_LENGTH, at)?;
        let count = self.words.get(CALL_PARAMETERS, at);
        require(count <= limits::PARAMETERS_IN_CALL)?;
        require(first_parameter + count <= self.used.parameters)?;
        for at in first_parameter..first_parameter + count {
            self.span(text, PARAMETER_START, PARAMETER_LENGTH, at)?;
        }
        Some(count)
    }

    fn call(&self, at: usize, first_parameter: usize) -> Option<Call> {
        let text = self.text(at)?;
        let count = self.words.get(CALL_PARAMETERS, at);
        let parameters: Option<Vec<Span>> = (first_parameter..first_parameter + count)
            .map(|at| self.span(text, PARAMETER_START, PARAMETER_LENGTH, at))
            .collect();
        Some(Call {
            text,
            name: self.span(text, NAME_START, NAME_LENGTH, at)?,
            parameters: parameters?,
        })
    }

    /// Which text a call is of.
    fn text(&self, at: usize) -> Option<usize> {
        within(self.words.get(MARK, at), 0, usize::from(self.merged))
    }

    fn span(&self, text: usize, starts: Section, lengths: Section, at: usize) -> Option<Span> {
        let span = Span {
            start: self.words.get(starts, at),
            length: self.words.get(lengths, at),
        };
        (span.start + span.length <= self.text_lengths[text]).then_some(span)
    }
}

/// The bytes of the maps: four for each number of the keyboard map, least significant first, then
/// the modifier map's.
pub fn encode_maps(maps: Maps) -> Vec<u8> {
    let numbers = maps.keyboard.iter().flat_map(|number| number.to_le_bytes());
    numbers.chain(maps.modifiers.iter().copied()).collect()
}

/// The keyboard map and the modifier map that bytes are. Where they are too short for 496 numbers
/// the keyboard map is too.
pub fn decode_maps(bytes: &[u8]) -> (Vec<u32>, &[u8]) {
    let (numbers, modifiers) = bytes.split_at(bytes.len().min(4 * MAP_LENGTH));
    let numbers = numbers.chunks_exact(4);
    let keyboard = numbers.map(|four| u32::from_le_bytes([four[0], four[1], four[2], four[3]]));
    (keyboard.collect(), modifiers)
}

/// What a matcher state stands for: the events of the open context, and how many of them lie at
/// or before the last selection; or, with none open, the events that a motion in the last one's
/// place may open one with.
#[derive(Clone, Debug, Default, PartialEq, Eq)]
pub struct State {
    pub events: Vec<Event>,
    pub selected: usize,
    pub open: bool,
}

impl State {
    /// What "open" asks of the rest: an open context has an event; with none open nothing is
    /// selected, and what is kept ends in a motion.
    fn open_is_whole(&self) -> bool {
        match self.open {
            true => !self.events.is_empty(),
            false => self.selected == 0 && self.events.last().is_none_or(Event::is_motion),
        }
    }
}

const EVENT_BYTES: usize = 8;
const STATE_HEADER: usize = STATE_BYTES - limits::EVENTS_IN_PRODUCTION * EVENT_BYTES;

/// The bytes of a matcher state.
pub fn encode_state(state: &State) -> Vec<u8> {
    let header = [
        state.events.len(),
        state.selected,
        usize::from(state.open),
        0,
    ];
    let mut bytes: Vec<u8> = header
        .into_iter()
        .flat_map(|value| (value as u16).to_le_bytes())
        .collect();
    for event in &state.events {
        bytes.extend([event.code, event.detail]);
        bytes.extend(event.state.to_le_bytes());
        bytes.extend(event.time.to_le_bytes());
    }
    assert!(bytes.len() <= STATE_BYTES, "a state keeps 24 events");
    bytes.resize(STATE_BYTES, 0);
    bytes
}

/// What the bytes of a state stand for, if they are whole. Bytes past a state are not read.
pub fn decode_state(bytes: &[u8]) -> Option<State> {
    let word = |at: usize| usize::from(u16::from_le_bytes([bytes[at], bytes[at + 1]]));
    let kept = within(word(0), 0, limits::EVENTS_IN_PRODUCTION)?;
    let selected = within(word(2), 0, kept)?;
    let open = within(word(4), 0, 1)? == 1;
    require(word(6) == 0)?;
    let slots = &bytes[STATE_HEADER..STATE_BYTES];
    let (used, unused) = slots.split_at(kept * EVENT_BYTES);
    require(unused.iter().all(|&byte| byte == 0))?;
    let events: Option<Vec<Event>> = used.chunks(EVENT_BYTES).map(slot).collect();
    let state = State {
        events: events?,
        selected,
        open,
    };
    state.open_is_whole().then_some(state)
}

fn slot(bytes: &[u8]) -> Option<Event> {
    let event = Event {
        code: bytes[0],
        detail: bytes[1],
        state: u16::from_le_bytes([bytes[2], bytes[3]]),
        time: u32::from_le_bytes([bytes[4], bytes[5], bytes[6], bytes[7]]),
    };
    let has_type = (names::FIRST_CODE..=names::LAST_CODE).contains(&event.code);
    let has_keycode = !names::is_key(event.code) || event.detail >= 8;
    (has_type && has_keycode && event.state <= ALL).then_some(event)
}
