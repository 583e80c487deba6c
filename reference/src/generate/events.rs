//! Keyboard maps, modifier maps and lists of records, biased to follow a table's productions.

use super::productions::{few_bits, keysym};
use crate::counts::Element;
use crate::keyboard::{lower, upper, FIRST_KEYCODE, MAP_LENGTH};
use crate::modifiers::{Asked, ALL, BUTTON1, BUTTONS};
use crate::names::{self, Name};
use crate::random::Random;
use crate::records::{self, read_record, Event, BIG_ENDIAN, LITTLE_ENDIAN, RECORD_BYTES};
use crate::resolving::{Maps, MOST_KEYCODES_IN_ROW, ROWS};
use crate::selection::{event_matches, resolved, Resolved};
use crate::table::Table;

/// One call's record and byte order.
#[derive(Clone, Debug)]
pub struct RecordCall {
    pub record: Vec<u8>,
    pub order: u8,
}

#[derive(Clone, Debug)]
pub struct EventList {
    pub map: Vec<u32>,
    pub modifier_map: Vec<u8>,
    pub multi_click_time: u32,
    pub calls: Vec<RecordCall>,
}

impl EventList {
    pub fn maps(&self) -> Maps<'_> {
        Maps {
            keyboard: &self.map,
            modifiers: &self.modifier_map,
        }
    }
}

pub fn list(random: &mut Random, table: &Table) -> EventList {
    let (mut map, mut modifier_map) = maps(random, table);
    let multi_click_time = multi_click_time(random);
    let maps = Maps {
        keyboard: &map,
        modifiers: &modifier_map,
    };
    let sequences = resolved(table, maps);
    let clock = first_time(random);
    let length = *random.pick(&[3, 8, 8, 16, 16, 30, 30, 80]);
    let mut player = Player {
        random,
        map: &map,
        multi_click_time,
        clock,
        calls: Vec::new(),
    };
    while player.calls.len() < length {
        player.step(&sequences);
    }
    let calls = player.calls;
    spoil_maps(random, &mut map, &mut modifier_map);
    EventList {
        map,
        modifier_map,
        multi_click_time,
        calls,
    }
}

/// Seldom, a keyboard map of another length (1), or a modifier map of another length or with an
/// entry 1..7 (18).
fn spoil_maps(random: &mut Random, map: &mut Vec<u32>, modifier_map: &mut Vec<u8>) {
    if random.percent(1) {
        let lengths = [0, MAP_LENGTH - 2, MAP_LENGTH - 1, MAP_LENGTH + 1];
        map.resize(*random.pick(&lengths), 0);
    }
    if random.percent(1) {
        spoil_modifier_map(random, modifier_map);
    }
}

/// A modifier map that is refused with 18.
pub fn spoil_modifier_map(random: &mut Random, modifier_map: &mut Vec<u8>) {
    if modifier_map.is_empty() || random.percent(50) {
        let lengths = [0, 1, 7, 9, 12, 15, 17, 36, 63, 65, 72, 128, 256];
        modifier_map.resize(*random.pick(&lengths), 0);
    } else {
        let at = random.below(modifier_map.len());
        modifier_map[at] = random.range(1, usize::from(FIRST_KEYCODE) - 1) as u8;
    }
}

fn multi_click_time(random: &mut Random) -> u32 {
    match random.below(20) {
        0 => *random.pick(&[0, 1, 2, 1 << 31, u32::MAX - 1, u32::MAX]),
        1 => random.card32(),
        _ => *random.pick(&[100, 101, 200]),
    }
}

/// Often shortly before the clock's wrap.
fn first_time(random: &mut Random) -> u32 {
    match random.percent(40) {
        true => u32::MAX - random.below(300) as u32,
        false => random.card32(),
    }
}

/// A keyboard map that gives the table's keysyms in different ways, and some others, and a
/// modifier map that gives its names bits in different ways, or none.
fn maps(random: &mut Random, table: &Table) -> (Vec<u32>, Vec<u8>) {
    let mut map = vec![0; MAP_LENGTH];
    for _ in 0..random.below(40) {
        let placed = keysym(random);
        place(random, &mut map, placed);
    }
    let modifier_map = modifier_map(random, table, &mut map);
    for spec in table.events().filter(|spec| names::is_key(spec.code)) {
        if let Some(detail) = spec.detail {
            place(random, &mut map, detail);
        }
    }
    (map, modifier_map)
}

/// Rows of 1 to 8 keycodes with those of the table's names among them, which the keyboard map
/// gets, and any others.
fn modifier_map(random: &mut Random, table: &Table, map: &mut [u32]) -> Vec<u8> {
    let in_row = random.range(1, MOST_KEYCODES_IN_ROW);
    let mut entries = vec![0; ROWS * in_row];
    for _ in 0..random.below(5) {
        let at = random.below(entries.len());
        entries[at] = any_keycode(random);
    }
    let mut names: Vec<Name> = table
        .events()
        .flat_map(|spec| &spec.test.names)
        .map(|listed| listed.name)
        .collect();
    names.sort();
    names.dedup();
    for name in names {
        for row in rows(random) {
            let at = in_row * row + random.below(in_row);
            entries[at] = keycode_holding(random, map, name);
        }
    }
    entries
}

/// The rows of a name: mostly one, at times Shift's or Lock's, at times several or none.
fn rows(random: &mut Random) -> Vec<usize> {
    let count = *random.pick(&[0, 1, 1, 1, 1, 1, 1, 2, 2, 3]);
    let row = |_| match random.percent(25) {
        true => random.below(2),
        false => random.below(ROWS),
    };
    (0..count).map(row).collect()
}

fn any_keycode(random: &mut Random) -> u8 {
    random.range(usize::from(FIRST_KEYCODE), 255) as u8
}

/// A keycode whose pair holds a keysym of the name, the left or the right one, as the first or the
/// second of the pair.
fn keycode_holding(random: &mut Random, map: &mut [u32], name: Name) -> u8 {
    let held = *random.pick(&name.keysyms());
    let other = keysym(random);
    let pair = match random.below(4) {
        0..=1 => [held, 0],
        2 => [held, other],
        _ => [other, held],
    };
    let keycode = any_keycode(random);
    let at = 2 * usize::from(keycode - FIRST_KEYCODE);
    map[at..at + 2].copy_from_slice(&pair);
    keycode
}

/// Puts a keysym at some keycode: alone, with its other case, or beside another one.
fn place(random: &mut Random, map: &mut [u32], placed: u32) {
    let other = keysym(random);
    let pair = match random.below(6) {
        0 => [placed, 0],
        1 => [lower(placed), 0],
        2 => [lower(placed), upper(placed)],
        3 => [upper(placed), lower(placed)],
        4 => [placed, other],
        _ => [other, placed],
    };
    let at = 2 * random.below(map.len() / 2);
    map[at..at + 2].copy_from_slice(&pair);
}

struct Player<'r> {
    random: &'r mut Random,
    map: &'r [u32],
    multi_click_time: u32,
    clock: u32,
    calls: Vec<RecordCall>,
}

impl Player<'_> {
    fn step(&mut self, sequences: &[Vec<Resolved>]) {
        if sequences.is_empty() || self.random.percent(10) {
            self.noise();
        } else if self.random.percent(15) {
            self.motions(None, sequences);
        } else {
            let sequence = self.random.pick(sequences);
            self.play(sequence, sequences);
        }
    }

    /// Follows a sequence to its end or nearly so, with an interruption or a flaw at times.
    fn play(&mut self, sequence: &[Resolved], sequences: &[Vec<Resolved>]) {
        let flawless = self.random.percent(60);
        let stop = match self.random.percent(80) {
            true => sequence.len(),
            false => self.random.below(sequence.len() + 1),
        };
        let mut times = Vec::new();
        if self.random.percent(25) {
            // The first one twice, so that the sequence begins inside another one's context.
            let mut event = self.matching(&sequence[0]);
            event.time = self.clock;
            self.emit(event);
        }
        for resolved in &sequence[..stop] {
            if self.random.percent(4) {
                self.refused();
            }
            if !flawless && self.random.percent(10) {
                self.noise();
            }
            if resolved.element.code == names::MOTION_NOTIFY && self.random.percent(90) {
                let wanted = self.random.percent(50).then_some(resolved);
                self.motions(wanted, sequences);
            }
            let mut event = self.matching(resolved);
            if !flawless && self.random.percent(10) {
                self.spoil(&mut event);
            }
            self.clock = match resolved.element.timed_from {
                Some(from) => self.click_after(times[from]),
                None => self.clock.wrapping_add(self.random.below(30) as u32),
            };
            times.push(self.clock);
            event.time = self.clock;
            self.emit(event);
        }
    }

    /// One to seven motions, with dropped and refused records among them at times. Each matches the
    /// wanted element, or any where none is wanted.
    fn motions(&mut self, wanted: Option<&Resolved>, sequences: &[Vec<Resolved>]) {
        for _ in 0..self.random.range(1, 7) {
            match self.random.below(20) {
                0 => self.refused(),
                1 => self.dropped(sequences),
                _ => {}
            }
            let mut event = match wanted {
                Some(resolved) => self.matching(resolved),
                None => self.motion(sequences),
            };
            self.clock = self.clock.wrapping_add(self.random.below(30) as u32);
            event.time = self.clock;
            self.emit(event);
        }
    }

    /// A motion that some element matches, one with no bit or Button1 set, or any other.
    fn motion(&mut self, sequences: &[Vec<Resolved>]) -> Event {
        let of_motions = |resolved: &&Resolved| resolved.element.code == names::MOTION_NOTIFY;
        let motions: Vec<&Resolved> = sequences.iter().flatten().filter(of_motions).collect();
        if !motions.is_empty() && self.random.percent(50) {
            let resolved = *self.random.pick(&motions);
            return self.matching(resolved);
        }
        Event {
            code: names::MOTION_NOTIFY,
            detail: *self.random.pick(&[0, 0, 0, 1, 1, 2]),
            time: 0,
            state: match self.random.below(10) {
                0..=3 => 0,
                4..=7 => BUTTON1,
                _ => self.random.card16() & ALL,
            },
        }
    }

    /// An event that the table drops, if one is found in a few tries.
    fn dropped(&mut self, sequences: &[Vec<Resolved>]) {
        for _ in 0..4 {
            let code = self.code_up_to(names::LAST_CODE);
            let mut elements = sequences.iter().flatten();
            if !elements.any(|resolved| resolved.element.code == code) {
                return self.any_of(code);
            }
        }
    }

    /// A time near the multi-click limit after an earlier one.
    fn click_after(&mut self, earlier: u32) -> u32 {
        let limit = self.multi_click_time;
        let difference = match self.random.below(20) {
            0..=3 => limit.saturating_sub(1),
            4 => limit,
            5 => limit.saturating_add(1),
            _ => self.random.below(limit.max(1) as usize) as u32,
        };
        earlier.wrapping_add(difference)
    }

    /// An event that matches the element, if one is found in a few tries.
    fn matching(&mut self, resolved: &Resolved) -> Event {
        let mut event = Event::default();
        for _ in 0..12 {
            event = Event {
                code: resolved.element.code,
                detail: self.detail(&resolved.element),
                time: 0,
                state: self.state(&resolved.asked),
            };
            if event_matches(&event, resolved, self.map) {
                break;
            }
        }
        event
    }

    fn detail(&mut self, element: &Element) -> u8 {
        match element.spec.detail {
            Some(keysym) if names::is_key(element.code) => self.keycode(keysym),
            Some(detail) => detail as u8,
            None => self.any_detail(element.code),
        }
    }

    fn any_detail(&mut self, code: u8) -> u8 {
        match names::is_key(code) {
            true => any_keycode(self.random),
            false => self.random.below(6) as u8,
        }
    }

    /// A keycode whose pair holds the keysym in either case, if there is one.
    fn keycode(&mut self, keysym: u32) -> u8 {
        let holds = |entry: &u32| lower(*entry) == lower(keysym);
        let from = self.random.below(self.map.len());
        let (before, after) = self.map.split_at(from);
        let found = match after.iter().position(holds) {
            Some(at) => Some(from + at),
            None => before.iter().position(holds),
        };
        found.map_or(FIRST_KEYCODE, |at| FIRST_KEYCODE + (at / 2) as u8)
    }

    fn state(&mut self, asked: &Asked) -> u16 {
        let mut state = (few_bits(self.random) | asked.set) & !asked.clear;
        if asked.clause && state & BUTTONS == 0 {
            state |= BUTTONS & !asked.clear & self.random.card16();
        }
        state
    }

    /// Changes one field.
    fn spoil(&mut self, event: &mut Event) {
        match self.random.below(3) {
            0 => event.state ^= few_bits(self.random),
            1 => event.detail = self.any_detail(event.code),
            _ => self.clock = self.clock.wrapping_add(self.multi_click_time),
        }
    }

    /// An unrelated event, a refused record or a jump of the clock.
    fn noise(&mut self) {
        match self.random.below(10) {
            0..=2 => self.refused(),
            3 => self.clock = self.random.card32(),
            _ => self.unrelated(),
        }
    }

    fn unrelated(&mut self) {
        let last = match self.random.percent(60) {
            true => names::LEAVE_NOTIFY,
            false => names::LAST_CODE,
        };
        let code = self.code_up_to(last);
        self.any_of(code);
    }

    fn code_up_to(&mut self, last: u8) -> u8 {
        let codes = (usize::from(names::FIRST_CODE), usize::from(last));
        self.random.range(codes.0, codes.1) as u8
    }

    /// Any event of a type.
    fn any_of(&mut self, code: u8) {
        let event = Event {
            code,
            detail: self.any_detail(code),
            time: self.clock,
            state: self.random.card16() & ALL,
        };
        self.emit(event);
    }

    fn emit(&mut self, event: Event) {
        let order = *self.random.pick(&[LITTLE_ENDIAN, BIG_ENDIAN]);
        let record = self.record(&event, order);
        self.calls.push(RecordCall { record, order });
    }

    /// A record of the event; what is no field of it is anything.
    fn record(&mut self, event: &Event, order: u8) -> Vec<u8> {
        let mut record: Vec<u8> = (0..RECORD_BYTES).map(|_| self.random.byte()).collect();
        record[0] = event.code | if self.random.percent(15) { 0x80 } else { 0 };
        if names::has_state(event.code) {
            let unused_bits = self.random.card16() & !ALL;
            put(
                &mut record,
                records::TIME_AT,
                &event.time.to_be_bytes(),
                order,
            );
            put(
                &mut record,
                records::STATE_AT,
                &(event.state | unused_bits).to_be_bytes(),
                order,
            );
        }
        if let Some(at) = records::detail_at(event.code) {
            record[at] = event.detail;
        }
        record
    }

    /// A record or byte order refused with 13.
    fn refused(&mut self) {
        let code = *self
            .random
            .pick(&[names::KEY_PRESS, names::BUTTON_RELEASE, names::FOCUS_IN]);
        self.emit(Event {
            code,
            detail: FIRST_KEYCODE,
            ..Event::default()
        });
        let call = self.calls.last_mut().expect("one was just put there");
        match self.random.below(5) {
            0 => call.order = *self.random.pick(b"Lb\0"),
            1 => call.record.truncate(self.random.below(RECORD_BYTES)),
            2 => call.record.push(0),
            3 => call.record[0] = *self.random.pick(&[0, 1, 35, 127, 0x80, 0x81, 0xFF]),
            _ => {
                call.record[0] = *self.random.pick(&[names::KEY_PRESS, names::KEY_RELEASE]);
                call.record[records::KEYCODE_AT] =
                    self.random.below(usize::from(FIRST_KEYCODE)) as u8;
            }
        }
    }
}

/// Writes a number, given with its high byte first, in a byte order.
fn put(record: &mut [u8], at: usize, bytes: &[u8], order: u8) {
    let place = &mut record[at..at + bytes.len()];
    place.copy_from_slice(bytes);
    if order == LITTLE_ENDIAN {
        place.reverse();
    }
}

impl RecordCall {
    /// The call with some bits of the record's state turned over.
    pub fn with_state_bits_turned(&self, turned: u16) -> RecordCall {
        let mut call = self.clone();
        let turned = match self.order {
            LITTLE_ENDIAN => turned.to_le_bytes(),
            _ => turned.to_be_bytes(),
        };
        let state = call.record.iter_mut().skip(records::STATE_AT);
        for (byte, bits) in state.zip(turned) {
            *byte ^= bits;
        }
        call
    }

    /// The call with the record's time, if it has one, moved on.
    pub fn with_time_moved(&self, by: u32) -> RecordCall {
        let mut call = self.clone();
        match read_record(&self.record, self.order) {
            Ok(event) if names::has_state(event.code) => {
                let moved = event.time.wrapping_add(by).to_be_bytes();
                put(&mut call.record, records::TIME_AT, &moved, self.order);
            }
            _ => {}
        }
        call
    }
}
