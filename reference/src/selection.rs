//! The matcher (01, "Selection"; 02, R-1 and R-2). It keeps the history, from which replaced
//! motions are gone, and applies R-2's steps and the four rules directly at each heard event.
//! Beside it stands one that keeps no more than a state does.

use crate::counts::{self, Element};
use crate::keyboard;
use crate::layout::State;
use crate::limits;
use crate::modifiers::{Asked, BUTTONS, STANDARD};
use crate::names;
use crate::numbers::Number;
use crate::records::{read_record, Event};
use crate::resolving::Maps;
use crate::table::Table;

/// An element with what it asks of the state: "the table keeps the names; the matcher resolves
/// them under the map in use".
pub struct Resolved {
    pub element: Element,
    pub asked: Asked,
}

/// The expanded events of each production, under maps that are not refused.
pub fn resolved(table: &Table, maps: Maps) -> Vec<Vec<Resolved>> {
    let resolve = |element: Element| Resolved {
        asked: maps.asked(&element.spec.test),
        element,
    };
    let sequences = counts::sequences(table).into_iter();
    sequences
        .map(|sequence| sequence.into_iter().map(resolve).collect())
        .collect()
}

/// What the rules ask of a table, under the maps and a multi-click time.
pub struct Reading<'a> {
    maps: Maps<'a>,
    /// Whether the maps are refused; every call is then.
    checked: Result<(), Number>,
    multi_click_time: u32,
    /// The expanded events of each production, none where the maps are refused.
    sequences: Vec<Vec<Resolved>>,
}

impl<'a> Reading<'a> {
    pub fn new(table: &Table, maps: Maps<'a>, multi_click_time: u32) -> Reading<'a> {
        let checked = maps.check();
        Reading {
            maps,
            checked,
            multi_click_time,
            sequences: match checked {
                Ok(()) => resolved(table, maps),
                Err(_) => Vec::new(),
            },
        }
    }

    /// Reads a record. Checks 1 and 18 for the maps, then 13.
    pub fn event(&self, record: &[u8], order: u8) -> Result<Event, Number> {
        self.checked?;
        read_record(record, order)
    }

    /// Rule 1: "an event whose type no production has, expansion included".
    pub fn is_dropped(&self, event: &Event) -> bool {
        let mut elements = self.sequences.iter().flatten();
        !elements.any(|resolved| resolved.element.code == event.code)
    }

    /// Rule 2: whether the stretch matches the first elements of some production.
    pub fn is_prefix(&self, stretch: &[Event]) -> bool {
        let mut sequences = self.sequences.iter();
        sequences.any(|sequence| self.is_prefix_of(stretch, sequence))
    }

    fn is_prefix_of(&self, stretch: &[Event], sequence: &[Resolved]) -> bool {
        stretch.len() <= sequence.len()
            && (0..stretch.len()).all(|at| self.element_matches(stretch, at, &sequence[at]))
    }

    fn element_matches(&self, stretch: &[Event], at: usize, resolved: &Resolved) -> bool {
        let in_time = resolved.element.timed_from.is_none_or(|from| {
            counts::in_time(stretch[from].time, stretch[at].time, self.multi_click_time)
        });
        in_time && event_matches(&stretch[at], resolved, self.maps.keyboard)
    }

    /// Rule 4: "the earliest production whose whole sequence the stretch is".
    pub fn selected(&self, stretch: &[Event]) -> Option<usize> {
        self.sequences.iter().position(|sequence| {
            sequence.len() == stretch.len() && self.is_prefix_of(stretch, sequence)
        })
    }
}

/// "The latest start there was", "the last event at which anything was selected", and whether the
/// context from the latest start is open. A mark is a place of the history, from 1 on; 0 at first.
#[derive(Clone, Copy, Debug, Default)]
struct Marks {
    latest_start: usize,
    last_selection: usize,
    open: bool,
}

/// What a heard event did before rule 4.
#[derive(Clone, Copy, Debug, Default, PartialEq, Eq)]
pub struct Step {
    /// It replaced the motion before it.
    pub replaced: bool,
    /// The mark of the latest start, and that of the last selection, fell back by one.
    pub start_fell: bool,
    pub selection_fell: bool,
    /// The context opened at the replaced motion was closed.
    pub closed: bool,
    /// No context was open, and rule 3 found a start before the event.
    pub opened_before: bool,
}

pub struct Matcher<'a> {
    reading: Reading<'a>,
    /// The thinned history: event t of the rules stands at index t - 1.
    history: Vec<Event>,
    /// Which heard event stands at each place of the history, numbered from 1 over all of them.
    numbers: Vec<usize>,
    /// How many events were heard, the replaced ones too.
    heard: usize,
    marks: Marks,
    /// What the latest call's event did, if it was heard.
    step: Option<Step>,
}

impl<'a> Matcher<'a> {
    /// A matcher in a fresh state.
    pub fn new(table: &Table, maps: Maps<'a>, multi_click_time: u32) -> Matcher<'a> {
        Matcher {
            reading: Reading::new(table, maps, multi_click_time),
            history: Vec::new(),
            numbers: Vec::new(),
            heard: 0,
            marks: Marks::default(),
            step: None,
        }
    }

    /// Gives the call's number and the selected production's.
    pub fn call(&mut self, record: &[u8], order: u8) -> (Number, Option<usize>) {
        match self.hear(record, order) {
            Ok(selected) => (Number::Accepted, selected),
            Err(number) => (number, None),
        }
    }

    /// The numbers of the heard events that the open context has, none where none is open.
    pub fn context(&self) -> &[usize] {
        match self.marks.open {
            true => &self.numbers[self.marks.latest_start - 1..],
            false => &[],
        }
    }

    pub fn history(&self) -> &[Event] {
        &self.history
    }

    /// What the latest call's event did, none where it was dropped or refused.
    pub fn step(&self) -> Option<Step> {
        self.step
    }

    /// How many heard events each place of the history has held: a run of motions, or one.
    pub fn runs(&self) -> impl Iterator<Item = usize> + '_ {
        let before = [0].iter().chain(&self.numbers);
        self.numbers.iter().zip(before).map(|(to, from)| to - from)
    }

    /// Whether a state keeps what it must of the history: the events of the open context; with
    /// none open, and while the last event is a motion, an end of those after both marks.
    pub fn is_kept_by(&self, state: &State) -> bool {
        let Marks {
            latest_start,
            last_selection,
            open,
        } = self.marks;
        let events_agree = match open {
            true => state.events == self.stretch(latest_start),
            false => {
                let after_both = &self.history[latest_start.max(last_selection)..];
                let in_motion = self.history.last().is_some_and(Event::is_motion);
                after_both.ends_with(&state.events) && in_motion != state.events.is_empty()
            }
        };
        let selected = match open {
            true => (last_selection + 1).saturating_sub(latest_start),
            false => 0,
        };
        events_agree && (state.open, state.selected) == (open, selected)
    }

    /// Checks 1, 18, 13 and 15; a refused call leaves the state as it was.
    fn hear(&mut self, record: &[u8], order: u8) -> Result<Option<usize>, Number> {
        self.step = None;
        let event = self.reading.event(record, order)?;
        if self.reading.is_dropped(&event) {
            return Ok(None);
        }
        let marks = self.marks;
        let replaced = self.replaced_by(&event);
        self.put(event, self.heard + 1);
        let t = self.history.len();
        let start = self.start_at(t);
        if start.is_some_and(|s| t - s + 1 > limits::EVENTS_IN_PRODUCTION) {
            self.take_last();
            if let Some((event, number)) = replaced {
                self.put(event, number);
            }
            self.marks = marks;
            return Err(Number::ContextTooLong);
        }
        self.heard += 1;
        self.step = Some(Step {
            replaced: replaced.is_some(),
            start_fell: self.marks.latest_start < marks.latest_start,
            selection_fell: self.marks.last_selection < marks.last_selection,
            closed: marks.open && !self.marks.open,
            opened_before: !self.marks.open && start.is_some_and(|s| s < t),
        });
        Ok(self.select(start))
    }

    /// "A motion event directly after another motion event in the history replaces it": takes the
    /// earlier one away, and gives it with its number. "A mark at it, of the last selection or of
    /// the latest start, falls back by one (a context opened at it is closed)."
    fn replaced_by(&mut self, event: &Event) -> Option<(Event, usize)> {
        let last = self.history.last()?;
        if !(event.is_motion() && last.is_motion()) {
            return None;
        }
        let place = self.history.len();
        let marks = &mut self.marks;
        if marks.last_selection == place {
            marks.last_selection -= 1;
        }
        if marks.latest_start == place {
            marks.latest_start -= 1;
            marks.open = false;
        }
        self.take_last()
    }

    fn put(&mut self, event: Event, number: usize) {
        self.history.push(event);
        self.numbers.push(number);
    }

    fn take_last(&mut self) -> Option<(Event, usize)> {
        self.history.pop().zip(self.numbers.pop())
    }

    /// The events from place s to the latest one.
    fn stretch(&self, s: usize) -> &[Event] {
        &self.history[s - 1..]
    }

    /// Rule 3: the start of the context that is open after event t.
    fn start_at(&self, t: usize) -> Option<usize> {
        let Marks {
            latest_start,
            last_selection,
            open,
        } = self.marks;
        if open && self.reading.is_prefix(self.stretch(latest_start)) {
            return Some(latest_start);
        }
        let after_both = latest_start.max(last_selection) + 1;
        (after_both..=t).find(|&start| self.reading.is_prefix(self.stretch(start)))
    }

    /// Rule 4, for the context that rule 3 found.
    fn select(&mut self, start: Option<usize>) -> Option<usize> {
        self.marks.open = start.is_some();
        self.marks.latest_start = start?;
        let selected = self.reading.selected(self.stretch(start?));
        if selected.is_some() {
            self.marks.last_selection = self.history.len();
        }
        selected
    }
}

/// A matcher that keeps what a state does (docs/LAYOUT.md): the events of the open context, or,
/// with none open and while the last event is a motion, those that a motion in its place may open
/// one with. From a fresh state it selects as `Matcher` does, and its cost does not grow with the
/// history.
pub struct BoundedMatcher<'a> {
    reading: Reading<'a>,
    state: State,
}

impl<'a> BoundedMatcher<'a> {
    pub fn new(
        table: &Table,
        maps: Maps<'a>,
        multi_click_time: u32,
        state: State,
    ) -> BoundedMatcher<'a> {
        BoundedMatcher {
            reading: Reading::new(table, maps, multi_click_time),
            state,
        }
    }

    pub fn kept(&self) -> &State {
        &self.state
    }

    /// Gives the call's number and the selected production's.
    pub fn call(&mut self, record: &[u8], order: u8) -> (Number, Option<usize>) {
        match self.reading.event(record, order) {
            Ok(event) if self.reading.is_dropped(&event) => (Number::Accepted, None),
            Ok(event) => (Number::Accepted, self.hear(event)),
            Err(number) => (number, None),
        }
    }

    fn hear(&mut self, event: Event) -> Option<usize> {
        self.leave(&event);
        let State {
            events,
            selected,
            open,
        } = &mut self.state;
        events.push(event);
        if !(*open && self.reading.is_prefix(events)) {
            let used_up = match *open {
                true => (*selected).max(1),
                false => 0,
            };
            let mut starts = used_up..events.len();
            let start = starts.find(|&start| self.reading.is_prefix(&events[start..]));
            let forgotten = match start {
                Some(start) => start,
                None if event.is_motion() => used_up,
                None => events.len(),
            };
            events.drain(..forgotten);
            *selected = 0;
            *open = start.is_some();
        }
        let chosen = match *open {
            true => self.reading.selected(events),
            false => None,
        };
        if chosen.is_some() {
            *selected = events.len();
        }
        chosen
    }

    /// What an event finds: a motion that it replaces is gone, and what is kept with no context
    /// open is there for such a motion only.
    fn leave(&mut self, event: &Event) {
        let State {
            events,
            selected,
            open,
        } = &mut self.state;
        if event.is_motion() && events.last().is_some_and(Event::is_motion) {
            events.pop();
            *selected = (*selected).min(events.len());
            *open = *open && !events.is_empty();
        } else if !*open {
            events.clear();
            *selected = 0;
        }
    }
}

/// Whether an event has an element's type, modifiers and detail.
pub fn event_matches(event: &Event, resolved: &Resolved, map: &[u32]) -> bool {
    let Resolved { element, asked } = resolved;
    let (keycode, state) = (event.detail, event.state);
    let detail_matches = |detail| match names::is_key(event.code) {
        true if element.spec.test.colon => keyboard::gives_with_colon(map, keycode, state, detail),
        true => keyboard::gives(map, keycode, state, asked.cared_for(), detail),
        false => u32::from(event.detail) == detail,
    };
    event.code == element.code
        && asked.holds(state)
        && element.spec.detail.is_none_or(detail_matches)
}

/// The state bits that a table tests under maps that are not refused: "a bit is tested by a table
/// if some event asks for it set or clear; a kept button clause tests all buttons; a colon with a
/// key detail tests Shift and Lock"; "a bit that a name resolves to counts as tested", beside a
/// colon too.
pub fn tested_bits(table: &Table, maps: Maps) -> u16 {
    let mut tested = 0;
    for spec in table.events() {
        let named = maps.named(&spec.test);
        tested |= named.set | named.clear | spec.test.asked(named).cared_for();
        if spec.test.clause {
            tested |= BUTTONS;
        }
        if spec.test.colon && spec.detail.is_some() {
            tested |= STANDARD;
        }
    }
    tested
}
