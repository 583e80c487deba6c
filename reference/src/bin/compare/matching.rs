//! The matcher, in both implementations.

use crate::capi;
use crate::lent::Lent;
use crate::tables::{answers, ensure, Compared, Comparison, Given};
use glykorant_reference::generate::events::{self, EventList, RecordCall};
use glykorant_reference::layout::{self, State, STATE_BYTES};
use glykorant_reference::{BoundedMatcher, Maps, Matcher, Number, Table};

/// The maps, with what their bytes are, and a multi-click time, as the calls of a list share them.
pub struct Keys {
    keyboard: Vec<u32>,
    modifiers: Vec<u8>,
    lent: Lent,
    multi_click_time: u32,
}

impl Keys {
    pub fn new(comparison: &mut Comparison, list: &EventList) -> Keys {
        let bytes = layout::encode_maps(list.maps());
        Keys::of_bytes(comparison, &bytes, list.multi_click_time)
    }

    fn of_bytes(comparison: &mut Comparison, bytes: &[u8], multi_click_time: u32) -> Keys {
        let (keyboard, modifiers) = layout::decode_maps(bytes);
        Keys {
            keyboard,
            modifiers: modifiers.to_vec(),
            lent: Lent::new(&mut comparison.random, bytes),
            multi_click_time,
        }
    }

    fn maps(&self) -> Maps<'_> {
        Maps {
            keyboard: &self.keyboard,
            modifiers: &self.modifiers,
        }
    }

    /// A matcher over the history, from a fresh state on.
    fn matcher(&self, table: &Table) -> Matcher<'_> {
        Matcher::new(table, self.maps(), self.multi_click_time)
    }

    fn bounded(&self, table: &Table, state: State) -> BoundedMatcher<'_> {
        BoundedMatcher::new(table, self.maps(), self.multi_click_time, state)
    }
}

/// A lent state, and the reference's matchers that have come to the same point.
pub struct Running<'k> {
    state: Lent,
    /// The one that goes by the state: refused with 1, 18, 12 or 14, in this order, where there is
    /// none.
    bounded: Result<BoundedMatcher<'k>, Number>,
    /// The one that goes by the history, where the state was fresh at first.
    matcher: Option<Matcher<'k>>,
}

impl<'k> Running<'k> {
    /// The bytes of a state are lent to calls with this table.
    fn new(comparison: &mut Comparison, bytes: &[u8], given: &Given, keys: &'k Keys) -> Self {
        let maps = keys.maps().check();
        let short = given.is_short() || bytes.len() < STATE_BYTES;
        let bounded = match (maps, &given.table) {
            _ if short || maps == Err(Number::ShortBuffer) => Err(Number::ShortBuffer),
            (Err(number), _) => Err(number),
            (_, Err(number)) => Err(*number),
            (_, Ok(table)) => match layout::decode_state(bytes) {
                None => Err(Number::StateNotWhole),
                Some(state) => Ok(keys.bounded(table, state)),
            },
        };
        Running {
            state: Lent::new(&mut comparison.random, bytes),
            bounded,
            matcher: None,
        }
    }

    /// What a call gives: by the state, and by the history if there is one. The two must agree, on
    /// what is kept too.
    fn expected(&mut self, call: &RecordCall) -> Compared<(Number, Option<usize>)> {
        let bounded = match &mut self.bounded {
            Ok(bounded) => bounded,
            Err(number) => return Ok((*number, None)),
        };
        let expected = bounded.call(&call.record, call.order);
        if let Some(matcher) = &mut self.matcher {
            let by_history = matcher.call(&call.record, call.order);
            let kept = bounded.kept();
            ensure(by_history == expected && matcher.is_kept_by(kept), || {
                format!("by the history {by_history:?}, by the state {expected:?} and {kept:?}")
            })?;
        }
        Ok(expected)
    }
}

impl Comparison {
    /// `tt_fresh` leaves the fresh state, in whatever memory is long enough.
    pub fn fresh<'k>(&mut self, given: &Given, keys: &'k Keys) -> Compared<Running<'k>> {
        if self.random.percent(5) {
            let length = self.random.below(STATE_BYTES);
            let mut short = Lent::any(&mut self.random, length);
            let answer = capi::fresh(short.bytes_mut());
            answers("fresh", answer, Number::ShortBuffer, 0)?;
            short.check("the state")?;
        }
        let length = STATE_BYTES + self.random.below(3) * self.random.below(20);
        let mut state = Lent::any(&mut self.random, length);
        let answer = capi::fresh(state.bytes_mut());
        answers("fresh", answer, Number::Accepted, 0)?;
        state.expect(&layout::encode_state(&State::default()));
        state.check("the state")?;
        let mut running = Running::new(self, state.bytes(), given, keys);
        if let (Ok(_), Ok(table)) = (&running.bounded, &given.table) {
            running.matcher = Some(keys.matcher(table));
        }
        Ok(running)
    }

    /// One call. Gives what was selected.
    pub fn call(
        &mut self,
        given: &Given,
        keys: &Keys,
        running: &mut Running,
        call: &RecordCall,
    ) -> Compared<Option<usize>> {
        let record = Lent::new(&mut self.random, &call.record);
        let answer = capi::match_event(
            given.lent.bytes(),
            keys.lent.bytes(),
            keys.multi_click_time,
            running.state.bytes_mut(),
            record.bytes(),
            call.order,
        );
        self.counts.matched.count(answer.number);
        self.counts.matched_with_names += u64::from(given.has_names());
        given.check()?;
        keys.lent.check("the maps")?;
        record.check("the record")?;
        let (number, selected) = running.expected(call)?;
        let value = selected.map_or(0, |production| production as u64 + 1);
        answers("match", answer, number, value)?;
        if let (Number::Accepted, Ok(bounded)) = (number, &running.bounded) {
            running.state.expect(&layout::encode_state(bounded.kept()));
        }
        running.state.check("the state")?;
        self.counts.selections += u64::from(selected.is_some());
        self.counts.selections_with_names += u64::from(given.selects_names(selected));
        Ok(selected)
    }

    /// A list of calls from a fresh state on, with damaged states and refused calls in between.
    pub fn list(&mut self, given: &Given, list: &EventList) -> Compared<()> {
        let keys = Keys::new(self, list);
        let mut running = self.fresh(given, &keys)?;
        for (at, call) in list.calls.iter().enumerate() {
            self.call(given, &keys, &mut running, call)?;
            if self.random.percent(4) {
                self.with_damaged_state(given, &keys, &running, &list.calls[at..])?;
            }
            if self.random.percent(1) {
                self.refused_over_lengths(given, list, &running, call)?;
            }
            if self.random.percent(1) {
                self.refused_over_modifier_map(given, list, &running, call)?;
            }
        }
        self.count_runs(&running);
        Ok(())
    }

    /// Counts the calls that heard a run of motions, where a history tells.
    pub fn count_runs(&mut self, running: &Running) {
        let runs = running.matcher.iter().flat_map(Matcher::runs);
        let in_runs: usize = runs.filter(|&run| run > 1).sum();
        self.counts.matched_in_runs += in_runs as u64;
    }

    /// From a damaged copy of the state: 14, or the answers of the state that it then is.
    fn with_damaged_state(
        &mut self,
        given: &Given,
        keys: &Keys,
        running: &Running,
        calls: &[RecordCall],
    ) -> Compared<()> {
        let mut bytes = running.state.bytes().to_vec();
        self.damage_state(&mut bytes);
        let damaged = bytes != running.state.bytes();
        let state = layout::decode_state(&bytes);
        let whole = state.is_some();
        let closed = state.is_some_and(|state| !state.open && !state.events.is_empty());
        self.counts.damaged_states += u64::from(damaged);
        self.counts.whole_damaged_states += u64::from(damaged && whole);
        self.counts.closed_damaged_states += u64::from(damaged && closed);
        let mut running = Running::new(self, &bytes, given, keys);
        let length = if whole { 4 } else { 1 };
        for call in calls.iter().take(length) {
            self.call(given, keys, &mut running, call)?;
        }
        Ok(())
    }

    /// A short table, a short state or maps that are too short: 1, and nothing is changed. Maps of
    /// just the keyboard map's length have no modifier map: 18.
    fn refused_over_lengths(
        &mut self,
        given: &Given,
        list: &EventList,
        running: &Running,
        call: &RecordCall,
    ) -> Compared<()> {
        let state = running.state.bytes();
        let keys = Keys::new(self, list);

        let table_bytes = given.lent.bytes();
        let length = self.random.below(layout::TABLE_BYTES);
        let short = Given::new(&mut self.random, &table_bytes[..length]);
        let mut refused = Running::new(self, state, &short, &keys);
        self.call(&short, &keys, &mut refused, call)?;

        let length = self.random.below(STATE_BYTES);
        let mut refused = Running::new(self, &state[..length], given, &keys);
        self.call(given, &keys, &mut refused, call)?;

        let mut maps = layout::encode_maps(list.maps());
        let length = *self.random.pick(&[0, 8, 1983, 1984]);
        maps.resize(length, 0);
        let other = Keys::of_bytes(self, &maps, list.multi_click_time);
        let mut refused = Running::new(self, state, given, &other);
        self.call(given, &other, &mut refused, call)?;
        Ok(())
    }

    /// A modifier map that is refused: 18, whatever the table and the state are, unless one is too
    /// short; and nothing is changed.
    fn refused_over_modifier_map(
        &mut self,
        given: &Given,
        list: &EventList,
        running: &Running,
        call: &RecordCall,
    ) -> Compared<()> {
        let mut list = list.clone();
        events::spoil_modifier_map(&mut self.random, &mut list.modifier_map);
        let keys = Keys::new(self, &list);
        let mut state = running.state.bytes().to_vec();
        match self.random.below(4) {
            0 => self.damage_state(&mut state),
            1 => state.truncate(self.random.below(STATE_BYTES)),
            _ => {}
        }
        let mut refused = Running::new(self, &state, given, &keys);
        self.call(given, &keys, &mut refused, call)?;
        Ok(())
    }
}
