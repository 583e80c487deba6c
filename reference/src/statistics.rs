//! What generated cases were, so that one can see that they reach all forms and limits.

use crate::checks::Outcomes;
use crate::generate::limits::{Aim, Limit};
use crate::keysyms;
use crate::modifiers::{ListedName, STANDARD};
use crate::names;
use crate::numbers::Number;
use crate::records::Event;
use crate::resolving::Maps;
use crate::table::Table;
use std::collections::BTreeMap;
use std::fmt;

#[derive(Clone, Debug, Default)]
pub struct Statistics {
    pub compile_cases: usize,
    pub merge_cases: usize,
    pub match_cases: usize,
    pub merged_match_cases: usize,
    /// Compile cases by the compiler's number.
    pub compiled: [usize; Number::COUNT],
    /// Merges of two accepted tables by the merger's number.
    pub merged: [usize; Number::COUNT],
    /// Matcher calls by number.
    pub calls: [usize; Number::COUNT],
    /// Cases at, and cases one past, each of `Limit::ALL`.
    pub at_limit: [usize; Limit::ALL.len()],
    pub past_limit: [usize; Limit::ALL.len()],
    /// Events of accepted texts by code.
    pub codes: BTreeMap<u8, usize>,
    pub counted_events: usize,
    pub exact_events: usize,
    pub colon_events: usize,
    pub clause_events: usize,
    pub detailed_events: usize,
    /// Key details that are written by name, and those that are written in hexadecimal.
    pub named_details: usize,
    pub unnamed_details: usize,
    /// Events with a name, and of these: with `!`, a colon, a name after `@`, a name that is
    /// listed both without `~` and with it.
    pub named_events: usize,
    pub named_exact_events: usize,
    pub named_colon_events: usize,
    pub keysym_events: usize,
    pub both_ways_events: usize,
    /// Names of events under the maps of a list: with no bit, with several, with Shift or Lock,
    /// and with Shift or Lock beside a colon.
    pub names_without_bit: usize,
    pub names_of_several: usize,
    pub names_of_standard: usize,
    pub names_of_standard_beside_colon: usize,
    /// Events whose names make them match nothing, though each of those listed without `~` has a
    /// bit.
    pub contradictions: usize,
    pub written_and_compiled: usize,
    pub too_long_written: usize,
    pub heard: usize,
    pub selections: usize,
    /// Selections on more than one event.
    pub long_selections: usize,
    /// Selections of a production with a name.
    pub named_selections: usize,
    pub longest_context: usize,
    /// Contexts that were opened at an event before the one that opened them.
    pub later_starts: usize,
    /// Clicks after the one before by one less than the multi-click time, and by just that.
    pub just_in_time: usize,
    pub just_too_late: usize,
    /// Steps of the clock over its wrap, between heard events and inside selections.
    pub wraps: usize,
    pub selections_over_wrap: usize,
    /// Runs of more than one motion, each directly after another in the history, and the calls
    /// that heard them.
    pub motion_runs: usize,
    pub calls_in_runs: usize,
    pub longest_run: usize,
    pub replaced: usize,
    /// Selections at a motion that was then replaced, and at one that replaced another.
    pub selections_replaced: usize,
    pub selections_replacing: usize,
    /// Marks that fell back, and contexts that were closed, since a motion was replaced.
    pub starts_fallen: usize,
    pub selections_fallen: usize,
    pub contexts_closed: usize,
    /// Starts found before the event with no context open.
    pub opened_before: usize,
}

impl Statistics {
    /// The share of compile cases that were accepted, in percent.
    pub fn accepted_percent(&self) -> usize {
        100 * self.compiled[0] / self.compile_cases.max(1)
    }

    /// How many events of the rarest code there were.
    pub fn fewest_of_a_code(&self) -> usize {
        (names::FIRST_CODE..=names::LAST_CODE)
            .map(|code| self.codes.get(&code).copied().unwrap_or(0))
            .min()
            .unwrap_or(0)
    }

    pub fn count_compile_case(&mut self, number: Number) {
        self.compile_cases += 1;
        self.compiled[number.index()] += 1;
    }

    pub fn count_merge(&mut self, number: Number, aim: Option<Aim>) {
        self.merged[number.index()] += 1;
        self.count_aim(aim);
    }

    pub fn count_match_case(&mut self, merged: bool) {
        self.match_cases += 1;
        self.merged_match_cases += usize::from(merged);
    }

    pub fn count_aim(&mut self, aim: Option<Aim>) {
        let Some(Aim { limit, past }) = aim else {
            return;
        };
        match past {
            true => self.past_limit[limit as usize] += 1,
            false => self.at_limit[limit as usize] += 1,
        }
    }

    pub fn count_forms(&mut self, table: &Table) {
        for spec in table.events() {
            *self.codes.entry(spec.code).or_default() += 1;
            self.counted_events += usize::from(spec.count > 1);
            self.exact_events += usize::from(spec.test.is_exact());
            self.colon_events += usize::from(spec.test.colon);
            self.clause_events += usize::from(spec.test.clause);
            self.detailed_events += usize::from(spec.detail.is_some());
            if let (true, Some(keysym)) = (names::is_key(spec.code), spec.detail) {
                match keysyms::first_name(keysym) {
                    Some(_) => self.named_details += 1,
                    None => self.unnamed_details += 1,
                }
            }
            let test = &spec.test;
            let both_ways = |two: &[ListedName]| two[0].name == two[1].name;
            self.named_events += usize::from(test.has_names());
            self.named_exact_events += usize::from(test.exclamation);
            self.named_colon_events += usize::from(test.has_names() && test.colon);
            self.keysym_events += usize::from(!test.keysyms().is_empty());
            self.both_ways_events += usize::from(test.names.windows(2).any(both_ways));
        }
    }

    /// What the names of a table's events mean.
    pub fn count_names(&mut self, table: &Table, maps: Maps) {
        if maps.check().is_err() {
            return;
        }
        for test in table.events().map(|spec| &spec.test) {
            for listed in &test.names {
                let bits = maps.bits(listed.name);
                let standard = bits & STANDARD != 0;
                self.names_without_bit += usize::from(bits == 0);
                self.names_of_several += usize::from(bits.count_ones() > 1);
                self.names_of_standard += usize::from(standard);
                self.names_of_standard_beside_colon += usize::from(standard && test.colon);
            }
            let asked = maps.asked(test);
            self.contradictions += usize::from(!asked.never && !asked.can_hold());
        }
    }

    pub fn count_clicks(&mut self, history: &[Event], multi_click_time: u32) {
        let of_one_kind = history.windows(3).filter(|three| {
            three[0].code == three[2].code && names::is_key_or_button(three[0].code)
        });
        for three in of_one_kind {
            let difference = three[2].time.wrapping_sub(three[0].time);
            self.just_in_time += usize::from(Some(difference) == multi_click_time.checked_sub(1));
            self.just_too_late += usize::from(difference == multi_click_time);
        }
    }

    pub fn count_outcomes(&mut self, table: &Table, outcomes: &Outcomes) {
        let mut latest_start = 0;
        for outcome in &outcomes.calls {
            self.calls[outcome.number.index()] += 1;
            if let Some(selected) = outcome.selected {
                let mut events = table.productions[selected].events.iter();
                self.named_selections += usize::from(events.any(|spec| spec.test.has_names()));
            }
            self.longest_context = self.longest_context.max(outcome.context.len());
            if let [start, _, ..] = outcome.context[..] {
                self.later_starts += usize::from(start != latest_start);
            }
            latest_start = outcome.context.first().copied().unwrap_or(latest_start);
        }
        self.heard += outcomes.heard.len();
        self.wraps += wraps(&outcomes.heard);
        for selection in outcomes.selections() {
            let events: Vec<Event> = selection.iter().map(|at| outcomes.heard[at - 1]).collect();
            self.selections += 1;
            self.long_selections += usize::from(events.len() > 1);
            self.selections_over_wrap += usize::from(wraps(&events) > 0);
        }
    }

    /// What came of runs of motions.
    pub fn count_motion(&mut self, outcomes: &Outcomes) {
        let runs = outcomes.runs.iter().filter(|&&run| run > 1);
        for &run in runs {
            self.motion_runs += 1;
            self.calls_in_runs += run;
            self.longest_run = self.longest_run.max(run);
        }
        let heard = outcomes.calls.iter().filter_map(|call| {
            let step = call.step?;
            Some((step, call.selected.is_some()))
        });
        let mut selected_before = false;
        for (step, selected) in heard {
            self.replaced += usize::from(step.replaced);
            self.selections_replaced += usize::from(step.replaced && selected_before);
            self.selections_replacing += usize::from(step.replaced && selected);
            self.starts_fallen += usize::from(step.start_fell);
            self.selections_fallen += usize::from(step.selection_fell);
            self.contexts_closed += usize::from(step.closed);
            self.opened_before += usize::from(step.opened_before);
            selected_before = selected;
        }
    }
}

/// How often the clock wraps from one event to the next, each with a time.
fn wraps(history: &[Event]) -> usize {
    let timed: Vec<u32> = history
        .iter()
        .filter(|event| names::has_state(event.code))
        .map(|event| event.time)
        .collect();
    let steps = timed.windows(2);
    let forward = |step: &&[u32]| step[1].wrapping_sub(step[0]) < 1 << 31;
    steps
        .filter(forward)
        .filter(|step| step[1] < step[0])
        .count()
}

impl fmt::Display for Statistics {
    fn fmt(&self, out: &mut fmt::Formatter) -> fmt::Result {
        writeln!(out, "compile cases     {}", self.compile_cases)?;
        writeln!(out, "  accepted        {}%", self.accepted_percent())?;
        writeln!(out, "  by number       {}", by_number(&self.compiled))?;
        writeln!(out, "merge cases       {}", self.merge_cases)?;
        writeln!(out, "  by number       {}", by_number(&self.merged))?;
        for limit in Limit::ALL {
            let at = limit as usize;
            let name = format!("{limit:?}");
            let (reached, passed) = (self.at_limit[at], self.past_limit[at]);
            writeln!(out, "limit {name:<18} {reached} at it, {passed} past it")?;
        }
        let events: usize = self.codes.values().sum();
        writeln!(out, "events            {events}")?;
        writeln!(out, "  of each code    {} or more", self.fewest_of_a_code())?;
        writeln!(out, "  counted         {}", self.counted_events)?;
        writeln!(out, "  all bits asked  {}", self.exact_events)?;
        writeln!(out, "  with colon      {}", self.colon_events)?;
        writeln!(out, "  with clause     {}", self.clause_events)?;
        writeln!(out, "  with detail     {}", self.detailed_events)?;
        writeln!(out, "    key, by name  {}", self.named_details)?;
        writeln!(out, "    key, by hex   {}", self.unnamed_details)?;
        writeln!(out, "  with names      {}", self.named_events)?;
        writeln!(out, "    and !         {}", self.named_exact_events)?;
        writeln!(out, "    and a colon   {}", self.named_colon_events)?;
        writeln!(out, "    and @         {}", self.keysym_events)?;
        writeln!(out, "    both ways     {}", self.both_ways_events)?;
        writeln!(out, "written, compiled {}", self.written_and_compiled)?;
        writeln!(out, "written, too long {}", self.too_long_written)?;
        writeln!(out, "match cases       {}", self.match_cases)?;
        writeln!(out, "  on a merged     {}", self.merged_match_cases)?;
        writeln!(out, "  calls           {}", by_number(&self.calls))?;
        writeln!(out, "  heard           {}", self.heard)?;
        writeln!(out, "  dropped         {}", self.calls[0] - self.heard)?;
        writeln!(out, "  selections      {}", self.selections)?;
        writeln!(out, "  on several      {}", self.long_selections)?;
        writeln!(out, "  over a wrap     {}", self.selections_over_wrap)?;
        writeln!(out, "  with a name     {}", self.named_selections)?;
        writeln!(out, "  names, no bit   {}", self.names_without_bit)?;
        writeln!(out, "    several       {}", self.names_of_several)?;
        writeln!(out, "    Shift, Lock   {}", self.names_of_standard)?;
        writeln!(
            out,
            "    with a colon  {}",
            self.names_of_standard_beside_colon
        )?;
        writeln!(out, "  contradictions  {}", self.contradictions)?;
        writeln!(out, "  later starts    {}", self.later_starts)?;
        writeln!(out, "  just in time    {}", self.just_in_time)?;
        writeln!(out, "  just too late   {}", self.just_too_late)?;
        writeln!(out, "  wraps           {}", self.wraps)?;
        writeln!(out, "  motion runs     {}", self.motion_runs)?;
        writeln!(out, "    calls in them {}", self.calls_in_runs)?;
        writeln!(out, "    longest       {}", self.longest_run)?;
        writeln!(out, "  replaced        {}", self.replaced)?;
        writeln!(out, "    had selected  {}", self.selections_replaced)?;
        writeln!(out, "    then selected {}", self.selections_replacing)?;
        writeln!(out, "    starts fell   {}", self.starts_fallen)?;
        writeln!(out, "    selected fell {}", self.selections_fallen)?;
        writeln!(out, "    closed        {}", self.contexts_closed)?;
        writeln!(out, "  opened before   {}", self.opened_before)?;
        write!(out, "  longest context {}", self.longest_context)
    }
}

/// Each number that occurred, with how often.
fn by_number(counts: &[usize]) -> String {
    let seen = counts.iter().enumerate().filter(|&(_, &count)| count > 0);
    let shown: Vec<String> = seen
        .map(|(number, count)| format!("{number}: {count}"))
        .collect();
    shown.join(", ")
}
