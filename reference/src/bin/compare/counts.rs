//! What a comparison went over.

use glykorant_reference::Number;
use std::fmt;
use std::ops::AddAssign;

/// So often, at least, the gate's run has each number answered.
const OFTEN: u64 = 100;

/// How often each number was answered.
#[derive(Clone, Debug, Default)]
pub struct Numbers([u64; Number::COUNT]);

impl Numbers {
    pub fn count(&mut self, number: u8) {
        self.0[usize::from(number)] += 1;
    }

    pub fn total(&self) -> u64 {
        self.0.iter().sum()
    }

    /// Each of the numbers was answered often.
    fn each_of(&self, numbers: &[usize]) -> bool {
        numbers.iter().all(|&number| self.0[number] >= OFTEN)
    }
}

impl AddAssign<&Numbers> for Numbers {
    fn add_assign(&mut self, other: &Numbers) {
        for (sum, count) in self.0.iter_mut().zip(other.0) {
            *sum += count;
        }
    }
}

impl fmt::Display for Numbers {
    fn fmt(&self, out: &mut fmt::Formatter) -> fmt::Result {
        write!(out, "{}", self.total())?;
        let mut before = " (";
        for (number, &count) in self.0.iter().enumerate() {
            if count > 0 {
                write!(out, "{before}{number}: {count}")?;
                before = ", ";
            }
        }
        match before {
            ", " => write!(out, ")"),
            _ => Ok(()),
        }
    }
}

#[derive(Clone, Debug, Default)]
pub struct Counts {
    pub cases: u64,
    pub compiled: Numbers,
    /// Of these, texts with a name of R-1 in a line that is in the grammar.
    pub texts_with_names: u64,
    /// Of all, texts of a name of a modifier or event type, or of a word next to one.
    pub texts_of_words: u64,
    /// Of all, texts with a Latin-1 name of a key in a line that is in the grammar.
    pub texts_with_key_names: u64,
    /// Texts of a name of a key, and texts of a keysym in hexadecimal, written and read back.
    pub texts_of_key_names: u64,
    pub texts_of_keysyms: u64,
    /// Texts of a word next to a name of a key.
    pub texts_of_key_words: u64,
    pub merged: Numbers,
    pub written: Numbers,
    /// Questions for counts, names and parameters.
    pub asked: Numbers,
    pub matched: Numbers,
    /// Of these, calls with a table that has a name.
    pub matched_with_names: u64,
    /// Of all, calls that heard a motion of a run: directly after another in the history, or with
    /// another directly after it.
    pub matched_in_runs: u64,
    pub selections: u64,
    /// Of these, of a production that has a name.
    pub selections_with_names: u64,
    pub damaged_tables: u64,
    pub whole_damaged_tables: u64,
    pub damaged_states: u64,
    pub whole_damaged_states: u64,
    /// Of these, states that keep events with no context open.
    pub closed_damaged_states: u64,
}

impl AddAssign<&Counts> for Counts {
    fn add_assign(&mut self, other: &Counts) {
        self.cases += other.cases;
        self.compiled += &other.compiled;
        self.texts_with_names += other.texts_with_names;
        self.texts_of_words += other.texts_of_words;
        self.texts_with_key_names += other.texts_with_key_names;
        self.texts_of_key_names += other.texts_of_key_names;
        self.texts_of_keysyms += other.texts_of_keysyms;
        self.texts_of_key_words += other.texts_of_key_words;
        self.merged += &other.merged;
        self.written += &other.written;
        self.asked += &other.asked;
        self.matched += &other.matched;
        self.matched_with_names += other.matched_with_names;
        self.matched_in_runs += other.matched_in_runs;
        self.selections += other.selections;
        self.selections_with_names += other.selections_with_names;
        self.damaged_tables += other.damaged_tables;
        self.whole_damaged_tables += other.whole_damaged_tables;
        self.damaged_states += other.damaged_states;
        self.whole_damaged_states += other.whole_damaged_states;
        self.closed_damaged_states += other.closed_damaged_states;
    }
}

impl Counts {
    /// What the gate's run goes over at least, with every number that an operation can give.
    pub fn are_enough(&self) -> bool {
        let damaged = self.damaged_tables + self.damaged_states;
        self.compiled
            .each_of(&[0, 1, 2, 3, 4, 5, 6, 7, 8, 9, 10, 11])
            && self.merged.each_of(&[0, 1, 11, 12, 17])
            && self.written.each_of(&[0, 1, 12])
            && self.asked.each_of(&[0, 1, 12, 16])
            && self.matched.each_of(&[0, 1, 12, 13, 14, 18])
            && self.texts_with_names >= 450_000
            && self.texts_of_words >= 300_000
            && self.texts_with_key_names >= 50_000
            // Three of each of 197 + 25 names, two of each of 512 + 25 keysyms.
            && self.texts_of_key_names >= 666
            && self.texts_of_keysyms >= 1_074
            && self.texts_of_key_words >= 300_000
            && self.merged.total() >= 20_000
            && self.written.total() >= 20_000
            && self.matched.total() >= 3_000_000
            && self.matched_with_names >= 3_000_000
            && 3 * self.matched_in_runs >= self.matched.total()
            && self.selections >= 500_000
            && self.selections_with_names >= 300_000
            && damaged >= 100_000
            && self.whole_damaged_tables >= 10_000
            && self.whole_damaged_states >= 10_000
            && self.closed_damaged_states >= 5_000
    }
}

impl fmt::Display for Counts {
    fn fmt(&self, out: &mut fmt::Formatter) -> fmt::Result {
        writeln!(out, "cases           {}", self.cases)?;
        writeln!(out, "compiled texts  {}", self.compiled)?;
        writeln!(out, "  with names    {}", self.texts_with_names)?;
        writeln!(out, "  of words      {}", self.texts_of_words)?;
        writeln!(out, "  key names     {}", self.texts_with_key_names)?;
        writeln!(
            out,
            "    read back   {}, of keysyms {}",
            self.texts_of_key_names, self.texts_of_keysyms
        )?;
        writeln!(out, "    of words    {}", self.texts_of_key_words)?;
        writeln!(out, "merges          {}", self.merged)?;
        writeln!(out, "writes          {}", self.written)?;
        writeln!(out, "questions       {}", self.asked)?;
        writeln!(out, "matcher calls   {}", self.matched)?;
        writeln!(out, "  with names    {}", self.matched_with_names)?;
        writeln!(out, "  in runs       {}", self.matched_in_runs)?;
        writeln!(out, "  selections    {}", self.selections)?;
        writeln!(out, "    with names  {}", self.selections_with_names)?;
        writeln!(
            out,
            "damaged tables  {}, still whole {}",
            self.damaged_tables, self.whole_damaged_tables
        )?;
        write!(
            out,
            "damaged states  {}, still whole {}, of these with no context open {}",
            self.damaged_states, self.whole_damaged_states, self.closed_damaged_states
        )
    }
}
