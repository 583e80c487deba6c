//! Compiling, asking, writing and merging, in both implementations.

use crate::capi::{self, Answer};
use crate::counts::Counts;
use crate::lent::Lent;
use glykorant_reference::calls::{self, Part, Texts};
use glykorant_reference::keysyms::LATIN_1;
use glykorant_reference::layout::{self, TABLE_BYTES};
use glykorant_reference::limits::TEXT_BYTES;
use glykorant_reference::names::{self, Modifier};
use glykorant_reference::random::Random;
use glykorant_reference::text::{self, Description, ModifierName, WrittenEvent};
use glykorant_reference::{compile, merge, write, Number, Production, Refusal, Span, Table};

/// What is compared, or how the two implementations differ.
pub type Compared<T> = Result<T, String>;

pub fn ensure(holds: bool, message: impl Fn() -> String) -> Compared<()> {
    match holds {
        true => Ok(()),
        false => Err(message()),
    }
}

/// The library's answer is this number and value.
pub fn answers(what: &str, found: Answer, number: Number, value: u64) -> Compared<()> {
    let expected = Answer {
        number: number as u8,
        value,
    };
    ensure(found == expected, || {
        format!("{what}: {found:?} and not {expected:?}")
    })
}

/// A lent table, and what its bytes are: a table, or refused with 1 or 12.
pub struct Given {
    pub lent: Lent,
    pub table: Result<Table, Number>,
    /// Whether each production has a name.
    named: Vec<bool>,
}

fn named(table: &Table) -> Vec<bool> {
    let has_names = |production: &Production| {
        let mut events = production.events.iter();
        events.any(|spec| spec.test.has_names())
    };
    table.productions.iter().map(has_names).collect()
}

impl Given {
    pub fn new(random: &mut Random, bytes: &[u8]) -> Given {
        let table = match bytes.len() < TABLE_BYTES {
            true => Err(Number::ShortBuffer),
            false => layout::decode(bytes).ok_or(Number::TableNotWhole),
        };
        Given {
            lent: Lent::new(random, bytes),
            named: table.as_ref().map_or_else(|_| Vec::new(), named),
            table,
        }
    }

    /// Whether the table has a name.
    pub fn has_names(&self) -> bool {
        self.named.contains(&true)
    }

    /// Whether a production with a name is selected.
    pub fn selects_names(&self, selected: Option<usize>) -> bool {
        selected.is_some_and(|production| self.named[production])
    }

    pub fn is_short(&self) -> bool {
        self.table == Err(Number::ShortBuffer)
    }

    fn table(&self) -> Result<&Table, Number> {
        self.table.as_ref().map_err(|&number| number)
    }

    pub fn check(&self) -> Compared<()> {
        self.lent.check("the table")
    }
}

/// The two texts of a table, as they are lent.
pub struct LentTexts([Lent; 2]);

impl LentTexts {
    pub fn new(random: &mut Random, texts: Texts) -> LentTexts {
        LentTexts(texts.map(|text| Lent::new(random, text)))
    }

    pub fn slices(&self) -> Texts<'_> {
        [self.0[0].bytes(), self.0[1].bytes()]
    }

    fn check(&self) -> Compared<()> {
        self.0[0].check("the first text")?;
        self.0[1].check("the second text")
    }
}

pub struct Comparison {
    pub random: Random,
    pub counts: Counts,
}

impl Comparison {
    pub fn new(random: Random) -> Comparison {
        Comparison {
            random,
            counts: Counts::default(),
        }
    }

    /// A length that a table fits in.
    fn long_enough(&mut self) -> usize {
        match self.random.percent(50) {
            true => TABLE_BYTES,
            false => TABLE_BYTES + self.random.below(40),
        }
    }

    /// Compiles a text; now and then into too short a buffer before, or with too long a text.
    pub fn compile(&mut self, text: &[u8]) -> Compared<Option<Given>> {
        if self.random.percent(3) {
            let length = self.random.below(TABLE_BYTES);
            self.compile_into(text, length)?;
        }
        if self.random.below(500) == 0 {
            let further = TEXT_BYTES + self.random.below(100_000);
            let long = [text, &vec![b' '; further]].concat();
            let length = self.long_enough();
            self.compile_into(&long, length)?;
        }
        let length = self.long_enough();
        self.compile_into(text, length)
    }

    fn compile_into(&mut self, text: &[u8], length: usize) -> Compared<Option<Given>> {
        let lent_text = Lent::new(&mut self.random, text);
        let mut lent = Lent::any(&mut self.random, length);
        let answer = capi::compile(lent_text.bytes(), lent.bytes_mut());
        self.counts.compiled.count(answer.number);
        lent_text.check("the text")?;
        let expected = match length < TABLE_BYTES {
            true => Err(Refusal {
                number: Number::ShortBuffer,
                place: 0,
            }),
            false => compile(text),
        };
        let read_by_lines = !matches!(answer.number, 1..=3);
        self.counts.texts_with_names += u64::from(read_by_lines && has_names(text));
        self.counts.texts_with_key_names += u64::from(read_by_lines && has_key_names(text));
        match expected {
            Ok(table) => {
                answers("compile", answer, Number::Accepted, 0)?;
                accepted(lent, &table).map(Some)
            }
            Err(Refusal { number, place }) => {
                answers("compile", answer, number, place as u64)?;
                refused(lent, number)?;
                Ok(None)
            }
        }
    }

    /// Merges two tables; now and then into too short a buffer.
    pub fn merge(&mut self, old: &Given, new: &Given) -> Compared<Option<Given>> {
        let length = match self.random.percent(5) {
            true => self.random.below(TABLE_BYTES),
            false => self.long_enough(),
        };
        let mut lent = Lent::any(&mut self.random, length);
        let answer = capi::merge(old.lent.bytes(), new.lent.bytes(), lent.bytes_mut());
        self.counts.merged.count(answer.number);
        old.check()?;
        new.check()?;
        let short = old.is_short() || new.is_short() || length < TABLE_BYTES;
        let expected = match short {
            true => Err(Number::ShortBuffer),
            false => merged(old, new),
        };
        match expected {
            Ok(table) => {
                answers("merge", answer, Number::Accepted, 0)?;
                accepted(lent, &table).map(Some)
            }
            Err(number) => {
                answers("merge", answer, number, 0)?;
                refused(lent, number)?;
                Ok(None)
            }
        }
    }

    /// Writes a table into a buffer of any length.
    pub fn write(&mut self, given: &Given, texts: &LentTexts) -> Compared<()> {
        let expected = given
            .table()
            .and_then(|table| write(table, &texts.slices()));
        let full = expected.as_ref().map_or(100, Vec::len);
        let length = match self.random.below(8) {
            0..=3 => full,
            4..=5 => full + self.random.below(80),
            6 => full.saturating_sub(1),
            _ => self.random.below(full + 1),
        };
        self.write_into(given, texts, length, expected)
    }

    /// Writes a compiled table into a buffer of just the length; gives the written text.
    pub fn written(&mut self, given: &Given, text: &[u8]) -> Compared<Vec<u8>> {
        let texts = LentTexts::new(&mut self.random, [text, b""]);
        let expected = given
            .table()
            .and_then(|table| write(table, &texts.slices()));
        let written = expected.clone().map_err(|number| format!("{number:?}"))?;
        self.write_into(given, &texts, written.len(), expected)?;
        Ok(written)
    }

    fn write_into(
        &mut self,
        given: &Given,
        texts: &LentTexts,
        length: usize,
        expected: Result<Vec<u8>, Number>,
    ) -> Compared<()> {
        let mut out = Lent::any(&mut self.random, length);
        let answer = capi::write(given.lent.bytes(), texts.slices(), out.bytes_mut());
        self.counts.written.count(answer.number);
        given.check()?;
        texts.check()?;
        match expected {
            Ok(text) if text.len() <= length => {
                answers("write", answer, Number::Accepted, text.len() as u64)?;
                out.expect(&text);
            }
            Ok(_) => answers("write", answer, Number::ShortBuffer, 0)?,
            Err(number) => answers("write", answer, number, 0)?,
        }
        out.check("the written text")
    }

    /// Asks for every count, name and parameter, and for some that are not there.
    pub fn ask(&mut self, given: &Given, texts: &LentTexts) -> Compared<()> {
        self.ask_productions(given)?;
        let calls: Vec<Vec<usize>> = match &given.table {
            Ok(table) => shape(table),
            Err(_) => vec![vec![1]],
        };
        for (production, calls) in calls.iter().enumerate() {
            for (call, &parameters) in calls.iter().enumerate() {
                for parameter in 0..=parameters {
                    self.ask_parameter(given, texts, [production, call, parameter])?;
                }
                self.ask_call(given, texts, [production, call])?;
            }
            self.ask_call(given, texts, [production, calls.len()])?;
        }
        for _ in 0..4 {
            let [production, call, parameter] = self.far_place(calls.len());
            self.ask_call(given, texts, [production, call])?;
            self.ask_parameter(given, texts, [production, call, parameter])?;
        }
        given.check()?;
        texts.check()
    }

    /// Some place, with one number of it at times so large that its low bits are another's.
    fn far_place(&mut self, productions: usize) -> [usize; 3] {
        let mut place = [
            self.random.below(productions + 2),
            self.random.below(3),
            self.random.below(3),
        ];
        let far = [0, 1 << 8, 1 << 16, 1 << 32, usize::MAX - 3];
        let which = self.random.below(3);
        place[which] = place[which].wrapping_add(*self.random.pick(&far));
        place
    }

    fn ask_productions(&mut self, given: &Given) -> Compared<()> {
        let expected = given.table().map(|table| table.productions.len());
        let found = capi::productions(given.lent.bytes());
        self.count_answer("productions", found, expected)
    }

    fn ask_call(&mut self, given: &Given, texts: &LentTexts, place: [usize; 2]) -> Compared<()> {
        let [production, call] = place;
        let bytes = given.lent.bytes();
        let found = given.table().map(|table| table.productions.get(production));
        let production_there = found.and_then(|found| found.ok_or(Number::NotThere));
        let calls = production_there.map(|production| production.calls.len());
        self.count_answer("calls", capi::calls(bytes, production), calls)?;
        let parameters = production_there.and_then(|production| {
            let call = production.calls.get(call).ok_or(Number::NotThere)?;
            Ok(call.parameters.len())
        });
        let found = capi::parameters(bytes, production, call);
        self.count_answer("parameters", found, parameters)?;
        let expected = given
            .table()
            .and_then(|table| calls::name(table, &texts.slices(), production, call));
        let found = capi::name(bytes, texts.slices(), production, call);
        self.part_answer("name", found, expected)
    }

    fn ask_parameter(
        &mut self,
        given: &Given,
        texts: &LentTexts,
        place: [usize; 3],
    ) -> Compared<()> {
        let [production, call, parameter] = place;
        let slices = texts.slices();
        let expected = given
            .table()
            .and_then(|table| calls::parameter(table, &slices, production, call, parameter));
        let found = capi::parameter(given.lent.bytes(), slices, production, call, parameter);
        self.part_answer("parameter", found, expected)
    }

    fn count_answer(
        &mut self,
        what: &str,
        found: Answer,
        expected: Result<usize, Number>,
    ) -> Compared<()> {
        self.counts.asked.count(found.number);
        match expected {
            Ok(count) => answers(what, found, Number::Accepted, count as u64),
            Err(number) => answers(what, found, number, 0),
        }
    }

    /// 256 × which text + 65,536 × start + 2^32 × length, of which 256 is taken off already.
    fn part_answer(
        &mut self,
        what: &str,
        found: Answer,
        expected: Result<Part, Number>,
    ) -> Compared<()> {
        self.counts.asked.count(found.number);
        match expected {
            Ok(Part { text, span }) => {
                let value = text as u64 + ((span.start as u64) << 8) + ((span.length as u64) << 24);
                answers(what, found, Number::Accepted, value)
            }
            Err(number) => answers(what, found, number, 0),
        }
    }

    /// Texts as they are, longer, or too short by a little, which is 12 where the table keeps
    /// the whole length.
    pub fn lend_texts(&mut self, first: &[u8], second: &[u8]) -> LentTexts {
        let lent = [first, second].map(|text| match self.random.below(20) {
            0..=1 => [text, b" more"].concat(),
            2 => text[..text.len() - self.random.below(text.len().min(3) + 1)].to_vec(),
            _ => text.to_vec(),
        });
        LentTexts::new(&mut self.random, [&lent[0], &lent[1]])
    }

    /// Asks for all of a table and writes it.
    pub fn read(&mut self, given: &Given, texts: &LentTexts) -> Compared<()> {
        self.ask(given, texts)?;
        self.write(given, texts)
    }

    /// A table lent too short is refused with 1 wherever it is read.
    pub fn read_short(&mut self, given: &Given, texts: &LentTexts) -> Compared<()> {
        let length = self.random.below(TABLE_BYTES);
        let short = Given::new(&mut self.random, &given.lent.bytes()[..length]);
        self.read(&short, texts)?;
        self.merge(&short, given)?;
        self.merge(given, &short)?;
        Ok(())
    }
}

/// Whether a line of the text that is in the grammar has a name of R-1, refused or not.
fn has_names(text: &[u8]) -> bool {
    has_event(text, is_named)
}

/// Whether such a line has a name of R-4 as a detail or after `@`, of more than one character.
fn has_key_names(text: &[u8]) -> bool {
    has_event(text, has_key_name)
}

fn has_event(text: &[u8], is_meant: fn(&WrittenEvent) -> bool) -> bool {
    let lines = text::lines(text).into_iter();
    let mut productions = lines.filter_map(|line| text::parse(text, line).ok());
    productions.any(|production| production.events.iter().any(is_meant))
}

fn has_key_name(event: &WrittenEvent) -> bool {
    let WrittenEvent::Described(Description { list, detail, .. }) = event else {
        return false;
    };
    let runs = list
        .modifiers
        .iter()
        .filter_map(|written| match written.name {
            ModifierName::Keysym(run) => Some(run),
            ModifierName::Plain(_) => None,
        });
    let mut words = runs.chain(*detail).filter(|word| word.len() > 1);
    words.any(|word| LATIN_1.iter().any(|(name, _)| name.as_bytes() == word))
}

fn is_named(event: &WrittenEvent) -> bool {
    match event {
        WrittenEvent::KeyCharacter(character) => character.mark == Some(b'$'),
        WrittenEvent::Described(Description {
            list, type_name, ..
        }) => {
            let mut modifiers = list.modifiers.iter();
            let named = modifiers.any(|written| match written.name {
                ModifierName::Plain(name) => {
                    matches!(names::modifier(name), Some(Modifier::Name(_)))
                }
                ModifierName::Keysym(_) => true,
            });
            named || *type_name == b"Meta"
        }
    }
}

/// The number of parameters of each call of each production.
fn shape(table: &Table) -> Vec<Vec<usize>> {
    let productions = table.productions.iter();
    productions
        .map(|production| {
            let calls = production.calls.iter();
            calls.map(|call| call.parameters.len()).collect()
        })
        .collect()
}

/// 12 for either table comes before 17 and 11.
fn merged(old: &Given, new: &Given) -> Result<Table, Number> {
    let (old, new) = (old.table()?, new.table()?);
    merge(old, new)
}

/// "After a refusal by 1 lent memory is unchanged. After any other the compiler and merger
/// leave the output table all zero." Bytes past it stay.
fn refused(mut lent: Lent, number: Number) -> Compared<()> {
    if number != Number::ShortBuffer {
        lent.expect(&[0; TABLE_BYTES]);
    }
    lent.check("the output table")
}

/// The bytes are those of this table, but for the starts of empty parts, which 01 leaves open.
fn accepted(mut lent: Lent, table: &Table) -> Compared<Given> {
    let found = layout::decode(lent.bytes()).ok_or("an accepted table is not whole")?;
    let same = without_empty_starts(&found) == without_empty_starts(table);
    ensure(same, || format!("{found:?} and not {table:?}"))?;
    lent.expect(&layout::encode(&found));
    lent.check("the output table")?;
    Ok(Given {
        lent,
        named: named(&found),
        table: Ok(found),
    })
}

fn without_empty_starts(table: &Table) -> Table {
    let mut table = table.clone();
    let calls = table.productions.iter_mut().flat_map(|p| &mut p.calls);
    for span in calls.flat_map(|call| &mut call.parameters) {
        if span.length == 0 {
            *span = Span::default();
        }
    }
    table
}
