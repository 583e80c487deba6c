//! The files that this program makes, in the layout of `rt fmt`.

use crate::groups::{spelling, Index};
use crate::latin1::Latin1;
use crate::lists::{Entry, EventType};
use crate::table::{Place, Table};
use crate::template::{filled, Values};

pub struct File {
    /// From the repository's root.
    pub path: &'static str,
    pub text: String,
}

/// Each file and the text that its numbers are put into.
const TEMPLATES: [(&str, &str); 9] = [
    (
        "crates/names/src/table.rt",
        include_str!("../templates/table.txt"),
    ),
    (
        "crates/names/src/rows.rt",
        include_str!("../templates/rows.txt"),
    ),
    (
        "crates/names/specs/Places.antt",
        include_str!("../templates/Places.txt"),
    ),
    (
        "crates/names/proofs/InOrder.antt",
        include_str!("../templates/InOrder.txt"),
    ),
    (
        "crates/names/proofs/table/spelling_at/Answers.antt",
        include_str!("../templates/spelling_at.txt"),
    ),
    (
        "crates/names/proofs/rows/type_numbers/Answers.antt",
        include_str!("../templates/type_numbers.txt"),
    ),
    (
        "crates/names/proofs/rows/modifier_line/Answers.antt",
        include_str!("../templates/modifier_line.txt"),
    ),
    (
        "crates/names/proofs/rows/type_line/Answers.antt",
        include_str!("../templates/type_line.txt"),
    ),
    (
        "crates/keysyms/src/table.rt",
        include_str!("../templates/latin1.txt"),
    ),
];

const MADE: &str = "Made by tools/name_table from the lists of crates/model/specs/Names.antt and \
    Details.antt: change those and run it again.";

pub fn made(table: &Table, latin1: &Latin1) -> Vec<File> {
    let mut values = Values::from([("made", MADE.to_string())]);
    add_places(&mut values, table);
    add_indexes(&mut values, table);
    add_rows(&mut values, table);
    add_proofs(&mut values, table);
    add_latin1(&mut values, latin1);
    let file = |(path, template)| File {
        path,
        text: filled(template, &values),
    };
    TEMPLATES.map(file).into()
}

fn add_places(values: &mut Values, table: &Table) {
    let kinds = [
        "keysyms",
        "buttons",
        "motions",
        "modes",
        "requests",
        "directives",
        "none",
        "any",
        "modifiers",
        "types",
        "name_total",
    ];
    for (kind, start) in kinds.into_iter().zip(table.starts) {
        values.insert(kind, start.to_string());
    }
    let modifiers = table.lists.modifiers.len();
    values.insert("modifier_total", modifiers.to_string());
    values.insert("type_total", table.lists.types.len().to_string());
    let button_motion = table.written.button_motion;
    values.insert("button_motion", button_motion.to_string());
}

fn add_indexes(values: &mut Values, table: &Table) {
    let modifiers = table.modifiers.index();
    let types = table.types.index();
    values.extend([
        ("modifier_firsts", modifiers.firsts()),
        ("shortest_modifier", modifiers.shortest.to_string()),
        ("longest_modifier", modifiers.longest.to_string()),
        ("modifier_columns", modifiers.columns().to_string()),
        ("modifier_lines", arms_of_lines(&modifiers)),
        ("modifier_list", lists_of_lines(&modifiers)),
        ("type_firsts", types.firsts()),
        ("shortest_type", types.shortest.to_string()),
        ("longest_type", types.longest.to_string()),
        ("type_columns", types.columns().to_string()),
        ("type_lines", arms_of_lines(&types)),
        ("type_list", lists_of_lines(&types)),
    ]);
}

fn add_rows(values: &mut Values, table: &Table) {
    let bits = table.modifiers.entries.iter();
    let bits = bits.map(|entry| row(entry.meaning.number(), &entry.name));
    let numbers = table.types.entries.iter().enumerate();
    let numbers = numbers.map(|(place, entry)| arm_of_numbers(place, entry));
    let spellings = table.names().into_iter().enumerate();
    let spellings = spellings.map(|(place, name)| arm_of_spelling(place, name));
    let written = &table.written;
    values.extend([
        ("modifier_bits", lines(bits)),
        ("type_numbers", lines(numbers)),
        ("detail_values", detail_values(&table.lists.details)),
        ("spellings", lines(spellings)),
        ("type_places", rows_of_places(&written.types)),
        ("bit_places", rows_of_places(&written.bits)),
        ("long_places", rows_of_places(&written.longs)),
        ("modifier_order", order(&table.modifiers.order)),
        ("type_order", order(&table.types.order)),
    ]);
}

fn add_proofs(values: &mut Values, table: &Table) {
    let [.., names] = table.starts;
    let types = table.lists.types.len();
    let spelling = Answers {
        template: include_str!("../templates/spelling_answer.txt"),
        fact: "spelling_at",
    };
    let numbers = Answers {
        template: include_str!("../templates/number_answer.txt"),
        fact: "numbers_at",
    };
    let modifier_line = Answers {
        template: include_str!("../templates/modifier_line_answer.txt"),
        fact: "modifier_line",
    };
    let type_line = Answers {
        template: include_str!("../templates/type_line_answer.txt"),
        fact: "type_line",
    };
    values.extend([
        ("spelling_answers", spelling.of_places("place", names)),
        ("number_answers", numbers.of_places("i", types)),
        (
            "modifier_line_answers",
            modifier_line.of_line(&table.modifiers.index()),
        ),
        ("type_line_answers", type_line.of_line(&table.types.index())),
    ]);
}

fn add_latin1(values: &mut Values, latin1: &Latin1) {
    let Latin1 { entries, firsts } = latin1;
    let names: Vec<&str> = entries.iter().map(|entry| entry.name.as_str()).collect();
    let starts = latin1.starts();
    // The last start is the end, which has no name.
    let rows_of_starts = starts
        .iter()
        .zip(&names)
        .map(|(start, name)| row(start, name));
    let keysyms = entries
        .iter()
        .map(|entry| row(format!("{:#x}", entry.meaning), &entry.name));
    let rows_of_firsts = firsts.iter().map(|&place| row(place, names[place]));
    values.extend([
        ("latin1_total", names.len().to_string()),
        ("latin1_bytes", names.concat().len().to_string()),
        ("latin1_start_total", starts.len().to_string()),
        ("latin1_first_total", firsts.len().to_string()),
        ("latin1_starts", lines(rows_of_starts)),
        ("latin1_values", lines(keysyms)),
        ("latin1_firsts", lines(rows_of_firsts)),
        ("latin1_names", byte_string(&names)),
    ]);
}

/// Joined without a line break at the end, which the template has.
fn lines(lines: impl Iterator<Item = String>) -> String {
    lines.collect::<Vec<_>>().join("\n")
}

// ---- Code

/// An element of a constant row.
fn row(number: impl std::fmt::Display, name: &str) -> String {
    format!("    {number}, // {name}")
}

/// The inside of a byte string with a name on each line. Line breaks and the blanks after them are no
/// part of it.
fn byte_string(names: &[&str]) -> String {
    names.join("\\\n    ")
}

fn rows_of_places(places: &[Place]) -> String {
    lines(places.iter().map(|(place, name)| row(place, name)))
}

/// Keysyms in hexadecimal, as keysymdef.h has them.
fn detail_values(details: &[Vec<Entry<u32>>; 5]) -> String {
    let [keysyms, others @ ..] = details;
    let keysyms = keysyms
        .iter()
        .map(|e| row(format!("{:#x}", e.meaning), &e.name));
    let others = others.iter().flatten().map(|e| row(e.meaning, &e.name));
    lines(keysyms.chain(others))
}

fn arm_of_spelling(place: usize, name: &str) -> String {
    let (low, high) = spelling(name);
    let len = name.len();
    format!("        {place} => Spelling({len}, {low:#x}, {high:#x}), // {name}")
}

fn arm_of_numbers(place: usize, entry: &Entry<EventType>) -> String {
    let EventType { code, added, fixed } = entry.meaning;
    let added = added.number();
    let fixed = fixed.unwrap_or(0);
    let name = &entry.name;
    format!("        {place} => TypeNumbers({code}, {added}, {fixed}), // {name}")
}

fn arms_of_lines(index: &Index) -> String {
    lines(
        index
            .lines
            .iter()
            .map(|(first, line)| arm_of_line(*first, line)),
    )
}

/// `rt fmt` gives each element a line of its own where all of them need more than 60 bytes.
fn arm_of_line(first: u8, line: &[usize]) -> String {
    let first = match first {
        b'\'' => r"b'\''".to_string(),
        _ => format!("b'{}'", char::from(first)),
    };
    let numbers: Vec<String> = line.iter().map(usize::to_string).collect();
    let joined = numbers.join(", ");
    if joined.len() <= 60 {
        return format!("        {first} => [{joined}],");
    }
    let elements = lines(
        numbers
            .iter()
            .map(|number| format!("            {number},")),
    );
    format!("        {first} => [\n{elements}\n        ],")
}

// ---- Proofs

/// A list of numbers, over as many lines as it needs.
fn order(places: &[usize]) -> String {
    let numbers = places.iter().map(|place| format!("{place} ∷"));
    wrapped(numbers.chain(["[]".to_string()]))
}

/// The lines of an index, each as a list on a line of its own.
fn lists_of_lines(index: &Index) -> String {
    let list = |line: &[usize]| {
        let numbers: String = line.iter().map(|number| format!("{number} ∷ ")).collect();
        format!("({numbers}[])")
    };
    let lists: Vec<String> = index.lines.iter().map(|(_, line)| list(line)).collect();
    format!("    {}\n    ∷ []", lists.join("\n    ∷ "))
}

fn wrapped(words: impl Iterator<Item = String>) -> String {
    const WIDTH: usize = 124;
    let mut text = String::new();
    let mut width = WIDTH;
    for word in words {
        let needed = word.chars().count() + 1;
        if width + needed > WIDTH {
            let start = if text.is_empty() { "    " } else { "\n    " };
            text.push_str(start);
            width = 4 + needed - 1;
        } else {
            text.push(' ');
            width += needed;
        }
        text.push_str(&word);
    }
    text
}

/// The answers for the arms of a `match`.
struct Answers {
    /// One answer: the goal of an arm, and the definitions that it computes.
    template: &'static str,
    /// What is cited in each arm but the last.
    fact: &'static str,
}

impl Answers {
    /// For a `match` over the numbers below a count: in the last arm no number is left.
    fn of_places(&self, argument: &str, count: usize) -> String {
        let fact = self.fact;
        let arms = (0..count).map(|place| self.filled(place, format!("{fact} c.in-{place}.is")));
        let left = format!("past {count} c.args.{argument} {REST}");
        let last = self.filled_last(format!("absurd (omega (arith, {left}))"));
        lines(arms.chain([last]))
    }

    /// For a `match` over the first bytes. In the last arm the byte is none of them; what it is not
    /// is a chain of pairs, the last of them outermost.
    fn of_line(&self, index: &Index) -> String {
        let fact = self.fact;
        let firsts = index.lines.iter().map(|(first, _)| *first);
        let arms =
            firsts.map(|first| self.filled(first, format!("ap {fact} (sym c.in-{first}.is)")));
        let others = (0..index.lines.len()).rev().map(|depth| {
            let path = ".0".repeat(depth);
            format!("  ne_eqb _ _ {REST}{path}.1,")
        });
        let last = self.filled_last(format!("rw (\n{}\n)", lines(others)));
        lines(arms.chain([last]))
    }

    /// The arm of a number, with an empty line after it.
    fn filled(&self, number: impl std::fmt::Display, answer: String) -> String {
        let values = Values::from([("arm", format!("-{number}")), ("answer", answer)]);
        filled(self.template, &values)
    }

    fn filled_last(&self, answer: String) -> String {
        let values = Values::from([("arm", "_default".to_string()), ("answer", answer)]);
        filled(self.template, &values).trim_end().to_string()
    }
}

/// That the value is none of those before the last arm.
const REST: &str = "c.in_default.in_default-own.rest";

#[cfg(test)]
mod tests {
    use super::*;
    use crate::latin1::tests::latin1;
    use crate::table::tests::lists;

    #[test]
    fn every_file_is_filled() {
        let lists = lists();
        let table = Table::new(&lists).unwrap();
        for file in made(&table, &latin1()) {
            assert!(
                file.text.contains("Made by tools/name_table"),
                "{}",
                file.path
            );
            assert!(!file.text.contains('%'), "{}", file.path);
            assert!(file.text.ends_with('\n'), "{}", file.path);
        }
    }

    #[test]
    fn a_line_of_the_index_is_broken_where_it_is_long() {
        assert_eq!(arm_of_line(b'A', &[0, 1, 2]), "        b'A' => [0, 1, 2],");
        assert_eq!(arm_of_line(b'\'', &[7]), r"        b'\'' => [7],");
        let fits = [vec![100; 2], vec![10; 13]].concat();
        assert_eq!(arm_of_line(b'A', &fits).lines().count(), 1);
        let broken = arm_of_line(b'A', &[fits, vec![1]].concat());
        let broken: Vec<&str> = broken.lines().collect();
        assert_eq!(broken.len(), 18);
        assert_eq!(broken[0], "        b'A' => [");
        assert_eq!(broken[1], "            100,");
        assert_eq!(broken[17], "        ],");
    }

    #[test]
    fn rows_of_latin1() {
        let mut values = Values::new();
        add_latin1(&mut values, &latin1());
        let begins = |mark, start: &str| assert!(values[mark].starts_with(start), "{mark}");
        begins("latin1_names", "Capital\\\n    n20\\\n    n21\\\n");
        begins(
            "latin1_starts",
            "    0, // Capital\n    7, // n20\n    10, // n21\n",
        );
        begins("latin1_values", "    0xe9, // Capital\n    0x20, // n20\n");
        begins("latin1_firsts", "    1, // n20\n    2, // n21\n");
        let counts = ["total", "bytes", "start_total", "first_total"];
        let counts = counts.map(|count| values[format!("latin1_{count}").as_str()].as_str());
        assert_eq!(counts, ["193", "585", "194", "191"]);
        assert!(values["latin1_names"].ends_with("nff\\\n    other"));
        assert!(values["latin1_starts"].ends_with("    580, // other"));
    }

    #[test]
    fn an_order_over_two_lines() {
        assert_eq!(order(&[2, 0, 1]), "    2 ∷ 0 ∷ 1 ∷ []");
        let long = order(&[100; 21]);
        let widths: Vec<usize> = long.lines().map(|line| line.chars().count()).collect();
        assert_eq!(widths, [123, 12]);
    }

    #[test]
    fn lists_of_an_index() {
        let index = Index {
            shortest: 1,
            longest: 1,
            lines: vec![(b'A', vec![0, 2]), (b'B', vec![2, 3])],
        };
        assert_eq!(
            lists_of_lines(&index),
            "    (0 ∷ 2 ∷ [])\n    ∷ (2 ∷ 3 ∷ [])\n    ∷ []"
        );
    }

    const ANSWERS: Answers = Answers {
        template: "returns-in%arm% c = %answer%\n",
        fact: "at",
    };

    #[test]
    fn answers_of_places() {
        assert_eq!(
            ANSWERS.of_places("i", 2),
            "returns-in-0 c = at c.in-0.is\n\n\
             returns-in-1 c = at c.in-1.is\n\n\
             returns-in_default c = \
             absurd (omega (arith, past 2 c.args.i c.in_default.in_default-own.rest))"
        );
    }

    #[test]
    fn answers_of_a_line() {
        let index = Index {
            shortest: 1,
            longest: 1,
            lines: vec![(b'A', vec![0, 2]), (b'B', vec![2, 3])],
        };
        assert_eq!(
            ANSWERS.of_line(&index),
            "returns-in-65 c = ap at (sym c.in-65.is)\n\n\
             returns-in-66 c = ap at (sym c.in-66.is)\n\n\
             returns-in_default c = rw (\n  \
             ne_eqb _ _ c.in_default.in_default-own.rest.0.1,\n  \
             ne_eqb _ _ c.in_default.in_default-own.rest.1,\n)"
        );
    }
}
