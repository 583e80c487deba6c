//! Names in groups of one first byte and length, the index of these groups, and names as numbers.

use crate::lists::Entry;

/// By first byte, then by length: the order of the groups.
fn group_of(name: &str) -> (Option<u8>, usize) {
    (name.bytes().next(), name.len())
}

/// The entries of a list in the order of their groups. Those of one group stand as in the list.
pub struct Grouped<'a, T> {
    pub entries: Vec<&'a Entry<T>>,
    /// Of each of them the place in the list.
    pub order: Vec<usize>,
}

impl<'a, T> Grouped<'a, T> {
    pub fn new(list: &'a [Entry<T>]) -> Grouped<'a, T> {
        let mut order: Vec<usize> = (0..list.len()).collect();
        // The sort is stable.
        order.sort_by_key(|&place| group_of(&list[place].name));
        Grouped {
            entries: order.iter().map(|&place| &list[place]).collect(),
            order,
        }
    }

    pub fn names(&self) -> impl Iterator<Item = &'a str> + '_ {
        self.entries.iter().map(|entry| entry.name.as_str())
    }

    pub fn index(&self) -> Index {
        Index::new(&self.names().collect::<Vec<_>>())
    }
}

/// Of each first byte a line: where the group of each length begins, the shortest length first, and
/// where the last group ends.
#[derive(Debug, PartialEq, Eq)]
pub struct Index {
    pub shortest: usize,
    pub longest: usize,
    pub lines: Vec<(u8, Vec<usize>)>,
}

impl Index {
    fn new(names: &[&str]) -> Index {
        let lengths = || names.iter().map(|name| name.len());
        let shortest = lengths().min().unwrap_or(0);
        let longest = lengths().max().unwrap_or(0);
        let mut firsts: Vec<u8> = names
            .iter()
            .filter_map(|name| name.bytes().next())
            .collect();
        firsts.sort_unstable();
        firsts.dedup();
        // A group begins after all names of groups before it. The end of the last is where a group
        // of longer names would begin.
        let begin = |group| names.iter().filter(|name| group_of(name) < group).count();
        let line = |first| {
            (shortest..=longest + 1)
                .map(|len| begin((Some(first), len)))
                .collect()
        };
        Index {
            shortest,
            longest,
            lines: firsts
                .into_iter()
                .map(|first| (first, line(first)))
                .collect(),
        }
    }

    /// How many numbers a line has.
    pub fn columns(&self) -> usize {
        self.longest + 2 - self.shortest
    }

    pub fn firsts(&self) -> String {
        self.lines
            .iter()
            .map(|(first, _)| char::from(*first))
            .collect()
    }
}

/// A name's first eight bytes and the eight after them, each as one number with the first byte
/// lowest.
pub fn spelling(name: &str) -> (u64, u64) {
    let bytes = name.as_bytes();
    let (low, high) = bytes.split_at(bytes.len().min(8));
    (packed(low), packed(high))
}

fn packed(bytes: &[u8]) -> u64 {
    bytes
        .iter()
        .rev()
        .fold(0, |sum, &byte| sum << 8 | u64::from(byte))
}

#[cfg(test)]
mod tests {
    use super::*;

    #[test]
    fn spellings() {
        assert_eq!(spelling("a"), (0x61, 0));
        assert_eq!(spelling("Up"), (0x7055, 0));
        assert_eq!(spelling("KeyPress"), (0x7373_6572_5079_654b, 0));
        assert_eq!(spelling("BackSpace"), (0x6361_7053_6b63_6142, 0x65));
        assert_eq!(
            spelling("ConfigureRequest"),
            (0x7275_6769_666e_6f43, 0x7473_6575_7165_5265)
        );
    }

    #[test]
    fn grouped_by_first_byte_and_length() {
        let list: Vec<Entry<()>> = ["su", "Btn", "s", "Shift", "Super", "Bar", "S"]
            .into_iter()
            .map(|name| Entry {
                name: name.to_string(),
                line: 1,
                meaning: (),
            })
            .collect();
        let grouped = Grouped::new(&list);
        let names: Vec<&str> = grouped.names().collect();
        assert_eq!(names, ["Btn", "Bar", "S", "Shift", "Super", "s", "su"]);
        assert_eq!(grouped.order, [1, 5, 6, 3, 4, 2, 0]);
    }

    #[test]
    fn index_of_groups() {
        let index = Index::new(&["Btn", "Bar", "Shift", "Super", "su"]);
        let expected = Index {
            shortest: 2,
            longest: 5,
            lines: vec![
                (b'B', vec![0, 0, 2, 2, 2]),
                (b'S', vec![2, 2, 2, 2, 4]),
                (b's', vec![4, 5, 5, 5, 5]),
            ],
        };
        assert_eq!(index, expected);
        assert_eq!(index.columns(), 5);
        assert_eq!(index.firsts(), "BSs");
    }

    #[test]
    fn each_name_lies_in_the_group_that_the_index_gives() {
        let names = [
            "Alt", "Amen", "Lock", "Mod1", "Mod2", "Meta", "a", "ab", "ac",
        ];
        let index = Index::new(&names);
        for (place, name) in names.iter().enumerate() {
            let (_, line) = index
                .lines
                .iter()
                .find(|(first, _)| *first == name.as_bytes()[0])
                .unwrap();
            let column = name.len() - index.shortest;
            assert!((line[column]..line[column + 1]).contains(&place), "{name}");
        }
    }
}
