//! Every name of a modifier and of an event type, and the words next to it, where a modifier and
//! where a type is read: a table of names by length and first byte must not lose or mix up any.

use crate::tables::{Compared, Comparison};
use glykorant_reference::names::{EVENT_TYPES, MODIFIERS};

/// The bytes of which a name's run is made.
const RUN: &[u8] = b"0123456789ABCDEFGHIJKLMNOPQRSTUVWXYZabcdefghijklmnopqrstuvwxyz";

/// Longer than every name.
const LONGEST_WORD: usize = 70;

pub fn run(comparison: &mut Comparison) -> Compared<()> {
    for name in names() {
        compare(comparison, name)?;
        for word in next_to(name, RUN) {
            compare(comparison, &word)?;
        }
    }
    for &byte in RUN {
        for length in 1..LONGEST_WORD {
            compare(comparison, &vec![byte; length])?;
        }
    }
    Ok(())
}

fn names() -> impl Iterator<Item = &'static [u8]> {
    let modifiers = MODIFIERS.iter().map(|(name, _)| name.as_bytes());
    let types = EVENT_TYPES.iter().map(|ty| ty.name.as_bytes());
    modifiers.chain(types)
}

/// The word as a modifier, as a type, and as both.
fn compare(comparison: &mut Comparison, word: &[u8]) -> Compared<()> {
    let texts: [&[&[u8]]; 3] = [
        &[word, b"<Key>a:"],
        &[b"<", word, b">:"],
        &[word, b"<", word, b">a:"],
    ];
    for text in texts {
        comparison.compile(&text.concat())?;
        comparison.counts.texts_of_words += 1;
    }
    Ok(())
}

/// One byte changed, put in or left out, and one more at either end; the others are of these.
pub fn next_to(name: &[u8], bytes: &[u8]) -> Vec<Vec<u8>> {
    let mut words = Vec::new();
    for at in 0..name.len() {
        let (before, after) = (&name[..at], &name[at + 1..]);
        words.push([before, after].concat());
        for &byte in bytes {
            words.push([before, &[byte], after].concat());
        }
    }
    for at in 0..=name.len() {
        for &byte in bytes {
            words.push([&name[..at], &[byte], &name[at..]].concat());
        }
    }
    words
}
