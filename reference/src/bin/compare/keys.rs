//! Every name of a key and the words next to it, as a key detail and after `@`, and every keysym
//! that has a name or is near one, as it is written: a sorted table of names must not lose or mix
//! up any.

use crate::tables::{ensure, Compared, Comparison, Given};
use crate::words::next_to;
use glykorant_reference::keysyms::{self, KEYS};
use glykorant_reference::EventSpec;

/// Bytes of a detail, before and after those of names in byte order and between them.
const IN_DETAIL: &[u8] =
    b"0123456789ABCDEFGHIJKLMNOPQRSTUVWXYZabcdefghijklmnopqrstuvwxyz!-@_~\xA0\xE9\xFF";

/// Bytes of a run after `@`.
const IN_RUN: &[u8] = b"0123456789ABCDEFGHIJKLMNOPQRSTUVWXYZabcdefghijklmnopqrstuvwxyz_";

/// Past the keysyms of Latin-1.
const END_OF_KEYSYMS: u32 = 0x200;

/// Longer than every name.
const LONGEST_WORD: usize = 20;

pub fn run(comparison: &mut Comparison) -> Compared<()> {
    for (name, _) in keysyms::names() {
        compare_name(comparison, name)?;
        compare_words(comparison, name.as_bytes())?;
    }
    for &byte in IN_DETAIL {
        for length in 1..LONGEST_WORD {
            compile_detail(comparison, &vec![byte; length])?;
        }
    }
    let of_01 = KEYS.iter().map(|&(_, keysym)| keysym);
    for keysym in (0..END_OF_KEYSYMS).chain(of_01) {
        compare_keysym(comparison, keysym)?;
    }
    Ok(())
}

/// The name as a detail, after `@`, and as both.
fn compare_name(comparison: &mut Comparison, name: &str) -> Compared<()> {
    let texts = [
        format!("<Key>{name}:"),
        format!("@{name}<Key>:"),
        format!("~@{name}<KeyUp>(2){name}:"),
    ];
    for text in texts {
        read_back(comparison, &text)?;
        comparison.counts.texts_of_key_names += 1;
    }
    Ok(())
}

/// The words next to a name, and its beginnings.
fn compare_words(comparison: &mut Comparison, name: &[u8]) -> Compared<()> {
    for word in next_to(name, IN_DETAIL) {
        compile_detail(comparison, &word)?;
    }
    for word in next_to(name, IN_RUN) {
        compile_run(comparison, &word)?;
    }
    for end in 1..name.len() {
        compile_detail(comparison, &name[..end])?;
        compile_run(comparison, &name[..end])?;
    }
    Ok(())
}

fn compile_detail(comparison: &mut Comparison, word: &[u8]) -> Compared<()> {
    compile_word(comparison, [b"<Key>", word, b":"])
}

fn compile_run(comparison: &mut Comparison, word: &[u8]) -> Compared<()> {
    compile_word(comparison, [b"@", word, b"<Key>:"])
}

fn compile_word(comparison: &mut Comparison, text: [&[u8]; 3]) -> Compared<()> {
    comparison.compile(&text.concat())?;
    comparison.counts.texts_of_key_words += 1;
    Ok(())
}

/// The keysym in hexadecimal as a detail, and after `@`.
fn compare_keysym(comparison: &mut Comparison, keysym: u32) -> Compared<()> {
    let texts = [
        format!("<Key>{keysym:#x}:"),
        format!("@{keysym:#x}<KeyUp>(2){keysym:#x}:"),
    ];
    for text in texts {
        read_back(comparison, &text)?;
        comparison.counts.texts_of_keysyms += 1;
    }
    Ok(())
}

/// What is written compiles to the same events, and is then written as it stands.
fn read_back(comparison: &mut Comparison, text: &str) -> Compared<()> {
    let refused = |text: &[u8]| format!("{} is refused", String::from_utf8_lossy(text));
    let text = text.as_bytes();
    let given = comparison.compile(text)?.ok_or_else(|| refused(text))?;
    let written = comparison.written(&given, text)?;
    let again = comparison
        .compile(&written)?
        .ok_or_else(|| refused(&written))?;
    let same = events(&again) == events(&given) && comparison.written(&again, &written)? == written;
    ensure(same, || {
        let [text, written] = [text, &written].map(String::from_utf8_lossy);
        format!("{text} is written as {written} and not so read back")
    })
}

fn events(given: &Given) -> Vec<&EventSpec> {
    given
        .table
        .iter()
        .flat_map(|table| table.events())
        .collect()
}
