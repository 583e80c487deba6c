//! The text's grammar (01, "The text"). What is read here is not yet looked up.

use crate::numbers::Number;
use crate::table::{Call, Directive, Span};
use std::ops::Range;

/// A line in the grammar.
#[derive(Debug)]
pub struct WrittenProduction<'t> {
    pub events: Vec<WrittenEvent<'t>>,
    pub calls: Vec<Call>,
}

#[derive(Debug)]
pub enum WrittenEvent<'t> {
    Described(Description<'t>),
    KeyCharacter(KeyCharacter),
}

/// Modifiers, `<type>`, optional count, optional detail.
#[derive(Debug)]
pub struct Description<'t> {
    pub list: ModifierList<'t>,
    pub type_name: &'t [u8],
    pub count: Option<WrittenCount<'t>>,
    pub detail: Option<&'t [u8]>,
}

#[derive(Debug, Default)]
pub struct ModifierList<'t> {
    pub exclamation: bool,
    pub colon: bool,
    /// `None` or `Any`, which stand alone.
    pub none: bool,
    pub any: bool,
    pub modifiers: Vec<WrittenModifier<'t>>,
}

impl ModifierList<'_> {
    pub fn is_written(&self) -> bool {
        self.exclamation || self.colon || self.none || self.any || !self.modifiers.is_empty()
    }
}

#[derive(Debug)]
pub struct WrittenModifier<'t> {
    pub negated: bool,
    pub name: ModifierName<'t>,
}

#[derive(Clone, Copy, Debug, PartialEq, Eq)]
pub enum ModifierName<'t> {
    Plain(&'t [u8]),
    /// The run after `@`.
    Keysym(&'t [u8]),
}

#[derive(Debug)]
pub struct WrittenCount<'t> {
    pub digits: &'t [u8],
    pub plus: bool,
}

/// A character of a key sequence, with the `^`, `\` or `$` before it.
#[derive(Clone, Copy, Debug)]
pub struct KeyCharacter {
    pub mark: Option<u8>,
    pub byte: u8,
}

pub fn is_text_byte(byte: u8) -> bool {
    matches!(byte, b'\t' | b'\n' | 32..=126 | 160..=255)
}

pub fn is_blank(byte: u8) -> bool {
    matches!(byte, b' ' | b'\t')
}

/// A modifier name or a type.
pub fn is_name_byte(byte: u8) -> bool {
    byte.is_ascii_alphanumeric()
}

/// The run after `@`.
pub fn is_keysym_name_byte(byte: u8) -> bool {
    is_name_byte(byte) || byte == b'_'
}

pub fn is_call_name_byte(byte: u8) -> bool {
    is_keysym_name_byte(byte) || byte == b'-'
}

pub fn is_detail_byte(byte: u8) -> bool {
    !is_blank(byte) && !matches!(byte, b',' | b':')
}

pub fn is_unquoted_byte(byte: u8) -> bool {
    !is_blank(byte) && !matches!(byte, b',' | b'"' | b')')
}

/// The lines without their newlines. What stands after the last newline is a line too.
pub fn lines(text: &[u8]) -> Vec<Range<usize>> {
    let mut start = 0;
    let mut lines = Vec::new();
    for line in text.split(|&byte| byte == b'\n') {
        lines.push(start..start + line.len());
        start += line.len() + 1;
    }
    lines
}

/// A directive is a whole line, without blanks.
pub fn directive(line: &[u8]) -> Option<Directive> {
    match line {
        b"#replace" => Some(Directive::Replace),
        b"#override" => Some(Directive::Override),
        b"#augment" => Some(Directive::Augment),
        _ => None,
    }
}

/// Reads one line as a production, or refuses it with 4. Spans are counted from the text's
/// start.
pub fn parse(text: &[u8], line: Range<usize>) -> Result<WrittenProduction<'_>, Number> {
    let mut scanner = Scanner {
        text: &text[..line.end],
        at: line.start,
    };
    let events = scanner.events()?;
    let calls = scanner.calls()?;
    Ok(WrittenProduction { events, calls })
}

/// Reads tokens of one line. The text ends where the line does.
struct Scanner<'t> {
    text: &'t [u8],
    at: usize,
}

impl<'t> Scanner<'t> {
    fn peek(&self) -> Option<u8> {
        self.text.get(self.at).copied()
    }

    fn next(&mut self) -> Result<u8, Number> {
        let byte = self.peek().ok_or(Number::NotGrammar)?;
        self.at += 1;
        Ok(byte)
    }

    /// Whether there was a blank.
    fn skip_blanks(&mut self) -> bool {
        self.run(is_blank).length > 0
    }

    /// The longest run of such bytes from here.
    fn run(&mut self, belongs: fn(u8) -> bool) -> Span {
        let start = self.at;
        while self.peek().is_some_and(belongs) {
            self.at += 1;
        }
        Span {
            start,
            length: self.at - start,
        }
    }

    fn bytes(&self, span: Span) -> &'t [u8] {
        &self.text[span.start..span.start + span.length]
    }

    /// The next token as a run of at least one such byte.
    fn run_token(&mut self, belongs: fn(u8) -> bool) -> Result<Span, Number> {
        self.skip_blanks();
        let span = self.run(belongs);
        match span.length {
            0 => Err(Number::NotGrammar),
            _ => Ok(span),
        }
    }

    /// Takes the sign if it is what stands next.
    fn take_directly(&mut self, sign: u8) -> bool {
        let found = self.peek() == Some(sign);
        if found {
            self.at += 1;
        }
        found
    }

    /// Takes the sign if it is the next token.
    fn take(&mut self, sign: u8) -> bool {
        self.skip_blanks();
        self.take_directly(sign)
    }

    fn expect(&mut self, sign: u8) -> Result<(), Number> {
        require(self.take(sign))
    }

    /// "Events parted by commas, a colon."
    fn events(&mut self) -> Result<Vec<WrittenEvent<'t>>, Number> {
        let mut events = Vec::new();
        loop {
            if self.take(b'"') {
                let characters = self.key_sequence()?;
                events.extend(characters.into_iter().map(WrittenEvent::KeyCharacter));
            } else {
                events.push(WrittenEvent::Described(self.description()?));
            }
            if self.take(b':') {
                return Ok(events);
            }
            self.expect(b',')?;
        }
    }

    /// What follows a key sequence's opening quote.
    fn key_sequence(&mut self) -> Result<Vec<KeyCharacter>, Number> {
        let mut characters = Vec::new();
        loop {
            let first = self.next()?;
            let (mark, byte) = match first {
                b'"' => {
                    require(!characters.is_empty())?;
                    return Ok(characters);
                }
                b'^' | b'\\' | b'$' => (Some(first), self.next()?),
                _ => (None, first),
            };
            require(byte != b'\t')?;
            characters.push(KeyCharacter { mark, byte });
        }
    }

    fn description(&mut self) -> Result<Description<'t>, Number> {
        let list = self.modifier_list()?;
        self.expect(b'<')?;
        let type_name = self.run_token(is_name_byte)?;
        self.expect(b'>')?;
        let count = match self.take(b'(') {
            true => Some(self.count()?),
            false => None,
        };
        self.skip_blanks();
        let detail = self.run(is_detail_byte);
        Ok(Description {
            list,
            type_name: self.bytes(type_name),
            count,
            detail: (detail.length > 0).then(|| self.bytes(detail)),
        })
    }

    fn modifier_list(&mut self) -> Result<ModifierList<'t>, Number> {
        let mut list = ModifierList {
            exclamation: self.take(b'!'),
            colon: self.take(b':'),
            ..ModifierList::default()
        };
        // "Two modifiers need a blank or `~` between them." The first one needs none.
        let mut parted = true;
        loop {
            parted |= self.skip_blanks();
            let negated = self.take_directly(b'~');
            let Some(name) = self.modifier_name(negated)? else {
                break;
            };
            require(parted || negated)?;
            list.modifiers.push(WrittenModifier { negated, name });
            parted = false;
        }
        stand_alone(list)
    }

    /// The name that stands next, if one does; after `~` one must.
    fn modifier_name(&mut self, needed: bool) -> Result<Option<ModifierName<'t>>, Number> {
        if needed {
            self.skip_blanks();
        }
        if self.take_directly(b'@') {
            let name = self.run(is_keysym_name_byte);
            require(name.length > 0)?;
            return Ok(Some(ModifierName::Keysym(self.bytes(name))));
        }
        let name = self.run(is_name_byte);
        require(name.length > 0 || !needed)?;
        Ok((name.length > 0).then(|| ModifierName::Plain(self.bytes(name))))
    }

    /// What follows a count's opening bracket.
    fn count(&mut self) -> Result<WrittenCount<'t>, Number> {
        let digits = self.run_token(|byte| byte.is_ascii_digit())?;
        let plus = self.take(b'+');
        self.expect(b')')?;
        Ok(WrittenCount {
            digits: self.bytes(digits),
            plus,
        })
    }

    /// Zero or more calls up to the end of the line.
    fn calls(&mut self) -> Result<Vec<Call>, Number> {
        let mut calls = Vec::new();
        loop {
            self.skip_blanks();
            if self.peek().is_none() {
                return Ok(calls);
            }
            calls.push(self.call()?);
        }
    }

    fn call(&mut self) -> Result<Call, Number> {
        let name = self.run_token(is_call_name_byte)?;
        require(self.take_directly(b'('))?;
        Ok(Call {
            text: 0,
            name,
            parameters: self.parameters()?,
        })
    }

    /// What follows a call's opening bracket.
    fn parameters(&mut self) -> Result<Vec<Span>, Number> {
        let mut parameters = Vec::new();
        if self.take(b')') {
            return Ok(parameters);
        }
        loop {
            parameters.push(self.parameter()?);
            if self.take(b')') {
                return Ok(parameters);
            }
            self.expect(b',')?;
        }
    }

    fn parameter(&mut self) -> Result<Span, Number> {
        if !self.take(b'"') {
            return Ok(self.run(is_unquoted_byte));
        }
        let quoted = self.run(|byte| byte != b'"');
        require(self.take_directly(b'"'))?;
        Ok(quoted)
    }
}

/// "`None` and `Any` stand alone."
fn stand_alone(mut list: ModifierList<'_>) -> Result<ModifierList<'_>, Number> {
    let is = |written: &WrittenModifier, name: &[u8]| written.name == ModifierName::Plain(name);
    list.none = list.modifiers.iter().any(|written| is(written, b"None"));
    list.any = list.modifiers.iter().any(|written| is(written, b"Any"));
    if list.none || list.any {
        let alone = !list.exclamation && !list.colon && list.modifiers.len() == 1;
        require(alone && !list.modifiers[0].negated)?;
        list.modifiers.clear();
    }
    Ok(list)
}

fn require(in_grammar: bool) -> Result<(), Number> {
    match in_grammar {
        true => Ok(()),
        false => Err(Number::NotGrammar),
    }
}
