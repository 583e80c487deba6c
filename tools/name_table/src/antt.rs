//! Definitions of an antt file, as far as the lists of names need them: words, strings and a few
//! signs. Whatever else stands in such a definition is refused.

use std::fs;
use std::path::Path;

/// A file of the repository, by its path from the root.
pub struct Source {
    path: &'static str,
    text: String,
}

#[derive(Clone, Copy, Debug, PartialEq, Eq)]
pub enum Token<'a> {
    /// A name or a number.
    Word(&'a str),
    /// What stands between two quotation marks.
    Text(&'a str),
    Open,
    Close,
    /// `∷`
    Cons,
    /// `[]`
    Nil,
    /// `++`
    Append,
}

/// A token and its line in the file.
pub type Placed<'a> = (usize, Token<'a>);

/// One element of a list, and the line of its first token.
pub struct Item<'a> {
    source: &'a Source,
    pub line: usize,
    pub tokens: Vec<Token<'a>>,
}

impl Item<'_> {
    pub fn refusal(&self, what: impl AsRef<str>) -> String {
        self.source.refusal(self.line, what)
    }

    /// The value of a number, or of a name that the file defines as one.
    pub fn number(&self, word: &str) -> Result<u32, String> {
        self.source.number(self.line, word)
    }
}

impl Source {
    pub fn read(root: &Path, path: &'static str) -> Result<Source, String> {
        match fs::read_to_string(root.join(path)) {
            Ok(text) => Ok(Source { path, text }),
            Err(error) => Err(format!("{path}: {error} (is this the repository's root?)")),
        }
    }

    #[cfg(test)]
    pub fn of(text: &str) -> Source {
        Source {
            path: "Test.antt",
            text: text.to_string(),
        }
    }

    pub fn refusal(&self, line: usize, what: impl AsRef<str>) -> String {
        format!("{}:{line}: {}", self.path, what.as_ref())
    }

    /// What `name =` defines, with the line of that definition.
    pub fn definition(&self, name: &str) -> Result<(usize, Vec<Placed<'_>>), String> {
        let lines = || (1..).zip(self.text.lines());
        let mut found = lines().filter_map(|(line, text)| Some((line, body_of(name, text)?)));
        let Some((start, first)) = found.next() else {
            return Err(format!("{}: no line begins with `{name} =`", self.path));
        };
        if let Some((again, _)) = found.next() {
            return Err(self.refusal(again, format!("`{name}` is defined twice")));
        }
        let mut tokens = Vec::new();
        self.split(start, first, &mut tokens)?;
        for (line, text) in lines()
            .skip(start)
            .take_while(|(_, text)| is_continued(text))
        {
            self.split(line, text, &mut tokens)?;
        }
        Ok((start, tokens))
    }

    /// The elements of the list that `name =` defines: each has a `∷` after it, and `[]` ends them.
    pub fn list(&self, name: &str) -> Result<Vec<Item<'_>>, String> {
        let (start, tokens) = self.definition(name)?;
        let elements = match tokens.split_last() {
            Some(((_, Token::Nil), elements)) if ends_in_cons(elements) => elements,
            _ => {
                let what = format!("the list `{name}` does not end in `∷ []`");
                return Err(self.refusal(start, what));
            }
        };
        let parts = elements.split_inclusive(|(_, token)| *token == Token::Cons);
        Ok(parts.map(|part| self.item(part)).collect())
    }

    /// An element with the `∷` after it.
    fn item<'a>(&'a self, part: &[Placed<'a>]) -> Item<'a> {
        let (line, _) = part[0];
        let own = &part[..part.len() - 1];
        Item {
            source: self,
            line,
            tokens: own.iter().map(|(_, token)| *token).collect(),
        }
    }

    fn number(&self, line: usize, word: &str) -> Result<u32, String> {
        if let Some(value) = value_of(word) {
            return Ok(value);
        }
        let (_, defined) = self
            .definition(word)
            .map_err(|why| self.refusal(line, format!("`{word}` is no number ({why})")))?;
        match defined[..] {
            [(at, Token::Word(other))] => value_of(other)
                .ok_or_else(|| self.refusal(at, format!("`{word}` is not defined as a number"))),
            _ => Err(self.refusal(line, format!("`{word}` is not defined as a number"))),
        }
    }

    /// Refuses a definition that is not the expected one, line breaks and comments aside.
    pub fn expect(&self, name: &str, expected: &str) -> Result<(), String> {
        let (line, tokens) = self.definition(name)?;
        let mut wanted = Vec::new();
        self.split(line, expected, &mut wanted)?;
        let same = tokens.iter().map(|(_, token)| token);
        if same.eq(wanted.iter().map(|(_, token)| token)) {
            return Ok(());
        }
        Err(self.refusal(
            line,
            format!("`{name}` is not `{expected}`, the order that this program knows"),
        ))
    }

    /// Appends the tokens of a line.
    fn split<'a>(
        &self,
        line: usize,
        text: &'a str,
        tokens: &mut Vec<Placed<'a>>,
    ) -> Result<(), String> {
        let mut rest = text.trim_start();
        while !rest.is_empty() && !rest.starts_with("--") {
            let (token, after) = next(rest).map_err(|what| self.refusal(line, what))?;
            tokens.push((line, token));
            rest = after.trim_start();
        }
        Ok(())
    }
}

/// A list without elements ends so too.
fn ends_in_cons(tokens: &[Placed]) -> bool {
    tokens.last().is_none_or(|(_, token)| *token == Token::Cons)
}

/// What follows `name =` on a line that begins with it.
fn body_of<'a>(name: &str, line: &'a str) -> Option<&'a str> {
    line.strip_prefix(name)?.trim_start().strip_prefix('=')
}

/// A definition goes on over empty and indented lines.
fn is_continued(line: &str) -> bool {
    line.is_empty() || line.starts_with(char::is_whitespace)
}

/// The first token of a text that begins with one, and what follows it.
fn next(text: &str) -> Result<(Token<'_>, &str), String> {
    const SIGNS: [(&str, Token); 5] = [
        ("(", Token::Open),
        (")", Token::Close),
        ("∷", Token::Cons),
        ("[]", Token::Nil),
        ("++", Token::Append),
    ];
    for (sign, token) in SIGNS {
        if let Some(after) = text.strip_prefix(sign) {
            return Ok((token, after));
        }
    }
    if let Some(quoted) = text.strip_prefix('"') {
        return string(quoted);
    }
    let end = text.find(|c| !is_in_word(c)).unwrap_or(text.len());
    match text.split_at(end) {
        ("", _) => Err(format!("this is not read: {text}")),
        (word, after) => Ok((Token::Word(word), after)),
    }
}

/// A string whose opening quotation mark is already off. No name needs an escape, so none is read.
fn string(quoted: &str) -> Result<(Token<'_>, &str), String> {
    match quoted.split_once('"') {
        None => Err(format!("a string does not end: \"{quoted}")),
        Some((inside, _)) if inside.contains('\\') => {
            Err(format!("an escape is not read: \"{inside}\""))
        }
        Some((inside, after)) => Ok((Token::Text(inside), after)),
    }
}

fn is_in_word(c: char) -> bool {
    c.is_ascii_alphanumeric() || c == '.' || c == '_'
}

fn value_of(word: &str) -> Option<u32> {
    let (digits, base) = match word.strip_prefix("0x") {
        Some(digits) => (digits, 16),
        None => (word, 10),
    };
    u32::from_str_radix(digits, base).ok()
}

#[cfg(test)]
mod tests {
    use super::Token::*;
    use super::*;

    #[test]
    fn a_list_over_lines_with_comments() {
        let source = Source::of(
            "names =\n    value \"a\" 1 ∷ value \"b--c\" 0x2\n    -- value \"no\" 9\n\n    ∷ []\nother = 0\n",
        );
        let items = source.list("names").unwrap();
        let seen: Vec<_> = items.iter().map(|i| (i.line, &i.tokens[..])).collect();
        let first = [Word("value"), Text("a"), Word("1")];
        let second = [Word("value"), Text("b--c"), Word("0x2")];
        assert_eq!(seen, [(2, &first[..]), (2, &second[..])]);
    }

    #[test]
    fn a_list_without_elements() {
        assert!(Source::of("names = []\n").list("names").unwrap().is_empty());
    }

    fn list_refused(text: &str) -> String {
        Source::of(text).list("names").err().unwrap()
    }

    #[test]
    fn lists_refused() {
        let endless = "Test.antt:1: the list `names` does not end in `∷ []`";
        assert_eq!(list_refused("names =\n"), endless);
        assert_eq!(list_refused("names = value \"a\" 1\n"), endless);
        assert_eq!(list_refused("names = value \"a\" 1 []\n"), endless);
        assert_eq!(list_refused("names = value \"a\" 1 ∷ [] ∷\n"), endless);
        assert_eq!(
            list_refused("names = value \"a\" 1 ∷ [] ++ more\n"),
            endless
        );
        // A comment at the margin would end the definition: the list is then not whole.
        assert_eq!(list_refused("names = f ∷\n-- note\n    g ∷ []\n"), endless);
        assert_eq!(
            list_refused("name = []\n"),
            "Test.antt: no line begins with `names =`"
        );
        assert_eq!(
            list_refused("names = []\nnames = []\n"),
            "Test.antt:2: `names` is defined twice"
        );
        assert_eq!(
            list_refused("names =\n    value \"a\" 1\n    ∷ {! !} ∷ []\n"),
            "Test.antt:3: this is not read: {! !} ∷ []"
        );
        assert_eq!(
            list_refused("names = value \"a 1 ∷ []\n"),
            "Test.antt:1: a string does not end: \"a 1 ∷ []"
        );
        assert_eq!(
            list_refused("names = value \"a\\n\" 1 ∷ []\n"),
            "Test.antt:1: an escape is not read: \"a\\n\""
        );
    }

    #[test]
    fn numbers() {
        let source = Source::of("two = 2\nfar = two\nsum = 1 ++ 1\n");
        assert_eq!(source.number(9, "34"), Ok(34));
        assert_eq!(source.number(9, "0xffbe"), Ok(0xffbe));
        assert_eq!(source.number(9, "two"), Ok(2));
        let refused = |word| source.number(9, word).unwrap_err();
        assert_eq!(
            refused("three"),
            "Test.antt:9: `three` is no number (Test.antt: no line begins with `three =`)"
        );
        assert!(refused("4294967296").starts_with("Test.antt:9: `4294967296` is no number"));
        assert_eq!(
            refused("far"),
            "Test.antt:2: `far` is not defined as a number"
        );
        assert_eq!(
            refused("sum"),
            "Test.antt:9: `sum` is not defined as a number"
        );
    }

    #[test]
    fn an_expected_definition() {
        let source = Source::of("all =\n    one ++ -- first\n    (two ++ three)\n");
        assert_eq!(source.expect("all", "one ++ (two ++ three)"), Ok(()));
        let refused = source.expect("all", "one ++ two").unwrap_err();
        assert!(refused.starts_with("Test.antt:1: `all` is not `one ++ two`"));
    }
}
