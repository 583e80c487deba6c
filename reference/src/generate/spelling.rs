//! Spells productions as text, by a random choice among all spellings that the grammar has.

use crate::calls::{CallContents, ProductionContents};
use crate::details::{self, Taken};
use crate::keysyms;
use crate::modifiers::{ListedName, ModifierTest, BUTTONS, CTRL};
use crate::names::{self, Adds, EventType, Modifier, Name};
use crate::random::Random;
use crate::table::{Directive, EventSpec};
use crate::text::{is_detail_byte, is_keysym_name_byte, is_text_byte, is_unquoted_byte};

/// A text that compiles to these productions. A roomy one has blanks around many tokens.
pub fn text(
    random: &mut Random,
    roomy: bool,
    directive: Directive,
    productions: &[ProductionContents],
) -> Vec<u8> {
    let mut speller = Speller {
        random,
        roomy,
        out: Vec::new(),
    };
    speller.directive(directive);
    for production in productions {
        speller.blank_lines();
        speller.production(production);
        speller.out.push(b'\n');
    }
    speller.end();
    speller.out
}

struct Speller<'r> {
    random: &'r mut Random,
    roomy: bool,
    out: Vec<u8>,
}

impl Speller<'_> {
    fn blank(&mut self) {
        let blank = *self.random.pick(b" \t");
        self.out.push(blank);
    }

    fn gap(&mut self) {
        while self.roomy && self.random.percent(20) {
            self.blank();
        }
    }

    fn blank_lines(&mut self) {
        while self.roomy && self.random.percent(5) {
            self.gap();
            self.out.push(b'\n');
        }
    }

    fn token(&mut self, token: impl AsRef<[u8]>) {
        self.gap();
        self.out.extend(token.as_ref());
    }

    fn directive(&mut self, directive: Directive) {
        let line: &[u8] = match directive {
            Directive::Replace if self.random.percent(70) => return,
            Directive::Replace => b"#replace\n",
            Directive::Override => b"#override\n",
            Directive::Augment => b"#augment\n",
        };
        self.out.extend(line);
    }

    /// The last newline may be left out, or a line of blanks may follow it.
    fn end(&mut self) {
        match self.random.below(3) {
            0 if self.out.last() == Some(&b'\n') => {
                self.out.pop();
            }
            1 => self.gap(),
            _ => {}
        }
    }

    fn production(&mut self, production: &ProductionContents) {
        let mut rest = production.events.as_slice();
        while let [first, further @ ..] = rest {
            rest = match key_sequence_length(rest) {
                0 => {
                    self.event(first);
                    further
                }
                length => self.event_or_key_sequence(rest, length),
            };
            self.token(if rest.is_empty() { ":" } else { "," });
        }
        for call in &production.calls {
            self.call(call);
        }
        self.gap();
    }

    /// Spells one event, or several up to this length as a key sequence; gives the rest.
    fn event_or_key_sequence<'e>(
        &mut self,
        events: &'e [EventSpec],
        length: usize,
    ) -> &'e [EventSpec] {
        if self.random.percent(60) {
            self.event(&events[0]);
            return &events[1..];
        }
        let (sequence, rest) = events.split_at(self.random.range(1, length));
        self.token("\"");
        for spec in sequence {
            self.key_character(spec);
        }
        self.out.push(b'"');
        rest
    }

    fn key_character(&mut self, spec: &EventSpec) {
        let byte = key_sequence_byte(spec).expect("only such events are spelled so");
        if spec.test.set == CTRL {
            self.out.push(b'^');
        } else if spec.test.has_names() {
            self.out.push(b'$');
        } else if matches!(byte, b'"' | b'^' | b'$' | b'\\') || self.random.percent(10) {
            self.out.push(b'\\');
        }
        self.out.push(byte);
    }

    fn event(&mut self, spec: &EventSpec) {
        let event_type = self.event_type(spec);
        if names::has_state(spec.code) {
            self.modifier_list(&spec.test, event_type.adds);
        }
        self.token("<");
        self.token(event_type.name);
        self.token(">");
        let counted =
            spec.count > 1 || names::is_key_or_button(spec.code) && self.random.percent(10);
        if counted {
            self.token("(");
            self.token(spec.count.to_string());
            self.token(")");
        }
        if event_type.detail.is_none() {
            if let Some(value) = spec.detail {
                let detail = self.detail(spec.code, value, counted);
                self.token(detail);
            }
        }
    }

    fn event_type(&mut self, spec: &EventSpec) -> EventType {
        let names: Vec<&EventType> = names::EVENT_TYPES
            .iter()
            .filter(|event_type| can_name(event_type, spec))
            .collect();
        **self.random.pick(&names)
    }

    fn modifier_list(&mut self, test: &ModifierTest, adds: Adds) {
        let added = match adds {
            Adds::Bit(bit) => bit,
            _ => 0,
        };
        let is_added = |listed: &ListedName| adds == Adds::Name(listed.name) && !listed.negated;
        let names_are_added = test.names.iter().all(is_added);
        let exact = match test.has_names() {
            true => test.exclamation,
            false => test.is_exact() && self.random.percent(70),
        };
        let alone = names_are_added && !test.colon;
        if alone && !exact && test.set | test.clear == added && self.random.percent(20) {
            self.token("Any");
            return;
        }
        // An added bit beside `!` or `None` must be listed; an added name is. Beside a name, the
        // bits asked clear are listed ones.
        let implied = if test.has_names() { 0 } else { test.clear };
        let none = exact && test.set == 0 && test.clear == implied;
        if alone && none && self.random.percent(50) {
            self.token("None");
            return;
        }
        if exact {
            self.token("!");
        }
        if test.colon {
            self.token(":");
        }
        let unneeded_set = if exact { 0 } else { added };
        let unneeded_clear = if exact { implied } else { 0 };
        let set = self.listed(test.set, unneeded_set);
        let clear = self.listed(test.clear, unneeded_clear);
        let mut names = test.names.clone();
        names.retain(|listed| !is_added(listed) || self.random.percent(30));
        self.modifiers(set, clear, &names);
    }

    /// The bits to list: the needed ones, and some of the others.
    fn listed(&mut self, bits: u16, unneeded: u16) -> u16 {
        bits & !(unneeded & self.random.card16())
    }

    /// The modifiers in any order, some of them twice.
    fn modifiers(&mut self, set: u16, clear: u16, names: &[ListedName]) {
        let mut once = Vec::new();
        for bit in (0..13).map(|at| 1 << at) {
            if set & bit != 0 {
                once.push((false, Modifier::Bit(bit)));
            }
            if clear & bit != 0 {
                once.push((true, Modifier::Bit(bit)));
            }
        }
        let named = |listed: &ListedName| (listed.negated, Modifier::Name(listed.name));
        once.extend(names.iter().map(named));
        let mut listed = Vec::new();
        for modifier in once {
            let times = if self.random.percent(5) { 2 } else { 1 };
            listed.extend([modifier].repeat(times));
        }
        self.random.shuffle(&mut listed);
        for (at, &(negated, modifier)) in listed.iter().enumerate() {
            if negated {
                self.token("~");
            } else if at > 0 {
                self.blank();
            }
            let name = self.modifier_name(modifier);
            self.token(name);
        }
    }

    fn modifier_name(&mut self, modifier: Modifier) -> Vec<u8> {
        if let Modifier::Name(Name::Keysym(keysym)) = modifier {
            return [b"@".as_slice(), &self.keysym_run(keysym)].concat();
        }
        let names: Vec<&str> = names::MODIFIERS
            .iter()
            .filter(|&&(_, named)| named == modifier)
            .map(|&(name, _)| name)
            .collect();
        self.random.pick(&names).as_bytes().to_vec()
    }

    /// A spelling of a keysym that can stand after `@`.
    fn keysym_run(&mut self, keysym: u32) -> Vec<u8> {
        let mut spellings = self.keysym_spellings(keysym, true);
        spellings.retain(|run| run.iter().all(|&byte| is_keysym_name_byte(byte)));
        self.random.pick(&spellings).clone()
    }

    fn detail(&mut self, code: u8, value: u32, counted: bool) -> Vec<u8> {
        let spellings = match details::taken(code) {
            Taken::Keysym => self.keysym_spellings(value, counted),
            Taken::NamesAndNumbers(_) => {
                vec![
                    value.to_string().into(),
                    details::canonical(code, value).into(),
                ]
            }
            _ => vec![details::canonical(code, value).into()],
        };
        self.random.pick(&spellings).clone()
    }

    fn keysym_spellings(&mut self, value: u32, counted: bool) -> Vec<Vec<u8>> {
        let zeros = "0".repeat(self.random.below(3));
        let mut spellings = vec![
            format!("0x{zeros}{value:x}").into_bytes(),
            format!("0X{zeros}{value:X}").into_bytes(),
            format!("00{zeros}{value:o}").into_bytes(),
        ];
        // One digit stands for its character.
        if value >= 10 {
            spellings.push(value.to_string().into_bytes());
        }
        for (name, named) in keysyms::names() {
            if named == value {
                spellings.extend(vec![name.as_bytes().to_vec(); 3]);
            }
        }
        if let Ok(byte) = u8::try_from(value) {
            // After `>`, a bracket begins a count.
            let begins_count = byte == b'(' && !counted;
            if is_text_byte(byte) && is_detail_byte(byte) && byte != b'\n' && !begins_count {
                spellings.extend([vec![byte], vec![byte], vec![byte]]);
            }
        }
        spellings
    }

    fn call(&mut self, call: &CallContents) {
        self.token(&call.name);
        self.out.push(b'(');
        for (at, parameter) in call.parameters.iter().enumerate() {
            if at > 0 {
                self.token(",");
            }
            // A call with one empty parameter needs its quotes: `f()` has none.
            let can_be_bare = parameter.iter().all(|&byte| is_unquoted_byte(byte))
                && !(parameter.is_empty() && call.parameters.len() == 1);
            if can_be_bare && self.random.percent(60) {
                self.token(parameter);
            } else {
                self.token([b"\"", parameter.as_slice(), b"\""].concat());
            }
        }
        self.token(")");
    }
}

/// Whether the type's name, with a suitable list, gives the event.
fn can_name(event_type: &EventType, spec: &EventSpec) -> bool {
    let adds_what_is_asked = match event_type.adds {
        Adds::Nothing => !spec.test.clause,
        Adds::Bit(bit) => spec.test.set & bit != 0,
        Adds::AnyButton => spec.test.clause || spec.test.set & BUTTONS != 0,
        Adds::Name(name) => spec.test.names.contains(&ListedName {
            name,
            negated: false,
        }),
    };
    let fixes_the_detail = event_type
        .detail
        .is_none_or(|detail| spec.detail == Some(detail));
    event_type.code == spec.code && adds_what_is_asked && fixes_the_detail
}

/// How many of the first events can be characters of one key sequence.
fn key_sequence_length(events: &[EventSpec]) -> usize {
    let characters = events.iter().map(key_sequence_byte);
    characters.take_while(Option::is_some).count()
}

fn key_sequence_byte(spec: &EventSpec) -> Option<u8> {
    let bits = |set| ModifierTest {
        set,
        ..ModifierTest::default()
    };
    let meta = ListedName {
        name: Name::Meta,
        negated: false,
    };
    let with_meta = ModifierTest {
        names: vec![meta],
        ..ModifierTest::default()
    };
    let byte = u8::try_from(spec.detail?).ok()?;
    let in_sequence = spec.code == names::KEY_PRESS
        && spec.count == 1
        && [bits(0), bits(CTRL), with_meta].contains(&spec.test)
        && is_text_byte(byte)
        && !matches!(byte, b'\t' | b'\n');
    in_sequence.then_some(byte)
}
