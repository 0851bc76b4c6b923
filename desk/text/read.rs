//! A text read line by line into lists of rules. Every line that is at fault is named, not the first
//! alone.

use crate::rule::{Which, DESTINATION_PORT, SOURCE};
use crate::text::fields::rules;
use crate::text::known::{is_reserved, nearest, value_of, ACTIONS, DECLARATIONS, PORTS, SECTIONS};
use crate::text::values::{each, shown, Name, Service, Wrong};
use crate::text::words::{words, Word};
use crate::text::{Fault, Policy, RuleLine};
use std::collections::BTreeMap;

/// A longer text is not one that a person wrote.
pub const MOST_BYTES: usize = 1 << 20;
/// Faults that are named one by one; one more stands for all others.
pub const MOST_FAULTS: usize = 20;
const BYTE_ORDER_MARK: char = '\u{feff}';

struct Reader {
    policy: Policy,
    section: Option<Which>,
    labels: BTreeMap<String, usize>,
    /// The line that is being read.
    line: usize,
}

type Step<T = ()> = Result<T, Fault>;

pub fn read(bytes: &[u8]) -> Result<Policy, Vec<Fault>> {
    let text = decoded(bytes).map_err(|fault| vec![fault])?;
    let mut reader =
        Reader { policy: Policy::default(), section: None, labels: BTreeMap::new(), line: 0 };
    reader.policy.names.later = declared_somewhere(text);
    let mut faults = Vec::new();
    for line in text.lines() {
        reader.line += 1;
        reader.policy.names.line = reader.line;
        if let Err(fault) = reader.visible(line).and_then(|()| reader.line(&words(line))) {
            faults.push(fault);
        }
        // Whoever has more of them looks at the first ones first.
        if faults.len() > MOST_FAULTS {
            break;
        }
    }
    reader.policy.length = reader.line;
    if faults.is_empty() {
        Ok(reader.policy)
    } else {
        Err(faults)
    }
}

/// The lines that declare a word, for whoever uses it above.
fn declared_somewhere(text: &str) -> BTreeMap<String, usize> {
    let lines = text.lines().enumerate();
    lines
        .filter_map(|(at, line)| match words(line)[..] {
            [first, name, ..] if DECLARATIONS.contains(&first.text) => {
                Some((name.text.to_string(), at + 1))
            }
            _ => None,
        })
        .collect()
}

fn decoded(bytes: &[u8]) -> Step<&str> {
    let fault = |line, column, message: &str| Fault { line, column, message: message.to_string() };
    if bytes.len() > MOST_BYTES {
        return Err(fault(1, 1, "the text is longer than 1,048,576 bytes"));
    }
    let text = std::str::from_utf8(bytes).map_err(|error| {
        let whole = String::from_utf8_lossy(&bytes[..error.valid_up_to()]).into_owned();
        let last = whole.rsplit('\n').next().unwrap_or("");
        let line = whole.matches('\n').count() + 1;
        fault(line, last.chars().count() + 1, "a byte that is no UTF-8 text")
    })?;
    if text.starts_with(BYTE_ORDER_MARK) {
        return Err(fault(1, 1, "a byte order mark; save the text as UTF-8 without one"));
    }
    Ok(text)
}

/// Characters that show a line otherwise than it is read: those that move a cursor, end a line for some
/// editors, or turn the direction of text.
fn hides(character: char) -> bool {
    let turns = matches!(
        character,
        '\u{61c}' | '\u{200e}' | '\u{200f}' | '\u{2028}'..='\u{202e}' | '\u{2066}'..='\u{2069}'
    );
    turns || character.is_control() && character != '\t'
}

impl Reader {
    /// Nothing may stand in a line, its remark included, that hides a part of it.
    fn visible(&self, line: &str) -> Step {
        match line.chars().position(hides) {
            Some(at) => {
                let code = line.chars().nth(at).map_or(0, u32::from);
                let message = format!("a character that hides text (U+{code:04X})");
                Err(Fault { line: self.line, column: at + 1, message })
            }
            None => Ok(()),
        }
    }

    fn fault<T>(&self, word: &Word, message: String) -> Step<T> {
        Err(Fault { line: self.line, column: word.column, message })
    }

    /// A fault inside a word, at its own column.
    fn at(&self, word: &Word, wrong: Wrong) -> Fault {
        Fault { line: self.line, column: word.column + wrong.behind, message: wrong.message }
    }

    fn inside<T>(&self, word: &Word, read: Result<T, Wrong>) -> Step<T> {
        read.map_err(|wrong| self.at(word, wrong))
    }

    fn line(&mut self, words: &[Word]) -> Step {
        let Some(first) = words.iter().find(|word| !word.text.starts_with('@')) else {
            return match words.first() {
                Some(label) => self.fault(label, "a label without a rule".to_string()),
                None => Ok(()),
            };
        };
        let label = words.iter().find(|word| word.text.starts_with('@'));
        if let (Some(label), false) = (label, ACTIONS.contains(&first.text)) {
            return self.fault(label, "a label stands on a rule's line only".to_string());
        }
        match first.text {
            "gate" => self.begin(Which::Gate, words),
            "cell" => self.begin(Which::Own, words),
            "name" => self.name(words),
            "service" => self.service(words),
            "deny" | "allow" => self.rule(words),
            _ => {
                let known = SECTIONS.into_iter().chain(ACTIONS).chain(DECLARATIONS);
                let near = nearest(first.text, known);
                let what = "a line begins with deny, allow, gate, cell, name or service";
                self.fault(first, format!("unknown word `{}`{near} ({what})", shown(first.text)))
            }
        }
    }

    fn begin(&mut self, which: Which, words: &[Word]) -> Step {
        if words.len() > 1 {
            let other = words.iter().find(|word| !SECTIONS.contains(&word.text));
            let other = other.unwrap_or(&words[1]);
            return self.fault(other, "gate and cell stand alone on their lines".to_string());
        }
        let section = words[0].text;
        if let Some((line, _)) = self.policy.sections.iter().find(|begun| begun.1 == which) {
            return self.fault(&words[0], format!("{section} begins at line {line} already"));
        }
        self.policy.sections.push((self.line, which));
        self.section = Some(which);
        Ok(())
    }

    /// The word of a declaration that is declared: letters, digits, `-` and `_`, a letter first.
    fn declared(&self, word: &Word) -> Step<String> {
        let fits = |c: char| c.is_ascii_alphanumeric() || c == '-' || c == '_';
        if !word.text.starts_with(|first: char| first.is_ascii_alphabetic())
            || !word.text.chars().all(fits)
        {
            let what = "a letter, then letters, digits, - and _";
            return self.fault(word, format!("`{}` is no name: {what}", shown(word.text)));
        }
        if is_reserved(word.text) {
            return self.fault(word, format!("{} has a meaning of its own already", word.text));
        }
        let names = &self.policy.names;
        let name = names.addresses.get(word.text).map(|name| name.line);
        let line = name.or(names.services.get(word.text).map(|service| service.line));
        match line {
            Some(line) => {
                self.fault(word, format!("{} is declared at line {line} already", word.text))
            }
            None => Ok(word.text.to_string()),
        }
    }

    fn name(&mut self, words: &[Word]) -> Step {
        let &[_, name, value] = words else {
            let what = "name is followed by a word and an address, range or prefix";
            return self.fault(words.get(3).unwrap_or(&words[0]), what.to_string());
        };
        let declared = self.declared(&name)?;
        if value.text.contains(',') {
            let what = "a name is for one address, range or prefix";
            return self.fault(&value, what.to_string());
        }
        let span = self.inside(&value, self.policy.names.address(value.text, SOURCE))?;
        self.policy.names.addresses.insert(declared, Name { span, line: self.line });
        Ok(())
    }

    fn service(&mut self, words: &[Word]) -> Step {
        let &[_, name, protocol, ports] = words else {
            let what = "service is followed by a word, a protocol and a port or ports";
            return self.fault(words.get(4).unwrap_or(&words[0]), what.to_string());
        };
        let declared = self.declared(&name)?;
        if let Some(port) = value_of(&PORTS, name.text) {
            return self.fault(&name, format!("{} is the name of port {port} already", name.text));
        }
        let names = &self.policy.names;
        let span = self.inside(&protocol, names.protocol(protocol.text))?;
        if span.0 != span.1 {
            return self.fault(&protocol, "a service has one protocol".to_string());
        }
        let one = |part: &str| names.port(part, DESTINATION_PORT);
        let found = self.inside(&ports, each(ports.text, one))?;
        let of_others = found.iter().any(|port| port.protocol.is_some_and(|of| of != span.0));
        if of_others {
            let what = "a service of another protocol stands in this list";
            return self.fault(&ports, what.to_string());
        }
        let ports = found.into_iter().map(|port| port.span).collect();
        let service = Service { protocol: span.0, ports, line: self.line };
        self.policy.names.services.insert(declared, service);
        Ok(())
    }

    fn rule(&mut self, words: &[Word]) -> Step {
        let (labels, words): (Vec<Word>, Vec<Word>) =
            words.iter().copied().partition(|word| word.text.starts_with('@'));
        let label = self.label(&labels)?;
        let Some(which) = self.section else {
            let what = "a rule before the line gate or cell";
            return self.fault(&words[0], what.to_string());
        };
        let read = rules(&self.policy.names, &words);
        let rules = read.map_err(|(word, wrong)| self.at(&word, wrong))?;
        let list = self.policy.order.list_mut(which);
        let from = list.len();
        list.extend(rules);
        let places = from..list.len();
        if let Some(label) = &label {
            self.labels.insert(label.clone(), self.line);
        }
        let written: Vec<&str> = words.iter().map(|word| word.text).collect();
        let uses_names = written.iter().any(|word| self.policy.names.are_in(word));
        let words = written.join(" ");
        let line = self.line;
        self.policy.lines.push(RuleLine { line, which, places, label, words, uses_names });
        Ok(())
    }

    fn label(&self, labels: &[Word]) -> Step<Option<String>> {
        let Some(word) = labels.first() else { return Ok(None) };
        if let Some(second) = labels.get(1) {
            return self.fault(second, "a line has one label at the most".to_string());
        }
        let fits = |c: char| c.is_ascii_alphanumeric() || c == '-' || c == '_';
        let label = &word.text[1..];
        if label.is_empty() || !label.chars().all(fits) {
            let what = "a label is @ with letters, digits, - and _ behind it";
            return self.fault(word, what.to_string());
        }
        match self.labels.get(word.text) {
            Some(line) => self.fault(word, format!("{} stands at line {line} already", word.text)),
            None => Ok(Some(word.text.to_string())),
        }
    }
}
