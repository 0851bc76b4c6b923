//! The values of a field: numbers, addresses, names, ranges, prefixes, and lists of them. Whatever is
//! not clearly one of these is a fault; nothing is completed or guessed.

use crate::library::MOST_OWN_RULES;
use crate::rule::{DESTINATION, DESTINATION_PORT, HIGHEST, PROTOCOL, SOURCE};
use crate::text::known::{field_name, is_reserved, nearest, value_of, ANY, PORTS, PROTOCOLS};
use std::collections::BTreeMap;

/// Low and high, both inside.
pub type Span = (u32, u32);

/// What is wrong with a value, and how many characters behind its first.
#[derive(Clone, PartialEq, Eq, Debug)]
pub struct Wrong {
    pub behind: usize,
    pub message: String,
}

pub fn wrong<T>(message: String) -> Result<T, Wrong> {
    Err(Wrong { behind: 0, message })
}

#[derive(Clone, PartialEq, Eq, Debug)]
pub struct Service {
    pub protocol: u32,
    pub ports: Vec<Span>,
    pub line: usize,
}

#[derive(Clone, PartialEq, Eq, Debug)]
pub struct Name {
    pub span: Span,
    pub line: usize,
}

/// What the lines `name` and `service` declared.
#[derive(Clone, PartialEq, Eq, Default, Debug)]
pub struct Names {
    pub addresses: BTreeMap<String, Name>,
    pub services: BTreeMap<String, Service>,
    /// The lines that declare words, of those too that are not read yet.
    pub later: BTreeMap<String, usize>,
    /// The line that is being read.
    pub line: usize,
}

/// A port as a rule has it: the protocol is that of the service by which it was named.
#[derive(Clone, PartialEq, Eq, Debug)]
pub struct Port {
    pub span: Span,
    pub protocol: Option<u32>,
}

fn is_digits(word: &str) -> bool {
    !word.is_empty() && word.bytes().all(|byte| byte.is_ascii_digit())
}

/// A decimal number up to `highest`. A 0 in front is refused: some programs read it as octal.
pub fn number(word: &str, highest: u32) -> Result<u32, Wrong> {
    if word.is_empty() {
        return wrong("a number is missing".to_string());
    }
    if !is_digits(word) {
        return wrong(format!("`{}` is no number", shown(word)));
    }
    if word.len() > 1 && word.starts_with('0') {
        return wrong(format!("{} begins with 0; write the number without it", shown(word)));
    }
    match word.parse() {
        Ok(value) if value <= highest => Ok(value),
        _ => wrong(format!("{} is above {highest}", shown(word))),
    }
}

/// A word as a message shows it: not too long, and with nothing in it that moves a terminal's cursor.
pub fn shown(word: &str) -> String {
    let mut shown: String = word.chars().take(40).flat_map(char::escape_debug).collect();
    if word.chars().nth(40).is_some() {
        shown.push_str("..");
    }
    shown
}

fn dotted(word: &str) -> Result<u32, Wrong> {
    let parts: Vec<&str> = word.split('.').collect();
    if parts.len() != 4 {
        let count = ["one part", "two parts", "three parts"];
        let count = count.get(parts.len() - 1).copied().unwrap_or("more than four parts");
        return wrong(format!("{} has {count}; an address has four", shown(word)));
    }
    let mut value = 0;
    let mut behind = 0;
    for part in parts {
        value = value << 8 | number(part, 255).map_err(|wrong| Wrong { behind, ..wrong })?;
        behind += part.chars().count() + 1;
    }
    Ok(value)
}

/// A single address: dotted, or its number.
fn single_address(word: &str) -> Result<u32, Wrong> {
    if word.contains('.') {
        dotted(word)
    } else {
        number(word, HIGHEST[SOURCE])
    }
}

fn prefix(base: &str, bits: &str) -> Result<Span, Wrong> {
    if !begins_as_number(base) {
        let what = "a prefix is a dotted address, / and a number of bits";
        return wrong(format!("`{}` is no prefix: {what}", shown(&format!("{base}/{bits}"))));
    }
    let low = dotted(base)?;
    let bits =
        number(bits, 32).map_err(|wrong| Wrong { behind: base.chars().count() + 1, ..wrong })?;
    let rest = u32::MAX.checked_shr(bits).unwrap_or(0);
    if low & rest != 0 {
        let start = crate::text::address(low & !rest);
        return wrong(format!("{base}/{bits} has host bits; the prefix is {start}/{bits}"));
    }
    Ok((low, low | rest))
}

/// One value or `low-high`, each end read by `single`.
fn range(word: &str, single: impl Fn(&str) -> Result<u32, Wrong>) -> Result<Span, Wrong> {
    let Some((first, last)) = word.split_once('-') else {
        return single(word).map(|value| (value, value));
    };
    let behind = first.chars().count() + 1;
    let low = single(first)?;
    let high = single(last).map_err(|wrong| Wrong { behind: behind + wrong.behind, ..wrong })?;
    if first.contains('.') != last.contains('.') {
        return wrong(format!("{} has one dotted end; write both in full", shown(word)));
    }
    if low > high {
        return wrong(format!("{} ends below its start", shown(word)));
    }
    Ok((low, high))
}

fn begins_as_number(word: &str) -> bool {
    word.starts_with(|first: char| first.is_ascii_digit() || first == '-' || first == '.')
}

/// A word that is no value of a field: says what it is instead, if that is known.
fn no_value(word: &str, field: usize, known: Vec<&str>) -> String {
    let (article, noun) = match field {
        SOURCE | DESTINATION => ("an", "address"),
        PROTOCOL => ("a", "protocol"),
        _ => ("a", "port"),
    };
    let is = if word.is_empty() {
        return format!("{article} {noun} is missing");
    } else if value_of(&PROTOCOLS, word).is_some() {
        "a protocol"
    } else if value_of(&PORTS, word).is_some() {
        "a port"
    } else if is_reserved(word) {
        "a word of its own"
    } else {
        return format!("`{}` is no known {noun}{}", shown(word), nearest(word, known));
    };
    format!("{word} is {is}, and {article} {noun} stands here")
}

impl Names {
    pub fn address(&self, word: &str, field: usize) -> Result<Span, Wrong> {
        if word == ANY {
            return Ok((0, HIGHEST[field]));
        }
        if let Some(name) = self.addresses.get(word) {
            return Ok(name.span);
        }
        if let Some((base, bits)) = word.split_once('/') {
            return prefix(base, bits);
        }
        if begins_as_number(word) {
            return range(word, single_address);
        }
        if self.services.contains_key(word) {
            return wrong(format!("{word} is a service, and an address stands here"));
        }
        let known = self.addresses.keys().map(String::as_str).chain([ANY]).collect();
        self.unknown(word, field, known)
    }

    pub fn port(&self, word: &str, field: usize) -> Result<Vec<Port>, Wrong> {
        if word == ANY {
            return Ok(vec![Port { span: (0, HIGHEST[field]), protocol: None }]);
        }
        if let Some(service) = self.services.get(word) {
            let protocol = Some(service.protocol);
            return Ok(service.ports.iter().map(|&span| Port { span, protocol }).collect());
        }
        if let Some(port) = value_of(&PORTS, word) {
            return Ok(vec![Port { span: (port, port), protocol: None }]);
        }
        if begins_as_number(word) {
            let span = range(word, |end| number(end, HIGHEST[field]))?;
            return Ok(vec![Port { span, protocol: None }]);
        }
        if self.addresses.contains_key(word) {
            return wrong(format!("{word} is the name of an address, and a port stands here"));
        }
        let known = self.services.keys().map(String::as_str);
        let known = known.chain(PORTS.iter().map(|(name, _)| *name)).chain([ANY]).collect();
        self.unknown(word, field, known)
    }

    pub fn protocol(&self, word: &str) -> Result<Span, Wrong> {
        if word == ANY {
            return Ok((0, HIGHEST[PROTOCOL]));
        }
        if let Some(protocol) = value_of(&PROTOCOLS, word) {
            return Ok((protocol, protocol));
        }
        if begins_as_number(word) {
            return range(word, |end| number(end, HIGHEST[PROTOCOL]));
        }
        if self.services.contains_key(word) {
            return wrong(format!("{word} is a service, and a protocol stands here"));
        }
        let known = PROTOCOLS.iter().map(|(name, _)| *name).chain([ANY]).collect();
        self.unknown(word, PROTOCOL, known)
    }

    fn unknown<T>(&self, word: &str, field: usize, known: Vec<&str>) -> Result<T, Wrong> {
        match self.later.get(word) {
            Some(line) => wrong(self.not_yet(word, *line)),
            None => wrong(no_value(word, field, known)),
        }
    }

    fn not_yet(&self, word: &str, line: usize) -> String {
        match line < self.line {
            true => format!("{word} is declared at line {line}, which is at fault"),
            false => format!("{word} is declared below, at line {line}; declare it above"),
        }
    }

    /// Whether a value has a declared word in it.
    pub fn are_in(&self, value: &str) -> bool {
        let declared = |part| self.addresses.contains_key(part) || self.services.contains_key(part);
        value.split(',').any(declared)
    }

    pub fn service(&self, word: &str) -> Result<&Service, Wrong> {
        if let Some(service) = self.services.get(word) {
            return Ok(service);
        }
        if value_of(&PORTS, word).is_some() {
            return wrong(format!(
                "{word} is a port; write {} {word} and a protocol",
                field_name(DESTINATION_PORT)
            ));
        }
        if let Some(line) = self.later.get(word) {
            return wrong(self.not_yet(word, *line));
        }
        let near = nearest(word, self.services.keys().map(String::as_str));
        wrong(format!("no service `{}` is declared above{near}", shown(word)))
    }
}

/// The values of a list `one,two,..`, each read by `single`; a value that stands twice is a fault.
pub fn each<T: PartialEq>(
    word: &str,
    single: impl Fn(&str) -> Result<Vec<T>, Wrong>,
) -> Result<Vec<T>, Wrong> {
    if word.matches(',').count() >= MOST_OWN_RULES {
        return wrong(format!("more than {MOST_OWN_RULES} values stand here"));
    }
    let mut values: Vec<T> = Vec::new();
    let mut behind = 0;
    for part in word.split(',') {
        let within = |wrong: Wrong| Wrong { behind: behind + wrong.behind, ..wrong };
        if part.is_empty() {
            return wrong("a value is missing beside the comma".to_string()).map_err(within);
        }
        for value in single(part).map_err(within)? {
            if values.contains(&value) {
                let by = if word.split(',').filter(|other| *other == part).count() > 1 {
                    ""
                } else {
                    ", by another name"
                };
                let what = format!("{} stands here already{by}", shown(part));
                return wrong(what).map_err(within);
            }
            values.push(value);
        }
        if values.len() > MOST_OWN_RULES {
            return wrong(format!("more than {MOST_OWN_RULES} values stand here")).map_err(within);
        }
        behind += part.chars().count() + 1;
    }
    Ok(values)
}
