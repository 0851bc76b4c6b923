//! Texts of plants drawn at random, with the rules that they stand for. The same rule is written in
//! whichever of its forms is drawn; what a line stands for is counted out here anew, not by the tool.

use super::draw::{Draw, Span};
use crate::rule::{
    Order, Ranges, Rule, Which, DESTINATION, DESTINATION_PORT, FIELDS, HIGHEST, PROTOCOL, SOURCE,
    SOURCE_PORT,
};

const FIELD_WORDS: [[&str; 2]; FIELDS] = [
    ["source", "from"],
    ["destination", "to"],
    ["source-port", "sport"],
    ["destination-port", "dport"],
    ["protocol", "proto"],
];
const PORTS: [(&str, u32); 6] =
    [("ssh", 22), ("http", 80), ("ntp", 123), ("https", 443), ("modbus", 502), ("bacnet", 47_808)];
const PROTOCOLS: [(&str, u32); 4] = [("icmp", 1), ("tcp", 6), ("udp", 17), ("sctp", 132)];
const REMARKS: [&str; 5] =
    ["# why", "#", "#deny from any", "# @label, ä and # again\t", "# – 10.0.0.0/8 … 𝄞"];

#[derive(Clone)]
struct Service {
    name: String,
    protocol: u32,
    ports: Vec<Span>,
}

/// The names and services that a text declares, and the lines that do so.
#[derive(Clone, Default)]
pub struct Declared {
    names: Vec<(String, Span)>,
    services: Vec<Service>,
    lines: Vec<String>,
}

/// A line with rules: its words, and the rules.
pub struct Line {
    pub words: String,
    pub rules: Vec<Rule>,
}

pub struct Plant {
    pub text: String,
    pub order: Order,
    pub declared: Declared,
}

/// The values of a rule's fields, and of `service` the pairs of port and protocol.
#[derive(Default)]
struct Values {
    words: Vec<(String, String)>,
    spans: [Vec<Span>; FIELDS],
    services: Vec<(Span, Span)>,
}

fn known(table: &[(&str, u32)], value: u32) -> Option<String> {
    table.iter().find(|(_, number)| *number == value).map(|(name, _)| name.to_string())
}

fn dotted(value: u32) -> String {
    let parts = [24, 16, 8, 0].map(|shift| (value >> shift & 255).to_string());
    parts.join(".")
}

/// How both ends of a range are written: by their numbers or dotted.
fn address_form(draw: &mut Draw) -> fn(u32) -> String {
    if draw.one_in(4) {
        |value| value.to_string()
    } else {
        dotted
    }
}

/// The bits of the prefix that is this range, tried one by one.
fn bits(span: Span) -> Option<u32> {
    let size = u64::from(span.1) - u64::from(span.0) + 1;
    (0..=32).find(|bits| size == 1 << (32 - bits) && u64::from(span.0) % size == 0)
}

impl Declared {
    pub fn draw(draw: &mut Draw) -> Declared {
        let mut declared = Declared::default();
        for at in 0..draw.below(6) {
            if draw.one_in(2) {
                declared.name(draw, at);
            } else {
                declared.service(draw, at);
            }
        }
        declared
    }

    fn name(&mut self, draw: &mut Draw, at: usize) {
        let span = draw.span(SOURCE);
        let name = format!("{}{at}", draw.pick(&["plc", "Office-", "line_", "tcp-host"]));
        let value = self.value(draw, SOURCE, span);
        self.names.push((name.clone(), span));
        self.lines.push(spaced(draw, &["name", &name, &value]));
    }

    fn service(&mut self, draw: &mut Draw, at: usize) {
        let name = format!("{}{at}", draw.pick(&["web", "Scan-", "s_"]));
        let protocol = draw.value(PROTOCOL);
        let (ports, spans) = self.list(draw, DESTINATION_PORT, Some(protocol));
        let of = self.value(draw, PROTOCOL, (protocol, protocol));
        self.lines.push(spaced(draw, &["service", &name, &of, &ports]));
        self.services.push(Service { name, protocol, ports: spans });
    }

    /// A range of a field in one of the forms that it may have.
    fn value(&self, draw: &mut Draw, field: usize, span: Span) -> String {
        if span == (0, HIGHEST[field]) && draw.one_in(2) {
            return "any".to_string();
        }
        let (low, high) = span;
        if field == SOURCE || field == DESTINATION {
            let (name, form) =
                (self.names.iter().find(|(_, named)| *named == span), address_form(draw));
            return match (name, bits(span), draw.below(4)) {
                (Some((name, _)), _, 0 | 1) => name.clone(),
                (_, Some(bits), 0..=2) => format!("{}/{bits}", dotted(low)),
                _ if low == high && draw.one_in(2) => form(low),
                _ => format!("{}-{}", form(low), form(high)),
            };
        }
        let table: &[(&str, u32)] = if field == PROTOCOL { &PROTOCOLS } else { &PORTS };
        match (low == high, known(table, low), draw.below(4)) {
            (true, Some(name), 0..=2) => name,
            (true, _, 1..) => low.to_string(),
            _ => format!("{low}-{high}"),
        }
    }

    /// A list of values of a field, mostly of one, none of them twice. A service may stand among ports
    /// where the rule has its protocol.
    fn list(&self, draw: &mut Draw, field: usize, protocol: Option<u32>) -> (String, Vec<Span>) {
        let (mut words, mut spans) = (Vec::new(), Vec::new());
        let count = if draw.one_in(6) { 2 + draw.below(3) } else { 1 };
        let ports = field == SOURCE_PORT || field == DESTINATION_PORT;
        while words.len() < count {
            let named = self.services.iter().filter(|one| ports && Some(one.protocol) == protocol);
            let named: Vec<&Service> = named.collect();
            let (word, values) = if !named.is_empty() && draw.one_in(3) {
                let service = draw.pick(&named);
                (service.name.clone(), service.ports.clone())
            } else {
                let span = self.span(draw, field);
                (self.value(draw, field, span), vec![span])
            };
            if !values.iter().any(|value| spans.contains(value)) {
                words.push(word);
                spans.extend(values);
            }
        }
        (words.join(","), spans)
    }

    /// A range, some of them those of names.
    fn span(&self, draw: &mut Draw, field: usize) -> Span {
        if (field == SOURCE || field == DESTINATION) && !self.names.is_empty() && draw.one_in(3) {
            return self.names[draw.below(self.names.len())].1;
        }
        draw.span(field)
    }

    fn named_services(&self, draw: &mut Draw, values: &mut Values) {
        let mut words = Vec::new();
        for _ in 0..1 + draw.below(2) {
            let service = &self.services[draw.below(self.services.len())];
            let protocol = (service.protocol, service.protocol);
            let pairs = service.ports.iter().map(|&port| (port, protocol));
            let pairs: Vec<_> = pairs.collect();
            if !pairs.iter().any(|pair| values.services.contains(pair)) {
                words.push(service.name.clone());
                values.services.extend(pairs);
            }
        }
        values.words.push(("service".to_string(), words.join(",")));
    }

    fn values(&self, draw: &mut Draw) -> Values {
        let mut values = Values::default();
        let service = !self.services.is_empty() && draw.one_in(4);
        if service {
            self.named_services(draw, &mut values);
        }
        // The protocol first: it says which services may be named as ports.
        for field in (0..FIELDS).rev() {
            let by_service = service && (field == DESTINATION_PORT || field == PROTOCOL);
            if by_service || draw.one_in(2) {
                continue;
            }
            let protocol = match values.spans[PROTOCOL][..] {
                [(low, high)] if low == high => Some(low),
                _ => None,
            };
            let (word, spans) = self.list(draw, field, protocol);
            values.words.push((draw.pick(&FIELD_WORDS[field]).to_string(), word));
            values.spans[field] = spans;
        }
        values
    }

    /// A line of at most so many rules, and at least one.
    pub fn line(&self, draw: &mut Draw, most: usize) -> Line {
        loop {
            let (values, allows) = (self.values(draw), draw.one_in(2));
            let rules = values.rules(allows);
            if rules.len() <= most {
                return Line { words: values.written(draw, allows), rules };
            }
        }
    }

    /// A line for every packet, as lists end.
    fn full_line(&self, draw: &mut Draw) -> Line {
        let (mut values, allows) = (Values::default(), draw.one_in(2));
        for field in 0..FIELDS {
            if draw.one_in(4) {
                let word = self.value(draw, field, (0, HIGHEST[field]));
                values.words.push((draw.pick(&FIELD_WORDS[field]).to_string(), word));
            }
        }
        let rules = values.rules(allows);
        Line { words: values.written(draw, allows), rules }
    }
}

impl Values {
    /// One rule for each choice of values, as a counter whose last digit runs fastest counts them.
    fn rules(&self, allows: bool) -> Vec<Rule> {
        let sizes: Vec<usize> =
            self.spans.iter().map(Vec::len).chain([self.services.len()]).collect();
        let count: usize = sizes.iter().map(|&size| size.max(1)).product();
        let mut rules = Vec::new();
        for number in 0..count {
            let (mut ranges, mut left) = (Ranges::FULL, number);
            let mut put = |field: usize, span: Span| {
                (ranges.low[field], ranges.high[field]) = span;
            };
            for digit in (0..sizes.len()).rev().filter(|&digit| sizes[digit] > 0) {
                let chosen = left % sizes[digit];
                left /= sizes[digit];
                if digit == FIELDS {
                    put(DESTINATION_PORT, self.services[chosen].0);
                    put(PROTOCOL, self.services[chosen].1);
                } else {
                    put(digit, self.spans[digit][chosen]);
                }
            }
            rules.push(Rule { ranges, allows });
        }
        rules
    }

    /// The fields in any order.
    fn written(mut self, draw: &mut Draw, allows: bool) -> String {
        let mut words = vec![if allows { "allow" } else { "deny" }.to_string()];
        while !self.words.is_empty() {
            let (field, value) = self.words.swap_remove(draw.below(self.words.len()));
            words.extend([field, value]);
        }
        spaced(draw, &words.iter().map(String::as_str).collect::<Vec<_>>())
    }
}

fn blanks(draw: &mut Draw) -> &'static str {
    draw.pick(&[" ", " ", " ", "  ", "\t", " \t "])
}

fn spaced(draw: &mut Draw, words: &[&str]) -> String {
    let mut line = words[0].to_string();
    for word in &words[1..] {
        line += blanks(draw);
        line += word;
    }
    line
}

/// A label in front or behind, perhaps.
pub fn labelled(draw: &mut Draw, words: String, label: &str) -> String {
    match draw.below(5) {
        0 => format!("{label}{}{words}", blanks(draw)),
        1 => format!("{words}{}{label}", blanks(draw)),
        _ => words,
    }
}

/// A remark behind, perhaps.
pub fn remarked(draw: &mut Draw, words: String) -> String {
    match draw.below(4) {
        0 => format!("{words}{}{}", blanks(draw), draw.pick(&REMARKS)),
        1 if draw.one_in(4) => format!("{words}{}", draw.pick(&REMARKS)),
        _ => words,
    }
}

/// The lines of a text on their way, without endings.
struct Page {
    lines: Vec<String>,
}

impl Page {
    /// A line with what may stand around it: lines without words, blanks in front, a remark.
    fn put(&mut self, draw: &mut Draw, words: String) {
        while draw.one_in(6) {
            let empty = draw.pick(&["", " ", "\t "]).to_string();
            self.lines.push(remarked(draw, empty));
        }
        let indent = draw.pick(&["", "", "", "  ", "\t"]);
        self.lines.push(format!("{indent}{}", remarked(draw, words)));
    }

    fn section(
        &mut self,
        draw: &mut Draw,
        declared: &Declared,
        name: &str,
        count: usize,
    ) -> Vec<Rule> {
        let mut rules = Vec::new();
        while rules.len() + 1 < count {
            let line = declared.line(draw, count - 1 - rules.len());
            rules.extend(line.rules);
            let label = format!("@{name}-{}", rules.len());
            let words = labelled(draw, line.words, &label);
            self.put(draw, words);
        }
        let last = declared.full_line(draw);
        rules.extend(last.rules);
        let words = labelled(draw, last.words, &format!("@{name}_last"));
        self.put(draw, words);
        rules
    }

    /// The text: all lines end alike, and the last one perhaps not at all.
    fn text(&self, draw: &mut Draw) -> String {
        let end = draw.pick(&["\n", "\n", "\r\n"]);
        let last = draw.pick(&[end, end, ""]);
        format!("{}{last}", self.lines.join(end))
    }
}

impl Plant {
    /// A plant of so many gate rules and own rules, both lists ending in a full one.
    pub fn draw(draw: &mut Draw, gate: usize, own: usize) -> Plant {
        let declared = Declared::draw(draw);
        let mut sections = [(Which::Gate, "gate", gate), (Which::Own, "cell", own)];
        if draw.one_in(4) {
            sections.swap(0, 1);
        }
        let (mut page, mut order) = (Page { lines: Vec::new() }, Order::default());
        // A declaration may stand in a section too.
        let begun = draw.one_in(4);
        for (at, (which, name, count)) in sections.into_iter().enumerate() {
            if at > 0 || begun {
                page.put(draw, name.to_string());
            }
            if at == 0 {
                for line in &declared.lines {
                    page.put(draw, line.clone());
                }
            }
            if at == 0 && !begun {
                page.put(draw, name.to_string());
            }
            *order.list_mut(which) = page.section(draw, &declared, name, count);
        }
        Plant { text: page.text(draw), order, declared }
    }

    pub fn of_any_size(draw: &mut Draw) -> Plant {
        let (gate, own) = (draw.size(64), draw.size(256));
        Plant::draw(draw, gate, own)
    }
}
