//! `why`: whether a packet is forwarded, by which line, and which allow came nearest.

use crate::arguments::Arguments;
use crate::commands::{Command, Text};
use crate::disk;
use crate::library::{self, Refusal};
use crate::output::{note, Mood, Output};
use crate::refusal::section;
use crate::rule::{
    Order, Packet, Rule, Which, DESTINATION, DESTINATION_PORT, FIELDS, HIGHEST, PROTOCOL, SOURCE,
    SOURCE_PORT,
};
use crate::sheet::Plan;
use crate::stop::{Result, Stop, DONE, OTHERWISE};
use crate::store::Store;
use crate::text::{self, field_name, Names, Policy};
use std::collections::{BTreeMap, BTreeSet};
use std::path::Path;

pub const WHY: Command = Command {
    name: "why",
    takes: "F FROM[:PORT] TO[:PORT] PROTO [--of N | --text]",
    does: "says whether a packet is forwarded, and by which line of the text F",
    help: "Speaks of the current generation, with --of of generation N, and with --text, or where there is no\n\
           generation, of the text as it stands. FROM and TO are addresses or names of the text, PORT a\n\
           number or a name. A port that is left out may be any: where the answer hangs on it, each answer\n\
           has its ports. Status 0 where every such packet is forwarded, 1 where one is dropped.",
    valued: &["--of"],
    flags: &["--text"],
    run,
};

/// What is asked about: the policy and its plan, by the name of its text.
struct Asked {
    policy: Policy,
    plan: Plan,
    name: String,
}

fn run(arguments: &Arguments, output: &mut Output) -> Result<u8> {
    let [path, from, to, protocol] = arguments.exactly()?;
    let asked = asked(path.as_ref(), arguments)?;
    let question = Question::read(&asked.policy.names, [from, to, protocol], arguments)?;
    let answers = asked.answers(&question)?;
    let mut status = DONE;
    for (at, answer) in answers.iter().enumerate() {
        if answers.len() > 1 {
            let ports = question.ports_of(answer);
            output.line(format!("{}{ports}:", if at > 0 { "\n" } else { "" }));
        }
        status = status.max(asked.tell(&question, answer, output)?);
    }
    Ok(status)
}

fn of_text(path: &Path) -> Result<Asked> {
    let text = Text::read(path)?;
    let plan = text.plan()?;
    Ok(Asked { name: path.display().to_string(), policy: text.policy, plan })
}

fn asked(path: &Path, arguments: &Arguments) -> Result<Asked> {
    let number = arguments.generation()?;
    if arguments.flag("--text") {
        return match number {
            Some(_) => Err(arguments.usage("--of and --text do not go together".to_string())),
            None => of_text(path),
        };
    }
    let store = Store::of(path)?;
    if number.is_none() && store.current_number()?.is_none() {
        let asked = of_text(path)?;
        note(format!("{} has no generation yet; this is of the text", path.display()));
        return Ok(asked);
    }
    let generation = store.asked(number)?;
    let (policy, plan) = (generation.policy, generation.plan);
    if disk::read(path).is_ok_and(|bytes| bytes == generation.text) {
        return Ok(Asked { name: path.display().to_string(), policy, plan });
    }
    let number = generation.head.number;
    let what = format!("is not the text of generation {number}; this is of the generation");
    note(format!("{} {what}", path.display()));
    Ok(Asked { name: store.policy_path(number).display().to_string(), policy, plan })
}

impl Asked {
    fn refused(&self, Refusal(number): Refusal) -> Stop {
        Stop::Refused(format!("{}: refused ({number})", self.name))
    }

    /// What is proved not to happen, and looked at all the same.
    fn disagree(&self, packet: &Packet) -> Stop {
        let packet = text::packet(packet);
        Stop::Files(format!("{}: origin and lookup do not agree on {packet}", self.name))
    }

    fn shown(&self, which: Which, place: usize) -> String {
        self.policy.line_of(which, place).named(&self.name)
    }

    /// The answers to a question, by lookups alone, as the filters find them.
    fn answers(&self, question: &Question) -> Result<Vec<Answer>> {
        let owners = self.plan.owners();
        let ports = question.starts(&self.plan.order);
        let mut answers: Vec<Answer> = Vec::new();
        let mut known: BTreeMap<By, usize> = BTreeMap::new();
        for &destination_port in &ports[1] {
            for &source_port in &ports[0] {
                let packet = question.packet(source_port, destination_port);
                let find = |list: &[u8]| library::lookup(&packet, list).map(|found| found.place);
                let places =
                    find(&self.plan.own_gate).and_then(|gate| Ok((gate, find(&self.plan.cell)?)));
                let (gate, place) = places.map_err(|refusal| self.refused(refusal))?;
                let Some(&(which, rule)) = owners.get(place) else {
                    return Err(self.disagree(&packet));
                };
                let at = *known.entry(By { gate, which, rule }).or_insert(answers.len());
                if at == answers.len() {
                    answers.push(Answer::new(By { gate, which, rule }, (packet, place), &ports));
                }
                answers[at].add(&packet, place);
            }
        }
        Ok(answers)
    }

    fn tell(&self, question: &Question, answer: &Answer, output: &mut Output) -> Result<u8> {
        let By { gate, which, rule } = answer.by;
        let origin = library::origin(&answer.first, &self.plan.pair);
        let origin = origin.map_err(|refusal| self.refused(refusal))?;
        if (origin.which, origin.rule, origin.decided.place) != (which, rule, answer.first_place) {
            return Err(self.disagree(&answer.first));
        }
        let verdict = match origin.decided.allows {
            true => output.tinted(Mood::Good, "forwarded"),
            false => output.tinted(Mood::Bad, "dropped"),
        };
        output.line(format!("{verdict} by {}", self.shown(which, rule)));
        if which == Which::Own {
            let gate = self.shown(Which::Gate, gate);
            output.line(format!("  the gate's list lets it through by {gate}"));
        }
        let first_place = origin.decided.place - origin.piece;
        output.line(format!("  in the cell list: {} (counted from 0)", answer.listed(first_place)));
        if origin.decided.allows {
            return Ok(DONE);
        }
        self.nearest_allow(question, answer, output);
        Ok(OTHERWISE)
    }

    /// Of the allows in the list that drops the packet the one that misses it in fewest fields; of
    /// several the first.
    fn nearest_allow(&self, question: &Question, answer: &Answer, output: &mut Output) {
        let By { which, rule, .. } = answer.by;
        let list = self.plan.order.list(which);
        let allows = (0..list.len()).filter(|&place| list[place].allows);
        let far = |place: &usize| missed(&list[*place], &answer.first).len();
        let Some(place) = allows.min_by_key(far) else {
            output.line(format!("  the {} has no allow", section(which)));
            return;
        };
        output.line(format!("  nearest allow: {}", self.shown(which, place)));
        let line = self.policy.line_of(which, place);
        for field in missed(&list[place], &answer.first) {
            let mut wanted: Vec<String> = Vec::new();
            for rule in &list[line.places.clone()] {
                let one = text::span(field, rule.ranges.low[field], rule.ranges.high[field]);
                if !wanted.contains(&one) {
                    wanted.push(one);
                }
            }
            let value = text::span(field, answer.first[field], answer.first[field]);
            let has = match question.is_open(field) {
                true => String::new(),
                false => format!(", and the packet has {value}"),
            };
            let wanted = wanted.join(",");
            output.line(format!("    it misses in {}: it wants {wanted}{has}", field_name(field)));
        }
        if missed(&list[place], &answer.first).is_empty() {
            output.line("    it has the packet, and stands behind the line that drops it");
        } else if place > rule {
            output.line("    and it stands behind the line that drops the packet");
        }
    }
}

/// The rules that decide a packet: the gate's place, and whose rule the cell list's is.
#[derive(Clone, Copy, PartialEq, Eq, PartialOrd, Ord)]
struct By {
    gate: usize,
    which: Which,
    rule: usize,
}

/// A packet of which ports may be left open.
struct Question {
    source: u32,
    destination: u32,
    protocol: u32,
    ports: [Option<u32>; 2],
}

/// The packets that the same rules decide: the first of them, their source ports by destination port, and
/// their places in the cell list.
struct Answer {
    by: By,
    first: Packet,
    first_place: usize,
    /// Where rules tell ports apart: the first of each row of source and of destination ports.
    starts: [Vec<u32>; 2],
    rows: BTreeMap<u32, Vec<u32>>,
    places: BTreeSet<usize>,
}

impl Question {
    fn read(names: &Names, given: [&str; 3], arguments: &Arguments) -> Result<Question> {
        let [from, to, protocol] = given;
        let wrong =
            |word: &str, what: &str| arguments.usage(format!("{}: {what}", text::shown(word)));
        let span = names.protocol(protocol).map_err(|why| wrong(protocol, &why.message))?;
        if span.0 != span.1 {
            return Err(wrong(protocol, "a packet has one protocol"));
        }
        let end = |word: &str, field: usize| {
            let (address, port) = match word.split_once(':') {
                Some((address, port)) => (address, Some(port)),
                None => (word, None),
            };
            let found = names.address(address, field).map_err(|why| wrong(word, &why.message))?;
            if found.0 != found.1 {
                return Err(wrong(word, "a packet has one address at each end"));
            }
            let port = port.map(|port| one_port(names, port, span.0));
            Ok((found.0, port.transpose().map_err(|why| wrong(word, &why))?))
        };
        let ((source, sport), (destination, dport)) = (end(from, SOURCE)?, end(to, DESTINATION)?);
        // Whoever hands packets over puts 0 where the protocol has no ports.
        let without = text::has_no_ports(span.0).then_some(0);
        let ports = [sport.or(without), dport.or(without)];
        Ok(Question { source, destination, protocol: span.0, ports })
    }

    fn is_open(&self, field: usize) -> bool {
        field >= SOURCE_PORT && self.ports.get(field - SOURCE_PORT) == Some(&None)
    }

    fn packet(&self, source_port: u32, destination_port: u32) -> Packet {
        [self.source, self.destination, source_port, destination_port, self.protocol]
    }

    /// For both ports the first of each row of ports that no rule tells apart.
    fn starts(&self, order: &Order) -> [Vec<u32>; 2] {
        [SOURCE_PORT, DESTINATION_PORT].map(|field| {
            if let Some(port) = self.ports[field - SOURCE_PORT] {
                return vec![port];
            }
            let rules = order.gate.iter().chain(&order.own).map(|rule| rule.ranges);
            let ends = rules.flat_map(|ranges| [ranges.low[field], ranges.high[field] + 1]);
            let starts: BTreeSet<u32> = ends.chain([0]).collect();
            starts.into_iter().filter(|&start| start <= HIGHEST[field]).collect()
        })
    }

    /// The open ports of an answer's packets.
    fn ports_of(&self, answer: &Answer) -> String {
        // Destination ports with the same source ports stand together.
        let mut rows: BTreeMap<String, Vec<u32>> = BTreeMap::new();
        for (&destination_port, source_ports) in &answer.rows {
            let source_ports = match self.is_open(SOURCE_PORT) {
                true => answer.spans(SOURCE_PORT, source_ports),
                false => String::new(),
            };
            rows.entry(source_ports).or_default().push(destination_port);
        }
        let row = |(source_ports, destination_ports): (&String, &Vec<u32>)| {
            let destination = match self.is_open(DESTINATION_PORT) {
                true => answer.spans(DESTINATION_PORT, destination_ports),
                false => String::new(),
            };
            match (destination.as_str(), source_ports.as_str()) {
                ("", "") => "any port".to_string(),
                ("", source) => format!("source port {source}"),
                (destination, "") => format!("destination port {destination}"),
                (destination, source) => {
                    format!("destination port {destination} with source port {source}")
                }
            }
        };
        rows.iter().map(row).collect::<Vec<_>>().join("; ")
    }
}

/// The port that a word names, for a packet of this protocol.
fn one_port(names: &Names, word: &str, protocol: u32) -> std::result::Result<u32, String> {
    let ports = names.port(word, DESTINATION_PORT).map_err(|wrong| wrong.message)?;
    let name = text::span(PROTOCOL, protocol, protocol);
    if text::has_no_ports(protocol) {
        return Err(format!("{name} has no ports"));
    }
    match &ports[..] {
        [one] if one.protocol.is_some_and(|of| of != protocol) => {
            Err(format!("{word} is no service of {name}"))
        }
        [one] if one.span.0 == one.span.1 => Ok(one.span.0),
        _ => Err("a packet has one port at each end".to_string()),
    }
}

impl Answer {
    fn new(by: By, (first, first_place): (Packet, usize), starts: &[Vec<u32>; 2]) -> Answer {
        let (starts, rows, places) = (starts.clone(), BTreeMap::new(), BTreeSet::new());
        Answer { by, first, first_place, starts, rows, places }
    }

    fn add(&mut self, packet: &Packet, place: usize) {
        let row = self.rows.entry(packet[DESTINATION_PORT]).or_default();
        row.push(packet[SOURCE_PORT]);
        self.places.insert(place);
    }

    /// Ports from each of these starts to the next start; nothing where that is every port.
    fn spans(&self, field: usize, from: &[u32]) -> String {
        let starts = &self.starts[field - SOURCE_PORT];
        let next = |start: &u32| starts.iter().find(|other| *other > start);
        let end = |start: &u32| next(start).map_or(HIGHEST[field], |next| next - 1);
        let spans = merged(from.iter().map(|start| (*start as usize, end(start) as usize)));
        if spans == [(0, HIGHEST[field] as usize)] {
            return String::new();
        }
        listed(&spans)
    }

    fn listed(&self, first_place: usize) -> String {
        let places = merged(self.places.iter().map(|&place| (place, place)));
        let boxes: Vec<_> =
            places.iter().map(|(low, high)| (low - first_place, high - first_place)).collect();
        let (place, one) = match self.places.len() {
            1 => ("place", "box"),
            _ => ("places", "boxes"),
        };
        let of = match self.by.which {
            Which::Gate => format!("{one} {} of this rule", listed(&boxes)),
            Which::Own => format!("own rule {}", self.by.rule),
        };
        format!("{place} {}, {of}", listed(&places))
    }
}

/// Ranges in order, those that touch joined.
fn merged(spans: impl Iterator<Item = (usize, usize)>) -> Vec<(usize, usize)> {
    let mut merged: Vec<(usize, usize)> = Vec::new();
    for (low, high) in spans {
        match merged.last_mut() {
            Some(last) if last.1 + 1 == low => last.1 = high,
            _ => merged.push((low, high)),
        }
    }
    merged
}

fn listed(spans: &[(usize, usize)]) -> String {
    let one = |&(low, high): &(usize, usize)| match low == high {
        true => low.to_string(),
        false => format!("{low}-{high}"),
    };
    spans.iter().map(one).collect::<Vec<_>>().join(",")
}

fn missed(rule: &Rule, packet: &Packet) -> Vec<usize> {
    (0..FIELDS).filter(|&field| !rule.ranges.has_in(field, packet)).collect()
}
