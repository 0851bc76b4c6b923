//! Drawn rules, pairs and edits: small ranges, so that boxes overlap a lot.

pub mod damage;
pub mod loads;
pub mod packets;
pub mod random;
pub mod stream;
pub mod touching;

use crate::model::boxes::{self, Action, PacketBox, Range, Rule, FIELDS, HIGHEST};
use crate::model::calls::{Change, Edit};
use crate::model::{rows, sheets};
use random::Random;

/// How the boxes of one case look: values below `span`, some fields full.
pub struct Shape {
    span: u64,
    full_percent: u64,
    allow_percent: u64,
}

pub struct Pair {
    pub gate: Vec<Rule>,
    pub own: Vec<Rule>,
}

impl Pair {
    pub fn order(&self) -> Vec<u8> {
        sheets::order_bytes(&self.gate, &self.own)
    }
}

pub fn shape(random: &mut Random) -> Shape {
    Shape {
        span: random.within(2, 9),
        full_percent: random.pick(&[30, 50, 60, 75]),
        allow_percent: random.pick(&[30, 50, 60]),
    }
}

fn range(random: &mut Random, field: usize, span: u64) -> Range {
    let (first, second) = (random.below(span), random.below(span));
    let (low, high) = (first.min(second), first.max(second));
    let highest = HIGHEST[field];
    match random.below(12) {
        0 => Range { low: highest - high, high: highest - low },
        1 => Range { low: 0, high },
        2 => Range { low, high: highest },
        3 => Range { low, high: low },
        _ => Range { low, high },
    }
}

pub fn area(random: &mut Random, shape: &Shape) -> PacketBox {
    (0..FIELDS).fold(PacketBox::full(), |area, field| match random.chance(shape.full_percent) {
        true => area,
        false => area.with(field, range(random, field, shape.span)),
    })
}

fn action(random: &mut Random, shape: &Shape) -> Action {
    match random.chance(shape.allow_percent) {
        true => Action::Allow,
        false => Action::Deny,
    }
}

pub fn rule(random: &mut Random, shape: &Shape) -> Rule {
    Rule::new(area(random, shape), action(random, shape))
}

/// A complete list of `count` rules, which is one at least.
pub fn list(random: &mut Random, shape: &Shape, count: u64) -> Vec<Rule> {
    let mut rules: Vec<Rule> = (1..count).map(|_| rule(random, shape)).collect();
    rules.push(rows::full(action(random, shape)));
    rules
}

pub fn small_pair(random: &mut Random, shape: &Shape) -> Pair {
    let (most_gate, most_own) = (random.pick(&[2, 5, 9, 12]), random.pick(&[1, 3, 6]));
    let (gate, own) = (random.within(1, most_gate), random.within(1, most_own));
    Pair { gate: list(random, shape, gate), own: list(random, shape, own) }
}

/// Lists of the given counts that still move: few allows, so that groups stay small.
pub fn counted_pair(random: &mut Random, gate: u64, own: u64) -> Pair {
    let few_allows = Shape { span: 6, full_percent: 60, allow_percent: 4 };
    let mixed = Shape { span: 6, full_percent: 60, allow_percent: 50 };
    Pair { gate: list(random, &few_allows, gate), own: list(random, &mixed, own) }
}

/// A gate whose last deny is cut into a grid of about 1,024 pieces, with own rules that bring
/// the total to just below, at or just above the limit of 7.
pub fn lattice_pair(random: &mut Random, shape: &Shape) -> Pair {
    let mut gate = match random.chance(25) {
        true => exact_lattice(random.below(3)),
        false => lattice(random),
    };
    for _ in 0..random.below(3) {
        let place = random.index(gate.len() + 1);
        gate.insert(place, Rule::new(area(random, shape), Action::Deny));
    }
    match random.below(6) {
        0 | 1 => gate.push(rows::full(Action::Allow)),
        2 => gate.insert(0, rows::full(Action::Allow)),
        _ => (),
    }
    gate.push(rows::full(Action::Deny));
    let boxes = boxes::groups(&gate).map_or(1_024, |groups| groups.iter().map(Vec::len).sum());
    let near = (1_024u64.saturating_sub(boxes as u64) + random.below(3)).saturating_sub(1);
    let own = if (1..=sheets::MOST_OWN_RULES).contains(&near) { near } else { 1 };
    Pair { gate, own: list(random, shape, own) }
}

/// Such a grid of allows, beside denies that all of them miss by one value in one field, or with
/// which they share just one there. Before W2 a grid that is missed cut as one that is not.
pub fn missed_lattice_pair(random: &mut Random, shape: &Shape) -> Pair {
    let field = random.pick(&[1, 2, 3, 4, 4, 4]);
    let (first, highest) = (100, HIGHEST[field]);
    let mut gate = lattice(random);
    for allow in &mut gate {
        allow.area = allow.area.with(field, Range { low: first, high: highest });
    }
    for _ in 0..random.within(1, 4) {
        let high = random.pick(&[first - 1, first - 1, first - 1, first]);
        let area = PacketBox::full().with(field, Range { low: 0, high });
        gate.push(Rule::new(area, Action::Deny));
    }
    gate.push(rows::full(Action::Allow));
    let own = random.within(1, sheets::MOST_OWN_RULES);
    Pair { gate, own: list(random, shape, own) }
}

/// A full allow in front empties every group.
pub fn cover(pair: &mut Pair) {
    pair.gate.insert(0, rows::full(Action::Allow));
}

/// The edit that takes it away again and brings every group back.
pub fn uncovering() -> DrawnEdit {
    DrawnEdit { kind: Kind::Delete, list: 0, place: 0, record: Vec::new() }
}

/// An edit that leaves the gate list without its full end, but with as many pieces as before.
pub fn opening(random: &mut Random, count: usize) -> DrawnEdit {
    let field = random.index(FIELDS);
    let area = PacketBox::full().with(field, Range { low: 1, high: HIGHEST[field] });
    let record = sheets::rule_bytes(&Rule::new(area, Action::Deny));
    let (kind, place) = random.pick(&[(Kind::Insert, count), (Kind::Replace, count - 1)]);
    DrawnEdit { kind, list: 0, place: place as u64, record }
}

fn lattice(random: &mut Random) -> Vec<Rule> {
    loop {
        let steps: Vec<u64> = (0..FIELDS).map(|_| random.within(0, 5)).collect();
        let pieces: u64 = steps.iter().map(|step| step + 1).product();
        if (800..=1_400).contains(&pieces) {
            return shuffled(random, lattice_of(&steps));
        }
    }
}

fn lattice_of(steps: &[u64]) -> Vec<Rule> {
    (0..FIELDS).flat_map(|field| rows::singles(field, steps[field])).collect()
}

/// 1,024 pieces and `more`: each further allow cuts one value out of the last piece's protocols,
/// and the upper of the two parts becomes the last piece.
fn exact_lattice(more: u64) -> Vec<Rule> {
    let last = HIGHEST.map(|high| Range { low: 7, high });
    let cut = |step: u64| {
        let value = 100 + 2 * step;
        let area = PacketBox { ranges: last }.with(4, Range { low: value, high: value });
        Rule::new(area, Action::Allow)
    };
    lattice_of(&[3; FIELDS]).into_iter().chain((0..more).map(cut)).collect()
}

fn shuffled(random: &mut Random, mut rules: Vec<Rule>) -> Vec<Rule> {
    for end in (1..rules.len()).rev() {
        rules.swap(end, random.index(end + 1));
    }
    rules
}

#[derive(Clone, Copy, PartialEq, Eq, Debug)]
pub enum Kind {
    Insert,
    Delete,
    Replace,
}

/// An edit with its record as bytes, whole or not.
pub struct DrawnEdit {
    pub kind: Kind,
    pub list: u64,
    pub place: u64,
    pub record: Vec<u8>,
}

impl DrawnEdit {
    pub fn edit(&self) -> Edit<'_> {
        let change = match self.kind {
            Kind::Insert => Change::Insert(&self.record),
            Kind::Delete => Change::Delete,
            Kind::Replace => Change::Replace(&self.record),
        };
        Edit { list: self.list, place: self.place, change }
    }
}

/// An edit of lists of the given counts: mostly at a place that exists, with a whole record.
pub fn edit(random: &mut Random, shape: &Shape, counts: [usize; 2]) -> DrawnEdit {
    let kind = random.pick(&[Kind::Insert, Kind::Insert, Kind::Delete, Kind::Replace]);
    let list = usize::from(random.chance(35));
    let place = match random.below(20) {
        0 => counts[list] as u64 + random.below(3),
        1 => counts[list] as u64 - 1,
        _ => random.below(counts[list] as u64 + u64::from(kind == Kind::Insert)),
    };
    let at_end = place + 1 >= counts[list] as u64;
    let mut rule = rule(random, shape);
    if random.chance(if at_end { 60 } else { 10 }) {
        rule.area = PacketBox::full();
    }
    let mut record = sheets::rule_bytes(&rule);
    if random.chance(6) {
        spoil_record(random, &mut record);
    }
    DrawnEdit { kind, list: list as u64, place, record }
}

/// Low above high in some field, or an action above 1.
pub fn spoil_record(random: &mut Random, record: &mut [u8]) {
    if random.chance(40) && record.len() == sheets::RECORD_BYTES {
        record[sheets::BOX_BYTES] = random.pick(&[2, 3, 128, 255]);
        return;
    }
    let field = random.index(FIELDS);
    let width = sheets::WIDTH[field];
    let start: usize = sheets::WIDTH[..field].iter().map(|width| 2 * width).sum();
    let high = random.below(HIGHEST[field].min(9));
    let low = random.pick(&[high + 1, HIGHEST[field]]);
    record[start..start + width].copy_from_slice(&sheets::number_bytes(low, width));
    record[start + width..start + 2 * width].copy_from_slice(&sheets::number_bytes(high, width));
}
