//! Packets that two pairs of lists decide otherwise: all of them are found, and nothing else.

use super::draw::{Draw, FULL};
use crate::difference::{differences, example, Decision, Difference, Found};
use crate::library;
use crate::rule::{Order, Packet, Ranges, Rule, Which, FIELDS, HIGHEST};
use crate::sheet::Plan;

const STEPS: usize = 200_000;

fn has(ranges: &Ranges, packet: &Packet) -> bool {
    (0..FIELDS).all(|field| ranges.has_in(field, packet))
}

/// How the pair decides a packet, rule by rule.
fn decide(order: &Order, packet: &Packet) -> Option<Decision> {
    let first = |list: &[Rule]| list.iter().position(|rule| has(&rule.ranges, packet));
    let gate = first(&order.gate)?;
    let own = if order.gate[gate].allows { Some(first(&order.own)?) } else { None };
    Some(Decision { gate, own })
}

fn forwards(order: &Order, packet: &Packet) -> bool {
    let own = decide(order, packet).and_then(|decision| decision.own);
    own.is_some_and(|place| order.own[place].allows)
}

/// A universe so small that every kind of packet can be tried: each field is cut into few parts, and
/// rules have whole parts only.
struct Universe {
    /// Where the parts of each field begin.
    starts: [Vec<u32>; FIELDS],
}

impl Universe {
    fn draw(draw: &mut Draw) -> Universe {
        let parts =
            draw.pick(&[[2, 2, 2, 2, 2], [5, 4, 1, 3, 1], [1, 2, 3, 5, 3], [9, 1, 1, 1, 4]]);
        let starts = std::array::from_fn(|field| {
            let mut starts: Vec<u32> = (1..parts[field]).map(|_| draw.value(field)).collect();
            starts.push(0);
            starts.sort();
            starts.dedup();
            starts
        });
        Universe { starts }
    }

    /// The last value of a part.
    fn end(&self, field: usize, part: usize) -> u32 {
        self.starts[field].get(part + 1).map_or(HIGHEST[field], |next| next - 1)
    }

    fn rule(&self, draw: &mut Draw) -> Rule {
        let mut ranges = Ranges::FULL;
        for field in 0..FIELDS {
            let parts = self.starts[field].len();
            let (one, two) = (draw.below(parts), draw.below(parts));
            if draw.one_in(2) {
                ranges.low[field] = self.starts[field][one.min(two)];
                ranges.high[field] = self.end(field, one.max(two));
            }
        }
        Rule { ranges, allows: draw.one_in(2) }
    }

    fn list(&self, draw: &mut Draw) -> Vec<Rule> {
        let count = 1 + draw.below(7);
        let mut list: Vec<Rule> = (0..count).map(|_| self.rule(draw)).collect();
        // Two lists that end in a deny forward little, and so differ in little.
        list.push(Rule { allows: !draw.one_in(4), ..FULL });
        list
    }

    fn order(&self, draw: &mut Draw) -> Order {
        Order { gate: self.list(draw), own: self.list(draw) }
    }

    /// The two ends of every box of parts.
    fn packets(&self) -> Vec<Packet> {
        let count: usize = self.starts.iter().map(Vec::len).product();
        let mut packets = Vec::new();
        for number in 0..count {
            let (mut low, mut high, mut left) = ([0; FIELDS], [0; FIELDS], number);
            for field in 0..FIELDS {
                let part = left % self.starts[field].len();
                left /= self.starts[field].len();
                (low[field], high[field]) = (self.starts[field][part], self.end(field, part));
            }
            packets.extend([low, high]);
        }
        packets
    }

    /// Whether a box has whole parts only: then its ends stand for all of it.
    fn is_whole(&self, ranges: &Ranges) -> bool {
        (0..FIELDS).all(|field| {
            let parts = 0..self.starts[field].len();
            self.starts[field].contains(&ranges.low[field])
                && parts.into_iter().any(|part| self.end(field, part) == ranges.high[field])
        })
    }
}

/// One edit of a list; its last rule stays full.
fn edited(draw: &mut Draw, order: &Order, mut rule: impl FnMut(&mut Draw) -> Rule) -> Order {
    let mut order = order.clone();
    let list = order.list_mut(draw.pick(&[Which::Gate, Which::Own]));
    let at = draw.below(list.len());
    match draw.below(3) {
        0 if at + 1 < list.len() => drop(list.remove(at)),
        1 if at + 1 < list.len() => list[at] = rule(draw),
        _ => list.insert(at, rule(draw)),
    }
    order
}

/// Whether a packet lies in one difference at the most, and that says what the lists say.
fn is_right(before: &Order, now: &Order, found: &Found, packet: &Packet) {
    let of: Vec<&Difference> =
        found.differences.iter().filter(|one| has(&one.ranges, packet)).collect();
    assert!(of.len() <= 1, "{packet:?} lies in {} boxes", of.len());
    let differs = forwards(before, packet) != forwards(now, packet);
    match of.first() {
        Some(one) => {
            assert!(differs, "{packet:?} is decided as before");
            let said = (Some(one.before), Some(one.now), one.forwarded);
            let wanted = (decide(before, packet), decide(now, packet), forwards(now, packet));
            assert_eq!(said, wanted, "{packet:?}");
        }
        None => assert!(!(differs && found.whole), "{packet:?} is missed"),
    }
}

#[test]
fn in_a_tiny_universe_the_differences_are_those_that_trying_every_packet_finds() {
    let mut draw = Draw::new(51);
    let (mut same, mut many) = (0, 0);
    for _ in 0..2_000 {
        let universe = Universe::draw(&mut draw);
        let before = universe.order(&mut draw);
        let now = match draw.one_in(2) {
            true => universe.order(&mut draw),
            false => edited(&mut draw, &before, |draw| universe.rule(draw)),
        };
        let found = differences(&before, &now, STEPS);
        assert!(found.whole);
        assert!(found.differences.iter().all(|one| universe.is_whole(&one.ranges)));
        for packet in universe.packets() {
            is_right(&before, &now, &found, &packet);
        }
        same += usize::from(found.differences.is_empty());
        many += usize::from(found.differences.len() > 3);
    }
    assert!(same > 200 && many > 200, "{same} without a difference, {many} with many");
}

#[test]
fn a_search_that_stops_at_its_limit_says_so_and_nothing_wrong() {
    let mut draw = Draw::new(52);
    let mut stopped = 0;
    for _ in 0..400 {
        let universe = Universe::draw(&mut draw);
        let (before, now) = (universe.order(&mut draw), universe.order(&mut draw));
        let found = differences(&before, &now, draw.below(40));
        for packet in universe.packets() {
            is_right(&before, &now, &found, &packet);
        }
        stopped += usize::from(!found.whole);
    }
    assert!(stopped > 50, "{stopped} searches stopped");
}

#[test]
fn on_plants_the_differences_are_those_that_packets_at_the_edges_of_rules_show() {
    let mut draw = Draw::new(53);
    let mut differ = 0;
    for _ in 0..200 {
        let before = draw.order(16, 16);
        let mut now = edited(&mut draw, &before, Draw::rule);
        if draw.one_in(3) {
            now = edited(&mut draw, &now, Draw::rule);
        }
        let found = differences(&before, &now, 20_000);
        let rules = [&before.gate[..], &before.own, &now.gate, &now.own].concat();
        for _ in 0..200 {
            let packet = draw.packet(&rules);
            is_right(&before, &now, &found, &packet);
            differ += usize::from(forwards(&before, &packet) != forwards(&now, &packet));
        }
        for one in &found.differences {
            for packet in [one.ranges.low, one.ranges.high, example(&one.ranges)] {
                is_right(&before, &now, &found, &packet);
            }
        }
    }
    assert!(differ > 400, "{differ} packets are decided otherwise");
}

#[test]
fn the_example_of_a_box_lies_in_it() {
    let mut draw = Draw::new(54);
    for _ in 0..20_000 {
        let ranges = draw.ranges();
        assert!(has(&ranges, &example(&ranges)), "{ranges:?}");
    }
}

/// The two filters after the move are the library's word on what a pair of lists does.
#[test]
fn packets_are_decided_as_lookups_in_the_moved_lists_decide_them() {
    let mut draw = Draw::new(55);
    for _ in 0..300 {
        let order = draw.order(10, 20);
        let Ok(plan) = Plan::of(&order) else { continue };
        let rules = [&order.gate[..], &order.own].concat();
        for _ in 0..30 {
            let packet = draw.packet(&rules);
            let allows = |list: &[u8]| library::lookup(&packet, list).expect("found").allows;
            assert_eq!(forwards(&order, &packet), allows(&plan.gate) && allows(&plan.cell));
            let origin = library::origin(&packet, &plan.pair).expect("a rule decides");
            let decision = decide(&order, &packet).expect("a rule decides");
            let by = decision.own.map_or((Which::Gate, decision.gate), |own| (Which::Own, own));
            assert_eq!((origin.which, origin.rule), by);
        }
    }
}
