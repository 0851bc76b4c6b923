// Report: the rules tried for each of many packets, before and after a move. The library's call beside the same search in safe Rust,
// and beside one that walks the whole cell list for every packet. These two read the sheet's rules once and do not check its groups;
// the library's call does, which is little beside a million packets.
use crate::inputs::{self, Input, ALLOW, DENY};
use crate::lookup::Packet;
use crate::measure::{head, median, row, timed, turns, Random, Version};
use crate::reading::{pair, region_at};
use crate::sheets::{boxes, four, order_of, put, two, Region, Rule, BOX, FIELDS, MOST, WIDTH};
use crate::versions::{Desk, Planner, Report};
use std::hint::black_box;

const PACKET: usize = 13;
const MILLION: usize = 1_000_000;
const PASSES: usize = 5;
// As many packets as a count of instructions takes at most.
const COUNTED: usize = 11_000;

#[derive(Clone, Copy)]
enum Way {
    Library,
    SafeRust,
    Walk,
}

const WAYS: [Version<Way>; 3] = [("library", Way::Library), ("safe Rust", Way::SafeRust), ("all boxes", Way::Walk)];

// A range as its low and how far it reaches beyond: one comparison tells whether a number is in it.
struct Range {
    low: u32,
    reach: u32,
}

type Ranges = [Range; FIELDS];

fn ranges(r: &Region) -> Ranges {
    std::array::from_fn(|k| Range { low: r.low[k], reach: r.high[k] - r.low[k] })
}

fn all_ranges(rules: &[Rule]) -> Vec<Ranges> {
    rules.iter().map(|r| ranges(&r.region)).collect()
}

fn group_ranges(group: &[u8]) -> impl Iterator<Item = Ranges> + '_ {
    group[2..].chunks_exact(BOX).map(|s| ranges(&region_at(s)))
}

// The place of the first that has the packet. In a checked sheet there is one.
fn first(p: &Packet, rules: &[Ranges]) -> usize {
    rules.iter().position(|r| r.iter().zip(p).all(|(r, x)| x.wrapping_sub(r.low) <= r.reach)).unwrap()
}

fn packets_of(bytes: &[u8]) -> impl Iterator<Item = Packet> + '_ {
    bytes.chunks_exact(PACKET).map(|s| [four(s), four(&s[4..]), two(&s[8..]), two(&s[10..]), s[12] as u32])
}

fn greatest_common(a: u64, b: u64) -> u64 {
    if b == 0 {
        a
    } else {
        greatest_common(b, a % b)
    }
}

// What is reported of packets, tries before and after, and packets forwarded; the hits are the later reading less the earlier.
fn reported([packets, before, after, forwarded]: [u64; 4], earlier: &[u8], later: &[u8]) -> Report {
    let common = greatest_common(before, after).max(1);
    let mut hits = [0; MOST];
    for ((hits, e), l) in hits.iter_mut().zip(earlier.chunks_exact(4)).zip(later.chunks_exact(4)) {
        *hits = four(l).wrapping_sub(four(e));
    }
    Report { totals: [packets, before, after, forwarded, before / common, after / common], hits }
}

// A gate rule's group: how many boxes stand before it, and its own. An allow has none.
type Group = Option<(usize, Vec<Ranges>)>;

// The gate's rule, then its group alone or the own rules.
#[inline(never)]
fn search(sheet: &[u8], packets: &[u8], earlier: &[u8], later: &[u8]) -> Report {
    let pair = pair(sheet).unwrap();
    let (gate, own) = (all_ranges(&pair.gate), all_ranges(&pair.own));
    let (mut boxes, mut groups) = (0, pair.groups.iter());
    let group = |rule: &Rule| {
        let group: Vec<Ranges> = (rule.action == DENY).then(|| group_ranges(groups.next().unwrap()).collect())?;
        boxes += group.len();
        Some((boxes - group.len(), group))
    };
    let groups: Vec<Group> = pair.gate.iter().map(group).collect();
    let mut sums = [0; 4];
    for p in packets_of(packets) {
        let rule = first(&p, &gate);
        let (before, after, forwarded) = match &groups[rule] {
            Some((boxes, group)) => (rule + 1, boxes + first(&p, group) + 2, 0),
            None => {
                let place = first(&p, &own);
                (rule + place + 2, boxes + place + 2, pair.own[place].action)
            }
        };
        sums = [sums[0] + 1, sums[1] + before as u64, sums[2] + after as u64, sums[3] + forwarded as u64];
    }
    reported(sums, earlier, later)
}

// The gate's rule, then the cell list from its top.
#[inline(never)]
fn walk(sheet: &[u8], packets: &[u8], earlier: &[u8], later: &[u8]) -> Report {
    let pair = pair(sheet).unwrap();
    let gate = all_ranges(&pair.gate);
    let mut cell: Vec<Ranges> = pair.groups.iter().flat_map(|g| group_ranges(g)).collect();
    let boxes = cell.len();
    cell.extend(all_ranges(&pair.own));
    let mut sums = [0; 4];
    for p in packets_of(packets) {
        let (rule, place) = (first(&p, &gate), first(&p, &cell));
        let (own, forwarded) = if place < boxes { (0, 0) } else { (place - boxes + 1, pair.own[place - boxes].action) };
        sums = [sums[0] + 1, sums[1] + (rule + 1 + own) as u64, sums[2] + place as u64 + 2, sums[3] + forwarded as u64];
    }
    reported(sums, earlier, later)
}

// A packet of the first region and, in each field where they meet, of the second too: half of its numbers at the ends of what they
// share, the others anywhere in it.
fn put_packet(out: &mut Vec<u8>, random: &mut Random, first: &Region, second: &Region) {
    for k in 0..FIELDS {
        let (low, high) = (first.low[k].max(second.low[k]), first.high[k].min(second.high[k]));
        let (low, high) = if low <= high { (low, high) } else { (first.low[k], first.high[k]) };
        let number = match random.next(4) {
            0 => low,
            1 => high,
            _ => low + random.next((high - low) as u64 + 1) as u32,
        };
        put(out, number, WIDTH[k]);
    }
}

// What a report is given: a sheet in its desk, packets in an order that cannot be foretold, and readings, of which some rolled over.
struct Day {
    desk: Desk,
    used: usize,
    boxes: usize,
    packets: Vec<u8>,
    earlier: Vec<u8>,
    later: Vec<u8>,
}

impl Day {
    // Each packet is one of a box, of a gate rule or of an allow of the gate, as often; and of an own rule in the fields that allow it.
    fn of(input: &Input, number: usize) -> Day {
        let order = order_of(&input.gate, &input.own);
        let mut desk = Desk::new();
        let used = desk.move_order(Planner::Library, &order) as usize;
        let boxes = boxes(order.len(), &desk.sheet);
        let groups = pair(&desk.sheet[..used]).unwrap().groups;
        let kinds: [Vec<Region>; 3] = [
            groups.iter().flat_map(|g| g[2..].chunks_exact(BOX)).map(region_at).collect(),
            input.gate.iter().map(|r| r.region).collect(),
            input.gate.iter().filter(|r| r.action == ALLOW).map(|r| r.region).collect(),
        ];
        let mut random = Random(0x0F01_D910);
        let (mut packets, mut earlier, mut later) = (Vec::with_capacity(PACKET * number), Vec::new(), Vec::new());
        for _ in 0..number {
            let kind = &kinds[random.next(3) as usize];
            let own = &input.own[random.next(input.own.len() as u64) as usize].region;
            let region = &kind[random.next(kind.len() as u64) as usize];
            put_packet(&mut packets, &mut random, region, own);
        }
        for _ in 0..boxes + input.own.len() {
            put(&mut earlier, random.next(1 << 32) as u32, 4);
            put(&mut later, random.next(1 << 32) as u32, 4);
        }
        Day { desk, used, boxes, packets, earlier, later }
    }

    // The report over so many of the packets.
    fn report(&mut self, way: Way, number: usize) -> Report {
        let (packets, earlier, later) = (&self.packets[..PACKET * number], &self.earlier[..], &self.later[..]);
        let sheet = &self.desk.sheet[..self.used];
        match way {
            Way::Library => self.desk.report(self.used, packets, earlier, later),
            Way::SafeRust => search(sheet, packets, earlier, later),
            Way::Walk => walk(sheet, packets, earlier, later),
        }
    }

    // What all three report over so many of the packets, which must be the same.
    fn agreed(&mut self, number: usize) -> Report {
        let [first, second, third] = WAYS.map(|(_, way)| self.report(way, number));
        assert!(first == second && first == third, "{:?} {:?} {:?}", first.totals, second.totals, third.totals);
        first
    }
}

pub fn agree() {
    for input in inputs::all() {
        let mut day = Day::of(&input, COUNTED);
        for number in [0, 1, COUNTED] {
            day.agreed(number);
        }
    }
}

// A report over so many packets in one way and nothing else, for a count of instructions.
pub fn count(way: usize, input: usize, number: usize) {
    black_box(Day::of(&inputs::all()[input], COUNTED).report(WAYS[way].1, number));
}

pub fn run() {
    head("report, ns a packet", &["rules", "own", "boxes", "before", "after"], &WAYS);
    for input in inputs::all() {
        let mut day = Day::of(&input, MILLION);
        let [_, before, after, ..] = day.agreed(MILLION).totals;
        let tries = |sum: u64| sum as usize / MILLION;
        let sizes = [input.gate.len(), input.own.len(), day.boxes, tries(before), tries(after)];
        let times = turns(PASSES, &WAYS, |way| {
            timed(MILLION, || {
                black_box(day.report(way, black_box(MILLION)));
            })
        });
        row(input.name, &sizes, &times.into_iter().map(median).collect::<Vec<_>>());
    }
}
