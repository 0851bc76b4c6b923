// Origin: the rule of A or B that decides a packet, found by the pair sheet. Beside it the check that the call begins with and the
// lookup in the cell list, which gives the same answer and walks over all boxes before the rule found; then its search alone, without
// the check.
use crate::inputs::{self, Input, DENY};
use crate::lookup::{library as lookup, Packet};
use crate::measure::{head, median, row, timed, turns, Version, ROUNDS};
use crate::reading::region_at;
use crate::sheets::{boxes, order_of, two, Region, BOX, FIELDS, RECORD};
use crate::versions::{Desk, Found, Planner};
use std::hint::black_box;

#[derive(Clone, Copy)]
enum Way {
    Origin,
    Check,
    Lookup,
    SafeRust,
}

const WAYS: [Version<Way>; 4] =
    [("origin", Way::Origin), ("check", Way::Check), ("lookup", Way::Lookup), ("safe Rust", Way::SafeRust)];
const SEARCHES: [Version<Way>; 3] = [("less check", Way::Origin), WAYS[2], WAYS[3]];

// The place of the first record or box, of so many bytes each, that has the packet. In a checked sheet there is one.
fn first(p: &Packet, s: &[u8], size: usize) -> usize {
    let has = |r: Region| (0..FIELDS).all(|k| r.low[k] <= p[k] && p[k] <= r.high[k]);
    s.chunks_exact(size).position(|s| has(region_at(s))).unwrap()
}

// The records or boxes behind a count, and what is behind them.
fn counted(s: &[u8], size: usize) -> (&[u8], &[u8]) {
    s[2..].split_at(size * two(s) as usize)
}

// Origin in safe Rust, without the check: the gate rule that has the packet, then its group or the own rules.
#[inline(never)]
fn search(p: &Packet, sheet: &[u8]) -> Found {
    let (gate, rest) = counted(sheet, RECORD);
    let (own, rest) = counted(rest, RECORD);
    let rule = first(p, gate, RECORD);
    let denied = gate[RECORD * rule + BOX] == DENY;
    let passed = if denied { &gate[..RECORD * rule] } else { gate };
    let (mut before, mut groups) = (0, &rest[2..]);
    for _ in passed.chunks_exact(RECORD).filter(|s| s[BOX] == DENY) {
        before += two(groups);
        groups = counted(groups, BOX).1;
    }
    if denied {
        let number = first(p, counted(groups, BOX).0, BOX) as u32;
        return (2 * (before + number), [0, rule as u32, number]);
    }
    let rule = first(p, own, RECORD);
    (2 * (before + rule as u32) + own[RECORD * rule + BOX] as u32, [1, rule as u32, 0])
}

// The packet that the cell list decides last of those that it decides before `end`, and of these one that the gate decides last.
// All corners of rules and boxes are tried, since the last box of all decides nothing where earlier denies have all of it.
fn furthest(sheet: &[u8], cell: &[u8], end: usize) -> Packet {
    let (gate, _) = counted(sheet, RECORD);
    let regions = [gate, &cell[2..]].into_iter().flat_map(|s| s.chunks_exact(RECORD)).map(region_at);
    let place = |p: &Packet| lookup(p, cell) as usize / 2;
    let packets = regions.flat_map(|r| [r.low, r.high]).filter(|p| place(p) < end);
    packets.max_by_key(|p| (place(p), first(p, gate, RECORD))).unwrap()
}

fn turn(way: Way, desk: &mut Desk, used: usize, cell: &[u8], p: &Packet) -> u32 {
    match way {
        Way::Origin => desk.origin(p, used).0,
        Way::Check => desk.check(Planner::Library, used),
        Way::Lookup => lookup(p, cell),
        Way::SafeRust => search(p, &desk.sheet[..used]).0,
    }
}

// The sizes and the times of each way, for a packet that a box decides (list 0) or the last own rule (list 1). Each turn comes
// behind a check that is not timed, so that all find the caches alike, and is less what the clock takes.
fn measure(input: &Input, list: usize) -> ([usize; 4], Vec<Vec<f64>>) {
    let order = order_of(&input.gate, &input.own);
    let mut desk = Desk::new();
    let used = desk.move_order(Planner::Library, &order) as usize;
    let (cell, boxes, own) = (desk.cell_list(used), boxes(order.len(), &desk.sheet), input.own.len());
    let packet = furthest(&desk.sheet, &cell, boxes + list * own);
    let found = desk.origin(&packet, used);
    assert!(found.0 == lookup(&packet, &cell) && found == search(&packet, &desk.sheet[..used]), "{}: {found:?}", input.name);
    assert!(if list == 0 { found.1[0] == 0 } else { found.1 == [1, own as u32 - 1, 0] }, "{}: {found:?}", input.name);
    let times = turns(ROUNDS, &WAYS, |way| {
        desk.check(Planner::Library, used);
        let clock = timed(1, || {});
        let time = timed(1, || {
            black_box(turn(way, &mut desk, black_box(used), black_box(&cell), black_box(&packet)));
        });
        time - clock
    });
    ([input.gate.len(), own, boxes, found.0 as usize / 2], times)
}

// What origin takes beyond the check: the median of the rounds' differences, so that what slows a whole round cancels out. It has
// in it all that the two calls do not share, such as how their code is laid out. The median of n rounds is sure to some root of n
// places on either side (two standard deviations); where these reach down to half of it, the rounds do not tell it: a dash.
fn beyond(origin: &[f64], check: &[f64]) -> f64 {
    let mut less: Vec<f64> = origin.iter().zip(check).map(|(o, c)| o - c).collect();
    less.sort_by(f64::total_cmp);
    let middle = less.len() / 2;
    let told = less[middle - less.len().isqrt()] > less[middle] / 2.0;
    if told {
        less[middle]
    } else {
        f64::NAN
    }
}

pub fn run() {
    let sizes = ["rules", "own", "boxes", "place"];
    for (list, what) in ["a box decides", "the last own rule decides"].iter().enumerate() {
        println!();
        head(&format!("origin, {what}"), &sizes, &WAYS[..3]);
        let mut searches = Vec::new();
        for input in inputs::all() {
            let (sizes, times) = measure(&input, list);
            let less = beyond(&times[0], &times[1]);
            let times: Vec<f64> = times.into_iter().map(median).collect();
            row(input.name, &sizes, &times[..3]);
            searches.push((input.name, sizes, [less, times[2], times[3]]));
        }
        println!();
        head(&format!("its search, {what}"), &sizes, &SEARCHES);
        searches.iter().for_each(|(name, sizes, times)| row(name, sizes, times));
    }
}
