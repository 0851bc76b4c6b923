//! The kinds of cases. Each draws its own input and does several calls on it.

// Most calls are made for the comparison in them, not for their answer.
#![allow(unused_must_use)]

use crate::draw::damage::{self, Layout};
use crate::draw::{self, Pair, Shape};
use crate::draw::{packets, touching};
use crate::driver::origins::{self, Written};
use crate::driver::runs::{self, Run};
use crate::driver::{cuts, reports, Driver, ENOUGH_CASES};
use crate::model::boxes::{Action, PacketBox, Rule, FIELDS, HIGHEST};
use crate::model::sheets::{self, PairSheet};
use crate::model::{calls, rows};

/// The one of every so many cases as have to meet every answer that has too many packets. It takes
/// long, and most faults are found before it.
const BIG_CASE: u64 = 500;

/// The first case runs the rows of 01; all others but the big one are drawn.
pub fn play(driver: &mut Driver, case: u64) {
    if case % ENOUGH_CASES == BIG_CASE {
        return reports::big_scene(driver);
    }
    let shape = draw::shape(&mut driver.random);
    if case == 0 {
        return row_scene(driver, &shape);
    }
    match driver.random.below(100) {
        0..=17 => pair_scene(driver, &shape),
        18..=20 => table_scene(driver, &shape),
        21..=38 => edit_scene(driver, &shape),
        39..=57 => damage_scene(driver, &shape),
        58..=63 => report_scene(driver, &shape),
        64..=71 => stale_scene(driver, &shape),
        72..=77 => record_scene(driver, &shape),
        78..=82 => buffer_scene(driver, &shape),
        83..=86 => count_scene(driver, &shape),
        87..=90 => lattice_scene(driver, &shape),
        91 => cuts::touching_scene(driver),
        92..=96 => {
            let pair = match driver.random.below(10) {
                0 => touching::crowded_pair(&mut driver.random, &shape),
                _ => drawn_pair(driver, &shape),
            };
            cuts::before_scene(driver, &shape, &pair);
        }
        _ => noise_scene(driver, &shape),
    }
}

fn row_scene(driver: &mut Driver, shape: &Shape) {
    driver.short_percent = 0;
    cuts::hold_s2(driver);
    for row in rows::rows() {
        let (answer, sheet) = driver.move_pair(&row.order);
        let result = match answer {
            Ok(length) => Ok(boxes_of(&sheet[..length as usize])),
            Err(refusal) => Err(refusal.number()),
        };
        driver.demand(result == row.result, row.name, &[("order", &row.order)]);
        if let Ok(length) = answer {
            origins::hold(driver, &sheet[..length as usize], 40);
            reports::scene(driver, &sheet[..length as usize]);
            probe_sheet(driver, shape, &sheet[..length as usize]);
        }
    }
}

fn boxes_of(sheet: &[u8]) -> usize {
    sheets::read_pair(sheet).map_or(0, |pair| pair.groups.iter().map(Vec::len).sum())
}

/// A pair, moved, checked, listed, looked up in; it forwards what it forwarded before.
fn pair_scene(driver: &mut Driver, shape: &Shape) {
    let pair = drawn_pair(driver, shape);
    let order = pair.order();
    let lists = driver.split(&order);
    if let Some((a, b)) = &lists {
        driver.join(a, b);
    }
    let (answer, sheet) = driver.move_pair(&order);
    let Ok(length) = answer else {
        return;
    };
    let sheet = &sheet[..length as usize];
    driver.check(sheet);
    let gate = driver.gate_list(sheet);
    let cell = driver.cell_list(sheet);
    if let ((Ok(_), gate), (Ok(_), cell), Some((a, b))) = (gate, cell, lists) {
        look_up(driver, &a, &pair.gate);
        look_up(driver, &b, &pair.own);
        look_up(driver, &cell, &pair.gate);
        hold_forwarding(driver, &pair, [&a, &b], [&gate, &cell]);
        origins::hold_to_lists(driver, sheet, &Written { a, b, cell }, 5);
    }
}

fn drawn_pair(driver: &mut Driver, shape: &Shape) -> Pair {
    match driver.random.below(50) {
        0 => {
            let (gate, own) = (driver.random.within(1, 64), driver.random.within(1, 256));
            draw::counted_pair(&mut driver.random, gate, own)
        }
        1..=15 => touching::pair(&mut driver.random, shape),
        _ => draw::small_pair(&mut driver.random, shape),
    }
}

/// Every corner of one rule, and corners of several rules mixed.
fn look_up(driver: &mut Driver, list: &[u8], rules: &[Rule]) {
    let rule = &rules[driver.random.index(rules.len())];
    for packet in packets::every_corner(&mut driver.random, rule) {
        driver.lookup(&packet, list);
    }
    for _ in 0..6 {
        let packet = packets::mixed(&mut driver.random, rules);
        driver.lookup(&packet, list);
    }
}

/// What both lists allow is forwarded, and a move may not change what is.
fn hold_forwarding(driver: &mut Driver, pair: &Pair, before: [&[u8]; 2], after: [&[u8]; 2]) {
    for _ in 0..8 {
        let rules = [&pair.gate[..], &pair.own[..]].concat();
        let packet = packets::mixed(&mut driver.random, &rules);
        let mut allows =
            |list: &[u8]| driver.lookup(&packet, list).is_ok_and(|value| value % 2 == 1);
        let [a, b] = before.map(&mut allows);
        let [gate, cell] = after.map(&mut allows);
        let inputs = [("a", before[0]), ("b", before[1]), ("cell", after[1])];
        driver.demand((a && b) == (gate && cell), &format!("forwarding {packet:?}"), &inputs);
    }
}

fn edit_scene(driver: &mut Driver, shape: &Shape) {
    let pair = drawn_pair(driver, shape);
    let count = driver.random.within(1, 12);
    driver.move_pair(&pair.order());
    if let Ok(moved) = calls::moved(&pair.order()) {
        let mut run = Run::from(&moved);
        run.drawn_edits(driver, shape, count);
        origins::hold(driver, run.sheet(), 2);
    }
}

/// A moved sheet, edited or not, few of them with many places.
fn report_scene(driver: &mut Driver, shape: &Shape) {
    driver.short_percent = driver.random.pick(&[0, 4]);
    let pair = match driver.random.below(20) {
        0 => draw::lattice_pair(&mut driver.random, shape),
        _ => drawn_pair(driver, shape),
    };
    if let Ok(moved) = calls::moved(&pair.order()) {
        let mut run = Run::from(&moved);
        let edits = driver.random.pick(&[0, 0, 0, 2]);
        run.drawn_edits(driver, shape, edits);
        reports::scene(driver, run.sheet());
    }
}

/// Calls that read an order sheet.
fn probe_order(driver: &mut Driver, order: &[u8]) {
    driver.move_pair(order);
    driver.split(order);
}

/// Calls that read a pair sheet.
fn probe_sheet(driver: &mut Driver, shape: &Shape, sheet: &[u8]) {
    driver.check(sheet);
    driver.cell_list(sheet);
    driver.gate_list(sheet);
    let packet = origins::packet_for(&mut driver.random, sheet);
    driver.origin(&packet, sheet);
    reports::any(driver, sheet);
    runs::any_edits(driver, shape, sheet, 3);
}

/// Calls that read a list, with a whole list on the other side of the join.
fn probe_list(driver: &mut Driver, shape: &Shape, list: &[u8], rules: &[Rule]) {
    for _ in 0..4 {
        let packet = packets::mixed(&mut driver.random, rules);
        driver.lookup(&packet, list);
    }
    let Pair { gate, own } = draw::small_pair(&mut driver.random, shape);
    driver.join(list, &sheets::list_bytes(&own));
    driver.join(&sheets::list_bytes(&gate), list);
}

fn damage_scene(driver: &mut Driver, shape: &Shape) {
    let pair = drawn_pair(driver, shape);
    match (driver.random.below(7), calls::moved(&pair.order())) {
        (0 | 1, _) => {
            let layout = Layout::of_sections(&[pair.gate.len(), pair.own.len()]);
            let bytes = damaged(driver, &layout, pair.order());
            probe_order(driver, &bytes);
        }
        (2, _) => list_damage_scene(driver, shape, &pair),
        (_, Ok(moved)) => {
            let layout = Layout::of_pair(&moved);
            let bytes = damaged(driver, &layout, sheets::pair_bytes(&moved));
            probe_sheet(driver, shape, &bytes);
        }
        _ => (),
    }
}

/// A damaged list alone, beside another damaged one, and with nothing wrong but one record, which
/// only packets that reach it may meet.
fn list_damage_scene(driver: &mut Driver, shape: &Shape, pair: &Pair) {
    let layout = Layout::of_sections(&[pair.own.len()]);
    let b = damaged(driver, &layout, sheets::list_bytes(&pair.own));
    let layout = Layout::of_sections(&[pair.gate.len()]);
    let mut list = sheets::list_bytes(&pair.gate);
    let a = damaged(driver, &layout, list.clone());
    driver.join(&a, &b);
    probe_list(driver, shape, &a, &pair.gate);
    let place = sheets::COUNT_BYTES + sheets::RECORD_BYTES * driver.random.index(pair.gate.len());
    draw::spoil_record(&mut driver.random, &mut list[place..place + sheets::RECORD_BYTES]);
    for rule in &pair.gate {
        let packet = packets::inside(&mut driver.random, &rule.area);
        driver.lookup(&packet, &list);
    }
}

fn damaged(driver: &mut Driver, layout: &Layout, sheet: Vec<u8>) -> Vec<u8> {
    let bytes = damage::damaged(&mut driver.random, layout, &sheet);
    driver.whole = sheet;
    bytes
}

/// Sheets that read well though section C is not what A gives.
fn stale_scene(driver: &mut Driver, shape: &Shape) {
    let Pair { gate, own } = match driver.random.below(8) {
        0 => draw::lattice_pair(&mut driver.random, shape),
        _ => drawn_pair(driver, shape),
    };
    let denies = gate.iter().filter(|rule| !rule.allows()).count();
    let groups = crate::model::boxes::groups(&gate).unwrap_or(vec![Vec::new(); denies]);
    let mut pair = PairSheet { gate, own, groups };
    for _ in 0..driver.random.within(1, 3) {
        make_stale(driver, shape, &mut pair);
    }
    probe_sheet(driver, shape, &sheets::pair_bytes(&pair));
    let count = driver.random.within(1, 6);
    runs::any_edits(driver, shape, &sheets::pair_bytes(&pair), count);
}

fn make_stale(driver: &mut Driver, shape: &Shape, pair: &mut PairSheet) {
    let random = &mut driver.random;
    let total: usize = pair.groups.iter().map(Vec::len).sum();
    let room = 1_024usize.saturating_sub(total + pair.own.len());
    let drawn = draw::area(random, shape);
    if random.chance(25) {
        let place = random.index(pair.gate.len());
        let last = place + 1 == pair.gate.len();
        pair.gate[place].area = if last { PacketBox::full() } else { drawn.clone() };
    }
    let Some(group) = (!pair.groups.is_empty()).then(|| random.index(pair.groups.len())) else {
        return;
    };
    let group = &mut pair.groups[group];
    match random.below(8) {
        0 => group.clear(),
        1 => group.reverse(),
        2 => drop(group.pop()),
        3 => group.extend(vec![drawn; room]),
        4 => group.extend(vec![drawn; room + 1]),
        5 if !group.is_empty() => group[0] = drawn,
        6 => group.truncate(group.len() / 2),
        _ => group.insert(0, drawn),
    }
}

/// Records and numbers, right and wrong, of every length around the right one.
fn record_scene(driver: &mut Driver, shape: &Shape) {
    driver.short_percent = 10;
    for _ in 0..4 {
        let rule = draw::rule(&mut driver.random, shape);
        let mut record = sheets::rule_bytes(&rule);
        if driver.random.chance(30) {
            draw::spoil_record(&mut driver.random, &mut record);
        }
        let length = driver.random.pick(&[27, 27, 27, 27, 0, 1, 26, 28, 54]);
        driver.whole = record.clone();
        record.resize(length, 0);
        driver.rule(&record);
        driver.whole.clear();
        let numbers = drawn_numbers(driver, &rule);
        driver.record(&numbers);
    }
}

/// Tables in memory: counts at their limits, and faults that only numbers can have, at the rule
/// that has the packet, before it and behind it.
fn table_scene(driver: &mut Driver, shape: &Shape) {
    let few = driver.random.within(2, 12);
    let count = driver.random.pick(&[0, 1, few, few, few, few, 1_023, 1_024, 1_025]);
    let rules: Vec<Rule> = (0..count).map(|_| draw::rule(&mut driver.random, shape)).collect();
    let mut table: Vec<Vec<u32>> = rules.iter().map(sound_numbers).collect();
    for _ in 0..driver.random.below(3).min(count) {
        let place = driver.random.index(rules.len());
        table[place] = spoilt_numbers(driver, &rules[place]);
    }
    let table = table.concat();
    let drawn = [&rules[..], &rows::own(1)].concat();
    let rule = &drawn[driver.random.index(drawn.len())];
    for packet in packets::every_corner(&mut driver.random, rule) {
        driver.lookup_table(&packet, &table);
    }
    for _ in 0..6 {
        let packet = packets::mixed(&mut driver.random, &drawn);
        driver.lookup_table(&packet, &table);
    }
}

fn sound_numbers(rule: &Rule) -> Vec<u32> {
    sheets::numbers_of_rule(rule).iter().map(|&number| number as u32).collect()
}

/// A rule as numbers: right, or with a fault, too few numbers, or more than are read.
fn drawn_numbers(driver: &mut Driver, rule: &Rule) -> Vec<u32> {
    let mut numbers = sound_numbers(rule);
    match driver.random.below(12) {
        0..=4 => return spoilt_numbers(driver, rule),
        5 => numbers.truncate(driver.random.pick(&[0, 5, 10])),
        6 => numbers.extend([7; 3]),
        _ => (),
    }
    numbers
}

/// A value too high for its field, a range upside down, or an action that is none.
fn spoilt_numbers(driver: &mut Driver, rule: &Rule) -> Vec<u32> {
    let random = &mut driver.random;
    let mut numbers = sheets::numbers_of_rule(rule);
    let field = random.index(FIELDS);
    let above = (HIGHEST[field] + random.pick(&[1, 2, 65_536])).min(u64::from(u32::MAX));
    match random.below(5) {
        0 => numbers[FIELDS + field] = above,
        1 => (numbers[field], numbers[FIELDS + field]) = (above, above),
        2 => numbers[field] = above,
        3 => numbers[field] = numbers[FIELDS + field] + 1,
        _ => numbers[2 * FIELDS] = random.pick(&[2, 3, 256, 257, 65_536, u64::from(u32::MAX)]),
    }
    numbers.iter().map(|&number| number as u32).collect()
}

/// Every call with buffers short, exactly long enough and longer; 1 comes before all else.
fn buffer_scene(driver: &mut Driver, shape: &Shape) {
    driver.short_percent = 25;
    driver.wild_percent = 20;
    let pair = draw::small_pair(&mut driver.random, shape);
    let layout = Layout::of_sections(&[pair.gate.len(), pair.own.len()]);
    let mut order = pair.order();
    let mut sheet = calls::moved(&order).map_or(Vec::new(), |moved| sheets::pair_bytes(&moved));
    if driver.random.chance(30) {
        order = damaged(driver, &layout, order);
    }
    if driver.random.chance(30) {
        sheet.resize(calls::LARGEST_PAIR_SHEET + driver.random.pick(&[0, 1, 40_000]), 0);
    }
    probe_order(driver, &order);
    probe_sheet(driver, shape, &sheet);
    driver.join(&sheets::list_bytes(&pair.gate), &sheets::list_bytes(&pair.own));
}

/// Counts at their limits and one beyond, in sheets and lists that have nothing else wrong.
fn count_scene(driver: &mut Driver, shape: &Shape) {
    driver.wild_percent = 20;
    let gate_count = driver.random.pick(&[0, 1, 64, 65]);
    let own_count = driver.random.pick(&[0, 1, 256, 257]);
    let gate = counted_list(driver, gate_count);
    let own = counted_list(driver, own_count);
    let (a, b) = (sheets::list_bytes(&gate), sheets::list_bytes(&own));
    driver.join(&a, &b);
    let mut order = [a, b].concat();
    probe_order(driver, &order);
    if let Ok(moved) = calls::moved(&order) {
        Run::from(&moved).drawn_edits(driver, shape, 4);
    }
    order.resize(order.len() + driver.random.pick(&[1, 70_000]), 0);
    probe_order(driver, &order);
    let list_count = driver.random.pick(&[0, 1, 1_024, 1_025]);
    let list = counted_list(driver, list_count);
    for _ in 0..6 {
        let packet = packets::mixed(&mut driver.random, &[&list[..], &rows::own(1)].concat());
        driver.lookup(&packet, &sheets::list_bytes(&list));
    }
    if driver.random.chance(25) {
        let area = draw::area(&mut driver.random, shape);
        probe_sheet(driver, shape, &largest_sheet(area));
    }
}

/// 28,742 bytes that read well: no move writes them, since 64 denies leave no allow.
fn largest_sheet(area: PacketBox) -> Vec<u8> {
    let groups = vec![vec![area; 12]; 64];
    let pair = PairSheet { gate: vec![rows::full(Action::Deny); 64], own: rows::own(256), groups };
    sheets::pair_bytes(&pair)
}

fn counted_list(driver: &mut Driver, count: u64) -> Vec<Rule> {
    match count {
        0 => Vec::new(),
        _ => draw::counted_pair(&mut driver.random, count, 1).gate,
    }
}

/// Pieces and boxes around their limits, moved and edited, and sheets whose A is beyond them.
fn lattice_scene(driver: &mut Driver, shape: &Shape) {
    let mut pair = match driver.random.below(4) {
        0 => draw::missed_lattice_pair(&mut driver.random, shape),
        _ => draw::lattice_pair(&mut driver.random, shape),
    };
    let covered = driver.random.chance(50);
    if covered {
        draw::cover(&mut pair);
    }
    let order = pair.order();
    driver.move_pair(&order);
    if let Ok(moved) = calls::moved(&order) {
        let mut run = Run::from(&moved);
        if covered {
            run.edit(driver, &draw::uncovering());
        }
        run.drawn_edits(driver, shape, 2);
        origins::hold(driver, run.sheet(), 1);
    }
    let Pair { gate, own } = pair;
    let groups = gate.iter().filter(|rule| !rule.allows()).map(|_| Vec::new()).collect();
    stale_lattice(driver, shape, PairSheet { gate, own, groups });
}

/// The limits of 6 and 7 are looked at after everything has been read and the edit tested, so any
/// other fault has to win over them.
fn stale_lattice(driver: &mut Driver, shape: &Shape, pair: PairSheet) {
    let stale = sheets::pair_bytes(&pair);
    let used = stale.len() as u64;
    driver.edit(&stale, used, &draw::uncovering());
    let opening = draw::opening(&mut driver.random, pair.gate.len());
    driver.edit(&stale, used, &opening);
    probe_sheet(driver, shape, &stale);
    let damaged_sheet = damaged(driver, &Layout::of_pair(&pair), stale);
    probe_sheet(driver, shape, &damaged_sheet);
    let layout = Layout::of_sections(&[pair.gate.len(), pair.own.len()]);
    let damaged_order = damaged(driver, &layout, sheets::order_bytes(&pair.gate, &pair.own));
    probe_order(driver, &damaged_order);
}

/// Bytes without any order, behind counts that may be in it.
fn noise_scene(driver: &mut Driver, shape: &Shape) {
    let length = driver.random.index(120);
    let mut bytes = driver.random.bytes(length);
    if let [high, low, ..] = &mut bytes[..] {
        (*high, *low) = (0, driver.random.pick(&[0, 1, 2, 3, 64, 255]));
    }
    probe_order(driver, &bytes);
    probe_sheet(driver, shape, &bytes);
    probe_list(driver, shape, &bytes, &rows::own(1));
    driver.rule(&bytes);
}
