//! The model's own tests: 01's boundary table with the line that 02, W2 changes, its rows, its
//! printed example, boxes that touch, a sheet of before W2 and origins worked out by hand, and the
//! facts about cutting, moving and origins, tried packet by packet over small ranges. Those of
//! reports are in selftest_reports.rs.

use crate::draw;
use crate::draw::random::Random;
use crate::draw::touching::{self, TOUCHES};
use crate::model::boxes::{self, Action, Origin, Packet, PacketBox, Range, Rule, FIELDS, HIGHEST};
use crate::model::calls::{self, encode, Change, Edit, REFUSED};
use crate::model::rows::{self, full};
use crate::model::sheets::{self, PairSheet};
use crate::model::{before, plan};
use crate::selftest_reports as reports;

pub const M: u64 = 4_294_967_295;

/// Source by destination, the other fields full.
fn area(source: (u64, u64), destination: (u64, u64)) -> PacketBox {
    let range = |(low, high)| Range { low, high };
    PacketBox::full().with(0, range(source)).with(1, range(destination))
}

pub fn source(low: u64, high: u64) -> PacketBox {
    area((low, high), (0, M))
}

pub fn allow(area: PacketBox) -> Rule {
    Rule::new(area, Action::Allow)
}

pub fn deny(area: PacketBox) -> Rule {
    Rule::new(area, Action::Deny)
}

fn cutting_table() -> Vec<(&'static str, bool)> {
    let left = |deny: PacketBox, allow: PacketBox| deny.less(&allow);
    let (inner, outer) = (area((4, 6), (4, 6)), area((1, 8), (2, 7)));
    let around = [((1, 3), (2, 7)), ((7, 8), (2, 7)), ((4, 6), (2, 3)), ((4, 6), (7, 7))];
    let beside = [((0, 2), (0, 4)), ((6, 9), (0, 4)), ((3, 5), (0, 4))];
    let (whole, missed) = rows::s2();
    let areas = |parts: &[((u64, u64), (u64, u64))]| -> Vec<PacketBox> {
        parts.iter().map(|&(source, destination)| area(source, destination)).collect()
    };
    let two_allows = [allow(source(2, 3)), allow(source(5, 6))];
    let split = boxes::group(&source(0, 9), &two_allows, crate::model::refusals::Part::C);
    vec![
        ("S1", left(outer.clone(), inner.clone()) == areas(&around)),
        ("S2", left(whole.clone(), missed.clone()) == areas(&[((0, 9), (0, 4))])),
        ("S2 before W2", before::less(&whole, &missed) == areas(&beside)),
        ("S3", left(inner.clone(), outer).is_empty()),
        ("S4", left(inner.clone(), inner).is_empty()),
        ("S5", left(area((0, 3), (0, 9)), area((4, 9), (0, 9))) == areas(&[((0, 3), (0, 9))])),
        ("S6", left(area((0, 4), (0, 9)), area((4, 9), (0, 9))) == areas(&[((0, 3), (0, 9))])),
        ("S7", left(source(0, M), source(M, M)) == [source(0, M - 1)]),
        ("S8", left(source(0, M), source(0, 0)) == [source(1, M)]),
        ("S9", split == Ok(vec![source(0, 1), source(4, 4), source(7, 9)])),
    ]
}

fn list_table() -> Vec<(&'static str, bool)> {
    let list = [deny(source(5, 9)), allow(source(0, 5)), full(Action::Deny)];
    let decides = |value| boxes::first_match(&list, &[value, 0, 0, 0, 0]);
    let looked_up = |value| calls::lookup(&[value, 0, 0, 0, 0], &sheets::list_bytes(&list));
    let first_matches = decides(5) == Some((0, Action::Deny))
        && decides(0) == Some((1, Action::Allow))
        && decides(10) == Some((2, Action::Deny));
    let lookups = [5, 0, 10].map(looked_up) == [Ok(0), Ok(3), Ok(4)];
    vec![
        ("S10", first_matches && lookups),
        ("S11", boxes::groups(&[full(Action::Allow)]) == Ok(vec![])),
        ("S12", boxes::groups(&[full(Action::Deny)]) == Ok(vec![vec![PacketBox::full()]])),
    ]
}

/// A box with all of its ranges written out.
fn five(ranges: [(u64, u64); FIELDS]) -> PacketBox {
    PacketBox { ranges: ranges.map(|(low, high)| Range { low, high }) }
}

/// What an allow of 3 to 5 in four fields, and of `last` in the fifth, leaves of a deny of 0 to 9
/// in all five: one piece if `last` has none of 0 to 9, else eight and what is left in the fifth.
fn cut_by(last: (u64, u64)) -> Vec<PacketBox> {
    let inner = (3, 5);
    five([(0, 9); FIELDS]).less(&five([inner, inner, inner, inner, last]))
}

fn eight_and(parts: &[(u64, u64)]) -> Vec<PacketBox> {
    let (own, inner) = ((0, 9), (3, 5));
    let eight = (0..FIELDS - 1).flat_map(|field| {
        [(0, 2), (6, 9)].map(|part| {
            let mut ranges = [own; FIELDS];
            ranges[..field].fill(inner);
            ranges[field] = part;
            five(ranges)
        })
    });
    let last = parts.iter().map(|&part| five([inner, inner, inner, inner, part]));
    eight.chain(last).collect()
}

/// One value this side and that side of sharing, in the last field looked at.
fn touching_table() -> Vec<(&'static str, bool)> {
    let whole = [five([(0, 9); FIELDS])];
    vec![
        ("one value behind", cut_by((10, 12)) == whole),
        ("the highest value", cut_by((9, 12)) == eight_and(&[(0, 8)])),
        ("the lowest value", cut_by((0, 0)) == eight_and(&[(1, 9)])),
        ("a value within", cut_by((4, 4)) == eight_and(&[(0, 3), (5, 9)])),
        ("all values", cut_by((0, 9)) == eight_and(&[])),
    ]
}

/// A gate with S2's box as its denies, behind S2's allow, moved now and moved before W2.
fn before_table() -> Vec<(&'static str, bool)> {
    let (whole, missed) = rows::s2();
    let gate = [allow(missed), deny(whole.clone()), deny(whole.clone()), full(Action::Allow)];
    let (old, fresh) =
        (before::moved(&gate, &rows::own(1)).expect("it moved"), moved(&gate, &rows::own(1)));
    let mut work = vec![7; calls::WORK];
    let mut check = |pair| encode(calls::check(&sheets::pair_bytes(pair), &mut work));
    let checks = [&old, &fresh].map(&mut check) == [REFUSED + 8, 0];
    let origins = [said(&old, &[0; 5]), said(&fresh, &[0; 5])] == [refused(8), (0, [0, 1, 0, 7])];
    vec![
        ("S2's group", fresh.groups == [[whole.clone()], [whole]]),
        ("S2's group before W2", box_counts(&old) == [3, 3]),
        ("a sheet of before W2 is not taken", checks && origins),
        ("an edit takes a sheet of before W2", old_and_new_groups(&old)),
    ]
}

fn box_counts(pair: &PairSheet) -> Vec<usize> {
    pair.groups.iter().map(Vec::len).collect()
}

/// The second deny for itself: its group is worked out anew, the one before it stays.
fn old_and_new_groups(old: &PairSheet) -> bool {
    let record = sheets::rule_bytes(&old.gate[2]);
    let again = Edit { list: 0, place: 2, change: Change::Replace(&record) };
    let (mut sheet, mut work) = (sheets::pair_bytes(old), vec![7; calls::WORK]);
    let used = sheet.len() as u64;
    sheet.resize(calls::LARGEST_PAIR_SHEET, 7);
    let length =
        calls::edit(&mut sheet, used, &again, &mut work).map_or(0, |length| length as usize);
    sheets::read_pair(&sheet[..length])
        .is_ok_and(|pair| box_counts(&pair) == [3, 1] && pair.groups[0] == old.groups[0])
}

/// The gate and the cell of 01's printed example.
pub fn dairy() -> (Vec<Rule>, Vec<Rule>) {
    let range = |low, high| Range { low, high };
    let tcp = |area: PacketBox| area.with(4, range(6, 6));
    let gate = vec![
        allow(tcp(PacketBox::full().with(1, range(10, 19)).with(3, range(80, 80)))),
        deny(tcp(PacketBox::full().with(1, range(0, 29)))),
        full(Action::Allow),
    ];
    (gate, vec![full(Action::Allow)])
}

const PRINTED: &str = "\
up 1 down 5
deny 0-4294967295 0-9 0-65535 0-65535 6-6
deny 0-4294967295 20-29 0-65535 0-65535 6-6
deny 0-4294967295 10-19 0-65535 0-79 6-6
deny 0-4294967295 10-19 0-65535 81-65535 6-6
allow 0-4294967295 0-4294967295 0-65535 0-65535 0-255
";

fn printed_example() -> Vec<(&'static str, bool)> {
    let (gate, own) = dairy();
    let order = sheets::order_bytes(&gate, &own);
    let refused = plan::print(&order[..order.len() - 1]) == "refused 3\n";
    vec![("plan's example", plan::print(&order) == PRINTED), ("plan's refusal", refused)]
}

fn row_table() -> Vec<(&'static str, bool)> {
    let result = |order: &[u8]| match calls::moved(order) {
        Ok(pair) => Ok(pair.groups.iter().map(Vec::len).sum()),
        Err(refusal) => Err(refusal.number()),
    };
    let mut table: Vec<(&'static str, bool)> =
        rows::rows().iter().map(|row| (row.name, result(&row.order) == row.result)).collect();
    let pieces = boxes::groups(&rows::grid(31, 31)).map(|groups| groups[0].len());
    table.push(("1,024 pieces are not 6", pieces == Ok(1_024)));
    table
}

/// What the call answers to a packet, and four numbers after it, which were 7 before it.
type Said = (u32, [u32; 4]);

fn said(pair: &PairSheet, packet: &Packet) -> Said {
    let (mut numbers, mut work) = ([7; 4], vec![7; calls::WORK]);
    let answer = calls::origin(packet, &sheets::pair_bytes(pair), &mut numbers, &mut work);
    (encode(answer), numbers)
}

const fn refused(number: u32) -> Said {
    (REFUSED + number, [7; 4])
}

pub fn moved(gate: &[Rule], own: &[Rule]) -> PairSheet {
    calls::moved(&sheets::order_bytes(gate, own)).expect("the example moves")
}

/// An allow stands first, so gate rule 1 has group 0; its boxes are the four that plan prints.
fn example_origins() -> bool {
    let (gate, own) = dairy();
    let pair = moved(&gate, &own);
    let table: [([u64; 5], Said); 8] = [
        ([1, 9, 5, 80, 6], (0, [0, 1, 0, 7])),
        ([1, 20, 5, 80, 6], (2, [0, 1, 1, 7])),
        ([1, 15, 5, 79, 6], (4, [0, 1, 2, 7])),
        ([1, 15, 5, 81, 6], (6, [0, 1, 3, 7])),
        ([1, 15, 5, 80, 6], (9, [1, 0, 0, 7])),
        ([1, 30, 5, 80, 6], (9, [1, 0, 0, 7])),
        ([1, 15, 5, 80, 256], refused(5)),
        ([1, 15, 65_536, 80, 6], refused(5)),
    ];
    table.iter().all(|(packet, wanted)| said(&pair, packet) == *wanted)
}

/// Gate rule 1 has no box left; rule 2 has one, which hides a part of rule 4's two. The cell list
/// is [10,12]; [10,10], [12,M]; then the own rules.
fn origins_behind_empty_group() -> bool {
    let gate = [
        allow(source(0, 9)),
        deny(source(3, 5)),
        deny(source(8, 12)),
        allow(source(11, 11)),
        full(Action::Deny),
    ];
    let pair = moved(&gate, &[deny(source(0, 4)), full(Action::Allow)]);
    let table: [(u64, Said); 7] = [
        (3, (6, [1, 0, 0, 7])),
        (5, (9, [1, 1, 0, 7])),
        (9, (9, [1, 1, 0, 7])),
        (10, (0, [0, 2, 0, 7])),
        (11, (0, [0, 2, 0, 7])),
        (13, (4, [0, 4, 1, 7])),
        (M, (4, [0, 4, 1, 7])),
    ];
    table.iter().all(|&(value, wanted)| said(&pair, &[value, 0, 0, 0, 0]) == wanted)
}

/// The row of 992 boxes: rule 31 is the first of the denies and drops all that is dropped.
fn comb_origins() -> bool {
    let pair = moved(&rows::comb(), &rows::own(32));
    let of = |value| said(&pair, &[value, 0, 0, 0, 0]);
    of(0) == (0, [0, 31, 0, 7])
        && of(61) == (60, [0, 31, 30, 7])
        && of(M) == (62, [0, 31, 31, 7])
        && of(62) == (2 * 992 + 1, [1, 0, 0, 7])
}

/// A box for one that A does not give: 8, also for a packet that no rule can have.
fn stale_origins() -> bool {
    let mut pair = moved(&[full(Action::Deny)], &rows::own(1));
    pair.groups[0][0] = source(0, 9);
    said(&pair, &[1, 0, 0, 0, 0]) == refused(8) && said(&pair, &[1, 0, 0, 0, 256]) == refused(8)
}

/// 1 comes before anything is read, and touches nothing.
fn short_origins() -> bool {
    let (mut numbers, mut work) = ([7; 2], vec![7; calls::WORK]);
    let answer = calls::origin(&[0; 5], &[], &mut numbers, &mut work);
    encode(answer) == REFUSED + 1 && numbers == [7; 2] && work == vec![7; calls::WORK]
}

fn origin_table() -> Vec<(&'static str, bool)> {
    vec![
        ("origins in plan's example", example_origins()),
        ("origins behind an empty group", origins_behind_empty_group()),
        ("origins behind 992 boxes", comb_origins()),
        ("no origin on a stale sheet", stale_origins()),
        ("no origin in two numbers", short_origins()),
    ]
}

/// The three largest sheets of 01, from their parts.
fn size_table() -> Vec<(&'static str, bool)> {
    let (count, record) = (sheets::COUNT_BYTES, sheets::RECORD_BYTES);
    let (a, b) = (count + 64 * record, count + 256 * record);
    let c = count + 64 * count + (1_024 - 256) * sheets::BOX_BYTES;
    vec![
        ("largest A list", a == calls::LARGEST_A_LIST),
        ("largest B list", b == calls::LARGEST_B_LIST),
        ("largest order sheet", a + b == calls::LARGEST_ORDER_SHEET),
        ("largest pair sheet", a + b + c == calls::LARGEST_PAIR_SHEET),
        ("largest list", count + 1_024 * record == calls::LARGEST_LIST),
        ("gate list", count + record == calls::GATE_LIST),
        ("work", 2 * 1_024 * sheets::BOX_BYTES == calls::WORK),
    ]
}

/// Every packet with small values in fields 1 and 2 and a few in the others, both ends of each
/// field among them.
fn packets() -> Vec<Packet> {
    let values = |field: usize| match field {
        0 | 1 => (0..7).chain([HIGHEST[field]]).collect::<Vec<u64>>(),
        _ => vec![0, 2, 4, HIGHEST[field]],
    };
    (0..FIELDS).fold(vec![[0; FIELDS]], |packets, field| {
        let with = |packet: &Packet, value: u64| {
            let mut packet = *packet;
            packet[field] = value;
            packet
        };
        let values = values(field);
        packets.iter().flat_map(|packet| values.iter().map(|&v| with(packet, v))).collect()
    })
}

/// At most ten pieces, none in two of them, together the deny box without the allow box. The same
/// was true before W2.
fn cutting_holds(random: &mut Random, packets: &[Packet]) -> bool {
    let shape = draw::shape(random);
    let (deny, allow) = (draw::area(random, &shape), draw::area(random, &shape));
    let holds = |pieces: &[PacketBox]| {
        let meets = |packet: &Packet| pieces.iter().filter(|piece| piece.has(packet)).count();
        pieces.len() <= 10
            && packets
                .iter()
                .all(|packet| meets(packet) == usize::from(deny.has(packet) && !allow.has(packet)))
    };
    holds(&deny.less(&allow)) && holds(&before::less(&deny, &allow))
}

/// The deny box alone, exactly where the two share no packet; the two cuts are the same where they
/// share one.
fn touching_holds(random: &mut Random) -> bool {
    (0..FIELDS).flat_map(|field| TOUCHES.map(|touch| (field, touch))).all(|(field, touch)| {
        let (deny, allow) = touching::boxes(random, field, touch);
        let (pieces, old) = (deny.less(&allow), before::less(&deny, &allow));
        (pieces == [deny]) == touch.misses() && (touch.misses() || pieces == old)
    })
}

/// The moved pair forwards what the pair forwarded; nothing is said of a pair that is not moved.
fn moving_holds(random: &mut Random, packets: &[Packet]) -> Option<bool> {
    let shape = draw::shape(random);
    let pair = draw::small_pair(random, &shape);
    let moved = calls::moved(&pair.order()).ok()?;
    let cell = boxes::cell_rules(&moved.groups, &moved.own);
    let allows = |list: &[Rule], packet: &Packet| {
        boxes::first_match(list, packet).is_some_and(|(_, action)| action == Action::Allow)
    };
    Some(packets.iter().all(|packet| {
        (allows(&pair.gate, packet) && allows(&pair.own, packet))
            == (allows(&boxes::gate_rules(), packet) && allows(&cell, packet))
    }))
}

/// The origin's rule is the cell list's first match. The gate drops the packet by the gate rule
/// named, or lets it through to the own rule named.
fn origins_hold(random: &mut Random, packets: &[Packet]) -> Option<bool> {
    let shape = draw::shape(random);
    let PairSheet { gate, own, groups } =
        calls::moved(&draw::small_pair(random, &shape).order()).ok()?;
    let cell = boxes::cell_rules(&groups, &own);
    Some(packets.iter().all(|packet| {
        let found = boxes::first_origin(&gate, &groups, &own, packet);
        let by_gate = boxes::first_match(&gate, packet);
        found.map(|(place, action, _)| (place, action)) == boxes::first_match(&cell, packet)
            && found.is_some_and(|(_, action, origin)| match origin {
                Origin::Gate { place, .. } => by_gate == Some((place, Action::Deny)),
                Origin::Own { place } => {
                    by_gate.is_some_and(|(_, decides)| decides == Action::Allow)
                        && boxes::first_match(&own, packet) == Some((place, action))
                }
            })
    }))
}

/// Every box of sources and destinations below 4, with its sixteen packets as bits.
fn small_boxes() -> Vec<(PacketBox, u16)> {
    let ranges = (0..4).flat_map(|low| (low..4).map(move |high| (low, high)));
    let bits = |(low, high): (u64, u64)| (low..=high).fold(0u16, |bits, value| bits | 1 << value);
    let boxes = ranges.clone().flat_map(|from| ranges.clone().map(move |to| (from, to)));
    let packets = move |(from, to)| {
        (0..4)
            .filter(|row| bits(from) >> row & 1 == 1)
            .fold(0, |all, row| all | bits(to) << (4 * row))
    };
    boxes.map(|(from, to)| (area(from, to), packets((from, to)))).collect()
}

/// Whether so many of the boxes, or fewer, have all of these packets. Some box has the first.
fn covered_by(count: usize, packets: u16, boxes: &[u16]) -> bool {
    let first = packets & packets.wrapping_neg();
    let with_first = || boxes.iter().filter(|&&area| area & first != 0);
    packets == 0
        || count > 0 && with_first().any(|area| covered_by(count - 1, packets & !area, boxes))
}

/// No list of boxes with exactly what is left of one small box without another is shorter than the
/// cut; the cut of before W2 is longer somewhere.
fn fewest() -> (bool, bool) {
    let all = small_boxes();
    let (mut held, mut held_before) = (true, true);
    for ((deny, own), (allow, taken)) in all.iter().flat_map(|d| all.iter().map(move |a| (d, a))) {
        let left = own & !taken;
        let within: Vec<u16> = all.iter().map(|b| b.1).filter(|area| area & !left == 0).collect();
        let shorter = |pieces: usize| pieces > 0 && covered_by(pieces - 1, left, &within);
        held &= !shorter(deny.less(allow).len());
        held_before &= !shorter(before::less(deny, allow).len());
    }
    (held, held_before)
}

fn facts() -> Vec<(&'static str, bool)> {
    let (mut random, packets) = (Random::new(1), packets());
    let cutting = (0..300).all(|_| cutting_holds(&mut random, &packets));
    let touching = (0..300).all(|_| touching_holds(&mut random));
    let moves: Vec<bool> = (0..100).filter_map(|_| moving_holds(&mut random, &packets)).collect();
    let moving = moves.len() > 90 && moves.iter().all(|&held| held);
    let found: Vec<bool> = (0..100).filter_map(|_| origins_hold(&mut random, &packets)).collect();
    let origins = found.len() > 90 && found.iter().all(|&held| held);
    let counted: Vec<bool> =
        (0..100).filter_map(|_| reports::hold(&mut random, &packets)).collect();
    let reporting = counted.len() > 90 && counted.iter().all(|&held| held);
    vec![
        ("cutting, packet by packet", cutting),
        ("cutting boxes that touch", touching),
        ("no fewer boxes than a cut", fewest() == (true, false)),
        ("moving, packet by packet", moving),
        ("origins, packet by packet", origins),
        ("reports, packet by packet", reporting),
    ]
}

/// Prints a line for each test; whether all held.
pub fn run() -> bool {
    let tables = [
        cutting_table(),
        touching_table(),
        list_table(),
        printed_example(),
        row_table(),
        before_table(),
        origin_table(),
        reports::table(),
        size_table(),
        facts(),
    ];
    let tests = tables.concat();
    for (name, held) in &tests {
        println!("{} {name}", if *held { "ok    " } else { "FAILED" });
    }
    tests.iter().all(|(_, held)| *held)
}
