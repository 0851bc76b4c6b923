//! The load report (02, W3): loads that a sheet takes and loads that it does not, reports held
//! against reports over parts of the packets and against the library's own lookups, and as many
//! packets as a report takes.

use crate::draw::loads::{self, DrawnLoad, Input};
use crate::draw::packets;
use crate::draw::random::Random;
use crate::driver::origins::{self, Written};
use crate::driver::runs::is_about_buffers;
use crate::driver::{number, Driver};
use crate::model::boxes::{Action, Packet};
use crate::model::calls::{Answer, HITS};
use crate::model::reports::{MOST_PACKETS, PACKET_BYTES};
use crate::model::rows;
use crate::model::sheets::{self, PairSheet};

/// How many of the totals are sums over the packets: all but the gain.
const SUMS: usize = 4;

fn places(pair: &PairSheet) -> usize {
    pair.own.len() + pair.groups.iter().map(Vec::len).sum::<usize>()
}

/// At the corners of the sheet's rules and boxes.
fn drawn_packets(random: &mut Random, pair: &PairSheet, count: u64) -> Vec<Packet> {
    (0..count).map(|_| packets::within_fields(origins::packet_of(random, pair))).collect()
}

fn sound_load(random: &mut Random, pair: &PairSheet, count: u64) -> DrawnLoad {
    let packets = drawn_packets(random, pair, count);
    loads::sound(random, &packets, places(pair))
}

/// A report on a sheet that need not read well. Its load has faults of its own now and then, over
/// which every fault of the sheet has to win.
pub fn any(driver: &mut Driver, sheet: &[u8]) -> Answer {
    let random = &mut driver.random;
    let count = random.below(4);
    let mut load = match sheets::read_pair(sheet) {
        Ok(pair) => sound_load(random, &pair, count),
        Err(_) => loads::sound(random, &[[0; 5]], 3),
    };
    if random.chance(30) {
        loads::spoil_readings(random, &mut load);
    }
    if random.chance(30) {
        loads::break_last_packet(random, &mut load);
    }
    driver.report(sheet, &load).0
}

/// A report on a sheet that reads well, of a load with nothing wrong.
pub fn on_sound_load(driver: &mut Driver, sheet: &[u8]) -> Answer {
    let pair = sheets::read_pair(sheet).expect("the sheet reads well");
    let load = sound_load(&mut driver.random, &pair, 2);
    driver.report(sheet, &load).0
}

/// Reports on a sheet that the check accepts, as a move or an edit wrote it.
pub fn scene(driver: &mut Driver, sheet: &[u8]) {
    let pair = sheets::read_pair(sheet).expect("a sheet that the check accepts reads well");
    let many = driver.random.within(20, 60);
    let count = driver.random.pick(&[0, 1, 2, many, many, many, many, 13 * many]);
    hold_parts(driver, sheet, &pair, count);
    hold_to_lookups(driver, sheet, &pair);
    refused_loads(driver, sheet, &pair);
}

/// The sums over all packets are those over two parts of them, and the packets leave the hits as
/// they are.
fn hold_parts(driver: &mut Driver, sheet: &[u8], pair: &PairSheet, count: u64) {
    let load = sound_load(&mut driver.random, pair, count);
    let first_packets = driver.random.within(0, count) as usize;
    let [first, second] = loads::parts(&load, first_packets);
    let reports = [load, first, second].map(|load| driver.report(sheet, &load));
    if reports.iter().any(|(answer, ..)| is_about_buffers(*answer)) {
        return;
    }
    let [(_, whole, hits), (_, first, first_hits), (_, second, second_hits)] = reports;
    let sums = (0..SUMS).all(|total| whole[total] == first[total] + second[total]);
    driver.demand(sums, "a report and those over two parts", &[("sheet", sheet)]);
    let [hits, first, second] = [hits, first_hits, second_hits].map(|hits| hits[..HITS].to_vec());
    let same = hits == first && hits == second;
    driver.demand(same, "the hits beside other packets", &[("sheet", sheet)]);
}

/// Tries and verdicts by the library's own lookups, in the sheet's two lists and in the two that
/// it writes from the sheet.
fn hold_to_lookups(driver: &mut Driver, sheet: &[u8], pair: &PairSheet) {
    let count = driver.random.within(1, 6);
    let packets = drawn_packets(&mut driver.random, pair, count);
    let load = loads::sound(&mut driver.random, &packets, places(pair));
    let (answer, totals, _) = driver.report(sheet, &load);
    let (gate_answer, gate) = driver.gate_list(sheet);
    let lists = Written::of(driver, sheet);
    let (Ok(_), Ok(_), Some(Written { a, b, cell })) = (answer, gate_answer, lists) else {
        return;
    };
    let mut wanted = [count, 0, 0, 0];
    for packet in packets {
        let (before, old) = through(driver, [&a, &b], &packet);
        let (after, new) = through(driver, [&gate, &cell], &packet);
        driver.demand(old == new, &format!("forwarding {packet:?}"), &[("sheet", sheet)]);
        let more = [0, before, after, u64::from(old)];
        wanted.iter_mut().zip(more).for_each(|(total, more)| *total += more);
    }
    let inputs = [("sheet", sheet), ("packets", &load.packets.bytes)];
    driver.demand(totals[..SUMS] == wanted, "a report and lookups", &inputs);
}

/// The rules tried, and whether the packet is forwarded; the second list is looked in only if the
/// first lets the packet through.
fn through(driver: &mut Driver, lists: [&[u8]; 2], packet: &Packet) -> (u64, bool) {
    let mut look_up = |list| driver.lookup(packet, list).expect("a complete list has the packet");
    let first = look_up(lists[0]);
    if first % 2 == 0 {
        return (first / 2 + 1, false);
    }
    let second = look_up(lists[1]);
    (first / 2 + second / 2 + 2, second % 2 == 1)
}

/// Readings and packets of wrong lengths, alone and together.
fn refused_loads(driver: &mut Driver, sheet: &[u8], pair: &PairSheet) {
    let count = driver.random.below(4);
    let sound = sound_load(&mut driver.random, pair, count);
    let (mut misread, mut broken) = (sound.clone(), sound);
    loads::spoil_readings(&mut driver.random, &mut misread);
    loads::break_last_packet(&mut driver.random, &mut broken);
    let mut both = misread.clone();
    both.packets = broken.packets.clone();
    for load in [misread, broken, both] {
        let (answer, ..) = driver.report(sheet, &load);
        let held = is_about_buffers(answer) || number(answer) == Some(3);
        driver.demand(held, "a load of a wrong length", &[("sheet", sheet)]);
    }
}

/// As many packets as a report takes, one more, and a broken one behind either; and one too many
/// beside readings of a wrong length, which come first. The sheet is a small one, so that they are
/// counted quickly.
pub fn big_scene(driver: &mut Driver) {
    driver.short_percent = 0;
    let gate = [rows::single(0, 5, Action::Deny), rows::full(Action::Allow)];
    let (answer, sheet) = driver.move_pair(&sheets::order_bytes(&gate, &rows::own(1)));
    let sheet = &sheet[..answer.expect("the pair moves") as usize];
    let pair = sheets::read_pair(sheet).expect("a moved sheet reads well");
    let some = sound_load(&mut driver.random, &pair, 1_000);
    let most = MOST_PACKETS * PACKET_BYTES;
    let packets = some.packets.bytes.repeat(MOST_PACKETS / 1_000 + 1);
    let load = |length: usize| {
        let behind = packets[length..length + PACKET_BYTES].to_vec();
        DrawnLoad { packets: Input { bytes: packets[..length].to_vec(), behind }, ..some.clone() }
    };
    let too_many = most + PACKET_BYTES;
    let lengths =
        [(most, None), (most + 12, Some(3)), (too_many, Some(2)), (too_many + 1, Some(2))];
    for (length, wanted) in lengths {
        let (answer, ..) = driver.report(sheet, &load(length));
        let what = format!("a report of {length} bytes of packets");
        driver.demand(number(answer) == wanted, &what, &[("sheet", sheet)]);
    }
    let mut misread = load(too_many);
    loads::spoil_readings(&mut driver.random, &mut misread);
    let (answer, ..) = driver.report(sheet, &misread);
    driver.demand(number(answer) == Some(3), "readings before packets", &[("sheet", sheet)]);
}
