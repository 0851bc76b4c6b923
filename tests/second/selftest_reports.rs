//! The model's own tests of the load report (02, W3): counts and hits worked out by hand, the
//! order of its refusals, and its counts against first matches.

use crate::draw;
use crate::draw::random::Random;
use crate::model::boxes::{self, Action, Packet};
use crate::model::calls::{self, encode, HITS, REFUSED};
use crate::model::report_program;
use crate::model::reports::{self, Counts, Load, MOST_PACKETS, PACKET_BYTES, TOTALS};
use crate::model::rows::full;
use crate::model::sheets::{self, PairSheet};
use crate::selftest::{allow, deny, moved, source, M};

/// A gate that leaves one box, of source 5, in front of two own rules: three places.
fn report_pair() -> PairSheet {
    let single = |value| source(value, value);
    let gate = [allow(single(100)), allow(single(101)), deny(single(5)), full(Action::Allow)];
    moved(&gate, &[allow(single(101)), full(Action::Allow)])
}

const PRINTED: &str = "\
packets 3
before 12
after 9
forwarded 2
gain 4/3
0 17
1 0
2 10
";

const NOTHING_COUNTED: &str = "\
packets 0
before 0
after 0
forwarded 0
gain none
0 1
1 4294967295
2 4294967295
";

fn packets_from(sources: &[u64]) -> Vec<u8> {
    sources.iter().flat_map(|&source| reports::packet_bytes(&[source, 0, 0, 0, 0])).collect()
}

/// Three tries and none in the cell, against 1 + 1; 2 + 1 against 1 + 2; 4 + 2 against 1 + 3. The
/// third counter rolls over between its readings.
fn printed_report() -> bool {
    let (packets, earlier, later) = (
        packets_from(&[5, 101, 7]),
        reports::reading_bytes(&[0, 5, M - 5]),
        reports::reading_bytes(&[17, 5, 4]),
    );
    let load = Load { packets: &packets, earlier: &earlier, later: &later };
    reports::report(&report_pair(), &load)
        .is_ok_and(|report| report_program::lines(&report) == PRINTED)
}

/// What the call answers, and the totals and hits after it, which were 7 before it.
type Reported = (u32, [u64; TOTALS + 1], Vec<u32>);

/// Nothing if the work was not left zero.
fn reported(sheet: &[u8], load: &Load) -> Option<Reported> {
    let (mut totals, mut hits, mut work) = ([7; TOTALS + 1], vec![7; HITS + 1], [7; calls::WORK]);
    let answer = encode(calls::report(sheet, load, &mut totals, &mut hits, &mut work));
    (work == [0; calls::WORK]).then_some((answer, totals, hits))
}

fn no_packets() -> bool {
    let sheet = sheets::pair_bytes(&report_pair());
    let (earlier, later) = (reports::reading_bytes(&[M, 1, 0]), reports::reading_bytes(&[0, 0, M]));
    let load = Load { packets: &[], earlier: &earlier, later: &later };
    let hits = [vec![1, u32::MAX, u32::MAX], vec![0; HITS - 3], vec![7]].concat();
    reported(&sheet, &load) == Some((3, [0, 0, 0, 0, 0, 0, 7], hits))
        && reports::report(&report_pair(), &load)
            .is_ok_and(|report| report_program::lines(&report) == NOTHING_COUNTED)
}

/// Fields of a packet are as wide as a record's ends, first byte highest.
fn packets_in_bytes() -> bool {
    let bytes = [1, 2, 3, 4, 5, 6, 7, 8, 9, 10, 11, 12, 13];
    let packet = [0x0102_0304, 0x0506_0708, 0x090a, 0x0b0c, 0x0d];
    reports::read_packet(&bytes) == packet && reports::packet_bytes(&packet) == bytes
}

/// As many packets as there may be, then one refusal after another, each before the last one.
fn refused_reports() -> bool {
    let untouched = |number| Some((REFUSED + number, [7; TOTALS + 1], vec![7; HITS + 1]));
    let (pair, twelve) = (report_pair(), [0; 12]);
    let mut stale = pair.clone();
    stale.groups[0].clear();
    let (sheet, stale) = (sheets::pair_bytes(&pair), sheets::pair_bytes(&stale));
    let most = vec![0; MOST_PACKETS * PACKET_BYTES];
    let (most_and_broken, too_many) =
        ([&most[..], &[0; 12]].concat(), [&most[..], &[0; 13]].concat());
    let too_many_and_broken = [&too_many[..], &[0]].concat();
    let load = |packets| Load { packets, earlier: &twelve, later: &twelve };
    let short = Load { later: &[0; 11], ..load(&too_many) };
    let long = Load { earlier: &[0; 13], ..load(&too_many) };
    let other_places = Load { earlier: &[0; 8], later: &[0; 8], ..load(&[]) };
    let totals = [1_000_000, 6_000_000, 4_000_000, 1_000_000, 3, 2, 7];
    let hits = [vec![0; HITS], vec![7]].concat();
    reported(&sheet, &load(&most)) == Some((3, totals, hits))
        && reported(&sheet, &load(&most_and_broken)) == untouched(3)
        && reported(&sheet, &load(&too_many)) == untouched(2)
        && reported(&sheet, &load(&too_many_and_broken)) == untouched(2)
        && [short, long, other_places].iter().all(|load| reported(&sheet, load) == untouched(3))
        && reported(&stale, &short) == untouched(8)
        && reported(&sheet[1..], &short) == untouched(2)
}

/// 1 comes before anything is read, and touches nothing.
fn short_reports() -> bool {
    let load = Load { packets: &[], earlier: &[], later: &[] };
    let lengths = [(TOTALS - 1, HITS, calls::WORK), (TOTALS, HITS - 1, calls::WORK)];
    lengths.into_iter().chain([(TOTALS, HITS, calls::WORK - 1)]).all(|(totals, hits, work)| {
        let (mut totals, mut hits, mut work) = (vec![7; totals], vec![7; hits], vec![7; work]);
        let answer = calls::report(&[], &load, &mut totals, &mut hits, &mut work);
        encode(answer) == REFUSED + 1
            && totals.iter().all(|&total| total == 7)
            && hits.iter().all(|&hits| hits == 7)
            && work.iter().all(|&byte| byte == 7)
    })
}

pub fn table() -> Vec<(&'static str, bool)> {
    vec![
        ("a report's lines", printed_report()),
        ("a report of no packets", no_packets()),
        ("a packet's bytes", packets_in_bytes()),
        ("a report's refusals", refused_reports()),
        ("no report in too little room", short_reports()),
        ("a packet's length", sheets::WIDTH.iter().sum::<usize>() == PACKET_BYTES),
        ("as many hits as a list has rules", sheets::MOST_LIST_RULES as usize == HITS),
    ]
}

/// A report's counts are those of first matches in the lists, and what the old pair forwards
/// the new one does.
pub fn hold(random: &mut Random, packets: &[Packet]) -> Option<bool> {
    let shape = draw::shape(random);
    let pair = calls::moved(&draw::small_pair(random, &shape).order()).ok()?;
    let cell = boxes::cell_rules(&pair.groups, &pair.own);
    let bytes: Vec<u8> = packets.iter().flat_map(reports::packet_bytes).collect();
    let (mut wanted, mut new_forwarded) = (Counts::default(), 0);
    for packet in packets {
        let found = [&pair.gate, &pair.own, &cell].map(|list| boxes::first_match(list, packet));
        let [(gate, passes), (own, allows), (place, forwards)] = found.map(|found| {
            let (place, action) = found.expect("the lists are complete");
            (place as u64 + 1, action == Action::Allow)
        });
        wanted.packets += 1;
        wanted.before += if passes { gate + own } else { gate };
        wanted.after += 1 + place;
        wanted.forwarded += u64::from(passes && allows);
        new_forwarded += u64::from(forwards);
    }
    let counts = reports::counts(&pair, &bytes);
    Some(new_forwarded == wanted.forwarded && counts == Ok(wanted))
}
