//! The report with one fault each, named as in broken.rs: what a hurried reading of W3 could bring
//! about.

use crate::mirror::broken::{accepted, refused, shows};
use crate::model::boxes::{self, Action, Packet, Rule};
use crate::model::calls::{self, encode, HITS, WORK};
use crate::model::reports::{
    self, Counts, Load, MOST_PACKETS, PACKET_BYTES, READING_BYTES, TOTALS,
};
use crate::model::sheets::{self, PairSheet, WIDTH};

pub fn report(
    sheet: &[u8],
    load: Load,
    totals: &mut [u64],
    hits: &mut [u32],
    work: &mut [u8],
) -> u32 {
    let (totals_before, hits_before, work_before) = (totals.to_vec(), hits.to_vec(), work.to_vec());
    // Six totals are 48 bytes.
    if shows("report-wants-48-totals") && totals.len() < 48 {
        return refused(1);
    }
    let pair = sheets::read_pair(sheet).ok();
    let taken = Taken::of(&load, pair.as_ref().map_or(0, places));
    let answer = encode(calls::report(sheet, &taken.load(), totals, hits, work));
    if answer == refused(1) {
        return short_confused(sheet, &load, totals, hits, work);
    }
    let Some(pair) = pair else {
        return answer;
    };
    let mut answer = order_confused(answer, &pair, &load);
    if shows("report-2-at-most") && accepted(answer) && whole_packets(&load) == MOST_PACKETS {
        totals.copy_from_slice(&totals_before);
        hits.copy_from_slice(&hits_before);
        answer = refused(2);
    }
    if shows("report-answers-stale") && answer == refused(8) {
        answer = as_it_stands(&pair, &load, totals, hits);
    }
    match accepted(answer) {
        true => {
            counts_confused(&pair, load.packets, totals);
            gain_confused(totals);
            hits_confused(answer as usize, &load, hits, &hits_before);
        }
        false => write_refused(&pair, &load, totals, hits),
    }
    spoil_work(answer, &work_before, work);
    match shows("report-answers-boxes") && accepted(answer) {
        true => answer - pair.own.len() as u32,
        false => answer,
    }
}

fn whole_packets(load: &Load) -> usize {
    load.packets.len() / PACKET_BYTES
}

fn is_broken(load: &Load) -> bool {
    load.packets.len() % PACKET_BYTES != 0
}

fn places(pair: &PairSheet) -> usize {
    boxes::cell_rules(&pair.groups, &pair.own).len()
}

fn readings_fit(pair: &PairSheet, load: &Load) -> bool {
    [load.earlier, load.later].iter().all(|bytes| bytes.len() == READING_BYTES * places(pair))
}

/// The inputs as the fault takes them.
struct Taken {
    packets: Vec<u8>,
    earlier: Vec<u8>,
    later: Vec<u8>,
}

impl Taken {
    fn of(load: &Load, places: usize) -> Taken {
        let [packets, earlier, later] =
            [load.packets, load.earlier, load.later].map(|bytes| bytes.to_vec());
        let mut taken = Taken { packets, earlier, later };
        if shows("report-packets-little-endian") {
            taken.packets.chunks_exact_mut(PACKET_BYTES).for_each(turn_fields);
        }
        if shows("report-drops-broken-packet") {
            taken.packets.truncate(whole_packets(load) * PACKET_BYTES);
        }
        taken.confuse_readings(READING_BYTES * places);
        taken
    }

    fn confuse_readings(&mut self, end: usize) {
        if shows("report-readings-little-endian") {
            self.earlier.chunks_mut(READING_BYTES).for_each(<[u8]>::reverse);
            self.later.chunks_mut(READING_BYTES).for_each(<[u8]>::reverse);
        }
        if shows("report-earlier-less-later") {
            std::mem::swap(&mut self.earlier, &mut self.later);
        }
        if shows("report-takes-longer-readings") {
            self.earlier.truncate(end);
            self.later.truncate(end);
        }
        if shows("report-tests-earlier-only") {
            self.later.resize(end, 0);
        }
    }

    fn load(&self) -> Load<'_> {
        Load { packets: &self.packets, earlier: &self.earlier, later: &self.later }
    }
}

fn turn_fields(packet: &mut [u8]) {
    let mut start = 0;
    for width in WIDTH {
        packet[start..start + width].reverse();
        start += width;
    }
}

/// Where too few totals or hits are lent, or too little work.
fn short_confused(
    sheet: &[u8],
    load: &Load,
    totals: &mut [u64],
    hits: &mut [u32],
    work: &mut [u8],
) -> u32 {
    if work.len() < WORK {
        return refused(1);
    }
    if shows("report-clears-work-on-1") {
        work[..WORK].fill(0);
    }
    let taken = shows("report-takes-5-totals") && totals.len() == TOTALS - 1
        || shows("report-takes-1023-hits") && hits.len() == HITS - 1;
    if !taken {
        return refused(1);
    }
    let (mut six, mut all) = (totals.to_vec(), hits.to_vec());
    six.resize(totals.len().max(TOTALS), 0);
    all.resize(hits.len().max(HITS), 0);
    let answer = encode(calls::report(sheet, load, &mut six, &mut all, work));
    totals.copy_from_slice(&six[..totals.len()]);
    hits.copy_from_slice(&all[..hits.len()]);
    answer
}

/// Refusals in another order. The sheet reads well.
fn order_confused(answer: u32, pair: &PairSheet, load: &Load) -> u32 {
    let stale = answer == refused(6) || answer == refused(8);
    let too_many = whole_packets(load) > MOST_PACKETS;
    if shows("report-readings-before-check") && stale && !readings_fit(pair, load) {
        return refused(3);
    }
    if shows("report-packets-before-check") && stale && is_broken(load) {
        return refused(3);
    }
    if shows("report-2-before-readings") && answer == refused(3) && too_many {
        return refused(2);
    }
    match shows("report-3-before-2") && answer == refused(2) && is_broken(load) {
        true => refused(3),
        false => answer,
    }
}

/// By the groups of the sheet, whatever A gives.
fn as_it_stands(pair: &PairSheet, load: &Load, totals: &mut [u64], hits: &mut [u32]) -> u32 {
    let report = reports::report(pair, load);
    if let Ok(report) = &report {
        totals[..TOTALS].copy_from_slice(&report.counts.totals());
        hits[..HITS].fill(0);
        hits.iter_mut().zip(&report.hits).for_each(|(hits, &counted)| *hits = counted as u32);
    }
    encode(report.map(|report| report.hits.len() as u64))
}

fn place_of(list: &[Rule], packet: &Packet) -> u64 {
    boxes::first_match(list, packet).map_or(0, |(place, _)| place as u64)
}

fn counts_confused(pair: &PairSheet, packets: &[u8], totals: &mut [u64]) {
    let packets = packets.chunks_exact(PACKET_BYTES).map(reports::read_packet);
    let dropped = |packet: &Packet| {
        boxes::first_match(&pair.gate, packet).is_some_and(|(_, action)| action == Action::Deny)
    };
    let passed = || packets.clone().filter(|packet| !dropped(packet)).count() as u64;
    let boxes = (places(pair) - pair.own.len()) as u64;
    if shows("report-tries-cell-when-dropped") {
        let tries = |packet: Packet| place_of(&pair.own, &packet) + 1;
        totals[1] += packets.clone().filter(dropped).map(tries).sum::<u64>();
    }
    if shows("report-before-by-places") {
        totals[1] -= totals[0] + passed();
    }
    if shows("report-after-without-gate") {
        totals[2] -= totals[0];
    }
    if shows("report-after-without-boxes") {
        totals[2] -= boxes * passed();
    }
    if shows("report-forwarded-by-gate") {
        totals[3] = passed();
    }
    // Both gain numbers follow what was counted; a fault may have counted nothing.
    let [packets, before, after, forwarded] = [totals[0], totals[1], totals[2], totals[3]];
    if before > 0 && after > 0 {
        let counts = Counts { packets, before, after, forwarded };
        totals[..TOTALS].copy_from_slice(&counts.totals());
    }
}

fn gain_confused(totals: &mut [u64]) {
    if shows("report-gain-not-reduced") {
        totals.copy_within(1..3, 4);
    }
    if shows("report-gain-upside-down") {
        totals.swap(4, 5);
    }
    if shows("report-gain-1-for-none") && totals[0] == 0 {
        (totals[4], totals[5]) = (1, 1);
    }
    if shows("report-gain-0-for-none") && totals[0] == 0 {
        totals[5] = 1;
    }
    if shows("report-seventh-total") && totals.len() > TOTALS {
        totals[TOTALS] = 0;
    }
}

fn hits_confused(places: usize, load: &Load, hits: &mut [u32], before: &[u32]) {
    if shows("report-hits-saturate") {
        let both = load.earlier.chunks(READING_BYTES).zip(load.later.chunks(READING_BYTES));
        for (hits, (earlier, later)) in hits.iter_mut().zip(both) {
            if earlier > later {
                *hits = 0;
            }
        }
    }
    if shows("report-hits-not-cleared") {
        hits[places..HITS].copy_from_slice(&before[places..HITS]);
    }
    if shows("report-hits-cleared-too-far") && hits.len() > HITS {
        hits[HITS] = 0;
    }
}

/// What was worked out before the refusal, left in the outputs. The sheet reads well.
fn write_refused(pair: &PairSheet, load: &Load, totals: &mut [u64], hits: &mut [u32]) {
    if shows("report-hits-before-packets") && readings_fit(pair, load) {
        hits[..HITS].fill(0);
    }
    if shows("report-totals-before-broken") && is_broken(load) {
        totals[0] = whole_packets(load) as u64;
    }
}

fn spoil_work(answer: u32, before: &[u8], work: &mut [u8]) {
    let left = shows("report-leaves-work")
        || shows("report-leaves-work-on-2") && answer == refused(2)
        || shows("report-leaves-work-on-3") && answer == refused(3);
    if left {
        work.copy_from_slice(before);
    }
}
