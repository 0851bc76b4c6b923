//! The load report (02, W3): the rules that packets try before and after the move, and the hits
//! between two readings of the cell filter's counters.
//!
//! Every packet is sent through the old pair and through the new one, rule by rule.

use crate::model::boxes::{self, Action, Packet, Rule, FIELDS};
use crate::model::refusals::{Fault, Part, Refusal};
use crate::model::sheets::{self, PairSheet, WIDTH};

pub const PACKET_BYTES: usize = 13;
pub const MOST_PACKETS: usize = 1_000_000;
pub const READING_BYTES: usize = 4;
pub const TOTALS: usize = 6;

/// A counter that stands at its highest stands at 0 after the next hit.
const COUNTER_VALUES: u64 = 1 << 32;

/// What a report is made from beside the sheet, as bytes.
#[derive(Clone, Copy)]
pub struct Load<'b> {
    pub packets: &'b [u8],
    pub earlier: &'b [u8],
    pub later: &'b [u8],
}

#[derive(Clone, Default, PartialEq, Debug)]
pub struct Counts {
    pub packets: u64,
    pub before: u64,
    pub after: u64,
    pub forwarded: u64,
}

#[derive(Clone, PartialEq, Debug)]
pub struct Report {
    pub counts: Counts,
    /// One for each place of the cell list.
    pub hits: Vec<u64>,
}

/// The sheet has been checked; the readings are looked at before any packet.
pub fn report(pair: &PairSheet, load: &Load) -> Result<Report, Refusal> {
    let hits = hits(pair, load.earlier, load.later)?;
    let counts = counts(pair, load.packets)?;
    Ok(Report { counts, hits })
}

pub fn hits(pair: &PairSheet, earlier: &[u8], later: &[u8]) -> Result<Vec<u64>, Refusal> {
    let places = boxes::cell_rules(&pair.groups, &pair.own).len();
    let earlier = readings(earlier, places, Part::Earlier)?;
    let later = readings(later, places, Part::Later)?;
    let between = |(earlier, later)| (COUNTER_VALUES + later - earlier) % COUNTER_VALUES;
    Ok(earlier.into_iter().zip(later).map(between).collect())
}

fn readings(bytes: &[u8], places: usize, part: Part) -> Result<Vec<u64>, Refusal> {
    let (mut readings, mut rest) = (Vec::new(), bytes);
    for _ in 0..places {
        let (reading, after) = sheets::read_number(rest, READING_BYTES)
            .ok_or(Refusal::new(part, Fault::ReadingsMissing))?;
        readings.push(reading);
        rest = after;
    }
    sheets::read_end(rest, part)?;
    Ok(readings)
}

pub fn counts(pair: &PairSheet, packets: &[u8]) -> Result<Counts, Refusal> {
    let refuses = |fault| Err(Refusal::new(Part::Packets, fault));
    if packets.len() / PACKET_BYTES > MOST_PACKETS {
        return refuses(Fault::TooManyPackets);
    }
    if packets.len() % PACKET_BYTES != 0 {
        return refuses(Fault::BrokenPacket);
    }
    let (new_gate, cell) = (boxes::gate_rules(), boxes::cell_rules(&pair.groups, &pair.own));
    let mut counts = Counts::default();
    for bytes in packets.chunks(PACKET_BYTES) {
        let packet = read_packet(bytes);
        let (before, forwarded) = through([&pair.gate, &pair.own], &packet);
        let (after, _) = through([&new_gate, &cell], &packet);
        counts.packets += 1;
        counts.before += before;
        counts.after += after;
        counts.forwarded += u64::from(forwarded);
    }
    Ok(counts)
}

/// The rules tried in the first list and, if that lets the packet through, in the second; and
/// whether both let it through.
fn through(lists: [&[Rule]; 2], packet: &Packet) -> (u64, bool) {
    let (first_tries, first) = tried(lists[0], packet);
    if first == Action::Deny {
        return (first_tries, false);
    }
    let (second_tries, second) = tried(lists[1], packet);
    (first_tries + second_tries, second == Action::Allow)
}

/// The rules tried until one decides, that one among them, and what it says.
fn tried(list: &[Rule], packet: &Packet) -> (u64, Action) {
    let mut tries = 0;
    for rule in list {
        tries += 1;
        if rule.area.has(packet) {
            return (tries, rule.action);
        }
    }
    unreachable!("thirteen bytes hold no value above its field's highest, and lists are complete")
}

pub fn read_packet(bytes: &[u8]) -> Packet {
    let (mut packet, mut rest) = ([0; FIELDS], bytes);
    for field in 0..FIELDS {
        (packet[field], rest) =
            sheets::read_number(rest, WIDTH[field]).expect("the packet is whole");
    }
    packet
}

pub fn packet_bytes(packet: &Packet) -> Vec<u8> {
    (0..FIELDS).flat_map(|field| sheets::number_bytes(packet[field], WIDTH[field])).collect()
}

pub fn reading_bytes(readings: &[u64]) -> Vec<u8> {
    readings.iter().flat_map(|&reading| sheets::number_bytes(reading, READING_BYTES)).collect()
}

impl Counts {
    /// Before over after in lowest terms; none for no packets.
    pub fn gain(&self) -> Option<(u64, u64)> {
        let (before, after) = (self.before, self.after);
        let common = (self.packets > 0).then(|| common_divisor(before, after))?;
        Some((before / common, after / common))
    }

    /// As the call writes them.
    pub fn totals(&self) -> [u64; TOTALS] {
        let (numerator, denominator) = self.gain().unwrap_or((0, 0));
        [self.packets, self.before, self.after, self.forwarded, numerator, denominator]
    }
}

/// The greatest one of two numbers above 0: taking the smaller from the larger keeps it.
fn common_divisor(mut first: u64, mut second: u64) -> u64 {
    while first != second {
        match first > second {
            true => first -= second,
            false => second -= first,
        }
    }
    first
}
