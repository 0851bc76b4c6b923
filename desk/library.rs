//! The calls of the C library over slices. A refusal is its number.

use crate::rule::{Order, Packet, Ranges, Rule, Which, FIELDS, HIGHEST};
use surface::*;

#[path = "../include/foldplover.rs"]
mod surface;

pub const MOST_GATE_RULES: usize = 64;
pub const MOST_OWN_RULES: usize = 256;
/// Of a list; of the pieces of a deny; of boxes and own rules together.
pub const MOST_RULES: usize = 1_024;
pub const MOST_PACKETS: usize = 1_000_000;
pub const RECORD: usize = 27;
pub const PACKET: usize = 13;
pub const READING: usize = 4;

const PAIR_SHEET: usize = 28_742;
const WORK: usize = 53_248;
const CELL_LIST: usize = 27_650;
const GATE_LIST: usize = 29;
const ORDER_SHEET: usize = 8_644;
const A_LIST: usize = 1_730;
const B_LIST: usize = 6_914;
const NUMBERS: usize = 2 * FIELDS + 1;
const ORIGIN: usize = 3;
const TOTALS: usize = 6;
const REFUSED: u32 = 65_536;

pub const COUNT_OUTSIDE: Refusal = Refusal(2);
pub const LENGTH_WRONG: Refusal = Refusal(3);
pub const NOT_COMPLETE: Refusal = Refusal(5);
pub const TOO_MANY_PIECES: Refusal = Refusal(6);
pub const TOO_MANY_BOXES: Refusal = Refusal(7);

#[derive(Clone, Copy, PartialEq, Eq, Debug)]
pub struct Refusal(pub u32);

type Answer<T> = Result<T, Refusal>;

/// The rule of a list that decides a packet.
#[derive(Clone, Copy, PartialEq, Eq, Debug)]
pub struct Decided {
    pub place: usize,
    pub allows: bool,
}

/// Whose rule that is: a gate rule by the box of its group, or an own rule.
#[derive(Clone, Copy, PartialEq, Eq, Debug)]
pub struct Origin {
    pub decided: Decided,
    pub which: Which,
    pub rule: usize,
    pub piece: usize,
}

#[derive(Clone, Debug)]
pub struct Load {
    pub packets: u64,
    pub before: u64,
    pub after: u64,
    pub forwarded: u64,
    pub gain: Option<(u64, u64)>,
    /// One for each place of the cell list.
    pub hits: Vec<u32>,
}

pub struct Readings<'a> {
    pub earlier: &'a [u8],
    pub later: &'a [u8],
}

#[derive(Clone, Copy, PartialEq, Eq, Debug)]
pub enum Change {
    Insert(Rule),
    Delete,
    Replace(Rule),
}

#[derive(Clone, Copy, PartialEq, Eq, Debug)]
pub struct Edit {
    pub which: Which,
    pub place: usize,
    pub change: Change,
}

fn answer(number: u32) -> Answer<usize> {
    if number >= REFUSED {
        return Err(Refusal(number - REFUSED));
    }
    Ok(number as usize)
}

fn decided(number: u32) -> Answer<Decided> {
    let value = answer(number)?;
    Ok(Decided { place: value / 2, allows: value % 2 == 1 })
}

fn cut(mut bytes: Vec<u8>, length: usize) -> Vec<u8> {
    bytes.truncate(length);
    bytes
}

fn list_number(which: Which) -> u32 {
    match which {
        Which::Gate => 0,
        Which::Own => 1,
    }
}

pub fn record(rule: &Rule) -> Answer<Vec<u8>> {
    let mut numbers = [0; NUMBERS];
    numbers[..FIELDS].copy_from_slice(&rule.ranges.low);
    numbers[FIELDS..2 * FIELDS].copy_from_slice(&rule.ranges.high);
    numbers[2 * FIELDS] = rule.allows as u32;
    let mut record = vec![0; RECORD];
    // Here and below each pointer is to a live buffer of the length beside it, and no two overlap.
    answer(unsafe { foldplover_record(numbers.as_ptr(), NUMBERS, record.as_mut_ptr(), RECORD) })?;
    Ok(record)
}

pub fn rule(record: &[u8]) -> Answer<Rule> {
    let mut numbers = [0; NUMBERS];
    answer(unsafe {
        foldplover_rule(record.as_ptr(), record.len(), numbers.as_mut_ptr(), NUMBERS)
    })?;
    let mut ranges = Ranges::FULL;
    ranges.low.copy_from_slice(&numbers[..FIELDS]);
    ranges.high.copy_from_slice(&numbers[FIELDS..2 * FIELDS]);
    Ok(Rule { ranges, allows: numbers[2 * FIELDS] == 1 })
}

/// A list's bytes. A count that two bytes cannot hold is written as their highest, which is as far
/// outside every limit.
fn list(rules: &[Rule]) -> Answer<Vec<u8>> {
    let count = u16::try_from(rules.len()).unwrap_or(u16::MAX);
    let mut bytes = count.to_be_bytes().to_vec();
    for rule in rules {
        bytes.extend(record(rule)?);
    }
    Ok(bytes)
}

pub fn join(order: &Order) -> Answer<Vec<u8>> {
    let (a, b) = (list(&order.gate)?, list(&order.own)?);
    let mut sheet = vec![0; ORDER_SHEET];
    let length = answer(unsafe {
        foldplover_join(a.as_ptr(), a.len(), b.as_ptr(), b.len(), sheet.as_mut_ptr(), ORDER_SHEET)
    })?;
    Ok(cut(sheet, length))
}

/// The A list and the B list of an order sheet.
pub fn split(order: &[u8]) -> Answer<(Vec<u8>, Vec<u8>)> {
    let (mut a, mut b) = (vec![0; A_LIST], vec![0; B_LIST]);
    let length = answer(unsafe {
        let (a, b) = (a.as_mut_ptr(), b.as_mut_ptr());
        foldplover_split(order.as_ptr(), order.len(), a, A_LIST, b, B_LIST)
    })?;
    Ok((cut(a, length), cut(b, order.len() - length)))
}

pub fn move_order(order: &[u8]) -> Answer<Vec<u8>> {
    let (mut sheet, mut work) = (vec![0; PAIR_SHEET], vec![0; WORK]);
    let length = answer(unsafe {
        let (sheet, work) = (sheet.as_mut_ptr(), work.as_mut_ptr());
        foldplover_move(order.as_ptr(), order.len(), sheet, PAIR_SHEET, work, WORK)
    })?;
    Ok(cut(sheet, length))
}

/// The pair sheet after one edit.
pub fn edit(sheet: &[u8], edit: &Edit) -> Answer<Vec<u8>> {
    let used = sheet.len();
    let (mut sheet, mut work) = (sheet.to_vec(), vec![0; WORK]);
    sheet.resize(used.max(PAIR_SHEET), 0);
    let (bytes, length, work) = (sheet.as_mut_ptr(), sheet.len(), work.as_mut_ptr());
    let (list, place) = (list_number(edit.which), edit.place);
    let new = match edit.change {
        Change::Delete => unsafe {
            foldplover_delete(bytes, length, used, list, place, work, WORK)
        },
        Change::Insert(rule) => {
            let record = record(&rule)?;
            let put = record.as_ptr();
            unsafe { foldplover_insert(bytes, length, used, list, place, put, RECORD, work, WORK) }
        }
        Change::Replace(rule) => {
            let record = record(&rule)?;
            let put = record.as_ptr();
            unsafe { foldplover_replace(bytes, length, used, list, place, put, RECORD, work, WORK) }
        }
    };
    let new = answer(new)?;
    Ok(cut(sheet, new))
}

pub fn check(sheet: &[u8]) -> Answer<()> {
    let mut work = vec![0; WORK];
    answer(unsafe { foldplover_check(sheet.as_ptr(), sheet.len(), work.as_mut_ptr(), WORK) })?;
    Ok(())
}

pub fn gate_list(sheet: &[u8]) -> Answer<Vec<u8>> {
    let (mut list, mut work) = (vec![0; GATE_LIST], vec![0; WORK]);
    let length = answer(unsafe {
        let (list, work) = (list.as_mut_ptr(), work.as_mut_ptr());
        foldplover_gate_list(sheet.as_ptr(), sheet.len(), list, GATE_LIST, work, WORK)
    })?;
    Ok(cut(list, length))
}

pub fn cell_list(sheet: &[u8]) -> Answer<Vec<u8>> {
    let (mut list, mut work) = (vec![0; CELL_LIST], vec![0; WORK]);
    let length = answer(unsafe {
        let (list, work) = (list.as_mut_ptr(), work.as_mut_ptr());
        foldplover_cell_list(sheet.as_ptr(), sheet.len(), list, CELL_LIST, work, WORK)
    })?;
    Ok(cut(list, length))
}

pub fn lookup(packet: &Packet, list: &[u8]) -> Answer<Decided> {
    let &[src, dst, sport, dport, proto] = packet;
    decided(unsafe { foldplover_lookup(src, dst, sport, dport, proto, list.as_ptr(), list.len()) })
}

pub fn origin(packet: &Packet, sheet: &[u8]) -> Answer<Origin> {
    let &[src, dst, sport, dport, proto] = packet;
    let (mut found, mut work) = ([0; ORIGIN], vec![0; WORK]);
    let decided = decided(unsafe {
        let (bytes, length) = (sheet.as_ptr(), sheet.len());
        let (found, work) = (found.as_mut_ptr(), work.as_mut_ptr());
        foldplover_origin(src, dst, sport, dport, proto, bytes, length, found, ORIGIN, work, WORK)
    })?;
    let which = if found[0] == list_number(Which::Gate) { Which::Gate } else { Which::Own };
    Ok(Origin { decided, which, rule: found[1] as usize, piece: found[2] as usize })
}

pub fn report(sheet: &[u8], packets: &[u8], readings: &Readings) -> Answer<Load> {
    let (mut totals, mut hits) = ([0; TOTALS], vec![0; MOST_RULES]);
    let mut work = vec![0; WORK];
    let places = answer(unsafe {
        foldplover_report(
            sheet.as_ptr(),
            sheet.len(),
            packets.as_ptr(),
            packets.len(),
            readings.earlier.as_ptr(),
            readings.earlier.len(),
            readings.later.as_ptr(),
            readings.later.len(),
            totals.as_mut_ptr(),
            TOTALS,
            hits.as_mut_ptr(),
            MOST_RULES,
            work.as_mut_ptr(),
            WORK,
        )
    })?;
    hits.truncate(places);
    let [packets, before, after, forwarded, numerator, denominator] = totals;
    let gain = (denominator > 0).then_some((numerator, denominator));
    Ok(Load { packets, before, after, forwarded, gain, hits })
}

/// How many bytes a field has.
fn width(field: usize) -> usize {
    4 - HIGHEST[field].leading_zeros() as usize / 8
}

pub fn packet_bytes(packet: &Packet) -> Vec<u8> {
    let bytes = packet.iter().enumerate();
    bytes.flat_map(|(field, value)| value.to_be_bytes()[4 - width(field)..].to_vec()).collect()
}

/// The packet in these bytes, of which there are as many as a packet has.
pub fn packet(bytes: &[u8]) -> Packet {
    let mut packet = [0; FIELDS];
    let mut rest = bytes.iter();
    for (field, value) in packet.iter_mut().enumerate() {
        let own = rest.by_ref().take(width(field));
        *value = own.fold(0, |value, &byte| value << 8 | u32::from(byte));
    }
    packet
}
