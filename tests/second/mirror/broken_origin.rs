//! The origin with one fault each, named as in broken.rs: what a hurried reading of W1 could bring
//! about.

use crate::mirror::broken::{accepted, refused, shows};
use crate::mirror::broken_cut;
use crate::model::boxes::{self, denies, Group, Packet, HIGHEST};
use crate::model::calls::{self, encode, ORIGIN_NUMBERS, WORK};
use crate::model::sheets::{self, PairSheet};

pub fn origin(mut packet: Packet, sheet: &[u8], numbers: &mut [u32], work: &mut [u8]) -> u32 {
    let (numbers_before, work_before) = (numbers.to_vec(), work.to_vec());
    // Three numbers are twelve bytes.
    if shows("origin-wants-12-numbers") && numbers.len() < 12 {
        return refused(1);
    }
    if shows("origin-cuts-values") {
        packet.iter_mut().zip(HIGHEST).for_each(|(value, highest)| *value &= highest);
    }
    let answer = encode(calls::origin(&packet, sheet, numbers, work));
    if answer == refused(1) {
        return short_confused(&packet, sheet, numbers, work);
    }
    let answer = refusal_confused(answer, &packet, sheet, numbers);
    spoil_work(answer, &work_before, work);
    spoil_numbers(answer, numbers);
    match sheets::read_pair(sheet) {
        Ok(pair) if accepted(answer) && numbers[0] == 0 => {
            gate_confused(answer, &packet, &pair, numbers)
        }
        Ok(_) if accepted(answer) => own_confused(answer, numbers, &numbers_before),
        _ => answer,
    }
}

/// Where too few numbers are lent, or too little work.
fn short_confused(packet: &Packet, sheet: &[u8], numbers: &mut [u32], work: &mut [u8]) -> u32 {
    if work.len() < WORK {
        return refused(1);
    }
    if shows("origin-clears-work-on-1") {
        work[..WORK].fill(0);
    }
    if shows("origin-checks-before-1") {
        let checked = encode(calls::check(sheet, work));
        return if accepted(checked) { refused(1) } else { checked };
    }
    if shows("origin-counts-bytes") && 4 * numbers.len() >= ORIGIN_NUMBERS {
        let mut three = [0; ORIGIN_NUMBERS];
        let answer = encode(calls::origin(packet, sheet, &mut three, work));
        numbers.copy_from_slice(&three[..numbers.len()]);
        return answer;
    }
    refused(1)
}

fn refusal_confused(answer: u32, packet: &Packet, sheet: &[u8], numbers: &mut [u32]) -> u32 {
    let above = packet.iter().zip(HIGHEST).any(|(&value, highest)| value > highest);
    if shows("origin-5-before-check") && above {
        return refused(5);
    }
    if shows("origin-5-before-8") && above && answer == refused(8) {
        return refused(5);
    }
    if shows("origin-answers-stale") && answer == refused(8) {
        return sheets::read_pair(sheet)
            .map_or(answer, |pair| as_it_stands(packet, &pair, numbers));
    }
    if shows("origin-takes-groups-of-before") && answer == refused(8) {
        return broken_cut::moved_before(sheet)
            .map_or(answer, |pair| as_it_stands(packet, &pair, numbers));
    }
    if shows("origin-ignores-left-over") && answer == refused(3) {
        let mut work = vec![0; WORK];
        let mut ends = (sheet.len().saturating_sub(60)..sheet.len()).rev();
        let whole = ends.find(|&end| calls::check(&sheet[..end], &mut work).is_ok());
        let again = |end| encode(calls::origin(packet, &sheet[..end], numbers, &mut work));
        return whole.map_or(answer, again);
    }
    answer
}

/// By the groups of the sheet, whatever A gives.
fn as_it_stands(packet: &Packet, pair: &PairSheet, numbers: &mut [u32]) -> u32 {
    match boxes::first_origin(&pair.gate, &pair.groups, &pair.own, packet) {
        Some((place, action, origin)) => {
            numbers[..ORIGIN_NUMBERS].copy_from_slice(&calls::origin_numbers(origin));
            2 * place as u32 + action.number() as u32
        }
        None => refused(5),
    }
}

fn gate_confused(answer: u32, packet: &Packet, pair: &PairSheet, numbers: &mut [u32]) -> u32 {
    let rule = numbers[1] as usize;
    if shows("origin-group-number") {
        numbers[1] = groups_before(pair, rule).count() as u32;
    }
    if shows("origin-skips-empty-groups") {
        let filled = groups_before(pair, rule).filter(|group| !group.is_empty()).count();
        numbers[1] = denies(&pair.gate).nth(filled).unwrap_or(rule) as u32;
    }
    if shows("origin-last-deny") {
        let last = denies(&pair.gate).filter(|&place| pair.gate[place].area.has(packet)).last();
        numbers[1] = last.unwrap_or(rule) as u32;
    }
    let number = numbers[2];
    if shows("origin-box-over-all-groups") {
        numbers[2] = answer / 2;
    }
    if shows("origin-box-in-a-byte") {
        numbers[2] = number % 256;
    }
    match shows("origin-place-in-group") {
        true => 2 * number,
        false => answer,
    }
}

fn groups_before(pair: &PairSheet, rule: usize) -> impl Iterator<Item = &Group> {
    let earlier = denies(&pair.gate).zip(&pair.groups).take_while(move |(place, _)| *place < rule);
    earlier.map(|(_, group)| group)
}

fn own_confused(answer: u32, numbers: &mut [u32], before: &[u32]) -> u32 {
    if shows("origin-own-with-boxes") {
        numbers[1] = answer / 2;
    }
    if shows("origin-own-leaves-box") {
        numbers[2] = before[2];
    }
    match shows("origin-action-left-out") {
        true => answer - answer % 2,
        false => answer,
    }
}

fn spoil_numbers(answer: u32, numbers: &mut [u32]) {
    let written = shows("origin-written-on-5") && answer == refused(5)
        || shows("origin-written-on-refusal") && !accepted(answer) && answer != refused(5);
    if written {
        numbers[..ORIGIN_NUMBERS].fill(0);
    }
    if shows("origin-fourth-number") && accepted(answer) && numbers.len() > ORIGIN_NUMBERS {
        numbers[ORIGIN_NUMBERS] = 0;
    }
}

fn spoil_work(answer: u32, before: &[u8], work: &mut [u8]) {
    let left = shows("origin-leaves-work")
        || shows("origin-leaves-work-on-5") && answer == refused(5)
        || shows("origin-leaves-work-on-8") && answer == refused(8);
    if left {
        work.copy_from_slice(before);
    }
}
