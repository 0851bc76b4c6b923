//! The stream of cases for the test program written in the product's language, and the lines
//! that program has to print for it. README.md of tests/second gives the format.

use crate::draw::damage::{self, Layout};
use crate::draw::random::Random;
use crate::draw::{self, DrawnEdit, Kind, Pair, Shape};
use crate::model::boxes::Action;
use crate::model::calls::{self, encode, REFUSED};
use crate::model::rows;
use crate::model::sheets::{self, number_bytes, RECORD_BYTES};

const MOST_EDITS: u64 = 12;

pub fn cases(count: u64, seed: u64) -> Vec<u8> {
    let rows = rows::rows().into_iter().map(|row| row.order);
    let mut stream = Vec::new();
    for (case, row) in (0..count).zip(rows.map(Some).chain(std::iter::repeat(None))) {
        let mut random = Random::of_case(seed, case);
        let shape = draw::shape(&mut random);
        let order = row.unwrap_or_else(|| drawn_order(&mut random, &shape));
        stream.extend(number_bytes(order.len() as u64, 2));
        stream.extend(&order);
        stream.extend(drawn_edits(&mut random, &shape, &order));
    }
    stream.extend(number_bytes(0, 2));
    stream
}

fn drawn_order(random: &mut Random, shape: &Shape) -> Vec<u8> {
    match random.below(100) {
        0..=9 => {
            let Pair { gate, own } = draw::small_pair(random, shape);
            let layout = Layout::of_sections(&[gate.len(), own.len()]);
            let order = sheets::order_bytes(&gate, &own);
            let bytes = damage::damaged(random, &layout, &order);
            // A length of zero would end the stream.
            if bytes.is_empty() {
                order
            } else {
                bytes
            }
        }
        10..=12 => draw::lattice_pair(random, shape).order(),
        13..=16 => {
            let mut pair = draw::lattice_pair(random, shape);
            draw::cover(&mut pair);
            pair.order()
        }
        17 => draw::counted_pair(random, 64, 3).order(),
        _ => draw::small_pair(random, shape).order(),
    }
}

/// At least one edit, so that the sum shows the bytes of every accepted move.
fn drawn_edits(random: &mut Random, shape: &Shape, order: &[u8]) -> Vec<u8> {
    let Ok(pair) = calls::moved(order) else {
        return number_bytes(0, 2);
    };
    let mut counts = [pair.gate.len(), pair.own.len()];
    let edits = random.within(1, MOST_EDITS);
    let mut bytes = number_bytes(edits, 2);
    let covered = pair.gate[0] == rows::full(Action::Allow);
    for step in 0..edits {
        let edit = match covered && step == 0 {
            true => draw::uncovering(),
            false => draw::edit(random, shape, counts),
        };
        bytes.extend(edit_bytes(&edit));
        let count = &mut counts[edit.list as usize];
        match edit.kind {
            Kind::Insert => *count += 1,
            Kind::Delete => *count = (*count - 1).max(1),
            Kind::Replace => (),
        }
    }
    bytes
}

fn edit_bytes(edit: &DrawnEdit) -> Vec<u8> {
    let kind = match edit.kind {
        Kind::Insert => 0,
        Kind::Delete => 1,
        Kind::Replace => 2,
    };
    let mut bytes = vec![kind, edit.list as u8];
    bytes.extend(number_bytes(edit.place, 2));
    if edit.kind != Kind::Delete {
        bytes.extend(&edit.record);
    }
    bytes
}

/// What a right program prints for the stream; `None` if the stream itself is not whole.
pub fn expected(stream: &[u8]) -> Option<String> {
    let (mut lines, mut rest) = (String::new(), stream);
    loop {
        let (length, after) = sheets::read_number(rest, 2)?;
        if length == 0 {
            return Some(lines);
        }
        let (order, after) = after.split_at_checked(length as usize)?;
        let (edits, after) = read_edits(after)?;
        lines.push_str(&expected_of(order, &edits));
        rest = after;
    }
}

fn read_edits(bytes: &[u8]) -> Option<(Vec<DrawnEdit>, &[u8])> {
    let (count, mut rest) = sheets::read_number(bytes, 2)?;
    let mut edits = Vec::new();
    for _ in 0..count {
        let (&[kind, list], after) = rest.split_first_chunk()?;
        let (place, after) = sheets::read_number(after, 2)?;
        let kind = *[Kind::Insert, Kind::Delete, Kind::Replace].get(usize::from(kind))?;
        let length = if kind == Kind::Delete { 0 } else { RECORD_BYTES };
        let (record, after) = after.split_at_checked(length)?;
        edits.push(DrawnEdit { kind, list: u64::from(list), place, record: record.to_vec() });
        rest = after;
    }
    Some((edits, rest))
}

fn expected_of(order: &[u8], edits: &[DrawnEdit]) -> String {
    let mut sheet = vec![0; calls::LARGEST_PAIR_SHEET];
    let mut work = vec![0; calls::WORK];
    let mut used = encode(calls::move_pair(order, &mut sheet, &mut work));
    let mut lines = format!("move {used}\n");
    if used >= REFUSED {
        return lines;
    }
    for edit in edits {
        let answer = encode(calls::edit(&mut sheet, used.into(), &edit.edit(), &mut work));
        if answer < REFUSED {
            used = answer;
        }
        lines.push_str(&format!("edit {answer} sum {}\n", sum(&sheet[..used as usize])));
    }
    lines
}

/// Each byte by its position from 1, modulo 2^32.
fn sum(bytes: &[u8]) -> u64 {
    let weighted = (1u64..).zip(bytes).map(|(position, &byte)| position * u64::from(byte));
    weighted.sum::<u64>() % (1 << 32)
}
