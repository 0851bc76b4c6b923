//! Whose rule it was (02, W1): packets to ask for, and origins on sheets that the check accepts,
//! held against lookups in the lists that the library itself writes.

use crate::draw::packets;
use crate::draw::random::Random;
use crate::driver::runs::is_about_buffers;
use crate::driver::Driver;
use crate::model::boxes::{Packet, PacketBox};
use crate::model::calls::{encode, Answer, REFUSED};
use crate::model::sheets::{self, PairSheet, COUNT_BYTES, RECORD_BYTES};

/// A packet for a sheet that need not read well.
pub fn packet_for(random: &mut Random, sheet: &[u8]) -> Packet {
    match sheets::read_pair(sheet) {
        Ok(pair) => packet_of(random, &pair),
        Err(_) => packets::near(random, &PacketBox::full()),
    }
}

/// Mostly near a box of some group, a gate rule or an own rule.
pub fn packet_of(random: &mut Random, pair: &PairSheet) -> Packet {
    let area = area_of(random, pair);
    match random.below(8) {
        0 => packets::any(random),
        1 => packets::mixed(random, &pair.gate),
        _ => packets::near(random, area),
    }
}

fn area_of<'p>(random: &mut Random, pair: &'p PairSheet) -> &'p PacketBox {
    let boxes: Vec<&PacketBox> = pair.groups.iter().flatten().collect();
    match (random.below(4), boxes.is_empty()) {
        (0 | 1, false) => random.pick(&boxes),
        (2, _) => &pair.gate[random.index(pair.gate.len())].area,
        _ => &pair.own[random.index(pair.own.len())].area,
    }
}

/// The lists that the origins of a sheet speak of, as the library wrote them.
pub struct Written {
    pub a: Vec<u8>,
    pub b: Vec<u8>,
    pub cell: Vec<u8>,
}

impl Written {
    /// None where a list's buffer was drawn too short.
    pub fn of(driver: &mut Driver, sheet: &[u8]) -> Option<Written> {
        let end = |from: usize| {
            let count = u16::from_be_bytes([sheet[from], sheet[from + 1]]);
            from + COUNT_BYTES + RECORD_BYTES * usize::from(count)
        };
        let (a, b) = driver.split(&sheet[..end(end(0))])?;
        let (answer, cell) = driver.cell_list(sheet);
        answer.is_ok().then_some(Written { a, b, cell })
    }
}

/// Origins on a sheet that the check accepts, as a move or an edit wrote it.
pub fn hold(driver: &mut Driver, sheet: &[u8], count: u64) {
    if let Some(lists) = Written::of(driver, sheet) {
        hold_to_lists(driver, sheet, &lists, count);
    }
}

/// The same where the lists are there already.
pub fn hold_to_lists(driver: &mut Driver, sheet: &[u8], lists: &Written, count: u64) {
    let pair = sheets::read_pair(sheet).expect("a sheet that the check accepts reads well");
    for _ in 0..count {
        let packet = packet_of(&mut driver.random, &pair);
        let (answer, numbers) = driver.origin(&packet, sheet);
        if is_about_buffers(answer) {
            continue;
        }
        let looked_up =
            [&lists.a, &lists.b, &lists.cell].map(|list| encode(driver.lookup(&packet, list)));
        let held = agrees(answer, &numbers, looked_up) && works_out(answer, &numbers, &pair);
        driver.demand(held, &format!("the origin of {packet:?}"), &[("sheet", sheet)]);
    }
}

/// The answer is the lookup's in the cell list. A gate rule named is the one that drops the packet
/// in A; an own rule is the one found in B, and A lets the packet through to it.
fn agrees(answer: Answer, numbers: &[u32], [in_a, in_b, in_cell]: [u32; 3]) -> bool {
    let same_rule = match (answer.map(|value| value as u32), numbers) {
        (Ok(_), [0, place, ..]) => in_a == 2 * place,
        (Ok(value), [1, place, 0, ..]) => {
            in_a < REFUSED && in_a % 2 == 1 && in_b == 2 * place + value % 2
        }
        (Ok(_), _) => false,
        (Err(_), _) => in_a == REFUSED + 5,
    };
    same_rule && encode(answer) == in_cell
}

/// The place in the cell list can be worked out again from the origin: so many boxes and own rules
/// stand before the one it names.
fn works_out(answer: Answer, numbers: &[u32], pair: &PairSheet) -> bool {
    let Ok(value) = answer else {
        return true;
    };
    let (place, number) = (numbers[1] as usize, numbers[2] as usize);
    let (groups_before, rest) = match numbers[0] {
        0 => (pair.gate[..place].iter().filter(|rule| !rule.allows()).count(), number),
        _ => (pair.groups.len(), place),
    };
    let boxes_before: usize = pair.groups[..groups_before].iter().map(Vec::len).sum();
    value / 2 == (boxes_before + rest) as u64
}
