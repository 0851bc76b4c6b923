//! Damaged sheets and lists: every kind of fault, in every place it can stand.

use crate::draw;
use crate::draw::random::Random;
use crate::model::boxes::FIELDS;
use crate::model::sheets::{self, BOX_BYTES, COUNT_BYTES, RECORD_BYTES};

/// Where the counts of sections, the counts of groups, the records and the boxes begin.
#[derive(Default)]
pub struct Layout {
    section_counts: Vec<usize>,
    group_counts: Vec<usize>,
    records: Vec<usize>,
    boxes: Vec<usize>,
    lasts: Vec<usize>,
    own: u64,
    length: usize,
}

impl Layout {
    /// An order sheet has two sections, a list one.
    pub fn of_sections(counts: &[usize]) -> Layout {
        let mut layout = Layout::default();
        for &count in counts {
            layout.section_count();
            for _ in 0..count {
                layout.records.push(layout.length);
                layout.length += RECORD_BYTES;
            }
            layout.lasts.push(layout.length - RECORD_BYTES);
            layout.own = count as u64;
        }
        layout
    }

    pub fn of_pair(pair: &sheets::PairSheet) -> Layout {
        let mut layout = Layout::of_sections(&[pair.gate.len(), pair.own.len()]);
        layout.section_count();
        for group in &pair.groups {
            layout.group_counts.push(layout.length);
            layout.length += COUNT_BYTES;
            for _ in group {
                layout.boxes.push(layout.length);
                layout.length += BOX_BYTES;
            }
        }
        layout
    }

    fn section_count(&mut self) {
        self.section_counts.push(self.length);
        self.length += COUNT_BYTES;
    }

    /// A place where something begins or ends, drawn kind by kind so that rare ones are met.
    fn joint(&self, random: &mut Random) -> usize {
        let sections = &self.section_counts;
        let kinds = [sections, sections, &self.group_counts, &self.records, &self.boxes];
        let kind = random.pick(&kinds);
        match random.chance(10) || kind.is_empty() {
            true => self.length,
            false => random.pick(kind) + random.pick(&[0, COUNT_BYTES]),
        }
    }
}

type Damage = fn(&mut Random, &Layout, &mut Vec<u8>);

const DAMAGES: [Damage; 11] = [
    cut_short,
    cut_short,
    cut_short,
    leave_over,
    change_count,
    change_group_total,
    spoil_rule,
    spoil_box,
    narrow_last,
    change_byte,
    change_group_count,
];

/// One fault mostly; two or three, so that the first one has to decide, now and then.
pub fn damaged(random: &mut Random, layout: &Layout, sheet: &[u8]) -> Vec<u8> {
    let mut bytes = sheet.to_vec();
    for _ in 0..random.pick(&[1, 1, 1, 2, 2, 3, 4]) {
        random.pick(&DAMAGES)(random, layout, &mut bytes);
    }
    // Left-over bytes are looked at last, so any other fault has to win over them.
    if random.chance(20) {
        leave_over(random, layout, &mut bytes);
    }
    bytes
}

fn cut_short(random: &mut Random, layout: &Layout, bytes: &mut Vec<u8>) {
    let joint = layout.joint(random) + random.pick(&[0, 0, 1, 2]);
    bytes.truncate(joint.saturating_sub(random.pick(&[0, 0, 1])));
}

fn leave_over(random: &mut Random, _: &Layout, bytes: &mut Vec<u8>) {
    let length = random.pick(&[1, 2, 26, 27, 29, 60]);
    match random.chance(50) {
        true => bytes.extend(random.bytes(length)),
        false => bytes.extend(vec![0; length]),
    }
}

fn change_count(random: &mut Random, layout: &Layout, bytes: &mut Vec<u8>) {
    let counts = [&layout.section_counts[..], &layout.group_counts].concat();
    let place = random.pick(&counts);
    let Some((count, _)) = bytes.get(place..).and_then(|at| sheets::read_number(at, COUNT_BYTES))
    else {
        return;
    };
    let near = [count + 1, count.saturating_sub(1), 0, 1, 64, 65, 256, 257, 1_024, 1_025, 65_535];
    write_count(bytes, place, random.pick(&near));
}

/// The running total with B's count just at or just above the limit of 7.
fn change_group_total(random: &mut Random, layout: &Layout, bytes: &mut Vec<u8>) {
    if !layout.group_counts.is_empty() {
        let place = random.pick(&layout.group_counts);
        let total = random.pick(&[1_024, 1_025, 1_026, 65_535 + layout.own]);
        write_count(bytes, place, total.saturating_sub(layout.own));
    }
}

/// The number of groups, which has to be A's number of deny rules.
fn change_group_count(random: &mut Random, layout: &Layout, bytes: &mut Vec<u8>) {
    if let Some(&place) = layout.section_counts.get(2) {
        let right = layout.group_counts.len() as u64;
        write_count(bytes, place, random.pick(&[right + 1, right.saturating_sub(1), 0, 256]));
    }
}

fn write_count(bytes: &mut [u8], place: usize, count: u64) {
    if let Some(at) = bytes.get_mut(place..place + COUNT_BYTES) {
        at.copy_from_slice(&sheets::number_bytes(count, COUNT_BYTES));
    }
}

fn spoil_rule(random: &mut Random, layout: &Layout, bytes: &mut Vec<u8>) {
    let place = random.pick(&layout.records);
    if let Some(record) = bytes.get_mut(place..place + RECORD_BYTES) {
        draw::spoil_record(random, record);
    }
}

fn spoil_box(random: &mut Random, layout: &Layout, bytes: &mut Vec<u8>) {
    if !layout.boxes.is_empty() {
        let place = random.pick(&layout.boxes);
        if let Some(area) = bytes.get_mut(place..place + BOX_BYTES) {
            draw::spoil_record(random, area);
        }
    }
}

/// The last rule of a section, one value short of full in one field.
fn narrow_last(random: &mut Random, layout: &Layout, bytes: &mut Vec<u8>) {
    let place = random.pick(&layout.lasts);
    let field = random.index(FIELDS);
    let width = sheets::WIDTH[field];
    let start: usize = place + sheets::WIDTH[..field].iter().map(|width| 2 * width).sum::<usize>();
    let low_end = start + width - 1;
    let high_end = start + 2 * width - 1;
    if high_end < bytes.len() {
        match random.chance(50) {
            true => bytes[low_end] |= 1,
            false => bytes[high_end] &= 0xfe,
        }
    }
}

fn change_byte(random: &mut Random, _: &Layout, bytes: &mut Vec<u8>) {
    if !bytes.is_empty() {
        let place = random.index(bytes.len());
        bytes[place] = random.next() as u8;
    }
}
