//! Packets at every corner of the rules they are looked up in.

use crate::draw::random::Random;
use crate::model::boxes::{Packet, PacketBox, Range, Rule, FIELDS, HIGHEST};

const LARGEST_NUMBER: u64 = 4_294_967_295;

/// Both ends and their neighbours, 0, the highest, and above it, once so that the value would
/// lie in the range if it were cut to the field's width.
pub fn corners(field: usize, range: Range) -> Vec<u64> {
    let Range { low, high } = range;
    let highest = HIGHEST[field];
    let ends = [low.saturating_sub(1), low, low + 1, high.saturating_sub(1), high, high + 1];
    let outer = [0, highest, highest + 1, highest + 1 + low, LARGEST_NUMBER];
    let mut values = [&ends[..], &outer[..]].concat();
    values.retain(|&value| value <= LARGEST_NUMBER);
    values.sort_unstable();
    values.dedup();
    values
}

/// A packet in the box, at its ends mostly.
pub fn inside(random: &mut Random, area: &PacketBox) -> Packet {
    area.ranges.map(|Range { low, high }| {
        let any = random.within(low, high);
        random.pick(&[low, high, any])
    })
}

/// A packet in the box but for one field, which is at a corner: in it, beside it, or too high.
pub fn near(random: &mut Random, area: &PacketBox) -> Packet {
    let mut packet = inside(random, area);
    let field = random.index(FIELDS);
    packet[field] = random.pick(&corners(field, area.ranges[field]));
    packet
}

/// Any five numbers, within the fields' limits half of the time.
pub fn any(random: &mut Random) -> Packet {
    let limits = random.pick(&[HIGHEST, [LARGEST_NUMBER; FIELDS]]);
    limits.map(|highest| random.within(0, highest))
}

/// What is above its field's highest, at the highest: a packet that can stand in bytes.
pub fn within_fields(mut packet: Packet) -> Packet {
    packet.iter_mut().zip(HIGHEST).for_each(|(value, highest)| *value = highest.min(*value));
    packet
}

/// Packets that leave the rule's box in one field, at every corner of every field.
pub fn every_corner(random: &mut Random, rule: &Rule) -> Vec<Packet> {
    let inner = inside(random, &rule.area);
    let with = |field: usize, value: u64| {
        let mut packet = inner;
        packet[field] = value;
        packet
    };
    let fields = 0..FIELDS;
    fields
        .flat_map(|field| {
            corners(field, rule.area.ranges[field]).into_iter().map(move |value| (field, value))
        })
        .map(|(field, value)| with(field, value))
        .collect()
}

/// Each field at a corner of some rule of the list, not always the same one.
pub fn mixed(random: &mut Random, rules: &[Rule]) -> Packet {
    let mut packet = [0; FIELDS];
    for (field, value) in packet.iter_mut().enumerate() {
        let rule = &rules[random.index(rules.len())];
        *value = random.pick(&corners(field, rule.area.ranges[field]));
    }
    packet
}
