//! Rules and packets as text.

use crate::rule::{
    Packet, Ranges, Rule, DESTINATION, DESTINATION_PORT, FIELDS, PROTOCOL, SOURCE, SOURCE_PORT,
};
use crate::text::known::{protocol_has_ports, PROTOCOLS};

const SHORT_WORDS: [&str; FIELDS] = ["from", "to", "sport", "dport", "proto"];

pub fn address(value: u32) -> String {
    let [a, b, c, d] = value.to_be_bytes();
    format!("{a}.{b}.{c}.{d}")
}

pub fn protocol(value: u32) -> String {
    let name = PROTOCOLS.iter().find(|(_, number)| *number == value);
    name.map_or(value.to_string(), |(name, _)| name.to_string())
}

/// A value of a field.
fn single(field: usize, value: u32) -> String {
    match field {
        SOURCE | DESTINATION => address(value),
        PROTOCOL => protocol(value),
        _ => value.to_string(),
    }
}

/// How many bits all addresses of a range have in common, if it is a whole prefix.
fn prefix_bits(low: u32, high: u32) -> Option<u32> {
    let rest = low ^ high;
    let whole = rest & rest.wrapping_add(1) == 0 && low & rest == 0;
    whole.then_some(rest.leading_zeros())
}

/// A range of a field, as a text has it.
pub fn span(field: usize, low: u32, high: u32) -> String {
    if low == high {
        return single(field, low);
    }
    match field {
        SOURCE | DESTINATION => match prefix_bits(low, high) {
            Some(bits) => format!("{}/{bits}", address(low)),
            None => format!("{}-{}", address(low), address(high)),
        },
        _ => format!("{low}-{high}"),
    }
}

/// The fields that are not full; nothing for a full box.
pub fn ranges(ranges: &Ranges) -> String {
    let named = (0..FIELDS).filter(|&field| !ranges.is_full_in(field));
    let words: Vec<String> = named
        .map(|field| {
            let value = span(field, ranges.low[field], ranges.high[field]);
            format!("{} {value}", SHORT_WORDS[field])
        })
        .collect();
    words.join(" ")
}

pub fn rule(rule: &Rule) -> String {
    let action = if rule.allows { "allow" } else { "deny" };
    format!("{action} {}", ranges(&rule.ranges)).trim_end().to_string()
}

/// As `why` takes it: source, destination, protocol, with the ports where there are any.
pub fn packet(packet: &Packet) -> String {
    let ports = protocol_has_ports(packet[PROTOCOL])
        || packet[SOURCE_PORT] != 0
        || packet[DESTINATION_PORT] != 0;
    let port = |field: usize| if ports { format!(":{}", packet[field]) } else { String::new() };
    let (source, destination) = (address(packet[SOURCE]), address(packet[DESTINATION]));
    let protocol = protocol(packet[PROTOCOL]);
    format!("{source}{} {destination}{} {protocol}", port(SOURCE_PORT), port(DESTINATION_PORT))
}
