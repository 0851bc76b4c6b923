//! The words that a text may have, and the nearest of them to one that it may not.

use crate::rule::{DESTINATION, DESTINATION_PORT, PROTOCOL, SOURCE, SOURCE_PORT};

pub const SECTIONS: [&str; 2] = ["gate", "cell"];
pub const ACTIONS: [&str; 2] = ["deny", "allow"];
pub const DECLARATIONS: [&str; 2] = ["name", "service"];
pub const ANY: &str = "any";
/// In a rule, the field that gives destination port and protocol together.
pub const SERVICE: &str = "service";

pub const FIELD_WORDS: [(&str, usize); 10] = [
    ("source", SOURCE),
    ("from", SOURCE),
    ("destination", DESTINATION),
    ("to", DESTINATION),
    ("source-port", SOURCE_PORT),
    ("sport", SOURCE_PORT),
    ("destination-port", DESTINATION_PORT),
    ("dport", DESTINATION_PORT),
    ("protocol", PROTOCOL),
    ("proto", PROTOCOL),
];

pub const PROTOCOLS: [(&str, u32); 14] = [
    ("icmp", 1),
    ("igmp", 2),
    ("ipip", 4),
    ("tcp", 6),
    ("udp", 17),
    ("dccp", 33),
    ("gre", 47),
    ("esp", 50),
    ("ah", 51),
    ("ospf", 89),
    ("pim", 103),
    ("vrrp", 112),
    ("sctp", 132),
    ("udplite", 136),
];

pub const PORTS: [(&str, u32); 26] = [
    ("ftp", 21),
    ("ssh", 22),
    ("telnet", 23),
    ("smtp", 25),
    ("dns", 53),
    ("tftp", 69),
    ("http", 80),
    ("iso-tsap", 102),
    ("ntp", 123),
    ("snmp", 161),
    ("snmptrap", 162),
    ("ldap", 389),
    ("https", 443),
    ("smb", 445),
    ("modbus", 502),
    ("syslog", 514),
    ("ldaps", 636),
    ("mqtt", 1883),
    ("iec104", 2404),
    ("rdp", 3389),
    ("opcua", 4840),
    ("vnc", 5900),
    ("mqtts", 8883),
    ("dnp3", 20000),
    ("enip", 44818),
    ("bacnet", 47808),
];

pub fn value_of(table: &[(&str, u32)], word: &str) -> Option<u32> {
    table.iter().find(|(name, _)| *name == word).map(|&(_, value)| value)
}

pub fn field_of(word: &str) -> Option<usize> {
    FIELD_WORDS.iter().find(|(name, _)| *name == word).map(|&(_, field)| field)
}

/// The longer of a field's two words.
pub fn field_name(field: usize) -> &'static str {
    FIELD_WORDS[2 * field].0
}

pub fn protocol_has_ports(protocol: u32) -> bool {
    [6, 17, 33, 132, 136].contains(&protocol)
}

/// Whether it is one of the known protocols, and has none.
pub fn has_no_ports(protocol: u32) -> bool {
    !protocol_has_ports(protocol) && PROTOCOLS.iter().any(|(_, value)| *value == protocol)
}

/// A word that begins a line or a field, stands for every value or is a protocol: no name may be one.
pub fn is_reserved(word: &str) -> bool {
    SECTIONS.contains(&word)
        || ACTIONS.contains(&word)
        || DECLARATIONS.contains(&word)
        || word == ANY
        || field_of(word).is_some()
        || value_of(&PROTOCOLS, word).is_some()
}

/// `; is it WORD?` with the known word that is fewest changes of a character away, if one is near.
pub fn nearest<'a>(word: &str, known: impl IntoIterator<Item = &'a str>) -> String {
    let most = (word.chars().count() / 3).clamp(1, 3);
    let lower = word.to_lowercase();
    known
        .into_iter()
        .map(|known| (distance(&lower, known), known))
        .min()
        .filter(|&(distance, _)| distance <= most)
        .map_or(String::new(), |(_, known)| format!("; is it {known}?"))
}

/// How many characters have to be put in, taken out, changed or swapped with the next.
fn distance(from: &str, to: &str) -> usize {
    let (from, to): (Vec<char>, Vec<char>) =
        (from.chars().take(40).collect(), to.chars().collect());
    let mut rows: Vec<Vec<usize>> = vec![(0..=to.len()).collect()];
    for i in 1..=from.len() {
        let mut row = vec![i];
        for j in 1..=to.len() {
            let changed = rows[i - 1][j - 1] + (from[i - 1] != to[j - 1]) as usize;
            let mut fewest = changed.min(rows[i - 1][j] + 1).min(row[j - 1] + 1);
            if i > 1 && j > 1 && from[i - 1] == to[j - 2] && from[i - 2] == to[j - 1] {
                fewest = fewest.min(rows[i - 2][j - 2] + 1);
            }
            row.push(fewest);
        }
        rows.push(row);
    }
    rows[from.len()][to.len()]
}
