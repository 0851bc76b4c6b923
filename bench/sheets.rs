// The fields and sizes that the Rust files of bench/run share, and lists of rules written as sheets.
pub const FIELDS: usize = 5;
pub const WIDTH: [usize; FIELDS] = [4, 4, 2, 2, 1];
pub const HIGHEST: [u32; FIELDS] = [u32::MAX, u32::MAX, 65535, 65535, 255];
pub const BOX: usize = 26;
pub const RECORD: usize = BOX + 1;
pub const GATE: usize = 64;
pub const OWN: usize = 256;
pub const MOST: usize = 1024;
pub const SHEET: usize = 28_742;
pub const WORK: usize = 53_248;
pub const CELL_LIST: usize = 27_650;
pub const REFUSED: u32 = 65_536;

#[derive(Clone, Copy, PartialEq, Eq)]
pub struct Region {
    pub low: [u32; FIELDS],
    pub high: [u32; FIELDS],
}

#[derive(Clone, Copy)]
pub struct Rule {
    pub region: Region,
    pub action: u8,
}

pub const FULL: Region = Region { low: [0; FIELDS], high: HIGHEST };

pub fn four(s: &[u8]) -> u32 {
    u32::from_be_bytes([s[0], s[1], s[2], s[3]])
}

pub fn two(s: &[u8]) -> u32 {
    u16::from_be_bytes([s[0], s[1]]) as u32
}

// The w bytes of x, the highest first.
pub fn put(out: &mut Vec<u8>, x: u32, w: usize) {
    out.extend_from_slice(&x.to_be_bytes()[4 - w..]);
}

pub fn put_rule(out: &mut Vec<u8>, rule: &Rule) {
    for k in 0..FIELDS {
        put(out, rule.region.low[k], WIDTH[k]);
        put(out, rule.region.high[k], WIDTH[k]);
    }
    out.push(rule.action);
}

pub fn record_of(rule: &Rule) -> Vec<u8> {
    let mut out = Vec::new();
    put_rule(&mut out, rule);
    out
}

// The order sheet of a gate's rules and a cell's own rules.
pub fn order_of(gate: &[Rule], own: &[Rule]) -> Vec<u8> {
    let mut out = Vec::new();
    for rules in [gate, own] {
        put(&mut out, rules.len() as u32, 2);
        rules.iter().for_each(|r| put_rule(&mut out, r));
    }
    out
}

// How many boxes the groups have that stand behind an order sheet of so many bytes.
pub fn boxes(order: usize, sheet: &[u8]) -> usize {
    let mut at = order + 2;
    let mut sum = 0;
    for _ in 0..two(&sheet[order..]) {
        let n = two(&sheet[at..]) as usize;
        sum += n;
        at += 2 + BOX * n;
    }
    sum
}
