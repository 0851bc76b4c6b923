// The lists that the tables share: gates and cells of full sheets and of ordinary ones.
use crate::plants::full_plant;
use crate::sheets::{Rule, FULL};

pub struct Input {
    pub name: &'static str,
    pub gate: Vec<Rule>,
    pub own: Vec<Rule>,
}

pub const ALLOW: u8 = 1;
pub const DENY: u8 = 0;

// A rule that is full but for the ranges given, each as field, low and high.
pub fn rule(narrow: &[(usize, u32, u32)], action: u8) -> Rule {
    let mut region = FULL;
    for (k, low, high) in narrow {
        region.low[*k] = *low;
        region.high[*k] = *high;
    }
    Rule { region, action }
}

// So many own rules as a cell has them, the last of them full.
pub fn own(n: usize) -> Vec<Rule> {
    let mut rules: Vec<Rule> =
        (1..n as u32).map(|i| rule(&[net(1, i % 16, 8 * (i / 16), 8), (3, 500 + i, 500 + i)], (i % 3 != 0) as u8)).collect();
    rules.push(rule(&[], ALLOW));
    rules
}

// n addresses of plant network a, from host h on.
pub fn net(field: usize, a: u32, h: u32, n: u32) -> (usize, u32, u32) {
    let low = 0x0A00_0000 + a * 256 + h;
    (field, low, low + n - 1)
}

// Allows of single values 2, 4, .. in each of so many fields.
pub fn single_values(fields: usize, each: u32) -> Vec<Rule> {
    (0..fields).flat_map(|k| (1..=each).map(move |i| rule(&[(k, 2 * i, 2 * i)], ALLOW))).collect()
}

// Allows and denies in turn, each within the next in so many fields, and allow all.
pub fn nested(fields: usize, rules: usize) -> Vec<Rule> {
    let ring = |i: u32| -> Vec<(usize, u32, u32)> { (0..fields).map(|k| (k, 30_000 - 100 * i, 31_000 + 100 * i)).collect() };
    let mut gate: Vec<Rule> = (0..rules as u32 - 1).map(|i| rule(&ring(i), if i % 2 == 0 { ALLOW } else { DENY })).collect();
    gate.push(rule(&[], ALLOW));
    gate
}

// 40 allows of single sources, 24 full denies: 41 boxes each.
fn columns() -> Input {
    let mut gate = single_values(1, 40);
    gate.extend((0..24).map(|_| rule(&[], DENY)));
    Input { name: "full, single sources", gate, own: own(40) }
}

// 20 denies of one destination each in front, then rings in two fields, allow and deny in turn.
fn rings() -> Input {
    let mut gate: Vec<Rule> = (0..20).map(|i| rule(&[net(1, 40 + i, 0, 256)], DENY)).collect();
    gate.extend(nested(2, 44));
    Input { name: "full, rings in two fields", gate, own: own(40) }
}

// 16 sources and 14 destinations cut each deny into 255 pieces; then an allow of the higher sources takes most of them away.
fn swept() -> Input {
    let mut gate = single_values(1, 16);
    gate.extend((1..=14).map(|i| rule(&[(1, 2 * i, 2 * i)], ALLOW)));
    gate.push(rule(&[(0, 4, u32::MAX)], ALLOW));
    gate.extend((0..32).map(|i| rule(&[(4, 100 - i, 200)], DENY)));
    gate.push(rule(&[], DENY));
    Input { name: "full, most pieces vanish", gate, own: own(34) }
}

// Allows that no two share a source, in three fields; denies behind them, and allow all.
fn hosts() -> Input {
    let mut gate: Vec<Rule> = (1..12u32)
        .map(|i| rule(&[(0, 100 * i, 100 * i + 40), (1, 1000 - 10 * i, 2000 + 10 * i), (3, 50 * i, 50 * i + 5)], ALLOW))
        .collect();
    gate.extend((0..3).map(|i| rule(&[(4, 6 + i, 17 + i)], DENY)));
    gate.push(rule(&[], ALLOW));
    Input { name: "11 allows in three fields, 3 denies", gate, own: own(8) }
}

// Thirty allows and thirty denies of which no two share a source.
fn apart() -> Input {
    let mut gate: Vec<Rule> = (0..60u32).map(|i| rule(&[(0, 1000 * i, 1000 * i + 900), (3, 80, 90)], (i % 2) as u8)).collect();
    gate.push(rule(&[], ALLOW));
    Input { name: "60 rules that share nothing", gate, own: own(16) }
}

// A dozen rules as a plant has them: controllers, an engineering station, a historian, and denies behind them.
fn dozen() -> Input {
    let gate = vec![
        rule(&[net(0, 1, 0, 256), net(1, 20, 0, 64), (3, 502, 502), (4, 6, 6)], ALLOW),
        rule(&[net(0, 2, 0, 16), net(1, 20, 0, 256), (3, 44818, 44818), (4, 6, 6)], ALLOW),
        rule(&[net(1, 20, 0, 256), (3, 502, 502), (4, 6, 6)], DENY),
        rule(&[net(0, 3, 0, 8), net(1, 21, 0, 256), (4, 6, 6)], ALLOW),
        rule(&[net(0, 3, 0, 8), (3, 123, 123), (4, 17, 17)], ALLOW),
        rule(&[net(1, 21, 0, 256), (3, 0, 1023)], DENY),
        rule(&[(1, 0xE000_0000, 0xEFFF_FFFF)], DENY),
        rule(&[net(0, 4, 0, 4), (3, 4840, 4840), (4, 6, 6)], ALLOW),
        rule(&[(3, 4840, 4840), (4, 6, 6)], DENY),
        rule(&[net(0, 5, 0, 256), net(1, 22, 0, 256)], ALLOW),
        rule(&[net(1, 22, 0, 256)], DENY),
        rule(&[], ALLOW),
    ];
    Input { name: "a plant's dozen", gate, own: own(12) }
}

pub fn all() -> Vec<Input> {
    let mut inputs = vec![hosts(), apart()];
    inputs.extend(edited());
    inputs
}

// Those that the edits start from.
pub fn edited() -> Vec<Input> {
    vec![dozen(), full_plant(), columns(), rings(), swept()]
}
