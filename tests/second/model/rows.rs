//! Rows of the boundary table that are not theorems, with the answers that it gives; and the boxes
//! of its line S2, which 02, W2 changes.

use crate::model::boxes::{Action, PacketBox, Range, Rule};
use crate::model::sheets;

pub struct Row {
    pub name: &'static str,
    pub order: Vec<u8>,
    /// The number of boxes, or the refusal's number.
    pub result: Result<usize, u32>,
}

pub fn single(field: usize, value: u64, action: Action) -> Rule {
    Rule::new(PacketBox::full().with(field, Range { low: value, high: value }), action)
}

pub fn full(action: Action) -> Rule {
    Rule::new(PacketBox::full(), action)
}

/// Allows of the single values 2, 4, .., 2 x `count` in one field.
pub fn singles(field: usize, count: u64) -> Vec<Rule> {
    (1..=count).map(|step| single(field, 2 * step, Action::Allow)).collect()
}

pub fn own(count: usize) -> Vec<Rule> {
    vec![full(Action::Allow); count]
}

pub fn comb() -> Vec<Rule> {
    [singles(0, 31), vec![full(Action::Deny); 31]].concat()
}

pub fn grid(sources: u64, destinations: u64) -> Vec<Rule> {
    [singles(0, sources), singles(1, destinations), vec![full(Action::Deny)]].concat()
}

pub fn cube() -> Vec<Rule> {
    let ends = vec![full(Action::Allow), full(Action::Deny)];
    [singles(0, 10), singles(1, 10), singles(2, 10), ends].concat()
}

/// S2's deny, and the allow that is taken from it and shares no packet with it.
pub fn s2() -> (PacketBox, PacketBox) {
    let area = |source, destination| PacketBox::full().with(0, source).with(1, destination);
    let range = |low, high| Range { low, high };
    (area(range(0, 9), range(0, 4)), area(range(3, 5), range(6, 9)))
}

pub fn rows() -> Vec<Row> {
    let row = |name, gate: Vec<Rule>, own_rules, result| Row {
        name,
        order: sheets::order_bytes(&gate, &own(own_rules)),
        result,
    };
    vec![
        row("992 boxes, 32 own rules", comb(), 32, Ok(992)),
        row("992 boxes, 33 own rules", comb(), 33, Err(7)),
        row("1,024 pieces, one own rule", grid(31, 31), 1, Err(7)),
        row("32 sources, 1,056 pieces", grid(32, 31), 1, Err(6)),
        row("1,331 pieces on the way", cube(), 1, Err(6)),
    ]
}
