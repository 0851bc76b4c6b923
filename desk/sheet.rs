//! Sheets and lists read back into rules, and a plant's plan: everything that a move of its text gives.

use crate::library::{self, Refusal, LENGTH_WRONG, RECORD};
use crate::rule::{Order, Ranges, Rule, Which};

const COUNT: usize = 2;
const BOX: usize = RECORD - 1;

/// What bytes are, told by their counts and their length.
pub enum Kind {
    List,
    Order,
    Pair,
}

fn count_at(bytes: &[u8], at: usize) -> Option<usize> {
    let count = bytes.get(at..at + COUNT)?;
    Some(usize::from(count[0]) << 8 | usize::from(count[1]))
}

/// A list ends where its count says, an order sheet where its second count says; what goes on behind
/// that can only be a pair sheet. So no bytes are two of them.
pub fn kind(bytes: &[u8]) -> Option<Kind> {
    let first = COUNT + RECORD * count_at(bytes, 0)?;
    if bytes.len() <= first {
        return (bytes.len() == first).then_some(Kind::List);
    }
    let second = first + COUNT + RECORD * count_at(bytes, first)?;
    match bytes.len() {
        length if length < second => None,
        length if length == second => Some(Kind::Order),
        _ => Some(Kind::Pair),
    }
}

/// How many rules a list that the library wrote has.
pub fn count(list: &[u8]) -> usize {
    list.len().saturating_sub(COUNT) / RECORD
}

/// The rules of a list's bytes.
pub fn rules(list: &[u8]) -> Result<Vec<Rule>, Refusal> {
    let records = list.get(COUNT..).ok_or(LENGTH_WRONG)?;
    records.chunks(RECORD).map(library::rule).collect()
}

/// The order sheet at the front of a pair sheet.
pub fn front(pair: &[u8]) -> Result<&[u8], Refusal> {
    let end = |from: usize| Some(from + COUNT + RECORD * count_at(pair, from)?);
    let end = end(0).and_then(end).ok_or(LENGTH_WRONG)?;
    pair.get(..end).ok_or(LENGTH_WRONG)
}

pub fn order(sheet: &[u8]) -> Result<Order, Refusal> {
    let (a, b) = library::split(sheet)?;
    Ok(Order { gate: rules(&a)?, own: rules(&b)? })
}

/// The groups of a pair sheet, one for each deny rule of the gate in its order.
pub fn groups(pair: &[u8]) -> Result<Vec<Vec<Ranges>>, Refusal> {
    let mut at = front(pair)?.len();
    let mut groups = Vec::new();
    let count = count_at(pair, at).ok_or(LENGTH_WRONG)?;
    at += COUNT;
    for _ in 0..count {
        let boxes = count_at(pair, at).ok_or(LENGTH_WRONG)?;
        at += COUNT;
        let bytes = pair.get(at..at + BOX * boxes).ok_or(LENGTH_WRONG)?;
        at += BOX * boxes;
        let one = |bytes: &[u8]| Ok(library::rule(&[bytes, &[0]].concat())?.ranges);
        groups.push(bytes.chunks(BOX).map(one).collect::<Result<_, _>>()?);
    }
    Ok(groups)
}

/// All that a move of two lists gives.
#[derive(Clone, PartialEq, Eq, Debug)]
pub struct Plan {
    pub order: Order,
    pub pair: Vec<u8>,
    /// The lists to load.
    pub gate: Vec<u8>,
    pub cell: Vec<u8>,
    /// The lists of before the move: the gate's rules, the cell's own.
    pub own_gate: Vec<u8>,
    pub own_cell: Vec<u8>,
    /// For each gate rule, how many boxes it has in the cell list.
    pub boxes: Vec<usize>,
}

impl Plan {
    pub fn of(order: &Order) -> Result<Plan, Refusal> {
        Plan::read(library::move_order(&library::join(order)?)?)
    }

    /// The plan of a pair sheet, which is checked.
    pub fn read(pair: Vec<u8>) -> Result<Plan, Refusal> {
        let (gate, cell) = (library::gate_list(&pair)?, library::cell_list(&pair)?);
        let (own_gate, own_cell) = library::split(front(&pair)?)?;
        let order = Order { gate: rules(&own_gate)?, own: rules(&own_cell)? };
        let mut groups = groups(&pair)?.into_iter();
        let mut of = |rule: &Rule| match rule.allows {
            true => 0,
            false => groups.next().map_or(0, |group| group.len()),
        };
        let boxes = order.gate.iter().map(&mut of).collect();
        Ok(Plan { order, pair, gate, cell, own_gate, own_cell, boxes })
    }

    pub fn all_boxes(&self) -> usize {
        self.boxes.iter().sum()
    }

    /// How many rules the cell list has.
    pub fn places(&self) -> usize {
        self.all_boxes() + self.order.own.len()
    }

    /// Whose rule each place of the cell list is.
    pub fn owners(&self) -> Vec<(Which, usize)> {
        let gate = self.boxes.iter().enumerate();
        let gate = gate.flat_map(|(place, &boxes)| vec![(Which::Gate, place); boxes]);
        gate.chain((0..self.order.own.len()).map(|place| (Which::Own, place))).collect()
    }
}
