//! One call with everything handed over, done by the model.

use crate::driver::lent::Lent;
use crate::model::boxes::Packet;
use crate::model::calls::{self, Answer, Change, Edit};
use crate::model::reports::Load;

#[derive(Clone, Copy, PartialEq, Eq, PartialOrd, Ord, Debug)]
pub enum Call {
    Move,
    Insert,
    Delete,
    Replace,
    Check,
    CellList,
    GateList,
    Lookup,
    Split,
    Join,
    Rule,
    Record,
    LookupTable,
    Origin,
    Report,
}

/// The calls of the surface.
pub const CALLS: [Call; 15] = [
    Call::Move,
    Call::Insert,
    Call::Delete,
    Call::Replace,
    Call::Check,
    Call::CellList,
    Call::GateList,
    Call::Lookup,
    Call::Split,
    Call::Join,
    Call::Rule,
    Call::Record,
    Call::LookupTable,
    Call::Origin,
    Call::Report,
];

impl Call {
    pub fn name(self) -> &'static str {
        match self {
            Call::Move => "move",
            Call::Insert => "insert",
            Call::Delete => "delete",
            Call::Replace => "replace",
            Call::Check => "check",
            Call::CellList => "cell_list",
            Call::GateList => "gate_list",
            Call::Lookup => "lookup",
            Call::Split => "split",
            Call::Join => "join",
            Call::Rule => "rule",
            Call::Record => "record",
            Call::LookupTable => "lookup_table",
            Call::Origin => "origin",
            Call::Report => "report",
        }
    }
}

/// The buffers stand in the order of the C surface; the words are its other arguments: used,
/// list and place of an edit, the five numbers of a packet.
pub struct Step {
    pub call: Call,
    pub words: Vec<u64>,
    pub lent: Vec<Lent>,
}

pub fn by_model(call: Call, words: &[u64], lent: &mut [Lent]) -> Answer {
    match (call, lent) {
        (Call::Rule, [record, numbers]) => {
            let mut values = numbers.numbers();
            let answer = calls::rule(record.bytes(), &mut values);
            numbers.set_numbers(&values);
            answer
        }
        (Call::Origin, [sheet, numbers, work]) => {
            let mut values = numbers.numbers();
            let packet = packet(words);
            let answer = calls::origin(&packet, sheet.bytes(), &mut values, work.bytes_mut());
            numbers.set_numbers(&values);
            answer
        }
        (Call::Report, [sheet, packets, earlier, later, totals, hits, work]) => {
            let (packets, earlier, later) = (packets.bytes(), earlier.bytes(), later.bytes());
            let load = Load { packets, earlier, later };
            let (mut totalled, mut counted) = (totals.wide_numbers(), hits.numbers());
            let work = work.bytes_mut();
            let answer = calls::report(sheet.bytes(), &load, &mut totalled, &mut counted, work);
            totals.set_wide_numbers(&totalled);
            hits.set_numbers(&counted);
            answer
        }
        (Call::LookupTable, [table]) => calls::lookup_table(&packet(words), &table.numbers()),
        (Call::Record, [numbers, record]) => calls::record(&numbers.numbers(), record.bytes_mut()),
        (_, lent) => {
            let mut buffers: Vec<&mut [u8]> = lent.iter_mut().map(Lent::bytes_mut).collect();
            on_bytes(call, words, &mut buffers)
        }
    }
}

fn on_bytes(call: Call, words: &[u64], buffers: &mut [&mut [u8]]) -> Answer {
    match (call, buffers) {
        (Call::Move, [order, sheet, work]) => calls::move_pair(order, sheet, work),
        (Call::Insert, [sheet, record, work]) => edit(words, Change::Insert(record), sheet, work),
        (Call::Delete, [sheet, work]) => edit(words, Change::Delete, sheet, work),
        (Call::Replace, [sheet, record, work]) => edit(words, Change::Replace(record), sheet, work),
        (Call::Check, [sheet, work]) => calls::check(sheet, work),
        (Call::CellList, [sheet, list, work]) => calls::cell_list(sheet, list, work),
        (Call::GateList, [sheet, list, work]) => calls::gate_list(sheet, list, work),
        (Call::Lookup, [list]) => calls::lookup(&packet(words), list),
        (Call::Split, [order, a, b]) => calls::split(order, a, b),
        (Call::Join, [a, b, order]) => calls::join(a, b, order),
        _ => unreachable!("every step lends what its call takes"),
    }
}

fn packet(words: &[u64]) -> Packet {
    words.try_into().expect("a packet is five numbers")
}

fn edit(words: &[u64], change: Change, sheet: &mut [u8], work: &mut [u8]) -> Answer {
    let (used, list, place) = (words[0], words[1], words[2]);
    calls::edit(sheet, used, &Edit { list, place, change }, work)
}
