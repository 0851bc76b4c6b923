//! How often each call gave each answer, and whether every answer it can give was met.

use std::collections::BTreeMap;

use crate::driver::step::{Call, CALLS};
use crate::model::calls::Answer;
use crate::model::refusals::{Fault, Part, Refusal};

const NUMBERS: u32 = 9;

/// Accepted answers that are told apart.
const KINDS: [(Call, &str); 4] = [
    (Call::Origin, FROM_GATE),
    (Call::Origin, FROM_OWN),
    (Call::Report, OF_PACKETS),
    (Call::Report, OF_NO_PACKETS),
];
pub const FROM_GATE: &str = "from gate";
pub const FROM_OWN: &str = "from own";
pub const OF_PACKETS: &str = "of packets";
pub const OF_NO_PACKETS: &str = "of no packets";

#[derive(Default)]
pub struct Tally {
    accepted: BTreeMap<Call, u64>,
    refused: BTreeMap<(Call, Refusal), u64>,
    kinds: BTreeMap<(Call, &'static str), u64>,
}

impl Tally {
    pub fn count(&mut self, call: Call, answer: Answer) {
        let counter = match answer {
            Ok(_) => self.accepted.entry(call).or_default(),
            Err(refusal) => self.refused.entry((call, refusal)).or_default(),
        };
        *counter += 1;
    }

    /// Beside the call itself, which is counted as every other is.
    pub fn count_kind(&mut self, call: Call, kind: &'static str) {
        *self.kinds.entry((call, kind)).or_default() += 1;
    }

    fn of_number(&self, call: Call, number: u32) -> u64 {
        let refused = self.refused.iter();
        let given = refused.filter(|((by, refusal), _)| *by == call && refusal.number() == number);
        given.map(|(_, count)| count).sum()
    }

    pub fn total(&self) -> u64 {
        self.accepted.values().sum::<u64>() + self.refused.values().sum::<u64>()
    }

    pub fn print(&self) {
        print!("{:12} {:>9}", "call", "accepted");
        (1..=NUMBERS).for_each(|number| print!(" {number:>8}"));
        println!();
        for call in CALLS {
            print!("{:12} {:>9}", call.name(), self.accepted.get(&call).unwrap_or(&0));
            (1..=NUMBERS).for_each(|number| print!(" {:>8}", self.of_number(call, number)));
            println!();
        }
    }

    /// The same by ground: which part of what was lent is at fault, and how. Origins and reports
    /// are also accepted on two grounds each.
    pub fn print_grounds(&self) {
        for ((call, kind), count) in &self.kinds {
            println!("{:12} accepted {kind} {count}", call.name());
        }
        for ((call, refusal), count) in &self.refused {
            let Refusal { part, fault } = refusal;
            println!("{:12} {} {part:?} {fault:?} {count}", call.name(), refusal.number());
        }
    }

    /// The answers that can occur and never did.
    pub fn missing(&self) -> Vec<String> {
        let mut missing = Vec::new();
        for call in CALLS {
            if !self.accepted.contains_key(&call) {
                missing.push(format!("{} accepted", call.name()));
            }
            for ground in possible(call) {
                if !self.refused.contains_key(&(call, ground)) {
                    missing.push(format!("{} {:?} {:?}", call.name(), ground.part, ground.fault));
                }
            }
        }
        let never = KINDS.iter().filter(|kind| !self.kinds.contains_key(kind));
        missing.extend(never.map(|(call, kind)| format!("{} accepted {kind}", call.name())));
        missing
    }
}

fn grounds(part: Part, faults: &[Fault]) -> Vec<Refusal> {
    faults.iter().map(|&fault| Refusal::new(part, fault)).collect()
}

fn section(part: Part) -> Vec<Refusal> {
    use Fault::*;
    grounds(part, &[CountMissing, CountLimits, RecordsMissing, BadRecord, NotComplete])
}

fn short(parts: &[Part]) -> Vec<Refusal> {
    parts.iter().map(|&part| Refusal::new(part, Fault::ShortBuffer)).collect()
}

fn reading_order() -> Vec<Refusal> {
    [section(Part::A), section(Part::B), grounds(Part::Order, &[Fault::LeftOver])].concat()
}

fn reading_pair() -> Vec<Refusal> {
    use Fault::*;
    let groups =
        [CountMissing, GroupCount, GroupCountMissing, TooManyBoxes, RecordsMissing, BadRecord];
    let end = grounds(Part::Sheet, &[LeftOver]);
    [section(Part::A), section(Part::B), grounds(Part::C, &groups), end].concat()
}

/// After reading, by the kind of edit: a delete has no record, a replace leaves the count, and
/// only an insert can bring B's count over the limit of 7.
fn editing(call: Call) -> Vec<Refusal> {
    use Fault::*;
    let (both, gate_only): (&[Fault], &[Fault]) = match call {
        Call::Insert => (
            &[NoSuchPlace, RecordLength, CountLimits, BadRecord, NotComplete, TooManyBoxes],
            &[TooManyPieces],
        ),
        Call::Delete => (&[NoSuchPlace, CountLimits, NotComplete], &[TooManyPieces, TooManyBoxes]),
        _ => (&[NoSuchPlace, RecordLength, BadRecord, NotComplete], &[TooManyPieces, TooManyBoxes]),
    };
    let before = grounds(Part::Sheet, &[ShortBuffer, StatedLength, NoSuchList]);
    let after = [grounds(Part::NewA, both), grounds(Part::NewB, both)].concat();
    let last = grounds(Part::NewA, gate_only);
    [before, short(&[Part::Work]), reading_pair(), after, last].concat()
}

fn checking() -> Vec<Refusal> {
    let after = grounds(Part::C, &[Fault::TooManyPieces, Fault::GroupsDiffer]);
    [short(&[Part::Work]), reading_pair(), after].concat()
}

/// Every ground on which a call can refuse.
fn possible(call: Call) -> Vec<Refusal> {
    use Fault::*;
    match call {
        Call::Move => {
            let after = grounds(Part::C, &[TooManyPieces, TooManyBoxes]);
            [short(&[Part::Sheet, Part::Work]), reading_order(), after].concat()
        }
        Call::Insert | Call::Delete | Call::Replace => editing(call),
        Call::Check => checking(),
        Call::CellList | Call::GateList => [short(&[Part::List]), checking()].concat(),
        Call::Lookup => {
            let faults =
                [CountMissing, CountLimits, RecordsMissing, LeftOver, BadRecord, NoRuleFits];
            grounds(Part::List, &faults)
        }
        Call::Origin => {
            let last = grounds(Part::Sheet, &[NoRuleFits]);
            [short(&[Part::Numbers]), checking(), last].concat()
        }
        Call::Report => {
            let readings = [ReadingsMissing, LeftOver];
            let readings = [grounds(Part::Earlier, &readings), grounds(Part::Later, &readings)];
            let last = grounds(Part::Packets, &[TooManyPackets, BrokenPacket]);
            [short(&[Part::Totals, Part::Hits]), checking(), readings.concat(), last].concat()
        }
        Call::Split => [short(&[Part::A, Part::B]), reading_order()].concat(),
        Call::Join => {
            let ends = [grounds(Part::A, &[LeftOver]), grounds(Part::B, &[LeftOver])].concat();
            [short(&[Part::Order]), section(Part::A), section(Part::B), ends].concat()
        }
        Call::Rule => {
            [short(&[Part::Numbers]), grounds(Part::Record, &[RecordLength, BadRecord])].concat()
        }
        Call::LookupTable => grounds(Part::Numbers, &[CountLimits, BadRecord, NoRuleFits]),
        Call::Record => {
            [short(&[Part::Numbers, Part::Record]), grounds(Part::Record, &[BadRecord])].concat()
        }
    }
}
