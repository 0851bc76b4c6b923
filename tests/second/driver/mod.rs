//! The driver: every call is done by the model and by the library, and the answer and every byte
//! of every lent buffer, guards included, have to be the same.

mod cuts;
mod lent;
mod library;
mod origins;
mod reports;
mod runs;
mod scenes;
mod step;
mod tally;

use std::process::exit;

use crate::draw::loads::{DrawnLoad, Input};
use crate::draw::random::Random;
use crate::draw::{DrawnEdit, Kind};
use crate::model::boxes::Packet;
use crate::model::calls::{self, encode, Answer};
use crate::model::refusals::Refusal;
use crate::model::reports::TOTALS;
use crate::model::sheets;
use lent::{Filling, Lent};
use library::by_library;
use step::{by_model, Call, Step};
use tally::{Tally, FROM_GATE, FROM_OWN, OF_NO_PACKETS, OF_PACKETS};

/// From this many cases on, every answer that can occur has to have occurred.
const ENOUGH_CASES: u64 = 10_000;
const PROGRESS: u64 = 1_000;
/// Of a longer input a report of a difference has the first bytes only.
const MOST_SHOWN: usize = 100_000;

pub struct Driver {
    seed: u64,
    case: u64,
    pub random: Random,
    filling: Filling,
    tally: Tally,
    /// How often a buffer is drawn too short.
    pub short_percent: u64,
    /// How often an edit is drawn with something that cannot be, for each such thing.
    pub wild_percent: u64,
    /// The undamaged sheet of the case: what stood behind a cut stands behind the lent bytes.
    pub whole: Vec<u8>,
}

/// `count` cases from case `first` on; whether all held.
pub fn run(count: u64, seed: u64, first: u64) -> bool {
    let mut driver = Driver {
        seed,
        case: first,
        random: Random::of_case(seed, first),
        filling: Filling::new(),
        tally: Tally::default(),
        short_percent: 0,
        wild_percent: 0,
        whole: Vec::new(),
    };
    for case in first..first + count {
        driver.begin(case);
        scenes::play(&mut driver, case);
        if (case + 1) % PROGRESS == 0 {
            eprintln!("{} cases", case + 1);
        }
    }
    driver.finish(count)
}

impl Driver {
    fn begin(&mut self, case: u64) {
        self.case = case;
        self.random = Random::of_case(self.seed, case);
        self.short_percent = 1;
        self.wild_percent = 4;
        self.whole.clear();
    }

    fn finish(&self, count: u64) -> bool {
        self.tally.print();
        println!();
        self.tally.print_grounds();
        let (missing, enough) = (self.tally.missing(), count >= ENOUGH_CASES);
        if enough {
            missing.iter().for_each(|answer| println!("never met: {answer}"));
        }
        let met = match missing.len() {
            0 => "every answer met".to_string(),
            unmet => format!("{unmet} answers never met"),
        };
        println!("{count} cases, {} calls, no difference, {met}", self.tally.total());
        !enough || missing.is_empty()
    }

    /// A buffer only read by the call.
    fn input(&mut self, name: &'static str, bytes: &[u8]) -> Lent {
        let behind = self.whole.get(bytes.len()..).unwrap_or_default();
        Lent::new(name, bytes, bytes.len(), behind, &self.filling, &mut self.random)
    }

    /// A buffer written by the call, with `content` in it: exactly long enough, longer or short.
    fn output(&mut self, name: &'static str, content: &[u8], least: usize) -> Lent {
        let length = self.output_length(least);
        Lent::new(name, content, length, &[], &self.filling, &mut self.random)
    }

    fn output_length(&mut self, least: usize) -> usize {
        if self.random.chance(self.short_percent) {
            let any = self.random.index(least);
            return self.random.pick(&[least - 1, least - 1, 0, 1, any]);
        }
        match self.random.chance(50) {
            true => least,
            false => least + self.random.pick(&[1, 2, 13, 64]),
        }
    }

    /// Numbers written by the call, drawn before it; `least` counts numbers.
    fn numbers(&mut self, name: &'static str, least: usize) -> Lent {
        let count = self.output_length(least);
        let drawn: Vec<u32> = (0..count).map(|_| self.random.next() as u32).collect();
        Lent::of_numbers(name, &drawn, 0, &mut self.random)
    }

    fn totals(&mut self) -> Lent {
        let count = self.output_length(TOTALS);
        let drawn: Vec<u64> = (0..count).map(|_| self.random.next()).collect();
        Lent::of_wide_numbers("totals", &drawn, &mut self.random)
    }

    fn load_input(&mut self, name: &'static str, input: &Input) -> Lent {
        let Input { bytes, behind } = input;
        Lent::new(name, bytes, bytes.len(), behind, &self.filling, &mut self.random)
    }

    fn work(&mut self) -> Lent {
        self.output("work", &[], calls::WORK)
    }

    /// Does the call both ways; ends the program with a report at the first difference.
    fn step(&mut self, step: Step) -> (Answer, Vec<Lent>) {
        let Step { call, words, lent } = step;
        let given: Vec<Vec<u8>> = lent.iter().map(|l| l.bytes()[..l.given].to_vec()).collect();
        // The buffers themselves go to the library: a clone may stand where numbers may not.
        let (mut expected, mut got) = (lent.clone(), lent);
        let answer = by_model(call, &words, &mut expected);
        let got_answer = by_library(call, &words, &mut got);
        if encode(answer) != got_answer || expected != got {
            self.print_mismatch(call, &words, &got, &given);
            println!("answer expected {} got {got_answer}", encode(answer));
            report_buffers(&expected, &got);
            exit(1);
        }
        self.tally.count(call, answer);
        (answer, got)
    }

    fn print_mismatch(&self, call: Call, words: &[u64], lent: &[Lent], given: &[Vec<u8>]) {
        println!("mismatch in case {} of seed {}", self.case, self.seed);
        println!("again: second drive 1 {} {}", self.seed, self.case);
        println!("call: foldplover_{}", call.name());
        println!("words: {words:?}");
        for (lent, given) in lent.iter().zip(given) {
            let shown = given.iter().take(MOST_SHOWN);
            let hex: String = shown.map(|byte| format!("{byte:02x}")).collect();
            println!("lent {}, {} bytes, given {} {hex}", lent.name, lent.length(), lent.given);
        }
    }

    /// What 01 demands of the library itself, whatever the model says.
    pub fn demand(&self, held: bool, what: &str, inputs: &[(&str, &[u8])]) {
        if held {
            return;
        }
        println!("demand not met in case {} of seed {}: {what}", self.case, self.seed);
        println!("again: second drive 1 {} {}", self.seed, self.case);
        for (name, bytes) in inputs {
            let hex: String = bytes.iter().map(|byte| format!("{byte:02x}")).collect();
            println!("{name}, {} bytes, {hex}", bytes.len());
        }
        exit(1);
    }
}

/// The refusal's number, if it is one.
fn number(answer: Answer) -> Option<u32> {
    answer.err().map(Refusal::number)
}

fn report_buffers(expected: &[Lent], got: &[Lent]) {
    for (expected, got) in expected.iter().zip(got) {
        if let Some((place, right, wrong)) = expected.first_difference(got) {
            println!(
                "{} differs first at byte {place}: expected {right:02x} got {wrong:02x}",
                expected.name
            );
        }
    }
}

/// The calls, each with buffers drawn for it; what it wrote comes back with the answer.
impl Driver {
    pub fn move_pair(&mut self, order: &[u8]) -> (Answer, Vec<u8>) {
        let order = self.input("order", order);
        let sheet = self.output("sheet", &[], calls::LARGEST_PAIR_SHEET);
        let lent = vec![order, sheet, self.work()];
        let (answer, lent) = self.step(Step { call: Call::Move, words: vec![], lent });
        (answer, lent[1].bytes().to_vec())
    }

    /// Edits the sheet in the first bytes of `sheet`, in a buffer drawn for it.
    pub fn edit(&mut self, sheet: &[u8], used: u64, edit: &DrawnEdit) -> (Answer, Vec<u8>) {
        let sheet = self.output("sheet", sheet, calls::LARGEST_PAIR_SHEET);
        let record = self.input("record", &edit.record);
        let work = self.work();
        let words = vec![used, edit.list, edit.place];
        let (call, lent) = match edit.kind {
            Kind::Insert => (Call::Insert, vec![sheet, record, work]),
            Kind::Delete => (Call::Delete, vec![sheet, work]),
            Kind::Replace => (Call::Replace, vec![sheet, record, work]),
        };
        let (answer, lent) = self.step(Step { call, words, lent });
        (answer, lent[0].bytes().to_vec())
    }

    pub fn check(&mut self, sheet: &[u8]) -> Answer {
        let lent = vec![self.input("sheet", sheet), self.work()];
        self.step(Step { call: Call::Check, words: vec![], lent }).0
    }

    pub fn cell_list(&mut self, sheet: &[u8]) -> (Answer, Vec<u8>) {
        self.list_call(Call::CellList, sheet, calls::LARGEST_LIST)
    }

    pub fn gate_list(&mut self, sheet: &[u8]) -> (Answer, Vec<u8>) {
        self.list_call(Call::GateList, sheet, calls::GATE_LIST)
    }

    fn list_call(&mut self, call: Call, sheet: &[u8], least: usize) -> (Answer, Vec<u8>) {
        let sheet = self.input("sheet", sheet);
        let list = self.output("list", &[], least);
        let lent = vec![sheet, list, self.work()];
        let (answer, lent) = self.step(Step { call, words: vec![], lent });
        let length = answer.unwrap_or_default() as usize;
        (answer, lent[1].bytes()[..length].to_vec())
    }

    pub fn lookup(&mut self, packet: &Packet, list: &[u8]) -> Answer {
        let lent = vec![self.input("list", list)];
        let answer = self.step(Step { call: Call::Lookup, words: packet.to_vec(), lent }).0;
        if self.random.chance(30) {
            self.hold_table(packet, list, answer);
        }
        answer
    }

    /// For the same records the table in memory gives every answer that the bytes give.
    fn hold_table(&mut self, packet: &Packet, list: &[u8], answer: Answer) {
        let Some((count, records)) = sheets::read_number(list, sheets::COUNT_BYTES) else {
            return;
        };
        if records.len() as u64 == count * sheets::RECORD_BYTES as u64 {
            let rules = records.chunks(sheets::RECORD_BYTES);
            let table: Vec<u32> = rules.flat_map(sheets::numbers_of_record).collect();
            let same = encode(self.lookup_table(packet, &table)) == encode(answer);
            self.demand(same, &format!("the table for {packet:?}"), &[("list", list)]);
        }
    }

    pub fn lookup_table(&mut self, packet: &Packet, table: &[u32]) -> Answer {
        let lent = vec![Lent::of_numbers("table", table, table.len(), &mut self.random)];
        self.step(Step { call: Call::LookupTable, words: packet.to_vec(), lent }).0
    }

    /// The origin's three numbers and those behind them come back with the answer.
    pub fn origin(&mut self, packet: &Packet, sheet: &[u8]) -> (Answer, Vec<u32>) {
        let sheet = self.input("sheet", sheet);
        let lent = vec![sheet, self.numbers("numbers", calls::ORIGIN_NUMBERS), self.work()];
        let step = Step { call: Call::Origin, words: packet.to_vec(), lent };
        let (answer, lent) = self.step(step);
        let numbers = lent[1].numbers();
        if answer.is_ok() {
            let kind = if numbers[0] == 0 { FROM_GATE } else { FROM_OWN };
            self.tally.count_kind(Call::Origin, kind);
        }
        (answer, numbers)
    }

    /// The totals and hits with all behind them come back with the answer.
    pub fn report(&mut self, sheet: &[u8], load: &DrawnLoad) -> (Answer, Vec<u64>, Vec<u32>) {
        let sheet = self.input("sheet", sheet);
        let packets = self.load_input("packets", &load.packets);
        let earlier = self.load_input("earlier", &load.earlier);
        let later = self.load_input("later", &load.later);
        let (totals, hits) = (self.totals(), self.numbers("hits", calls::HITS));
        let lent = vec![sheet, packets, earlier, later, totals, hits, self.work()];
        let (answer, lent) = self.step(Step { call: Call::Report, words: vec![], lent });
        let totals = lent[4].wide_numbers();
        if answer.is_ok() {
            let kind = if totals[0] == 0 { OF_NO_PACKETS } else { OF_PACKETS };
            self.tally.count_kind(Call::Report, kind);
        }
        (answer, totals, lent[5].numbers())
    }

    /// Both lists, if the sheet was split.
    pub fn split(&mut self, order: &[u8]) -> Option<(Vec<u8>, Vec<u8>)> {
        let input = self.input("order", order);
        let a = self.output("a", &[], calls::LARGEST_A_LIST);
        let b = self.output("b", &[], calls::LARGEST_B_LIST);
        let step = Step { call: Call::Split, words: vec![], lent: vec![input, a, b] };
        let (answer, lent) = self.step(step);
        let length = answer.ok()? as usize;
        let (a, b) = (&lent[1].bytes()[..length], &lent[2].bytes()[..order.len() - length]);
        Some((a.to_vec(), b.to_vec()))
    }

    pub fn join(&mut self, a: &[u8], b: &[u8]) -> (Answer, Vec<u8>) {
        let (a, b) = (self.input("a", a), self.input("b", b));
        let order = self.output("order", &[], calls::LARGEST_ORDER_SHEET);
        let step = Step { call: Call::Join, words: vec![], lent: vec![a, b, order] };
        let (answer, lent) = self.step(step);
        let length = answer.unwrap_or_default() as usize;
        (answer, lent[2].bytes()[..length].to_vec())
    }

    pub fn rule(&mut self, record: &[u8]) -> (Answer, Vec<u32>) {
        let record = self.input("record", record);
        let numbers = self.numbers("numbers", calls::RULE_NUMBERS);
        let step = Step { call: Call::Rule, words: vec![], lent: vec![record, numbers] };
        let (answer, lent) = self.step(step);
        (answer, lent[1].numbers())
    }

    pub fn record(&mut self, numbers: &[u32]) -> (Answer, Vec<u8>) {
        let given = numbers.len();
        let numbers = Lent::of_numbers("numbers", numbers, given, &mut self.random);
        let record = self.output("record", &[], sheets::RECORD_BYTES);
        let step = Step { call: Call::Record, words: vec![], lent: vec![numbers, record] };
        let (answer, lent) = self.step(step);
        (answer, lent[1].bytes().to_vec())
    }
}
