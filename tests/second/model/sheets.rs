//! Records, sheets and lists as bytes: 01, "Sheets", read in the order of "Numbers given back".

use crate::model::boxes::{Action, Group, PacketBox, Range, Rule, FIELDS, HIGHEST};
use crate::model::refusals::{Fault, Part, Refusal};

pub const WIDTH: [usize; FIELDS] = [4, 4, 2, 2, 1];
pub const COUNT_BYTES: usize = 2;
pub const BOX_BYTES: usize = 26;
pub const RECORD_BYTES: usize = 27;

pub const MOST_GATE_RULES: u64 = 64;
pub const MOST_OWN_RULES: u64 = 256;
pub const MOST_LIST_RULES: u64 = 1_024;

pub struct OrderSheet {
    pub gate: Vec<Rule>,
    pub own: Vec<Rule>,
}

#[derive(Clone, PartialEq, Debug)]
pub struct PairSheet {
    pub gate: Vec<Rule>,
    pub own: Vec<Rule>,
    pub groups: Vec<Group>,
}

/// What was read, and the bytes behind it.
type Reached<'b, T> = (T, &'b [u8]);

fn split_off(bytes: &[u8], length: usize) -> Option<Reached<'_, &[u8]>> {
    (length <= bytes.len()).then(|| bytes.split_at(length))
}

/// A big-endian number of `width` bytes.
pub fn read_number(bytes: &[u8], width: usize) -> Option<Reached<'_, u64>> {
    let (digits, rest) = split_off(bytes, width)?;
    Some((digits.iter().fold(0, |number, &digit| number * 256 + u64::from(digit)), rest))
}

/// The box in the first 26 bytes, unless some low is above its high.
pub fn read_box(bytes: &[u8]) -> Option<Reached<'_, PacketBox>> {
    let (mut area, mut rest) = (PacketBox::full(), bytes);
    for field in 0..FIELDS {
        let (low, after_low) = read_number(rest, WIDTH[field])?;
        let (high, after_high) = read_number(after_low, WIDTH[field])?;
        if low > high {
            return None;
        }
        area.ranges[field] = Range { low, high };
        rest = after_high;
    }
    Some((area, rest))
}

pub fn read_rule(record: &[u8]) -> Option<Rule> {
    let (area, rest) = read_box(record)?;
    match rest {
        [0] => Some(Rule::new(area, Action::Deny)),
        [1] => Some(Rule::new(area, Action::Allow)),
        _ => None,
    }
}

/// Section A, section B or the like: where it is and how many records it may hold.
#[derive(Clone, Copy)]
pub struct Section {
    pub part: Part,
    pub most: u64,
}

pub const SECTION_A: Section = Section { part: Part::A, most: MOST_GATE_RULES };
pub const SECTION_B: Section = Section { part: Part::B, most: MOST_OWN_RULES };

impl Section {
    fn refuses(self, fault: Fault) -> Refusal {
        Refusal::new(self.part, fault)
    }

    /// Count present, its limits, all records present, each record, last rule.
    pub fn read(self, bytes: &[u8]) -> Result<Reached<'_, Vec<Rule>>, Refusal> {
        let (count, rest) =
            read_number(bytes, COUNT_BYTES).ok_or(self.refuses(Fault::CountMissing))?;
        if count < 1 || count > self.most {
            return Err(self.refuses(Fault::CountLimits));
        }
        let (records, rest) = split_off(rest, count as usize * RECORD_BYTES)
            .ok_or(self.refuses(Fault::RecordsMissing))?;
        let rules: Option<Vec<Rule>> = records.chunks(RECORD_BYTES).map(read_rule).collect();
        let rules = rules.ok_or(self.refuses(Fault::BadRecord))?;
        if !is_complete(&rules) {
            return Err(self.refuses(Fault::NotComplete));
        }
        Ok((rules, rest))
    }
}

pub fn is_complete(rules: &[Rule]) -> bool {
    rules.last().is_some_and(|rule| rule.area.is_full())
}

/// The end of a sheet or list: nothing may be left over.
pub fn read_end(rest: &[u8], part: Part) -> Result<(), Refusal> {
    match rest {
        [] => Ok(()),
        _ => Err(Refusal::new(part, Fault::LeftOver)),
    }
}

pub fn read_order(bytes: &[u8]) -> Result<OrderSheet, Refusal> {
    let (gate, rest) = SECTION_A.read(bytes)?;
    let (own, rest) = SECTION_B.read(rest)?;
    read_end(rest, Part::Order)?;
    Ok(OrderSheet { gate, own })
}

pub fn read_pair(bytes: &[u8]) -> Result<PairSheet, Refusal> {
    let (gate, rest) = SECTION_A.read(bytes)?;
    let (own, rest) = SECTION_B.read(rest)?;
    let denies = gate.iter().filter(|rule| !rule.allows()).count();
    let (groups, rest) = read_groups(rest, denies, own.len())?;
    read_end(rest, Part::Sheet)?;
    Ok(PairSheet { gate, own, groups })
}

/// Section C: the count and that it is A's number of deny rules, then group after group.
fn read_groups(
    bytes: &[u8],
    denies: usize,
    own: usize,
) -> Result<Reached<'_, Vec<Group>>, Refusal> {
    let refuses = |fault| Refusal::new(Part::C, fault);
    let (count, mut rest) = read_number(bytes, COUNT_BYTES).ok_or(refuses(Fault::CountMissing))?;
    if count != denies as u64 {
        return Err(refuses(Fault::GroupCount));
    }
    let (mut groups, mut total) = (Vec::new(), own as u64);
    for _ in 0..count {
        let (boxes, after) =
            read_number(rest, COUNT_BYTES).ok_or(refuses(Fault::GroupCountMissing))?;
        total += boxes;
        if total > MOST_LIST_RULES {
            return Err(refuses(Fault::TooManyBoxes));
        }
        let (group, after) = read_group(after, boxes as usize)?;
        groups.push(group);
        rest = after;
    }
    Ok((groups, rest))
}

fn read_group(bytes: &[u8], boxes: usize) -> Result<Reached<'_, Group>, Refusal> {
    let (records, rest) =
        split_off(bytes, boxes * BOX_BYTES).ok_or(Refusal::new(Part::C, Fault::RecordsMissing))?;
    let read = |record| read_box(record).map(|(area, _)| area);
    let group: Option<Group> = records.chunks(BOX_BYTES).map(read).collect();
    Ok((group.ok_or(Refusal::new(Part::C, Fault::BadRecord))?, rest))
}

pub fn number_bytes(number: u64, width: usize) -> Vec<u8> {
    number.to_be_bytes()[8 - width..].to_vec()
}

pub fn count_bytes(count: usize) -> Vec<u8> {
    number_bytes(count as u64, COUNT_BYTES)
}

pub fn box_bytes(area: &PacketBox) -> Vec<u8> {
    let ends = |field: usize| {
        let range = area.ranges[field];
        [number_bytes(range.low, WIDTH[field]), number_bytes(range.high, WIDTH[field])].concat()
    };
    (0..FIELDS).flat_map(ends).collect()
}

pub fn rule_bytes(rule: &Rule) -> Vec<u8> {
    let mut record = box_bytes(&rule.area);
    record.push(rule.action.number() as u8);
    record
}

/// A count and its records: section A, section B and every list look like this.
pub fn list_bytes(rules: &[Rule]) -> Vec<u8> {
    let records: Vec<Vec<u8>> = rules.iter().map(rule_bytes).collect();
    counted_bytes(&records)
}

pub fn counted_bytes(records: &[Vec<u8>]) -> Vec<u8> {
    [count_bytes(records.len()), records.concat()].concat()
}

pub fn order_bytes(gate: &[Rule], own: &[Rule]) -> Vec<u8> {
    [list_bytes(gate), list_bytes(own)].concat()
}

pub fn pair_bytes(pair: &PairSheet) -> Vec<u8> {
    let boxes = |group: &Group| counted_bytes(&group.iter().map(box_bytes).collect::<Vec<_>>());
    let groups: Vec<Vec<u8>> = pair.groups.iter().map(boxes).collect();
    [order_bytes(&pair.gate, &pair.own), counted_bytes(&groups)].concat()
}

/// A rule given as numbers: five lows, five highs, the action.
pub fn rule_of_numbers(numbers: &[u64]) -> Option<Rule> {
    let mut area = PacketBox::full();
    for field in 0..FIELDS {
        let (low, high) = (numbers[field], numbers[FIELDS + field]);
        if low > high || high > HIGHEST[field] {
            return None;
        }
        area.ranges[field] = Range { low, high };
    }
    match numbers[2 * FIELDS] {
        0 => Some(Rule::new(area, Action::Deny)),
        1 => Some(Rule::new(area, Action::Allow)),
        _ => None,
    }
}

/// A record's eleven numbers, whether they make a rule or not.
pub fn numbers_of_record(record: &[u8]) -> Vec<u32> {
    let (mut lows, mut highs, mut rest) = (Vec::new(), Vec::new(), record);
    for width in WIDTH {
        for ends in [&mut lows, &mut highs] {
            let (number, after) = read_number(rest, width).expect("a record is whole");
            ends.push(number as u32);
            rest = after;
        }
    }
    [lows, highs, vec![u32::from(rest[0])]].concat()
}

pub fn numbers_of_rule(rule: &Rule) -> Vec<u64> {
    let lows = rule.area.ranges.iter().map(|range| range.low);
    let highs = rule.area.ranges.iter().map(|range| range.high);
    lows.chain(highs).chain([rule.action.number()]).collect()
}
