//! The calls on lent buffers: the answer, and what is left in each buffer (01, "Calls", "Numbers
//! given back"; 02, W1 and W3).

use crate::model::boxes::{self, Group, Origin, Packet, Rule};
use crate::model::refusals::{Fault, Part, Refusal};
use crate::model::reports::{self, Load, TOTALS};
use crate::model::sheets::{self, OrderSheet, PairSheet, SECTION_A, SECTION_B};

pub const LARGEST_ORDER_SHEET: usize = 8_644;
pub const LARGEST_PAIR_SHEET: usize = 28_742;
pub const LARGEST_LIST: usize = 27_650;
pub const GATE_LIST: usize = 29;
pub const LARGEST_A_LIST: usize = 1_730;
pub const LARGEST_B_LIST: usize = 6_914;
pub const WORK: usize = 53_248;
pub const RULE_NUMBERS: usize = 11;
pub const ORIGIN_NUMBERS: usize = 3;
pub const HITS: usize = 1_024;
pub const REFUSED: u32 = 65_536;

pub type Answer = Result<u64, Refusal>;

/// The one number of the C surface.
pub fn encode(answer: Answer) -> u32 {
    match answer {
        Ok(value) => value as u32,
        Err(refusal) => REFUSED + refusal.number(),
    }
}

fn lent(part: Part, length: usize, least: usize) -> Result<(), Refusal> {
    match length < least {
        true => Err(Refusal::new(part, Fault::ShortBuffer)),
        false => Ok(()),
    }
}

/// An accepted output: the content, zero behind it up to `end`, the rest as it was.
fn deliver(buffer: &mut [u8], content: &[u8], end: usize) {
    buffer[..content.len()].copy_from_slice(content);
    buffer[content.len()..end].fill(0);
}

/// No call leaves anything of its work behind; a call refused with 1 does not come this far.
fn clear(work: &mut [u8]) {
    work[..WORK].fill(0);
}

fn within_limit(groups: &[Group], own: usize, part: Part) -> Result<(), Refusal> {
    let boxes: usize = groups.iter().map(Vec::len).sum();
    match (boxes + own) as u64 > sheets::MOST_LIST_RULES {
        true => Err(Refusal::new(part, Fault::TooManyBoxes)),
        false => Ok(()),
    }
}

/// The move by itself, without buffers.
pub fn moved(order: &[u8]) -> Result<PairSheet, Refusal> {
    let OrderSheet { gate, own } = sheets::read_order(order)?;
    let groups = boxes::groups(&gate)?;
    within_limit(&groups, own.len(), Part::C)?;
    Ok(PairSheet { gate, own, groups })
}

/// Move; the plain word is taken by the language.
pub fn move_pair(order: &[u8], sheet: &mut [u8], work: &mut [u8]) -> Answer {
    lent(Part::Sheet, sheet.len(), LARGEST_PAIR_SHEET)?;
    lent(Part::Work, work.len(), WORK)?;
    clear(work);
    let bytes = sheets::pair_bytes(&moved(order)?);
    deliver(sheet, &bytes, LARGEST_PAIR_SHEET);
    Ok(bytes.len() as u64)
}

pub enum Change<'r> {
    Insert(&'r [u8]),
    Delete,
    Replace(&'r [u8]),
}

impl Change<'_> {
    fn record(&self) -> Option<&[u8]> {
        match self {
            Change::Insert(record) | Change::Replace(record) => Some(record),
            Change::Delete => None,
        }
    }

    fn takes_out(&self) -> bool {
        !matches!(self, Change::Insert(_))
    }

    /// The first place that does not exist.
    fn end_of_places(&self, count: usize) -> u64 {
        count as u64 + u64::from(!self.takes_out())
    }

    fn new_count(&self, count: usize) -> u64 {
        count as u64 + u64::from(self.record().is_some()) - u64::from(self.takes_out())
    }
}

pub struct Edit<'r> {
    pub list: u64,
    pub place: u64,
    pub change: Change<'r>,
}

pub fn edit(sheet: &mut [u8], used: u64, edit: &Edit, work: &mut [u8]) -> Answer {
    lent(Part::Sheet, sheet.len(), LARGEST_PAIR_SHEET)?;
    lent(Part::Work, work.len(), WORK)?;
    if used > sheet.len() as u64 {
        return Err(Refusal::new(Part::Sheet, Fault::StatedLength));
    }
    clear(work);
    let pair = sheets::read_pair(&sheet[..used as usize])?;
    let bytes = sheets::pair_bytes(&edited(pair, edit)?);
    deliver(sheet, &bytes, LARGEST_PAIR_SHEET);
    Ok(bytes.len() as u64)
}

fn edited(pair: PairSheet, edit: &Edit) -> Result<PairSheet, Refusal> {
    match edit.list {
        0 => edited_gate(pair, edit),
        1 => edited_own(pair, edit),
        _ => Err(Refusal::new(Part::Sheet, Fault::NoSuchList)),
    }
}

fn edited_gate(pair: PairSheet, edit: &Edit) -> Result<PairSheet, Refusal> {
    let put = tested_edit(edit, &pair.gate, Part::NewA, sheets::MOST_GATE_RULES)?;
    let mut lines = with_groups(pair.gate, pair.groups);
    let taken = change_line(&mut lines, edit, put.clone().map(|rule| Line { rule, group: None }));
    let allow_changed =
        put.is_some_and(|rule| rule.allows()) || taken.is_some_and(|line| line.rule.allows());
    if allow_changed {
        lines[edit.place as usize..].iter_mut().for_each(|line| line.group = None);
    }
    let gate: Vec<Rule> = lines.iter().map(|line| line.rule.clone()).collect();
    complete(&gate, Part::NewA)?;
    let groups = groups_of(&lines, &gate)?;
    within_limit(&groups, pair.own.len(), Part::NewA)?;
    Ok(PairSheet { gate, own: pair.own, groups })
}

fn edited_own(mut pair: PairSheet, edit: &Edit) -> Result<PairSheet, Refusal> {
    let put = tested_edit(edit, &pair.own, Part::NewB, sheets::MOST_OWN_RULES)?;
    change_line(&mut pair.own, edit, put);
    complete(&pair.own, Part::NewB)?;
    within_limit(&pair.groups, pair.own.len(), Part::NewB)?;
    Ok(pair)
}

/// Place, record length, new count, record, in this order; the rule to put in, if any.
fn tested_edit(edit: &Edit, old: &[Rule], part: Part, most: u64) -> Result<Option<Rule>, Refusal> {
    let refuses = |fault| Err(Refusal::new(part, fault));
    if edit.place >= edit.change.end_of_places(old.len()) {
        return refuses(Fault::NoSuchPlace);
    }
    if edit.change.record().is_some_and(|record| record.len() != sheets::RECORD_BYTES) {
        return refuses(Fault::RecordLength);
    }
    let count = edit.change.new_count(old.len());
    if count < 1 || count > most {
        return refuses(Fault::CountLimits);
    }
    match edit.change.record().map(sheets::read_rule) {
        Some(None) => refuses(Fault::BadRecord),
        Some(put) => Ok(put),
        None => Ok(None),
    }
}

fn complete(rules: &[Rule], part: Part) -> Result<(), Refusal> {
    match sheets::is_complete(rules) {
        true => Ok(()),
        false => Err(Refusal::new(part, Fault::NotComplete)),
    }
}

/// A gate rule with the group that stands for it, if it is a deny whose group is kept.
struct Line {
    rule: Rule,
    group: Option<Group>,
}

fn with_groups(gate: Vec<Rule>, groups: Vec<Group>) -> Vec<Line> {
    let mut groups = groups.into_iter();
    let line = |rule: Rule| {
        let group = if rule.allows() { None } else { groups.next() };
        Line { rule, group }
    };
    gate.into_iter().map(line).collect()
}

/// Takes out what the edit takes out, puts in what it puts in; what was taken comes back.
fn change_line<T>(lines: &mut Vec<T>, edit: &Edit, put: Option<T>) -> Option<T> {
    let place = edit.place as usize;
    let taken = edit.change.takes_out().then(|| lines.remove(place));
    if let Some(line) = put {
        lines.insert(place, line);
    }
    taken
}

/// Kept groups as they stand, the others worked out anew.
fn groups_of(lines: &[Line], gate: &[Rule]) -> Result<Vec<Group>, Refusal> {
    let group_at = |place: usize| match &lines[place].group {
        Some(kept) => Ok(kept.clone()),
        None => boxes::group(&gate[place].area, &gate[..place], Part::NewA),
    };
    boxes::denies(gate).map(group_at).collect()
}

/// A pair sheet that is not stale.
pub fn checked(bytes: &[u8]) -> Result<PairSheet, Refusal> {
    let pair = sheets::read_pair(bytes)?;
    match boxes::groups(&pair.gate)? == pair.groups {
        true => Ok(pair),
        false => Err(Refusal::new(Part::C, Fault::GroupsDiffer)),
    }
}

pub fn check(sheet: &[u8], work: &mut [u8]) -> Answer {
    lent(Part::Work, work.len(), WORK)?;
    clear(work);
    checked(sheet).map(|_| 0)
}

pub fn cell_list(sheet: &[u8], list: &mut [u8], work: &mut [u8]) -> Answer {
    let cell = |pair: &PairSheet| boxes::cell_rules(&pair.groups, &pair.own);
    list_call(sheet, list, work, LARGEST_LIST, cell)
}

pub fn gate_list(sheet: &[u8], list: &mut [u8], work: &mut [u8]) -> Answer {
    list_call(sheet, list, work, GATE_LIST, |_| boxes::gate_rules())
}

fn list_call(
    sheet: &[u8],
    list: &mut [u8],
    work: &mut [u8],
    end: usize,
    rules: impl Fn(&PairSheet) -> Vec<Rule>,
) -> Answer {
    lent(Part::List, list.len(), end)?;
    lent(Part::Work, work.len(), WORK)?;
    clear(work);
    let bytes = sheets::list_bytes(&rules(&checked(sheet)?));
    deliver(list, &bytes, end);
    Ok(bytes.len() as u64)
}

/// Completeness is not asked, and no record behind the first that fits is looked at.
pub fn lookup(packet: &Packet, list: &[u8]) -> Answer {
    let refuses = |fault| Refusal::new(Part::List, fault);
    let (count, records) =
        sheets::read_number(list, sheets::COUNT_BYTES).ok_or(refuses(Fault::CountMissing))?;
    if count < 1 || count > sheets::MOST_LIST_RULES {
        return Err(refuses(Fault::CountLimits));
    }
    let length = count as usize * sheets::RECORD_BYTES;
    if records.len() < length {
        return Err(refuses(Fault::RecordsMissing));
    }
    sheets::read_end(&records[length..], Part::List)?;
    for (place, record) in records.chunks(sheets::RECORD_BYTES).enumerate() {
        let rule = sheets::read_rule(record).ok_or(refuses(Fault::BadRecord))?;
        if rule.area.has(packet) {
            return Ok(2 * place as u64 + rule.action.number());
        }
    }
    Err(refuses(Fault::NoRuleFits))
}

/// The same in a table of rules given as numbers, eleven each, where nothing can be missing. For
/// the same records every answer is the one above.
pub fn lookup_table(packet: &Packet, table: &[u32]) -> Answer {
    let refuses = |fault| Refusal::new(Part::Numbers, fault);
    let rules = table.chunks(RULE_NUMBERS);
    if rules.len() < 1 || rules.len() as u64 > sheets::MOST_LIST_RULES {
        return Err(refuses(Fault::CountLimits));
    }
    for (place, numbers) in rules.enumerate() {
        let values: Vec<u64> = numbers.iter().map(|&number| number.into()).collect();
        let rule = sheets::rule_of_numbers(&values).ok_or(refuses(Fault::BadRecord))?;
        if rule.area.has(packet) {
            return Ok(2 * place as u64 + rule.action.number());
        }
    }
    Err(refuses(Fault::NoRuleFits))
}

/// The answer is the lookup's in the cell list of the sheet; the numbers say whose rule it was.
pub fn origin(packet: &Packet, sheet: &[u8], numbers: &mut [u32], work: &mut [u8]) -> Answer {
    lent(Part::Numbers, numbers.len(), ORIGIN_NUMBERS)?;
    lent(Part::Work, work.len(), WORK)?;
    clear(work);
    let PairSheet { gate, own, groups } = checked(sheet)?;
    let (place, action, origin) = boxes::first_origin(&gate, &groups, &own, packet)
        .ok_or(Refusal::new(Part::Sheet, Fault::NoRuleFits))?;
    numbers[..ORIGIN_NUMBERS].copy_from_slice(&origin_numbers(origin));
    Ok(2 * place as u64 + action.number())
}

/// The list (0 the gate's, 1 the cell's own), the rule's place in it, the box in its group.
pub fn origin_numbers(origin: Origin) -> [u32; ORIGIN_NUMBERS] {
    match origin {
        Origin::Gate { place, number } => [0, place as u32, number as u32],
        Origin::Own { place } => [1, place as u32, 0],
    }
}

/// The answer is the number of places; hits behind them are zero up to 1,024.
pub fn report(
    sheet: &[u8],
    load: &Load,
    totals: &mut [u64],
    hits: &mut [u32],
    work: &mut [u8],
) -> Answer {
    lent(Part::Totals, totals.len(), TOTALS)?;
    lent(Part::Hits, hits.len(), HITS)?;
    lent(Part::Work, work.len(), WORK)?;
    clear(work);
    let report = reports::report(&checked(sheet)?, load)?;
    totals[..TOTALS].copy_from_slice(&report.counts.totals());
    hits[..HITS].fill(0);
    hits.iter_mut().zip(&report.hits).for_each(|(hit, &counted)| *hit = counted as u32);
    Ok(report.hits.len() as u64)
}

pub fn split(order: &[u8], a: &mut [u8], b: &mut [u8]) -> Answer {
    lent(Part::A, a.len(), LARGEST_A_LIST)?;
    lent(Part::B, b.len(), LARGEST_B_LIST)?;
    let OrderSheet { gate, own } = sheets::read_order(order)?;
    let gate = sheets::list_bytes(&gate);
    deliver(a, &gate, LARGEST_A_LIST);
    deliver(b, &sheets::list_bytes(&own), LARGEST_B_LIST);
    Ok(gate.len() as u64)
}

/// A is read whole, left-over bytes last, before anything of B.
pub fn join(a: &[u8], b: &[u8], order: &mut [u8]) -> Answer {
    lent(Part::Order, order.len(), LARGEST_ORDER_SHEET)?;
    let (gate, rest) = SECTION_A.read(a)?;
    sheets::read_end(rest, Part::A)?;
    let (own, rest) = SECTION_B.read(b)?;
    sheets::read_end(rest, Part::B)?;
    let bytes = sheets::order_bytes(&gate, &own);
    deliver(order, &bytes, LARGEST_ORDER_SHEET);
    Ok(bytes.len() as u64)
}

/// A record to a rule as numbers.
pub fn rule(record: &[u8], numbers: &mut [u32]) -> Answer {
    lent(Part::Numbers, numbers.len(), RULE_NUMBERS)?;
    if record.len() != sheets::RECORD_BYTES {
        return Err(Refusal::new(Part::Record, Fault::RecordLength));
    }
    let rule = sheets::read_rule(record).ok_or(Refusal::new(Part::Record, Fault::BadRecord))?;
    let values = sheets::numbers_of_rule(&rule);
    numbers.iter_mut().zip(values).for_each(|(number, value)| *number = value as u32);
    Ok(0)
}

/// A rule as numbers to a record.
pub fn record(numbers: &[u32], record: &mut [u8]) -> Answer {
    lent(Part::Numbers, numbers.len(), RULE_NUMBERS)?;
    lent(Part::Record, record.len(), sheets::RECORD_BYTES)?;
    let values: Vec<u64> = numbers[..RULE_NUMBERS].iter().map(|&number| number.into()).collect();
    let rule =
        sheets::rule_of_numbers(&values).ok_or(Refusal::new(Part::Record, Fault::BadRecord))?;
    deliver(record, &sheets::rule_bytes(&rule), sheets::RECORD_BYTES);
    Ok(sheets::RECORD_BYTES as u64)
}
