//! The model's calls with one fault each, named by FOLDPLOVER_BROKEN; without a name they are
//! the model's calls. Every fault is one that a hurried reading of 01 could bring about.

use std::sync::OnceLock;

use crate::mirror::broken_cut;
use crate::model::before;
use crate::model::boxes::{self, Group, Packet, PacketBox, Rule, HIGHEST};
use crate::model::calls::{self, encode, Change, Edit, LARGEST_PAIR_SHEET, REFUSED, WORK};
use crate::model::sheets::{self, PairSheet, RECORD_BYTES};

/// The fault's name; empty where there is none.
pub fn name() -> &'static str {
    static NAME: OnceLock<String> = OnceLock::new();
    NAME.get_or_init(|| std::env::var("FOLDPLOVER_BROKEN").unwrap_or_default())
}

pub fn shows(fault: &str) -> bool {
    name() == fault
}

pub fn accepted(answer: u32) -> bool {
    answer < REFUSED
}

pub fn refused(number: u32) -> u32 {
    REFUSED + number
}

/// Puts the byte at `place` back, as if nobody had written it.
fn put_back(buffer: &mut [u8], before: &[u8], place: usize) {
    if place < buffer.len() {
        buffer[place] = before[place];
    }
}

fn clear_at(buffer: &mut [u8], place: usize) {
    if place < buffer.len() {
        buffer[place] = 0;
    }
}

fn spoil_work(answer: u32, before: &[u8], work: &mut [u8]) {
    if answer == refused(1) {
        if shows("work-cleared-on-1") {
            work.fill(0);
        }
        return;
    }
    if shows("work-end-dirty") {
        put_back(work, before, WORK - 1);
    }
    if shows("work-dirty-on-refusal") && !accepted(answer) {
        put_back(work, before, 0);
    }
    if shows("work-cleared-too-far") {
        clear_at(work, WORK);
    }
}

fn spoil_sheet(answer: u32, before: &[u8], sheet: &mut [u8]) {
    if shows("zero-end-short") && accepted(answer) {
        put_back(sheet, before, LARGEST_PAIR_SHEET - 1);
    }
    if shows("zero-end-long") && accepted(answer) {
        clear_at(sheet, LARGEST_PAIR_SHEET);
    }
}

/// Changes the pair in an accepted sheet and writes it again.
fn rewrite(answer: &mut u32, sheet: &mut [u8], change: impl FnOnce(&mut PairSheet)) {
    if !accepted(*answer) {
        return;
    }
    if let Ok(mut pair) = sheets::read_pair(&sheet[..*answer as usize]) {
        change(&mut pair);
        let bytes = sheets::pair_bytes(&pair);
        let length = bytes.len().min(LARGEST_PAIR_SHEET);
        sheet[..LARGEST_PAIR_SHEET].fill(0);
        sheet[..length].copy_from_slice(&bytes[..length]);
        *answer = length as u32;
    }
}

/// What an allow leaves of the pieces.
type Take = fn(&[PacketBox], &PacketBox) -> Vec<PacketBox>;

/// Groups by the cut `take` and without the limit of 6.
pub fn unlimited(gate: &[Rule], take: Take) -> Vec<Group> {
    unlimited_behind(gate, take, |place| &gate[..place])
}

/// The same, every deny behind the rules that `earlier` gives for it.
fn unlimited_behind<'g>(
    gate: &'g [Rule],
    take: Take,
    earlier: impl Fn(usize) -> &'g [Rule],
) -> Vec<Group> {
    let group = |place: usize| {
        let allows = earlier(place).iter().filter(|rule| rule.allows());
        allows.fold(vec![gate[place].area.clone()], |pieces, rule| take(&pieces, &rule.area))
    };
    boxes::denies(gate).map(group).collect()
}

pub fn total(groups: &[Group]) -> usize {
    groups.iter().map(Vec::len).sum()
}

pub fn move_pair(order: &[u8], sheet: &mut [u8], work: &mut [u8]) -> u32 {
    let (sheet_before, work_before) = (sheet.to_vec(), work.to_vec());
    let mut answer = encode(calls::move_pair(order, sheet, work));
    if let Ok(read) = sheets::read_order(order) {
        answer = limits_confused(answer, &read.gate, read.own.len());
    } else if shows("1-not-first") && answer == refused(1) {
        answer = encode(calls::moved(order).map(|_| 0));
    }
    rewrite(&mut answer, sheet, |pair| {
        if shows("pieces-reversed") {
            pair.groups.iter_mut().for_each(|group| group.reverse());
        }
        if shows("later-allows") {
            pair.groups = unlimited_behind(&pair.gate, boxes::take, |_| &pair.gate);
        }
        if shows("same-sheet-always") {
            pair.groups = vec![Vec::new(); pair.groups.len()];
        }
        broken_cut::cut_confused(pair);
    });
    if shows("refuses-everything") {
        sheet.copy_from_slice(&sheet_before);
        answer = refused(7);
    }
    spoil_sheet(answer, &sheet_before, sheet);
    spoil_work(answer, &work_before, work);
    answer
}

/// The most pieces that any pass over any deny leaves.
fn most_pieces(gate: &[Rule]) -> usize {
    let passes = (0..gate.len())
        .map(|end| unlimited_behind(gate, boxes::take, |place| &gate[..place.min(end)]));
    passes.flat_map(|groups| groups.into_iter().map(|group| group.len())).max().unwrap_or(0)
}

fn limits_confused(answer: u32, gate: &[Rule], own: usize) -> u32 {
    if shows("6-at-1024") && answer != refused(1) && most_pieces(gate) == 1_024 {
        return refused(6);
    }
    if shows("6-from-1026") && answer == refused(6) && most_pieces(gate) == 1_025 {
        return refused(7);
    }
    if accepted(answer) {
        return limits_of_before(answer, gate, own);
    }
    if answer != refused(6) {
        return answer;
    }
    let groups = unlimited(gate, boxes::take);
    let too_many_boxes = total(&groups) + own > 1_024;
    if shows("7-before-6") && too_many_boxes {
        return refused(7);
    }
    if shows("6-at-the-end") && groups.iter().all(|group| group.len() <= 1_024) {
        return if too_many_boxes { refused(7) } else { 0 };
    }
    answer
}

/// 6 and 7 by the pieces that the cut before W2 would have made.
fn limits_of_before(answer: u32, gate: &[Rule], own: usize) -> u32 {
    if shows("6-counts-pieces-of-before") && before::groups(gate).is_none() {
        return refused(6);
    }
    let too_many = |groups: Vec<Group>| total(&groups) + own > 1_024;
    if shows("7-counts-boxes-of-before") && before::groups(gate).is_some_and(too_many) {
        return refused(7);
    }
    answer
}

pub fn edit(sheet: &mut [u8], used: u64, mut edit: Edit, work: &mut [u8]) -> u32 {
    let (sheet_before, work_before) = (sheet.to_vec(), work.to_vec());
    let old = usize::try_from(used).ok().and_then(|used| sheet.get(..used)).map(sheets::read_pair);
    let used = if shows("used-cut") { used & 0xffff_ffff } else { used };
    words_confused(&mut edit);
    if shows("used-up-refused") && used == sheet.len() as u64 {
        return refused(1);
    }
    let mut answer = encode(calls::edit(sheet, used, &edit, work));
    if let Some(Ok(old)) = old {
        answer = order_confused(answer, &edit, &old);
        answer = broken_cut::edit_limits_of_before(answer, sheet, &edit, &old);
        groups_confused(&mut answer, sheet, &edit, &old);
    }
    if shows("edit-moves-again-for-7") && answer == refused(7) {
        answer = broken_cut::edit_moved_again(sheet, used, &edit);
    }
    if shows("edit-does-nothing") && accepted(answer) {
        sheet.copy_from_slice(&sheet_before);
        answer = used as u32;
    }
    if shows("refusal-clears-tail") && !accepted(answer) && used < LARGEST_PAIR_SHEET as u64 {
        let end = sheet.len().min(LARGEST_PAIR_SHEET);
        sheet.get_mut(used as usize..end).unwrap_or_default().fill(0);
    }
    spoil_sheet(answer, &sheet_before, sheet);
    spoil_work(answer, &work_before, work);
    answer
}

fn words_confused(edit: &mut Edit) {
    if shows("place-cut") {
        edit.place &= 0xffff;
    }
    if shows("place-wraps") && edit.place == u64::MAX {
        edit.place = 0;
    }
    if shows("list-low-bit") {
        edit.list &= 1;
    }
    if let (Change::Insert(record), true) = (&mut edit.change, shows("record-28-accepted")) {
        *record = &record[..record.len().min(RECORD_BYTES)];
    }
}

fn order_confused(answer: u32, edit: &Edit, old: &PairSheet) -> u32 {
    let record = match edit.change {
        Change::Insert(record) | Change::Replace(record) => Some(record),
        Change::Delete => None,
    };
    let short_record = record.is_some_and(|record| record.len() != RECORD_BYTES);
    let bad_record = record.is_some_and(|record| sheets::read_rule(record).is_none());
    if shows("3-before-9") && answer == refused(9) && short_record {
        return refused(3);
    }
    if shows("4-before-2") && answer == refused(2) && bad_record {
        return refused(4);
    }
    let count = if edit.list == 0 { old.gate.len() } else { old.own.len() };
    if shows("insert-at-end-refused") && accepted(answer) && edit.place == count as u64 {
        return refused(9);
    }
    if shows("edit-compares-groups") && accepted(answer) {
        return match boxes::groups(&old.gate) {
            Ok(groups) if groups == old.groups => answer,
            _ => refused(8),
        };
    }
    if shows("6-over-kept-groups") && accepted(answer) && boxes::groups(&old.gate).is_err() {
        return refused(6);
    }
    answer
}

fn groups_confused(answer: &mut u32, sheet: &mut [u8], edit: &Edit, old: &PairSheet) {
    let place = edit.place as usize;
    let taken_allows = old.gate.get(place).is_some_and(Rule::allows);
    let of_gate = edit.list == 0;
    rewrite(answer, sheet, |pair| {
        let deleted = matches!(edit.change, Change::Delete);
        if shows("stale-after-allow-delete") && of_gate && deleted && taken_allows {
            pair.groups = old.groups.clone();
        }
        let replaced = matches!(edit.change, Change::Replace(_));
        let denies_both = !taken_allows && !pair.gate.get(place).is_some_and(Rule::allows);
        if shows("replace-keeps-own-group") && of_gate && replaced && denies_both {
            let group = pair.gate[..place].iter().filter(|rule| !rule.allows()).count();
            pair.groups[group] = old.groups[group].clone();
        }
        let renews_all = shows("own-edit-renews-groups") && !of_gate
            || shows("gate-edit-renews-all-groups") && of_gate;
        if renews_all {
            pair.groups = unlimited(&pair.gate, boxes::take);
        }
        if shows("edit-cuts-as-before-w2") && of_gate {
            broken_cut::renew_as_before(pair, edit, old);
        }
    });
}

pub fn check(sheet: &[u8], work: &mut [u8]) -> u32 {
    let before = work.to_vec();
    let answer = encode(calls::check(sheet, work));
    let answer = check_confused(answer, sheet);
    spoil_work(answer, &before, work);
    answer
}

fn check_confused(answer: u32, sheet: &[u8]) -> u32 {
    let Ok(pair) = sheets::read_pair(sheet) else {
        return answer;
    };
    if shows("check-says-yes") && answer == refused(8) {
        return 0;
    }
    if shows("check-takes-groups-of-before") && answer == refused(8) {
        return if broken_cut::moved_before(sheet).is_some() { 0 } else { answer };
    }
    if shows("check-compares-counts") && answer == refused(8) {
        let groups = unlimited(&pair.gate, boxes::take);
        let same = groups.iter().map(Vec::len).eq(pair.groups.iter().map(Vec::len));
        return if same { 0 } else { answer };
    }
    if shows("check-says-7") && answer == refused(8) {
        let groups = unlimited(&pair.gate, boxes::take);
        return if total(&groups) + pair.own.len() > 1_024 { refused(7) } else { answer };
    }
    if shows("check-says-8-for-6") && answer == refused(6) {
        return refused(8);
    }
    let too_many_before = || answer != refused(1) && before::groups(&pair.gate).is_none();
    if shows("check-6-counts-pieces-of-before") && too_many_before() {
        return refused(6);
    }
    answer
}

pub fn cell_list(sheet: &[u8], list: &mut [u8], work: &mut [u8]) -> u32 {
    let (before, work_before) = (list.to_vec(), work.to_vec());
    let answer = encode(calls::cell_list(sheet, list, work));
    if shows("cell-list-zero-short") && accepted(answer) {
        put_back(list, &before, calls::LARGEST_LIST - 1);
    }
    if shows("own-rules-first") && accepted(answer) {
        let own = sheets::read_pair(sheet).map_or(0, |pair| pair.own.len());
        list[2..answer as usize].rotate_right(own * RECORD_BYTES);
    }
    spoil_work(answer, &work_before, work);
    if shows("cell-list-takes-groups-of-before") && answer == refused(8) {
        let cell = |pair: PairSheet| boxes::cell_rules(&pair.groups, &pair.own);
        let taken = broken_cut::moved_before(sheet).map(cell);
        return taken.map_or(answer, |rules| write_list(list, &rules, calls::LARGEST_LIST));
    }
    answer
}

/// A list that should have been refused.
fn write_list(list: &mut [u8], rules: &[Rule], end: usize) -> u32 {
    let bytes = sheets::list_bytes(rules);
    list[..end].fill(0);
    list[..bytes.len()].copy_from_slice(&bytes);
    bytes.len() as u32
}

pub fn gate_list(sheet: &[u8], list: &mut [u8], work: &mut [u8]) -> u32 {
    let work_before = work.to_vec();
    let answer = encode(calls::gate_list(sheet, list, work));
    if shows("gate-list-zero-long") && accepted(answer) {
        clear_at(list, calls::GATE_LIST);
    }
    if shows("refused-list-written") && answer == refused(8) {
        list[..2].copy_from_slice(&[0, 1]);
    }
    spoil_work(answer, &work_before, work);
    if shows("gate-list-takes-groups-of-before") && answer == refused(8) {
        let taken = broken_cut::moved_before(sheet);
        return taken.map_or(answer, |_| write_list(list, &boxes::gate_rules(), calls::GATE_LIST));
    }
    answer
}

pub fn lookup(mut packet: Packet, list: &[u8]) -> u32 {
    if shows("lookup-cuts-values") {
        packet.iter_mut().zip(HIGHEST).for_each(|(value, highest)| *value &= highest);
    }
    let answer = encode(calls::lookup(&packet, list));
    if shows("lookup-ignores-left-over") && answer == refused(3) && list.len() > 2 {
        let end = 2 + RECORD_BYTES * usize::from(list[1]);
        return encode(calls::lookup(&packet, list.get(..end).unwrap_or(list)));
    }
    if accepted(answer) || answer == refused(4) || answer == refused(5) {
        if let Some(confused) = fields_confused(&packet, list) {
            return confused;
        }
    }
    if !accepted(answer) {
        return answer;
    }
    let rules: Option<Vec<Rule>> = list[2..].chunks(RECORD_BYTES).map(sheets::read_rule).collect();
    match rules {
        None if shows("lookup-reads-all") => refused(4),
        Some(rules) if shows("lookup-wants-complete") && !sheets::is_complete(&rules) => refused(5),
        _ if shows("lookup-place-off") => answer + 2,
        _ => answer,
    }
}

/// A lookup that leaves out a field at either end, or that tests a record only once it has the
/// packet.
fn fields_confused(packet: &Packet, list: &[u8]) -> Option<u32> {
    let (source, protocol) = (shows("lookup-skips-source"), shows("lookup-skips-protocol"));
    let late = shows("lookup-tests-record-late");
    if !(source || protocol || late) {
        return None;
    }
    for (place, record) in list[2..].chunks(RECORD_BYTES).enumerate() {
        let rule = sheets::read_rule(record);
        if rule.is_none() && !late {
            return Some(refused(4));
        }
        // With a good action the ranges can be read where the action alone is bad.
        let mut with_deny = record.to_vec();
        with_deny[RECORD_BYTES - 1] = 0;
        let mut packet = *packet;
        let has = sheets::read_rule(&with_deny).is_some_and(|rule| {
            packet[0] = if source { rule.area.ranges[0].low } else { packet[0] };
            packet[4] = if protocol { rule.area.ranges[4].low } else { packet[4] };
            rule.area.has(&packet)
        });
        if has {
            return Some(rule.map_or(refused(4), |r| 2 * place as u32 + r.action.number() as u32));
        }
    }
    Some(refused(5))
}

pub fn lookup_table(mut packet: Packet, table: &[u32]) -> u32 {
    let mut table = table.to_vec();
    if shows("table-cuts-packet") {
        packet.iter_mut().zip(HIGHEST).for_each(|(value, highest)| *value &= highest);
    }
    if shows("table-cuts-values") {
        let highest = HIGHEST.iter().chain(&HIGHEST).chain(&[u32::MAX as u64]).cycle();
        table.iter_mut().zip(highest).for_each(|(value, &most)| *value &= most as u32);
    }
    let answer = encode(calls::lookup_table(&packet, &table));
    let rules = table.chunks(calls::RULE_NUMBERS);
    match rules.len() {
        0 if shows("table-none-is-5") => return refused(5),
        1_024 if shows("table-limit-1023") => return refused(2),
        1_025 if shows("table-limit-1025") => {
            let most = &table[..1_024 * calls::RULE_NUMBERS];
            return encode(calls::lookup_table(&packet, most));
        }
        _ => (),
    }
    if shows("table-skips-bad") && answer == refused(4) {
        let sound = rules.filter(|numbers| numbers_rule(numbers).is_some());
        return encode(calls::lookup_table(&packet, &sound.flatten().copied().collect::<Vec<_>>()));
    }
    if !accepted(answer) {
        return answer;
    }
    match shows("table-reads-all") && rules.clone().any(|numbers| numbers_rule(numbers).is_none()) {
        true => refused(4),
        false if shows("table-place-from-1") => answer + 2,
        false => answer,
    }
}

fn numbers_rule(numbers: &[u32]) -> Option<Rule> {
    let values: Vec<u64> = numbers.iter().map(|&number| number.into()).collect();
    sheets::rule_of_numbers(&values)
}

pub fn split(order: &[u8], a: &mut [u8], b: &mut [u8]) -> u32 {
    let before = b.to_vec();
    let answer = encode(calls::split(order, a, b));
    if shows("split-leaves-b") && accepted(answer) {
        let end = order.len() - answer as usize;
        b[end..].copy_from_slice(&before[end..]);
    }
    answer
}

pub fn join(a: &[u8], b: &[u8], order: &mut [u8]) -> u32 {
    let before = order.to_vec();
    let answer = encode(calls::join(a, b, order));
    let left_over = a.len() > 2 && a.len() > 2 + usize::from(a[1]) * RECORD_BYTES;
    if shows("join-3-before-5") && answer == refused(5) && left_over {
        return refused(3);
    }
    let b_fault = sheets::SECTION_B.read(b).err();
    if let (true, Some(fault)) = (shows("join-reads-b-first") && !accepted(answer), b_fault) {
        return if answer == refused(1) { answer } else { refused(fault.number()) };
    }
    if shows("join-leaves-tail") && accepted(answer) {
        put_back(order, &before, calls::LARGEST_ORDER_SHEET - 1);
    }
    answer
}

pub fn rule(record: &[u8], numbers: &mut [u32]) -> u32 {
    let answer = encode(calls::rule(record, numbers));
    if shows("numbers-touched-behind") && accepted(answer) && numbers.len() > 11 {
        numbers[11] = 0;
    }
    answer
}

pub fn record(numbers: &[u32], record: &mut [u8]) -> u32 {
    let mut values = numbers.to_vec();
    if shows("record-cuts-values") && numbers.len() >= calls::RULE_NUMBERS {
        let highest = HIGHEST.iter().chain(&HIGHEST);
        values.iter_mut().zip(highest).for_each(|(value, &most)| *value &= most as u32);
    }
    let answer = encode(calls::record(&values, record));
    if shows("record-written-on-4") && answer == refused(4) {
        record[0] ^= 1;
    }
    answer
}
