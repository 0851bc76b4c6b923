// Edit: a pair sheet changed at one place, beside the library's own fresh move of the edited lists. The sheet is put back before
// each turn, outside of the measured time.
use crate::inputs::{self, Input, ALLOW, DENY};
use crate::measure::{head, medians, row, timed, Version};
use crate::sheets::{boxes, order_of, record_of, Rule, REFUSED};
use crate::versions::{Change, Desk, Edit, Planner};
use std::hint::black_box;

#[derive(Clone, Copy)]
enum Way {
    Edits(Planner),
    Moves,
}

const WAYS: [Version<Way>; 4] = [
    ("library", Way::Edits(Planner::Library)),
    ("plain C", Way::Edits(Planner::PlainC)),
    ("safe Rust", Way::Edits(Planner::SafeRust)),
    ("fresh move", Way::Moves),
];

// The lists before an edit and after it; a rule is taken out, put in, or both, at a place of A (list 0) or B (list 1).
struct Step {
    name: String,
    list: u32,
    place: usize,
    change: Change,
    record: Vec<u8>,
    before: [Vec<Rule>; 2],
    after: [Vec<Rule>; 2],
    refused: bool,
}

// What a rule is replaced by: one source less or more.
fn changed(rule: &Rule) -> Rule {
    let mut new = *rule;
    let low = &mut new.region.low[0];
    *low = if *low == 0 { 1 } else { *low - 1 };
    new
}

// An insert gives the input's lists, a delete and a replace start from them.
fn step(input: &Input, what: &str, list: u32, place: usize, change: Change) -> Step {
    let full = [input.gate.clone(), input.own.clone()];
    let (mut without, mut other) = (full.clone(), full.clone());
    let rule = without[list as usize].remove(place);
    let new = &mut other[list as usize][place];
    *new = changed(new);
    let (name, put, before, after) = match change {
        Change::Insert => ("insert", Some(rule), without, full),
        Change::Delete => ("delete", None, full, without),
        Change::Replace => ("replace", Some(*new), full, other),
    };
    let record = put.map_or(vec![], |r| record_of(&r));
    Step { name: format!("{name} {what}"), list, place, change, record, before, after, refused: false }
}

// The deny in the middle of the denies; the last one, but for a last rule, which has to stay full; the first own rule; and the
// first allow, behind which every group is worked out anew.
fn steps(input: &Input) -> Vec<Step> {
    let changes = [Change::Insert, Change::Delete, Change::Replace];
    let gate = &input.gate;
    let denies: Vec<usize> = (0..gate.len() - 1).filter(|i| gate[*i].action == DENY).collect();
    let (middle, last) = (denies[denies.len() / 2], denies[denies.len() - 1]);
    let allow = gate.iter().position(|r| r.action == ALLOW).unwrap();
    let kinds =
        [("a middle deny", 0, middle), ("the last deny", 0, last), ("an own rule", 1, 0), ("the first allow", 0, allow)];
    kinds.iter().flat_map(|(what, list, place)| changes.map(|change| step(input, what, *list, *place, change))).collect()
}

// An edit that is refused because the own rules have no such place (9): it reads the sheet and clears the work buffer, which no
// edit can leave out.
fn refused(input: &Input) -> Step {
    let lists = [input.gate.clone(), input.own.clone()];
    let place = input.own.len();
    let name = "refused, no such place".to_string();
    Step { name, list: 1, place, change: Change::Delete, record: vec![], before: lists.clone(), after: lists, refused: true }
}

fn turn(desk: &mut Desk, way: Way, used: usize, edit: &Edit, order: &[u8]) -> u32 {
    match way {
        Way::Edits(planner) => desk.edit(planner, used, black_box(edit)),
        Way::Moves => desk.move_order(Planner::Library, black_box(order)),
    }
}

fn measure(step: &Step) {
    let mut desk = Desk::new();
    let used = desk.move_order(Planner::Library, &order_of(&step.before[0], &step.before[1])) as usize;
    let before = desk.sheet.clone();
    let order = order_of(&step.after[0], &step.after[1]);
    let edit = Edit { list: step.list, place: step.place, change: step.change, record: &step.record };
    let ends = WAYS.map(|(_, way)| {
        desk.sheet.copy_from_slice(&before);
        (turn(&mut desk, way, used, &edit, &order), desk.sheet.clone())
    });
    let (answer, sheet) = &ends[WAYS.len() - 1];
    let edited = if step.refused { REFUSED + 9 } else { *answer };
    assert!(
        *answer < REFUSED && ends[..WAYS.len() - 1].iter().all(|e| e.0 == edited && e.1 == *sheet),
        "{}: {:?}",
        step.name,
        ends.iter().map(|e| e.0).collect::<Vec<_>>()
    );
    let sizes = [step.after[0].len(), step.after[1].len(), boxes(order.len(), sheet), *answer as usize];
    let times = medians(&WAYS, |way| {
        desk.sheet.copy_from_slice(&before);
        timed(1, || {
            black_box(turn(&mut desk, way, used, &edit, &order));
        })
    });
    row(&step.name, &sizes, &times);
}

pub fn run() {
    for input in inputs::edited() {
        println!();
        head(&format!("edit: {}", input.name), &["rules", "own", "boxes", "bytes"], &WAYS);
        steps(&input).iter().chain([&refused(&input)]).for_each(measure);
    }
}
