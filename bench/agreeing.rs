// Before anything is measured: the three planners give the same answers and leave the same bytes on the lists that are measured, which
// they accept, on random plants, on edits of them, on the same with a byte changed or cut off, and on two lists that get 7 and 6.
use crate::inputs::{self, own, rule, single_values, DENY};
use crate::measure::Random;
use crate::plants::plant;
use crate::sheets::{order_of, record_of, REFUSED};
use crate::versions::{Change, Desk, Edit, Planner, PLANNERS};

const PLANTS: usize = 2000;

// Each planner's answer from the same bytes of the sheet, which must be the same; the sheet is left as they leave it.
fn agreed(desk: &mut Desk, call: impl Fn(&mut Desk, Planner) -> u32) -> u32 {
    let before = desk.sheet.clone();
    let ends = PLANNERS.map(|(_, planner)| {
        desk.sheet.copy_from_slice(&before);
        (call(desk, planner), desk.sheet.clone())
    });
    assert!(ends.iter().all(|e| *e == ends[0]), "{:?}", ends.iter().map(|e| e.0).collect::<Vec<_>>());
    ends[0].0
}

// Half of the time as it is, else with one byte changed or one cut off.
fn damaged(random: &mut Random, bytes: &mut [u8], used: usize) -> usize {
    match random.next(4) {
        0 => bytes[random.next(used as u64) as usize] = random.next(256) as u8,
        1 => return used - 1,
        _ => {}
    }
    used
}

fn edit(random: &mut Random, desk: &mut Desk, used: usize) -> u32 {
    let mut record = record_of(&plant(random, 2, 1)[random.next(2) as usize]);
    let length = damaged(random, &mut record, 27);
    let change = [Change::Insert, Change::Delete, Change::Replace][random.next(3) as usize];
    let edit = Edit { list: random.next(8) as u32 % 3, place: random.next(70) as usize, change, record: &record[..length] };
    agreed(desk, |desk, planner| desk.edit(planner, used, &edit))
}

pub fn run() {
    let mut random = Random(7);
    let mut desk = Desk::new();
    let mut answers = [0usize; 10];
    let mut note = |answer: u32| answers[answer.saturating_sub(REFUSED) as usize] += 1;
    for input in inputs::all() {
        let answer = agreed(&mut desk, |desk, planner| desk.move_order(planner, &order_of(&input.gate, &input.own)));
        assert!(answer < REFUSED, "{}: {answer}", input.name);
        note(answer);
    }
    for (fields, each) in [(2, 31), (3, 10)] {
        let gate = [single_values(fields, each), vec![rule(&[], DENY)]].concat();
        note(agreed(&mut desk, |desk, planner| desk.move_order(planner, &order_of(&gate, &own(1)))));
    }
    for _ in 0..PLANTS {
        let (rules, owns, last) = (1 + random.next(64) as usize, 1 + random.next(256) as usize, random.next(2) as u8);
        let mut order = order_of(&plant(&mut random, rules, last), &own(owns));
        let length = order.len();
        let length = damaged(&mut random, &mut order, length);
        let mut used = agreed(&mut desk, |desk, planner| desk.move_order(planner, &order[..length]));
        note(used);
        for _ in 0..4 {
            if used >= REFUSED {
                break;
            }
            let stated = damaged(&mut random, &mut desk.sheet, used as usize);
            note(agreed(&mut desk, |desk, planner| desk.check(planner, stated)));
            used = edit(&mut random, &mut desk, stated);
            note(used);
        }
    }
    println!("agreed before measuring: accepted {}, refused with 1 to 9: {:?}", answers[0], &answers[1..]);
}
