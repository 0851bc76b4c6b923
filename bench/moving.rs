// Move: an order sheet in, its pair sheet out.
use crate::inputs;
use crate::measure::{head, medians, row, timed};
use crate::sheets::{boxes, order_of, REFUSED};
use crate::versions::{Desk, Planner, PLANNERS};
use std::hint::black_box;

// The names of the lists that are moved, a line each.
pub fn names() {
    inputs::all().iter().for_each(|input| println!("{}", input.name));
}

// So many moves of a list by one planner and nothing else, for a count of instructions.
pub fn repeat(planner: usize, input: usize, times: usize) {
    let input = &inputs::all()[input];
    let order = order_of(&input.gate, &input.own);
    let mut desk = Desk::new();
    (0..times).for_each(|_| assert!(desk.move_order(PLANNERS[planner].1, black_box(&order)) < REFUSED));
}

pub fn run() {
    head("move", &["rules", "own", "boxes", "bytes"], &PLANNERS);
    for input in inputs::all() {
        let order = order_of(&input.gate, &input.own);
        let mut desk = Desk::new();
        let used = desk.move_order(Planner::Library, &order) as usize;
        let sizes = [input.gate.len(), input.own.len(), boxes(order.len(), &desk.sheet), used];
        let times = medians(&PLANNERS, |p| {
            timed(1, || {
                black_box(desk.move_order(p, black_box(&order)));
            })
        });
        row(input.name, &sizes, &times);
    }
}
