// Check: do the groups of a pair sheet follow from its gate rules?
use crate::inputs;
use crate::measure::{head, medians, row, timed};
use crate::sheets::{boxes, order_of};
use crate::versions::{Desk, Planner, PLANNERS};
use std::hint::black_box;

pub fn run() {
    head("check", &["rules", "own", "boxes", "bytes"], &PLANNERS);
    for input in inputs::all() {
        let order = order_of(&input.gate, &input.own);
        let mut desk = Desk::new();
        let used = desk.move_order(Planner::Library, &order) as usize;
        let sizes = [input.gate.len(), input.own.len(), boxes(order.len(), &desk.sheet), used];
        assert!(PLANNERS.iter().all(|(_, p)| desk.check(*p, used) == 0), "{}", input.name);
        let times = medians(&PLANNERS, |p| {
            timed(1, || {
                black_box(desk.check(p, black_box(used)));
            })
        });
        row(input.name, &sizes, &times);
    }
}
