// Gate lists of several families and sizes: the boxes and pieces that they give, and the time of the library's move. Prints the
// tables of docs/EVALUATION.md, with `-` for times that would say nothing.
use crate::inputs::{nested, own, rule, single_values, ALLOW, DENY};
use crate::measure::{median, timed, Random};
use crate::planner::{cut, cut_field, meet};
use crate::plants::plant;
use crate::sheets::{boxes, order_of, Region, Rule, FIELDS, GATE, MOST, REFUSED};
use crate::versions::{Desk, Planner};
use std::hint::black_box;

const CALLS: usize = 51;
const OWN_RULES: usize = 16;
const PLANTS: usize = 400;
const SEED: u64 = 0x9E37_79B9_7F4A_7C15;

// A way to take an allow from a piece.
type Take = fn(&Region, &Region, &mut Vec<Region>);

// The paper's algorithm 3 takes for granted that ranges meet, and as printed goes on with an empty range where they do not. That the cut
// ends at the first field that shares nothing, with what is left as one piece, is the build scope's reading.
fn cut_as_printed(d: &Region, a: &Region, out: &mut Vec<Region>) {
    let mut rest = *d;
    for k in 0..FIELDS {
        if !meet(d, a, k) {
            return out.push(rest);
        }
        cut_field(&mut rest, a, k, out);
    }
}

// What a gate's groups come to: all boxes, the most pieces that one group has after an allow, and the pieces of every group after
// every allow added up. The count ends with the group that has too many.
#[derive(Default)]
struct Pieces {
    boxes: usize,
    most: usize,
    made: usize,
}

fn pieces(gate: &[Rule], take: Take) -> Pieces {
    let mut seen = Pieces::default();
    for (i, deny) in gate.iter().enumerate().filter(|(_, r)| r.action == DENY) {
        let mut now: Vec<Region> = vec![deny.region];
        for allow in gate[..i].iter().filter(|r| r.action == ALLOW) {
            let mut next = Vec::new();
            now.iter().for_each(|d| take(d, &allow.region, &mut next));
            now = next;
            seen.most = seen.most.max(now.len());
            seen.made += now.len();
            if now.len() > MOST {
                return seen;
            }
        }
        seen.boxes += now.len();
    }
    seen
}

// The number that a move of a gate with these pieces gives, if it refuses it.
fn refused(seen: &Pieces) -> Option<u32> {
    match (seen.most > MOST, seen.boxes + OWN_RULES > MOST) {
        (true, _) => Some(6),
        (false, true) => Some(7),
        (false, false) => None,
    }
}

// The library's move, timed or only done once.
struct Mover {
    desk: Desk,
    timed: bool,
}

impl Mover {
    // The number that a gate is refused with, if it is, and the median of the move's nanoseconds.
    fn move_gate(&mut self, gate: &[Rule], seen: &Pieces) -> (Option<u32>, f64) {
        let order = order_of(gate, &own(OWN_RULES));
        let mut answer = 0;
        let calls = if self.timed { CALLS } else { 1 };
        let times =
            (0..calls).map(|_| timed(1, || answer = self.desk.move_order(Planner::Library, black_box(&order)))).collect();
        let number = answer.checked_sub(REFUSED);
        assert_eq!(number, refused(seen));
        if number.is_none() {
            assert_eq!(boxes(order.len(), &self.desk.sheet), seen.boxes);
        }
        (number, median(times))
    }

    fn microseconds(&self, times: &[f64]) -> String {
        let shown = |t: &f64| if self.timed { format!("{:.1}", t / 1000.0) } else { "-".to_string() };
        times.iter().map(shown).collect::<Vec<_>>().join(" / ")
    }
}

// One line for each size of a family of lists.
fn family(mover: &mut Mover, name: &str, gates: impl Iterator<Item = Vec<Rule>>) {
    for gate in gates {
        let seen = pieces(&gate, cut);
        let (number, time) = mover.move_gate(&gate, &seen);
        let boxes = number.map_or(seen.boxes.to_string(), |n| format!("refused {n}"));
        println!("| {name} | {} | {boxes} | {} | {} | {} |", gate.len(), seen.most, seen.made, mover.microseconds(&[time]));
    }
}

// The most rules nested in so many fields whose move is accepted.
fn largest(fields: usize) -> usize {
    (2..=GATE).rev().find(|n| refused(&pieces(&nested(fields, *n), cut)).is_none()).unwrap()
}

fn families(mover: &mut Mover) {
    println!("| Family | gate rules | boxes | most pieces at once | pieces in all | move, µs |");
    println!("|---|---|---|---|---|---|");
    for (name, fields) in [("nested, one field", 1), ("nested, two fields", 2), ("nested, three fields", 3)] {
        let mut sizes = vec![10, 20, 40, 64, largest(fields)];
        sizes.sort();
        sizes.dedup();
        family(mover, name, sizes.iter().map(|n| nested(fields, *n)));
    }
    let and_deny_all = |mut gate: Vec<Rule>, denies: usize| {
        gate.extend((0..denies).map(|_| rule(&[], DENY)));
        gate
    };
    family(mover, "single values, one field", [9, 19, 49, 63].iter().map(|m| and_deny_all(single_values(1, *m), 1)));
    family(mover, "single values, two fields", [5, 10, 20, 30, 31].iter().map(|m| and_deny_all(single_values(2, *m), 1)));
    family(mover, "single values, three fields", [3, 6, 9, 10].iter().map(|m| and_deny_all(single_values(3, *m), 1)));
    family(
        mover,
        "single values, one field, half denies",
        [5, 10, 25, 31, 32].iter().map(|m| and_deny_all(single_values(1, *m), *m as usize)),
    );
}

// The median and the largest.
fn spread(mut numbers: Vec<f64>) -> (f64, f64) {
    numbers.sort_by(f64::total_cmp);
    (numbers[numbers.len() / 2], numbers[numbers.len() - 1])
}

// One line for so many random plants of one size: how they spread, by the cut and by the cut as printed, and how many are refused.
fn plants(mover: &mut Mover, rules: usize, last: u8) {
    let mut random = Random(SEED);
    let gates: Vec<Vec<Rule>> = (0..PLANTS).map(|_| plant(&mut random, rules, last)).collect();
    let seen: Vec<Pieces> = gates.iter().map(|g| pieces(g, cut)).collect();
    let printed: Vec<Pieces> = gates.iter().map(|g| pieces(g, cut_as_printed)).collect();
    print!("| {} all | {rules} |", if last == ALLOW { "allow" } else { "deny" });
    for numbers in [|p: &Pieces| p.boxes, |p: &Pieces| p.most, |p: &Pieces| p.made] {
        for cuts in [&seen, &printed] {
            let (middle, worst) = spread(cuts.iter().map(|p| numbers(p) as f64).collect());
            print!(" {middle} / {worst} |");
        }
    }
    for cuts in [&seen, &printed] {
        let given = |n| cuts.iter().filter(|p| refused(p) == Some(n)).count();
        print!(" {}, {} |", given(6), given(7));
    }
    let (middle, worst) = spread(gates.iter().zip(&seen).map(|(g, s)| mover.move_gate(g, s).1).collect());
    println!(" {} |", mover.microseconds(&[middle, worst]));
}

pub fn run(timed: bool) {
    let mut mover = Mover { desk: Desk::new(), timed };
    families(&mut mover);
    println!();
    print!("| Last rule | gate rules | boxes | as printed | most pieces at once | as printed | pieces in all | as printed ");
    println!("| refused 6, 7 | as printed | move, µs |");
    println!("|---|---|---|---|---|---|---|---|---|---|---|");
    for last in [ALLOW, DENY] {
        [10, 20, 50, 64].iter().for_each(|n| plants(&mut mover, *n, last));
    }
}
