//! What rules cost, against the groups of pair sheets and the refusals of moves.

use super::draw::{Draw, FULL};
use crate::cost;
use crate::library::{self, Refusal, TOO_MANY_BOXES, TOO_MANY_PIECES};
use crate::rule::{Order, Rule, DESTINATION, DESTINATION_PORT, SOURCE};
use crate::sheet::{self, Plan};

/// A move of these gate rules, with a full one behind them where they need it, beside one own rule.
fn moved(gate: &[Rule]) -> Result<Vec<u8>, Refusal> {
    let mut gate = gate.to_vec();
    if !gate.last().is_some_and(|rule| rule.ranges.is_full()) {
        gate.push(FULL);
    }
    library::move_order(&library::join(&Order { gate, own: vec![FULL] })?)
}

fn is_beyond(gate: &[Rule]) -> bool {
    moved(gate) == Err(TOO_MANY_PIECES)
}

fn allows(gate: &[Rule]) -> Vec<Rule> {
    gate.iter().filter(|rule| rule.allows).copied().collect()
}

/// Allows alone, then a deny.
fn with_deny(allows: &[Rule], deny: Rule) -> Vec<Rule> {
    let mut gate = allows.to_vec();
    gate.push(deny);
    gate
}

/// A gate of at most 64 rules; of some the denies have few boxes, of others many, or too many.
fn gate(draw: &mut Draw) -> Vec<Rule> {
    if draw.one_in(2) {
        let count = 1 + draw.below(12);
        return draw.list(count);
    }
    let allows = draw.pick(&[10, 15, 16, 17, 18, 24, 30]);
    let mut gate = draw.cutting_gate(allows);
    gate.truncate(62);
    let mut wide = FULL;
    // Most of what the allows before it left of the last deny goes.
    wide.ranges.high[draw.below(4)] = 40_000;
    gate.push(wide);
    gate.push(Rule { allows: draw.one_in(4), ..FULL });
    gate
}

/// Both what a whole move finds and what a move of each part of it finds.
#[test]
fn boxes_and_pieces_are_those_of_moves_of_the_gate_list() {
    let mut draw = Draw::new(71);
    let mut seen = [0; 3];
    for _ in 0..160 {
        let gate = gate(&mut draw);
        let (boxes, beyond) = (cost::boxes(&gate), cost::too_many_pieces(&gate));
        assert_eq!(boxes.iter().any(Option::is_none), beyond.is_some());
        let plan = Plan::of(&Order { gate: gate.clone(), own: vec![FULL] });
        assert_eq!(plan.as_ref().err() == Some(&TOO_MANY_PIECES), beyond.is_some());
        match plan {
            Ok(plan) => {
                let all: Vec<Option<usize>> = plan.boxes.into_iter().map(Some).collect();
                assert_eq!(boxes, all);
                seen[0] += 1;
            }
            Err(TOO_MANY_BOXES) => {
                let all: usize = boxes.iter().flatten().sum();
                assert!(all + 1 > 1_024, "{all} boxes");
                seen[1] += 1;
            }
            Err(_) => {
                is_first(&gate, beyond.expect("a deny is beyond the limit"));
                seen[2] += 1;
            }
        }
    }
    assert!(seen.iter().all(|&count| count > 10), "moved, refused with 7, with 6: {seen:?}");
}

/// Whether the deny is the first that is refused, and the allow the first that makes it so.
fn is_first(gate: &[Rule], (deny, allow): (usize, usize)) {
    assert!(!gate[deny].allows && gate[allow].allows && allow < deny);
    // Whatever stands before the deny is not refused with 6; with it, it is.
    assert!(!is_beyond(&gate[..deny]) && is_beyond(&gate[..=deny]));
    assert!(is_beyond(&with_deny(&allows(&gate[..deny]), gate[deny])));
    assert!(!is_beyond(&with_deny(&allows(&gate[..allow]), gate[deny])));
    assert!(is_beyond(&with_deny(&allows(&gate[..=allow]), gate[deny])));
}

#[test]
fn the_most_pieces_of_a_deny_are_those_after_one_of_the_allows_before_it() {
    let mut draw = Draw::new(72);
    let mut fewer = 0;
    for _ in 0..80 {
        let gate = gate(&mut draw);
        let boxes = cost::boxes(&gate);
        let denies: Vec<usize> = (0..gate.len()).filter(|&at| !gate[at].allows).collect();
        if denies.is_empty() {
            continue;
        }
        let place = draw.pick(&denies);
        let allows = allows(&gate[..place]);
        let after = |count: usize| moved(&with_deny(&allows[..count], gate[place]));
        let all: Result<Vec<_>, _> = (0..=allows.len()).map(after).collect();
        let Ok(sheets) = all else {
            assert_eq!(cost::most_pieces(&gate, place), None);
            continue;
        };
        let count =
            |sheet: &Vec<u8>| sheet::groups(sheet).expect("a moved sheet is right")[0].len();
        let counts: Vec<usize> = sheets.iter().map(count).collect();
        assert_eq!(cost::most_pieces(&gate, place), counts.iter().copied().max());
        assert_eq!(boxes[place], counts.last().copied());
        fewer += usize::from(counts.last() < counts.iter().max());
    }
    assert!(fewer > 5, "{fewer} denies had more pieces on the way than at last");
}

/// `count` allows that each leave out one value of a field.
fn leaving_out(field: usize, count: u32) -> Vec<Rule> {
    let one = |at: u32| {
        let mut rule = FULL;
        (rule.ranges.low[field], rule.ranges.high[field]) = (2 * at + 1, 2 * at + 1);
        rule
    };
    (0..count).map(one).collect()
}

#[test]
fn a_deny_of_1024_pieces_is_counted_and_one_of_more_is_too_many() {
    let deny = Rule { allows: false, ..FULL };
    let mut gate = leaving_out(SOURCE, 15);
    gate.extend(leaving_out(DESTINATION, 7));
    gate.extend(leaving_out(DESTINATION_PORT, 7));
    let at = gate.len();
    let most = with_deny(&gate, deny);
    assert_eq!(cost::boxes(&most)[at], Some(1_024));
    assert_eq!(cost::most_pieces(&most, at), Some(1_024));
    assert_eq!(cost::too_many_pieces(&most), None);
    gate.extend(leaving_out(DESTINATION_PORT, 8).pop());
    let beyond = with_deny(&gate, deny);
    assert_eq!(cost::boxes(&beyond)[at + 1], None);
    assert_eq!(cost::most_pieces(&beyond, at + 1), None);
    assert_eq!(cost::too_many_pieces(&beyond), Some((at + 1, at)));
}
