//! Sheets and lists read back: told apart, and none of them makes the tool panic.

use super::draw::Draw;
use crate::library;
use crate::rule::Order;
use crate::sheet::{self, Kind, Plan};

/// Orders that a move takes, with their plans.
fn plans(seed: u64, count: usize) -> Vec<(Order, Plan)> {
    let mut draw = Draw::new(seed);
    let mut plans = Vec::new();
    while plans.len() < count {
        let order = draw.order(12, 40);
        if let Ok(plan) = Plan::of(&order) {
            plans.push((order, plan));
        }
    }
    plans
}

#[test]
fn lists_order_sheets_and_pair_sheets_are_told_apart() {
    for (order, plan) in plans(81, 400) {
        let sheet = library::join(&order).expect("the order was moved");
        let (gate, own) = library::split(&sheet).expect("a joined sheet is split");
        for list in [&gate, &own, &plan.gate, &plan.cell] {
            assert!(matches!(sheet::kind(list), Some(Kind::List)));
        }
        assert!(matches!(sheet::kind(&sheet), Some(Kind::Order)));
        assert!(matches!(sheet::kind(&plan.pair), Some(Kind::Pair)));
        // A byte less is none of the three.
        assert!(sheet::kind(&sheet[..sheet.len() - 1]).is_none());
        assert!(sheet::kind(&gate[..gate.len() - 1]).is_none());
    }
}

#[test]
fn a_plan_has_the_rules_and_the_boxes_of_its_sheet() {
    for (order, plan) in plans(82, 400) {
        let sheet = library::join(&order).expect("the order was moved");
        assert_eq!(sheet::front(&plan.pair), Ok(&sheet[..]));
        let (gate, own) = library::split(&sheet).expect("a joined sheet is split");
        assert_eq!(sheet::rules(&gate).as_ref(), Ok(&order.gate));
        assert_eq!(sheet::rules(&own).as_ref(), Ok(&order.own));
        let cell = sheet::rules(&plan.cell).expect("the cell list is right");
        let groups = sheet::groups(&plan.pair).expect("the pair sheet is right");
        let boxes: Vec<_> = groups.concat();
        assert_eq!(cell.len(), plan.places());
        assert_eq!(cell[..boxes.len()].iter().map(|rule| rule.ranges).collect::<Vec<_>>(), boxes);
        assert!(cell[..boxes.len()].iter().all(|rule| !rule.allows));
        assert_eq!(cell[boxes.len()..], order.own);
        is_owned(&plan);
    }
}

/// Each box of the cell list lies in the gate rule that is named as its owner.
fn is_owned(plan: &Plan) {
    let cell = sheet::rules(&plan.cell).expect("the cell list is right");
    let owners = plan.owners();
    assert_eq!(owners.len(), cell.len());
    for (rule, (which, place)) in cell.iter().zip(owners) {
        let owner = plan.order.list(which)[place];
        assert_eq!(owner.ranges.shared(&rule.ranges), Some(rule.ranges));
        assert_eq!(owner.allows, rule.allows);
    }
}

/// Reads bytes in every way; whatever is taken for a plan is one that a move gives.
fn survive(bytes: &[u8]) -> bool {
    let _ = sheet::kind(bytes);
    let _ = sheet::rules(bytes);
    let _ = sheet::order(bytes);
    let _ = sheet::groups(bytes);
    if let Ok(front) = sheet::front(bytes) {
        assert!(bytes.starts_with(front));
    }
    let plan = Plan::read(bytes.to_vec());
    if let Ok(plan) = &plan {
        assert_eq!(Plan::of(&plan.order).as_ref(), Ok(plan));
    }
    plan.is_ok()
}

/// Bytes with counts that are often small: as sheets have them.
fn random(draw: &mut Draw) -> Vec<u8> {
    let length = draw.below(200);
    let mut bytes = draw.bytes(length);
    for byte in &mut bytes {
        if draw.one_in(2) {
            *byte = draw.pick(&[0, 0, 0, 1, 2, 255]);
        }
    }
    bytes
}

#[test]
fn bytes_at_random_are_read_as_sheets_without_panic() {
    let mut draw = Draw::new(83);
    for _ in 0..5_000 {
        survive(&random(&mut draw));
    }
}

fn damaged(draw: &mut Draw, bytes: &[u8]) -> Vec<u8> {
    let mut bytes = bytes.to_vec();
    let at = draw.below(bytes.len());
    match draw.below(5) {
        0 => bytes.truncate(at),
        1 => bytes.extend(random(draw)),
        2 => drop(bytes.remove(at)),
        3 => bytes.insert(at, draw.number() as u8),
        _ => bytes[at] = draw.pick(&[0, 1, 2, 27, 254, 255]),
    }
    bytes
}

#[test]
fn damaged_sheets_and_lists_are_read_without_panic() {
    let mut draw = Draw::new(84);
    let mut right = 0;
    for (order, plan) in plans(85, 200) {
        assert!(survive(&plan.pair));
        let sheet = library::join(&order).expect("the order was moved");
        for bytes in [&plan.pair, &plan.pair, &plan.pair, &sheet, &plan.cell, &plan.gate] {
            right += usize::from(survive(&damaged(&mut draw, bytes)));
        }
    }
    // Damage that makes another right sheet is rare.
    assert!(right < 240, "{right} damaged sheets are right");
}
