//! The cut of 02, W2: boxes that touch, and sheets moved under the rule before it. What is demanded
//! here is asked of the library itself, by its own moves.

use crate::draw::touching::{self, TOUCHES};
use crate::draw::{DrawnEdit, Kind, Pair, Shape};
use crate::driver::{number, origins, reports, runs, Driver};
use crate::model::before;
use crate::model::boxes::{self, Action, PacketBox, Rule, FIELDS};
use crate::model::rows::{self, full};
use crate::model::sheets::{self, PairSheet};

/// The line of the boundary table that W2 changes.
pub fn hold_s2(driver: &mut Driver) {
    let (deny, allow) = rows::s2();
    hold_touching(driver, &deny, &allow, true);
}

/// One allow before one deny, touching in every field in every way.
pub fn touching_scene(driver: &mut Driver) {
    driver.short_percent = 0;
    for (field, touch) in (0..FIELDS).flat_map(|field| TOUCHES.map(|touch| (field, touch))) {
        let (deny, allow) = touching::boxes(&mut driver.random, field, touch);
        hold_touching(driver, &deny, &allow, touch.misses());
        hold_touching(driver, &allow, &deny, touch.misses());
    }
}

/// The group is the deny's box itself exactly where the two share no packet.
fn hold_touching(driver: &mut Driver, deny: &PacketBox, allow: &PacketBox, misses: bool) {
    let gate = [
        Rule::new(allow.clone(), Action::Allow),
        Rule::new(deny.clone(), Action::Deny),
        full(Action::Allow),
    ];
    let order = sheets::order_bytes(&gate, &rows::own(1));
    let one = sheets::count_bytes(1);
    let whole = [&order[..], &one, &one, &sheets::box_bytes(deny)].concat();
    let (answer, sheet) = driver.move_pair(&order);
    let kept = answer.is_ok_and(|length| sheet[..length as usize] == whole);
    driver.demand(
        kept == misses,
        "the group of a deny that an allow touches",
        &[("order", &order)],
    );
}

/// A sheet as it was moved before W2, given to every call that takes one, edited, and moved again.
pub fn before_scene(driver: &mut Driver, shape: &Shape, pair: &Pair) {
    driver.short_percent = 0;
    let Some(old) = before::moved(&pair.gate, &pair.own) else {
        return;
    };
    let sheet = sheets::pair_bytes(&old);
    let fresh = hold_to_fresh_move(driver, &sheet);
    hold_own_edit(driver, &old, &sheet);
    if let Some(fresh) = fresh {
        hold_renewed_group(driver, &old, &fresh);
    }
    let count = driver.random.within(1, 4);
    let edited = runs::any_edits(driver, shape, &sheet, count);
    hold_to_fresh_move(driver, &edited);
}

/// The calls that check take a sheet exactly where it is, byte for byte, the fresh move of its own
/// two lists. Else they give 8, or 6 where that move does. The fresh move itself, if it is
/// accepted, they take.
fn hold_to_fresh_move(driver: &mut Driver, sheet: &[u8]) -> Option<PairSheet> {
    let PairSheet { gate, own, .. } = sheets::read_pair(sheet).expect("the sheet reads well");
    let (answer, fresh) = driver.move_pair(&sheets::order_bytes(&gate, &own));
    let fresh = answer.map(|length| &fresh[..length as usize]);
    let wanted = match fresh {
        Ok(fresh) if fresh == sheet => None,
        Err(refusal) if refusal.number() == 6 => Some(6),
        _ => Some(8),
    };
    let packet = origins::packet_for(&mut driver.random, sheet);
    let lists = [driver.gate_list(sheet).0, driver.cell_list(sheet).0].map(number);
    let others = [driver.check(sheet), reports::on_sound_load(driver, sheet)].map(number);
    let origin = number(driver.origin(&packet, sheet).0);
    let held = [lists, others] == [[wanted; 2]; 2]
        && (origin == wanted || wanted.is_none() && origin == Some(5));
    driver.demand(held, "a sheet and the fresh move of its lists", &[("sheet", sheet)]);
    let fresh = fresh.ok()?;
    let checked = driver.check(fresh).is_ok();
    driver.demand(checked, "a sheet moved again does not check", &[("sheet", fresh)]);
    origins::hold(driver, fresh, 1);
    sheets::read_pair(fresh).ok()
}

/// The first own rule taken out, if it is not the only one: A and every group stay as they stand,
/// and the check answers what it did.
fn hold_own_edit(driver: &mut Driver, old: &PairSheet, sheet: &[u8]) {
    if old.own.len() == 1 {
        return;
    }
    let wanted = sheets::pair_bytes(&PairSheet { own: old.own[1..].to_vec(), ..old.clone() });
    let edit = DrawnEdit { kind: Kind::Delete, list: 1, place: 0, record: Vec::new() };
    let (answer, after) = driver.edit(sheet, sheet.len() as u64, &edit);
    let kept = answer.is_ok_and(|length| after[..length as usize] == wanted);
    driver.demand(kept, "an own rule taken out", &[("sheet", sheet)]);
    let checks = [sheet, &wanted].map(|sheet| number(driver.check(sheet)));
    driver.demand(checks[0] == checks[1], "the check without an own rule", &[("sheet", sheet)]);
}

/// A deny for itself: its group becomes the fresh move's, and stands between those of before.
fn hold_renewed_group(driver: &mut Driver, old: &PairSheet, fresh: &PairSheet) {
    let denies: Vec<usize> = boxes::denies(&old.gate).collect();
    if denies.is_empty() {
        return;
    }
    let group = driver.random.index(denies.len());
    let record = sheets::rule_bytes(&old.gate[denies[group]]);
    let edit = DrawnEdit { kind: Kind::Replace, list: 0, place: denies[group] as u64, record };
    let sheet = sheets::pair_bytes(old);
    let mut wanted = old.clone();
    wanted.groups[group] = fresh.groups[group].clone();
    let (answer, after) = driver.edit(&sheet, sheet.len() as u64, &edit);
    let held = answer.is_ok_and(|length| after[..length as usize] == sheets::pair_bytes(&wanted));
    driver.demand(held, "a deny put for itself", &[("sheet", &sheet)]);
}
