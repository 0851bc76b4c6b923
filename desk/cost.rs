//! What rules cost, found by moves of parts of a gate list: the boxes of a deny rule, its pieces on
//! the way, and the first rule at which a refusal comes.

use crate::library::{self, MOST_RULES, TOO_MANY_BOXES};
use crate::rule::{Order, Ranges, Rule};
use crate::sheet;

const FULL: Rule = Rule { ranges: Ranges::FULL, allows: true };

/// How many pieces some allows leave of a deny; none if there are too many on the way.
fn pieces(allows: &[Rule], deny: &Rule) -> Option<usize> {
    let mut gate = allows.to_vec();
    gate.push(*deny);
    if !deny.ranges.is_full() {
        gate.push(FULL);
    }
    let order = Order { gate, own: vec![FULL] };
    let moved = library::join(&order).and_then(|sheet| library::move_order(&sheet));
    match moved.and_then(|pair| sheet::groups(&pair)) {
        Ok(groups) => groups.first().map(Vec::len),
        // With one own rule beside them, only the most pieces that there may be are too many boxes.
        Err(TOO_MANY_BOXES) => Some(MOST_RULES),
        Err(_) => None,
    }
}

fn allows_before(gate: &[Rule], place: usize) -> Vec<Rule> {
    gate[..place].iter().filter(|rule| rule.allows).copied().collect()
}

/// For each gate rule its boxes; none where they are too many on the way.
pub fn boxes(gate: &[Rule]) -> Vec<Option<usize>> {
    let one = |(place, rule): (usize, &Rule)| match rule.allows {
        true => Some(0),
        false => pieces(&allows_before(gate, place), rule),
    };
    gate.iter().enumerate().map(one).collect()
}

/// The most pieces that the deny at a place has after any of the allows before it.
pub fn most_pieces(gate: &[Rule], place: usize) -> Option<usize> {
    let allows = allows_before(gate, place);
    let counts = (0..=allows.len()).map(|taken| pieces(&allows[..taken], &gate[place]));
    counts.collect::<Option<Vec<usize>>>()?.into_iter().max()
}

/// The deny that a move refuses with too many pieces, and the allow at which they are too many: places
/// of the gate list.
pub fn too_many_pieces(gate: &[Rule]) -> Option<(usize, usize)> {
    let beyond = |allows: &[Rule], deny: &Rule| pieces(allows, deny).is_none();
    let is_deny = |place: &usize| !gate[*place].allows;
    let deny = (0..gate.len())
        .filter(is_deny)
        .find(|&place| beyond(&allows_before(gate, place), &gate[place]))?;
    let allow = (0..deny)
        .filter(|&place| gate[place].allows)
        .find(|&place| beyond(&allows_before(gate, place + 1), &gate[deny]))?;
    Some((deny, allow))
}
