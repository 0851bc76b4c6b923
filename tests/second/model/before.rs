//! The cut as it was before 02, W2: 000's printed algorithm. No call follows it any more; it makes
//! the sheets that were moved then, to be given to the calls of now.

use crate::model::boxes::{self, Group, PacketBox, Rule, FIELDS, MOST_PIECES};
use crate::model::sheets::{PairSheet, MOST_LIST_RULES};

/// Field by field the part below the allow's range, then the part above it, going on with what is
/// shared; where a field shares nothing, one piece with the box's whole range there, and the end.
/// So a box that misses the allow in a later field had been cut in the earlier ones by then.
pub fn less(deny: &PacketBox, allow: &PacketBox) -> Vec<PacketBox> {
    let (mut pieces, mut rest) = (Vec::new(), deny.clone());
    for field in 0..FIELDS {
        let (own, other) = (deny.ranges[field], allow.ranges[field]);
        let Some(shared) = own.shared(other) else {
            pieces.push(rest);
            return pieces;
        };
        let parts = [own.below(shared), own.above(shared)];
        pieces.extend(parts.into_iter().flatten().map(|part| rest.with(field, part)));
        rest = rest.with(field, shared);
    }
    pieces
}

/// The group of the deny at `place`, unless the move gave 6 for it.
pub fn group(gate: &[Rule], place: usize) -> Option<Group> {
    let mut pieces = vec![gate[place].area.clone()];
    for allow in gate[..place].iter().filter(|rule| rule.allows()) {
        pieces = pieces.iter().flat_map(|piece| less(piece, &allow.area)).collect();
        if pieces.len() > MOST_PIECES {
            return None;
        }
    }
    Some(pieces)
}

/// The groups that the gate gave, unless it was refused with 6.
pub fn groups(gate: &[Rule]) -> Option<Vec<Group>> {
    boxes::denies(gate).map(|place| group(gate, place)).collect()
}

/// The pair sheet that moving these two lists gave, unless they were refused with 6 or 7.
pub fn moved(gate: &[Rule], own: &[Rule]) -> Option<PairSheet> {
    let groups = groups(gate)?;
    let rules = groups.iter().map(Vec::len).sum::<usize>() + own.len();
    let pair = PairSheet { gate: gate.to_vec(), own: own.to_vec(), groups };
    (rules as u64 <= MOST_LIST_RULES).then_some(pair)
}
