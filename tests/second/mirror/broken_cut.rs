//! The cut with one fault each, named as in broken.rs: what a hurried reading of W2 could bring
//! about, in the cut itself and in the calls that meet sheets of before it.

use crate::mirror::broken::{accepted, name, refused, shows, total, unlimited};
use crate::model::before;
use crate::model::boxes::{denies, PacketBox, Range, FIELDS};
use crate::model::calls::{self, Change, Edit, WORK};
use crate::model::sheets::{self, PairSheet};

/// Cuts a moved pair anew if the fault is one of the cut's. By a name that begins so and is no
/// fault's, the pair is cut as it should be.
pub fn cut_confused(pair: &mut PairSheet) {
    if name().starts_with("cut-") {
        pair.groups = unlimited(&pair.gate, take);
    }
}

fn take_as_before(pieces: &[PacketBox], allow: &PacketBox) -> Vec<PacketBox> {
    pieces.iter().flat_map(|piece| before::less(piece, allow)).collect()
}

fn take(pieces: &[PacketBox], allow: &PacketBox) -> Vec<PacketBox> {
    if shows("cut-as-before-w2") {
        return take_as_before(pieces, allow);
    }
    if shows("cut-leaves-whole") {
        return pieces.to_vec();
    }
    let last_whole = shows("cut-leaves-last-whole") && pieces.len() > 1;
    let (cut, whole) = pieces.split_at(pieces.len() - usize::from(last_whole));
    cut.iter().flat_map(|piece| less(piece, allow)).chain(whole.iter().cloned()).collect()
}

fn less(deny: &PacketBox, allow: &PacketBox) -> Vec<PacketBox> {
    if shows("cut-tests-first-only") {
        let [own, other] = [deny, allow].map(|area| area.ranges[0]);
        return match own.shared(other) {
            Some(_) => pieces(deny, allow, |own, other| Some(meant_to_share(own, other))),
            None => vec![deny.clone()],
        };
    }
    match (0..FIELDS).all(|field| shares(field, deny.ranges[field], allow.ranges[field])) {
        true => pieces(deny, allow, Range::shared),
        false => vec![deny.clone()],
    }
}

/// What two ranges share, as if they always did: low above high where they do not.
fn meant_to_share(own: Range, other: Range) -> Range {
    Range { low: own.low.max(other.low), high: own.high.min(other.high) }
}

/// Whether the two ranges of the field share a value. A field left out here, or one off, is cut by
/// the rule of before where it should not be cut at all.
fn shares(field: usize, own: Range, other: Range) -> bool {
    let untested = [
        false,
        shows("cut-untested-2"),
        shows("cut-untested-3"),
        shows("cut-untested-4"),
        shows("cut-untested-5"),
    ];
    untested[field] || low_end_shares(field, own, other) && high_end_shares(field, own, other)
}

fn low_end_shares(field: usize, own: Range, other: Range) -> bool {
    let strict = [
        shows("cut-strict-low-1"),
        shows("cut-strict-low-2"),
        shows("cut-strict-low-3"),
        shows("cut-strict-low-4"),
        shows("cut-strict-low-5"),
    ];
    let loose = [
        false,
        shows("cut-loose-low-2"),
        shows("cut-loose-low-3"),
        shows("cut-loose-low-4"),
        shows("cut-loose-low-5"),
    ];
    own.low + u64::from(strict[field]) <= other.high + u64::from(loose[field])
}

fn high_end_shares(field: usize, own: Range, other: Range) -> bool {
    let strict = [
        shows("cut-strict-high-1"),
        shows("cut-strict-high-2"),
        shows("cut-strict-high-3"),
        shows("cut-strict-high-4"),
        shows("cut-strict-high-5"),
    ];
    let loose = [
        false,
        shows("cut-loose-high-2"),
        shows("cut-loose-high-3"),
        shows("cut-loose-high-4"),
        shows("cut-loose-high-5"),
    ];
    other.low + u64::from(strict[field]) <= own.high + u64::from(loose[field])
}

fn pieces(
    deny: &PacketBox,
    allow: &PacketBox,
    shared: impl Fn(Range, Range) -> Option<Range>,
) -> Vec<PacketBox> {
    let (mut pieces, mut rest) = (Vec::new(), deny.clone());
    for field in 0..FIELDS {
        let (own, other) = (deny.ranges[field], allow.ranges[field]);
        let Some(shared) = shared(own, other) else {
            pieces.push(rest);
            return pieces;
        };
        pieces.extend(parts(own, shared).into_iter().map(|part| rest.with(field, part)));
        if !shows("cut-goes-on-with-own-range") {
            rest = rest.with(field, shared);
        }
    }
    pieces
}

fn parts(own: Range, shared: Range) -> Vec<Range> {
    let low_end = shared.low.saturating_sub(u64::from(!shows("cut-low-part-long")));
    let high_start = shared.high + u64::from(!shows("cut-high-part-long"));
    let low = (own.low < shared.low).then_some(Range { low: own.low, high: low_end });
    let high = (shared.high < own.high).then_some(Range { low: high_start, high: own.high });
    match shows("cut-high-part-first") {
        true => [high, low].into_iter().flatten().collect(),
        false => [low, high].into_iter().flatten().collect(),
    }
}

/// The pair of a sheet whose groups are what the cut of before gives.
pub fn moved_before(sheet: &[u8]) -> Option<PairSheet> {
    let pair = sheets::read_pair(sheet).ok()?;
    (before::groups(&pair.gate)? == pair.groups).then_some(pair)
}

/// The edit refused with 7, on the sheet moved again first: its groups of before may be too many
/// where those of now are not.
pub fn edit_moved_again(sheet: &mut [u8], used: u64, edit: &Edit) -> u32 {
    let fresh = sheets::read_pair(&sheet[..used as usize])
        .and_then(|pair| calls::moved(&sheets::order_bytes(&pair.gate, &pair.own)));
    let (before, mut work) = (sheet.to_vec(), vec![0; WORK]);
    let answer = fresh.and_then(|pair| {
        let bytes = sheets::pair_bytes(&pair);
        sheet[..bytes.len()].copy_from_slice(&bytes);
        calls::edit(sheet, bytes.len() as u64, edit, &mut work)
    });
    match answer {
        Ok(length) => length as u32,
        Err(_) => {
            sheet.copy_from_slice(&before);
            refused(7)
        }
    }
}

/// The numbers of the groups that an edit of A has worked out anew, each with its deny's place.
fn anew(pair: &PairSheet, edit: &Edit, old: &PairSheet) -> Vec<(usize, usize)> {
    let place = edit.place as usize;
    let (takes_out, puts_in) =
        (!matches!(edit.change, Change::Insert(_)), !matches!(edit.change, Change::Delete));
    let allow_changed =
        takes_out && old.gate[place].allows() || puts_in && pair.gate[place].allows();
    let anew = |at: usize| allow_changed && at >= place || puts_in && at == place;
    denies(&pair.gate).enumerate().filter(|&(_, at)| anew(at)).collect()
}

/// Those groups cut as before.
pub fn renew_as_before(pair: &mut PairSheet, edit: &Edit, old: &PairSheet) {
    let before = unlimited(&pair.gate, take_as_before);
    for (group, _) in anew(pair, edit, old) {
        pair.groups[group] = before[group].clone();
    }
}

/// 6 and 7 in an edit of A by the pieces that the cut of before would have made of those groups.
pub fn edit_limits_of_before(answer: u32, sheet: &[u8], edit: &Edit, old: &PairSheet) -> u32 {
    if !accepted(answer) || edit.list != 0 {
        return answer;
    }
    let mut pair = sheets::read_pair(&sheet[..answer as usize]).expect("an accepted edit's sheet");
    let too_many = |&(_, at): &(usize, usize)| before::group(&pair.gate, at).is_none();
    let too_many_pieces = || anew(&pair, edit, old).iter().any(too_many);
    if shows("edit-6-counts-pieces-of-before") && too_many_pieces() {
        return refused(6);
    }
    if shows("edit-7-counts-boxes-of-before") && !too_many_pieces() {
        renew_as_before(&mut pair, edit, old);
        if total(&pair.groups) + pair.own.len() > 1_024 {
            return refused(7);
        }
    }
    answer
}
