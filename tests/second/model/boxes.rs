//! Ranges, boxes, rules and lists: 01, "The five fields" and "Cutting one box from another", with
//! what 02, W2 changes there; and where a rule of the cell list comes from: 02, W1.
//!
//! Written to be read beside 01, not to be fast: numbers are `u64` wide so that no sum or
//! difference comes near an end, lists are vectors, and what two boxes share is worked out as a box
//! of its own before anything is cut.

use crate::model::refusals::{Fault, Part, Refusal};

pub const FIELDS: usize = 5;
pub const HIGHEST: [u64; FIELDS] = [4_294_967_295, 4_294_967_295, 65_535, 65_535, 255];
pub const MOST_PIECES: usize = 1_024;

pub type Packet = [u64; FIELDS];

#[derive(Clone, Copy, PartialEq, Eq, Debug)]
pub struct Range {
    pub low: u64,
    pub high: u64,
}

impl Range {
    pub fn has(self, value: u64) -> bool {
        self.low <= value && value <= self.high
    }

    pub fn shared(self, other: Range) -> Option<Range> {
        let (low, high) = (self.low.max(other.low), self.high.min(other.high));
        (low <= high).then_some(Range { low, high })
    }

    /// The part before `inner`, which lies within this range.
    pub fn below(self, inner: Range) -> Option<Range> {
        (self.low < inner.low).then(|| Range { low: self.low, high: inner.low - 1 })
    }

    pub fn above(self, inner: Range) -> Option<Range> {
        (inner.high < self.high).then(|| Range { low: inner.high + 1, high: self.high })
    }
}

/// A box; the plain word is taken by the language.
#[derive(Clone, PartialEq, Eq, Debug)]
pub struct PacketBox {
    pub ranges: [Range; FIELDS],
}

impl PacketBox {
    pub fn full() -> PacketBox {
        PacketBox { ranges: HIGHEST.map(|high| Range { low: 0, high }) }
    }

    pub fn is_full(&self) -> bool {
        *self == PacketBox::full()
    }

    pub fn has(&self, packet: &Packet) -> bool {
        (0..FIELDS).all(|field| self.ranges[field].has(packet[field]))
    }

    pub fn with(&self, field: usize, range: Range) -> PacketBox {
        let mut changed = self.clone();
        changed.ranges[field] = range;
        changed
    }

    /// The packets that are in both boxes: a box, unless some field's ranges share no value.
    pub fn shared(&self, other: &PacketBox) -> Option<PacketBox> {
        let mut both = self.clone();
        for field in 0..FIELDS {
            both.ranges[field] = self.ranges[field].shared(other.ranges[field])?;
        }
        Some(both)
    }

    /// What taking `allow` leaves of this (deny) box: the box itself if the two share no packet
    /// (02, W2), else its pieces around what they share.
    pub fn less(&self, allow: &PacketBox) -> Vec<PacketBox> {
        match self.shared(allow) {
            None => vec![self.clone()],
            Some(shared) => self.around(&shared),
        }
    }

    /// The pieces around a box within this one, in 01's order: field by field the part below, then
    /// the part above, the earlier fields holding the inner ranges and the later ones this box's.
    fn around(&self, inner: &PacketBox) -> Vec<PacketBox> {
        let (mut pieces, mut rest) = (Vec::new(), self.clone());
        for field in 0..FIELDS {
            let (own, inner) = (self.ranges[field], inner.ranges[field]);
            let parts = [own.below(inner), own.above(inner)];
            pieces.extend(parts.into_iter().flatten().map(|part| rest.with(field, part)));
            rest = rest.with(field, inner);
        }
        pieces
    }
}

#[derive(Clone, Copy, PartialEq, Eq, Debug)]
pub enum Action {
    Deny,
    Allow,
}

impl Action {
    pub fn number(self) -> u64 {
        match self {
            Action::Deny => 0,
            Action::Allow => 1,
        }
    }
}

#[derive(Clone, PartialEq, Eq, Debug)]
pub struct Rule {
    pub area: PacketBox,
    pub action: Action,
}

impl Rule {
    pub fn new(area: PacketBox, action: Action) -> Rule {
        Rule { area, action }
    }

    pub fn allows(&self) -> bool {
        self.action == Action::Allow
    }
}

pub type Group = Vec<PacketBox>;

/// The first rule that has the packet, if any: above a field's highest there is none.
pub fn first_match(list: &[Rule], packet: &Packet) -> Option<(usize, Action)> {
    let place = list.iter().position(|rule| rule.area.has(packet))?;
    Some((place, list[place].action))
}

/// The places of the gate's deny rules.
pub fn denies(gate: &[Rule]) -> impl Iterator<Item = usize> + '_ {
    (0..gate.len()).filter(|&place| !gate[place].allows())
}

/// Every piece in order, replaced by what `allow` leaves of it.
pub fn take(pieces: &[PacketBox], allow: &PacketBox) -> Vec<PacketBox> {
    pieces.iter().flat_map(|piece| piece.less(allow)).collect()
}

/// The group of a deny rule's box behind the rules `earlier`. 6 is looked at after each allow,
/// so a later one that would remove the pieces again does not help.
pub fn group(deny: &PacketBox, earlier: &[Rule], part: Part) -> Result<Group, Refusal> {
    let mut pieces = vec![deny.clone()];
    for rule in earlier.iter().filter(|rule| rule.allows()) {
        pieces = take(&pieces, &rule.area);
        if pieces.len() > MOST_PIECES {
            return Err(Refusal::new(part, Fault::TooManyPieces));
        }
    }
    Ok(pieces)
}

/// One group for each deny rule of the gate, in gate order.
pub fn groups(gate: &[Rule]) -> Result<Vec<Group>, Refusal> {
    denies(gate).map(|place| group(&gate[place].area, &gate[..place], Part::C)).collect()
}

/// The moved pair's cell list: the groups in front, as denies, so that no gate allow can skip the
/// cell's own checks.
pub fn cell_rules(groups: &[Group], own: &[Rule]) -> Vec<Rule> {
    let denies = groups.iter().flatten().map(|area| Rule::new(area.clone(), Action::Deny));
    denies.chain(own.iter().cloned()).collect()
}

/// Where a rule of the cell list comes from: a gate rule by its place, denies and allows counted,
/// with the number of the box in its group, or an own rule by its place.
#[derive(Clone, Copy, PartialEq, Eq, Debug)]
pub enum Origin {
    Gate { place: usize, number: usize },
    Own { place: usize },
}

/// The cell list's first rule that has the packet: its place there, its action and its origin. The
/// gate is walked for its denies, the boxes in each one's group are tried one by one, then the own
/// rules; which packets a gate rule itself has is not asked.
pub fn first_origin(
    gate: &[Rule],
    groups: &[Group],
    own: &[Rule],
    packet: &Packet,
) -> Option<(usize, Action, Origin)> {
    let boxes = denies(gate).zip(groups).flat_map(|(place, group)| {
        let origin = move |number| Origin::Gate { place, number };
        group.iter().enumerate().map(move |(number, area)| (area, Action::Deny, origin(number)))
    });
    let own = own.iter().enumerate();
    let own = own.map(|(place, rule)| (&rule.area, rule.action, Origin::Own { place }));
    let mut cell = boxes.chain(own).enumerate();
    let (place, (_, action, origin)) = cell.find(|(_, (area, _, _))| area.has(packet))?;
    Some((place, action, origin))
}

/// The moved pair's gate list.
pub fn gate_rules() -> Vec<Rule> {
    vec![Rule::new(PacketBox::full(), Action::Allow)]
}
