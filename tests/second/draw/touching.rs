//! Boxes that touch (02, W2): an allow that misses a deny in one field by one value, or shares just
//! one value with it there, and meets it in every other field. A test of sharing that leaves out a
//! field, or is one off in it, answers such a pair wrongly.

use crate::draw::random::Random;
use crate::draw::{self, Pair, Shape};
use crate::model::boxes::{Action, PacketBox, Range, Rule, FIELDS, HIGHEST};
use crate::model::rows;

/// How the allow's range lies to the deny's in the field where they touch.
#[derive(Clone, Copy, Debug)]
pub enum Touch {
    EndsBefore,
    SharesLowest,
    SharesHighest,
    BeginsBehind,
}

pub const TOUCHES: [Touch; 4] =
    [Touch::EndsBefore, Touch::SharesLowest, Touch::SharesHighest, Touch::BeginsBehind];

impl Touch {
    pub fn misses(self) -> bool {
        matches!(self, Touch::EndsBefore | Touch::BeginsBehind)
    }

    /// A range that touches `own`, which reaches neither end of the field, and has up to `more`
    /// values on the far side.
    fn range(self, own: Range, more: u64, highest: u64) -> Range {
        let up_to = |high: u64| Range { low: high.saturating_sub(more), high };
        let from = |low: u64| Range { low, high: (low + more).min(highest) };
        match self {
            Touch::EndsBefore => up_to(own.low - 1),
            Touch::SharesLowest => up_to(own.low),
            Touch::SharesHighest => from(own.high),
            Touch::BeginsBehind => from(own.high + 1),
        }
    }
}

/// A deny's box and an allow's box that touch in the field.
pub fn boxes(random: &mut Random, field: usize, touch: Touch) -> (PacketBox, PacketBox) {
    let (mut deny, mut allow) = (PacketBox::full(), PacketBox::full());
    for (other, highest) in HIGHEST.into_iter().enumerate() {
        (deny.ranges[other], allow.ranges[other]) = match other == field {
            true => {
                let own = within_ends(random, highest);
                (own, touch.range(own, random.below(3), highest))
            }
            false => meeting(random, highest),
        };
    }
    (deny, allow)
}

/// A short range near one end of the field, with a value left on either side.
fn within_ends(random: &mut Random, highest: u64) -> Range {
    let (near, length) = (random.within(1, 3), random.below(4));
    match random.chance(70) {
        true => Range { low: near, high: near + length },
        false => Range { low: highest - near - length, high: highest - near },
    }
}

/// Two ranges with some value in common; mostly each has values that the other has not.
fn meeting(random: &mut Random, highest: u64) -> (Range, Range) {
    let value = random.pick(&[0, 2, 5, 80, highest - 5, highest]);
    let mut around = || match random.chance(25) {
        true => Range { low: 0, high: highest },
        false => Range {
            low: value.saturating_sub(random.below(4)),
            high: (value + random.below(4)).min(highest),
        },
    };
    (around(), around())
}

/// Allows of single sources, and denies that miss them by one value in the last field. Before W2
/// each deny had two boxes for each allow and one more, and with the own rules their number was the
/// limit of 7 or just below it; now each has one.
pub fn crowded_pair(random: &mut Random, shape: &Shape) -> Pair {
    let (last, first) = (FIELDS - 1, random.within(1, 200));
    let allows = random.within(12, 40);
    let denies = 1_000 / (2 * allows + 1);
    let allow = |mut rule: Rule| {
        rule.area.ranges[last].low = first;
        rule
    };
    let deny = PacketBox::full().with(last, Range { low: 0, high: first - 1 });
    let gate = rows::singles(0, allows).into_iter().map(allow);
    let gate = gate.chain(vec![Rule::new(deny, Action::Deny); denies as usize]);
    let gate = gate.chain([rows::full(Action::Allow)]).collect();
    let own = 1_024 - denies * (2 * allows + 1) - random.pick(&[0, 0, 0, 1, 2]);
    Pair { gate, own: draw::list(random, shape, own) }
}

/// A gate of such allows, each somewhere before its deny.
pub fn pair(random: &mut Random, shape: &Shape) -> Pair {
    let (mut allows, mut denies) = (Vec::new(), Vec::new());
    for _ in 0..random.within(1, 3) {
        let (field, touch) = (random.index(FIELDS), random.pick(&TOUCHES));
        let (deny, allow) = boxes(random, field, touch);
        allows.push(Rule::new(allow, Action::Allow));
        denies.push(Rule::new(deny, Action::Deny));
    }
    let last = rows::full(random.pick(&[Action::Allow, Action::Allow, Action::Deny]));
    let own = random.within(1, 3);
    let gate = match random.chance(50) {
        true => [allows, denies, vec![last]].concat(),
        false => {
            let pairs = allows.into_iter().zip(denies).flat_map(|(allow, deny)| [allow, deny]);
            pairs.chain([last]).collect()
        }
    };
    Pair { gate, own: draw::list(random, shape, own) }
}
