//! Packets that one pair of lists forwards and another drops, as boxes that the same rules decide.

use crate::rule::{
    Order, Packet, Ranges, Rule, DESTINATION, DESTINATION_PORT, FIELDS, PROTOCOL, SOURCE,
    SOURCE_PORT,
};

/// The rules that decide a packet: the gate's place, and the own list's place where the gate
/// allows.
#[derive(Clone, Copy, PartialEq, Eq, PartialOrd, Ord, Hash, Debug)]
pub struct Decision {
    pub gate: usize,
    pub own: Option<usize>,
}

/// Packets that were decided otherwise: all of `ranges`, by the same rules before and by the same
/// rules now.
#[derive(Clone, Copy, PartialEq, Eq, Debug)]
pub struct Difference {
    pub ranges: Ranges,
    pub before: Decision,
    pub now: Decision,
    /// Whether they are forwarded now.
    pub forwarded: bool,
}

pub struct Found {
    pub differences: Vec<Difference>,
    /// If not, the search stopped at its limit, and there may be more.
    pub whole: bool,
}

/// Searches for packets that one pair forwards and the other drops; looks at no more than `steps`
/// boxes. No two boxes found share a packet. Lists that do not end in a full rule are not searched.
pub fn differences(before: &Order, now: &Order, steps: usize) -> Found {
    let lists = [&before.gate[..], &before.own[..], &now.gate[..], &now.own[..]];
    let ends = |list: &&[Rule]| list.last().is_some_and(|rule| rule.ranges.is_full());
    if before == now || !lists.iter().all(ends) {
        return Found { differences: Vec::new(), whole: before == now };
    }
    let mut search = Search::new(lists);
    search.run(steps);
    Found { whole: search.waiting.is_empty(), differences: joined(search.found) }
}

/// The four lists: the gate's and the own one before, the gate's and the own one now.
const LISTS: usize = 4;
const BEFORE: usize = 0;
const NOW: usize = 2;

/// Where the lists of a box stand among a search's places: each from its bound to the next.
type Bounds = [usize; LISTS + 1];

/// A box to look at, with the lists of the box it was cut from.
struct Part {
    ranges: Ranges,
    bounds: Bounds,
}

enum Step {
    Same,
    Differs(Difference),
    /// Parts of the box may differ: cut it by a rule that covers only part of it.
    Cut(Ranges),
}

struct Search<'a> {
    lists: [&'a [Rule]; LISTS],
    /// Lists of boxes, each behind those of the box it was cut from. Nesting is bounded by the
    /// number of rules: inside the pieces of a cut its rule covers all or nothing.
    places: Vec<usize>,
    waiting: Vec<Part>,
    found: Vec<Difference>,
}

impl<'a> Search<'a> {
    fn new(lists: [&'a [Rule]; LISTS]) -> Search<'a> {
        let mut places = Vec::new();
        let mut bounds = [0; LISTS + 1];
        for (list, rules) in lists.iter().enumerate() {
            places.extend(0..rules.len());
            bounds[list + 1] = places.len();
        }
        let waiting = vec![Part { ranges: Ranges::FULL, bounds }];
        Search { lists, places, waiting, found: Vec::new() }
    }

    fn run(&mut self, steps: usize) {
        for _ in 0..steps {
            let Some(part) = self.waiting.pop() else { return };
            let bounds = self.trim(&part);
            match self.view(&part.ranges, &bounds).step() {
                Step::Same => {}
                Step::Differs(difference) => self.found.push(difference),
                Step::Cut(by) => self.cut(&part.ranges, &by, bounds),
            }
        }
    }

    /// Puts down the rules that meet the box, of each list up to the first that covers it. The own
    /// list is not asked where the gate denies the whole box.
    fn trim(&mut self, part: &Part) -> Bounds {
        self.places.truncate(part.bounds[LISTS]);
        let mut bounds = [self.places.len(); LISTS + 1];
        for side in [BEFORE, NOW] {
            self.trim_list(part, side);
            bounds[side + 1] = self.places.len();
            let gate = self.lists[side];
            if self.places[bounds[side]..].iter().any(|&place| gate[place].allows) {
                self.trim_list(part, side + 1);
            }
            bounds[side + 2] = self.places.len();
        }
        bounds
    }

    fn trim_list(&mut self, part: &Part, list: usize) {
        for index in part.bounds[list]..part.bounds[list + 1] {
            let place = self.places[index];
            let ranges = &self.lists[list][place].ranges;
            if meets(ranges, &part.ranges) {
                self.places.push(place);
                if covers(ranges, &part.ranges) {
                    return;
                }
            }
        }
    }

    fn view(&self, ranges: &Ranges, bounds: &Bounds) -> View<'_> {
        let lists = std::array::from_fn(|list| {
            Trimmed::new(self.lists[list], &self.places[bounds[list]..bounds[list + 1]])
        });
        View { ranges: *ranges, lists }
    }

    /// Leaves the pieces of the box outside of `by` and the part inside, which comes next.
    fn cut(&mut self, ranges: &Ranges, by: &Ranges, bounds: Bounds) {
        let mut rest = *ranges;
        for field in CUTTING {
            if rest.low[field] < by.low[field] {
                let mut below = rest;
                below.high[field] = by.low[field] - 1;
                rest.low[field] = by.low[field];
                self.waiting.push(Part { ranges: below, bounds });
            }
            if by.high[field] < rest.high[field] {
                let mut above = rest;
                above.low[field] = by.high[field] + 1;
                rest.high[field] = by.high[field];
                self.waiting.push(Part { ranges: above, bounds });
            }
        }
        self.waiting.push(Part { ranges: rest, bounds });
    }
}

/// Addresses last: so fewer boxes come of lists like a plant's.
const CUTTING: [usize; FIELDS] = [PROTOCOL, DESTINATION_PORT, SOURCE_PORT, DESTINATION, SOURCE];

/// The rules of one list that meet a box, by their places.
struct Trimmed<'a> {
    rules: &'a [Rule],
    /// Those that cover part of the box.
    partial: &'a [usize],
    /// Of those the ones that can turn the verdict: behind them all act as the last rule does.
    turning: &'a [usize],
    /// The one that covers the box; none where the list is not asked.
    last: Option<usize>,
}

impl<'a> Trimmed<'a> {
    fn new(rules: &'a [Rule], places: &'a [usize]) -> Trimmed<'a> {
        let Some((&last, partial)) = places.split_last() else {
            return Trimmed { rules, partial: &[], turning: &[], last: None };
        };
        let turns = |&place: &usize| rules[place].allows != rules[last].allows;
        let turning = &partial[..partial.iter().rposition(turns).map_or(0, |index| index + 1)];
        Trimmed { rules, partial, turning, last: Some(last) }
    }

    /// What the rule that covers the box does with the packets left to it.
    fn allows_last(&self) -> bool {
        self.last.is_some_and(|place| self.rules[place].allows)
    }

    /// The same verdict for all packets of the box, if they have it.
    fn verdict(&self) -> Option<bool> {
        self.turning.is_empty().then(|| self.allows_last())
    }

    /// How many rules that can turn a verdict both lists begin with, then how many both end with.
    fn alike(&self, other: &Trimmed, ranges: &Ranges) -> (usize, usize) {
        let same = |(one, two): &(&usize, &usize)| {
            alike_within(ranges, &self.rules[**one], &other.rules[**two])
        };
        let begin = self.turning.iter().zip(other.turning).take_while(same).count();
        let (one, two) = (&self.turning[begin..], &other.turning[begin..]);
        (begin, one.iter().rev().zip(two.iter().rev()).take_while(same).count())
    }
}

/// Places of rules in the four lists.
type Chosen<'a> = [&'a [usize]; LISTS];

/// A box and what of the four lists matters in it.
struct View<'a> {
    ranges: Ranges,
    lists: [Trimmed<'a>; LISTS],
}

impl<'a> View<'a> {
    fn step(&self) -> Step {
        let chosen = match (self.verdict(BEFORE), self.verdict(NOW)) {
            (Some(before), Some(now)) if before == now => return Step::Same,
            (Some(_), Some(_)) => self.undecided(),
            (Some(_), None) => self.turning(NOW),
            (None, Some(_)) => self.turning(BEFORE),
            (None, None) => match self.unlike() {
                Some(chosen) => chosen,
                None => return Step::Same,
            },
        };
        match self.best(&chosen) {
            Some(by) => Step::Cut(by),
            None => Step::Differs(self.difference()),
        }
    }

    /// Whether the pair forwards the box, if it does the same with all of it.
    fn verdict(&self, side: usize) -> Option<bool> {
        match (self.lists[side].verdict(), self.lists[side + 1].verdict()) {
            (Some(false), _) | (_, Some(false)) => Some(false),
            (Some(true), Some(true)) => Some(true),
            _ => None,
        }
    }

    fn turning(&self, side: usize) -> Chosen<'a> {
        let mut chosen: Chosen = [&[]; LISTS];
        for list in [side, side + 1] {
            chosen[list] = self.lists[list].turning;
        }
        chosen
    }

    /// The rules that can make the verdicts differ, for two pairs without one; none if the lists
    /// say the same in the box. The last rules need no look: each acts against the turning one
    /// before it, and where none turns it allows, since a deny would be the pair's verdict.
    fn unlike(&self) -> Option<Chosen<'a>> {
        let mut chosen: Chosen = [&[]; LISTS];
        for list in [BEFORE, BEFORE + 1] {
            let (one, two) = (&self.lists[list], &self.lists[list + NOW]);
            let (begin, end) = one.alike(two, &self.ranges);
            chosen[list] = &one.turning[begin..one.turning.len() - end];
            chosen[list + NOW] = &two.turning[begin..two.turning.len() - end];
        }
        chosen.iter().any(|places| !places.is_empty()).then_some(chosen)
    }

    /// The rules that leave open which rule decides.
    fn undecided(&self) -> Chosen<'a> {
        let mut chosen: Chosen = [&[]; LISTS];
        for gate in [BEFORE, NOW] {
            chosen[gate] = self.lists[gate].partial;
            if chosen[gate].is_empty() {
                chosen[gate + 1] = self.lists[gate + 1].partial;
            }
        }
        chosen
    }

    /// The ranges of the rule whose cut leaves the fewest parts.
    fn best(&self, chosen: &Chosen) -> Option<Ranges> {
        let lists = self.lists.iter().zip(chosen);
        let rules = lists.flat_map(|(list, places)| places.iter().map(|&place| &list.rules[place]));
        rules.map(|rule| rule.ranges).min_by_key(|by| parts_outside(&self.ranges, by))
    }

    /// Which rules decide, where nothing leaves that open.
    fn decision(&self, side: usize) -> Decision {
        let gate = self.lists[side].last.expect("a gate list ends in a full rule");
        Decision { gate, own: self.lists[side + 1].last }
    }

    fn difference(&self) -> Difference {
        Difference {
            ranges: self.ranges,
            before: self.decision(BEFORE),
            now: self.decision(NOW),
            forwarded: self.lists[NOW + 1].allows_last(),
        }
    }
}

fn meets(ranges: &Ranges, other: &Ranges) -> bool {
    (0..FIELDS).all(|field| {
        ranges.low[field] <= other.high[field] && other.low[field] <= ranges.high[field]
    })
}

fn covers(ranges: &Ranges, inner: &Ranges) -> bool {
    (0..FIELDS).all(|field| {
        ranges.low[field] <= inner.low[field] && inner.high[field] <= ranges.high[field]
    })
}

/// Whether two rules do the same inside the box.
fn alike_within(ranges: &Ranges, one: &Rule, two: &Rule) -> bool {
    one.allows == two.allows && one.ranges.shared(ranges) == two.ranges.shared(ranges)
}

/// How many parts a cut leaves outside of `by`.
fn parts_outside(ranges: &Ranges, by: &Ranges) -> usize {
    let below = (0..FIELDS).filter(|&field| ranges.low[field] < by.low[field]).count();
    below + (0..FIELDS).filter(|&field| by.high[field] < ranges.high[field]).count()
}

/// Joining in one field lets boxes join in another. Few lists need more than five rounds; the limit
/// is for time.
const ROUNDS: usize = 8;

/// Joins boxes with the same decisions that touch in one field and are alike in the others.
fn joined(mut differences: Vec<Difference>) -> Vec<Difference> {
    for _ in 0..ROUNDS {
        let count = differences.len();
        for field in 0..FIELDS {
            differences.sort_unstable_by_key(|difference| joining_key(difference, field));
            differences.dedup_by(|next, kept| {
                let touch = kept.ranges.high[field].checked_add(1) == Some(next.ranges.low[field]);
                let join = touch && joining_key(next, field).0 == joining_key(kept, field).0;
                if join {
                    kept.ranges.high[field] = next.ranges.high[field];
                }
                join
            });
        }
        if differences.len() == count {
            break;
        }
    }
    differences.sort_unstable_by_key(|difference| {
        (difference.now, difference.before, difference.ranges.low, difference.ranges.high)
    });
    differences
}

type Others = (Decision, Decision, [u32; FIELDS], [u32; FIELDS]);

/// What must be alike for two boxes to be joined in the field, and the order of those there.
fn joining_key(difference: &Difference, field: usize) -> (Others, u32) {
    let Ranges { mut low, mut high } = difference.ranges;
    let first = low[field];
    (low[field], high[field]) = (0, 0);
    ((difference.now, difference.before, low, high), first)
}

const TCP: u32 = 6;
const UDP: u32 = 17;
const ICMP: u32 = 1;

/// 10.0.0.1, 192.168.0.1 and 172.16.0.1, which are private, then 8.8.8.8.
const ADDRESSES: [u32; 4] = [0x0a00_0001, 0xc0a8_0001, 0xac10_0001, 0x0808_0808];

/// A packet of the box for people to read: of the usual addresses, ports and protocols where the
/// box has them.
pub fn example(ranges: &Ranges) -> Packet {
    let usual = |field: usize, values: &[u32]| {
        let inside = |value: &&u32| (ranges.low[field]..=ranges.high[field]).contains(value);
        values.iter().find(inside).copied()
    };
    let address = |field: usize| {
        let host = usual(field, &ADDRESSES);
        host.unwrap_or_else(|| host_from(ranges.low[field], ranges.high[field]))
    };
    let port = |field: usize, values: &[u32]| usual(field, values).unwrap_or(ranges.low[field]);
    let mut packet = ranges.low;
    packet[PROTOCOL] = usual(PROTOCOL, &[TCP, UDP, ICMP]).unwrap_or(ranges.low[PROTOCOL]);
    packet[SOURCE] = address(SOURCE);
    packet[DESTINATION] = address(DESTINATION);
    // A packet from an address to itself is one that nobody tries.
    for field in [DESTINATION, SOURCE] {
        if packet[DESTINATION] == packet[SOURCE] && packet[field] < ranges.high[field] {
            packet[field] += 1;
        }
    }
    // The others have no ports: there the low end stays, mostly 0.
    if [TCP, UDP].contains(&packet[PROTOCOL]) {
        packet[SOURCE_PORT] = port(SOURCE_PORT, &[50_000, 1_024, 1]);
        packet[DESTINATION_PORT] = port(DESTINATION_PORT, &[80, 443, 22, 8_080, 1_024, 1]);
    }
    packet
}

/// The first address that looks like a host's: not the first nor the last of 256.
fn host_from(low: u32, high: u32) -> u32 {
    let host = |address: &u32| ![0, 255].contains(&(address % 256));
    (low..=high).take(3).find(host).unwrap_or(low)
}
