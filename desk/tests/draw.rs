//! What the tests draw at random: numbers, rules, lists and packets.

use crate::rule::{Order, Packet, Ranges, Rule, FIELDS, HIGHEST, SOURCE_PORT};

/// Low and high, both inside.
pub type Span = (u32, u32);

pub const FULL: Rule = Rule { ranges: Ranges::FULL, allows: true };

/// Values that rules of a plant share, so that drawn rules meet: two addresses in one network and one
/// beside it, ports, protocols.
const USUAL: [&[u32]; FIELDS] = [
    &[0x0a14_0800, 0x0a14_080f, 0xac10_0001],
    &[0x0a1e_0100, 0x0a1e_01ff, 0xe000_0000],
    &[80, 123, 1_024],
    &[80, 443, 502],
    &[1, 6, 17],
];

/// xorshift64*.
pub struct Draw {
    state: u64,
}

impl Draw {
    pub fn new(seed: u64) -> Draw {
        // A state of 0 would stay 0.
        Draw { state: seed.wrapping_mul(0x9e37_79b9_7f4a_7c15) | 1 }
    }

    pub fn number(&mut self) -> u64 {
        self.state ^= self.state >> 12;
        self.state ^= self.state << 25;
        self.state ^= self.state >> 27;
        // The low bits are the weakest.
        self.state.wrapping_mul(0x2545_f491_4f6c_dd1d) >> 16
    }

    pub fn below(&mut self, count: usize) -> usize {
        (self.number() % count as u64) as usize
    }

    pub fn between(&mut self, low: u32, high: u32) -> u32 {
        (u64::from(low) + self.number() % (u64::from(high - low) + 1)) as u32
    }

    pub fn one_in(&mut self, count: usize) -> bool {
        self.below(count) == 0
    }

    pub fn pick<T: Copy>(&mut self, from: &[T]) -> T {
        from[self.below(from.len())]
    }

    pub fn bytes(&mut self, count: usize) -> Vec<u8> {
        (0..count).map(|_| self.number() as u8).collect()
    }

    /// How many: mostly few, now and then as many as there may be.
    pub fn size(&mut self, most: usize) -> usize {
        match self.below(60) {
            0 => most,
            1 | 2 => 1 + self.below(most),
            _ => 1 + self.below(most.min(8)),
        }
    }

    pub fn value(&mut self, field: usize) -> u32 {
        match self.below(8) {
            0 => 0,
            1 => HIGHEST[field],
            2..=4 => self.pick(USUAL[field]),
            _ => self.between(0, HIGHEST[field]),
        }
    }

    pub fn span(&mut self, field: usize) -> Span {
        let (one, two) = (self.value(field), self.value(field));
        match self.below(7) {
            0 => (0, HIGHEST[field]),
            1 | 2 => (one, one),
            3 => (0, one),
            4 => (one, HIGHEST[field]),
            // A whole prefix: of an address, or as many ports or protocols.
            5 => {
                let rest = HIGHEST[field] >> self.below(33).min(31);
                (one & !rest, one | rest)
            }
            _ => (one.min(two), one.max(two)),
        }
    }

    pub fn ranges(&mut self) -> Ranges {
        let mut ranges = Ranges::FULL;
        for field in 0..FIELDS {
            if self.one_in(2) {
                (ranges.low[field], ranges.high[field]) = self.span(field);
            }
        }
        ranges
    }

    pub fn rule(&mut self) -> Rule {
        Rule { ranges: self.ranges(), allows: self.one_in(2) }
    }

    /// A list as a move takes it: its last rule is full.
    pub fn list(&mut self, count: usize) -> Vec<Rule> {
        let mut list: Vec<Rule> = (1..count).map(|_| self.rule()).collect();
        list.push(Rule { allows: self.one_in(2), ..FULL });
        list
    }

    pub fn order(&mut self, most_gate: usize, most_own: usize) -> Order {
        let (gate, own) = (self.size(most_gate), self.size(most_own));
        Order { gate: self.list(gate), own: self.list(own) }
    }

    /// A gate whose allows cut its denies into many boxes: each leaves out a value of one field.
    pub fn cutting_gate(&mut self, allows: usize) -> Vec<Rule> {
        let mut gate = Vec::new();
        for at in 0..allows {
            let (field, value) = (self.below(4), 1 + 2 * at as u32);
            let mut ranges = if self.one_in(8) { self.ranges() } else { Ranges::FULL };
            (ranges.low[field], ranges.high[field]) = (value, value);
            gate.push(Rule { ranges, allows: true });
            if self.one_in(6) {
                let mut deny = Rule { allows: false, ..FULL };
                // Ports from 1,024 on: some allows before it leave this deny whole.
                deny.ranges.low[SOURCE_PORT] = self.pick(&[0, 1_024]);
                gate.push(deny);
            }
        }
        gate.push(Rule { allows: false, ..FULL });
        gate
    }

    /// A packet at the edges of rules, where lists differ first.
    pub fn packet(&mut self, rules: &[Rule]) -> Packet {
        let mut packet = [0; FIELDS];
        for (field, value) in packet.iter_mut().enumerate() {
            let ranges = self.pick(rules).ranges;
            let (low, high) = (ranges.low[field], ranges.high[field]);
            *value = match self.below(6) {
                0 => low.saturating_sub(1),
                1 => high.saturating_add(1).min(HIGHEST[field]),
                2 => high,
                3 => self.between(low, high),
                _ => low,
            };
        }
        packet
    }
}
