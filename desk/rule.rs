//! Rules, packets and the two lists of a plant, as numbers. Fields stand in the order source address,
//! destination address, source port, destination port, protocol.

pub const FIELDS: usize = 5;
pub const HIGHEST: [u32; FIELDS] = [u32::MAX, u32::MAX, 65_535, 65_535, 255];
pub const SOURCE: usize = 0;
pub const DESTINATION: usize = 1;
pub const SOURCE_PORT: usize = 2;
pub const DESTINATION_PORT: usize = 3;
pub const PROTOCOL: usize = 4;

pub type Packet = [u32; FIELDS];

/// A box: low and high of each field, both ends inside, low never above high.
#[derive(Clone, Copy, PartialEq, Eq, Hash, Debug)]
pub struct Ranges {
    pub low: [u32; FIELDS],
    pub high: [u32; FIELDS],
}

impl Ranges {
    pub const FULL: Ranges = Ranges { low: [0; FIELDS], high: HIGHEST };

    pub fn is_full(&self) -> bool {
        *self == Ranges::FULL
    }

    pub fn is_full_in(&self, field: usize) -> bool {
        self.low[field] == 0 && self.high[field] == HIGHEST[field]
    }

    pub fn has_in(&self, field: usize, packet: &Packet) -> bool {
        self.low[field] <= packet[field] && packet[field] <= self.high[field]
    }

    /// How many packets it has, about.
    pub fn packets(&self) -> f64 {
        let size = |field: usize| f64::from(self.high[field] - self.low[field]) + 1.0;
        (0..FIELDS).map(size).product()
    }

    /// The packets that both have, if there are any.
    pub fn shared(&self, other: &Ranges) -> Option<Ranges> {
        let mut shared = *self;
        for field in 0..FIELDS {
            shared.low[field] = self.low[field].max(other.low[field]);
            shared.high[field] = self.high[field].min(other.high[field]);
        }
        (0..FIELDS).all(|field| shared.low[field] <= shared.high[field]).then_some(shared)
    }
}

#[derive(Clone, Copy, PartialEq, Eq, Hash, Debug)]
pub struct Rule {
    pub ranges: Ranges,
    pub allows: bool,
}

/// Which of the two lists: A, the gate's rules, or B, the cell's own rules.
#[derive(Clone, Copy, PartialEq, Eq, PartialOrd, Ord, Hash, Debug)]
pub enum Which {
    Gate,
    Own,
}

/// The two lists that a move takes.
#[derive(Clone, PartialEq, Eq, Default, Debug)]
pub struct Order {
    pub gate: Vec<Rule>,
    pub own: Vec<Rule>,
}

impl Order {
    pub fn list(&self, which: Which) -> &[Rule] {
        match which {
            Which::Gate => &self.gate,
            Which::Own => &self.own,
        }
    }

    pub fn list_mut(&mut self, which: Which) -> &mut Vec<Rule> {
        match which {
            Which::Gate => &mut self.gate,
            Which::Own => &mut self.own,
        }
    }
}
