//! Loads for a report: packets as bytes, and two readings of the cell filter's counters, of the
//! right length and of wrong ones.

use crate::draw::random::Random;
use crate::model::boxes::Packet;
use crate::model::reports::{self, PACKET_BYTES, READING_BYTES};

/// So many hits, and a counter stands where it stood.
const ROLL: u64 = 4_294_967_296;

/// Bytes to lend, and what stands behind them.
#[derive(Clone)]
pub struct Input {
    pub bytes: Vec<u8>,
    pub behind: Vec<u8>,
}

impl Input {
    fn whole(bytes: Vec<u8>) -> Input {
        Input { bytes, behind: Vec::new() }
    }

    /// Behind a cut stands what was cut off; what is too long goes on with drawn bytes.
    fn resize(&mut self, random: &mut Random, length: usize) {
        match length < self.bytes.len() {
            true => self.behind = self.bytes.split_off(length),
            false => self.bytes.extend(random.bytes(length - self.bytes.len())),
        }
    }
}

#[derive(Clone)]
pub struct DrawnLoad {
    pub packets: Input,
    pub earlier: Input,
    pub later: Input,
}

/// A load that a list with so many places takes.
pub fn sound(random: &mut Random, packets: &[Packet], places: usize) -> DrawnLoad {
    let earlier: Vec<u64> = (0..places).map(|_| reading(random)).collect();
    let later: Vec<u64> = earlier.iter().map(|&before| later_reading(random, before)).collect();
    DrawnLoad {
        packets: Input::whole(packets.iter().flat_map(reports::packet_bytes).collect()),
        earlier: Input::whole(reports::reading_bytes(&earlier)),
        later: Input::whole(reports::reading_bytes(&later)),
    }
}

fn reading(random: &mut Random) -> u64 {
    let (any, few) = (random.below(ROLL), random.below(300));
    random.pick(&[0, 1, few, any, any, ROLL / 2, ROLL - 1 - few, ROLL - 1])
}

/// Some hits more, rolled over or not; as many as before, or one whole roll but for a few.
fn later_reading(random: &mut Random, earlier: u64) -> u64 {
    let (any, few) = (reading(random), random.below(300));
    let (above, below) = ((earlier + few) % ROLL, (earlier + ROLL - few) % ROLL);
    random.pick(&[any, any, earlier, above, below])
}

/// The first packets and the others, beside the same readings.
pub fn parts(load: &DrawnLoad, first_packets: usize) -> [DrawnLoad; 2] {
    let (first, second) = load.packets.bytes.split_at(first_packets * PACKET_BYTES);
    let part = |bytes: &[u8], behind: &[u8]| {
        let packets = Input { bytes: bytes.to_vec(), behind: behind.to_vec() };
        DrawnLoad { packets, ..load.clone() }
    };
    [part(first, second), part(second, &[])]
}

/// One to twelve bytes too few for a packet, or too many.
pub fn break_last_packet(random: &mut Random, load: &mut DrawnLoad) {
    let (length, bytes) = (load.packets.bytes.len(), random.within(1, 12) as usize);
    match length > 0 && random.chance(50) {
        true => load.packets.resize(random, length - bytes),
        false => load.packets.resize(random, length + bytes),
    }
}

/// One of the two readings of a wrong length, or both, alike or not.
pub fn spoil_readings(random: &mut Random, load: &mut DrawnLoad) {
    let length = load.earlier.bytes.len();
    let (first, second) = (wrong_length(random, length), wrong_length(random, length));
    let both = [(first, length), (length, first), (first, first), (first, second)];
    let (earlier, later) = random.pick(&both);
    load.earlier.resize(random, earlier);
    load.later.resize(random, later);
}

fn wrong_length(random: &mut Random, length: usize) -> usize {
    let off = random.within(1, READING_BYTES as u64) as usize;
    random.pick(&[length - off, length - off, length + off, length + off, 0, 2 * length])
}
