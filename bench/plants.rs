// Random gate lists as a plant may have them.
use crate::inputs::{net, own, rule, Input, ALLOW, DENY};
use crate::measure::Random;
use crate::sheets::{Rule, GATE};

// The first seed whose plant of 64 rules, the last of them a deny, has between 900 and 960 boxes.
const FULL_PLANT: u64 = 4207;

// A network, a part of one, one machine or four networks, out of sixteen.
fn place(random: &mut Random, field: usize) -> (usize, u32, u32) {
    let a = random.next(16) as u32;
    match random.next(8) {
        0..=2 => net(field, a, 0, 256),
        3 => net(field, a, 64 * random.next(4) as u32, 64),
        4..=6 => net(field, a, 1 + random.next(8) as u32, 1),
        _ => net(field, a / 4 * 4, 0, 1024),
    }
}

const SERVICES: [(u32, u32); 8] = [(502, 6), (44_818, 6), (4840, 6), (102, 6), (20_000, 6), (443, 6), (123, 17), (161, 17)];

// A service by port and protocol, a protocol alone, the low ports, or nothing.
fn service(random: &mut Random) -> Vec<(usize, u32, u32)> {
    let (port, protocol) = SERVICES[random.next(8) as usize];
    match random.next(8) {
        0..=4 => vec![(3, port, port), (4, protocol, protocol)],
        5 => vec![(4, protocol, protocol)],
        6 => vec![(3, 0, 1023)],
        _ => vec![],
    }
}

// A random gate as a plant may have it: three allows for two denies. Allows name both ends and mostly a service; denies name a
// destination and sometimes a service. The last rule is full.
pub fn plant(random: &mut Random, rules: usize, last: u8) -> Vec<Rule> {
    let mut gate: Vec<Rule> = (1..rules)
        .map(|_| {
            let action = (random.next(5) < 3) as u8;
            let mut narrow = vec![place(random, 1)];
            if action == ALLOW {
                narrow.push(place(random, 0));
            }
            if action == ALLOW || random.next(2) == 0 {
                narrow.extend(service(random));
            }
            rule(&narrow, action)
        })
        .collect();
    gate.push(rule(&[], last));
    gate
}

pub fn full_plant() -> Input {
    Input { name: "full, a random plant", gate: plant(&mut Random(FULL_PLANT), GATE, DENY), own: own(72) }
}
