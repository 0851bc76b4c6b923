// Lookup in lists of 1,024 rules of which the last fits: the library, three C versions and safe Rust twice.
use crate::measure::{head, medians, row, timed, Random, Version};
use crate::sheets::{four, put, two, FIELDS, HIGHEST, MOST as RULES, RECORD, REFUSED, WIDTH};
use crate::surface::foldplover_lookup;
use std::hint::black_box;

pub const CALLS: usize = 48;
// Damaged lists for each kind.
const DAMAGES: usize = 300;

pub type Packet = [u32; FIELDS];

type Lookup = fn(&Packet, &[u8]) -> u32;

const VERSIONS: [Version<Lookup>; 6] = [
    ("library", library),
    ("C straight", c_straight),
    ("C loops", c_loops),
    ("C 1 to 5", c_ascending),
    ("Rust one", rust::<true>),
    ("Rust two", rust::<false>),
];

extern "C" {
    fn lookup_straight(src: u32, dst: u32, sport: u32, dport: u32, proto: u32, list: *const u8, len: usize) -> u32;
    fn lookup_loops(src: u32, dst: u32, sport: u32, dport: u32, proto: u32, list: *const u8, len: usize) -> u32;
    fn lookup_ascending(src: u32, dst: u32, sport: u32, dport: u32, proto: u32, list: *const u8, len: usize) -> u32;
}

pub fn library(p: &Packet, list: &[u8]) -> u32 {
    unsafe { foldplover_lookup(p[0], p[1], p[2], p[3], p[4], list.as_ptr(), list.len()) }
}

fn c_straight(p: &Packet, list: &[u8]) -> u32 {
    unsafe { lookup_straight(p[0], p[1], p[2], p[3], p[4], list.as_ptr(), list.len()) }
}

fn c_loops(p: &Packet, list: &[u8]) -> u32 {
    unsafe { lookup_loops(p[0], p[1], p[2], p[3], p[4], list.as_ptr(), list.len()) }
}

fn c_ascending(p: &Packet, list: &[u8]) -> u32 {
    unsafe { lookup_ascending(p[0], p[1], p[2], p[3], p[4], list.as_ptr(), list.len()) }
}

#[repr(C)]
pub struct Rule {
    pub low: [u32; FIELDS],
    pub high: [u32; FIELDS],
    pub action: u32,
}

// Both ends of a port range are read as one number, which takes fewer instructions than two.
pub fn decode(s: &[u8; RECORD]) -> Rule {
    let (sports, dports) = (four(&s[16..]), four(&s[20..]));
    Rule {
        low: [four(&s[0..]), four(&s[8..]), sports >> 16, dports >> 16, s[24] as u32],
        high: [four(&s[4..]), four(&s[12..]), sports & 65535, dports & 65535, s[25] as u32],
        action: s[26] as u32,
    }
}

// With one comparison for both ends of a range, and so one branch a field; or with one for each end: fewer instructions, more branches.
// The records that are left tell the place of a rule, so that the loop has nothing else to count.
#[inline(never)]
fn rust<const ONE: bool>(p: &Packet, list: &[u8]) -> u32 {
    if list.len() < 2 {
        return REFUSED + 3;
    }
    let count = two(list) as usize;
    if count < 1 || count > RULES {
        return REFUSED + 2;
    }
    if list.len() != 2 + RECORD * count {
        return REFUSED + 3;
    }
    let mut records = list[2..].as_chunks::<RECORD>().0.iter();
    'rules: while let Some(s) = records.next() {
        let Rule { low, high, action } = decode(s);
        for k in 0..FIELDS {
            if low[k] > high[k] {
                return REFUSED + 4;
            }
        }
        if action > 1 {
            return REFUSED + 4;
        }
        for k in (0..FIELDS).rev() {
            if ONE {
                if p[k].wrapping_sub(low[k]) > high[k] - low[k] {
                    continue 'rules;
                }
            } else {
                if p[k] < low[k] || p[k] > high[k] {
                    continue 'rules;
                }
            }
        }
        return 2 * (count - 1 - records.len()) as u32 + action;
    }
    REFUSED + 5
}

// A list whose rules before the last each miss the packet in the field that `miss` picks; the last is full.
fn list(random: &mut Random, p: &Packet, miss: fn(&mut Random) -> usize) -> Vec<u8> {
    let mut out = Vec::new();
    put(&mut out, RULES as u32, 2);
    for i in 0..RULES {
        let field = if i + 1 < RULES { miss(random) } else { FIELDS };
        for k in 0..FIELDS {
            let (low, high) = if k != field {
                (0, HIGHEST[k])
            } else if random.next(2) == 0 {
                (0, random.next(p[k] as u64) as u32)
            } else {
                (p[k] + 1 + random.next((HIGHEST[k] - p[k]) as u64) as u32, HIGHEST[k])
            };
            put(&mut out, low, WIDTH[k]);
            put(&mut out, high, WIDTH[k]);
        }
        out.push(random.next(2) as u8);
    }
    out
}

pub const PACKET: Packet = [3_000_000_000, 2_000_000_000, 30_000, 40_000, 100];

// A kind of lists: what it is called, and the lists that are looked up in turn.
pub type Kind = (&'static str, Vec<Vec<u8>>);

// In a storm, of twenty rules that miss eleven do so in the protocol, eight in the destination port and one elsewhere.
pub fn kinds() -> Vec<Kind> {
    let first = |_: &mut Random| 0;
    let last = |_: &mut Random| FIELDS - 1;
    let any = |r: &mut Random| r.next(FIELDS as u64) as usize;
    let storm = |r: &mut Random| match r.next(20) {
        0..=10 => 4,
        11..=18 => 3,
        _ => r.next(3) as usize,
    };
    let mut random = Random(0x9E37_79B9_7F4A_7C15);
    let mut kind =
        |name, miss: fn(&mut Random) -> usize, lists| (name, (0..lists).map(|_| list(&mut random, &PACKET, miss)).collect());
    vec![
        kind("field 1 misses", first, 1),
        kind("field 5 misses", last, 1),
        kind("mixed, one list (predictable)", any, 1),
        kind("mixed, 16 lists in turn", any, 16),
        kind("storm, one list (predictable)", storm, 1),
        kind("storm, 16 lists in turn", storm, 16),
    ]
}

// The names of the kinds, a line each.
pub fn names() {
    kinds().iter().for_each(|(name, _)| println!("{name}"));
}

// One record anywhere gets a low above its high or an action above 1.
fn damage(random: &mut Random, list: &mut [u8]) {
    let field = random.next(FIELDS as u64 + 1) as usize;
    let mut bytes = Vec::new();
    if field < FIELDS {
        let low = 1 + random.next(HIGHEST[field] as u64);
        put(&mut bytes, low as u32, WIDTH[field]);
        put(&mut bytes, random.next(low) as u32, WIDTH[field]);
    } else {
        put(&mut bytes, 2 + random.next(254) as u32, 1);
    }
    let at = 2 + RECORD * random.next(RULES as u64) as usize + 2 * WIDTH[..field].iter().sum::<usize>();
    list[at..at + bytes.len()].copy_from_slice(&bytes);
}

// What all versions answer, which must be the same.
fn agreed(p: &Packet, list: &[u8]) -> u32 {
    let answers = VERSIONS.map(|(_, version)| version(p, list));
    assert!(answers.iter().all(|a| *a == answers[0]), "{answers:?}");
    answers[0]
}

// All versions on the lists that are measured, and on the same with a damaged record. The packet of the lists gets there; one drawn at
// random mostly finds a rule before.
pub fn agree() {
    let mut random = Random(7);
    for (name, lists) in kinds() {
        for l in &lists {
            assert!(agreed(&PACKET, l) / 2 == RULES as u32 - 1, "{name}");
        }
        for i in 0..DAMAGES {
            let mut l = lists[i % lists.len()].clone();
            damage(&mut random, &mut l);
            assert!(agreed(&PACKET, &l) == REFUSED + 4, "{name}");
            agreed(&HIGHEST.map(|h| random.next(h as u64 + 1) as u32), &l);
        }
    }
}

fn look_up(version: Lookup, lists: &[Vec<u8>], calls: usize) {
    for i in 0..calls {
        black_box(version(black_box(&PACKET), black_box(&lists[i % lists.len()])));
    }
}

// So many lookups by one version in the lists of a kind and nothing else, for a count of instructions.
pub fn count(version: usize, kind: usize, calls: usize) {
    look_up(VERSIONS[version].1, &kinds()[kind].1, calls);
}

pub fn run() {
    agree();
    head("lookup, the last rule fits", &["rules", "bytes"], &VERSIONS);
    for (name, lists) in kinds() {
        let times = medians(&VERSIONS, |version| timed(CALLS, || look_up(version, &lists, CALLS)));
        row(name, &[RULES, lists[0].len()], &times);
    }
}
