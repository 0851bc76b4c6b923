// Lookup in tables of 1,024 rules in memory, the rules that bench/lookup.rs has as bytes: the library beside two C versions over the
// same structs, then beside safe Rust over them and its own lookup over the bytes.
use crate::lookup::{decode, kinds, Packet, Rule, CALLS, PACKET};
use crate::measure::{head, medians, row, timed, Version};
use crate::sheets::{FIELDS, HIGHEST, MOST as RULES, RECORD};
use crate::surface::foldplover_lookup_table;
use std::hint::black_box;
use std::mem::size_of;

extern "C" {
    fn table_loops(src: u32, dst: u32, sport: u32, dport: u32, proto: u32, rules: *const Rule, count: usize) -> u32;
    fn table_straight(src: u32, dst: u32, sport: u32, dport: u32, proto: u32, rules: *const Rule, count: usize) -> u32;
}

struct Both {
    bytes: Vec<u8>,
    rules: Vec<Rule>,
}

fn library(p: &Packet, b: &Both) -> u32 {
    unsafe { foldplover_lookup_table(p[0], p[1], p[2], p[3], p[4], b.rules.as_ptr().cast(), b.rules.len()) }
}

fn c_loops(p: &Packet, b: &Both) -> u32 {
    unsafe { table_loops(p[0], p[1], p[2], p[3], p[4], b.rules.as_ptr(), b.rules.len()) }
}

fn c_straight(p: &Packet, b: &Both) -> u32 {
    unsafe { table_straight(p[0], p[1], p[2], p[3], p[4], b.rules.as_ptr(), b.rules.len()) }
}

fn bytes(p: &Packet, b: &Both) -> u32 {
    crate::lookup::library(p, &b.bytes)
}

#[inline(never)]
fn search(p: &Packet, rules: &[Rule]) -> u32 {
    const BASE: u32 = 65536;
    if rules.is_empty() || rules.len() > RULES {
        return BASE + 2;
    }
    'rules: for (i, r) in rules.iter().enumerate() {
        if (0..FIELDS).any(|k| r.low[k] > r.high[k] || r.high[k] > HIGHEST[k]) || r.action > 1 {
            return BASE + 4;
        }
        for k in 0..FIELDS {
            if p[k] < r.low[k] || r.high[k] < p[k] {
                continue 'rules;
            }
        }
        return 2 * i as u32 + r.action;
    }
    BASE + 5
}

fn rust(p: &Packet, b: &Both) -> u32 {
    search(p, &b.rules)
}

fn both(bytes: Vec<u8>) -> Both {
    let rules = bytes[2..].chunks_exact(RECORD).map(|s| decode(s.try_into().unwrap())).collect();
    Both { bytes, rules }
}

pub fn run() {
    let versions: [Version<fn(&Packet, &Both) -> u32>; 5] =
        [("library", library), ("C loops", c_loops), ("C straight", c_straight), ("safe Rust", rust), ("its bytes", bytes)];
    head("lookup in a table, the last rule fits", &["rules", "bytes"], &versions);
    for (name, lists) in kinds() {
        let tables: Vec<Both> = lists.into_iter().map(both).collect();
        for t in &tables {
            let answers: Vec<u32> = versions.iter().map(|(_, f)| f(&PACKET, t)).collect();
            assert!(answers.iter().all(|a| *a == answers[0]) && answers[0] / 2 == RULES as u32 - 1, "{answers:?}");
        }
        let times = medians(&versions, |f| {
            timed(CALLS, || {
                for i in 0..CALLS {
                    black_box(f(black_box(&PACKET), black_box(&tables[i % tables.len()])));
                }
            })
        });
        row(name, &[RULES, RULES * size_of::<Rule>()], &times);
    }
}
