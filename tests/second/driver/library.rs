//! The same call done by the library, through the C surface.

use crate::driver::lent::Lent;
use crate::driver::step::Call;
use surface::*;

#[path = "../../../include/foldplover.rs"]
mod surface;

type Buffer = (*mut u8, usize);

pub fn by_library(call: Call, words: &[u64], lent: &mut [Lent]) -> u32 {
    let buffers: Vec<Buffer> =
        lent.iter_mut().map(|lent| (lent.pointer(), lent.length())).collect();
    // Every pointer is to a live buffer of the length beside it, and no two overlap.
    unsafe {
        match (call, &buffers[..]) {
            (Call::Lookup, &[list]) => {
                let [src, dst, sport, dport, proto] = packet(words);
                foldplover_lookup(src, dst, sport, dport, proto, list.0, list.1)
            }
            (Call::LookupTable, &[table]) => {
                let [src, dst, sport, dport, proto] = packet(words);
                let (rules, count) = (table.0.cast(), table.1 / 44);
                foldplover_lookup_table(src, dst, sport, dport, proto, rules, count)
            }
            (Call::Origin, &[sheet, numbers, work]) => origin(words, sheet, numbers, work),
            (Call::Report, _) => report(&buffers),
            (Call::Insert | Call::Delete | Call::Replace, _) => edit(call, words, &buffers),
            (Call::Rule, &[record, numbers]) => {
                foldplover_rule(record.0, record.1, numbers.0.cast(), numbers.1 / 4)
            }
            (Call::Record, &[numbers, record]) => {
                foldplover_record(numbers.0.cast(), numbers.1 / 4, record.0, record.1)
            }
            (Call::Check, &[sheet, work]) => foldplover_check(sheet.0, sheet.1, work.0, work.1),
            (_, &[first, second, third]) => on_three(call, first, second, third),
            _ => unreachable!("every step lends what its call takes"),
        }
    }
}

unsafe fn on_three(call: Call, first: Buffer, second: Buffer, third: Buffer) -> u32 {
    let (one, two, three) = (first.0, second.0, third.0);
    match call {
        Call::Move => foldplover_move(one, first.1, two, second.1, three, third.1),
        Call::CellList => foldplover_cell_list(one, first.1, two, second.1, three, third.1),
        Call::GateList => foldplover_gate_list(one, first.1, two, second.1, three, third.1),
        Call::Split => foldplover_split(one, first.1, two, second.1, three, third.1),
        Call::Join => foldplover_join(one, first.1, two, second.1, three, third.1),
        _ => unreachable!("every step lends what its call takes"),
    }
}

unsafe fn origin(words: &[u64], sheet: Buffer, numbers: Buffer, work: Buffer) -> u32 {
    let [src, dst, sport, dport, proto] = packet(words);
    let (numbers, count) = (numbers.0.cast(), numbers.1 / 4);
    foldplover_origin(
        src, dst, sport, dport, proto, sheet.0, sheet.1, numbers, count, work.0, work.1,
    )
}

unsafe fn report(buffers: &[Buffer]) -> u32 {
    let &[sheet, packets, earlier, later, totals, hits, work] = buffers else {
        unreachable!("every step lends what its call takes")
    };
    let (totals, totals_len) = (totals.0.cast(), totals.1 / 8);
    let (hits, hits_len) = (hits.0.cast(), hits.1 / 4);
    foldplover_report(
        sheet.0, sheet.1, packets.0, packets.1, earlier.0, earlier.1, later.0, later.1, totals,
        totals_len, hits, hits_len, work.0, work.1,
    )
}

fn packet(words: &[u64]) -> [u32; 5] {
    let packet: Vec<u32> = words.iter().map(|&word| word as u32).collect();
    packet.try_into().expect("a packet is five numbers")
}

unsafe fn edit(call: Call, words: &[u64], buffers: &[Buffer]) -> u32 {
    let (used, list, place) = (words[0] as usize, words[1] as u32, words[2] as usize);
    match (call, buffers) {
        (Call::Delete, &[sheet, work]) => {
            foldplover_delete(sheet.0, sheet.1, used, list, place, work.0, work.1)
        }
        (_, &[sheet, record, work]) => {
            let edit = match call {
                Call::Insert => foldplover_insert,
                _ => foldplover_replace,
            };
            edit(sheet.0, sheet.1, used, list, place, record.0, record.1, work.0, work.1)
        }
        _ => unreachable!("every step lends what its call takes"),
    }
}
