//! The C surface on top of the model, to try the driver on: as it is, the driver finds nothing;
//! with FOLDPLOVER_BROKEN set to the name of a fault (see broken.rs, broken_cut.rs,
//! broken_origin.rs and broken_report.rs), it has to find that fault.

mod broken;
mod broken_cut;
mod broken_origin;
mod broken_report;

use std::slice::{from_raw_parts, from_raw_parts_mut};

use crate::model::calls::{Change, Edit};
use crate::model::reports::Load;
use broken::shows;

/// # Safety
/// Every pointer of every call is to as many bytes or numbers as the length beside it says.
unsafe fn spoil_guards(buffer: *mut u8, length: usize) {
    if shows("guard-behind") {
        *buffer.add(length) ^= 1;
    }
    if shows("guard-before") {
        *buffer.sub(1) ^= 1;
    }
}

#[no_mangle]
pub unsafe extern "C" fn foldplover_move(
    order: *const u8,
    order_len: usize,
    sheet: *mut u8,
    sheet_len: usize,
    work: *mut u8,
    work_len: usize,
) -> u32 {
    let order_bytes = from_raw_parts(order, order_len);
    let (sheet_bytes, work) =
        (from_raw_parts_mut(sheet, sheet_len), from_raw_parts_mut(work, work_len));
    let answer = broken::move_pair(order_bytes, sheet_bytes, work);
    spoil_guards(sheet, sheet_len);
    if shows("input-changed") && order_len > 0 {
        *order.cast_mut() ^= 1;
    }
    answer
}

unsafe fn edit(
    sheet: (*mut u8, usize),
    used: usize,
    list: u32,
    place: usize,
    change: Change,
    work: (*mut u8, usize),
) -> u32 {
    let edit = Edit { list: list.into(), place: place as u64, change };
    let (sheet, work) = (from_raw_parts_mut(sheet.0, sheet.1), from_raw_parts_mut(work.0, work.1));
    broken::edit(sheet, used as u64, edit, work)
}

#[no_mangle]
pub unsafe extern "C" fn foldplover_insert(
    sheet: *mut u8,
    sheet_len: usize,
    used: usize,
    list: u32,
    place: usize,
    record: *const u8,
    record_len: usize,
    work: *mut u8,
    work_len: usize,
) -> u32 {
    let change = Change::Insert(from_raw_parts(record, record_len));
    edit((sheet, sheet_len), used, list, place, change, (work, work_len))
}

#[no_mangle]
pub unsafe extern "C" fn foldplover_delete(
    sheet: *mut u8,
    sheet_len: usize,
    used: usize,
    list: u32,
    place: usize,
    work: *mut u8,
    work_len: usize,
) -> u32 {
    edit((sheet, sheet_len), used, list, place, Change::Delete, (work, work_len))
}

#[no_mangle]
pub unsafe extern "C" fn foldplover_replace(
    sheet: *mut u8,
    sheet_len: usize,
    used: usize,
    list: u32,
    place: usize,
    record: *const u8,
    record_len: usize,
    work: *mut u8,
    work_len: usize,
) -> u32 {
    let change = Change::Replace(from_raw_parts(record, record_len));
    edit((sheet, sheet_len), used, list, place, change, (work, work_len))
}

#[no_mangle]
pub unsafe extern "C" fn foldplover_check(
    sheet: *const u8,
    sheet_len: usize,
    work: *mut u8,
    work_len: usize,
) -> u32 {
    broken::check(from_raw_parts(sheet, sheet_len), from_raw_parts_mut(work, work_len))
}

#[no_mangle]
pub unsafe extern "C" fn foldplover_cell_list(
    sheet: *const u8,
    sheet_len: usize,
    list: *mut u8,
    list_len: usize,
    work: *mut u8,
    work_len: usize,
) -> u32 {
    let (list, work) = (from_raw_parts_mut(list, list_len), from_raw_parts_mut(work, work_len));
    broken::cell_list(from_raw_parts(sheet, sheet_len), list, work)
}

#[no_mangle]
pub unsafe extern "C" fn foldplover_gate_list(
    sheet: *const u8,
    sheet_len: usize,
    list: *mut u8,
    list_len: usize,
    work: *mut u8,
    work_len: usize,
) -> u32 {
    let (list, work) = (from_raw_parts_mut(list, list_len), from_raw_parts_mut(work, work_len));
    broken::gate_list(from_raw_parts(sheet, sheet_len), list, work)
}

#[no_mangle]
pub unsafe extern "C" fn foldplover_lookup(
    src: u32,
    dst: u32,
    sport: u32,
    dport: u32,
    proto: u32,
    list: *const u8,
    list_len: usize,
) -> u32 {
    let packet = [src, dst, sport, dport, proto].map(u64::from);
    broken::lookup(packet, from_raw_parts(list, list_len))
}

#[no_mangle]
pub unsafe extern "C" fn foldplover_lookup_table(
    src: u32,
    dst: u32,
    sport: u32,
    dport: u32,
    proto: u32,
    rules: *const [u32; 11],
    count: usize,
) -> u32 {
    let packet = [src, dst, sport, dport, proto].map(u64::from);
    broken::lookup_table(packet, from_raw_parts(rules, count).as_flattened())
}

#[no_mangle]
pub unsafe extern "C" fn foldplover_origin(
    src: u32,
    dst: u32,
    sport: u32,
    dport: u32,
    proto: u32,
    sheet: *const u8,
    sheet_len: usize,
    numbers: *mut u32,
    numbers_len: usize,
    work: *mut u8,
    work_len: usize,
) -> u32 {
    let packet = [src, dst, sport, dport, proto].map(u64::from);
    let numbers = from_raw_parts_mut(numbers, numbers_len);
    let (sheet, work) = (from_raw_parts(sheet, sheet_len), from_raw_parts_mut(work, work_len));
    broken_origin::origin(packet, sheet, numbers, work)
}

#[no_mangle]
pub unsafe extern "C" fn foldplover_report(
    sheet: *const u8,
    sheet_len: usize,
    packets: *const u8,
    packets_len: usize,
    earlier: *const u8,
    earlier_len: usize,
    later: *const u8,
    later_len: usize,
    totals: *mut u64,
    totals_len: usize,
    hits: *mut u32,
    hits_len: usize,
    work: *mut u8,
    work_len: usize,
) -> u32 {
    let load = Load {
        packets: from_raw_parts(packets, packets_len),
        earlier: from_raw_parts(earlier, earlier_len),
        later: from_raw_parts(later, later_len),
    };
    let (totals, hits) =
        (from_raw_parts_mut(totals, totals_len), from_raw_parts_mut(hits, hits_len));
    let (sheet, work) = (from_raw_parts(sheet, sheet_len), from_raw_parts_mut(work, work_len));
    broken_report::report(sheet, load, totals, hits, work)
}

#[no_mangle]
pub unsafe extern "C" fn foldplover_split(
    order: *const u8,
    order_len: usize,
    a: *mut u8,
    a_len: usize,
    b: *mut u8,
    b_len: usize,
) -> u32 {
    let (a, b) = (from_raw_parts_mut(a, a_len), from_raw_parts_mut(b, b_len));
    broken::split(from_raw_parts(order, order_len), a, b)
}

#[no_mangle]
pub unsafe extern "C" fn foldplover_join(
    a: *const u8,
    a_len: usize,
    b: *const u8,
    b_len: usize,
    order: *mut u8,
    order_len: usize,
) -> u32 {
    let (a, b) = (from_raw_parts(a, a_len), from_raw_parts(b, b_len));
    broken::join(a, b, from_raw_parts_mut(order, order_len))
}

#[no_mangle]
pub unsafe extern "C" fn foldplover_rule(
    record: *const u8,
    record_len: usize,
    numbers: *mut u32,
    numbers_len: usize,
) -> u32 {
    broken::rule(from_raw_parts(record, record_len), from_raw_parts_mut(numbers, numbers_len))
}

#[no_mangle]
pub unsafe extern "C" fn foldplover_record(
    numbers: *const u32,
    numbers_len: usize,
    record: *mut u8,
    record_len: usize,
) -> u32 {
    broken::record(from_raw_parts(numbers, numbers_len), from_raw_parts_mut(record, record_len))
}
