//! The calls of `foldplover.h` as Rust declares them. The header says what each takes, answers and
//! leaves; a program that names this file links `libfoldplover.a`.

#![allow(dead_code)]

#[link(name = "foldplover", kind = "static")]
extern "C" {
    pub fn foldplover_move(
        order: *const u8,
        order_len: usize,
        sheet: *mut u8,
        sheet_len: usize,
        work: *mut u8,
        work_len: usize,
    ) -> u32;
    pub fn foldplover_insert(
        sheet: *mut u8,
        sheet_len: usize,
        used: usize,
        list: u32,
        place: usize,
        record: *const u8,
        record_len: usize,
        work: *mut u8,
        work_len: usize,
    ) -> u32;
    pub fn foldplover_delete(
        sheet: *mut u8,
        sheet_len: usize,
        used: usize,
        list: u32,
        place: usize,
        work: *mut u8,
        work_len: usize,
    ) -> u32;
    pub fn foldplover_replace(
        sheet: *mut u8,
        sheet_len: usize,
        used: usize,
        list: u32,
        place: usize,
        record: *const u8,
        record_len: usize,
        work: *mut u8,
        work_len: usize,
    ) -> u32;
    pub fn foldplover_check(
        sheet: *const u8,
        sheet_len: usize,
        work: *mut u8,
        work_len: usize,
    ) -> u32;
    pub fn foldplover_cell_list(
        sheet: *const u8,
        sheet_len: usize,
        list: *mut u8,
        list_len: usize,
        work: *mut u8,
        work_len: usize,
    ) -> u32;
    pub fn foldplover_gate_list(
        sheet: *const u8,
        sheet_len: usize,
        list: *mut u8,
        list_len: usize,
        work: *mut u8,
        work_len: usize,
    ) -> u32;
    pub fn foldplover_lookup(
        src: u32,
        dst: u32,
        sport: u32,
        dport: u32,
        proto: u32,
        list: *const u8,
        list_len: usize,
    ) -> u32;
    pub fn foldplover_split(
        order: *const u8,
        order_len: usize,
        a: *mut u8,
        a_len: usize,
        b: *mut u8,
        b_len: usize,
    ) -> u32;
    pub fn foldplover_join(
        a: *const u8,
        a_len: usize,
        b: *const u8,
        b_len: usize,
        order: *mut u8,
        order_len: usize,
    ) -> u32;
    pub fn foldplover_rule(
        record: *const u8,
        record_len: usize,
        numbers: *mut u32,
        numbers_len: usize,
    ) -> u32;
    pub fn foldplover_record(
        numbers: *const u32,
        numbers_len: usize,
        record: *mut u8,
        record_len: usize,
    ) -> u32;
    /// A rule is eleven numbers in the order of `struct foldplover_rule`.
    pub fn foldplover_lookup_table(
        src: u32,
        dst: u32,
        sport: u32,
        dport: u32,
        proto: u32,
        rules: *const [u32; 11],
        count: usize,
    ) -> u32;
    pub fn foldplover_origin(
        src: u32,
        dst: u32,
        sport: u32,
        dport: u32,
        proto: u32,
        sheet: *const u8,
        sheet_len: usize,
        numbers: *mut u32,
        numbers_len: usize,
        work: *mut u8,
        work_len: usize,
    ) -> u32;
    pub fn foldplover_report(
        sheet: *const u8,
        sheet_len: usize,
        packets: *const u8,
        packets_len: usize,
        earlier: *const u8,
        earlier_len: usize,
        later: *const u8,
        later_len: usize,
        totals: *mut u64,
        totals_len: usize,
        hits: *mut u32,
        hits_len: usize,
        work: *mut u8,
        work_len: usize,
    ) -> u32;
}
