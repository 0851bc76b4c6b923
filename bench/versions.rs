// The three planners under one shape: the library, plain C and safe Rust.
use crate::lookup::Packet;
use crate::planner;
use crate::sheets::{CELL_LIST, MOST, SHEET, WORK};
use crate::surface::*;

#[derive(Clone, Copy, PartialEq, Eq)]
pub enum Change {
    Insert,
    Delete,
    Replace,
}

// One edit of A (list 0) or B (list 1); a delete has no record.
#[derive(Clone, Copy)]
pub struct Edit<'a> {
    pub list: u32,
    pub place: usize,
    pub change: Change,
    pub record: &'a [u8],
}

impl Edit<'_> {
    pub fn taken(&self) -> usize {
        (self.change != Change::Insert) as usize
    }

    pub fn puts(&self) -> bool {
        self.change != Change::Delete
    }
}

extern "C" {
    fn plain_move(order: *const u8, length: usize, sheet: *mut u8, sheet_length: usize) -> u32;
    fn plain_check(sheet: *const u8, length: usize) -> u32;
    fn plain_edit(
        sheet: *mut u8,
        sheet_length: usize,
        used: usize,
        list: u32,
        place: usize,
        taken: usize,
        put: usize,
        record: *const u8,
        record_length: usize,
    ) -> u32;
}

#[derive(Clone, Copy, PartialEq, Eq)]
pub enum Planner {
    Library,
    PlainC,
    SafeRust,
}

pub const PLANNERS: [(&str, Planner); 3] =
    [("library", Planner::Library), ("plain C", Planner::PlainC), ("safe Rust", Planner::SafeRust)];

// Origin's answer and its three numbers: the list, the rule's place in it and the box's number in its group.
pub type Found = (u32, [u32; 3]);

// A report's totals (packets, tries before and after, packets forwarded, the gain's two numbers) and its hits at each place.
#[derive(PartialEq, Eq)]
pub struct Report {
    pub totals: [u64; 6],
    pub hits: [u32; MOST],
}

// The buffers that the calls are lent. Only the library has a work buffer lent; the others keep their own.
pub struct Desk {
    pub sheet: Vec<u8>,
    work: Vec<u8>,
}

impl Desk {
    pub fn new() -> Desk {
        Desk { sheet: vec![0xAA; SHEET], work: vec![0; WORK] }
    }

    pub fn move_order(&mut self, planner: Planner, order: &[u8]) -> u32 {
        let (s, w) = (&mut self.sheet, &mut self.work);
        match planner {
            Planner::Library => unsafe {
                foldplover_move(order.as_ptr(), order.len(), s.as_mut_ptr(), s.len(), w.as_mut_ptr(), w.len())
            },
            Planner::PlainC => unsafe { plain_move(order.as_ptr(), order.len(), s.as_mut_ptr(), s.len()) },
            Planner::SafeRust => planner::move_order(order, s),
        }
    }

    // Check of the sheet's first bytes.
    pub fn check(&mut self, planner: Planner, used: usize) -> u32 {
        let (s, w) = (&self.sheet[..used], &mut self.work);
        match planner {
            Planner::Library => unsafe { foldplover_check(s.as_ptr(), s.len(), w.as_mut_ptr(), w.len()) },
            Planner::PlainC => unsafe { plain_check(s.as_ptr(), s.len()) },
            Planner::SafeRust => planner::check(s),
        }
    }

    // The list to load into the cell, from the sheet's first bytes.
    pub fn cell_list(&mut self, used: usize) -> Vec<u8> {
        let (s, w, mut list) = (&self.sheet[..used], &mut self.work, vec![0; CELL_LIST]);
        let length =
            unsafe { foldplover_cell_list(s.as_ptr(), s.len(), list.as_mut_ptr(), list.len(), w.as_mut_ptr(), w.len()) };
        list.truncate(length as usize);
        list
    }

    pub fn origin(&mut self, p: &Packet, used: usize) -> Found {
        let (s, w, mut n) = (&self.sheet[..used], &mut self.work, [0; 3]);
        let (np, wp) = (n.as_mut_ptr(), w.as_mut_ptr());
        let answer = unsafe { foldplover_origin(p[0], p[1], p[2], p[3], p[4], s.as_ptr(), s.len(), np, n.len(), wp, w.len()) };
        (answer, n)
    }

    pub fn report(&mut self, used: usize, packets: &[u8], earlier: &[u8], later: &[u8]) -> Report {
        let (s, w, mut report) = (&self.sheet[..used], &mut self.work, Report { totals: [0; 6], hits: [0; MOST] });
        let (t, h) = (&mut report.totals, &mut report.hits);
        let places = unsafe {
            foldplover_report(
                s.as_ptr(),
                s.len(),
                packets.as_ptr(),
                packets.len(),
                earlier.as_ptr(),
                earlier.len(),
                later.as_ptr(),
                later.len(),
                t.as_mut_ptr(),
                t.len(),
                h.as_mut_ptr(),
                h.len(),
                w.as_mut_ptr(),
                w.len(),
            )
        };
        assert!(places as usize == earlier.len() / 4, "{places}");
        report
    }

    pub fn edit(&mut self, planner: Planner, used: usize, e: &Edit) -> u32 {
        match planner {
            Planner::Library => self.library_edit(used, e),
            Planner::PlainC => {
                let (s, r) = (&mut self.sheet, e.record);
                unsafe {
                    plain_edit(
                        s.as_mut_ptr(),
                        s.len(),
                        used,
                        e.list,
                        e.place,
                        e.taken(),
                        e.puts() as usize,
                        r.as_ptr(),
                        r.len(),
                    )
                }
            }
            Planner::SafeRust => planner::edit(&mut self.sheet, used, e),
        }
    }

    fn library_edit(&mut self, used: usize, e: &Edit) -> u32 {
        let (s, w, r) = (&mut self.sheet, &mut self.work, e.record);
        let (sp, sl, wp, wl) = (s.as_mut_ptr(), s.len(), w.as_mut_ptr(), w.len());
        unsafe {
            match e.change {
                Change::Insert => foldplover_insert(sp, sl, used, e.list, e.place, r.as_ptr(), r.len(), wp, wl),
                Change::Delete => foldplover_delete(sp, sl, used, e.list, e.place, wp, wl),
                Change::Replace => foldplover_replace(sp, sl, used, e.list, e.place, r.as_ptr(), r.len(), wp, wl),
            }
        }
    }
}
