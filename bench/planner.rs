// Move, check and edit in safe Rust: rules and pieces in vectors of structs. The same answers and the same bytes as the library's.
use crate::reading::{pair, region_at, rule_at, section, sound, Pair};
use crate::sheets::{two, Region, Rule, BOX, FIELDS, FULL, GATE, MOST, OWN, RECORD, REFUSED, SHEET, WIDTH};
use crate::versions::Edit;

pub fn meet(d: &Region, a: &Region, k: usize) -> bool {
    a.low[k] <= d.high[k] && d.low[k] <= a.high[k]
}

fn share(d: &Region, a: &Region) -> bool {
    (0..FIELDS).all(|k| meet(d, a, k))
}

// The parts of a region below and above a's range in a field where they meet; the region is left with what is between. The evaluation
// calls this and the cut too, so the compiler would not put them into their own callers unasked.
#[inline(always)]
pub fn cut_field(rest: &mut Region, a: &Region, k: usize, out: &mut Vec<Region>) {
    if rest.low[k] < a.low[k] {
        let mut below = *rest;
        below.high[k] = a.low[k] - 1;
        out.push(below);
        rest.low[k] = a.low[k];
    }
    if a.high[k] < rest.high[k] {
        let mut above = *rest;
        above.low[k] = a.high[k] + 1;
        out.push(above);
        rest.high[k] = a.high[k];
    }
}

// The pieces of d without a. A region that shares no packet with a stays whole.
#[inline(always)]
pub fn cut(d: &Region, a: &Region, out: &mut Vec<Region>) {
    if !share(d, a) {
        out.push(*d);
        return;
    }
    let mut rest = *d;
    (0..FIELDS).for_each(|k| cut_field(&mut rest, a, k, out));
}

// Section C under construction: its groups in bytes, and how many boxes they have. Past what fits, boxes are only counted.
#[derive(Default)]
struct Draft {
    bytes: Vec<u8>,
    boxes: usize,
    pieces: Vec<Region>,
    uncut: Vec<Region>,
}

impl Draft {
    fn new() -> Draft {
        Draft { bytes: Vec::with_capacity(SHEET), ..Draft::default() }
    }

    // What an allow leaves of the pieces. Those before the first one that it touches stay where they are.
    fn take(&mut self, a: &Region) {
        let first = self.pieces.iter().position(|d| share(d, a)).unwrap_or(self.pieces.len());
        self.uncut.clear();
        self.uncut.extend_from_slice(&self.pieces[first..]);
        self.pieces.truncate(first);
        for d in &self.uncut {
            cut(d, a, &mut self.pieces);
        }
    }

    // The group of the deny rule at place i, or 6.
    fn work_out(&mut self, gate: &[Rule], i: usize) -> Result<(), u32> {
        self.pieces.clear();
        self.pieces.push(gate[i].region);
        for a in gate[..i].iter().filter(|r| r.action == 1) {
            self.take(&a.region);
            if self.pieces.len() > MOST {
                return Err(6);
            }
        }
        self.boxes += self.pieces.len();
        if self.boxes <= MOST {
            self.bytes.extend_from_slice(&(self.pieces.len() as u16).to_be_bytes());
            for r in &self.pieces {
                put_region(&mut self.bytes, r);
            }
        }
        Ok(())
    }

    fn work_out_all(&mut self, gate: &[Rule], from: usize, to: usize) -> Result<(), u32> {
        (from..to).filter(|i| gate[*i].action == 0).try_for_each(|i| self.work_out(gate, i))
    }

    fn keep(&mut self, groups: &[&[u8]]) {
        for g in groups {
            self.boxes += two(g) as usize;
            if self.boxes <= MOST {
                self.bytes.extend_from_slice(g);
            }
        }
    }
}

fn put_region(out: &mut Vec<u8>, r: &Region) {
    let mut bytes = [0; BOX];
    let mut at = 0;
    for k in 0..FIELDS {
        let w = WIDTH[k];
        bytes[at..at + w].copy_from_slice(&r.low[k].to_be_bytes()[4 - w..]);
        bytes[at + w..at + 2 * w].copy_from_slice(&r.high[k].to_be_bytes()[4 - w..]);
        at += 2 * w;
    }
    out.extend_from_slice(&bytes);
}

// The pair sheet of an order sheet and a draft with so many groups, or 7.
fn finish(sheet: &mut [u8], order: &[u8], groups: usize, own: usize, draft: &Draft) -> Result<usize, u32> {
    if draft.boxes + own > MOST {
        return Err(7);
    }
    let start = order.len() + 2;
    let end = start + draft.bytes.len();
    sheet[..order.len()].copy_from_slice(order);
    sheet[order.len()..start].copy_from_slice(&(groups as u16).to_be_bytes());
    sheet[start..end].copy_from_slice(&draft.bytes);
    sheet[end..SHEET].fill(0);
    Ok(end)
}

fn denies(rules: &[Rule]) -> usize {
    rules.iter().filter(|r| r.action == 0).count()
}

fn plan(order: &[u8], sheet: &mut [u8]) -> Result<usize, u32> {
    let (gate, rest) = section(order, GATE)?;
    let (own, rest) = section(rest, OWN)?;
    if !rest.is_empty() {
        return Err(3);
    }
    let mut draft = Draft::new();
    draft.work_out_all(&gate, 0, gate.len())?;
    finish(sheet, order, denies(&gate), own.len(), &draft)
}

fn compare(sheet: &[u8]) -> Result<usize, u32> {
    let Pair { gate, groups, .. } = pair(sheet)?;
    let mut draft = Draft::new();
    draft.work_out_all(&gate, 0, gate.len())?;
    let third = sheet.len() - groups.iter().map(|g| g.len()).sum::<usize>();
    if draft.boxes <= MOST && draft.bytes == sheet[third..] {
        Ok(0)
    } else {
        Err(8)
    }
}

// The lists with the edit done on them, as an order sheet; or the refusal.
fn splice(sheet: &[u8], pair: &Pair, edit: &Edit) -> Result<Vec<u8>, u32> {
    let middle = 2 + RECORD * pair.gate.len();
    let third = middle + 2 + RECORD * pair.own.len();
    let (start, before, most) = match edit.list {
        0 => (0, pair.gate.len(), GATE),
        1 => (middle, pair.own.len(), OWN),
        _ => return Err(9),
    };
    let left = before - edit.taken();
    if edit.place > left {
        return Err(9);
    }
    if edit.puts() && edit.record.len() != RECORD {
        return Err(3);
    }
    let count = left + edit.puts() as usize;
    if count < 1 || count > most {
        return Err(2);
    }
    if edit.puts() && !sound(&rule_at(edit.record)) {
        return Err(4);
    }
    let at = start + 2 + RECORD * edit.place;
    let next = at + RECORD * edit.taken();
    let new = if edit.puts() { edit.record } else { &[] };
    let mut order = [&sheet[..at], new, &sheet[next..third]].concat();
    order[start..start + 2].copy_from_slice(&(count as u16).to_be_bytes());
    let last = start + 2 + RECORD * (count - 1);
    if region_at(&order[last..]) != FULL {
        return Err(5);
    }
    Ok(order)
}

fn revise(sheet: &mut [u8], used: usize, edit: &Edit) -> Result<usize, u32> {
    let pair = pair(&sheet[..used])?;
    let order = splice(sheet, &pair, edit)?;
    let mut draft = Draft::new();
    let Pair { mut gate, own, groups } = pair;
    if edit.list == 1 {
        draft.keep(&groups);
        let count = own.len() - edit.taken() + edit.puts() as usize;
        let kept = groups.len();
        return finish(sheet, &order, kept, count, &draft);
    }
    let place = edit.place;
    let earlier = denies(&gate[..place]);
    let new = edit.puts().then(|| rule_at(edit.record));
    let gone = gate.splice(place..place + edit.taken(), new).next();
    let allow = [gone, new].iter().flatten().any(|r| r.action == 1);
    draft.keep(&groups[..earlier]);
    let to = if allow { gate.len() } else { place + edit.puts() as usize };
    draft.work_out_all(&gate, place, to)?;
    if !allow {
        draft.keep(&groups[earlier + edit.taken()..]);
    }
    finish(sheet, &order, denies(&gate), own.len(), &draft)
}

fn coded(r: Result<usize, u32>) -> u32 {
    r.map_or_else(|n| REFUSED + n, |n| n as u32)
}

#[inline(never)]
pub fn move_order(order: &[u8], sheet: &mut [u8]) -> u32 {
    if sheet.len() < SHEET {
        return REFUSED + 1;
    }
    coded(plan(order, sheet))
}

#[inline(never)]
pub fn check(sheet: &[u8]) -> u32 {
    coded(compare(sheet))
}

#[inline(never)]
pub fn edit(sheet: &mut [u8], used: usize, edit: &Edit) -> u32 {
    if sheet.len() < SHEET || sheet.len() < used {
        return REFUSED + 1;
    }
    coded(revise(sheet, used, edit))
}
