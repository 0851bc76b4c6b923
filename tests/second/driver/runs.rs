//! Runs of edits. What began with an accepted move is held against a fresh move after each edit
//! (demand 3: the sheet is what moving the edited lists gives, and so is the refusal).

use crate::draw::{self, DrawnEdit, Kind, Shape};
use crate::driver::Driver;
use crate::model::boxes::Rule;
use crate::model::calls::{self, Answer};
use crate::model::refusals::Fault;
use crate::model::sheets::{self, PairSheet, RECORD_BYTES};

/// Both lists as records, edited in the plainest way.
#[derive(Clone)]
struct Lists {
    records: [Vec<Vec<u8>>; 2],
}

impl Lists {
    fn of(pair: &PairSheet) -> Lists {
        let records = |rules: &[Rule]| rules.iter().map(sheets::rule_bytes).collect();
        Lists { records: [records(&pair.gate), records(&pair.own)] }
    }

    fn counts(&self) -> [usize; 2] {
        [self.records[0].len(), self.records[1].len()]
    }

    fn order(&self) -> Vec<u8> {
        self.records.iter().flat_map(|list| sheets::counted_bytes(list)).collect()
    }

    /// The lists after the edit, if there is such a place and the record is a whole one.
    fn edited(&self, edit: &DrawnEdit) -> Option<Lists> {
        let mut lists = self.clone();
        let list = lists.records.get_mut(edit.list as usize)?;
        let place = usize::try_from(edit.place).ok()?;
        let whole = edit.kind == Kind::Delete || edit.record.len() == RECORD_BYTES;
        let last = list.len() + usize::from(edit.kind == Kind::Insert);
        if !whole || place >= last {
            return None;
        }
        match edit.kind {
            Kind::Insert => list.insert(place, edit.record.clone()),
            Kind::Delete => drop(list.remove(place)),
            Kind::Replace => list[place] = edit.record.clone(),
        }
        Some(lists)
    }
}

/// Edits of a sheet that need not be what a move gives: only the model is the measure. The sheet as
/// the last of them leaves it.
pub fn any_edits(driver: &mut Driver, shape: &Shape, sheet: &[u8], count: u64) -> Vec<u8> {
    let mut sheet = sheet.to_vec();
    for _ in 0..count {
        let counts =
            sheets::read_pair(&sheet).map_or([3, 3], |pair| [pair.gate.len(), pair.own.len()]);
        let edit = wild_edit(driver, shape, counts);
        let used = stated_length(driver, sheet.len());
        let (answer, after) = driver.edit(&sheet, used, &edit);
        if let Ok(length) = answer {
            sheet = after[..length as usize].to_vec();
        }
    }
    sheet
}

/// A run of edits from the pair sheet that a move wrote.
pub struct Run {
    lists: Lists,
    sheet: Vec<u8>,
}

impl Run {
    pub fn from(pair: &PairSheet) -> Run {
        Run { lists: Lists::of(pair), sheet: sheets::pair_bytes(pair) }
    }

    pub fn sheet(&self) -> &[u8] {
        &self.sheet
    }

    pub fn drawn_edits(&mut self, driver: &mut Driver, shape: &Shape, count: u64) {
        for _ in 0..count {
            let edit = wild_edit(driver, shape, self.lists.counts());
            self.edit(driver, &edit);
        }
    }

    pub fn edit(&mut self, driver: &mut Driver, edit: &DrawnEdit) {
        let used = stated_length(driver, self.sheet.len());
        let lent = lent_sheet(driver, &self.sheet);
        let (answer, after) = driver.edit(&lent, used, edit);
        if is_about_buffers(answer) || used != self.sheet.len() as u64 {
            return;
        }
        let edited = self.lists.edited(edit);
        hold_to_fresh_move(driver, answer, &after, edited.as_ref(), &self.lists);
        if let (Ok(length), Some(edited)) = (answer, edited) {
            self.sheet = after[..length as usize].to_vec();
            self.lists = edited;
        }
        if driver.random.chance(15) {
            let checked = driver.check(&self.sheet);
            let fine = checked.is_ok() || is_about_buffers(checked);
            driver.demand(fine, "an edited sheet does not check", &[("sheet", &self.sheet)]);
        }
    }
}

pub fn is_about_buffers(answer: Answer) -> bool {
    answer.is_err_and(|refusal| matches!(refusal.fault, Fault::ShortBuffer | Fault::StatedLength))
}

fn hold_to_fresh_move(
    driver: &mut Driver,
    answer: Answer,
    after: &[u8],
    edited: Option<&Lists>,
    before: &Lists,
) {
    let order = before.order();
    let Some(edited) = edited else {
        driver.demand(answer.is_err(), "no such edit, yet accepted", &[("before", &order)]);
        return;
    };
    let percent = std::mem::replace(&mut driver.short_percent, 0);
    let (fresh, sheet) = driver.move_pair(&edited.order());
    driver.short_percent = percent;
    let same = match (answer, fresh) {
        (Ok(length), Ok(fresh_length)) => {
            let end = calls::LARGEST_PAIR_SHEET;
            length == fresh_length && after[..end] == sheet[..end]
        }
        (Err(refusal), Err(fresh)) => refusal.number() == fresh.number(),
        _ => false,
    };
    let inputs: [(&str, &[u8]); 2] = [("before", &order), ("after", &edited.order())];
    driver.demand(same, "an edit and the fresh move of the edited lists differ", &inputs);
}

/// The sheet's own bytes, or with the zeros behind them that the call before left there.
fn lent_sheet(driver: &mut Driver, sheet: &[u8]) -> Vec<u8> {
    let mut lent = sheet.to_vec();
    if driver.random.chance(50) {
        lent.resize(calls::LARGEST_PAIR_SHEET, 0);
    }
    lent
}

/// The true length mostly; else one off, the whole buffer, or near the largest word.
fn stated_length(driver: &mut Driver, length: usize) -> u64 {
    let length = length as u64;
    let buffer = calls::LARGEST_PAIR_SHEET as u64;
    let off = [
        length + 1,
        length.saturating_sub(1),
        0,
        buffer,
        buffer + 1,
        buffer + 2,
        buffer + 3,
        buffer + 65,
        (1 << 32) + length,
        usize::MAX as u64 - 1,
        usize::MAX as u64,
    ];
    match driver.random.chance(5) {
        true => driver.random.pick(&off),
        false => length,
    }
}

/// An edit as drawn, with a list, place or record now and then that cannot be.
fn wild_edit(driver: &mut Driver, shape: &Shape, counts: [usize; 2]) -> DrawnEdit {
    let (percent, random) = (driver.wild_percent, &mut driver.random);
    let mut edit = draw::edit(random, shape, counts);
    if random.chance(percent) {
        edit.list = random.pick(&[2, 3, 256, 257, 65_536, 1 << 31, u64::from(u32::MAX)]);
    }
    if random.chance(percent) {
        let place = edit.place;
        let words = [usize::MAX as u64, usize::MAX as u64 - 1, 1 << 63, 1 << 16, 1 << 32];
        edit.place = random.pick(&words).wrapping_add(random.pick(&[0, place]));
    }
    if random.chance(percent) {
        draw::spoil_record(random, &mut edit.record);
    }
    if random.chance(percent) {
        let length = random.pick(&[0, 1, 26, 28, 54]);
        edit.record.resize(length, 1);
    }
    edit
}
