//! The generations of a plant: beside `plant.txt` stands `plant.d` with a folder for each accepted
//! state, and the link `current`. A generation is never changed once it has its number.

mod history;
mod sha256;
mod sum;
mod time;

use crate::disk::{self, Lock, Prepared};
use crate::library::Refusal;
use crate::output::note;
use crate::sheet::Plan;
use crate::stop::{Result, Stop};
use crate::text::{self, Policy};
pub use history::History;
use std::ffi::OsStr;
use std::fs;
use std::io::ErrorKind;
use std::path::{Path, PathBuf};
pub use sum::{After, Head};

const CURRENT: &str = "current";
const LOCK: &str = "lock";
const LOADED: &str = "loaded";
const POLICY: &str = "policy.txt";
const SUM: &str = "sum";
/// Links that lead to a text, one to the other; more lead nowhere.
const MOST_LINKS: usize = 40;

pub struct Store {
    pub text: PathBuf,
    pub folder: PathBuf,
}

/// A generation that was opened: its files have the sums that it says, its sheet passes check, and
/// text, sheet and lists agree.
pub struct Generation {
    pub head: Head,
    pub text: Vec<u8>,
    pub policy: Policy,
    pub plan: Plan,
}

/// A generation to be made.
pub struct New<'a> {
    pub after: After,
    /// The generation whose text this one takes up again.
    pub same: Option<u32>,
    pub what: String,
    pub text: &'a [u8],
    pub plan: &'a Plan,
    /// The text as it was read, if the new one is to take its place.
    pub replaces: Option<&'a [u8]>,
}

impl<'a> New<'a> {
    /// A generation of a text that stands as it is.
    pub fn of(after: After, what: &str, text: &'a [u8], plan: &'a Plan) -> New<'a> {
        New { after, same: None, what: what.to_string(), text, plan, replaces: None }
    }
}

pub fn folder_name(number: u32) -> String {
    format!("{number:04}")
}

fn number_of(name: &str) -> Option<u32> {
    let number = name.parse().ok()?;
    (number > 0 && folder_name(number) == name).then_some(number)
}

impl Store {
    /// The generations of a text. They stand beside the text itself, also if a link led to it; its name
    /// has to end in `.txt`, so that no two texts share a folder.
    pub fn of(text: &Path) -> Result<Store> {
        let mut text = text.to_path_buf();
        for _ in 0..MOST_LINKS {
            let Ok(target) = fs::read_link(&text) else { break };
            text = text.parent().unwrap_or(Path::new("")).join(target);
        }
        if text.extension() != Some(OsStr::new("txt")) {
            let what = "a text that has generations is named .txt; they stand beside it in .d";
            return Err(Stop::Usage(format!("{}: {what}", text.display())));
        }
        let folder = text.with_extension("d");
        Ok(Store { text, folder })
    }

    /// Keeps others from changing the plant, which has to have a generation.
    pub fn lock(&self) -> Result<Lock> {
        self.current_number()?.ok_or_else(|| self.no_generation())?;
        Lock::take(&self.folder.join(LOCK))
    }

    /// The same for a plant that may be new: its folder is made. (Where a command that was cut off made it,
    /// its name is synced with the text's, before the link.)
    pub fn lock_new(&self) -> Result<Lock> {
        match fs::symlink_metadata(&self.folder) {
            Err(error) if error.kind() == ErrorKind::NotFound => {
                disk::create_folder(&self.folder)?;
                disk::give(&self.folder, &self.text);
            }
            Err(error) => return Err(Stop::file(&self.folder, error)),
            Ok(_) => {}
        }
        self.no_copied_link()?;
        Lock::take(&self.folder.join(LOCK))
    }

    /// A copy that follows links has a folder where the link was.
    fn no_copied_link(&self) -> Result<()> {
        let link = self.folder.join(CURRENT);
        if !fs::symlink_metadata(&link).is_ok_and(|found| found.is_dir()) {
            return Ok(());
        }
        let shown = link.display();
        let sum = disk::read(&link.join(SUM)).ok();
        let number = sum.and_then(|sum| sum::number(&sum)).map_or("0001".to_string(), folder_name);
        let way = format!("`rm -r {shown} && ln -s {number} {shown}` sets it right");
        let what = "is a folder, as after a copy that follows links";
        Err(Stop::file(&link, format!("{what}: {way}")))
    }

    /// Whether no command is at work on the plant.
    pub fn is_at_rest(&self) -> bool {
        let lock = self.folder.join(LOCK);
        !lock.exists() || Lock::take(&lock).is_ok()
    }

    pub fn no_generation(&self) -> Stop {
        if let Err(error) = fs::metadata(&self.text) {
            return Stop::file(&self.text, error);
        }
        let text = self.text.display();
        Stop::Files(format!("{text} has no generation yet: `foldplover apply {text}` makes one"))
    }

    pub fn place(&self, number: u32) -> PathBuf {
        self.folder.join(folder_name(number))
    }

    pub fn policy_path(&self, number: u32) -> PathBuf {
        self.place(number).join(POLICY)
    }

    /// The number that the link names; none if there is no link.
    fn linked(&self) -> Result<Option<u32>> {
        let link = self.folder.join(CURRENT);
        let target = match fs::read_link(&link) {
            Ok(target) => target,
            Err(error) if error.kind() == ErrorKind::NotFound => return self.without_link(),
            Err(error) if error.kind() == ErrorKind::InvalidInput => {
                return Err(Stop::file(&link, "is no link to a generation"));
            }
            Err(error) => return Err(Stop::file(&link, error)),
        };
        match target.to_str().and_then(number_of) {
            Some(number) => Ok(Some(number)),
            None => Err(Stop::file(&link, "does not name a generation")),
        }
    }

    /// A plant that is new has no link, and one whose first command was cut off.
    fn without_link(&self) -> Result<Option<u32>> {
        match self.folders(None)?.has_followers() {
            true => Err(Stop::file(&self.folder.join(CURRENT), "the link is missing")),
            false => Ok(None),
        }
    }

    pub fn current_number(&self) -> Result<Option<u32>> {
        self.no_copied_link()?;
        self.linked().map_err(|stop| self.damaged(stop))
    }

    pub fn current(&self) -> Result<Option<Generation>> {
        let opened = |number: u32| self.open(number).map_err(|stop| self.damaged(stop));
        self.current_number()?.map(opened).transpose()
    }

    /// A current generation that cannot be used, with the way out.
    fn damaged(&self, stop: Stop) -> Stop {
        let out = format!("`foldplover apply --anew {}`", self.text.display());
        Stop::Files(format!("{}\n{out} makes a new generation of the text", stop.message()))
    }

    /// What was current, for a generation that is made without looking at it.
    pub fn after(&self) -> After {
        match self.linked() {
            Ok(None) => After::Nothing,
            Ok(Some(number)) if self.place(number).is_dir() => After::Generation(number),
            _ => After::Unknown,
        }
    }

    /// The current generation, which has to be there.
    pub fn needed(&self) -> Result<Generation> {
        self.current()?.ok_or_else(|| self.no_generation())
    }

    /// The generation that was asked for, or the current one.
    pub fn asked(&self, number: Option<u32>) -> Result<Generation> {
        match number {
            Some(number) => self.open(self.history()?.known(number)?),
            None => self.needed(),
        }
    }

    pub fn head(&self, number: u32) -> Result<Head> {
        let path = self.place(number).join(SUM);
        Head::read(&disk::read(&path)?, number).map_err(|what| Stop::file(&path, what))
    }

    pub fn open(&self, number: u32) -> Result<Generation> {
        let (place, head) = (self.place(number), self.head(number)?);
        let mut files = Vec::new();
        for (name, sum) in &head.sums {
            let path = place.join(name);
            let bytes = disk::read(&path)?;
            if sha256::hex(&bytes) != *sum {
                return Err(Stop::file(
                    &path,
                    "the file is not as it was written (its sum differs)",
                ));
            }
            files.push(bytes);
        }
        let [text, pair, gate, cell] = <[Vec<u8>; 4]>::try_from(files)
            .map_err(|_| Stop::file(&place.join(SUM), "does not have four sums"))?;
        let plan = Plan::read(pair).map_err(|Refusal(number)| {
            Stop::file(&place.join("pair"), format!("check refuses the sheet ({number})"))
        })?;
        let policy = text::read(&text).map_err(|faults| {
            Stop::file(&place.join(POLICY), format!("cannot be read: {}", faults[0]))
        })?;
        if (&plan.gate, &plan.cell, &plan.order) != (&gate, &cell, &policy.order) {
            return Err(Stop::file(
                &place,
                "text, sheet and lists of this generation do not agree",
            ));
        }
        Ok(Generation { head, text, policy, plan })
    }

    pub fn history(&self) -> Result<History> {
        self.folders(self.current_number()?)
    }

    fn folders(&self, current: Option<u32>) -> Result<History> {
        let numbers = names(&self.folder)?.into_iter().filter_map(|name| number_of(&name));
        let heads = numbers.map(|number| (number, self.head(number))).collect();
        Ok(History::new(current, heads))
    }

    /// What a command that was cut off left behind, and whatever else is there: never used.
    pub fn left_over(&self) -> Result<Vec<String>> {
        let history = self.history()?;
        let known = |name: &String| match number_of(name) {
            Some(number) => !history.is_left_over(number),
            None => [CURRENT, LOCK, LOADED].contains(&name.as_str()),
        };
        let mut left: Vec<String> =
            names(&self.folder)?.into_iter().filter(|name| !known(name)).collect();
        if let Some(text) = self.text.file_name() {
            let begins = format!("{}.new-", text.to_string_lossy());
            let beside = names(disk::parent(&self.text))?;
            left.extend(beside.into_iter().filter(|name| name.starts_with(&begins)));
        }
        Ok(left)
    }

    /// What was loaded last into each filter, a line each.
    pub fn loaded(&self) -> Vec<String> {
        let lines = fs::read_to_string(self.folder.join(LOADED)).unwrap_or_default();
        lines.lines().map(str::to_string).collect()
    }

    /// Notes what a filter was loaded with. Who may not write here loads all the same.
    pub fn note_loaded(&self, filter: &str, what: &str) {
        let mut lines = self.loaded();
        lines.retain(|line| !line.starts_with(filter));
        lines.push(format!("{filter}: {what}, {}", time::now()));
        lines.sort();
        let text = lines.join("\n") + "\n";
        if let Err(stop) = disk::replace(&self.folder.join(LOADED), text.as_bytes()) {
            note(format!("what was loaded is not noted: {}", stop.message()));
        }
    }

    /// Makes a generation and the link to it. A failure before the link is swapped leaves what was
    /// there before; from then on the new generation is the current one.
    pub fn make(&self, _lock: &Lock, new: &New) -> Result<u32> {
        // A generation that was lost keeps its number.
        let linked = self.linked().ok().flatten();
        let numbers = names(&self.folder)?;
        let highest = numbers.iter().filter_map(|name| number_of(name)).chain(linked).max();
        let number = highest.unwrap_or(0).checked_add(1);
        let number = number.ok_or_else(|| Stop::file(&self.folder, "has no number left"))?;
        let making = disk::fresh(&self.folder.join(""));
        let place = self.place(number);
        disk::create_folder(&making)?;
        disk::give(&making, &self.text);
        let named = self.fill(&making, number, new).and_then(|()| self.take(&making, &place));
        if let Err(stop) = named {
            let _ = fs::remove_dir_all(&making);
            return Err(stop);
        }
        let mut placed = false;
        if let Err(stop) = self.put_text(new, &mut placed).and_then(|()| self.point(number, new)) {
            if placed {
                self.put_text_back(new);
            }
            if fs::rename(&place, &making).is_ok() {
                let _ = fs::remove_dir_all(&making);
            }
            return Err(stop);
        }
        disk::sync_folder(&self.folder).map_err(|stop| {
            let what = "is current, but the disk did not confirm it";
            Stop::Files(format!("generation {number} {what}: {}", stop.message()))
        })?;
        Ok(number)
    }

    /// The link is swapped only if it is still the one that the generation was made after: where a file
    /// system has no locks, another desk may have been quicker.
    fn point(&self, number: u32, new: &New) -> Result<()> {
        if self.after() != new.after {
            let what = "another desk made a generation meanwhile; look at the difference again";
            return Err(Stop::file(&self.folder.join(CURRENT), what));
        }
        disk::replace_link(&self.folder.join(CURRENT), &folder_name(number))
    }

    /// Every file of a generation under a name that is not a number yet, all of it synced.
    fn fill(&self, making: &Path, number: u32, new: &New) -> Result<()> {
        let (plan, mut sums) = (new.plan, Vec::new());
        let files = [new.text, &plan.pair, &plan.gate, &plan.cell];
        for (name, bytes) in sum::FILES.into_iter().zip(files) {
            disk::create_kept(&making.join(name), bytes, &self.text)?;
            sums.push((name.to_string(), sha256::hex(bytes)));
        }
        let (after, same, what) = (new.after, new.same, new.what.clone());
        let head = Head { number, after, same, made: time::now(), what, sums };
        disk::create_kept(&making.join(SUM), head.written().as_bytes(), &self.text)?;
        disk::sync_folder(making)
    }

    /// The number is taken by the first that renames its folder to it: a folder that is not empty is
    /// not replaced.
    fn take(&self, making: &Path, place: &Path) -> Result<()> {
        if let Err(error) = fs::rename(making, place) {
            let what = "another desk made this generation first; look at the difference again";
            let taken = place.exists();
            return Err(if taken { Stop::file(place, what) } else { Stop::file(place, error) });
        }
        disk::sync_folder(&self.folder).map_err(|stop| {
            let _ = fs::rename(place, making);
            stop
        })
    }

    /// The text goes first: after a power cut between the two it is ahead of the current generation,
    /// as after an edit by hand, and never behind it. A text that somebody saved stays; `placed` says
    /// whether the new one took its place.
    fn put_text(&self, new: &New, placed: &mut bool) -> Result<()> {
        let Some(old) = new.replaces else { return disk::sync_file(&self.text) };
        let mut prepared = Prepared::new(&self.text, new.text)?;
        if disk::read(&self.text)? != old {
            return Err(Stop::file(&self.text, "was changed by somebody else meanwhile"));
        }
        prepared.put()?;
        *placed = true;
        prepared.sync()
    }

    /// The old text again, unless somebody has saved another one since.
    fn put_text_back(&self, new: &New) {
        let Some(old) = new.replaces else { return };
        let back = Prepared::new(&self.text, old).and_then(|mut prepared| {
            match disk::read(&self.text)? == new.text {
                true => prepared.put().and_then(|()| prepared.sync()),
                false => Ok(()),
            }
        });
        if let Err(stop) = back {
            let text = self.text.display();
            let what = "has the new text, which no generation has";
            note(format!("{text} {what}: {}", stop.message()));
        }
    }
}

fn names(folder: &Path) -> Result<Vec<String>> {
    let entries = match fs::read_dir(folder) {
        Err(error) if error.kind() == ErrorKind::NotFound => return Ok(Vec::new()),
        Err(error) => return Err(Stop::file(folder, error)),
        Ok(entries) => entries,
    };
    let mut names = Vec::new();
    for entry in entries {
        let entry = entry.map_err(|error| Stop::file(folder, error))?;
        names.push(entry.file_name().to_string_lossy().into_owned());
    }
    names.sort();
    Ok(names)
}
