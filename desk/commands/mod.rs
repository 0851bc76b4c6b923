//! The commands, and what several of them need.

mod apply;
mod check;
mod convert;
mod diff;
mod edit;
mod history;
mod lists;
mod report;
mod show;
mod why;

use crate::arguments::Arguments;
use crate::disk::{self, Lock};
use crate::output::{note, Output};
use crate::refusal::Lines;
use crate::sheet::Plan;
use crate::stop::{Result, Stop};
use crate::store::{Generation, Store};
use crate::text::{self, Policy};
use std::path::{Path, PathBuf};

pub const NOTHING_WRITTEN: &str = "nothing written";
/// The option by which a command that edits prints the difference alone.
pub const TRY: &str = "--try";
/// The option by which a difference is printed whole.
pub const ALL: &str = "--all";

type Run = fn(&Arguments, &mut Output) -> Result<u8>;

/// A command: its name, the words behind it, what it does in a line, and the rest of its help.
pub struct Command {
    pub name: &'static str,
    pub takes: &'static str,
    pub does: &'static str,
    pub help: &'static str,
    /// Options with a value, and options without.
    pub valued: &'static [&'static str],
    pub flags: &'static [&'static str],
    pub run: Run,
}

pub const COMMANDS: [&Command; 16] = [
    &check::CHECK,
    &diff::DIFF,
    &apply::APPLY,
    &edit::ADD,
    &edit::SET,
    &edit::DEL,
    &why::WHY,
    &show::SHOW,
    &history::LOG,
    &history::UNDO,
    &report::REPORT,
    &lists::LISTS,
    &lists::LOAD,
    &convert::ORDER,
    &convert::PACKETS,
    &convert::READINGS,
];

/// A text that was read.
pub struct Text {
    pub path: PathBuf,
    pub bytes: Vec<u8>,
    pub policy: Policy,
}

impl Text {
    pub fn read(path: &Path) -> Result<Text> {
        let bytes = disk::read(path)?;
        let policy = Text::parse(path, &bytes)?;
        Ok(Text { path: path.to_path_buf(), bytes, policy })
    }

    pub fn parse(path: &Path, bytes: &[u8]) -> Result<Policy> {
        text::read(bytes).map_err(|faults| {
            let name = path.display();
            let named =
                faults.iter().take(text::MOST_FAULTS).map(|fault| format!("{name}:{fault}"));
            let mut lines: Vec<String> = named.collect();
            if faults.len() > text::MOST_FAULTS {
                lines.push(format!("{name}: and more faults"));
            }
            Stop::Text(lines.join("\n"))
        })
    }

    pub fn lines(&self) -> Lines<'_> {
        Lines { policy: &self.policy, name: self.path.display().to_string(), edited: None }
    }

    pub fn plan(&self) -> Result<Plan> {
        Plan::of(&self.policy.order)
            .map_err(|refusal| self.lines().refused(refusal, NOTHING_WRITTEN))
    }
}

/// Why the text does not have the rules of a generation, if that is so.
pub fn ahead(store: &Store, generation: &Generation) -> Option<String> {
    let (text, number) = (store.text.display(), generation.head.number);
    match Text::read(&store.text) {
        Ok(read) if read.policy.order == generation.plan.order => None,
        Ok(_) => Some(format!("{text} has other rules than generation {number}")),
        Err(stop) => {
            let what = format!("{text} cannot be compared with generation {number}");
            Some(format!("{}\n{what}", stop.message()))
        }
    }
}

/// Names what a command that was cut off left behind. While another one is at work, nobody can tell.
pub fn name_left_over(store: &Store, lock: Option<&Lock>) -> Result<()> {
    if lock.is_none() && !store.is_at_rest() {
        return Ok(());
    }
    let left = store.left_over()?;
    if !left.is_empty() {
        let folder = store.folder.display();
        note(format!("{folder}: left over and not used: {}", left.join(", ")));
    }
    Ok(())
}
