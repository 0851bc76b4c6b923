//! `lists` and `load`: the two lists of the current generation on their way to the filters.

use crate::arguments::Arguments;
use crate::commands::{ahead, Command};
use crate::disk;
use crate::numbers::counted;
use crate::output::Output;
use crate::sheet;
use crate::stop::{Result, Stop, DONE};
use crate::store::{Generation, Store};
use std::fs::{self, DirBuilder};
use std::os::unix::fs::DirBuilderExt;
use std::path::{Path, PathBuf};
use std::process::Command as Process;

pub const LISTS: Command = Command {
    name: "lists",
    takes: "F -o DIR [--back] [--as-is]",
    does: "copies the current generation's lists to DIR as cell.list and gate.list",
    help: "DIR is made if it is not there; files of an earlier copy are replaced. Load cell.list first, then\n\
           gate.list. With --back the gate's and the cell's own rules, as the text has them: load gate.list\n\
           first then. A text that has other rules than the generation stops this, unless --as-is is said.",
    valued: &["-o"],
    flags: &["--as-is", "--back"],
    run: lists,
};

pub const LOAD: Command = Command {
    name: "load",
    takes: "F --with CMD [--back] [--as-is]",
    does: "runs `CMD cell FILE`, then `CMD gate FILE`, with the current generation's lists",
    help: "The cell filter comes first, so that the plant is never open. Where the first run fails, the second\n\
           is not done. With --back the gate's and the cell's own rules are loaded, as the text has them,\n\
           the gate's first. CMD is a program and perhaps words of its own; pipes and the like go into a\n\
           script. FILE is a copy. A text that has other rules than the generation stops this, unless\n\
           --as-is is said. Nobody else can change or load the plant meanwhile.",
    valued: &["--with"],
    flags: &["--as-is", "--back"],
    run: load,
};

/// The lists in the order in which they are loaded: the filter's name and its bytes.
fn in_order(generation: &Generation, back: bool) -> [(&'static str, &[u8]); 2] {
    let plan = &generation.plan;
    match back {
        true => [("gate", &plan.own_gate), ("cell", &plan.own_cell)],
        false => [("cell", &plan.cell), ("gate", &plan.gate)],
    }
}

/// The generation to hand on. A text with other rules is mostly one that somebody forgot to apply.
fn handed_on(store: &Store, arguments: &Arguments) -> Result<Generation> {
    let generation = store.needed()?;
    match ahead(store, &generation) {
        Some(why) if !arguments.flag("--as-is") => {
            let (text, number) = (store.text.display(), generation.head.number);
            let what = format!("apply {text} first, or hand on generation {number} with --as-is");
            Err(Stop::Files(format!("{why}: {what}")))
        }
        _ => Ok(generation),
    }
}

fn lists(arguments: &Arguments, output: &mut Output) -> Result<u8> {
    let [path] = arguments.exactly()?;
    let folder = PathBuf::from(arguments.needed("-o")?);
    let generation = handed_on(&Store::of(path.as_ref())?, arguments)?;
    let lists = in_order(&generation, arguments.flag("--back"));
    if !folder.is_dir() {
        disk::create_folder(&folder)?;
    }
    // Written in the order of loading: a copy that is cut off leaves what a load that is cut off would.
    for (filter, bytes) in &lists {
        let list = folder.join(format!("{filter}.list"));
        arguments.output(&list.to_string_lossy(), &[path])?;
        disk::replace(&list, bytes)?;
        let (number, rules) = (generation.head.number, sheet::count(bytes));
        let rules = counted(rules, "rule", "rules");
        output.line(format!("{}: generation {number}, {rules}", list.display()));
    }
    Ok(DONE)
}

/// Copies of the lists, for as long as they are loaded: what a loader does to its file is its own matter.
struct Lent {
    folder: PathBuf,
}

impl Lent {
    fn new(lists: &[(&str, &[u8])]) -> Result<Lent> {
        let folder = disk::fresh(&std::env::temp_dir().join("foldplover-"));
        let made = DirBuilder::new().mode(0o700).create(&folder);
        made.map_err(|error| Stop::file(&folder, error))?;
        let lent = Lent { folder };
        for (filter, bytes) in lists {
            disk::create(&lent.folder.join(filter), bytes)?;
        }
        Ok(lent)
    }
}

impl Drop for Lent {
    fn drop(&mut self) {
        let _ = fs::remove_dir_all(&self.folder);
    }
}

fn load(arguments: &Arguments, output: &mut Output) -> Result<u8> {
    let [path] = arguments.exactly()?;
    let with = loader(arguments)?;
    let store = Store::of(path.as_ref())?;
    let _lock = store.lock()?;
    let generation = handed_on(&store, arguments)?;
    let (number, back) = (generation.head.number, arguments.flag("--back"));
    let lists = in_order(&generation, back);
    let lent = Lent::new(&lists)?;
    let (mut loaded, mut told) = (Vec::new(), Ok(()));
    for (filter, bytes) in &lists {
        hand_over(&with, filter, &lent.folder.join(filter))
            .map_err(|why| Stop::Load(failed(number, &loaded, &why)))?;
        let own = if back { "its own rules of " } else { "" };
        let what = format!("{own}generation {number}");
        store.note_loaded(filter, &what);
        let rules = counted(sheet::count(bytes), "rule", "rules");
        output.line(format!("{filter} loaded: {what}, {rules}"));
        // Who cannot be told is not left with one filter loaded.
        told = told.and(output.flush());
        loaded.push(*filter);
    }
    told.map(|()| DONE)
}

/// The words of the command that loads. The shell has no part in it: behind a pipe the filter's name and
/// file would go to another program than the one that loads.
fn loader(arguments: &Arguments) -> Result<Vec<String>> {
    let with = arguments.needed("--with")?;
    if Path::new(with).is_file() {
        return Ok(vec![with.to_string()]);
    }
    if with.contains(|sign: char| "|&;<>()$`\\\"'*?[]{}~!".contains(sign)) {
        let what =
            "--with takes a program and words of its own; signs of the shell go into a script";
        return Err(arguments.usage(what.to_string()));
    }
    let with: Vec<String> = with.split_whitespace().map(str::to_string).collect();
    match with.is_empty() {
        true => Err(arguments.usage("--with has no value".to_string())),
        false => Ok(with),
    }
}

fn hand_over(with: &[String], filter: &str, list: &Path) -> std::result::Result<(), String> {
    let call = format!("`{} {filter} FILE`", with.join(" "));
    if !is_there(&with[0]) {
        return Err(format!("{call} could not be run: there is no such program"));
    }
    match Process::new(&with[0]).args(&with[1..]).arg(filter).arg(list).status() {
        Ok(status) if status.success() => Ok(()),
        Ok(status) => match status.code() {
            Some(code) => Err(format!("{call} failed with status {code}")),
            None => Err(format!("{call} was stopped by a signal")),
        },
        Err(error) => Err(format!("{call} could not be run: {error}")),
    }
}

/// Whether a program is there, by its path or on the search path. An emulator does not tell a program that
/// is not there from one that fails.
fn is_there(program: &str) -> bool {
    let path = std::env::var_os("PATH").unwrap_or_default();
    match program.contains('/') {
        true => Path::new(program).is_file(),
        false => std::env::split_paths(&path).any(|folder| folder.join(program).is_file()),
    }
}

/// What stands in the filters after a load that failed. What was loaded first drops enough by itself,
/// whatever the other filter has.
fn failed(number: u32, loaded: &[&str], why: &str) -> String {
    let stands = match loaded {
        [] => "the other filter was left alone".to_string(),
        ["cell", ..] => format!(
            "the cell filter has the list of generation {number}, so that nothing passes which it drops; \
             load again"
        ),
        _ => "the gate filter has its own rules again, so that nothing passes which they drop; \
              load --back again"
            .to_string(),
    };
    format!("{why}; {stands}")
}
