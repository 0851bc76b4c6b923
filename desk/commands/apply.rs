//! `apply`: the difference, then a new generation.

use crate::arguments::Arguments;
use crate::commands::check::room;
use crate::commands::diff::{self, Side};
use crate::commands::{name_left_over, Command, Text, ALL};
use crate::disk::{self, Lock};
use crate::output::Output;
use crate::stop::{Result, Stop, DONE};
use crate::store::{New, Store};

pub const APPLY: Command = Command {
    name: "apply",
    takes: "F [--all | --anew]",
    does: "prints the difference, then makes a new generation with both lists",
    help: "A text that is the current generation's to the letter makes none. --anew makes one without\n\
           looking at the current generation: for one that is damaged, or that an older library moved.\n\
           --all prints the whole difference. Nothing is loaded into a filter: see load.",
    valued: &[],
    flags: &[ALL, "--anew"],
    run,
};

fn run(arguments: &Arguments, output: &mut Output) -> Result<u8> {
    let [path] = arguments.exactly()?;
    let text = Text::read(path.as_ref())?;
    let plan = text.plan()?;
    let store = Store::of(&text.path)?;
    let lock = store.lock_new()?;
    if disk::read(&store.text)? != text.bytes {
        return Err(Stop::file(&store.text, "was changed by somebody else meanwhile"));
    }
    if arguments.flag("--anew") {
        let after = store.after();
        output.line(format!("moved: {}", room(&plan)));
        return made(&store, &lock, &New::of(after, "apply --anew", &text.bytes, &plan), output);
    }
    name_left_over(&store, Some(&lock))?;
    let current = store.current()?;
    let after = store.after();
    if let Some(generation) = current.as_ref().filter(|current| current.text == text.bytes) {
        let number = generation.head.number;
        output.line(format!("generation {number} has this very text; no new one is made"));
        return Ok(DONE);
    }
    let before = current.as_ref().map(|generation| Side::of_generation(&store, generation));
    diff::print(before.as_ref(), &Side::of_text(&text, &plan), arguments.flag(ALL), output)?;
    made(&store, &lock, &New::of(after, "apply", &text.bytes, &plan), output)
}

/// Makes the generation and says so.
pub fn made(store: &Store, lock: &Lock, new: &New, output: &mut Output) -> Result<u8> {
    // Whoever cannot be told of the difference gets no generation.
    output.flush()?;
    let number = store.make(lock, new)?;
    output.line(format!("generation {number} is current, and not loaded yet"));
    Ok(DONE)
}
