//! `log` and `undo`: the generations of a plant, and a step back to one of them.

use crate::arguments::Arguments;
use crate::commands::apply::made;
use crate::commands::check::room;
use crate::commands::diff::{self, Side};
use crate::commands::{ahead, name_left_over, Command, Text, ALL, TRY};
use crate::disk;
use crate::output::{note, Output};
use crate::stop::{Result, Stop, DONE};
use crate::store::{folder_name, After, Generation, History, New, Store};

pub const LOG: Command = Command {
    name: "log",
    takes: "F [--all]",
    does: "lists the generations of F, the current one first",
    help: "Each with its number, the time, its lists and the command that made it; the last 20, or all of\n\
           them. Then what load put into each filter last. What a command that was cut off left behind is\n\
           named on standard error, and so is a text that has other rules.",
    valued: &[],
    flags: &[ALL],
    run: log,
};

pub const UNDO: Command = Command {
    name: "undo",
    takes: "F [N] [--try] [--all]",
    does: "takes up the text of the generation before, or of generation N, as a new generation",
    help: "The text F is put back too; one with changes that no generation has stops the command. Undo after\n\
           undo goes back further. `undo F N` goes to any generation, also to a later one. --try prints the\n\
           difference and writes nothing; its status is that of diff. --all prints the whole difference.",
    valued: &[],
    flags: &[ALL, TRY],
    run: undo,
};

const SHOWN: usize = 20;

fn log(arguments: &Arguments, output: &mut Output) -> Result<u8> {
    let [path] = arguments.exactly()?;
    let store = Store::of(path.as_ref())?;
    name_left_over(&store, None)?;
    let history = store.history()?;
    let generations: Vec<u32> = history.generations().map(|(number, _)| number).collect();
    let shown = if arguments.flag(ALL) { generations.len() } else { SHOWN };
    for &number in generations.iter().take(shown) {
        let made = history.head(number).map(|head| format!("{}  {}", head.made, head.what));
        output.line(format!("{}  {}", folder_name(number), made.unwrap_or_default()).trim_end());
        output.line(match store.open(number) {
            Ok(generation) => format!("      {}", room(&generation.plan)),
            Err(stop) => format!("      cannot be used: {}", stop.message()),
        });
    }
    if generations.len() > shown {
        output.line(format!("{} earlier ones: log --all", generations.len() - shown));
    }
    for line in store.loaded() {
        output.line(format!("loaded: {line}"));
    }
    if let Some(why) = ahead(&store, &store.needed()?) {
        note(why);
    }
    Ok(DONE)
}

/// The generation to go back to: the one that was named, or the last before the current one that has
/// another text.
fn target(
    arguments: &Arguments,
    store: &Store,
    history: &History,
    current: &Generation,
) -> Result<u32> {
    if let Some(word) = arguments.given.get(1) {
        return history.known(arguments.generation_in(word)?);
    }
    let mut number = current.head.number;
    loop {
        let first = history.first_of(number);
        match history.head(first).map(|head| head.after) {
            Some(After::Generation(before)) => number = before,
            Some(After::Nothing) => {
                let what = "is the first: there is nothing to go back to";
                return Err(Stop::Files(format!("generation {first} {what}")));
            }
            _ => {
                let what = format!("what was before generation {first} is lost; log lists others");
                return Err(Stop::Files(what));
            }
        }
        if store.open(number).map_or(true, |before| before.text != current.text) {
            return Ok(number);
        }
    }
}

/// The text, which has to be the current generation's to the letter.
fn text_of(store: &Store, current: &Generation) -> Result<Vec<u8>> {
    let (text, number) = (store.text.display(), current.head.number);
    let back = store.policy_path(number).display().to_string();
    let hint = format!("`cat {back} >{text}` brings that of generation {number} back");
    match disk::read(&store.text) {
        Ok(bytes) if bytes == current.text => Ok(bytes),
        Ok(_) => Err(Stop::Files(format!(
            "{text} has changes that generation {number} does not have: apply it first; or {hint}"
        ))),
        Err(stop) => Err(Stop::Files(format!("{}\n{hint}", stop.message()))),
    }
}

fn undo(arguments: &Arguments, output: &mut Output) -> Result<u8> {
    let store = Store::of(arguments.text()?)?;
    if arguments.given.len() > 2 {
        arguments.exactly::<2>()?;
    }
    let lock = if arguments.flag(TRY) { None } else { Some(store.lock()?) };
    name_left_over(&store, lock.as_ref())?;
    let (current, history) = (store.needed()?, store.history()?);
    let text = text_of(&store, &current)?;
    if lock.is_some() {
        disk::editable(&store.text)?;
    }
    let number = target(arguments, &store, &history, &current)?;
    let back = store.open(number).map_err(|stop| {
        Stop::Files(format!("{}\n`foldplover undo F N` goes to another one", stop.message()))
    })?;
    if back.text == current.text {
        let current = current.head.number;
        output.line(format!("generation {current} has this very text; no new one is made"));
        return Ok(DONE);
    }
    let former = Text { path: store.policy_path(number), bytes: back.text, policy: back.policy };
    let plan = former.plan()?;
    let before = Side::of_generation(&store, &current);
    let all = arguments.flag(ALL);
    let status = diff::print(Some(&before), &Side::of_text(&former, &plan), all, output)?;
    let Some(lock) = lock else { return Ok(status) };
    let new = New {
        after: After::Generation(current.head.number),
        same: Some(history.first_of(number)),
        what: format!("undo to generation {number}"),
        text: &former.bytes,
        plan: &plan,
        replaces: Some(&text),
    };
    made(&store, &lock, &new, output)
}
