//! `foldplover`, the desk tool: from a plant's rules in words to the lists that its filters load.

mod arguments;
mod commands;
mod cost;
mod difference;
mod disk;
mod library;
mod numbers;
mod output;
mod picture;
mod refusal;
mod rule;
mod sheet;
mod stop;
mod store;
#[cfg(test)]
mod tests;
mod text;

use arguments::Arguments;
use commands::{Command, COMMANDS};
use output::{note, Output};
use std::process::ExitCode;
use stop::{Result, Stop, DONE};

const VERSION: &str = "foldplover 1.4 (base and change requests W1 to W4)";

fn main() -> ExitCode {
    let words: Option<Vec<String>> =
        std::env::args_os().skip(1).map(|word| word.into_string().ok()).collect();
    let mut output = Output::new();
    let done = match words {
        Some(words) => run(&words, &mut output),
        None => Err(Stop::Usage("foldplover: a word that is no UTF-8 text".to_string())),
    };
    // What was found before a command stopped is still printed.
    let flushed = output.flush();
    match done.and_then(|status| flushed.map(|()| status)) {
        Ok(status) => ExitCode::from(status),
        Err(stop) => {
            note(stop.message());
            ExitCode::from(stop.status())
        }
    }
}

fn run(words: &[String], output: &mut Output) -> Result<u8> {
    let Some((first, rest)) = words.split_first() else {
        return Err(Stop::Usage(overview()));
    };
    let wants_help = |word: &String| word == "--help" || word == "-h";
    if wants_help(first) || first == "help" && rest.is_empty() {
        output.line(overview());
        return Ok(DONE);
    }
    if first == "--version" {
        output.line(VERSION);
        return Ok(DONE);
    }
    let asked = if first == "help" { &rest[0] } else { first };
    let Some(command) = COMMANDS.iter().find(|command| command.name == asked) else {
        let names = COMMANDS.iter().map(|command| command.name);
        let near = text::nearest(asked, names);
        let what = format!("foldplover: no command `{}`{near}", text::shown(asked));
        return Err(Stop::Usage(format!("{what}\n`foldplover --help` lists them")));
    };
    if first == "help" || rest.iter().take_while(|word| *word != "--").any(wants_help) {
        output.line(help(command));
        return Ok(DONE);
    }
    (command.run)(&Arguments::read(command, rest)?, output)
}

fn overview() -> String {
    let mut text = "usage: foldplover COMMAND ..\n".to_string();
    for command in COMMANDS {
        let call = format!("{} {}", command.name, command.takes);
        text += &format!("  {call}\n      {}\n", command.does);
    }
    text +=
        "\nA move puts the gate's denies into the cell filter's list, each cut into boxes around the allows\n\
             in front of it: one deny rule for each box, and behind them the cell's own rules. Pieces are\n\
             boxes on the way. A place is a rule's number in the cell list, from 0; it has room for 1,024.\n\
             docs/DESK.md goes through a week.\n\n\
             `foldplover COMMAND --help` says more. Exit status: 0 done, forwarded, no difference;\n\
             1 dropped (why) or different (diff); 2 text at fault; 3 refused; 4 usage; 5 files;\n\
             6 load failed.";
    text
}

fn help(command: &Command) -> String {
    let Command { name, takes, does, help, .. } = command;
    format!("usage: foldplover {name} {takes}\n{does}.\n{help}").trim_end().to_string()
}
