//! `show`: a sheet or a list back as text.

use crate::arguments::Arguments;
use crate::commands::Command;
use crate::disk;
use crate::library::{self, Refusal, LENGTH_WRONG};
use crate::numbers::counted;
use crate::output::Output;
use crate::refusal::section;
use crate::rule::{Order, Ranges, Rule, Which};
use crate::sheet::{self, Kind};
use crate::stop::{Result, Stop, DONE};
use crate::text;

pub const SHOW: Command = Command {
    name: "show",
    takes: "FILE",
    does: "prints an order sheet, a pair sheet or a list as text",
    help: "Which of the three the bytes are is told by reading them. The text of a sheet is one that check\n\
           and apply take; the boxes of a pair sheet stand in it as remarks. A list has no section line.\n\
           A pair sheet that check refuses is shown as far as its rules can be read, and refused.",
    valued: &[],
    flags: &[],
    run,
};

fn run(arguments: &Arguments, output: &mut Output) -> Result<u8> {
    let [path] = arguments.exactly()?;
    let bytes = disk::read(path.as_ref())?;
    let shown = match sheet::kind(&bytes) {
        Some(Kind::List) => list(&bytes, output),
        Some(Kind::Order) => sheet::order(&bytes).map(|read| order(&read, None, output)),
        Some(Kind::Pair) => pair(&bytes, output),
        None => Err(LENGTH_WRONG),
    };
    shown.map(|()| DONE).map_err(|Refusal(number)| {
        Stop::Refused(format!("{path}: refused ({number}): {}", meaning(number)))
    })
}

fn meaning(number: u32) -> &'static str {
    match number {
        2 => "a list without a rule, or with too many",
        3 => "neither an order sheet nor a pair sheet nor a list: bytes are missing or left over",
        4 => "a rule that cannot be",
        5 => "a list that does not end in a full rule",
        6 => "a deny falls into more than 1,024 pieces",
        7 => "boxes and own rules are more than 1,024",
        8 => "its boxes are not what its gate's rules give",
        _ => "the library does not take it",
    }
}

/// A list to load need not end in a full rule: a lookup reads it as it is.
fn list(bytes: &[u8], output: &mut Output) -> std::result::Result<(), Refusal> {
    let rules = sheet::rules(bytes)?;
    if rules.is_empty() || rules.len() > library::MOST_RULES {
        return Err(library::COUNT_OUTSIDE);
    }
    output.line(format!("# a list of {}", counted(rules.len(), "rule", "rules")));
    for rule in &rules {
        output.line(text::rule(rule));
    }
    Ok(())
}

fn order(order: &Order, groups: Option<Vec<Vec<Ranges>>>, output: &mut Output) {
    let mut groups = groups.map(Vec::into_iter);
    for which in [Which::Gate, Which::Own] {
        output.line(section(which));
        for rule in order.list(which) {
            output.line(text::rule(rule));
            if let (Which::Gate, false, Some(groups)) = (which, rule.allows, &mut groups) {
                group(&groups.next().unwrap_or_default(), output);
            }
        }
    }
}

fn group(boxes: &[Ranges], output: &mut Output) {
    output.line(format!("#   {}", counted(boxes.len(), "box", "boxes")));
    for ranges in boxes {
        output.line(format!("#   {}", text::rule(&Rule { ranges: *ranges, allows: false })));
    }
}

fn pair(bytes: &[u8], output: &mut Output) -> std::result::Result<(), Refusal> {
    let read = sheet::order(sheet::front(bytes)?)?;
    let checked = library::check(bytes);
    let groups = checked.and_then(|()| sheet::groups(bytes)).ok();
    order(&read, groups, output);
    checked
}
