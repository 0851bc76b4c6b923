//! `add`, `set` and `del`: one line of the text, and the same edit of the pair sheet by the library.

use crate::arguments::Arguments;
use crate::commands::apply::made;
use crate::commands::diff::{self, Side};
use crate::commands::{name_left_over, Command, Text, ALL, NOTHING_WRITTEN, TRY};
use crate::disk;
use crate::library::{self, Change, Edit, Refusal};
use crate::output::{note, Output};
use crate::refusal::{Edited, Lines};
use crate::rule::{Order, Which};
use crate::sheet::Plan;
use crate::stop::{Result, Stop};
use crate::store::{After, Generation, New, Store};
use crate::text::{self, nearest, Fault, Policy, RuleLine};

const WHERE: &str = "@label or the number of a line";

pub const ADD: Command = Command {
    name: "add",
    takes: "F [before | after] (@LABEL | LINE) RULE [--try] [--all]",
    does: "puts a rule into the text F and applies it",
    help: "The rule gets a line of its own in front of the labelled line or the line with this number, or\n\
           behind it with `after`. RULE is as in the text: deny or allow and its fields, perhaps a label and\n\
           a remark. The edit is done by the library on the current pair sheet, and the sheet is compared\n\
           with a fresh move of the text. A refused edit changes nothing. --try prints the difference and\n\
           writes nothing; its status is that of diff. --all prints the whole difference.",
    valued: &[],
    flags: &[ALL, TRY],
    run: add,
};

pub const SET: Command = Command {
    name: "set",
    takes: "F (@LABEL | LINE) RULE [--try] [--all]",
    does: "puts another rule into a line of the text F and applies it",
    help: "Label and remark of the line stay unless RULE brings its own. Otherwise as add.",
    valued: &[],
    flags: &[ALL, TRY],
    run: set,
};

pub const DEL: Command = Command {
    name: "del",
    takes: "F (@LABEL | LINE) [--try] [--all]",
    does: "takes a line with a rule out of the text F and applies it",
    help: "A remark on the line goes with it; remarks on other lines stay. Otherwise as add.",
    valued: &[],
    flags: &[ALL, TRY],
    run: del,
};

/// What an edit does to the text: the new text, the line that it is about, and what it is called.
struct Wanted {
    text: String,
    edited: Edited,
    what: String,
}

fn add(arguments: &Arguments, output: &mut Output) -> Result<u8> {
    arguments.text()?;
    let mut given = arguments.given.iter().skip(1).map(String::as_str).peekable();
    let behind = given.peek() == Some(&"after");
    if behind || given.peek() == Some(&"before") {
        given.next();
    }
    let place = given.next().ok_or_else(|| arguments.usage(format!("{WHERE} is missing")))?;
    let rule = rule_words(arguments, given.collect())?;
    run(arguments, output, |text| {
        let line = match place.starts_with('@') {
            true => labelled(&text.policy, place, arguments)?.line,
            false => numbered(place, text.policy.length + usize::from(!behind), arguments)?,
        };
        let (beside, line) = (line, line + usize::from(behind));
        let edited = Edited::Added(line);
        let what = format!("add before line {line}: {rule}");
        Ok(Wanted { text: text::edit::add(source(text), line, beside, &rule), edited, what })
    })
}

fn set(arguments: &Arguments, output: &mut Output) -> Result<u8> {
    arguments.text()?;
    let mut given = arguments.given.iter().skip(1).map(String::as_str);
    let place = given.next().ok_or_else(|| arguments.usage(format!("{WHERE} is missing")))?;
    let rule = rule_words(arguments, given.collect())?;
    run(arguments, output, |text| {
        let line = found(&text.policy, place, arguments)?.line;
        let edited = Edited::Set(line);
        let what = format!("set line {line}: {rule}");
        Ok(Wanted { text: text::edit::set(source(text), line, &rule), edited, what })
    })
}

fn del(arguments: &Arguments, output: &mut Output) -> Result<u8> {
    let [_, place] = arguments.exactly()?;
    run(arguments, output, |text| {
        let old = found(&text.policy, place, arguments)?;
        let edited = Edited::Deleted(old.line);
        let what = format!("del line {}: {}", old.line, old.words);
        Ok(Wanted { text: text::edit::delete(source(text), old.line), edited, what })
    })
}

fn source(text: &Text) -> &str {
    std::str::from_utf8(&text.bytes).expect("a text that was read is UTF-8")
}

/// The words of a rule as one line.
fn rule_words(arguments: &Arguments, given: Vec<&str>) -> Result<String> {
    let rule = given.join(" ");
    let rule = rule.trim();
    if rule.is_empty() {
        return Err(arguments.usage("the rule is missing".to_string()));
    }
    if rule.contains(|character: char| character.is_control()) {
        return Err(arguments.usage("a rule is one line of plain text".to_string()));
    }
    Ok(rule.to_string())
}

fn labelled<'a>(policy: &'a Policy, label: &str, arguments: &Arguments) -> Result<&'a RuleLine> {
    let with = |line: &&RuleLine| line.label.as_deref() == Some(label);
    policy.lines.iter().find(with).ok_or_else(|| {
        let labels = policy.lines.iter().filter_map(|line| line.label.as_deref());
        arguments.usage(format!(
            "no line is labelled {}{}",
            text::shown(label),
            nearest(label, labels)
        ))
    })
}

fn numbered(word: &str, most: usize, arguments: &Arguments) -> Result<usize> {
    match text::number(word, u32::MAX) {
        Ok(line) if (1..=most).contains(&(line as usize)) => Ok(line as usize),
        Ok(line) => Err(arguments.usage(format!("the text has no line {line}"))),
        Err(_) => Err(arguments.usage(format!("`{}` is not {WHERE}", text::shown(word)))),
    }
}

/// The line with a rule that a label or a number names.
fn found<'a>(policy: &'a Policy, place: &str, arguments: &Arguments) -> Result<&'a RuleLine> {
    if place.starts_with('@') {
        return labelled(policy, place, arguments);
    }
    let line = numbered(place, policy.length, arguments)?;
    let with = |one: &&RuleLine| one.line == line;
    let rule = policy.lines.iter().find(with);
    rule.ok_or_else(|| arguments.usage(format!("line {line} has no rule")))
}

fn run(
    arguments: &Arguments,
    output: &mut Output,
    ask: impl Fn(&Text) -> Result<Wanted>,
) -> Result<u8> {
    let store = Store::of(arguments.text()?)?;
    let trying = arguments.flag(TRY);
    let lock = if trying { None } else { Some(store.lock()?) };
    let text = Text::read(&store.text)?;
    if !trying {
        disk::editable(&store.text)?;
    }
    let wanted = ask(&text)?;
    name_left_over(&store, lock.as_ref())?;
    let current = store.needed()?;
    not_ahead(&store, &text, &current)?;
    let new = edited_text(&text, &wanted)?;
    let lines = Lines {
        policy: &new.policy,
        name: store.text.display().to_string(),
        edited: Some(wanted.edited),
    };
    let plan = edited_plan(&current, &new.policy)
        .and_then(|plan| same_as_moved(plan, &new.policy))
        .map_err(|why| why.stop(&lines))?;
    let before = Side::of_generation(&store, &current);
    let all = arguments.flag(ALL);
    let status = diff::print(Some(&before), &Side::of_text(&new, &plan), all, output)?;
    let Some(lock) = lock else { return Ok(status) };
    let generation = New {
        after: After::Generation(current.head.number),
        same: None,
        what: wanted.what,
        text: &new.bytes,
        plan: &plan,
        replaces: Some(&text.bytes),
    };
    made(&store, &lock, &generation, output)
}

/// An edit is one of the current generation: a text with other rules has to be applied first.
fn not_ahead(store: &Store, text: &Text, current: &Generation) -> Result<()> {
    if text.policy.order == current.plan.order {
        return Ok(());
    }
    let (text, number) = (store.text.display(), current.head.number);
    Err(Stop::Files(format!(
        "{text} has other rules than generation {number}: `foldplover diff {text}` shows them; apply it first"
    )))
}

/// The new text, in which the line that was given has to be a rule.
fn edited_text(old: &Text, wanted: &Wanted) -> Result<Text> {
    let stop = |what: String| Stop::Text(format!("{what}; {NOTHING_WRITTEN}"));
    let (line, is_given) = match wanted.edited {
        Edited::Added(line) | Edited::Set(line) => (line, true),
        Edited::Deleted(line) => (line, false),
    };
    let new = wanted.text.lines().nth(line - 1).filter(|_| is_given);
    let is_other =
        |other: &&RuleLine| !matches!(wanted.edited, Edited::Set(at) if at == other.line);
    let label = new.and_then(text::label);
    let mut others = old.policy.lines.iter().filter(is_other);
    if let Some(other) = others.find(|other| label.is_some() && other.label == label) {
        let label = label.unwrap_or_default();
        return Err(stop(format!("the rule given: {label} stands at line {} already", other.line)));
    }
    if wanted.text.len() > text::MOST_BYTES {
        return Err(stop("with this edit the text is longer than 1,048,576 bytes".to_string()));
    }
    let bytes = wanted.text.clone().into_bytes();
    let policy = text::read(&bytes).map_err(|faults| {
        let indent = new.map_or(0, |new| new.chars().take_while(|c| c.is_whitespace()).count());
        let of_rule = faults.iter().find(|fault| fault.line == line);
        stop(match of_rule {
            Some(Fault { column, message, .. }) => {
                format!("the rule given, column {}: {message}", column.saturating_sub(indent))
            }
            None => format!("with this edit {}:{}", old.path.display(), faults[0]),
        })
    })?;
    if new.is_some() && !policy.lines.iter().any(|rule| rule.line == line) {
        return Err(stop("what is given is no rule: deny or allow, and fields".to_string()));
    }
    Ok(Text { path: old.path.clone(), bytes, policy })
}

/// Why an edit has no plan.
enum Why {
    Refused(Refusal),
    Differs,
}

impl Why {
    fn stop(self, lines: &Lines) -> Stop {
        match self {
            Why::Refused(refusal) => lines.refused(refusal, NOTHING_WRITTEN),
            Why::Differs => Stop::Files(format!(
                "{}: the edited sheet is not what a fresh move of the text gives; {NOTHING_WRITTEN}.\n\
                 This is proved not to happen: keep the folder as it is and ask whoever cares for the tool",
                lines.name
            )),
        }
    }
}

/// The pair sheet after the edits that turn the current rules into the new ones.
fn edited_plan(current: &Generation, new: &Policy) -> std::result::Result<Vec<u8>, Why> {
    let mut sheet = current.plan.pair.clone();
    let edits = edits(&current.plan.order, &new.order);
    for edit in &edits {
        sheet = match library::edit(&sheet, edit) {
            Ok(sheet) => sheet,
            Err(refusal) if edits.len() == 1 => return Err(Why::Refused(refusal)),
            // On the way from several rules to several others a list may stand that is refused.
            Err(Refusal(number)) => {
                let fresh = Plan::of(&new.order).map_err(Why::Refused)?;
                note(format!("an edit on the way is refused ({number}); the text is moved afresh"));
                return Ok(fresh.pair);
            }
        };
    }
    Ok(sheet)
}

/// The plan of an edited sheet, if it is byte for byte that of a fresh move.
fn same_as_moved(sheet: Vec<u8>, policy: &Policy) -> std::result::Result<Plan, Why> {
    let fresh = Plan::of(&policy.order).map_err(Why::Refused)?;
    if fresh.pair == sheet {
        Ok(fresh)
    } else {
        Err(Why::Differs)
    }
}

/// The edits from the old rules to the new ones of the list that one line changed, each at its place.
fn edits(old: &Order, new: &Order) -> Vec<Edit> {
    let which = if old.gate != new.gate { Which::Gate } else { Which::Own };
    let (from, to) = (old.list(which), new.list(which));
    let front = from.iter().zip(to).take_while(|(old, new)| old == new).count();
    let (from, to) = (&from[front..], &to[front..]);
    let back = from.iter().rev().zip(to.iter().rev()).take_while(|(old, new)| old == new).count();
    let (gone, put) = (from.len() - back, &to[..to.len() - back]);
    let mut edits = Vec::new();
    let mut edit = |place, change| edits.push(Edit { which, place, change });
    for (at, &rule) in put.iter().enumerate() {
        edit(front + at, if at < gone { Change::Replace(rule) } else { Change::Insert(rule) });
    }
    for _ in put.len()..gone {
        edit(front + put.len(), Change::Delete);
    }
    edits
}
