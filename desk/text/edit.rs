//! One line of a text put in, changed or taken out, with everything else left as it stands: remarks,
//! blank lines, blanks at the start of lines, and how lines end.

use crate::text::words::{is_blank, label, statement};

/// The lines of a text, each with its ending.
fn lines(text: &str) -> Vec<&str> {
    text.split_inclusive('\n').collect()
}

fn ending(line: &str) -> &str {
    let content = line.trim_end_matches(['\n', '\r']);
    &line[content.len()..]
}

fn joined(lines: &[&str]) -> String {
    lines.concat()
}

/// A line with these words in front of line `line`, or behind the last line, indented as line `beside`.
pub fn add(text: &str, line: usize, beside: usize, new: &str) -> String {
    let mut lines = lines(text);
    let at = (line - 1).min(lines.len());
    let like = lines.get(beside - 1).copied().unwrap_or("");
    let indent = &like[..like.len() - like.trim_start_matches(is_blank).len()];
    let end = lines.iter().map(|line| ending(line)).find(|end| !end.is_empty()).unwrap_or("\n");
    let new = format!("{indent}{new}{end}");
    let last = lines.last().copied().filter(|last| at == lines.len() && ending(last).is_empty());
    let ended = last.map(|last| format!("{last}{end}"));
    if let Some(ended) = &ended {
        lines.pop();
        lines.push(ended);
    }
    lines.insert(at, &new);
    joined(&lines)
}

/// Line `line` with other words. Its remark stays unless the new words bring one, and so does its
/// label.
pub fn set(text: &str, line: usize, new: &str) -> String {
    let mut lines = lines(text);
    let old = lines[line - 1];
    let content = old.trim_end_matches(['\n', '\r']);
    let (place, put) = (statement(content), statement(new));
    let kept = match (label(new), label(content)) {
        (None, Some(label)) => format!(" {label}"),
        _ => String::new(),
    };
    let remark = if new[put.end..].contains('#') { &new[put.end..] } else { &content[place.end..] };
    let now = format!("{}{}{kept}{remark}{}", &content[..place.start], &new[put], ending(old));
    lines[line - 1] = &now;
    joined(&lines)
}

pub fn delete(text: &str, line: usize) -> String {
    let mut lines = lines(text);
    lines.remove(line - 1);
    joined(&lines)
}
