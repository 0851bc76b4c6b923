//! One line of a text put in, changed or taken out: all others stay byte for byte, and so do their
//! rules.

use super::draw::Draw;
use super::write::{labelled, remarked, Line, Plant};
use crate::rule::{Order, Rule, Which};
use crate::text::{self, edit, Policy, RuleLine};
use std::ops::Range;

const TEXTS: usize = 1_500;
/// No drawn text has it.
const NEW_LABEL: &str = "@put-in";

struct Case {
    plant: Plant,
    policy: Policy,
    /// A line of the text that has rules.
    line: RuleLine,
    /// What is put in: its words with perhaps a label and a remark, and its rules.
    new: Line,
}

fn each_case(seed: u64, test: impl Fn(&mut Draw, &Case)) {
    let mut draw = Draw::new(seed);
    for _ in 0..TEXTS {
        let (gate, own) = (1 + draw.below(6), 1 + draw.below(6));
        let plant = Plant::draw(&mut draw, gate, own);
        let policy = text::read(plant.text.as_bytes()).expect("the text is right");
        let line = policy.lines[draw.below(policy.lines.len())].clone();
        let mut new = plant.declared.line(&mut draw, 16);
        new.words = labelled(&mut draw, new.words, NEW_LABEL);
        new.words = remarked(&mut draw, new.words);
        test(&mut draw, &Case { plant, policy, line, new });
    }
}

/// The lines of a text with their endings.
fn lines(text: &str) -> Vec<&str> {
    text.split_inclusive('\n').collect()
}

fn is_end(character: char) -> bool {
    character == '\n' || character == '\r'
}

fn indent(line: &str) -> &str {
    &line[..line.len() - line.trim_start_matches([' ', '\t']).len()]
}

/// A line's ending; that of every line, but for the last one.
fn ending(line: &str) -> &str {
    &line[line.trim_end_matches(is_end).len()..]
}

/// From the first # on, without the ending.
fn remark(line: &str) -> &str {
    line.find('#').map_or("", |from| &line[from..]).trim_end_matches(is_end)
}

fn with(order: &Order, which: Which, places: Range<usize>, rules: &[Rule]) -> Order {
    let mut order = order.clone();
    order.list_mut(which).splice(places, rules.iter().copied());
    order
}

fn read(text: &str) -> Policy {
    match text::read(text.as_bytes()) {
        Ok(policy) => policy,
        Err(faults) => panic!("{}\n{text}", faults[0]),
    }
}

fn label_at(policy: &Policy, line: usize) -> Option<&str> {
    policy.lines.iter().find(|one| one.line == line).and_then(|one| one.label.as_deref())
}

/// Where a rule before this line goes: the list, and its place there.
fn place_of(policy: &Policy, line: usize) -> (Which, usize) {
    let begun = policy.sections.iter().filter(|(begin, _)| *begin < line);
    let which = begun.max_by_key(|(begin, _)| *begin).expect("a section has begun").1;
    let above = policy.lines.iter().filter(|one| one.which == which && one.line < line);
    (which, above.map(|one| one.places.len()).sum())
}

#[test]
fn adding_a_line_leaves_every_other_one_byte_for_byte() {
    each_case(31, |draw, Case { plant, policy, line, new }| {
        // From the first rule on; the line behind the last one too.
        let first = policy.lines[0].line;
        let at = draw.pick(&[first, line.line, line.line + 1, policy.length, policy.length + 1]);
        let beside = 1 + draw.below(policy.length);
        let after = edit::add(&plant.text, at, beside, &new.words);
        let (old, mut now) = (lines(&plant.text), lines(&after));
        let end = old.iter().map(|line| ending(line)).find(|end| !end.is_empty()).unwrap_or("\n");
        let put = now.remove(at - 1);
        assert_eq!(put, format!("{}{}{end}", indent(old[beside - 1]), new.words));
        // A last line without an ending gets one where a line comes behind it, and only there.
        let last = old.len() - 1;
        assert_eq!(now[..last], old[..last], "{after}");
        let given = if at > old.len() && ending(old[last]).is_empty() { end } else { "" };
        assert_eq!(now[last..].concat(), format!("{}{given}", old[last]));
        let (which, place) = place_of(policy, at);
        assert_eq!(read(&after).order, with(&policy.order, which, place..place, &new.rules));
    });
}

#[test]
fn setting_a_line_keeps_its_indentation_its_remark_and_its_label() {
    each_case(32, |_, Case { plant, policy, line, new }| {
        let after = edit::set(&plant.text, line.line, &new.words);
        let (mut old, mut now) = (lines(&plant.text), lines(&after));
        let (was, is) = (old.remove(line.line - 1), now.remove(line.line - 1));
        assert_eq!(old, now);
        assert_eq!((indent(is), ending(is)), (indent(was), ending(was)));
        let kept = if remark(&new.words).is_empty() { remark(was) } else { remark(&new.words) };
        assert_eq!(remark(is), kept, "{was}{is}");
        let policy_now = read(&after);
        let brought = new.words[..new.words.len() - remark(&new.words).len()].contains(NEW_LABEL);
        let label = if brought { Some(NEW_LABEL) } else { line.label.as_deref() };
        assert_eq!(label_at(&policy_now, line.line), label);
        let wanted = with(&policy.order, line.which, line.places.clone(), &new.rules);
        assert_eq!(policy_now.order, wanted);
    });
}

#[test]
fn setting_a_line_to_its_own_words_changes_no_rule() {
    each_case(33, |_, Case { plant, policy, line, .. }| {
        let now = read(&edit::set(&plant.text, line.line, &line.words));
        assert_eq!((now.order, now.lines), (policy.order.clone(), policy.lines.clone()));
    });
}

#[test]
fn deleting_a_line_leaves_every_other_one_byte_for_byte() {
    each_case(34, |_, Case { plant, policy, line, .. }| {
        let after = edit::delete(&plant.text, line.line);
        let mut old = lines(&plant.text);
        old.remove(line.line - 1);
        assert_eq!(lines(&after), old);
        let wanted = with(&policy.order, line.which, line.places.clone(), &[]);
        assert_eq!(read(&after).order, wanted);
    });
}
