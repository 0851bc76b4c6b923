//! A refused move in words that a person can act on: which line, and what to do.

use crate::cost;
use crate::library::{
    Refusal, COUNT_OUTSIDE, MOST_GATE_RULES, MOST_OWN_RULES, MOST_RULES, NOT_COMPLETE,
    TOO_MANY_BOXES, TOO_MANY_PIECES,
};
use crate::numbers::{counted, number};
use crate::rule::Which;
use crate::stop::Stop;
use crate::text::{Policy, RuleLine};

/// How many of the dearest lines are named.
const DEAREST: usize = 5;

/// How lines are named: by the text's name and their number.
pub struct Lines<'a> {
    pub policy: &'a Policy,
    pub name: String,
    /// An edit that is not written yet: lines from there on have another number in the text.
    pub edited: Option<Edited>,
}

/// The line of the new text that an edit put in or changed, or of the old one that it took out.
#[derive(Clone, Copy)]
pub enum Edited {
    Added(usize),
    Set(usize),
    Deleted(usize),
}

pub fn section(which: Which) -> &'static str {
    match which {
        Which::Gate => "gate",
        Which::Own => "cell",
    }
}

impl Lines<'_> {
    /// A line's number in the text as it stands; none for a line that an edit puts in.
    fn number(&self, line: usize) -> Option<usize> {
        match self.edited {
            Some(Edited::Added(at)) if line == at => None,
            Some(Edited::Added(at)) if line > at => Some(line - 1),
            Some(Edited::Deleted(at)) if line >= at => Some(line + 1),
            _ => Some(line),
        }
    }

    pub fn at(&self, line: usize) -> String {
        match self.number(line) {
            Some(line) => format!("{}:{line}", self.name),
            None => format!("{}, new line", self.name),
        }
    }

    fn line(&self, line: usize) -> String {
        self.number(line).map_or("the new line".to_string(), |line| format!("line {line}"))
    }

    /// A refused move of the policy; `left` says what the command left as it was.
    pub fn refused(&self, refusal: Refusal, left: &str) -> Stop {
        let (place, what) = match refusal {
            COUNT_OUTSIDE => self.count_outside(),
            NOT_COMPLETE => self.not_complete(),
            TOO_MANY_PIECES => self.too_many_pieces(),
            TOO_MANY_BOXES => (None, self.too_many_boxes()),
            _ => (None, "the library does not take what this tool made of the text".to_string()),
        };
        let place = place.map_or(self.name.clone(), |line| self.at(line));
        let Refusal(number) = refusal;
        let (first, rest) = what.split_once('\n').unwrap_or((&what, ""));
        let mut message = format!("{place}: refused ({number}): {first}; {left}");
        if !rest.is_empty() {
            message = format!("{message}\n{rest}");
        }
        Stop::Refused(message)
    }

    fn count_outside(&self) -> (Option<usize>, String) {
        for (which, most) in [(Which::Gate, MOST_GATE_RULES), (Which::Own, MOST_OWN_RULES)] {
            let (section, count) = (section(which), self.policy.order.list(which).len());
            let begins = self.policy.sections.iter().find(|begun| begun.1 == which);
            match begins {
                None => return (None, format!("there is no line `{section}`")),
                Some((line, _)) if count == 0 => {
                    return (Some(*line), format!("the {section} has no rule"));
                }
                _ => {}
            }
            if count > most {
                let beyond = self.policy.line_of(which, most);
                let what = format!("the {section} has {count} rules, of {most} at the most");
                return (Some(beyond.line), format!("{what}; this line is the first beyond"));
            }
        }
        (None, "a count is outside its limits".to_string())
    }

    fn not_complete(&self) -> (Option<usize>, String) {
        for which in [Which::Gate, Which::Own] {
            let list = self.policy.order.list(which);
            if list.last().is_some_and(|rule| !rule.ranges.is_full()) {
                let last = self.policy.line_of(which, list.len() - 1);
                let what =
                    "has to end in a rule for every packet: put `deny` or `allow` behind this line";
                return (Some(last.line), format!("the {} {what}", section(which)));
            }
        }
        (None, "a list does not end in a full rule".to_string())
    }

    fn too_many_pieces(&self) -> (Option<usize>, String) {
        let Some((deny, allow)) = cost::too_many_pieces(&self.policy.order.gate) else {
            return (None, format!("a deny falls into more than {MOST_RULES} pieces"));
        };
        let (deny, allow) = (self.gate_line(deny), self.gate_line(allow));
        let what = "this deny falls into more than 1,024 pieces; beyond the limit at";
        (Some(deny.line), format!("{what} {}: {}", self.line(allow.line), allow.words))
    }

    fn gate_line(&self, place: usize) -> &RuleLine {
        self.policy.line_of(Which::Gate, place)
    }

    fn too_many_boxes(&self) -> String {
        let boxes: Vec<usize> = cost::boxes(&self.policy.order.gate)
            .into_iter()
            .map(|boxes| boxes.unwrap_or(0))
            .collect();
        let (all, own) = (boxes.iter().sum::<usize>(), self.policy.order.own.len());
        let mut what = format!(
            "{} and {} are {}, of 1,024 at the most",
            counted(all, "box", "boxes"),
            counted(own, "own rule", "own rules"),
            number(all + own)
        );
        for (line, boxes) in dearest(self.policy, &boxes) {
            what += &format!(
                "\n{}: {}: {}",
                self.at(line.line),
                counted(boxes, "box", "boxes"),
                line.words
            );
        }
        what
    }
}

/// The gate lines that have most boxes, and how many, the dearest first.
pub fn dearest<'a>(policy: &'a Policy, boxes: &[usize]) -> Vec<(&'a RuleLine, usize)> {
    let of = |line: &'a RuleLine| (line, boxes[line.places.clone()].iter().sum::<usize>());
    let mut lines: Vec<_> =
        policy.lines_of(Which::Gate).map(of).filter(|line| line.1 > 0).collect();
    lines.sort_by_key(|&(line, boxes)| (usize::MAX - boxes, line.line));
    lines.truncate(DEAREST);
    lines
}
