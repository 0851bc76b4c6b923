//! The readable form of a plant: sections `gate` and `cell`, a rule on each line, names, services
//! and labels. docs/DESK.md describes it.

pub mod edit;
mod fields;
mod known;
mod print;
mod read;
mod values;
mod words;

use crate::rule::{Order, Which};
use std::fmt;
use std::ops::Range;

pub use known::{field_name, has_no_ports, nearest, protocol_has_ports};
pub use print::{address, packet, ranges, rule, span};
pub use read::{read, MOST_BYTES, MOST_FAULTS};
pub use values::{number, shown, Names};
pub use words::label;

/// What is wrong in a text, and where: line and column count from 1, columns in characters.
#[derive(Clone, PartialEq, Eq, Debug)]
pub struct Fault {
    pub line: usize,
    pub column: usize,
    pub message: String,
}

impl fmt::Display for Fault {
    fn fmt(&self, out: &mut fmt::Formatter) -> fmt::Result {
        write!(out, "{}:{}: {}", self.line, self.column, self.message)
    }
}

/// A line that has rules: one, or as many as the lists of values in it stand for.
#[derive(Clone, PartialEq, Eq, Debug)]
pub struct RuleLine {
    pub line: usize,
    pub which: Which,
    /// The places of its rules in the gate's or in the cell's own list.
    pub places: Range<usize>,
    pub label: Option<String>,
    /// Its words without label and remark.
    pub words: String,
    /// Whether a declared name or service stands in them.
    pub uses_names: bool,
}

impl RuleLine {
    /// The line as messages and answers name it.
    pub fn named(&self, text: &str) -> String {
        format!("{text}:{}: {}", self.line, self.words)
    }
}

/// What a text says.
#[derive(Clone, Default, Debug)]
pub struct Policy {
    pub order: Order,
    pub lines: Vec<RuleLine>,
    pub names: Names,
    /// How many lines the text has.
    pub length: usize,
    /// Where a section begins: its line.
    pub sections: Vec<(usize, Which)>,
}

impl Policy {
    /// The line of the rule at a place of a list.
    pub fn line_of(&self, which: Which, place: usize) -> &RuleLine {
        self.lines
            .iter()
            .find(|line| line.which == which && line.places.contains(&place))
            .expect("every rule of a list stands on a line")
    }

    pub fn lines_of(&self, which: Which) -> impl Iterator<Item = &RuleLine> {
        self.lines.iter().filter(move |line| line.which == which)
    }
}
