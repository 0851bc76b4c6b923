//! The load report as a picture: one HTML page with drawings, complete in itself, for a screen and
//! for A4 paper.

mod figures;
mod generations;
mod hits;
mod labels;
mod room;
mod style;
mod svg;
mod table;
mod tries;

use crate::rule::Which;
use figures::{escape, number, percent};
use style::{PATTERNS, STYLE};

/// A line of the text that has places in the cell list: a gate deny by its boxes, or an own rule.
pub struct LoadLine {
    pub which: Which,
    /// The line's number in the text, from 1.
    pub line: usize,
    /// The rule as the text has it.
    pub text: String,
    /// Boxes (gate) or own rules (own) that the line has in the cell list.
    pub places: usize,
    /// Of a gate deny, the most pieces on the way; of an own rule 0.
    pub most_pieces: usize,
    pub hits: u64,
}

/// The load of the same packets on one generation.
pub struct LoadOf {
    pub number: u32,
    pub places: usize,
    pub before: u64,
    pub after: u64,
}

pub struct Picture {
    /// The text's name.
    pub plant: String,
    pub generation: u32,
    /// When the generation was made.
    pub made: String,
    pub packets: u64,
    pub forwarded: u64,
    pub gate_before: u64,
    pub cell_before: u64,
    pub gate_after: u64,
    pub cell_after: u64,
    /// None for no packets.
    pub gain: Option<(u64, u64)>,
    /// By place of the cell list.
    pub hits: Vec<u32>,
    /// For each place the index into `lines`.
    pub owners: Vec<usize>,
    /// Gate lines in list order, then own lines.
    pub lines: Vec<LoadLine>,
    /// The room of the cell list.
    pub most: usize,
    /// The names of the file of packets, and of those of the earlier and the later readings; where none
    /// were given nothing is drawn of the hits.
    pub packets_of: String,
    pub readings: Option<[String; 2]>,
    /// Oldest first, the last one is the one reported.
    pub generations: Vec<LoadOf>,
    /// Earlier generations that are not among them.
    pub left_out: usize,
}

/// The look of own rules, and of places whose line is not known.
const NEUTRAL: &str = "own";

const TONES: [&str; 6] = ["tone0", "tone1", "tone2", "tone3", "tone4", "tone5"];

pub fn page(picture: &Picture) -> String {
    let sections = [
        tries::section_of(picture),
        hits::section_of(picture),
        table::section_of(picture),
        room::section_of(picture),
        generations::section_of(picture),
    ];
    format!(
        "<!DOCTYPE html>\n<html lang=\"en\">\n<head>\n<meta charset=\"utf-8\">\n\
         <meta name=\"viewport\" content=\"width=device-width, initial-scale=1\">\n\
         <title>Load report: {}</title>\n<style>\n{STYLE}</style>\n</head>\n<body>\n{PATTERNS}{}\
         <main>\n{}</main>\n</body>\n</html>\n",
        escape(&picture.plant),
        header(picture),
        sections.concat()
    )
}

fn header(picture: &Picture) -> String {
    let (gain, fraction) = match tries::gain(picture) {
        None => ("none".to_string(), "no packets".to_string()),
        Some((fraction, value)) => (value, format!("{fraction}, before over after")),
    };
    let taken: u128 = picture.lines.iter().map(|line| line.places as u128).sum();
    let forwarded = match picture.packets {
        0 => "no packets".to_string(),
        packets => {
            percent(picture.forwarded.into(), packets.into()) + ", the same before and after"
        }
    };
    let facts = [
        ("Packets", number(picture.packets), "captured".to_string()),
        ("Forwarded", number(picture.forwarded), forwarded),
        ("Gain", gain, fraction),
        ("Cell list", number(taken), format!("of {} places", number(picture.most))),
    ];
    let facts: String = facts
        .iter()
        .map(|(name, value, more)| {
            format!("<div><dt>{name}</dt><dd>{value}<small>{more}</small></dd></div>\n")
        })
        .collect();
    format!(
        "<header>\n<h1>Load report: {}</h1>\n<p>Generation {}, made {}. What it costs to move the \
         gate’s rules down to the cell filter.</p>\n<p>{}.</p>\n<dl>\n{facts}</dl>\n</header>\n",
        escape(&picture.plant),
        picture.generation,
        escape(&picture.made),
        sources(picture)
    )
}

/// The files that the report is made of.
fn sources(picture: &Picture) -> String {
    let packets = format!("Packets of {}", escape(&picture.packets_of));
    match &picture.readings {
        Some([earlier, later]) => {
            format!("{packets}; counters as read in {}, then in {}", escape(earlier), escape(later))
        }
        None => format!("{packets}; no readings of the counters"),
    }
}

/// `words` may have markup; whoever gives them has escaped what comes from a file.
fn section(heading: &str, words: &str, body: &str) -> String {
    format!("<section>\n<h2>{heading}</h2>\n<p>{words}</p>\n{body}</section>\n")
}

/// The look of each line, alternating over those lines that have places: only these are neighbours.
fn tones(picture: &Picture) -> Vec<&'static str> {
    let mut tones = TONES.into_iter().cycle();
    let look = |line: &LoadLine| match (line.which, line.places) {
        (Which::Own, _) | (Which::Gate, 0) => NEUTRAL,
        _ => tones.next().unwrap_or(NEUTRAL),
    };
    picture.lines.iter().map(look).collect()
}
