//! A line cut into words, each with its column.

use std::ops::Range;

#[derive(Clone, Copy, PartialEq, Eq, Debug)]
pub struct Word<'a> {
    pub text: &'a str,
    /// In characters, from 1.
    pub column: usize,
}

/// Blanks between words.
pub fn is_blank(character: char) -> bool {
    matches!(character, ' ' | '\t')
}

/// The bytes of a line in front of its remark, without blanks at both ends.
pub fn statement(line: &str) -> Range<usize> {
    let end = line.find('#').unwrap_or(line.len());
    let end = line[..end].trim_end_matches(is_blank).len();
    let start = end - line[..end].trim_start_matches(is_blank).len();
    start..end
}

pub fn words(line: &str) -> Vec<Word<'_>> {
    let mut words = Vec::new();
    let mut start = None;
    let end = statement(line).end;
    let characters = line[..end].char_indices().chain([(end, ' ')]);
    for (column, (at, character)) in characters.enumerate() {
        match start {
            None if !is_blank(character) => start = Some((column, at)),
            Some((column, from)) if is_blank(character) => {
                words.push(Word { text: &line[from..at], column: column + 1 });
                start = None;
            }
            _ => {}
        }
    }
    words
}

/// The label on a line, if it has one.
pub fn label(line: &str) -> Option<String> {
    words(line).iter().find(|word| word.text.starts_with('@')).map(|word| word.text.to_string())
}
