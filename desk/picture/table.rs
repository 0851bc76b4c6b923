//! What each line of the text costs, as a table.

use super::figures::{counted, escape, number, percent};
use super::svg::swatch;
use super::{section, tones, LoadLine, Picture};
use crate::rule::Which;

const BAR_WIDTH: f64 = 72.0;
const NARROWEST_BAR: f64 = 1.0;
/// Ends of the bars' scale, in percent of the room.
const SCALES: [usize; 6] = [5, 10, 20, 25, 50, 100];

/// The greatest value of each column; these stand out.
struct Most {
    places: usize,
    pieces: usize,
    hits: u64,
    /// Percent of the room at which a bar is full.
    scale: usize,
}

impl Most {
    fn of(picture: &Picture) -> Most {
        let lines = &picture.lines;
        let places = lines.iter().map(|line| line.places).max().unwrap_or(0);
        let fits =
            |&percent: &usize| places as u128 * 100 <= picture.most as u128 * percent as u128;
        Most {
            places,
            pieces: lines.iter().map(|line| line.most_pieces).max().unwrap_or(0),
            hits: lines.iter().map(|line| line.hits).max().unwrap_or(0),
            scale: SCALES.into_iter().find(fits).unwrap_or(100),
        }
    }

    /// With a single place each, as own rules have, no line is dearer than another.
    fn is_dearest(&self, line: &LoadLine) -> bool {
        line.places == self.places && line.places > 1
    }
}

pub fn section_of(picture: &Picture) -> String {
    let heading = "What each line costs";
    if picture.lines.is_empty() {
        return section(heading, "No line has a place in the cell list.", "");
    }
    let most = Most::of(picture);
    section(heading, &words(picture, &most), &table(picture, &most))
}

fn words(picture: &Picture, most: &Most) -> String {
    let room = number(picture.most);
    let mut dearest = picture.lines.iter().filter(|line| most.is_dearest(line));
    let takes = format!(
        "{} places, {} of the cell list’s {room}",
        number(most.places),
        percent(most.places as u128, picture.most as u128)
    );
    let dearest = match (dearest.next(), dearest.count()) {
        (None, _) => "No line takes more than one place of the cell list.".to_string(),
        (Some(line), 0) => format!("Line {} is the dearest: it takes {takes}.", line.line),
        (Some(_), more) => {
            format!("{} lines are the dearest: each takes {takes}.", number(more + 1))
        }
    };
    format!(
        "{dearest} A gate deny is cut into boxes around the allows before it. The most pieces that \
         it had on the way must not exceed {room} either, or the move is refused. The greatest \
         value of a column is bold."
    )
}

fn table(picture: &Picture, most: &Most) -> String {
    let hits = if picture.readings.is_some() { "<th scope=\"col\">hits</th>" } else { "" };
    let head = format!(
        "<thead><tr><th scope=\"col\">line</th><th scope=\"col\" class=\"rule\">rule</th>\
         <th scope=\"col\">places</th><th scope=\"col\" colspan=\"2\">share of {room}<br>\
         <small>bar: 0 to {}%</small></th>{hits}<th scope=\"col\" colspan=\"2\">most pieces<br>\
         <small>on the way, of {room}</small></th></tr></thead>\n",
        most.scale,
        room = number(picture.most)
    );
    let groups = group(picture, most, Which::Gate) + &group(picture, most, Which::Own);
    let all = sum_row(picture, "Whole list", |_| true);
    format!("<table class=\"lines\">\n{head}{groups}<tbody>\n{all}</tbody>\n</table>\n")
}

fn group(picture: &Picture, most: &Most, which: Which) -> String {
    let tones = tones(picture);
    let members: Vec<usize> =
        (0..picture.lines.len()).filter(|&index| picture.lines[index].which == which).collect();
    if members.is_empty() {
        return String::new();
    }
    let rows: String =
        members.iter().map(|&index| row(picture, most, index, tones[index])).collect();
    let name = match which {
        Which::Gate => counted(members.len() as u128, "gate deny", "gate denies"),
        Which::Own => counted(members.len() as u128, "own rule", "own rules"),
    };
    let sum = sum_row(picture, &name, |line| line.which == which);
    format!("<tbody>\n{rows}{sum}</tbody>\n")
}

fn row(picture: &Picture, most: &Most, index: usize, tone: &str) -> String {
    let line = &picture.lines[index];
    let dearest = most.is_dearest(line);
    let tag = if dearest { " <span class=\"tag\">dearest</span>" } else { "" };
    let hits = match picture.readings.is_some() {
        true => cell(number(line.hits), line.hits == most.hits && line.hits > 0),
        false => String::new(),
    };
    // Without readings there is no drawing of the places that a colour could point to.
    let swatch =
        if picture.readings.is_some() && line.places > 0 { swatch(tone) } else { String::new() };
    format!(
        "<tr{}><td>{swatch} {}</td><td class=\"rule\"><code>{}</code>{tag}</td>{}{}{hits}{}</tr>\n",
        if dearest { " class=\"dearest\"" } else { "" },
        line.line,
        escape(&line.text),
        cell(number(line.places), dearest),
        share(picture, line, most),
        pieces(picture, line, most)
    )
}

fn cell(words: String, stands_out: bool) -> String {
    match stands_out {
        true => format!("<td><b>{words}</b></td>"),
        false => format!("<td>{words}</td>"),
    }
}

fn share(picture: &Picture, line: &LoadLine, most: &Most) -> String {
    let full = picture.most as f64 * most.scale as f64 / 100.0;
    let width = (line.places as f64 / full.max(1.0)).min(1.0) * BAR_WIDTH;
    let width = if line.places > 0 { width.max(NARROWEST_BAR) } else { 0.0 };
    format!(
        "<td>{}</td><td class=\"bar\"><svg width=\"{BAR_WIDTH}\" height=\"10\" \
         aria-hidden=\"true\"><rect width=\"{BAR_WIDTH}\" height=\"10\" class=\"track\"/>\
         <rect width=\"{width:.2}\" height=\"10\" class=\"{}\"/></svg></td>",
        percent(line.places as u128, picture.most as u128),
        if most.is_dearest(line) { "most" } else { "less" }
    )
}

/// Own rules are not cut.
fn pieces(picture: &Picture, line: &LoadLine, most: &Most) -> String {
    if line.which == Which::Own {
        return "<td></td><td></td>".to_string();
    }
    let stands_out = line.most_pieces == most.pieces && line.most_pieces > 1;
    let share = percent(line.most_pieces as u128, picture.most as u128);
    cell(number(line.most_pieces), stands_out) + &cell(share, stands_out)
}

fn sum_row(picture: &Picture, name: &str, counts: impl Fn(&LoadLine) -> bool) -> String {
    let lines = picture.lines.iter().filter(|line| counts(line));
    let (places, hits) = lines.fold((0u128, 0u128), |(places, hits), line| {
        (places + line.places as u128, hits + u128::from(line.hits))
    });
    let hits = if picture.readings.is_some() {
        format!("<td>{}</td>", number(hits))
    } else {
        String::new()
    };
    format!(
        "<tr class=\"sum\"><td></td><td class=\"rule\">{name}</td><td>{}</td><td>{}</td><td></td>\
         {hits}<td></td><td></td></tr>\n",
        number(places),
        percent(places, picture.most as u128)
    )
}
