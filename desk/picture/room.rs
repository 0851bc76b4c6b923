//! What is left of the cell list's room.

use super::figures::{counted, number, percent};
use super::svg::{legend, Area, LegendEntry, Part, Point, Stack, Svg, WIDTH};
use super::{section, Picture, NEUTRAL};
use crate::rule::Which;

const BAR: Area = Area { x: 1.0, y: 2.0, width: WIDTH - 2.0, height: 34.0 };
const QUARTERS: usize = 4;

pub fn section_of(picture: &Picture) -> String {
    let places = |which| {
        let lines = picture.lines.iter().filter(move |line| line.which == which);
        lines.map(|line| line.places as u128).sum::<u128>()
    };
    let (boxes, own) = (places(Which::Gate), places(Which::Own));
    let room = picture.most as u128;
    let free = room.saturating_sub(boxes + own);
    let parts = [
        Part { value: boxes, class: "gate", words: counted(boxes, "box", "boxes") },
        Part { value: own, class: NEUTRAL, words: counted(own, "own rule", "own rules") },
        Part { value: free, class: "free", words: format!("{} free", number(free)) },
    ];
    let words = format!(
        "The cell list has room for {} rules: of these {} are free, after {} and {}.",
        number(room),
        number(free),
        parts[0].words,
        parts[1].words
    );
    let entries = parts.iter().map(|part| LegendEntry {
        classes: std::slice::from_ref(&part.class),
        words: format!("{}, {}", part.words, percent(part.value, room)),
    });
    let entries: Vec<LegendEntry> = entries.collect();
    let whole = room.max(boxes + own);
    section("Room in the cell list", &words, &(drawing(whole, &parts) + &legend(&entries)))
}

fn drawing(whole: u128, parts: &[Part]) -> String {
    let mut svg = Svg::default();
    svg.stack(&Stack { area: BAR, whole, parts });
    for quarter in 0..=QUARTERS {
        let x = BAR.x + BAR.width * quarter as f64 / QUARTERS as f64;
        let (from, to) = (Point { x, y: BAR.bottom() }, Point { x, y: BAR.bottom() + 6.0 });
        svg.line(from, to, "axis");
        let class = match quarter {
            0 => "",
            QUARTERS => "end",
            _ => "middle",
        };
        let words = number(whole * quarter as u128 / QUARTERS as u128);
        svg.text(Point { x, y: BAR.bottom() + 20.0 }, class, &words);
    }
    svg.finish(BAR.bottom() + 26.0, "Room in the cell list")
}
