//! Rules tried before and after the move, and the gain.

use super::figures::{decimal, each, number, quotient};
use super::svg::{legend, width_of, Area, LegendEntry, Part, Point, Stack, Svg, WIDTH};
use super::{section, Picture};
use std::cmp::Ordering;

const BAR_LEFT: f64 = 62.0;
const BAR_HEIGHT: f64 = 34.0;
const BAR_STEP: f64 = 46.0;

/// What one filter, or both, tried.
struct Tries {
    name: &'static str,
    before: u128,
    after: u128,
}

impl Tries {
    fn all(picture: &Picture) -> [Tries; 3] {
        let gate = (u128::from(picture.gate_before), u128::from(picture.gate_after));
        let cell = (u128::from(picture.cell_before), u128::from(picture.cell_after));
        [
            Tries { name: "gate", before: gate.0, after: gate.1 },
            Tries { name: "cell", before: cell.0, after: cell.1 },
            Tries { name: "both", before: gate.0 + cell.0, after: gate.1 + cell.1 },
        ]
    }
}

pub fn section_of(picture: &Picture) -> String {
    let tries = Tries::all(picture);
    let body = match picture.gain {
        None => table(picture, &tries),
        Some(_) => format!("{}{}", drawing(&tries), table(picture, &tries)),
    };
    section("Rules tried before and after the move", &words(picture, &tries), &body)
}

/// The gain as a fraction of whole numbers and as a decimal.
pub fn gain(picture: &Picture) -> Option<(String, String)> {
    let (before, after) = picture.gain?;
    let value = quotient(before.into(), after.into());
    let value = value.map_or("–".to_string(), |value| decimal(value, 2));
    Some((format!("{}/{}", number(before), number(after)), value))
}

fn words(picture: &Picture, [gate, cell, both]: &[Tries; 3]) -> String {
    let Some((fraction, value)) = gain(picture) else {
        return "There are no packets, so no rule was tried and the gain is <b>none</b>."
            .to_string();
    };
    let bear = match cell.after > cell.before {
        true => " Whether the cell filter can bear that is the question to ask before a move.",
        false => "",
    };
    format!(
        "The gain, rules tried before over rules tried after, is <b>{fraction}</b>, about \
         <b>{value}</b>{}. For each packet the gate’s own tries {} and the cell’s {}.{bear}",
        meaning(both),
        change(gate, picture.packets),
        change(cell, picture.packets)
    )
}

fn meaning(both: &Tries) -> String {
    let (before, after) = (both.before, both.after);
    match (before.cmp(&after), quotient(after, before), quotient(before, after)) {
        (Ordering::Less, Some(times), _) => format!(
            ". It is below 1: the two filters together try {} times as many rules as before",
            decimal(times, 1)
        ),
        (Ordering::Less, None, _) => {
            ". It is below 1: the two filters together try more rules than before".to_string()
        }
        (Ordering::Greater, _, Some(times)) => format!(
            ". It is above 1: for each rule that the two filters together try, they tried {} before",
            decimal(times, 2)
        ),
        _ => ": the two filters together try as many rules as before".to_string(),
    }
}

fn change(tries: &Tries, packets: u64) -> String {
    let (before, after) = (each(tries.before, packets.into()), each(tries.after, packets.into()));
    match tries.before.cmp(&tries.after) {
        Ordering::Greater => format!("fall from {before} to {after}"),
        Ordering::Less => format!("rise from {before} to {after}"),
        Ordering::Equal => format!("stay at {after}"),
    }
}

fn drawing([gate, cell, both]: &[Tries; 3]) -> String {
    let most = both.before.max(both.after);
    let total_width = width_of(&number(most)) + 14.0;
    let mut svg = Svg::default();
    let bars = [("before", gate.before, cell.before), ("after", gate.after, cell.after)];
    for (row, (name, gate, cell)) in bars.into_iter().enumerate() {
        let area = Area {
            x: BAR_LEFT,
            y: row as f64 * BAR_STEP + 2.0,
            width: WIDTH - BAR_LEFT - total_width,
            height: BAR_HEIGHT,
        };
        let parts = [
            Part { value: gate, class: "gate", words: format!("gate {}", number(gate)) },
            Part { value: cell, class: "cell", words: format!("cell {}", number(cell)) },
        ];
        let middle = area.y + area.height / 2.0 + 4.5;
        svg.text(Point { x: BAR_LEFT - 8.0, y: middle }, "end", name);
        svg.stack(&Stack { area, whole: most, parts: &parts });
        let end = (gate + cell) as f64 / most.max(1) as f64 * area.width;
        let at = Point { x: area.x + end + 8.0, y: middle };
        svg.text(at, "strong", &number(gate + cell));
    }
    let entries = [
        LegendEntry { classes: &["gate"], words: "tried at the gate".to_string() },
        LegendEntry { classes: &["cell"], words: "tried at the cell".to_string() },
    ];
    let drawn = svg.finish(BAR_STEP * 2.0, "Rules tried before and after the move");
    format!("{drawn}{}", legend(&entries))
}

fn table(picture: &Picture, tries: &[Tries; 3]) -> String {
    let rows: String = tries
        .iter()
        .map(|row| {
            let packets = picture.packets.into();
            format!(
                "<tr><th scope=\"row\">{}</th><td>{}</td><td>{}</td><td>{}</td><td>{}</td>\
                 <td>{}</td></tr>\n",
                row.name,
                number(row.before),
                each(row.before, packets),
                number(row.after),
                each(row.after, packets),
                each(row.after, row.before)
            )
        })
        .collect();
    format!(
        "<table class=\"totals\">\n<thead><tr><th scope=\"col\">rules tried at</th>\
         <th scope=\"col\">before</th><th scope=\"col\">a packet</th>\
         <th scope=\"col\">after</th><th scope=\"col\">a packet</th>\
         <th scope=\"col\">after ÷ before</th></tr></thead>\n<tbody>\n{rows}</tbody>\n</table>\n"
    )
}
