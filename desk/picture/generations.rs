//! The load of the same packets on each generation.

use super::figures::{counted, number};
use super::svg::{legend, width_of, Area, LegendEntry, Point, Svg, WIDTH};
use super::{section, LoadOf, Picture};

const BAR_HEIGHT: f64 = 11.0;
const ROW_STEP: f64 = 33.0;
const GAP: f64 = 8.0;

pub fn section_of(picture: &Picture) -> String {
    let heading = "Load by generation";
    let left_out = match picture.left_out {
        0 => String::new(),
        count => format!(" {} left out.", counted(count, "earlier one is", "earlier ones are")),
    };
    let words = match picture.generations.len() {
        1 => "Rules tried for the packets on this generation.",
        _ => {
            "Rules tried for the same packets had each generation’s lists been loaded, the earliest \
             at the top, the one of this report at the bottom."
        }
    };
    section(heading, &format!("{words}{left_out}"), &drawing(picture))
}

/// Where bars begin, and how long the longest may be.
struct Frame {
    left: f64,
    width: f64,
    most: u64,
}

impl Frame {
    fn of(generations: &[LoadOf]) -> Frame {
        let most = generations.iter().map(|load| load.before.max(load.after)).max().unwrap_or(0);
        let names = generations.iter().map(|load| width_of(&name(load)));
        let left = names.fold(0.0, f64::max).min(WIDTH / 2.0) + GAP;
        let width = (WIDTH - left - width_of(&number(most)) - 2.0 * GAP).max(0.0);
        Frame { left, width, most }
    }
}

fn name(load: &LoadOf) -> String {
    format!("generation {}, {}", load.number, counted(load.places as u128, "place", "places"))
}

fn drawing(picture: &Picture) -> String {
    let frame = Frame::of(&picture.generations);
    let mut svg = Svg::default();
    let last = picture.generations.len() - 1;
    for (row, load) in picture.generations.iter().enumerate() {
        let y = row as f64 * ROW_STEP + 4.0;
        let class = if row == last { "end strong" } else { "end" };
        let at = Point { x: frame.left - GAP, y: y + BAR_HEIGHT + 5.0 };
        svg.text(at, class, &name(load));
        draw_bar(&mut svg, &frame, y, (load.before, "before"));
        draw_bar(&mut svg, &frame, y + BAR_HEIGHT + 1.0, (load.after, "after"));
    }
    let height = picture.generations.len() as f64 * ROW_STEP;
    let x = frame.left;
    svg.line(Point { x, y: 0.0 }, Point { x, y: height }, "axis");
    let entries = [
        LegendEntry { classes: &["before"], words: "before the move".to_string() },
        LegendEntry { classes: &["after"], words: "after the move".to_string() },
    ];
    svg.finish(height, "Rules tried by generation") + &legend(&entries)
}

fn draw_bar(svg: &mut Svg, frame: &Frame, y: f64, (tries, class): (u64, &str)) {
    let width = tries as f64 / frame.most.max(1) as f64 * frame.width;
    svg.area(Area { x: frame.left, y, width, height: BAR_HEIGHT }, class);
    svg.text(Point { x: frame.left + width + GAP, y: y + 10.0 }, "small", &number(tries));
}
