//! Hits over the places of the cell list.

use super::figures::{counted, number, percent};
use super::labels::{placed, Label};
use super::svg::{legend, width_of, Area, LegendEntry, Point, Svg, WIDTH};
use super::{section, tones, Picture, NEUTRAL};
use crate::rule::Which;

const PLOT: Area = Area { x: 118.0, y: 40.0, width: WIDTH - 124.0, height: 250.0 };
const STRIP_HEIGHT: f64 = 12.0;
const LABELS_BELOW: f64 = 50.0;
const WIDEST_SLOT: f64 = 40.0;
const NARROWEST_BAR: f64 = 1.4;
const STEPS: [usize; 9] = [1, 2, 5, 10, 20, 50, 100, 200, 500];
const MOST_TICKS: usize = 14;
const OWN_RULES: &str = "own rules";

/// Places next to each other that have the same look: boxes of one gate line, or own rules.
struct Run {
    gate_line: Option<usize>,
    first: usize,
    count: usize,
}

/// Where things are in the plot.
struct Scale {
    slot: f64,
    decades: u32,
}

impl Scale {
    fn of(places: usize, most_hits: u32) -> Scale {
        Scale {
            slot: (PLOT.width / places.max(1) as f64).min(WIDEST_SLOT),
            decades: most_hits.max(1).ilog10() + 1,
        }
    }

    fn left(&self, place: usize) -> f64 {
        PLOT.x + place as f64 * self.slot
    }

    /// One hit stands half a decade above none, so that it can be seen.
    fn height(&self, hits: f64) -> f64 {
        match hits < 1.0 {
            true => 0.0,
            false => (hits.log10() + 0.5) * PLOT.height / (f64::from(self.decades) + 0.5),
        }
    }
}

pub fn section_of(picture: &Picture) -> String {
    let heading = "Hits at each place of the cell list";
    if picture.readings.is_none() {
        let words =
            "No readings of the cell filter’s counters were given, so there are no hits to show.";
        return section(heading, words, "");
    }
    let owned: Vec<(u32, usize)> =
        picture.hits.iter().copied().zip(picture.owners.iter().copied()).collect();
    if owned.is_empty() {
        return section(heading, "The cell list has no places.", "");
    }
    section(heading, &words(picture, &owned), &drawing(picture, &owned))
}

fn gate_line(picture: &Picture, owner: usize) -> Option<usize> {
    picture.lines.get(owner).filter(|line| line.which == Which::Gate).map(|_| owner)
}

fn name_of(picture: &Picture, place: usize, owner: usize) -> String {
    match picture.lines.get(owner) {
        None => format!("place {}", number(place)),
        Some(line) => {
            let kind = match line.which {
                Which::Gate => "gate deny",
                Which::Own => "own rule",
            };
            format!("place {} ({kind} in line {})", number(place), line.line)
        }
    }
}

fn words(picture: &Picture, owned: &[(u32, usize)]) -> String {
    let total: u128 = owned.iter().map(|&(hits, _)| u128::from(hits)).sum();
    let dropped: u128 = owned
        .iter()
        .filter(|&&(_, owner)| gate_line(picture, owner).is_some())
        .map(|&(hits, _)| u128::from(hits))
        .sum();
    let hit = owned.iter().filter(|&&(hits, _)| hits > 0).count();
    let most = owned.iter().enumerate().rev().max_by_key(|(_, &(hits, _))| hits);
    let (Some((place, &(hits, owner))), true) = (most, total > 0) else {
        return "Between the two readings no place of the cell list was hit.".to_string();
    };
    format!(
        "Between the two readings the cell filter counted {}, {} of them at boxes, where it drops \
         what the gate used to drop; the most, {}, at {}. Places hit: {} of {}. Hits are of the time \
         between the readings, packets of the time of the capture: they need not agree.",
        counted(total, "hit", "hits"),
        percent(dropped, total),
        number(hits),
        name_of(picture, place, owner),
        number(hit),
        number(owned.len())
    )
}

fn runs(picture: &Picture, owned: &[(u32, usize)]) -> Vec<Run> {
    let mut runs: Vec<Run> = Vec::new();
    for (place, &(_, owner)) in owned.iter().enumerate() {
        let line = gate_line(picture, owner);
        match runs.last_mut() {
            Some(run) if run.gate_line == line => run.count += 1,
            _ => runs.push(Run { gate_line: line, first: place, count: 1 }),
        }
    }
    runs
}

fn drawing(picture: &Picture, owned: &[(u32, usize)]) -> String {
    let most_hits = owned.iter().map(|&(hits, _)| hits).max().unwrap_or(0);
    let scale = Scale::of(owned.len(), most_hits);
    let runs = runs(picture, owned);
    let tones = tones(picture);
    let mut svg = Svg::default();
    draw_grid(&mut svg, &scale, owned.len());
    for run in &runs {
        let class = run.gate_line.map_or(NEUTRAL, |line| tones[line]);
        let width = run.count as f64 * scale.slot;
        let y = PLOT.bottom() + 1.0;
        let strip = Area { x: scale.left(run.first), y, width, height: STRIP_HEIGHT };
        svg.area(strip, class);
        for (place, &(hits, owner)) in owned.iter().enumerate().skip(run.first).take(run.count) {
            let words = format!("{}: {}", name_of(picture, place, owner), number(hits));
            draw_bar(&mut svg, &scale, &Bar { place, hits, class, words });
        }
    }
    let base = (Point { x: PLOT.x, y: PLOT.bottom() }, Point { x: PLOT.right(), y: PLOT.bottom() });
    svg.line(base.0, base.1, "axis");
    draw_labels(&mut svg, picture, &scale, &runs);
    let height = PLOT.bottom() + LABELS_BELOW + 8.0;
    format!("{}{}", svg.finish(height, "Hits by place of the cell list"), explained(&runs))
}

struct Bar<'a> {
    place: usize,
    hits: u32,
    class: &'a str,
    words: String,
}

fn draw_bar(svg: &mut Svg, scale: &Scale, bar: &Bar) {
    if bar.hits == 0 {
        return;
    }
    let gap = if scale.slot > 6.0 { 1.0 } else { 0.0 };
    let height = scale.height(f64::from(bar.hits));
    let area = Area {
        x: scale.left(bar.place) + gap / 2.0,
        y: PLOT.bottom() - height,
        width: (scale.slot - gap).max(NARROWEST_BAR),
        height,
    };
    svg.told_area(area, bar.class, &bar.words);
}

fn draw_grid(svg: &mut Svg, scale: &Scale, places: usize) {
    let ticks = (0..=scale.decades).map(|decade| 10u64.saturating_pow(decade));
    for hits in std::iter::once(0).chain(ticks) {
        let y = PLOT.bottom() - scale.height(hits as f64);
        svg.line(Point { x: PLOT.x, y }, Point { x: PLOT.right(), y }, "grid");
        svg.text(Point { x: PLOT.x - 8.0, y: y + 4.5 }, "end", &number(hits));
    }
    svg.text(Point { x: PLOT.x - 8.0, y: PLOT.y - 27.0 }, "end strong", "hits");
    let at = Point { x: PLOT.right(), y: PLOT.y - 27.0 };
    svg.text(at, "end strong", "place in the cell list");
    let step = STEPS.into_iter().find(|step| places / step <= MOST_TICKS).unwrap_or(places);
    for place in (0..places).step_by(step.max(1)) {
        let x = scale.left(place) + scale.slot / 2.0;
        let (top, base) = (Point { x, y: PLOT.y - 6.0 }, Point { x, y: PLOT.bottom() });
        svg.line(top, base, "grid");
        svg.text(Point { x, y: PLOT.y - 10.0 }, "middle", &number(place));
    }
}

fn draw_labels(svg: &mut Svg, picture: &Picture, scale: &Scale, runs: &[Run]) {
    let labels = runs.iter().map(|run| {
        let line = run.gate_line.and_then(|index| picture.lines.get(index));
        let words = line.map_or(OWN_RULES.to_string(), |line| line.line.to_string());
        let centre = scale.left(run.first) + run.count as f64 * scale.slot / 2.0;
        Label { centre, width: width_of(&words) + 6.0, words, weight: run.count }
    });
    let top = PLOT.bottom() + 1.0 + STRIP_HEIGHT;
    let text = PLOT.bottom() + LABELS_BELOW;
    svg.text(Point { x: PLOT.x - 8.0, y: text }, "end strong", "gate line");
    for (x, label) in placed(labels.collect(), PLOT.x, PLOT.right()) {
        let (from, to) = (Point { x: label.centre, y: top }, Point { x, y: text - 13.0 });
        svg.line(from, to, "leader");
        svg.text(Point { x, y: text }, "middle", &label.words);
    }
}

fn explained(runs: &[Run]) -> String {
    let shown = |own| runs.iter().any(|run| run.gate_line.is_none() == own);
    let boxes = "boxes of a gate deny, a colour for each line".to_string();
    let mut entries = Vec::new();
    if shown(false) {
        entries.push(LegendEntry { classes: &["tone0", "tone1", "tone2", "tone3"], words: boxes });
    }
    if shown(true) {
        entries
            .push(LegendEntry { classes: &[NEUTRAL], words: "own rules of the cell".to_string() });
    }
    let scale = "each line of the grid is ten times the one below it".to_string();
    entries.push(LegendEntry { classes: &[], words: scale });
    legend(&entries)
}
