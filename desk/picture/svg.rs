//! A drawing as inline SVG. What things look like is said by classes of the page's style.

use super::figures::escape;

/// Units across the page's full width; one is a pixel on a screen.
pub const WIDTH: f64 = 900.0;

/// A character's width at the style's size for drawings, from a wide font so that labels keep apart in
/// every other.
const CHARACTER: f64 = 7.7;

pub fn width_of(words: &str) -> f64 {
    words.chars().count() as f64 * CHARACTER
}

#[derive(Clone, Copy)]
pub struct Point {
    pub x: f64,
    pub y: f64,
}

#[derive(Clone, Copy)]
pub struct Area {
    pub x: f64,
    pub y: f64,
    pub width: f64,
    pub height: f64,
}

impl Area {
    pub fn right(&self) -> f64 {
        self.x + self.width
    }

    pub fn bottom(&self) -> f64 {
        self.y + self.height
    }
}

#[derive(Default)]
pub struct Svg {
    shapes: String,
}

impl Svg {
    pub fn area(&mut self, area: Area, class: &str) {
        self.shapes.push_str(&format!("<rect{} class=\"{class}\"/>\n", sides(area)));
    }

    /// An area that says what it is when it is pointed at.
    pub fn told_area(&mut self, area: Area, class: &str, words: &str) {
        let (sides, words) = (sides(area), escape(words));
        self.shapes
            .push_str(&format!("<rect{sides} class=\"{class}\"><title>{words}</title></rect>\n"));
    }

    pub fn line(&mut self, from: Point, to: Point, class: &str) {
        self.shapes.push_str(&format!(
            "<line x1=\"{:.2}\" y1=\"{:.2}\" x2=\"{:.2}\" y2=\"{:.2}\" class=\"{class}\"/>\n",
            from.x, from.y, to.x, to.y
        ));
    }

    pub fn text(&mut self, at: Point, class: &str, words: &str) {
        self.shapes.push_str(&format!(
            "<text x=\"{:.2}\" y=\"{:.2}\" class=\"{class}\">{}</text>\n",
            at.x,
            at.y,
            escape(words)
        ));
    }

    /// The drawing, across the page; `words` are for those who cannot see it.
    pub fn finish(self, height: f64, words: &str) -> String {
        format!(
            "<svg class=\"drawing\" viewBox=\"0 0 {WIDTH} {height:.2}\" role=\"img\" \
             aria-label=\"{}\">\n{}</svg>\n",
            escape(words),
            self.shapes
        )
    }
}

fn sides(area: Area) -> String {
    format!(
        " x=\"{:.2}\" y=\"{:.2}\" width=\"{:.2}\" height=\"{:.2}\"",
        area.x, area.y, area.width, area.height
    )
}

/// A small square in a line of text.
pub fn swatch(class: &str) -> String {
    format!(
        "<svg class=\"swatch\" width=\"12\" height=\"12\" aria-hidden=\"true\">\
         <rect x=\"0.5\" y=\"0.5\" width=\"11\" height=\"11\" class=\"{class}\"/></svg>"
    )
}

pub struct LegendEntry<'a> {
    pub classes: &'a [&'a str],
    pub words: String,
}

pub fn legend(entries: &[LegendEntry]) -> String {
    let shown = entries.iter().map(|entry| {
        let swatches: String = entry.classes.iter().map(|class| swatch(class)).collect();
        format!("<span>{swatches} {}</span>", escape(&entry.words))
    });
    format!("<p class=\"legend\">{}</p>\n", shown.collect::<Vec<_>>().join("\n"))
}

/// Parts of a whole side by side, on a scale of so many units for each one counted.
pub struct Stack<'a> {
    pub area: Area,
    pub whole: u128,
    pub parts: &'a [Part<'a>],
}

pub struct Part<'a> {
    pub value: u128,
    pub class: &'a str,
    pub words: String,
}

impl Svg {
    /// A part has its words inside only where there is room for them.
    pub fn stack(&mut self, stack: &Stack) {
        let mut x = stack.area.x;
        for part in stack.parts {
            let share = part.value as f64 / stack.whole.max(1) as f64;
            let area = Area { x, width: share * stack.area.width, ..stack.area };
            if part.value > 0 {
                self.told_area(area, part.class, &part.words);
            }
            if width_of(&part.words) + 12.0 < area.width {
                let at = Point { x: x + area.width / 2.0, y: area.y + area.height / 2.0 + 4.5 };
                self.text(at, &format!("middle on-{}", part.class), &part.words);
            }
            x = area.right();
        }
    }
}
