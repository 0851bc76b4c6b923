//! Labels in a row below what they name: moved aside where they would overlap, left out where there
//! is no room.

pub struct Label {
    /// Where what it names has its middle.
    pub centre: f64,
    pub width: f64,
    pub words: String,
    /// Of two labels the weightier one stays.
    pub weight: usize,
}

/// The labels that stay, from left to right, each with the middle of its place between `left` and
/// `right`.
pub fn placed(labels: Vec<Label>, left: f64, right: f64) -> Vec<(f64, Label)> {
    let kept = heaviest(labels, right - left);
    // Pushed one way only, a crowd of labels drifts off; the mean of both ways stays in the middle.
    let centres: Vec<f64> = kept.iter().map(|label| label.centre).collect();
    let pushed = (to_the_right(&kept, &centres, left), to_the_left(&kept, &centres, right));
    let between: Vec<f64> = pushed.0.iter().zip(&pushed.1).map(|(a, b)| (a + b) / 2.0).collect();
    let inside = to_the_right(&kept, &between, left);
    to_the_left(&kept, &inside, right).into_iter().zip(kept).collect()
}

fn heaviest(labels: Vec<Label>, room: f64) -> Vec<Label> {
    let mut order: Vec<usize> = (0..labels.len()).collect();
    order.sort_by_key(|&index| std::cmp::Reverse(labels[index].weight));
    let mut used = 0.0;
    let mut keep = vec![false; labels.len()];
    for index in order {
        if used + labels[index].width <= room {
            used += labels[index].width;
            keep[index] = true;
        }
    }
    labels.into_iter().zip(keep).filter(|(_, keep)| *keep).map(|(label, _)| label).collect()
}

fn to_the_right(labels: &[Label], wanted: &[f64], left: f64) -> Vec<f64> {
    let mut free = left;
    let place = |(label, wanted): (&Label, &f64)| {
        let at = wanted.max(free + label.width / 2.0);
        free = at + label.width / 2.0;
        at
    };
    labels.iter().zip(wanted).map(place).collect()
}

fn to_the_left(labels: &[Label], wanted: &[f64], right: f64) -> Vec<f64> {
    let mut free = right;
    let place = |(label, wanted): (&Label, &f64)| {
        let at = wanted.min(free - label.width / 2.0);
        free = at - label.width / 2.0;
        at
    };
    let mut places: Vec<f64> = labels.iter().zip(wanted).rev().map(place).collect();
    places.reverse();
    places
}
