//! From text to rules, to a sheet, and back.

use super::draw::Draw;
use super::write::Plant;
use crate::refusal::section;
use crate::rule::{Order, Which};
use crate::{library, sheet, text};

const PLANTS: usize = 3_000;

fn each_plant(seed: u64, test: impl Fn(&Plant)) {
    let mut draw = Draw::new(seed);
    for _ in 0..PLANTS {
        test(&Plant::of_any_size(&mut draw));
    }
}

/// As `show` prints a sheet.
fn printed(order: &Order) -> String {
    let mut lines = Vec::new();
    for which in [Which::Gate, Which::Own] {
        lines.push(section(which).to_string());
        lines.extend(order.list(which).iter().map(text::rule));
    }
    lines.join("\n") + "\n"
}

fn rules_of(text: &str) -> Order {
    match text::read(text.as_bytes()) {
        Ok(policy) => policy.order,
        Err(faults) => panic!("{}\n{text}", faults[0]),
    }
}

#[test]
fn the_rules_read_from_a_text_are_those_that_were_written() {
    each_plant(21, |plant| assert_eq!(rules_of(&plant.text), plant.order, "{}", plant.text));
}

#[test]
fn the_lines_of_a_text_have_all_its_rules_in_order() {
    each_plant(22, |plant| {
        let policy = text::read(plant.text.as_bytes()).expect("the text is right");
        assert_eq!(policy.length, plant.text.lines().count());
        let mut next = Order::default();
        let mut above = 0;
        for line in &policy.lines {
            assert!(above < line.line && line.line <= policy.length);
            above = line.line;
            let list = next.list_mut(line.which);
            assert_eq!(line.places.start, list.len());
            list.extend(&policy.order.list(line.which)[line.places.clone()]);
            let words: Vec<&str> = line.words.split(' ').collect();
            let written = plant.text.lines().nth(line.line - 1).expect("the line is there");
            assert!(words.iter().all(|word| written.contains(word)), "{written}: {words:?}");
        }
        assert_eq!(next, policy.order);
    });
}

#[test]
fn the_rules_of_a_sheet_are_those_that_were_joined() {
    each_plant(23, |plant| {
        let joined = library::join(&plant.order).expect("the counts are inside their limits");
        assert_eq!(sheet::order(&joined), Ok(plant.order.clone()));
    });
}

#[test]
fn printed_rules_are_read_as_the_same_rules() {
    each_plant(24, |plant| {
        let printed = printed(&plant.order);
        assert_eq!(rules_of(&printed), plant.order, "{printed}");
    });
}
