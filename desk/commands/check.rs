//! `check`: reads and moves a text, writes nothing.

use crate::arguments::Arguments;
use crate::commands::{Command, Text};
use crate::library::MOST_RULES;
use crate::numbers::{counted, number};
use crate::output::Output;
use crate::refusal::{dearest, section};
use crate::rule::{Order, Rule, Which, DESTINATION_PORT, PROTOCOL, SOURCE_PORT};
use crate::sheet::{self, Plan};
use crate::stop::{Result, DONE};
use crate::text::{self, RuleLine};

pub const CHECK: Command = Command {
    name: "check",
    takes: "F",
    does: "reads the text F and moves it; writes nothing",
    help: "Prints how many rules the gate and the cell get, of 1,024, and which lines have most boxes.\n\
           Lines that stand for several rules are named with their number.",
    valued: &[],
    flags: &[],
    run,
};

fn run(arguments: &Arguments, output: &mut Output) -> Result<u8> {
    let [path] = arguments.exactly()?;
    let text = Text::read(path.as_ref())?;
    let plan = text.plan()?;
    summary(&text, &plan, output);
    Ok(DONE)
}

/// How many rules each filter gets.
pub fn room(plan: &Plan) -> String {
    let (boxes, own) = (plan.all_boxes(), plan.order.own.len());
    format!(
        "gate {}, cell {} of {} rules: {} and {}",
        counted(sheet::count(&plan.gate), "rule", "rules"),
        number(plan.places()),
        number(MOST_RULES),
        counted(boxes, "box", "boxes"),
        counted(own, "own rule", "own rules")
    )
}

/// A rule that asks for a port of a protocol that has none.
fn meets_nothing(line: &RuleLine, order: &Order) -> bool {
    order.list(line.which)[line.places.clone()].iter().all(|Rule { ranges, .. }| {
        let (low, high) = (ranges.low[PROTOCOL], ranges.high[PROTOCOL]);
        let asks = ranges.low[SOURCE_PORT] > 0 || ranges.low[DESTINATION_PORT] > 0;
        low == high && text::has_no_ports(low) && asks
    })
}

fn summary(text: &Text, plan: &Plan, output: &mut Output) {
    let lines = text.lines();
    for which in [Which::Gate, Which::Own] {
        let (rules, on) = (plan.order.list(which).len(), text.policy.lines_of(which).count());
        let rules = counted(rules, "rule", "rules");
        let on = counted(on, "line", "lines");
        output.line(format!("{}: {rules} on {on}", section(which)));
    }
    for line in text.policy.lines.iter().filter(|line| line.places.len() > 1) {
        let rules = counted(line.places.len(), "rule", "rules");
        output.line(format!("{} stands for {rules}: {}", lines.at(line.line), line.words));
    }
    for line in text.policy.lines.iter().filter(|line| meets_nothing(line, &plan.order)) {
        let what = "meets no packet: its protocol has no ports, which are 0 then";
        output.line(format!("{} {what}: {}", lines.at(line.line), line.words));
    }
    output.line(format!("moved: {}", room(plan)));
    for (line, boxes) in dearest(&text.policy, &plan.boxes) {
        let boxes = counted(boxes, "box", "boxes");
        output.line(format!("  {}: {boxes}: {}", lines.at(line.line), line.words));
    }
}
