//! What `plan` prints for an order sheet (01, "Run by a program").

use crate::model::boxes::{self, Action, Rule};
use crate::model::calls;

pub fn print(order: &[u8]) -> String {
    match calls::moved(order) {
        Err(refusal) => format!("refused {}\n", refusal.number()),
        Ok(pair) => {
            let cell = boxes::cell_rules(&pair.groups, &pair.own);
            let header = format!("up {} down {}\n", boxes::gate_rules().len(), cell.len());
            header + &cell.iter().map(line).collect::<String>()
        }
    }
}

fn line(rule: &Rule) -> String {
    let action = match rule.action {
        Action::Deny => "deny",
        Action::Allow => "allow",
    };
    let ranges = rule.area.ranges.iter().map(|range| format!(" {}-{}", range.low, range.high));
    format!("{action}{}\n", ranges.collect::<String>())
}
