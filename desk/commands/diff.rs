//! `diff`: a text against the current generation: rules, boxes by line, and packets.

use crate::arguments::Arguments;
use crate::commands::check::room;
use crate::commands::{name_left_over, Command, Text, ALL, NOTHING_WRITTEN};
use crate::difference::{self, Decision, Difference};
use crate::library;
use crate::numbers::counted;
use crate::output::{Mood, Output};
use crate::refusal::section;
use crate::rule::{Packet, Rule, Which, DESTINATION_PORT, PROTOCOL, SOURCE_PORT};
use crate::sheet::Plan;
use crate::stop::{Result, Stop, DONE, OTHERWISE};
use crate::store::{Generation, Store};
use crate::text::{self, Policy};
use std::collections::BTreeMap;
use std::ops::Range;

pub const DIFF: Command = Command {
    name: "diff",
    takes: "F [--all]",
    does: "compares the text F with the current generation",
    help: "Prints rules that came and went, lines whose number of boxes changed, and what is now forwarded\n\
           or dropped that was not before: a packet for each pair of rules that decided it and decide it\n\
           now, confirmed by lookups in the old lists and in the new ones. Status 0 where no rule differs,\n\
           1 where one does. What concerns most packets stands first; --all prints all of it.",
    valued: &[],
    flags: &[ALL],
    run,
};

/// Boxes that the search for packets looks at.
const STEPS: usize = 200_000;
/// Kinds of packets that are shown of those now forwarded, and of those now dropped.
const MOST_SHOWN: usize = 10;
/// Boxes that are shown of one kind.
const MOST_BOXES: usize = 4;

/// One of the two that are compared.
pub struct Side<'a> {
    pub name: String,
    pub policy: &'a Policy,
    pub plan: &'a Plan,
    /// Whether it is the newer one.
    is_now: bool,
}

impl Side<'_> {
    pub fn of_text<'a>(text: &'a Text, plan: &'a Plan) -> Side<'a> {
        Side { name: text.path.display().to_string(), policy: &text.policy, plan, is_now: true }
    }

    pub fn of_generation<'a>(store: &Store, generation: &'a Generation) -> Side<'a> {
        let name = store.policy_path(generation.head.number).display().to_string();
        Side { name, policy: &generation.policy, plan: &generation.plan, is_now: false }
    }

    /// A rule by its line: the line's words, or the rule's own where the line stands for several.
    fn shown(&self, which: Which, place: usize) -> String {
        let line = self.policy.line_of(which, place);
        let words = match line.places.len() {
            1 if !line.uses_names => line.words.clone(),
            _ => text::rule(&self.plan.order.list(which)[place]),
        };
        format!("{}:{}: {words}", self.name, line.line)
    }

    /// Rules that came or went: a line that stands for several once, if all of them did. Where the other
    /// side has a line of the same words, a name in them has changed, and the rule itself is shown.
    fn changed(&self, other: &Side, which: Which, places: Range<usize>, output: &mut Output) {
        let (sign, mood) = if self.is_now { ("+", Mood::Good) } else { ("-", Mood::Bad) };
        let mut place = places.start;
        while place < places.end {
            let line = self.policy.line_of(which, place);
            let named = other.policy.lines_of(which).any(|one| one.words == line.words);
            let fits = line.places.start == place && line.places.end <= places.end;
            let whole = fits && !(named && line.uses_names);
            let (end, words) = match whole {
                true => (line.places.end, line.named(&self.name)),
                false => (place + 1, self.shown(which, place)),
            };
            let mut said = Vec::new();
            if end - place > 1 {
                said.push(counted(end - place, "rule", "rules"));
            }
            if which == Which::Gate && !self.plan.order.gate[place].allows {
                let boxes: usize = self.plan.boxes[place..end].iter().sum();
                said.push(counted(boxes, "box", "boxes"));
            }
            let said =
                if said.is_empty() { String::new() } else { format!(" ({})", said.join(", ")) };
            output.line(output.tinted(mood, &format!("  {sign} {words}{said}")));
            place = end;
        }
    }

    fn lines(&self, decision: &Decision) -> ByLines {
        let line = |which, place| self.policy.line_of(which, place).line;
        (line(Which::Gate, decision.gate), decision.own.map(|own| line(Which::Own, own)))
    }

    fn decided(&self, decision: &Decision) -> String {
        let one = |which, place| self.policy.line_of(which, place).named(&self.name);
        let own = decision.own.map_or(String::new(), |own| format!("; {}", one(Which::Own, own)));
        one(Which::Gate, decision.gate) + &own
    }

    fn forwards(&self, packet: &Packet) -> Result<bool> {
        let one = |list: &[u8]| library::lookup(packet, list).map(|decided| decided.allows);
        let both = one(&self.plan.gate).and_then(|gate| Ok(gate && one(&self.plan.cell)?));
        both.map_err(|refusal| {
            Stop::Refused(format!("{}: a lookup was refused ({})", self.name, refusal.0))
        })
    }
}

fn run(arguments: &Arguments, output: &mut Output) -> Result<u8> {
    let [path] = arguments.exactly()?;
    let text = Text::read(path.as_ref())?;
    let plan = text.plan()?;
    let store = Store::of(&text.path)?;
    name_left_over(&store, None)?;
    let current = store.current()?;
    let before = current.as_ref().map(|generation| Side::of_generation(&store, generation));
    print(before.as_ref(), &Side::of_text(&text, &plan), arguments.flag(ALL), output)
}

/// Prints the difference; the status says whether a rule differs.
pub fn print(before: Option<&Side>, now: &Side, all: bool, output: &mut Output) -> Result<u8> {
    let Some(before) = before else {
        output.line(format!("no generation yet: {} is all new", now.name));
        output.line(format!("moved: {}", room(now.plan)));
        return Ok(OTHERWISE);
    };
    if before.plan.order == now.plan.order {
        output.line("no rule differs");
        return Ok(DONE);
    }
    for which in [Which::Gate, Which::Own] {
        rules(before, now, which, output);
    }
    boxes(before, now, output);
    output.line(format!("moved: {}", room(now.plan)));
    output.line(format!("before: {}", room(before.plan)));
    packets(before, now, all, output)?;
    Ok(OTHERWISE)
}

/// For two lists the pairs of places of rules that stand in both, in order and as many as can be.
fn common(before: &[Rule], now: &[Rule]) -> Vec<(usize, usize)> {
    let mut longest = vec![vec![0; now.len() + 1]; before.len() + 1];
    for i in (0..before.len()).rev() {
        for j in (0..now.len()).rev() {
            longest[i][j] = match before[i] == now[j] {
                true => longest[i + 1][j + 1] + 1,
                false => longest[i + 1][j].max(longest[i][j + 1]),
            };
        }
    }
    let (mut i, mut j, mut pairs) = (0, 0, Vec::new());
    while i < before.len() && j < now.len() {
        if before[i] == now[j] {
            pairs.push((i, j));
            (i, j) = (i + 1, j + 1);
        } else if longest[i + 1][j] >= longest[i][j + 1] {
            i += 1;
        } else {
            j += 1;
        }
    }
    pairs
}

fn rules(before: &Side, now: &Side, which: Which, output: &mut Output) {
    let (old, new) = (before.plan.order.list(which), now.plan.order.list(which));
    if old == new {
        return;
    }
    output.line(section(which));
    let (mut i, mut j) = (0, 0);
    for (to_old, to_new) in common(old, new).into_iter().chain([(old.len(), new.len())]) {
        before.changed(now, which, i..to_old, output);
        now.changed(before, which, j..to_new, output);
        (i, j) = (to_old + 1, to_new + 1);
    }
}

fn boxes(before: &Side, now: &Side, output: &mut Output) {
    let pairs = common(&before.plan.order.gate, &now.plan.order.gate);
    let changed: Vec<_> = pairs
        .into_iter()
        .map(|(old, new)| (new, before.plan.boxes[old], now.plan.boxes[new]))
        .filter(|(_, old, new)| old != new)
        .collect();
    if !changed.is_empty() {
        output.line("boxes");
    }
    for (place, old, new) in changed {
        let (new, shown) = (counted(new, "box", "boxes"), now.shown(Which::Gate, place));
        output.line(format!("  {shown}: {new}, {old} before"));
    }
}

/// The lines by which packets are decided: the gate's, and the cell's own where the gate allows.
type ByLines = (usize, Option<usize>);

fn packets(before: &Side, now: &Side, all: bool, output: &mut Output) -> Result<()> {
    let found = difference::differences(&before.plan.order, &now.plan.order, STEPS);
    let mut kinds: BTreeMap<(ByLines, ByLines), Vec<Difference>> = BTreeMap::new();
    for one in found.differences {
        kinds.entry((now.lines(&one.now), before.lines(&one.before))).or_default().push(one);
    }
    let none = kinds.is_empty();
    let mut kinds: Vec<Vec<Difference>> = kinds.into_values().collect();
    // What concerns most packets stands first.
    for kind in &mut kinds {
        kind.sort_by(|one, two| two.ranges.packets().total_cmp(&one.ranges.packets()));
    }
    let size = |kind: &Vec<Difference>| kind.iter().map(|one| one.ranges.packets()).sum::<f64>();
    let odd = |kind: &Vec<Difference>| kind.iter().map(oddity).min() == Some(ODDEST);
    kinds.sort_by(|one, two| (odd(one).cmp(&odd(two))).then(size(two).total_cmp(&size(one))));
    for (forwarded, what, mood) in
        [(true, "now forwarded:", Mood::Good), (false, "now dropped:", Mood::Bad)]
    {
        let of: Vec<_> = kinds.iter().filter(|kind| kind[0].forwarded == forwarded).collect();
        if !of.is_empty() {
            output.line(output.tinted(mood, what));
        }
        for differences in of.iter().take(if all { of.len() } else { MOST_SHOWN }) {
            kind(before, now, differences, all, output)?;
        }
        if of.len() > MOST_SHOWN && !all {
            let more = counted(of.len() - MOST_SHOWN, "pair of lines", "pairs of lines");
            output.line(format!("  and packets of {more} more: --all prints them"));
        }
    }
    output.line(match (found.whole, none) {
        (true, true) => "every packet is decided as before",
        (true, false) => "every other packet is decided as before",
        _ => "the search for packets ended at its limit: there may be others",
    });
    Ok(())
}

/// The example of a box may be a packet that nobody can send: one with ports, of a protocol without.
const ODDEST: u8 = 2;

/// How hard a box's example is to try: 0 with ports, 1 without, 2 not at all.
fn oddity(one: &Difference) -> u8 {
    let packet = difference::example(&one.ranges);
    match text::protocol_has_ports(packet[PROTOCOL]) {
        true => 0,
        false if packet[SOURCE_PORT] == 0 && packet[DESTINATION_PORT] == 0 => 1,
        false => ODDEST,
    }
}

/// Packets that the same lines decided before and the same lines decide now.
fn kind(
    before: &Side,
    now: &Side,
    differences: &[Difference],
    all: bool,
    output: &mut Output,
) -> Result<()> {
    let first = differences.iter().min_by_key(|one| oddity(one)).unwrap_or(&differences[0]);
    let packet = difference::example(&first.ranges);
    if before.forwards(&packet)? == first.forwarded || now.forwards(&packet)? != first.forwarded {
        let packet = text::packet(&packet);
        let what = "the search for packets and the lookups in the lists do not agree";
        return Err(Stop::Files(format!("{what} on {packet}; {NOTHING_WRITTEN}")));
    }
    output.line(format!("  {}", text::packet(&packet)));
    output.line(format!("    before: {}", before.decided(&first.before)));
    output.line(format!("    now:    {}", now.decided(&first.now)));
    let shown = if all { differences.len() } else { MOST_BOXES };
    for one in differences.iter().take(shown) {
        let all = text::ranges(&one.ranges);
        let all = if all.is_empty() { "every packet" } else { &all };
        output.line(format!("    all of: {all}"));
    }
    if differences.len() > shown {
        let more = counted(differences.len() - shown, "box", "boxes");
        output.line(format!("    and {more} more: --all prints them"));
    }
    Ok(())
}
