//! Commands that change a plant, run one after another in a folder of their own: what they make is what
//! a fresh move of the text gives, and what they refuse leaves every file as it was.

use super::draw::Draw;
use super::random_texts::named;
use super::write::{labelled, remarked, Declared, Plant};
use crate::output::Output;
use crate::rule::Which;
use crate::sheet::Plan;
use crate::stop::{Result, Stop, DONE, OTHERWISE};
use crate::store::Store;
use crate::text::{self, edit, Policy, RuleLine};
use std::collections::{BTreeMap, BTreeSet};
use std::fs;
use std::path::{Path, PathBuf};

/// A folder for one test, gone with it.
struct Folder {
    path: PathBuf,
}

impl Folder {
    fn new(name: &str) -> Folder {
        let name = format!("foldplover-tests-{}-{name}", std::process::id());
        let path = std::env::temp_dir().join(name);
        fs::create_dir(&path).expect("the folder is new");
        Folder { path }
    }
}

impl Drop for Folder {
    fn drop(&mut self) {
        let _ = fs::remove_dir_all(&self.path);
    }
}

/// Everything below a folder but the lock: files by their bytes, links by what they name.
fn files(folder: &Path, found: &mut BTreeMap<PathBuf, Vec<u8>>) {
    for entry in fs::read_dir(folder).expect("the folder is read") {
        let path = entry.expect("an entry").path();
        let kind = fs::symlink_metadata(&path).expect("an entry is there").file_type();
        if kind.is_dir() {
            found.insert(path.clone(), Vec::new());
            files(&path, found);
        } else if kind.is_symlink() {
            let target = fs::read_link(&path).expect("a link is read");
            found.insert(path, target.into_os_string().into_encoded_bytes());
        } else if !path.ends_with("lock") {
            found.insert(path.clone(), fs::read(&path).expect("a file is read"));
        }
    }
}

/// A generation as it has to be: its text, and the generation that first had it.
struct Past {
    text: String,
    first: usize,
}

/// A plant in its folder, and what is known of it.
struct Desk {
    folder: Folder,
    text: PathBuf,
    declared: Declared,
    past: Vec<Past>,
    /// The numbers of the refusals that came.
    refusals: BTreeSet<u32>,
    stopped: usize,
}

impl Desk {
    fn new(name: &str, text: &str, declared: Declared) -> Desk {
        let folder = Folder::new(name);
        let path = folder.path.join("plant.txt");
        fs::write(&path, text).expect("the text is written");
        let (past, refusals) = (Vec::new(), BTreeSet::new());
        let mut desk = Desk { folder, text: path, declared, past, refusals, stopped: 0 };
        desk.made("apply", &[], text.to_string());
        desk
    }

    fn now(&self) -> &str {
        &self.past[self.past.len() - 1].text
    }

    fn policy(&self) -> Policy {
        text::read(self.now().as_bytes()).expect("the current text is right")
    }

    fn store(&self) -> Store {
        Store::of(&self.text).expect("the text's name ends in .txt")
    }

    fn files(&self) -> BTreeMap<PathBuf, Vec<u8>> {
        let mut found = BTreeMap::new();
        files(&self.folder.path, &mut found);
        found
    }

    fn run(&self, command: &str, given: &[String]) -> Result<u8> {
        let text = self.text.to_str().expect("the folder's name is text");
        let mut words = vec![command.to_string(), text.to_string()];
        words.extend_from_slice(given);
        crate::run(&words, &mut Output::new())
    }

    /// A command that has to make a generation with this text.
    fn made(&mut self, command: &str, given: &[String], text: String) {
        if command != "apply" {
            self.tried(command, given, &text);
        }
        let number = self.past.len() + 1;
        self.past.push(Past { text, first: number });
        match self.run(command, given) {
            Ok(status) => assert_eq!(status, DONE),
            Err(stop) => panic!("{command} {given:?}: {}\n{}", stop.message(), self.now()),
        }
        self.is_current();
    }

    /// With --try the same command says whether a rule differs, and writes nothing.
    fn tried(&self, command: &str, given: &[String], text: &str) {
        let before = self.files();
        let order = text::read(text.as_bytes()).expect("the new text is right").order;
        let status = if order == self.policy().order { DONE } else { OTHERWISE };
        let given = [given, &["--try".to_string()]].concat();
        assert_eq!(self.run(command, &given).ok(), Some(status));
        assert_eq!(self.files(), before, "{command} {given:?}");
    }

    /// The last generation opens, and has the text, its rules and their move.
    fn is_current(&self) {
        let bytes = fs::read(&self.text).expect("the text is read");
        assert_eq!(bytes, self.now().as_bytes());
        let current = self.store().needed().expect("the current generation opens");
        assert_eq!(current.head.number as usize, self.past.len());
        assert_eq!(current.text, bytes);
        let order = text::read(&bytes).expect("the text is right").order;
        assert_eq!(current.plan.order, order);
        assert_eq!(Plan::of(&order), Ok(current.plan));
    }

    /// A command that has to stop and leave everything as it is.
    fn stops(&mut self, command: &str, given: &[String]) -> Stop {
        let before = self.files();
        let stop = match self.run(command, given) {
            Ok(status) => panic!("{command} {given:?} ends with {status}\n{}", self.now()),
            Err(stop) => stop,
        };
        assert_eq!(self.files(), before, "{command} {given:?}");
        self.stopped += 1;
        stop
    }

    /// An edit that a text knows: it is made if the new text can be read and moved.
    fn edit(&mut self, command: &str, given: &[String], new: Option<String>) {
        let Some(new) = new else {
            assert!(matches!(self.stops(command, given), Stop::Usage(_)));
            return;
        };
        let Ok(policy) = text::read(new.as_bytes()) else {
            let stop = self.stops(command, given);
            assert!(matches!(stop, Stop::Text(_)));
            is_column_of(stop.message(), given);
            return;
        };
        let Err(refusal) = Plan::of(&policy.order) else {
            return self.made(command, given, new);
        };
        let stop = self.stops(command, given);
        let message = stop.message();
        assert!(matches!(stop, Stop::Refused(_)), "{message}");
        assert!(message.contains(&format!("refused ({}): ", refusal.0)), "{message}");
        self.refusals.insert(refusal.0);
        self.names_its_lines(message);
    }

    /// Lines are named as they stand in the text, which the edit left as it was: where a line's words
    /// stand beside its number, they are the line's.
    fn names_its_lines(&self, message: &str) {
        let policy = self.policy();
        for (at, part) in message.split('\n').enumerate() {
            for number in named(part) {
                if policy.sections.iter().any(|begun| begun.0 == number) {
                    assert!(message.contains(" has no rule; "), "{message}");
                    continue;
                }
                let line = policy.lines.iter().find(|one| one.line == number).expect(message);
                assert!(at == 0 || part.ends_with(&format!(": {}", line.words)), "{message}");
            }
            if let Some((_, beside)) = part.split_once(" at line ") {
                let line = policy.lines.iter().find(|one| named(part).last() == Some(&one.line));
                let words = line.map(|line| format!("{}: {};", line.line, line.words));
                assert!(words.is_some_and(|words| beside.starts_with(&words)), "{message}");
            }
        }
    }

    /// The last generation before one that has another text than the current one; 0 if there is none.
    fn before(&self, number: usize) -> usize {
        let mut target = number;
        loop {
            target = self.past[target - 1].first - 1;
            if target == 0 || self.past[target - 1].text != self.now() {
                return target;
            }
        }
    }

    fn undo(&mut self, to: Option<usize>) {
        let current = self.past[self.past.len() - 1].first;
        let target = to.unwrap_or_else(|| self.before(current));
        let given: Vec<String> = to.iter().map(usize::to_string).collect();
        if target == 0 || target > self.past.len() {
            self.stops("undo", &given);
            return;
        }
        let Past { text, first } = &self.past[target - 1];
        let (text, first) = (text.clone(), *first);
        if text == self.now() {
            let before = self.files();
            assert!(matches!(self.run("undo", &given), Ok(DONE)));
            assert_eq!(self.files(), before);
            return;
        }
        self.made("undo", &given, text);
        self.past.last_mut().expect("a generation was made").first = first;
    }

    /// Every generation is in the history as it was made, and nothing else is in the folder.
    fn has_its_past(&self) {
        assert!(matches!(self.run("log", &["--all".to_string()]), Ok(DONE)));
        let store = self.store();
        let history = store.history().expect("the history is read");
        assert_eq!(store.left_over().expect("the folder is read"), Vec::<String>::new());
        assert_eq!(history.generations().count(), self.past.len());
        for ((number, head), (at, past)) in
            history.generations().zip(self.past.iter().enumerate().rev())
        {
            let head = head.as_ref().expect("every sum is read");
            assert_eq!((number as usize, head.number), (at + 1, number));
            let generation = store.open(head.number).expect("every generation opens");
            assert_eq!(generation.text, past.text.as_bytes());
            assert_eq!(head.same.map_or(at + 1, |same| same as usize), past.first);
        }
    }
}

/// Whether a fault of the rule given is named at a column that the words have. A label that a line
/// below has too is that line's fault.
fn is_column_of(message: &str, given: &[String]) {
    let Some(behind) = message.strip_prefix("the rule given, column ") else {
        let other = message.contains(" already; nothing written");
        assert!(other || message.starts_with("with this edit the text is longer"), "{message}");
        return;
    };
    let column = behind.split(':').next().and_then(|digits| digits.parse().ok());
    let width = given.join(" ").chars().count();
    assert!(column.is_some_and(|column| (1..=width + 1).contains(&column)), "{message}");
}

/// A rule to put in: mostly a right one, of one rule or of several, with perhaps a label and a remark.
fn rule(draw: &mut Draw, declared: &Declared, made: usize) -> Vec<String> {
    let words = match draw.below(8) {
        0 => draw
            .pick(&["deny form any", "deny dport", "allow @a @b", "reject", "deny to 1.2.3"])
            .to_string(),
        1 => "deny dport 1,3,5,7,9 sport 2,4,6".to_string(),
        2 => format!("allow from 10.0.0.{}", made % 256),
        _ => declared.line(draw, 8).words,
    };
    // A label that was taken before is a fault.
    let label = format!("@new-{}", draw.below(made + 2));
    let words = labelled(draw, words, &label);
    let words = remarked(draw, words);
    match draw.one_in(2) {
        // Blanks alone: a tab is refused in words that are given.
        true => vec![words.replace('\t', " ")],
        false => words.split_whitespace().map(str::to_string).collect(),
    }
}

/// A line that has a rule, as a command names it.
fn place(draw: &mut Draw, line: &RuleLine) -> String {
    match &line.label {
        Some(label) if draw.one_in(2) => label.clone(),
        _ => line.line.to_string(),
    }
}

/// A command with its words, and the text that it asks for; none where its words are wrong.
struct Asked {
    command: &'static str,
    given: Vec<String>,
    new: Option<String>,
}

fn random_edit(draw: &mut Draw, desk: &Desk) -> Asked {
    let (policy, text) = (desk.policy(), desk.now());
    let line = &policy.lines[draw.below(policy.lines.len())];
    let (at, place) = (line.line, place(draw, line));
    let words = rule(draw, &desk.declared, desk.past.len());
    let rule = words.join(" ");
    let rule = rule.trim();
    let outside = (policy.length + 2).to_string();
    let (command, front, new) = match draw.below(9) {
        0 | 1 => {
            let new = Some(edit::delete(text, at));
            return Asked { command: "del", given: vec![place], new };
        }
        2..=4 => ("set", vec![place], Some(edit::set(text, at, rule))),
        5 => {
            let front = vec!["after".to_string(), place];
            ("add", front, Some(edit::add(text, at + 1, at, rule)))
        }
        6 | 7 => ("add", vec![place], Some(edit::add(text, at, at, rule))),
        _ => {
            let nowhere = draw.pick(&["@nowhere", "0", "-", "one", &outside]);
            (draw.pick(&["add", "set"]), vec![nowhere.to_string()], None)
        }
    };
    Asked { command, given: [front, words].concat(), new }
}

fn edited_at_random(name: &str, seed: u64, edits: usize) {
    let mut draw = Draw::new(seed);
    let (gate, own) = (2 + draw.below(4), 2 + draw.below(6));
    let plant = Plant::draw(&mut draw, gate, own);
    let mut desk = Desk::new(name, &plant.text, plant.declared);
    for at in 1..=edits {
        let Asked { command, given, new } = random_edit(&mut draw, &desk);
        desk.edit(command, &given, new);
        if at % 6 == 0 {
            let number = desk.past.len() + draw.below(2);
            let to = [None, None, Some(1 + draw.below(number))][draw.below(3)];
            desk.undo(to);
        }
    }
    desk.has_its_past();
    assert!(desk.stopped > edits / 10 && desk.past.len() > edits / 3);
}

#[test]
fn random_edits_give_what_fresh_moves_give_or_change_nothing() {
    for seed in 41..47 {
        edited_at_random(&format!("edits-{seed}"), seed, 60);
    }
}

/// Allows that leave 11 x 11 x 8 = 968 pieces of a deny, the last seven of them on one line.
fn nearly_refused() -> String {
    let allows = |field: &str| -> String {
        (1..=10).map(|at| format!("allow {field} {}\n", 2 * at)).collect()
    };
    let ports = "allow dport 2,4,6,8,10,12,14\n";
    format!("gate\n{}{}{ports}@last deny\ncell\nallow\n", allows("from"), allows("to"))
}

fn words(words: &[&str]) -> Vec<String> {
    words.iter().map(|word| word.to_string()).collect()
}

/// Each limit of the library met by one edit.
#[test]
fn edits_beyond_a_limit_are_refused_and_name_lines_as_they_stand() {
    let gate = "deny from 1\n".repeat(63);
    let own = "deny dport 5\n".repeat(252);
    let full = format!("gate\n{gate}allow\ncell\n{own}allow\n");
    let mut desk = Desk::new("limits", &full, Declared::default());
    let text = desk.now().to_string();
    desk.edit("add", &words(&["2", "deny"]), Some(edit::add(&text, 2, 2, "deny")));
    let many = "deny dport 1,2,3,4";
    desk.edit("set", &words(&["70", many]), Some(edit::set(&text, 70, many)));
    let text = desk.now().to_string();
    desk.edit("add", &words(&["after", "70", "deny"]), Some(edit::add(&text, 71, 70, "deny")));
    desk.edit("del", &words(&["65"]), Some(edit::delete(&text, 65)));
    desk.edit("set", &words(&["65", "deny to 1"]), Some(edit::set(&text, 65, "deny to 1")));
    assert_eq!((desk.refusals, desk.stopped), (BTreeSet::from([2, 5]), 4));
}

#[test]
fn edits_that_cut_a_deny_too_often_are_refused() {
    let mut desk = Desk::new("pieces", &nearly_refused(), Declared::default());
    let text = desk.now().to_string();
    let line = desk.policy().line_of(Which::Gate, 27).line;
    for rule in ["allow dport 40", "allow from 40,50", "allow dport 40 @new # remark"] {
        desk.edit("add", &words(&["@last", rule]), Some(edit::add(&text, line, line, rule)));
    }
    // A second deny of 968 boxes is too many with the first.
    desk.edit("add", &words(&["@last", "deny"]), Some(edit::add(&text, line, line, "deny")));
    assert_eq!((&desk.refusals, desk.stopped), (&BTreeSet::from([6, 7]), 4));
    // Ports replaced one by one are too many pieces on the way; all seven are as many as before.
    let (ports, rule) = (line - 1, "allow sport 2,4,6,8,10,12,14");
    desk.edit("set", &words(&[&ports.to_string(), rule]), Some(edit::set(&text, ports, rule)));
    assert_eq!(desk.past.len(), 2);
    desk.has_its_past();
}

/// Lines behind one that is to be deleted are named by the number that they have before.
#[test]
fn a_refused_del_names_lines_behind_it_as_they_stand() {
    let text = nearly_refused().replace("@last deny\n", "deny\n@all allow\ndeny\n");
    let mut desk = Desk::new("del", &text, Declared::default());
    let line = desk.policy().line_of(Which::Gate, 28).line;
    // Without the allow both denies have 968 boxes.
    let stop = desk.stops("del", &words(&["@all"]));
    assert_eq!(named(stop.message()), [line - 1, line + 1], "{}", stop.message());
    desk.edit("del", &words(&["@all"]), Some(edit::delete(&text, line)));
    assert_eq!(desk.refusals, BTreeSet::from([7]));
}

#[test]
fn an_edit_that_makes_a_text_too_long_stops() {
    let mut text = "  gate\nallow\ncell\nallow\n#".to_string();
    text += &"-".repeat((1 << 20) - text.len());
    let mut desk = Desk::new("long", &text, Declared::default());
    let new = edit::add(&text, 1, 1, "deny");
    desk.edit("add", &words(&["1", "deny"]), Some(new));
    assert_eq!(desk.stopped, 1);
}

#[test]
fn what_is_no_rule_is_not_put_in() {
    let mut desk = Desk::new("no-rule", "gate\nallow\ncell\nallow\n", Declared::default());
    for given in ["# remark", "name plc 10.0.0.1", "service web tcp 80", "cell", "@label", " "] {
        for (command, place) in [("add", "2"), ("add", "4"), ("set", "2")] {
            let stop = desk.stops(command, &words(&[place, given]));
            assert!(matches!(stop, Stop::Text(_) | Stop::Usage(_)), "{given}");
        }
    }
    // Nor is a line that is named by more than its digits.
    for place in ["+2", "02", "2.", "²"] {
        assert!(matches!(desk.stops("set", &words(&[place, "deny"])), Stop::Usage(_)), "{place}");
        assert!(matches!(desk.stops("undo", &words(&[place])), Stop::Usage(_)), "{place}");
    }
    desk.is_current();
}

#[test]
fn a_label_that_a_line_below_has_is_named_at_that_line_as_it_stands() {
    let text = "gate\nallow to 1\n@used deny\ncell\nallow\n";
    let mut desk = Desk::new("label", text, Declared::default());
    for line in ["3", "2"] {
        let stop = desk.stops("add", &words(&[line, "deny from 1 @used"]));
        assert!(matches!(stop, Stop::Text(_)));
        // The label stands at line 3; there is no line of the text that the edit would have given.
        let (message, said) = (stop.message(), named(stop.message()));
        assert!(said.iter().all(|&line| line == 3), "{message}");
    }
}

#[test]
fn a_text_changed_by_hand_is_applied_before_it_is_edited_or_undone() {
    let mut desk = Desk::new("hand", "gate\nallow\ncell\nallow\n", Declared::default());
    // So that there is a generation to go back to.
    let text = edit::add(desk.now(), 4, 4, "deny to 1");
    desk.edit("add", &words(&["4", "deny to 1"]), Some(text));
    let by_hand = "gate\ndeny from 10.0.0.1\nallow\ncell\nallow\n";
    fs::write(&desk.text, by_hand).expect("the text is written");
    for (command, given) in [("add", &["2", "deny"][..]), ("del", &["2"]), ("undo", &[])] {
        assert!(matches!(desk.stops(command, &words(given)), Stop::Files(_)));
    }
    desk.made("apply", &[], by_hand.to_string());
    // The very text again makes no generation.
    assert!(matches!(desk.run("apply", &[]), Ok(DONE)));
    desk.is_current();
    desk.undo(None);
    desk.undo(None);
    desk.has_its_past();
}
