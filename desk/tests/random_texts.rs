//! Texts of every sort, right and wrong: none makes the tool panic, and whatever is at fault or refused
//! is named at a place that the text has.

use super::draw::Draw;
use super::write::Plant;
use crate::cost;
use crate::library::{Refusal, TOO_MANY_BOXES, TOO_MANY_PIECES};
use crate::refusal::Lines;
use crate::rule::Which;
use crate::sheet::Plan;
use crate::text::{self, Fault, Policy};

const NAME: &str = "plant.txt";
/// Words of the grammar and some that are nearly so.
const WORDS: &str =
    "gate cell deny allow name service source from destination to source-port sport \
    destination-port dport protocol proto any tcp udp icmp http modbus https: web plc @a @b @ @ä # \
    0 1 80 443 65535 65536 256 255 4294967295 4294967296 007 10.0.0.1 10.0.0.0/8 10.0.0.1/8 \
    1.2.3 1.2.3.4.5 1-2 2-1 - -1 1- , 80,443 80,80 80, tcp,udp any,any plc,any / 10/8 10.0.0.0/ \
    10.0.0.0/33 0.0.0.0/0 0.0.0.0-255.255.255.255 ... 10.0.0.1-10.0.0.2-10.0.0.3 Gate DENY";
const CHARACTERS: [&str; 16] = [
    "\u{0}",
    "\u{1b}",
    "\u{a0}",
    "\u{301}",
    "\u{2028}",
    "\u{feff}",
    "ä",
    "漢",
    "𝄞",
    "👩‍👩‍👧",
    "\r",
    "\t",
    " ",
    "#",
    "@",
    ",",
];

/// Reads a text, and moves it where it can be read; says whether it was.
fn survives(bytes: &[u8]) -> bool {
    match text::read(bytes) {
        Ok(policy) => {
            moved(&policy);
            true
        }
        Err(faults) => {
            assert!(!faults.is_empty());
            let text = String::from_utf8_lossy(bytes);
            let lines: Vec<&str> = text.split('\n').collect();
            for fault in &faults {
                assert!(is_inside(fault, &lines), "{fault} of {} lines", lines.len());
            }
            let above = faults.iter().zip(&faults[1..]).all(|(one, two)| one.line < two.line);
            assert!(above, "a line is named once, and lines in their order");
            false
        }
    }
}

fn is_inside(fault: &Fault, lines: &[&str]) -> bool {
    let width = lines.get(fault.line - 1).map_or(0, |line| line.chars().count());
    fault.line <= lines.len() + 1 && (1..=width + 1).contains(&fault.column)
}

fn moved(policy: &Policy) {
    match Plan::of(&policy.order) {
        Ok(plan) => assert_eq!(plan.order, policy.order),
        Err(refusal) => {
            // Any other would say that a text was taken which stands for no rules.
            assert!([2, 5, 6, 7].contains(&refusal.0), "{refusal:?}");
            let refused = refused(policy, refusal);
            for line in named(&refused) {
                let begins = policy.sections.iter().any(|begun| begun.0 == line);
                let rule = policy.lines.iter().any(|one| one.line == line);
                assert!(begins || rule, "{refused}");
            }
        }
    }
}

fn refused(policy: &Policy, refusal: Refusal) -> String {
    let lines = Lines { policy, name: NAME.to_string(), edited: None };
    lines.refused(refusal, "nothing written").message().to_string()
}

/// The lines that a message names.
pub fn named(message: &str) -> Vec<usize> {
    let mut found = Vec::new();
    for mark in [format!("{NAME}:"), "at line ".to_string()] {
        let behind = message.split(&mark).skip(1);
        let digits = behind.map(|rest| rest.split(|c: char| !c.is_ascii_digit()).next());
        found.extend(digits.flatten().filter_map(|digits| digits.parse::<usize>().ok()));
    }
    found
}

#[test]
fn bytes_at_random_are_read_without_panic() {
    let mut draw = Draw::new(11);
    for _ in 0..4_000 {
        let length = draw.below(80);
        let mut bytes = draw.bytes(length);
        if draw.one_in(2) {
            bytes.iter_mut().for_each(|byte| *byte %= 128);
        }
        survives(&bytes);
    }
}

/// Lines of words drawn from the grammar, under section lines mostly.
fn worded(draw: &mut Draw) -> String {
    let words: Vec<&str> = WORDS.split_whitespace().collect();
    let mut text =
        draw.pick(&["", "gate\n", "name plc 10.0.0.1\nservice web tcp 80\ngate\n"]).to_string();
    for _ in 0..1 + draw.below(6) {
        text += draw.pick(&["", "deny ", "allow ", "deny from ", "allow dport ", "cell\n"]);
        for _ in 0..draw.below(4) {
            text += draw.pick(&words);
            text += draw.pick(&[" ", " ", " ", "\t", ","]);
        }
        text += draw.pick(&["\n", "\n", "\r\n", ""]);
    }
    text
}

#[test]
fn words_of_the_grammar_at_random_are_read_without_panic() {
    let mut draw = Draw::new(12);
    let right = (0..10_000).filter(|_| survives(worded(&mut draw).as_bytes())).count();
    // Else this test would look at the one way out or at the other alone.
    assert!((300..9_700).contains(&right), "{right} texts are right");
}

fn boundary(draw: &mut Draw, text: &str) -> usize {
    let mut at = draw.below(text.len() + 1);
    while !text.is_char_boundary(at) {
        at -= 1;
    }
    at
}

/// One thing of a text done wrong.
fn damaged(draw: &mut Draw, text: &str) -> Vec<u8> {
    let mut text = text.to_string();
    let at = boundary(draw, &text);
    let words: Vec<&str> = WORDS.split_whitespace().collect();
    match draw.below(7) {
        0 => text.insert_str(at, draw.pick(&CHARACTERS)),
        1 if at < text.len() => drop(text.remove(at)),
        2 if at < text.len() => {
            text.remove(at);
            text.insert_str(at, draw.pick(&CHARACTERS));
        }
        3 => text.insert_str(at, draw.pick(&words)),
        4 => {
            let mut lines: Vec<&str> = text.split('\n').collect();
            let (one, two) = (draw.below(lines.len()), draw.below(lines.len()));
            lines.swap(one, two);
            text = lines.join("\n");
        }
        // At any byte, also inside a character.
        5 => return text.as_bytes()[..draw.below(text.len() + 1)].to_vec(),
        _ => {
            let mut bytes = text.into_bytes();
            let at = draw.below(bytes.len());
            bytes[at] = draw.number() as u8;
            return bytes;
        }
    }
    text.into_bytes()
}

#[test]
fn damaged_texts_are_read_without_panic() {
    let mut draw = Draw::new(13);
    let mut right = 0;
    for _ in 0..1_500 {
        let (gate, own) = (1 + draw.below(8), 1 + draw.below(8));
        let text = Plant::draw(&mut draw, gate, own).text;
        assert!(survives(text.as_bytes()));
        for _ in 0..4 {
            right += usize::from(survives(&damaged(&mut draw, &text)));
        }
    }
    assert!((600..5_400).contains(&right), "{right} texts are right");
}

#[test]
fn very_long_lines_and_deep_unicode_are_read_without_panic() {
    let mut draw = Draw::new(14);
    for character in CHARACTERS.into_iter().chain(["a", "9", ".", "-", "/", "deny ", "1,", "any,"])
    {
        for front in ["", "gate\ndeny from ", "gate\ndeny dport 1,", "name ", "gate\ndeny @"] {
            let count = 1 + draw.below(20_000 / character.len());
            let long = format!("{front}{}", character.repeat(count));
            survives(long.as_bytes());
            survives(&long.as_bytes()[..draw.below(long.len())]);
        }
    }
}

#[test]
fn a_text_longer_than_a_mebibyte_is_a_fault_and_one_of_that_length_is_read() {
    let mut text = "gate\nallow\ncell\nallow\n#".to_string();
    text += &" ".repeat((1 << 20) - text.len());
    assert!(survives(text.as_bytes()));
    text.push(' ');
    assert!(!survives(text.as_bytes()));
}

#[test]
fn counts_outside_their_limits_name_the_first_line_beyond() {
    // Gate lines, own lines, the refusal and the line that it names.
    let cases = [
        (64, 256, None),
        (65, 256, Some((2, vec![66]))),
        (64, 257, Some((2, vec![323]))),
        (0, 1, Some((2, vec![1]))),
        (1, 0, Some((2, vec![3]))),
        // More than the two bytes of a count can say.
        (65_537, 1, Some((2, vec![66]))),
        (1, 65_600, Some((2, vec![260]))),
    ];
    for (gate, own, wanted) in cases {
        let text = format!("gate\n{}cell\n{}", "deny\n".repeat(gate), "allow\n".repeat(own));
        let policy = text::read(text.as_bytes()).expect("the text is right");
        let refusal = Plan::of(&policy.order).err();
        let found = refusal.map(|refusal| (refusal.0, named(&refused(&policy, refusal))));
        assert_eq!(found, wanted, "{gate} gate rules, {own} own rules");
    }
}

#[test]
fn a_list_that_does_not_end_in_a_full_rule_names_its_last_line() {
    for (text, line) in [
        ("gate\nallow\ndeny to 1\n\ncell\nallow\n", 3),
        ("gate\nallow\ncell\nallow\n# remark\n@x deny dport 1,2\n\n", 6),
        ("cell\nallow proto tcp\ngate\ndeny\n", 2),
    ] {
        let policy = text::read(text.as_bytes()).expect("the text is right");
        let refusal = Plan::of(&policy.order).expect_err("the list is not complete");
        assert_eq!((refusal.0, named(&refused(&policy, refusal))), (5, vec![line]));
    }
}

/// Gates that cut their denies into many boxes, as text.
#[test]
fn too_many_pieces_or_boxes_name_lines_that_the_text_has() {
    let mut draw = Draw::new(15);
    let mut seen = [0; 2];
    for _ in 0..60 {
        let allows = draw.pick(&[15, 16, 17, 18, 24]);
        let gate = draw.cutting_gate(allows);
        let rules: Vec<String> = gate.iter().map(text::rule).collect();
        let text = format!("\ncell\nallow\n# remark\ngate\n{}\n", rules.join("\n\n"));
        let policy = text::read(text.as_bytes()).expect("printed rules are read");
        moved(&policy);
        match Plan::of(&policy.order) {
            Err(TOO_MANY_PIECES) => {
                let (deny, allow) =
                    cost::too_many_pieces(&gate).expect("a deny is beyond the limit");
                let line = |place: usize| policy.line_of(Which::Gate, place).line;
                let named = named(&refused(&policy, TOO_MANY_PIECES));
                assert_eq!(named, [line(deny), line(allow)]);
                seen[0] += 1;
            }
            Err(TOO_MANY_BOXES) => {
                let dearest = named(&refused(&policy, TOO_MANY_BOXES));
                assert!((1..=5).contains(&dearest.len()));
                assert!(dearest.iter().all(|line| text
                    .lines()
                    .nth(line - 1)
                    .unwrap_or("")
                    .starts_with("deny")));
                seen[1] += 1;
            }
            _ => {}
        }
    }
    assert!(seen.iter().all(|&count| count > 3), "refused with 6, with 7: {seen:?}");
}
