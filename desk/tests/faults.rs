//! Lines that are no rules: each is a fault, at the character where it begins.

use crate::text;

/// Behind three lines that declare a name and a service and begin the gate.
fn read(line: &str) -> Result<usize, (usize, usize)> {
    let text = format!("name plc 10.0.0.1\nservice web tcp 80,8080\ngate\n{line}\n");
    match text::read(text.as_bytes()) {
        Ok(policy) => Ok(policy.order.gate.len()),
        Err(faults) => Err((faults[0].line, faults[0].column)),
    }
}

/// Lines, and the columns of their faults.
const FAULTS: &[(&str, usize)] = &[
    ("  rule", 3),
    ("deny from", 6),
    ("deny from any from any", 15),
    ("deny\tsource 1 from 2", 15),
    ("deny dport 1 service web", 14),
    ("deny service web proto tcp", 18),
    ("deny from 10.0.0.256", 18),
    ("deny from 10.0.0", 11),
    ("deny from 10.0.0.1.1", 11),
    ("deny from 10.0.0.01", 18),
    ("deny from 10.0.0.1/24", 11),
    ("deny from 10.0.0.0/33", 20),
    ("deny from 4294967296", 11),
    ("deny from 2-1", 11),
    ("deny from 1-2-3", 13),
    ("deny from 1-10.0.0.1", 11),
    ("deny from plc,,plc", 15),
    ("deny from plc,10.0.0.1", 15),
    ("deny from web", 11),
    ("deny dport 80,443,80", 19),
    ("deny dport 65536", 12),
    ("deny dport 1-65536", 14),
    ("deny dport plc", 12),
    ("deny dport web", 12),
    ("deny from any dport web", 21),
    ("deny dport web proto tcp,udp", 12),
    ("deny proto 256", 12),
    ("deny proto tcp,6", 16),
    ("deny service http", 14),
    ("deny @a @b", 9),
    ("deny @ä", 6),
    ("@a", 1),
    ("gate", 1),
    ("cell any", 6),
    ("name plc 10.0.0.2", 6),
    ("name web 10.0.0.2", 6),
    ("name tcp 10.0.0.2", 6),
    ("name 9a 10.0.0.2", 6),
    ("name two 10.0.0.2,10.0.0.3", 10),
    ("  @a name two 10.0.0.2", 3),
    ("name a 10.0.0.2 b", 17),
    ("service http tcp 80", 9),
    ("service s 6-7 80", 11),
    ("service s udp 5,web", 15),
    // Columns are of characters, not of bytes.
    ("name ä 10.0.0.1 x", 17),
    ("deny # ä\n  ä", 3),
];

#[test]
fn a_fault_is_named_at_its_column() {
    for &(line, column) in FAULTS {
        let wanted = (4 + line.matches('\n').count(), column);
        assert_eq!(read(line), Err(wanted), "{line}");
    }
}

/// At its own column, in a remark too: a line is what it looks like.
#[test]
fn a_character_that_hides_text_is_a_fault() {
    for character in ['\r', '\u{0}', '\u{1b}', '\u{7f}', '\u{85}', '\u{202e}', '\u{2066}'] {
        assert_eq!(read(&format!("ä{character}x")), Err((4, 2)));
        assert_eq!(read(&format!("deny # ä{character} x")), Err((4, 9)));
    }
    assert_eq!(read("deny\tfrom\tany\t# ä 漢 👩‍👩‍👧\r\nallow\r"), Ok(2));
}

#[test]
fn a_line_stands_for_at_most_256_rules() {
    let list =
        |count: usize| (1..=count).map(|port| port.to_string()).collect::<Vec<_>>().join(",");
    assert_eq!(read(&format!("deny dport {}", list(256))), Ok(256));
    assert_eq!(read(&format!("deny dport {}", list(257))), Err((4, 12)));
    assert_eq!(read(&format!("deny sport {} dport {}", list(16), list(16))), Ok(256));
    assert_eq!(read(&format!(" deny sport {} dport {}", list(16), list(17))), Err((4, 2)));
    assert_eq!(read(&format!("deny from {} service web", list(129))), Err((4, 1)));
}

#[test]
fn every_line_at_fault_is_named() {
    let text = "deny\ngate\nalow\nallow\n@x deny\n@x deny\ncell\ngate\nallow to\n";
    let faults = text::read(text.as_bytes()).expect_err("lines are at fault");
    let named: Vec<(usize, usize)> = faults.iter().map(|one| (one.line, one.column)).collect();
    assert_eq!(named, [(1, 1), (3, 1), (6, 1), (8, 1), (9, 7)]);
}

#[test]
fn bytes_that_are_no_text_are_named_where_they_begin() {
    for (bytes, wanted) in [
        (&b"gate\nd\xc3\xa4\xff"[..], (2, 3)),
        (b"\xff", (1, 1)),
        (b"gate\n\xe4", (2, 1)),
        (b"\xef\xbb\xbfgate\n", (1, 1)),
    ] {
        let faults = text::read(bytes).expect_err("the bytes are no text");
        assert_eq!((faults[0].line, faults[0].column), wanted);
    }
}
