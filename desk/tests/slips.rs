//! Words that are nearly right: the fault asks whether the right one is meant, and is silent about words
//! that are far from all.

use crate::text;

/// The fault of the last line.
fn fault(line: &str) -> String {
    let text = format!("name plc1 10.0.0.1\nservice scan tcp 502\ngate\nallow\n{line}\n");
    let faults = text::read(text.as_bytes()).expect_err(line);
    faults.last().map_or(String::new(), |fault| fault.message.clone())
}

#[test]
fn a_slip_is_answered_with_the_word_that_is_meant() {
    for (line, meant) in [
        ("alow", "allow"),
        ("Allow", "allow"),
        ("dney", "deny"),
        ("gates", "gate"),
        ("cel", "cell"),
        ("nmae plc2 10.0.0.2", "name"),
        ("servcie http2 tcp 80", "service"),
        ("deny form any", "from"),
        ("deny desination any", "destination"),
        ("deny srouce-port 80", "source-port"),
        ("deny portocol tcp", "protocol"),
        ("deny protocoll tcp", "protocol"),
        ("deny proto tpc", "tcp"),
        ("deny proto upd", "udp"),
        ("deny proto icpm", "icmp"),
        ("deny dport https:", "https"),
        ("deny dport modbsu", "modbus"),
        ("deny from plc2", "plc1"),
        ("deny service sacn", "scan"),
        ("deny dport 80,sacn proto tcp", "scan"),
    ] {
        let fault = fault(line);
        assert!(fault.contains(&format!("; is it {meant}?")), "{line}: {fault}");
    }
}

#[test]
fn a_word_that_is_far_from_all_is_answered_with_none() {
    for line in [
        "reject",
        "x",
        "1 deny",
        "deny where any",
        "deny from elsewhere",
        "deny dport nothing",
        "deny proto everything",
        "deny service unheard-of",
        "漢字漢字",
    ] {
        let fault = fault(line);
        assert!(!fault.contains("is it "), "{line}: {fault}");
    }
}

#[test]
fn the_nearest_word_is_the_one_with_fewest_changes() {
    let known = ["tcp", "udp", "destination", "source"];
    assert_eq!(text::nearest("tcpp", known), "; is it tcp?");
    assert_eq!(text::nearest("TCP", known), "; is it tcp?");
    assert_eq!(text::nearest("destinatoin", known), "; is it destination?");
    assert_eq!(text::nearest("dstnaton", known), "");
    assert_eq!(text::nearest("", known), "");
    assert_eq!(text::nearest("tcp", []), "");
    // One change each: the words decide, so that the answer is always the same.
    assert_eq!(text::nearest("ab", ["bb", "aa"]), "; is it aa?");
}
