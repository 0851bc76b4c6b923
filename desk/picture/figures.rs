//! Numbers and text as the page shows them.

pub use crate::numbers::{counted, number};

/// Text from a file as HTML shows it. Control characters have no place in HTML, whatever the file has.
pub fn escape(text: &str) -> String {
    let mut escaped = String::with_capacity(text.len());
    for character in text.chars() {
        match character {
            '&' => escaped.push_str("&amp;"),
            '<' => escaped.push_str("&lt;"),
            '>' => escaped.push_str("&gt;"),
            '"' => escaped.push_str("&quot;"),
            '\'' => escaped.push_str("&#39;"),
            '\t' | '\n' | '\r' => escaped.push(' '),
            other if other.is_control() => escaped.push('\u{fffd}'),
            other => escaped.push(other),
        }
    }
    escaped
}

/// A quotient in few digits: whole from 100 on, with `places` decimals below, with two below 1.
pub fn decimal(value: f64, places: usize) -> String {
    if value >= 99.95 {
        return number(value.round() as u128);
    }
    if value > 0.0 && value < 0.005 {
        return "below 0.01".to_string();
    }
    let places = if value < 1.0 { 2 } else { places };
    let fixed = format!("{value:.places$}");
    match fixed.split_once('.') {
        Some((whole, rest)) if rest.chars().all(|digit| digit == '0') => whole.to_string(),
        _ => fixed,
    }
}

/// None where there is nothing to divide by.
pub fn quotient(part: u128, whole: u128) -> Option<f64> {
    (whole > 0).then(|| part as f64 / whole as f64)
}

/// `part` for each of `whole`; a dash where there is none.
pub fn each(part: u128, whole: u128) -> String {
    quotient(part, whole).map_or("–".to_string(), |value| decimal(value, 1))
}

pub fn percent(part: u128, whole: u128) -> String {
    match quotient(part, whole) {
        None => "–".to_string(),
        Some(_) if part == 0 => "0%".to_string(),
        Some(value) if value < 0.0005 => "under 0.1%".to_string(),
        Some(value) if value >= 0.9995 && part < whole => "over 99.9%".to_string(),
        Some(value) => format!("{:.1}%", value * 100.0),
    }
}
