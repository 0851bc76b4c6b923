//! Numbers as people read them.

/// A whole number with a comma between thousands.
pub fn number(value: impl ToString) -> String {
    let digits = value.to_string();
    let mut grouped = String::with_capacity(digits.len() * 4 / 3 + 1);
    for (index, digit) in digits.chars().enumerate() {
        if index > 0 && (digits.len() - index) % 3 == 0 {
            grouped.push(',');
        }
        grouped.push(digit);
    }
    grouped
}

/// A count with its noun: `1 box`, `12 boxes`.
pub fn counted(count: impl ToString, one: &str, many: &str) -> String {
    let count = number(count);
    format!("{count} {}", if count == "1" { one } else { many })
}
