//! Numbers and texts as people read them.

/// A whole number with its thousands apart.
pub(crate) fn grouped(number: u64) -> String {
    let digits = number.to_string();
    let mut shown = String::new();
    for (place, digit) in digits.chars().enumerate() {
        let left = digits.len().saturating_sub(place);
        if place > 0 && left % 3 == 0 {
            shown.push(',');
        }
        shown.push(digit);
    }
    shown
}

/// A float as the shortest decimal that it is read from, with an exponent where that is much shorter.
pub(crate) fn float(number: f64) -> String {
    match number.abs() {
        size if size == 0.0 || (1e-5..1e16).contains(&size) => number.to_string(),
        _ if number.is_finite() => format!("{number:e}"),
        _ => number.to_string(),
    }
}

/// Three floats.
pub(crate) fn floats(numbers: [f64; 3]) -> String {
    numbers.map(float).join(" ")
}

/// Whether a character steers a terminal: it controls it, or turns the direction of what follows.
fn steers(c: char) -> bool {
    c.is_control()
        || matches!(c, '\u{200e}' | '\u{200f}' | '\u{202a}'..='\u{202e}' | '\u{2066}'..='\u{2069}')
}

/// Somebody else's text as it is shown: what would steer a terminal is shown as a replacement character.
pub(crate) fn plain(text: &str) -> String {
    let shown = |c: char| match steers(c) {
        true => char::REPLACEMENT_CHARACTER,
        false => c,
    };
    text.chars().map(shown).collect()
}

/// The same, or that there is none.
pub(crate) fn plain_or_none(text: &str) -> String {
    match text {
        "" => String::from("(none)"),
        text => plain(text),
    }
}

/// A count and what is counted: `1 VLR`, `2 VLRs`.
pub(crate) fn counted(number: u64, what: &str) -> String {
    match number {
        1 => format!("1 {what}"),
        _ => format!("{} {what}s", grouped(number)),
    }
}

#[cfg(test)]
mod tests {
    use super::*;

    #[test]
    fn numbers_and_texts() {
        let shown = [0, 12, 123, 1_234, 123_456, 1_234_567].map(grouped);
        assert_eq!(shown, ["0", "12", "123", "1,234", "123,456", "1,234,567"]);
        assert_eq!(plain("a\x1b[2J\nb\u{9b}"), "a\u{fffd}[2J\u{fffd}b\u{fffd}");
        assert_eq!(plain("\u{202e}sal.a"), "\u{fffd}sal.a");
        assert_eq!(
            (plain_or_none(""), plain_or_none("x")),
            ("(none)".into(), "x".into())
        );
        assert_eq!(grouped(u64::MAX), "18,446,744,073,709,551,615");
        assert_eq!(
            (counted(1, "VLR"), counted(0, "VLR")),
            ("1 VLR".into(), "0 VLRs".into())
        );
    }

    #[test]
    fn floats_of_every_size() {
        let shown = [0.0, -0.0, 0.001, 5e5, -1.5, 1e300, 5e-324, f64::NAN].map(float);
        assert_eq!(
            shown,
            ["0", "-0", "0.001", "500000", "-1.5", "1e300", "5e-324", "NaN"]
        );
        assert_eq!(float(f64::NEG_INFINITY), "-inf");
    }
}
