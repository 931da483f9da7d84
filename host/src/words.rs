//! Numbers as people read them.

/// A number with a comma between thousands.
///
/// ```
/// use amx::words::grouped;
/// assert_eq!((grouped(5_200), grouped(999), grouped(1_000_000)), ("5,200".to_owned(), "999".to_owned(), "1,000,000".to_owned()));
/// ```
pub fn grouped(number: u64) -> String {
    let digits = number.to_string();
    let mut text = String::new();
    for (place, digit) in digits.chars().enumerate() {
        if place > 0 && (digits.len() - place).is_multiple_of(3) {
            text.push(',');
        }
        text.push(digit);
    }
    text
}

/// So many things: the noun is in the plural but for one.
///
/// ```
/// use amx::words::counted;
/// assert_eq!((counted(1, "step"), counted(2_048, "step")), ("1 step".to_owned(), "2,048 steps".to_owned()));
/// ```
pub fn counted(number: u64, noun: &str) -> String {
    format!("{} {noun}{}", grouped(number), if number == 1 { "" } else { "s" })
}
