//! How far a long trace is, shown on a terminal by the command `amx`.
use std::io::Write;

/// A line for so many items.
const EVERY: usize = 2_048;

/// Hands on items, and tells a terminal how many have come, in one line that is written over and erased at the end.
pub struct Progress<I, W: Write> {
    items: I,
    count: usize,
    /// What follows the count.
    of: String,
    output: Option<W>,
    /// The length of the line that stands there.
    shown: usize,
}

impl<I, W: Write> Progress<I, W> {
    /// Says nothing where the output is no terminal.
    pub fn new(items: I, of: String, output: W, is_terminal: bool) -> Self {
        Progress { items, count: 0, of, output: is_terminal.then_some(output), shown: 0 }
    }

    /// A terminal that takes no more stops nothing.
    fn show(&mut self) {
        if let Some(output) = &mut self.output {
            let line = format!("{}{}", self.count, self.of);
            let _ = write!(output, "\r{line}").and_then(|()| output.flush());
            self.shown = line.len();
        }
    }
}

impl<I: Iterator, W: Write> Iterator for Progress<I, W> {
    type Item = I::Item;

    fn next(&mut self) -> Option<I::Item> {
        let item = self.items.next()?;
        self.count += 1;
        if self.count.is_multiple_of(EVERY) {
            self.show();
        }
        Some(item)
    }
}

impl<I, W: Write> Drop for Progress<I, W> {
    fn drop(&mut self) {
        if let Some(output) = self.output.as_mut().filter(|_| self.shown > 0) {
            let _ = write!(output, "\r{:1$}\r", "", self.shown).and_then(|()| output.flush());
        }
    }
}

#[cfg(test)]
mod tests {
    use super::*;

    fn said(items: usize, is_terminal: bool) -> String {
        let mut said = Vec::new();
        let last = Progress::new(0..items, format!(" of {items} steps"), &mut said, is_terminal).last();
        assert_eq!(last, items.checked_sub(1));
        String::from_utf8(said).unwrap()
    }

    #[test]
    fn a_terminal_is_told_how_far_it_is_in_one_line_that_is_erased() {
        assert_eq!(said(4_100, true), format!("\r2048 of 4100 steps\r4096 of 4100 steps\r{}\r", " ".repeat(18)));
        assert_eq!(said(1_000_000, true).matches(" of 1000000 steps").count(), 488);
        assert_eq!((said(0, true), said(2_047, true)), (String::new(), String::new()));
    }

    #[test]
    fn what_is_no_terminal_is_told_nothing() {
        assert_eq!(said(1_000_000, false), "");
    }

    #[test]
    fn the_line_is_erased_where_the_items_are_left() {
        let mut said = Vec::new();
        let mut progress = Progress::new(0.., " steps".to_owned(), &mut said, true);
        assert_eq!(progress.nth(2_047), Some(2_047));
        drop(progress);
        assert_eq!(said, b"\r2048 steps\r          \r");
    }
}
