//! How often each answer came.
use amx::Answer;
use std::collections::BTreeMap;

#[derive(Default)]
pub struct Tally(BTreeMap<String, u64>);

impl Tally {
    /// Meets the answer of this number.
    pub fn count(&mut self, number: u64) {
        self.meet(match Answer::from_number(number) {
            Some(Answer::Done { bytes: 0 }) => "done 0".to_owned(),
            Some(Answer::Done { .. }) => "done".to_owned(),
            Some(other) => other.to_string(),
            None => "no answer".to_owned(),
        });
    }

    pub fn meet(&mut self, name: String) {
        *self.0.entry(name).or_default() += 1;
    }

    /// Adds what another has met.
    pub fn join(&mut self, other: Tally) {
        other.0.into_iter().for_each(|(name, count)| *self.0.entry(name).or_default() += count);
    }

    /// An error where one of these never came: what does not meet it compares nothing of it.
    pub fn needs(&self, names: &[&str], what: &str) -> Result<(), String> {
        match names.iter().find(|&&name| !self.0.contains_key(name)) {
            Some(name) => Err(format!("of the {what} none met {name}, so that it was not compared")),
            None => Ok(()),
        }
    }

    /// How many different ones came.
    pub fn names(&self) -> usize {
        self.0.len()
    }

    pub fn text(&self) -> String {
        self.0.iter().map(|(name, count)| format!("{name}: {count}")).collect::<Vec<_>>().join(", ")
    }
}

#[cfg(test)]
mod tests {
    use super::*;

    #[test]
    fn an_answer_that_was_never_met_is_told() {
        let mut tally = Tally::default();
        [131_073, 131_074, 0].into_iter().for_each(|number| tally.count(number));
        assert_eq!(tally.needs(&["refused 1", "refused 2", "done 0"], "steps"), Ok(()));
        assert!(tally.needs(&["done 0", "refused 8"], "steps").unwrap_err().contains("of the steps none met refused 8"));
        assert_eq!(tally.text(), "done 0: 1, refused 1: 1, refused 2: 1");
    }
}
