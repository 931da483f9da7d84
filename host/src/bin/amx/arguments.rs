//! The words behind a command: what stands by place, and options.
use crate::failure::Failure;
use amx::{LaneType, text::parse_number, words::counted};

/// The options that a command has: those that stand alone, and those that a value follows.
pub struct Options {
    pub usage: &'static str,
    pub alone: &'static [&'static str],
    pub valued: &'static [&'static str],
}

/// The words of one command.
#[derive(Debug)]
pub struct Arguments {
    usage: &'static str,
    places: Vec<String>,
    given: Vec<(&'static str, String)>,
}

impl Arguments {
    /// Options may stand anywhere; behind `--` none does. `-` is no option.
    pub fn parse(words: &[String], options: &Options) -> Result<Self, Failure> {
        let mut arguments = Arguments { usage: options.usage, places: Vec::new(), given: Vec::new() };
        let mut words = words.iter();
        while let Some(word) = words.next() {
            if word == "--" {
                arguments.places.extend(words.by_ref().cloned());
            } else if word == "-" || !word.starts_with('-') {
                arguments.places.push(word.clone());
            } else {
                let (name, value) = word.split_once('=').map_or((word.as_str(), None), |(name, value)| (name, Some(value.to_owned())));
                let option = arguments.option(options, name, value.is_some())?;
                let value = match value {
                    None if options.valued.contains(&option) => words.next().cloned(),
                    value => Some(value.unwrap_or_default()),
                };
                let value = value.ok_or_else(|| arguments.wrong(&format!("{option} needs a value")))?;
                if arguments.is_given(option) {
                    return Err(arguments.wrong(&format!("{option} is given twice")));
                }
                arguments.given.push((option, value));
            }
        }
        Ok(arguments)
    }

    /// The option of a name; one that stands alone takes no value.
    fn option(&self, options: &Options, name: &str, has_value: bool) -> Result<&'static str, Failure> {
        let alone = options.alone.iter().filter(|_| !has_value);
        let option = alone.chain(options.valued).find(|&&option| option == name);
        option.copied().ok_or_else(|| self.wrong(&format!("there is no option {name}{}", if has_value { "=" } else { "" })))
    }

    /// The words by place, which are as many as there are names.
    pub fn places<const N: usize>(&self) -> Result<[&str; N], Failure> {
        let places: Vec<&str> = self.places.iter().map(String::as_str).collect();
        places.try_into().map_err(|places: Vec<&str>| self.wrong(&format!("{} given", counted(places.len() as u64, "word"))))
    }

    /// All words by place, which are none or more.
    pub fn all(&self) -> Vec<&str> {
        self.places.iter().map(String::as_str).collect()
    }

    pub fn is_given(&self, option: &str) -> bool {
        self.value(option).is_some()
    }

    pub fn value(&self, option: &str) -> Option<&str> {
        self.given.iter().find(|(name, _)| *name == option).map(|(_, value)| value.as_str())
    }

    /// The value of an option that a command cannot do without.
    pub fn needed(&self, option: &str) -> Result<&str, Failure> {
        self.value(option).ok_or_else(|| self.missing(option))
    }

    pub fn missing(&self, option: &str) -> Failure {
        self.wrong(&format!("{option} is missing"))
    }

    /// The number behind an option, where it is given.
    pub fn number(&self, option: &str) -> Result<Option<u64>, Failure> {
        let number = self.value(option).map(|word| parse_number(word).map_err(|error| self.wrong(&format!("{option}: {error}"))));
        number.transpose()
    }

    /// A word by place that is a number below another.
    pub fn below(&self, name: &str, word: &str, end: usize) -> Result<usize, Failure> {
        let number = parse_number(word).ok().and_then(|number| usize::try_from(number).ok()).filter(|&number| number < end);
        number.ok_or_else(|| self.wrong(&format!("{name} is 0 to {}, not {word:?}", end - 1)))
    }

    /// How lanes are read: the value of `--as`, where it is given.
    pub fn lane_type(&self) -> Result<Option<LaneType>, Failure> {
        let lane_type = self.value("--as").map(|word| word.parse().map_err(|error| self.wrong(&format!("--as: {error}"))));
        lane_type.transpose()
    }

    /// An error of use: what was expected, and what is wrong.
    pub fn wrong(&self, what: &str) -> Failure {
        Failure::Usage(format!("expected {}: {what}", self.usage))
    }
}

#[cfg(test)]
mod tests {
    use super::*;

    const OPTIONS: Options = Options { usage: "do FILE", alone: &["--strict"], valued: &["-o", "--as"] };

    fn parse(words: &[&str]) -> Result<Arguments, String> {
        let words: Vec<String> = words.iter().map(|&word| word.to_owned()).collect();
        Arguments::parse(&words, &OPTIONS).map_err(|failure| failure.to_string())
    }

    #[test]
    fn options_stand_anywhere_and_values_follow_them() {
        for words in [&["a", "--strict", "-o", "b", "--as=i8"][..], &["--as", "i8", "-o", "b", "--strict", "a"]] {
            let arguments = parse(words).unwrap();
            assert_eq!(arguments.places().unwrap(), ["a"]);
            assert_eq!((arguments.value("-o"), arguments.value("--as"), arguments.is_given("--strict")), (Some("b"), Some("i8"), true));
        }
        let arguments = parse(&["-", "--", "--strict", "-o"]).unwrap();
        assert_eq!((arguments.all(), arguments.is_given("--strict")), (vec!["-", "--strict", "-o"], false));
    }

    #[test]
    fn what_is_wrong_is_told_with_what_was_expected() {
        for (words, message) in [
            (&["--loud"][..], "there is no option --loud"),
            (&["--strict=1"], "there is no option --strict="),
            (&["-o"], "-o needs a value"),
            (&["--as", "i8", "--as=i16"], "--as is given twice"),
        ] {
            assert_eq!(parse(words).unwrap_err(), format!("expected do FILE: {message}"));
        }
        let arguments = parse(&["a", "b"]).unwrap();
        assert_eq!(arguments.places::<1>().unwrap_err().to_string(), "expected do FILE: 2 words given");
        assert_eq!(arguments.needed("-o").unwrap_err().to_string(), "expected do FILE: -o is missing");
    }
}
