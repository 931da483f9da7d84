//! Numbers that depend on the variables of repeat blocks.
use super::number::{NumberError, parse_number};

/// A number, or an expression of variables. These go by their places: 0 is the outermost block's.
#[derive(Clone, Debug)]
pub(super) enum Expression {
    Number(u64),
    Sum { word: String, terms: Vec<Term> },
}

#[derive(Clone, Debug)]
pub(super) struct Term {
    negative: bool,
    factors: Vec<Factor>,
}

#[derive(Clone, Copy, Debug)]
enum Factor {
    Number(u64),
    Variable(usize),
}

impl Expression {
    /// Reads a number, or where there are variables an expression of them: numbers and variables with `+`, `-` and `*`.
    pub fn parse(word: &str, variables: &[String]) -> Result<Self, NumberError> {
        match parse_number(word) {
            Ok(number) => Ok(Expression::Number(number)),
            Err(error) if variables.is_empty() => Err(error),
            Err(_) => match terms(word, variables) {
                Some(terms) => Ok(Expression::Sum { word: word.to_owned(), terms }),
                None => Err(NumberError::Expression { word: word.to_owned(), variables: variables.to_vec() }),
            },
        }
    }

    /// Whether it is the same for all variables.
    pub fn is_number(&self) -> bool {
        matches!(self, Expression::Number(_))
    }

    /// The value, a number of 64 bits.
    pub fn number(&self, values: &[u64]) -> Result<u64, NumberError> {
        match self {
            Expression::Number(number) => Ok(*number),
            Expression::Sum { word, .. } => {
                let value = self.value(values)?;
                value.try_into().map_err(|_| NumberError::Value { expression: word.clone(), value: Some(value) })
            }
        }
    }

    /// The value, which may be negative.
    pub fn value(&self, values: &[u64]) -> Result<i128, NumberError> {
        match self {
            Expression::Number(number) => Ok((*number).into()),
            Expression::Sum { word, terms } => {
                sum(terms, values).ok_or_else(|| NumberError::Value { expression: word.clone(), value: None })
            }
        }
    }
}

fn sum(terms: &[Term], values: &[u64]) -> Option<i128> {
    terms.iter().try_fold(0i128, |sum, term| {
        let product = term.factors.iter().try_fold(1i128, |product, factor| {
            product.checked_mul(match *factor {
                Factor::Number(number) => number.into(),
                Factor::Variable(place) => values[place].into(),
            })
        })?;
        if term.negative { sum.checked_sub(product) } else { sum.checked_add(product) }
    })
}

/// The terms of a word, the first of which may have a `-`.
fn terms(word: &str, variables: &[String]) -> Option<Vec<Term>> {
    let (mut negative, mut rest) = word.strip_prefix('-').map_or((false, word), |rest| (true, rest));
    let mut terms = Vec::new();
    loop {
        let end = rest.find(['+', '-']).unwrap_or(rest.len());
        let factors = rest[..end].split('*').map(|word| factor(word, variables)).collect::<Option<_>>()?;
        terms.push(Term { negative, factors });
        if end == rest.len() {
            return Some(terms);
        }
        negative = rest[end..].starts_with('-');
        rest = &rest[end + 1..];
    }
}

fn factor(word: &str, variables: &[String]) -> Option<Factor> {
    match variables.iter().position(|name| name == word) {
        Some(place) => Some(Factor::Variable(place)),
        None => parse_number(word).ok().map(Factor::Number),
    }
}

#[cfg(test)]
mod tests {
    use super::*;

    fn value(word: &str) -> Result<i128, String> {
        let variables = ["r".to_owned(), "row_2".to_owned()];
        let expression = Expression::parse(word, &variables).map_err(|error| error.to_string())?;
        expression.value(&[5, u64::MAX]).map_err(|error| error.to_string())
    }

    #[test]
    fn products_come_before_sums() {
        for (word, expected) in [
            ("7", 7),
            ("r", 5),
            ("-r", -5),
            ("2*r+1", 11),
            ("1+2*r", 11),
            ("64*r-0x40", 256),
            ("r*r*r-r-r", 115),
            ("1-2-3", -4),
            ("row_2+1", 1 << 64),
            ("0b11*1_000", 3_000),
        ] {
            assert_eq!(value(word), Ok(expected), "{word}");
        }
    }

    #[test]
    fn what_is_no_expression_is_told_the_variables() {
        for word in ["", "q", "r+", "+r", "r**2", "2r", "(r)", "r/2", "--r", "r +1", "r-"] {
            let expected = format!("or an expression of r and row_2 by +, - and *, not {word:?}");
            assert!(value(word).is_err_and(|error| error.ends_with(&expected)), "{word}");
        }
        assert_eq!(value("row_2*row_2*2"), Err("row_2*row_2*2 is beyond 64 bits".to_owned()));
        let number = |word: &str, r| Expression::parse(word, &["r".to_owned()]).unwrap().number(&[r]).map_err(|error| error.to_string());
        assert_eq!(number("r-6", 5), Err("r-6 is -1, and must not be below 0".to_owned()));
        assert_eq!((number("r+1", u64::MAX), number("r-6+1", 5)), (Err("r+1 is beyond 64 bits".to_owned()), Ok(0)));
        assert_eq!(Expression::parse("2*3", &[]).unwrap_err(), NumberError::Number("2*3".to_owned()));
    }
}
