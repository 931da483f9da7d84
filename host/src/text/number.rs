use crate::LaneType;
use std::fmt;

/// Why a word is no number.
#[derive(Clone, Debug, PartialEq, Eq)]
pub enum NumberError {
    /// It is no number of 64 bits.
    Number(String),
    /// It is no number of 64 bits, and no expression of the variables that are there.
    Expression {
        /// The word.
        word: String,
        /// The variables of the repeat blocks around it.
        variables: Vec<String>,
    },
    /// An expression's value is no number of 64 bits.
    Value {
        /// The expression.
        expression: String,
        /// The value; `None` where it has more than 128 bits.
        value: Option<i128>,
    },
    /// It is no lane of this type.
    Lane {
        /// The word.
        word: String,
        /// The type.
        lane_type: LaneType,
    },
    /// It is a number, and none of this type.
    Range {
        /// The word.
        word: String,
        /// The type.
        lane_type: LaneType,
    },
    /// It is a pattern of more bits than a lane of this type has, or of none.
    Pattern {
        /// The word.
        word: String,
        /// The type.
        lane_type: LaneType,
    },
}

/// A number in decimal, or in hex after `0x`, or in binary after `0b`; `_` may stand between digits.
///
/// ```
/// use amx::text::parse_number;
/// assert_eq!(parse_number("0x8000_0000"), Ok(1 << 31));
/// assert_eq!(parse_number("-1").unwrap_err().to_string(), "expected a number of 64 bits (12, 0x1f or 0b101), not \"-1\"");
/// assert!(parse_number("_1").is_err() && parse_number("0x1_").is_err());
/// ```
pub fn parse_number(word: &str) -> Result<u64, NumberError> {
    let (digits, radix) = match word.as_bytes() {
        [b'0', b'x', ..] => (&word[2..], 16),
        [b'0', b'b', ..] => (&word[2..], 2),
        _ => (word, 10),
    };
    let number = plain(digits, radix).and_then(|digits| u64::from_str_radix(&digits, radix).ok());
    number.ok_or_else(|| NumberError::Number(word.to_owned()))
}

/// Digits without the `_` between them; none where there is anything else.
pub(crate) fn plain(digits: &str, radix: u32) -> Option<String> {
    let is_digits = digits.chars().all(|letter| letter.is_digit(radix) || letter == '_');
    let is_whole = !digits.is_empty() && !digits.starts_with('_') && !digits.ends_with('_');
    (is_digits && is_whole).then(|| digits.replace('_', ""))
}

impl fmt::Display for NumberError {
    fn fmt(&self, f: &mut fmt::Formatter) -> fmt::Result {
        match self {
            NumberError::Number(word) => write!(f, "expected a number of 64 bits (12, 0x1f or 0b101), not {word:?}"),
            NumberError::Expression { word, variables } => {
                let variables = variables.join(" and ");
                write!(f, "expected a number of 64 bits (12, 0x1f or 0b101), or an expression of {variables} by +, - and *, not {word:?}")
            }
            NumberError::Value { expression, value: Some(value @ ..0) } => write!(f, "{expression} is {value}, and must not be below 0"),
            NumberError::Value { expression, .. } => write!(f, "{expression} is beyond 64 bits"),
            NumberError::Lane { word, lane_type } => match lane_type.range() {
                Some(range) => {
                    write!(f, "expected {} ({} to {}, or its pattern, 0x..), not {word:?}", Article(*lane_type), range.start(), range.end())
                }
                None => {
                    write!(f, "expected {} (1.5, -0, 2e-3, inf, -inf, nan, or its pattern, 0x..), not {word:?}", Article(*lane_type))
                }
            },
            NumberError::Range { word, lane_type } => match lane_type.range() {
                Some(range) => write!(f, "{word} is not {} ({} to {})", Article(*lane_type), range.start(), range.end()),
                None => write!(f, "{word} is beyond the largest {lane_type}"),
            },
            NumberError::Pattern { word, lane_type } => write!(f, "{word} is no pattern of {} bits", lane_type.bits()),
        }
    }
}

impl std::error::Error for NumberError {}

/// `an i8`, `a u8`.
struct Article(LaneType);

impl fmt::Display for Article {
    fn fmt(&self, f: &mut fmt::Formatter) -> fmt::Result {
        let article = if self.0.name().starts_with('u') { "a" } else { "an" };
        write!(f, "{article} {}", self.0)
    }
}
