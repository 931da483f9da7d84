//! Calls as words, there and back.
use super::{expression::Expression, number::NumberError};
use crate::{
    Call, Field, FieldError, Generation, Instruction, fields,
    operand::{find, place},
};
use std::{borrow::Cow, fmt, str::FromStr};

/// Why words are no step.
#[derive(Clone, Debug, PartialEq, Eq)]
pub enum StepError {
    /// There is no word.
    Empty,
    /// The first word is neither an instruction nor `raw`.
    Instruction(String),
    /// The word after an instruction is no generation.
    Generation {
        /// The instruction.
        instruction: Instruction,
        /// The word, where there is one.
        word: Option<String>,
    },
    /// After `raw` come so many words, and not three.
    Raw(usize),
    /// A number after `raw` is none.
    Number(NumberError),
    /// No name stands before the `=` of this word.
    NoName(String),
    /// The value of a field is no number.
    Value {
        /// The field.
        name: String,
        /// Why it is none.
        error: NumberError,
    },
    /// A field of several bits stands without a value.
    NoValue(&'static Field),
    /// `bits` stands without a value.
    NoBits,
    /// A field is given twice.
    Twice(String),
    /// `bits` has a bit of a field.
    Named {
        /// The value.
        bits: u64,
        /// The field.
        field: &'static Field,
    },
    /// The operand does not have the field, or the value does not fit it.
    Field(FieldError),
}

/// The name of bits that have no other.
const BITS: &str = "bits";

/// The words of a step. Values may depend on the variables of repeat blocks.
#[derive(Clone, Debug)]
pub(super) enum Step<'a> {
    Raw([Expression; 3]),
    Fields { instruction: Instruction, generation: Generation, settings: Vec<Setting<'a>> },
}

/// `name=value`, or a name alone for 1.
#[derive(Clone, Debug)]
pub(super) struct Setting<'a> {
    name: Cow<'a, str>,
    value: Option<Expression>,
}

impl<'a> Step<'a> {
    /// Reads the words of a step.
    pub fn parse(line: &'a str, variables: &[String]) -> Result<Self, StepError> {
        let mut words = line.split_whitespace();
        let word = words.next().ok_or(StepError::Empty)?;
        if word == "raw" {
            return raw(words, variables);
        }
        let instruction = Instruction::from_name(word).ok_or_else(|| StepError::Instruction(word.to_owned()))?;
        let word = words.next();
        let generation = word.and_then(Generation::from_name);
        let generation = generation.ok_or_else(|| StepError::Generation { instruction, word: word.map(str::to_owned) })?;
        let mut settings = words.map(|word| Setting::parse(word, instruction, variables)).collect::<Result<Vec<_>, _>>()?;
        // the table has the fields that decide on others first, so they are set in its order; bits that have no name come last
        settings.sort_by_cached_key(|setting| place(instruction, &setting.name).unwrap_or(usize::MAX));
        Ok(Step::Fields { instruction, generation, settings })
    }

    /// Whether it is the same call for all variables.
    pub fn is_one_call(&self) -> bool {
        match self {
            Step::Raw(numbers) => numbers.iter().all(Expression::is_number),
            Step::Fields { settings, .. } => settings.iter().all(|setting| setting.value.as_ref().is_none_or(Expression::is_number)),
        }
    }

    /// The call for these values of the variables.
    pub fn call(&self, values: &[u64]) -> Result<Call, StepError> {
        match self {
            Step::Raw([instruction, generation, operand]) => {
                let number = |expression: &Expression| expression.number(values).map_err(StepError::Number);
                Ok(Call::new(number(instruction)?, number(generation)?, number(operand)?))
            }
            Step::Fields { instruction, generation, settings } => {
                let operand = operand(*instruction, *generation, settings, values)?;
                Ok(Call::new(*instruction as u64, *generation as u64, operand))
            }
        }
    }

    /// The same, with names of its own.
    pub fn into_owned(self) -> Step<'static> {
        match self {
            Step::Raw(numbers) => Step::Raw(numbers),
            Step::Fields { instruction, generation, settings } => {
                Step::Fields { instruction, generation, settings: settings.into_iter().map(Setting::into_owned).collect() }
            }
        }
    }
}

impl<'a> Setting<'a> {
    fn parse(word: &'a str, instruction: Instruction, variables: &[String]) -> Result<Self, StepError> {
        let (name, value) = word.split_once('=').map_or((word, None), |(name, value)| (name, Some(value)));
        if name.is_empty() {
            return Err(StepError::NoName(word.to_owned()));
        }
        if name != BITS && place(instruction, name).is_none() {
            return Err(StepError::Field(FieldError::Unknown { instruction, name: name.to_owned() }));
        }
        let value = value.map(|value| Expression::parse(value, variables)).transpose();
        let value = value.map_err(|error| StepError::Value { name: name.to_owned(), error })?;
        Ok(Setting { name: name.into(), value })
    }

    fn into_owned(self) -> Setting<'static> {
        Setting { name: self.name.into_owned().into(), value: self.value }
    }

    fn number(&self, values: &[u64]) -> Result<Option<u64>, StepError> {
        let number = self.value.as_ref().map(|value| value.number(values)).transpose();
        number.map_err(|error| StepError::Value { name: self.name.clone().into_owned(), error })
    }
}

fn raw<'a>(words: impl Iterator<Item = &'a str>, variables: &[String]) -> Result<Step<'a>, StepError> {
    let words: Vec<&str> = words.collect();
    let [instruction, generation, operand] = words[..] else { return Err(StepError::Raw(words.len())) };
    let number = |word| Expression::parse(word, variables).map_err(StepError::Number);
    Ok(Step::Raw([number(instruction)?, number(generation)?, number(operand)?]))
}

/// The operand of these settings, which are in the table's order.
fn operand(instruction: Instruction, generation: Generation, settings: &[Setting], values: &[u64]) -> Result<u64, StepError> {
    let (mut operand, mut given) = (0, 0);
    for setting in settings {
        let value = setting.number(values)?;
        let (mask, bits) = if setting.name == BITS {
            let bits = unnamed(instruction, generation, operand, value)?;
            (bits, bits)
        } else {
            let field = find(instruction, generation, operand, &setting.name).map_err(StepError::Field)?;
            // a bit's name alone is 1
            let value = value.or((field.max() == 1).then_some(1)).ok_or(StepError::NoValue(field))?;
            (field.mask(), field.set(0, value).map_err(StepError::Field)?)
        };
        if given & mask != 0 {
            return Err(StepError::Twice(setting.name.clone().into_owned()));
        }
        given |= mask;
        operand |= bits;
    }
    Ok(operand)
}

/// The value of `bits=`, none of which may belong to a field.
fn unnamed(instruction: Instruction, generation: Generation, operand: u64, value: Option<u64>) -> Result<u64, StepError> {
    let bits = value.ok_or(StepError::NoBits)?;
    match fields(instruction, generation, operand).find(|field| bits & field.mask() != 0) {
        Some(field) => Err(StepError::Named { bits, field }),
        None => Ok(bits),
    }
}

/// The call that a line of text describes.
///
/// ```
/// use amx::Call;
/// assert_eq!("raw 18 2 0x8000".parse(), Ok(Call::new(18, 2, 0x8000)));
/// assert_eq!("vecint m2 mode=11 x=8".parse(), Ok(Call::new(18, 2, 11 << 47 | 8 << 10)));
/// assert_eq!("vecfp m2 mode=10 widths=4".parse(), Ok(Call::new(19, 2, 10 << 47 | 4 << 42)));
/// assert_eq!("fms64 m1 vector skip_y".parse(), Ok(Call::new(11, 1, 1 << 63 | 1 << 28)));
/// assert!("vecint m1 four".parse::<Call>().unwrap_err().to_string().contains("only with several vectors"));
/// ```
impl FromStr for Call {
    type Err = StepError;

    fn from_str(line: &str) -> Result<Self, StepError> {
        Step::parse(line, &[])?.call(&[])
    }
}

/// The line of text that describes a call, and that is read as the same call.
///
/// ```
/// use amx::Call;
/// assert_eq!(Call::new(14, 1, 1 << 63 | 3 << 20 | 1 << 9).to_string(), "mac16 m1 vector z_row=3 bits=0x200");
/// assert_eq!(Call::new(15, 1, 7).to_string(), "raw 15 1 0x7");
/// ```
impl fmt::Display for Call {
    fn fmt(&self, f: &mut fmt::Formatter) -> fmt::Result {
        let Call { instruction, generation, operand } = *self;
        let (Some(instruction), Some(generation)) = (Instruction::from_number(instruction), Generation::from_number(generation)) else {
            return write!(f, "raw {instruction} {generation} {operand:#x}");
        };
        write!(f, "{} {}", instruction.name(), generation.name())?;
        let mut unnamed = operand;
        for field in fields(instruction, generation, operand) {
            unnamed &= !field.mask();
            match field.of(operand) {
                0 => {}
                1 if field.max() == 1 => write!(f, " {}", field.short)?,
                value => write!(f, " {}={value}", field.short)?,
            }
        }
        if unnamed == 0 { Ok(()) } else { write!(f, " bits={unnamed:#x}") }
    }
}

/// `fms64, mac16, vecint, vecfp`.
pub(super) fn instructions() -> String {
    Instruction::ALL.map(Instruction::name).join(", ")
}

impl fmt::Display for StepError {
    fn fmt(&self, f: &mut fmt::Formatter) -> fmt::Result {
        match self {
            StepError::Empty => write!(f, "expected {} or raw", instructions()),
            StepError::Instruction(word) => write!(f, "expected {} or raw, not {word:?}", instructions()),
            StepError::Generation { instruction, word } => {
                let word = word.as_ref().map_or("the end of the line".to_owned(), |word| format!("{word:?}"));
                write!(f, "expected m1 or m2 after {}, not {word}", instruction.name())
            }
            StepError::Raw(words) => write!(f, "expected instruction, generation and operand after raw, not {words} words"),
            StepError::Number(error) => error.fmt(f),
            StepError::NoName(word) => write!(f, "expected NAME=VALUE without spaces, not {word:?}"),
            StepError::Value { name, error } => write!(f, "{name}: {error}"),
            StepError::NoValue(field) => write!(f, "expected {}=VALUE, 0 to {}", field.short, field.max()),
            StepError::NoBits => f.write_str("expected bits=VALUE"),
            StepError::Twice(name) => write!(f, "{name} is given twice"),
            StepError::Named { bits, field } => {
                write!(f, "bits={bits:#x} has a bit of {} ({}): set it by that name", field.short, field.bits())
            }
            StepError::Field(error) => error.fmt(f),
        }
    }
}

impl std::error::Error for StepError {}

#[cfg(test)]
mod tests {
    use super::*;

    fn parse(line: &str) -> Result<Call, StepError> {
        line.parse()
    }

    #[test]
    fn every_bit_alone_and_every_pair_is_there_and_back() {
        for (instruction, generation) in [(11, 1), (11, 2), (14, 1), (14, 2), (18, 1), (18, 2), (19, 1), (19, 2), (15, 1), (14, 0)] {
            for (a, b) in (0..64).flat_map(|a| (0..=a).map(move |b| (a, b))) {
                let call = Call::new(instruction, generation, 1 << a | 1 << b);
                assert_eq!(parse(&call.to_string()), Ok(call));
            }
        }
    }

    #[test]
    fn fields_may_come_in_any_order() {
        let one = parse("vecint m2 z_row=31 broadcast_mode=6 four several widths=10 mode=2").unwrap();
        let other = parse("vecint m2 mode=2 several four widths=10 broadcast_mode=6 z_row=31").unwrap();
        assert_eq!(one, other);
        assert_eq!(one.operand, 2 << 47 | 10 << 42 | 6 << 32 | 1 << 31 | 1 << 25 | 31 << 20);
        assert_eq!(parse("mac16 m1 vector=0 z_i32=1").unwrap().operand, 1 << 62);
    }

    #[test]
    fn an_indexed_load_is_told_by_its_fields() {
        let line = "vecint m2 several indexed index_register=3 index_4_bits index_y widths=12 y=500 bits=0x10000000000000";
        let call = Call::new(18, 2, 1 << 53 | 1 << 52 | 3 << 49 | 1 << 48 | 1 << 47 | 12 << 42 | 1 << 31 | 500);
        assert_eq!(parse(line), Ok(call));
        assert_eq!(call.to_string(), line);
        for fields in 0..64 {
            let call = Call::new(18, 1, 1 << 53 | fields << 47);
            assert_eq!(parse(&call.to_string()), Ok(call));
        }
    }

    #[test]
    fn float_steps_are_told_by_their_fields() {
        for (line, call) in [
            ("vecfp m2 mode=10 widths=4 z_row=3 x=64", Call::new(19, 2, 10 << 47 | 4 << 42 | 3 << 20 | 64 << 10)),
            ("vecfp m1 mode=4 widths=7 enable_mode=2 enable_value=31", Call::new(19, 1, 4 << 47 | 7 << 42 | 2 << 38 | 31 << 32)),
            ("vecfp m2 several mode=12 widths=7 broadcast_mode=7 four", Call::new(19, 2, 12 << 47 | 7 << 42 | 7 << 32 | 1 << 31 | 1 << 25)),
            (
                "vecfp m1 indexed index_register=3 index_y x_shuffle=2 bits=0x2000000000",
                Call::new(19, 1, 1 << 53 | 3 << 49 | 1 << 47 | 2 << 29 | 1 << 37),
            ),
            ("fms64 m1 vector skip_y z_row=63", Call::new(11, 1, 1 << 63 | 1 << 28 | 63 << 20)),
            (
                "fms64 m2 x_enable_mode=1 x_enable_value=8 skip_x skip_z y=511 bits=0x4000000000000000",
                Call::new(11, 2, 1 << 62 | 1 << 46 | 8 << 41 | 5 << 27 | 511),
            ),
        ] {
            assert_eq!(parse(line), Ok(call));
            assert_eq!(call.to_string(), line);
        }
    }

    #[test]
    fn errors_tell_what_was_expected() {
        for (line, words) in [
            ("", "expected fms64, mac16, vecint, vecfp or raw"),
            ("mac15 m1", "expected fms64, mac16, vecint, vecfp or raw, not \"mac15\""),
            ("mac16", "expected m1 or m2 after mac16, not the end of the line"),
            ("mac16 m3", "expected m1 or m2 after mac16, not \"m3\""),
            ("mac16 m1 vector vector", "vector is given twice"),
            ("mac16 m1 x_offset=1 x=1", "x is given twice"),
            ("mac16 m1 bits=0x200 bits=0x80200", "bits is given twice"),
            ("mac16 m1 z_row = 3", "expected NAME=VALUE without spaces, not \"=\""),
            ("mac16 m1 =3", "expected NAME=VALUE without spaces, not \"=3\""),
            ("mac16 m1 shift", "expected shift=VALUE, 0 to 31"),
            ("mac16 m1 shift=-1", "shift: expected a number of 64 bits (12, 0x1f or 0b101), not \"-1\""),
            ("mac16 m1 shift=", "shift: expected a number"),
            ("mac16 m1 shift=2*3", "shift: expected a number"),
            ("mac16 m1 z_row=64", "z_row (bits 20..25) is 0 to 63, not 64"),
            ("mac16 m1 rounding", "mac16 has no field \"rounding\""),
            ("vecint m1 several", "several (bit 31) is there only on M2"),
            ("vecint m2 several z_row=37", "z_row (bits 20..24) is 0 to 31, not 37"),
            ("vecint m2 rounding", "rounding (bit 29) is there only in ALU mode 4"),
            ("vecint m2 indexed mode=1", "there only without an indexed load"),
            ("vecint m1 index_y", "index_y (bit 47) is there only with an indexed load (bit 53 set)"),
            ("vecint m1 indexed index_register=8", "index_register (bits 49..51) is 0 to 7, not 8"),
            ("vecint m1 indexed rounding", "rounding (bit 29) is there only in ALU mode 4"),
            ("vecint m1 indexed bits=0x800000000000", "has a bit of index_y (bit 47): set it by that name"),
            ("vecint m2 bits=0x100", "bits=0x100 has a bit of y (bits 0..8): set it by that name"),
            ("vecint m2 bits", "expected bits=VALUE"),
            ("vecfp m1 several", "several (bit 31) is there only on M2"),
            ("vecfp m1 shift=1", "vecfp has no field \"shift\"; it has broadcast_mode, enable_mode"),
            ("vecfp m1 enable_value=32", "enable_value (bits 32..36) is 0 to 31, not 32"),
            ("vecfp m1 bits=0x100000000", "has a bit of enable_value (bits 32..36): set it by that name"),
            ("vecfp m2 indexed mode=10", "there only without an indexed load"),
            ("fms64 m1 z_row=64", "z_row (bits 20..25) is 0 to 63, not 64"),
            ("fms64 m1 z_i32", "fms64 has no field \"z_i32\"; it has skip_x, skip_y"),
            ("raw 18 2", "expected instruction, generation and operand after raw, not 2 words"),
            ("raw 18 2 0x10000000000000000", "expected a number of 64 bits"),
        ] {
            let error = parse(line).unwrap_err().to_string();
            assert!(error.starts_with(words) || error.contains(words), "{line:?}: {error}");
        }
    }
}
