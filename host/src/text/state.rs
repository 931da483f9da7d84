//! Lines of a state and of loads: a register or more, and their bytes or lanes.
use super::{assembler::Load, expression::Expression, number::NumberError};
use crate::{LaneType, Register, State, state::hex};

/// The bytes of a register.
const REGISTER: usize = 64;

/// The most characters of a line's values that an error repeats.
const REPEATED: usize = 64;

/// A line such as `x i16: 3 -3`, `z 3 hex: ff7f` or `load x 0 f32: 1.5`.
#[derive(Clone, Debug)]
pub(super) struct RegisterLine {
    /// What stands before the colon.
    place: String,
    bank: Bank,
    /// None for all of X or Y, from the first byte on.
    number: Option<Expression>,
    form: Option<LaneType>,
    /// From the first byte on, with 0 for lanes that depend on variables.
    bytes: Vec<u8>,
    /// Those lanes.
    sums: Vec<(usize, Expression)>,
}

/// X, Y or Z: what makes a register of a number, whether there is one or not.
type Bank = fn(usize) -> Register;

fn bank(name: &str) -> Option<Bank> {
    [Register::X, Register::Y, Register::Z as Bank].into_iter().find(|bank| bank(0).name() == name)
}

/// The register of this number, where there is one.
fn register(bank: Bank, number: u64) -> Result<Register, String> {
    let register = bank(number.try_into().unwrap_or(usize::MAX));
    if register.is_there() {
        return Ok(register);
    }
    let name = register.name();
    Err(format!("there is no {name} {number}: {name} N has N 0 to {}", register.count() - 1))
}

impl RegisterLine {
    /// Reads what stands before the colon and behind it.
    pub fn parse(place: &str, values: &str, variables: &[String]) -> Result<Self, String> {
        let words: Vec<&str> = place.split_whitespace().collect();
        let place = words.join(" ");
        let (is_load, words) = words.strip_prefix(&["load"]).map_or((false, &words[..]), |words| (true, words));
        let (last, registers) = words.split_last().ok_or_else(|| no_place(is_load, &place))?;
        let Some(form) = form_of(last) else {
            let lacks_form = registers_of(words, is_load, variables).is_some();
            return Err(if lacks_form { no_form(&place, values.trim()) } else { no_place(is_load, &place) });
        };
        let (bank, number) = registers_of(registers, is_load, variables).ok_or_else(|| no_place(is_load, &place))?;
        let mut line = RegisterLine { place, bank, number, form, bytes: Vec::new(), sums: Vec::new() };
        match form {
            None => line.bytes = from_hex(values)?,
            Some(lane_type) => values.split_whitespace().try_for_each(|word| line.push(lane_type, word, variables)).map_err(words_of)?,
        }
        line.fits()?;
        line.constant_register()?;
        Ok(line)
    }

    /// Adds a lane: a number of its type, or an expression.
    fn push(&mut self, lane_type: LaneType, word: &str, variables: &[String]) -> Result<(), NumberError> {
        let bytes = lane_type.parse(word).or_else(|error| match Expression::parse(word, variables) {
            Ok(sum @ Expression::Sum { .. }) => {
                self.sums.push((self.bytes.len() / lane_type.bytes(), sum));
                Ok([0; 8])
            }
            _ => Err(error),
        })?;
        self.bytes.extend(&bytes[..lane_type.bytes()]);
        Ok(())
    }

    fn fits(&self) -> Result<(), String> {
        let room = if self.number.is_some() { REGISTER } else { REGISTER * (self.bank)(0).count() };
        let (unit, each) = self.form.map_or(("bytes", 1), |lane_type| ("lanes", lane_type.bytes()));
        if self.bytes.len() > room {
            return Err(format!("{} has {} {unit}, not {}", self.place, room / each, self.bytes.len() / each));
        }
        Ok(())
    }

    /// A register that does not depend on variables is there.
    fn constant_register(&self) -> Result<(), String> {
        match self.number {
            Some(Expression::Number(number)) => register(self.bank, number).map(drop),
            _ => Ok(()),
        }
    }

    fn first_register(&self, values: &[u64]) -> Result<Register, String> {
        let number = self.number.as_ref().map_or(Ok(0), |number| number.number(values));
        register(self.bank, number.map_err(words_of)?)
    }

    /// Whether it is the same for all variables.
    pub fn is_one_load(&self) -> bool {
        self.number.as_ref().is_none_or(Expression::is_number) && self.sums.is_empty()
    }

    /// The load for these values of the variables.
    pub fn load(&self, values: &[u64]) -> Result<Load, String> {
        let mut load = Load { register: self.first_register(values)?, bytes: [0; REGISTER] };
        load.bytes[..self.bytes.len()].copy_from_slice(&self.bytes);
        if let Some(lane_type) = self.form {
            let size = lane_type.bytes();
            for (lane, sum) in &self.sums {
                let value = sum.value(values).and_then(|value| lane_type.parse(&value.to_string())).map_err(words_of)?;
                load.bytes[lane * size..][..size].copy_from_slice(&value[..size]);
            }
        }
        Ok(load)
    }

    /// Writes the bytes into a state, of which none was given before.
    pub fn store(&self, state: &mut State, given: &mut [bool]) -> Result<(), String> {
        let start = self.first_register(&[])?.start();
        for (at, &byte) in self.bytes.iter().enumerate() {
            if std::mem::replace(&mut given[start + at], true) {
                return Err(format!("byte {at} of {} is given twice", self.place));
            }
            state.registers_mut()[start + at] = byte;
        }
        Ok(())
    }
}

fn words_of(error: NumberError) -> String {
    error.to_string()
}

/// `hex`, which is no lane type, or a lane type.
fn form_of(word: &str) -> Option<Option<LaneType>> {
    if word == "hex" { Some(None) } else { word.parse().ok().map(Some) }
}

/// `x`, `y`, and `x N`, `y N`, `z N`; the latter three alone of a load.
fn registers_of(words: &[&str], is_load: bool, variables: &[String]) -> Option<(Bank, Option<Expression>)> {
    match words {
        [name @ ("x" | "y")] if !is_load => Some((bank(name)?, None)),
        [name, number] => Some((bank(name)?, Some(Expression::parse(number, variables).ok()?))),
        _ => None,
    }
}

fn no_place(is_load: bool, place: &str) -> String {
    let registers = match is_load {
        true => "load x N, load y N (N 0 to 7) or load z N (0 to 63)",
        false => "x, x N, y, y N (N 0 to 7) or z N (0 to 63)",
    };
    format!("expected {registers}, then hex or a lane type ({}), before the colon, not {place:?}", LaneType::names())
}

/// What to write for a line that has neither hex nor a lane type.
fn no_form(place: &str, values: &str) -> String {
    let mut repeated: String = values.chars().take(REPEATED).collect();
    if repeated.len() < values.len() {
        repeated += "..";
    }
    let hex = format!("{place} hex: {repeated}");
    format!(
        "{place}: does not say what the numbers are: for bytes in hex write {:?}, for numbers \"{place} i16: ...\" ({})",
        hex.trim_end(),
        LaneType::names()
    )
}

/// The bytes of words that are whole bytes each.
fn from_hex(words: &str) -> Result<Vec<u8>, String> {
    let mut bytes = Vec::new();
    for word in words.split_whitespace() {
        let digit = |letter: char| letter.to_digit(16).ok_or_else(|| format!("expected hex digits, not {letter:?}"));
        let digits = word.chars().map(digit).collect::<Result<Vec<u32>, _>>()?;
        if digits.len() % 2 == 1 {
            return Err(format!("expected two hex digits to a byte, and {word:?} has {}", digits.len()));
        }
        bytes.extend(digits.chunks(2).map(|pair| (pair[0] * 16 + pair[1]) as u8));
    }
    Ok(bytes)
}

/// The lines of a state: a count that is not 0, and the rows that are not all 0.
pub(super) fn print_state(state: &State, form: Option<LaneType>) -> String {
    let mut text = match state.count() {
        0 => String::new(),
        count => format!("count: {count}\n"),
    };
    for register in Register::all().filter(|&register| state.row(register).iter().any(|&byte| byte != 0)) {
        text += &print_register(register, state.row(register), form);
        text.push('\n');
    }
    text
}

/// The line of a register's bytes, in hex or as lanes of a type, up to the last that is not 0; the first is always there.
///
/// ```
/// use amx::{LaneType, Register, text::print_register};
/// let row = [3, 0, 0xfd, 0xff, 0, 0];
/// assert_eq!(print_register(Register::X(1), &row, None), "x 1 hex: 0300fdff");
/// assert_eq!(print_register(Register::Z(9), &row, Some(LaneType::I16)), "z 9 i16: 3 -3");
/// assert_eq!(print_register(Register::Y(0), &[0; 64], Some(LaneType::F32)), "y 0 f32: 0");
/// ```
///
/// # Panics
///
/// Where the last lane has fewer bytes than its type, as a slice does.
pub fn print_register(register: Register, row: &[u8], form: Option<LaneType>) -> String {
    let end = row.iter().rposition(|&byte| byte != 0).map_or(1, |last| last + 1);
    match form {
        None => format!("{register} hex: {}", hex(&row[..end])),
        Some(lane_type) => {
            let lanes = row.chunks(lane_type.bytes()).take(end.div_ceil(lane_type.bytes()));
            let words: Vec<String> = lanes.map(|lane| lane_type.print(lane)).collect();
            format!("{register} {lane_type}: {}", words.join(" "))
        }
    }
}
