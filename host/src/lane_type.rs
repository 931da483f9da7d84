use crate::text::{NumberError, parse_number, plain};
use std::{fmt, ops::RangeInclusive, str::FromStr};

/// What the bits of a lane are taken for, where people write or read them: an integer or a float, little-endian in a register.
///
/// ```
/// use amx::LaneType;
/// let lane = LaneType::I16.parse("-3")?;
/// assert_eq!(lane, [0xfd, 0xff, 0, 0, 0, 0, 0, 0]);
/// assert_eq!((LaneType::I16.print(&lane), LaneType::U8.print(&lane)), ("-3".to_owned(), "253".to_owned()));
/// assert_eq!(LaneType::I16.parse("40000").unwrap_err().to_string(), "40000 is not an i16 (-32768 to 32767)");
/// # Ok::<(), amx::text::NumberError>(())
/// ```
#[derive(Clone, Copy, Debug, PartialEq, Eq, Hash)]
pub enum LaneType {
    /// A signed byte.
    I8,
    /// A signed integer of 16 bits.
    I16,
    /// A signed integer of 32 bits.
    I32,
    /// A byte.
    U8,
    /// An integer of 16 bits.
    U16,
    /// An integer of 32 bits.
    U32,
    /// A float of 32 bits.
    F32,
    /// A float of 64 bits.
    F64,
}

/// A word that names no lane type.
#[derive(Clone, Debug, PartialEq, Eq)]
pub struct UnknownLaneType(
    /// The word.
    pub String,
);

impl LaneType {
    /// Every lane type: signed integers, unsigned ones, floats.
    pub const ALL: [Self; 8] =
        [LaneType::I8, LaneType::I16, LaneType::I32, LaneType::U8, LaneType::U16, LaneType::U32, LaneType::F32, LaneType::F64];

    /// `i8`, `i16` and so on.
    pub fn name(self) -> &'static str {
        match self {
            LaneType::I8 => "i8",
            LaneType::I16 => "i16",
            LaneType::I32 => "i32",
            LaneType::U8 => "u8",
            LaneType::U16 => "u16",
            LaneType::U32 => "u32",
            LaneType::F32 => "f32",
            LaneType::F64 => "f64",
        }
    }

    /// The bytes of a lane: 1, 2, 4 or 8.
    pub fn bytes(self) -> usize {
        match self {
            LaneType::I8 | LaneType::U8 => 1,
            LaneType::I16 | LaneType::U16 => 2,
            LaneType::I32 | LaneType::U32 | LaneType::F32 => 4,
            LaneType::F64 => 8,
        }
    }

    /// The lanes in a register, which has 64 bytes.
    pub fn lanes(self) -> usize {
        64 / self.bytes()
    }

    /// The bytes of the lane that a word tells: the first [`bytes`](Self::bytes) of the eight, and 0 behind them.
    ///
    /// An integer is a decimal in its range, with `_` between digits or without. A float is a decimal, which is rounded to nearest, `inf`,
    /// `-inf` or `nan`, the default NaN. Either may be a pattern instead, `0x..` or `0b..`, of no more bits than the lane has.
    ///
    /// ```
    /// use amx::LaneType;
    /// assert_eq!(LaneType::I8.parse("0xff"), LaneType::I8.parse("-1"));
    /// assert_eq!(LaneType::F32.parse("1.5")?[..4], [0, 0, 0xc0, 0x3f]);
    /// assert!(LaneType::U8.parse("-1").is_err() && LaneType::U8.parse("0x100").is_err() && LaneType::F32.parse("1e39").is_err());
    /// # Ok::<(), amx::text::NumberError>(())
    /// ```
    pub fn parse(self, word: &str) -> Result<[u8; 8], NumberError> {
        let pattern = match self {
            _ if word.starts_with("0x") || word.starts_with("0b") => self.pattern(word),
            LaneType::F32 => self.float(word, word.parse().ok().map(|float: f32| (float.to_bits().into(), float.is_finite()))),
            LaneType::F64 => self.float(word, word.parse().ok().map(|float: f64| (float.to_bits(), float.is_finite()))),
            _ => self.integer(word),
        };
        pattern.map(u64::to_le_bytes)
    }

    /// The word for a lane of these bytes, from which [`parse`](Self::parse) makes the same: an integer in decimal; the shortest decimal that
    /// is read back as the float, `inf`, `-inf`, or `nan` for the default NaN and a pattern for others. Bytes behind the lane are not looked at.
    ///
    /// ```
    /// use amx::LaneType::{F32, U16};
    /// assert_eq!((U16.print(&[1, 2]), F32.print(&0.1f32.to_le_bytes())), ("513".to_owned(), "0.1".to_owned()));
    /// assert_eq!((F32.print(&[0, 0, 0, 0x80]), F32.print(&[1, 0, 0xc0, 0xff])), ("-0".to_owned(), "0xffc00001".to_owned()));
    /// ```
    ///
    /// # Panics
    ///
    /// Where there are fewer bytes than the lane has, as a slice does.
    pub fn print(self, bytes: &[u8]) -> String {
        let pattern = bytes[..self.bytes()].iter().rev().fold(0, |pattern: u64, &byte| pattern << 8 | u64::from(byte));
        let unused = 64 - self.bits();
        match self {
            LaneType::F32 => self.print_float(pattern, f32::from_bits(pattern as u32)),
            LaneType::F64 => self.print_float(pattern, f64::from_bits(pattern)),
            LaneType::I8 | LaneType::I16 | LaneType::I32 => ((pattern << unused) as i64 >> unused).to_string(),
            LaneType::U8 | LaneType::U16 | LaneType::U32 => pattern.to_string(),
        }
    }

    pub(crate) fn bits(self) -> usize {
        8 * self.bytes()
    }

    /// The integers of the type; none of floats.
    pub(crate) fn range(self) -> Option<RangeInclusive<i64>> {
        match self {
            LaneType::I8 | LaneType::I16 | LaneType::I32 => Some(-1 << (self.bits() - 1)..=(1 << (self.bits() - 1)) - 1),
            LaneType::U8 | LaneType::U16 | LaneType::U32 => Some(0..=(1 << self.bits()) - 1),
            LaneType::F32 | LaneType::F64 => None,
        }
    }

    /// `i8, i16, i32, u8, u16, u32, f32 or f64`.
    pub(crate) fn names() -> String {
        let [first @ .., last] = Self::ALL.map(Self::name);
        format!("{} or {last}", first.join(", "))
    }

    fn pattern(self, word: &str) -> Result<u64, NumberError> {
        let fits = |pattern: &u64| pattern >> (self.bits() - 1) <= 1;
        parse_number(word).ok().filter(fits).ok_or_else(|| NumberError::Pattern { word: word.to_owned(), lane_type: self })
    }

    fn integer(self, word: &str) -> Result<u64, NumberError> {
        let (sign, digits) = word.strip_prefix('-').map_or(("", word), |digits| ("-", digits));
        let digits = plain(digits, 10).ok_or_else(|| NumberError::Lane { word: word.to_owned(), lane_type: self })?;
        let number = format!("{sign}{digits}").parse().ok().filter(|number| self.range().is_some_and(|range| range.contains(number)));
        let number = number.ok_or_else(|| NumberError::Range { word: word.to_owned(), lane_type: self })?;
        Ok(number as u64 & u64::MAX >> (64 - self.bits()))
    }

    /// The pattern of a word that was read as a float, and whether it is finite.
    fn float(self, word: &str, read: Option<(u64, bool)>) -> Result<u64, NumberError> {
        match read {
            _ if word == "nan" => Ok(self.default_nan()),
            Some((pattern, true)) => Ok(pattern),
            Some((pattern, false)) if matches!(word, "inf" | "-inf") => Ok(pattern),
            Some(_) if word.contains(|letter: char| letter.is_ascii_digit()) => {
                Err(NumberError::Range { word: word.to_owned(), lane_type: self })
            }
            _ => Err(NumberError::Lane { word: word.to_owned(), lane_type: self }),
        }
    }

    fn default_nan(self) -> u64 {
        if self == LaneType::F32 { 0x7fc0_0000 } else { 0x7ff8_0000_0000_0000 }
    }

    fn print_float(self, pattern: u64, float: impl fmt::Debug + Into<f64> + Copy) -> String {
        if pattern == self.default_nan() {
            return "nan".to_owned();
        }
        if float.into().is_nan() {
            return format!("{pattern:#x}");
        }
        let decimal = format!("{float:?}");
        decimal.strip_suffix(".0").unwrap_or(&decimal).to_owned()
    }
}

impl FromStr for LaneType {
    type Err = UnknownLaneType;

    fn from_str(word: &str) -> Result<Self, UnknownLaneType> {
        Self::ALL.into_iter().find(|lane_type| lane_type.name() == word).ok_or_else(|| UnknownLaneType(word.to_owned()))
    }
}

impl fmt::Display for LaneType {
    fn fmt(&self, f: &mut fmt::Formatter) -> fmt::Result {
        f.pad(self.name())
    }
}

impl fmt::Display for UnknownLaneType {
    fn fmt(&self, f: &mut fmt::Formatter) -> fmt::Result {
        write!(f, "expected {}, not {:?}", LaneType::names(), self.0)
    }
}

impl std::error::Error for UnknownLaneType {}

#[cfg(test)]
mod tests {
    use super::*;
    use crate::random::Random;
    use LaneType::*;

    fn there_and_back(lane_type: LaneType, pattern: u64) {
        let bytes = pattern.to_le_bytes();
        let word = lane_type.print(&bytes[..lane_type.bytes()]);
        let again = lane_type.parse(&word).unwrap_or_else(|error| panic!("{word}: {error}"));
        assert_eq!(again[..lane_type.bytes()], bytes[..lane_type.bytes()], "{word} as {lane_type}");
        assert!(again[lane_type.bytes()..].iter().all(|&byte| byte == 0));
    }

    #[test]
    fn every_lane_is_there_and_back() {
        for lane_type in LaneType::ALL {
            (0..=0xffff).for_each(|pattern| there_and_back(lane_type, pattern));
            // the ends of the ranges, infinities, NaNs, the largest and the smallest, and their neighbours
            for top in (0..64).map(|bit| 1u64 << bit).chain([0x7f80_0000, 0x7fc0_0000, 0x7ff0 << 48, 0x7ff8 << 48]) {
                for pattern in (0..5).map(|more| top.wrapping_add(more).wrapping_sub(2)) {
                    there_and_back(lane_type, pattern);
                    there_and_back(lane_type, pattern ^ 1 << (lane_type.bits() - 1));
                }
            }
        }
        let mut random = Random::new(31);
        for _ in 0..20_000 {
            let pattern = random.bits();
            LaneType::ALL.into_iter().for_each(|lane_type| there_and_back(lane_type, pattern));
        }
    }

    #[test]
    fn words_are_the_numbers_that_they_say() {
        for (lane_type, word, pattern) in [
            (I8, "-128", 0x80),
            (I8, "0b1111_1111", 0xff),
            (U8, "255", 0xff),
            (I16, "-3", 0xfffd),
            (I16, "-32_768", 0x8000),
            (I16, "0x8000", 0x8000),
            (U16, "65535", 0xffff),
            (I32, "-2_147_483_648", 0x8000_0000),
            (U32, "4294967295", 0xffff_ffff),
            (U32, "007", 7),
            (I32, "-0", 0),
            (F32, "-0", 0x8000_0000),
            (F32, "1e-45", 1),
            (F32, "nan", 0x7fc0_0000),
            (F64, "-inf", 0xfff0 << 48),
            (F64, "0x7ff0_0000_0000_0001", 0x7ff0 << 48 | 1),
        ] {
            assert_eq!(lane_type.parse(word), Ok(u64::to_le_bytes(pattern)), "{word} as {lane_type}");
        }
        for (lane_type, pattern, word) in [
            (I8, 0x80, "-128"),
            (U32, 0xffff_ffff, "4294967295"),
            (F32, 0x3f80_0000, "1"),
            (F32, 0x447a_0000, "1000"),
            (F32, 0x3dcc_cccd, "0.1"),
            (F32, 1, "1e-45"),
            (F32, 0x8000_0000, "-0"),
            (F32, 0xff80_0000, "-inf"),
            (F32, 0x7fc0_0000, "nan"),
            (F32, 0xffc0_0000, "0xffc00000"),
            (F64, 0x7ff8 << 48, "nan"),
            (F64, 0x7ff0 << 48 | 1, "0x7ff0000000000001"),
            (F64, 1e300f64.to_bits(), "1e300"),
        ] {
            assert_eq!(lane_type.print(&u64::to_le_bytes(pattern)), word, "{pattern:#x} as {lane_type}");
        }
    }

    #[test]
    fn errors_tell_the_word_and_the_range() {
        for (lane_type, word, message) in [
            (I16, "40000", "40000 is not an i16 (-32768 to 32767)"),
            (I16, "-32769", "-32769 is not an i16 (-32768 to 32767)"),
            (I8, "128", "128 is not an i8 (-128 to 127)"),
            (U8, "256", "256 is not a u8 (0 to 255)"),
            (U8, "-1", "-1 is not a u8 (0 to 255)"),
            (U32, "4_294_967_296", "4_294_967_296 is not a u32 (0 to 4294967295)"),
            (I32, "99999999999999999999", "99999999999999999999 is not an i32 (-2147483648 to 2147483647)"),
            (U16, "0x10000", "0x10000 is no pattern of 16 bits"),
            (I8, "0b1_0000_0000", "0b1_0000_0000 is no pattern of 8 bits"),
            (I8, "0x", "0x is no pattern of 8 bits"),
            (F64, "0x1_0000_0000_0000_0000", "0x1_0000_0000_0000_0000 is no pattern of 64 bits"),
            (I16, "1.5", "expected an i16 (-32768 to 32767, or its pattern, 0x..), not \"1.5\""),
            (U16, "-0x1", "expected a u16 (0 to 65535, or its pattern, 0x..), not \"-0x1\""),
            (I16, "--1", "expected an i16 (-32768 to 32767, or its pattern, 0x..), not \"--1\""),
            (I16, "_", "expected an i16 (-32768 to 32767, or its pattern, 0x..), not \"_\""),
            (I16, "-_1", "expected an i16 (-32768 to 32767, or its pattern, 0x..), not \"-_1\""),
            (U8, "1_", "expected a u8 (0 to 255, or its pattern, 0x..), not \"1_\""),
            (U8, "0x_1", "0x_1 is no pattern of 8 bits"),
            (I16, "", "expected an i16 (-32768 to 32767, or its pattern, 0x..), not \"\""),
            (F32, "3.5e38", "3.5e38 is beyond the largest f32"),
            (F64, "-1e309", "-1e309 is beyond the largest f64"),
            (F32, "NaN", "expected an f32 (1.5, -0, 2e-3, inf, -inf, nan, or its pattern, 0x..), not \"NaN\""),
            (F64, "infinity", "expected an f64 (1.5, -0, 2e-3, inf, -inf, nan, or its pattern, 0x..), not \"infinity\""),
        ] {
            assert_eq!(lane_type.parse(word).map_err(|error| error.to_string()), Err(message.to_owned()));
        }
    }

    #[test]
    fn names_are_there_and_back() {
        for lane_type in LaneType::ALL {
            assert_eq!(lane_type.to_string().parse(), Ok(lane_type));
            assert_eq!(lane_type.bytes() * lane_type.lanes(), 64);
        }
        let error = "i64".parse::<LaneType>().unwrap_err();
        assert_eq!(error.to_string(), "expected i8, i16, i32, u8, u16, u32, f32 or f64, not \"i64\"");
    }
}
