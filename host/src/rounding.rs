//! Floats in whole numbers, for the [`reference`](mod@crate::reference): patterns are taken apart, the exact result of an operation is a
//! whole number times a power of two, and that is rounded once, to nearest with ties to even. No float of the processor is used.
//!
//! Subnormals are kept. A result that is not a number is the default NaN.
//!
//! ```
//! use amx::rounding::{DOUBLE, SINGLE};
//! assert_eq!(SINGLE.sum(1.5f32.to_bits().into(), 0.25f32.to_bits().into()), 1.75f32.to_bits().into());
//! // 1 and half of its last place tie, and the even neighbour is 1
//! assert_eq!(SINGLE.sum(0x3f80_0000, 0x3380_0000), 0x3f80_0000);
//! assert_eq!(DOUBLE.product(0, f64::INFINITY.to_bits()), 0x7ff8_0000_0000_0000);
//! ```

/// A format of floats: its patterns have a sign bit, the bits of the exponent's field and those of the fraction.
#[derive(Clone, Copy, Debug, PartialEq, Eq)]
pub struct Format {
    /// The bits of a pattern.
    pub bits: u32,
    /// The bits of its fraction.
    pub fraction: u32,
}

/// f32: 8 bits of exponent and 23 of fraction.
pub const SINGLE: Format = Format { bits: 32, fraction: 23 };

/// f64: 11 bits of exponent and 52 of fraction.
pub const DOUBLE: Format = Format { bits: 64, fraction: 52 };

/// What a pattern stands for.
#[derive(Clone, Copy)]
enum Value {
    NotANumber,
    Infinite { negative: bool },
    Finite(Finite),
}

/// whole * 2^power, or its opposite.
#[derive(Clone, Copy)]
struct Finite {
    negative: bool,
    whole: u128,
    power: i32,
}

use Value::{Infinite, NotANumber};

impl Format {
    /// The pattern whose sign bit alone is set: -0.
    pub fn sign(self) -> u64 {
        1 << (self.bits - 1)
    }

    /// The pattern of the smallest normal float: the digit that normal floats have before their fraction.
    fn hidden(self) -> u64 {
        1 << self.fraction
    }

    /// The pattern of infinity: all bits of the exponent's field.
    pub fn infinity(self) -> u64 {
        self.sign() - self.hidden()
    }

    /// The default NaN.
    pub fn default_nan(self) -> u64 {
        self.infinity() + self.hidden() / 2
    }

    /// The power of two of the smallest float: -149, or -1074.
    fn lowest(self) -> i32 {
        let bias = (1 << (self.bits - self.fraction - 2)) - 1;
        1 - bias - self.fraction as i32
    }

    fn value(self, pattern: u64) -> Value {
        let negative = pattern & self.sign() != 0;
        let magnitude = pattern % self.sign();
        let (field, fraction) = (magnitude >> self.fraction, magnitude % self.hidden());
        match field {
            _ if magnitude > self.infinity() => NotANumber,
            _ if magnitude == self.infinity() => Infinite { negative },
            0 => Value::Finite(Finite { negative, whole: fraction.into(), power: self.lowest() }),
            _ => {
                let power = self.lowest() + field as i32 - 1;
                Value::Finite(Finite { negative, whole: (self.hidden() + fraction).into(), power })
            }
        }
    }

    fn infinite(self, negative: bool) -> u64 {
        self.signed(negative, self.infinity())
    }

    fn signed(self, negative: bool, magnitude: u64) -> u64 {
        if negative { self.sign() + magnitude } else { magnitude }
    }

    /// The pattern of the float that is nearest to a value, the even one of two. The whole number is below 2^127.
    fn rounded(self, Finite { negative, whole, power }: Finite) -> u64 {
        let digits = self.fraction as i32 + 1;
        let length = (u128::BITS - whole.leading_zeros()) as i32;
        // the power of the last place that is kept: none is below the smallest float
        let last = (power + length - digits).max(self.lowest());
        let (kept, last) = match nearest(whole, last - power) as u64 {
            // one digit more, by a carry out of all of them
            kept if kept == 2 * self.hidden() => (self.hidden(), last + 1),
            kept => (kept, last),
        };
        let field = (last - self.lowest() + 1) as u64;
        match kept.checked_sub(self.hidden()) {
            // a subnormal float, or 0
            None => self.signed(negative, kept),
            Some(_) if field << self.fraction >= self.infinity() => self.infinite(negative),
            Some(fraction) => self.signed(negative, (field << self.fraction) + fraction),
        }
    }

    /// a + b.
    pub fn sum(self, a: u64, b: u64) -> u64 {
        match (self.value(a), self.value(b)) {
            (NotANumber, _) | (_, NotANumber) => self.default_nan(),
            (Infinite { negative }, Infinite { negative: other }) if negative != other => self.default_nan(),
            (Infinite { negative }, _) | (_, Infinite { negative }) => self.infinite(negative),
            (Value::Finite(a), Value::Finite(b)) => self.rounded(exact_sum(a, b)),
        }
    }

    /// a - b.
    pub fn difference(self, a: u64, b: u64) -> u64 {
        self.sum(a, self.negated(b))
    }

    /// a * b.
    pub fn product(self, a: u64, b: u64) -> u64 {
        let negative = (a ^ b) & self.sign() != 0;
        match (self.value(a), self.value(b)) {
            (NotANumber, _) | (_, NotANumber) => self.default_nan(),
            (Infinite { .. }, Value::Finite(Finite { whole: 0, .. })) => self.default_nan(),
            (Value::Finite(Finite { whole: 0, .. }), Infinite { .. }) => self.default_nan(),
            (Infinite { .. }, _) | (_, Infinite { .. }) => self.infinite(negative),
            (Value::Finite(a), Value::Finite(b)) => self.rounded(Finite { negative, whole: a.whole * b.whole, power: a.power + b.power }),
        }
    }

    /// The pattern with its sign bit turned, that of a NaN too.
    pub fn negated(self, a: u64) -> u64 {
        a ^ self.sign()
    }

    /// Whether a <= 0: false for a NaN, true for both zeros.
    pub fn at_most_0(self, a: u64) -> bool {
        match self.value(a) {
            NotANumber => false,
            Infinite { negative } => negative,
            Value::Finite(Finite { negative, whole, .. }) => negative || whole == 0,
        }
    }
}

/// whole / 2^places to the nearest whole number, the even one of two. Where places are negative the whole number has room for as many more.
fn nearest(whole: u128, places: i32) -> u128 {
    match places {
        ..=0 => whole << -places,
        // less than a half
        128.. => 0,
        _ => {
            let down = whole >> places;
            let (left, half) = (whole - (down << places), 1 << (places - 1));
            if left > half || left == half && down % 2 == 1 { down + 1 } else { down }
        }
    }
}

/// A sum that rounds as the exact one does. It is exact but where the lower power is more than 64 below the other.
fn exact_sum(a: Finite, b: Finite) -> Finite {
    let (high, mut low) = if a.power > b.power { (a, b) } else { (b, a) };
    if high.power - low.power > 64 {
        // the higher one is normal, so its digits are all used, and the lower one is far below half of their last place: any number that
        // is not 0 will do for it
        low = Finite { negative: low.negative, whole: (low.whole != 0).into(), power: high.power - 64 };
    }
    let high_whole = high.whole << (high.power - low.power);
    let (negative, whole) = match (high.negative == low.negative, high_whole >= low.whole) {
        (true, _) => (high.negative, high_whole + low.whole),
        // of two numbers that cancel out, the sum is +0
        (false, true) => (high.negative && high_whole != low.whole, high_whole - low.whole),
        (false, false) => (low.negative, low.whole - high_whole),
    };
    Finite { negative, whole, power: low.power }
}

#[cfg(test)]
mod tests {
    use super::*;

    #[test]
    fn the_formats_have_their_numbers() {
        assert_eq!((SINGLE.sign(), SINGLE.infinity(), SINGLE.default_nan()), (0x8000_0000, 0x7f80_0000, 0x7fc0_0000));
        assert_eq!((DOUBLE.sign(), DOUBLE.infinity(), DOUBLE.default_nan()), (1 << 63, 0x7ff << 52, 0x7ff8 << 48));
        assert_eq!((SINGLE.lowest(), DOUBLE.lowest()), (-149, -1_074));
    }

    #[test]
    fn ties_go_to_the_even_neighbour() {
        // 1 and the float after it, with half of their last place: one is even, the other goes up
        for (a, b, sum) in [(0x3f80_0000, 0x3380_0000, 0x3f80_0000), (0x3f80_0001, 0x3380_0000, 0x3f80_0002)] {
            assert_eq!(SINGLE.sum(a, b), sum);
            assert_eq!(SINGLE.sum(SINGLE.negated(b), SINGLE.negated(a)), SINGLE.negated(sum));
        }
        // and half of it and a little more
        assert_eq!(SINGLE.sum(0x3f80_0000, 0x3380_0001), 0x3f80_0001);
        // 2^-150 ties between 0 and the smallest float, and the next product does not
        assert_eq!((SINGLE.product(0x1a00_0000, 0x1a00_0000), SINGLE.product(0x1a00_0000, 0x1a00_0001)), (0, 1));
        // a carry out of all digits, and out of the subnormal floats
        assert_eq!(SINGLE.sum(0x3fff_ffff, 0x3380_0000), 0x4000_0000);
        assert_eq!(SINGLE.product(0x00ff_ffff, 0x3f00_0000), 0x0080_0000);
        assert_eq!(DOUBLE.sum(0.1f64.to_bits(), 0.2f64.to_bits()), 0.300_000_000_000_000_04f64.to_bits());
    }

    #[test]
    fn the_largest_float_and_half_of_its_last_place_is_infinity() {
        assert_eq!((SINGLE.sum(0x7f7f_ffff, 0x7300_0000), SINGLE.sum(0x7f7f_ffff, 0x72ff_ffff)), (0x7f80_0000, 0x7f7f_ffff));
        assert_eq!(SINGLE.product(0xff7f_ffff, 0x7f7f_ffff), 0xff80_0000);
        assert_eq!(DOUBLE.sum(f64::MAX.to_bits(), 0x7c90 << 48), f64::INFINITY.to_bits());
        assert_eq!(DOUBLE.sum(f64::MAX.to_bits(), (0x7c90 << 48) - 1), f64::MAX.to_bits());
    }

    #[test]
    fn zeros_have_their_signs() {
        let minus_0 = DOUBLE.sign();
        assert_eq!([(0, 0), (0, minus_0), (minus_0, 0), (minus_0, minus_0)].map(|(a, b)| DOUBLE.sum(a, b)), [0, 0, 0, minus_0]);
        assert_eq!([(0, 0), (0, minus_0), (minus_0, 0), (minus_0, minus_0)].map(|(a, b)| DOUBLE.difference(a, b)), [0, 0, minus_0, 0]);
        assert_eq!([(0, 0), (0, minus_0), (minus_0, 0), (minus_0, minus_0)].map(|(a, b)| DOUBLE.product(a, b)), [0, minus_0, minus_0, 0]);
        assert_eq!(DOUBLE.difference(7.0f64.to_bits(), 7.0f64.to_bits()), 0);
        assert_eq!(DOUBLE.product(1, DOUBLE.sign() + 1), minus_0);
    }

    #[test]
    fn what_is_not_a_number_is_the_default_nan() {
        let (infinity, nan) = (SINGLE.infinity(), SINGLE.default_nan());
        for payload in [infinity + 1, nan + 7, 0xffff_ffff] {
            assert_eq!((SINGLE.sum(payload, 0), SINGLE.product(payload, payload), SINGLE.difference(0, payload)), (nan, nan, nan));
            assert_eq!(SINGLE.negated(SINGLE.negated(payload)), payload);
            assert!(!SINGLE.at_most_0(payload));
        }
        assert_eq!((SINGLE.difference(infinity, infinity), SINGLE.product(SINGLE.sign(), infinity)), (nan, nan));
        assert_eq!((SINGLE.sum(infinity, infinity), SINGLE.difference(1, infinity)), (infinity, infinity + SINGLE.sign()));
        assert!([0, SINGLE.sign(), SINGLE.sign() + 1, infinity + SINGLE.sign()].into_iter().all(|a| SINGLE.at_most_0(a)));
        assert!([1, infinity].into_iter().all(|a| !SINGLE.at_most_0(a)));
    }
}
