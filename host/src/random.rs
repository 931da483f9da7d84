//! Random calls and states for comparisons and benchmarks, the same for the same seed.

use crate::{
    Call, REGISTER_BYTES, Record, State, Trace,
    rounding::{DOUBLE, Format, SINGLE},
};

/// A source of random numbers (splitmix64).
#[derive(Clone, Debug)]
pub struct Random(u64);

impl Random {
    /// A source that gives the same numbers for the same seed.
    ///
    /// ```
    /// use amx::random::Random;
    /// assert_eq!(Random::new(1).call(), Random::new(1).call());
    /// ```
    pub fn new(seed: u64) -> Self {
        Random(seed)
    }

    /// 64 random bits.
    pub fn bits(&mut self) -> u64 {
        self.0 = self.0.wrapping_add(0x9e37_79b9_7f4a_7c15);
        let mixed = (self.0 ^ self.0 >> 30).wrapping_mul(0xbf58_476d_1ce4_e5b9);
        let mixed = (mixed ^ mixed >> 27).wrapping_mul(0x94d0_49bb_1331_11eb);
        mixed ^ mixed >> 31
    }

    /// A number below n.
    ///
    /// # Panics
    ///
    /// Where n is 0.
    pub fn below(&mut self, n: u64) -> u64 {
        (self.bits() >> 16) % n
    }

    /// True once in n times.
    ///
    /// # Panics
    ///
    /// Where n is 0.
    pub fn once_in(&mut self, n: u64) -> bool {
        self.below(n) == 0
    }

    /// One of some items.
    ///
    /// # Panics
    ///
    /// Where there are none.
    pub fn pick<T: Copy>(&mut self, items: &[T]) -> T {
        items[self.below(items.len() as u64) as usize]
    }

    /// Random bytes: any, or mostly those of numbers at the ends of their ranges, or sparse, or those of floats.
    pub fn bytes(&mut self, length: usize) -> Vec<u8> {
        let kind = self.below(5);
        if kind >= 3 {
            return self.floats(if kind == 3 { SINGLE } else { DOUBLE }, length);
        }
        let byte = |random: &mut Random| match kind {
            0 => random.bits() as u8,
            1 => random.pick(&[0, 0, 1, 0x7f, 0x80, 0xfe, 0xff, 0xff]),
            _ if random.once_in(4) => random.bits() as u8,
            _ => 0,
        };
        (0..length).map(|_| byte(self)).collect()
    }

    /// The bytes of random floats, the last one cut short where there is no room for it.
    pub fn floats(&mut self, format: Format, length: usize) -> Vec<u8> {
        let special = specials(format);
        let bytes = format.bits as usize / 8;
        let lanes = (0..length.div_ceil(bytes)).flat_map(|_| self.float(format, &special).to_le_bytes().into_iter().take(bytes));
        lanes.take(length).collect()
    }

    /// The pattern of a float: one of some special ones, or a neighbour of it, or one near 1 so that sums round, or any.
    pub fn float(&mut self, format: Format, special: &[u64]) -> u64 {
        let (sign, hidden) = (format.sign(), 1 << format.fraction);
        match self.below(8) {
            0..=2 => self.pick(special),
            3 => (self.pick(special) ^ 1) & (sign | (sign - 1)),
            4 | 5 => (self.bits() & sign) + one(format) + self.below(60) * hidden - 30 * hidden + self.bits() % hidden,
            _ => self.bits() >> (64 - format.bits),
        }
    }

    /// A state of such registers, whose count is 0.
    pub fn state(&mut self) -> State {
        let mut state = State::new();
        state.registers_mut().copy_from_slice(&self.bytes(REGISTER_BYTES));
        state
    }

    /// A call, mostly one that is done; unknown instructions and generations, reserved modes and bits are among them.
    pub fn call(&mut self) -> Call {
        let mut call = self.known_call();
        if self.once_in(48) {
            call.instruction = self.odd_number();
        }
        if self.once_in(48) {
            call.generation = self.odd_number();
        }
        call
    }

    /// A record of such a call: the low bytes of odd numbers are as odd.
    pub fn record(&mut self) -> Record {
        let Call { instruction, generation, operand } = self.call();
        Record { instruction: instruction as u8, generation: generation as u8, operand }
    }

    /// A trace of so many such records.
    ///
    /// # Panics
    ///
    /// Where a trace does not hold as many.
    pub fn trace(&mut self, records: usize) -> Trace {
        let mut trace = Trace::new(self.state());
        (0..records).for_each(|_| trace.push(self.record()).expect("a trace holds as many records"));
        trace
    }

    /// A call on M1 or M2.
    pub fn known_call(&mut self) -> Call {
        if self.once_in(2) { self.integer_call() } else { self.float_call() }
    }

    /// A call of mac16 or vecint on M1 or M2.
    pub fn integer_call(&mut self) -> Call {
        let instruction = self.pick(&[14, 18, 18]);
        let generation = self.pick(&[1, 2]);
        Call::new(instruction, generation, if instruction == 14 { self.mac16() } else { self.vecint() })
    }

    /// A call of vecfp or fms64 on M1 or M2; vecfp is mostly on M2, which has its sums and products.
    pub fn float_call(&mut self) -> Call {
        let instruction = self.pick(&[11, 19, 19]);
        let generation = self.pick(&[1, 2, 2]);
        Call::new(instruction, generation, if instruction == 11 { self.fms64() } else { self.vecfp() })
    }

    /// An operand of mac16.
    pub fn mac16(&mut self) -> u64 {
        let mut operand = self.bits();
        if self.once_in(3) {
            operand = put(operand, 55, 59, self.pick(&[0, 1, 15, 31]));
        }
        self.side_enables(operand)
    }

    /// An operand of fms64, mostly one that skips X or Y.
    pub fn fms64(&mut self) -> u64 {
        let mut operand = self.bits();
        if !self.once_in(16) {
            operand = put(operand, 28, 29, self.pick(&[1, 2, 3]));
        }
        self.side_enables(operand)
    }

    /// The operand of a mac16 or an fms64 with enable modes and values that have a meaning of their own.
    fn side_enables(&mut self, mut operand: u64) -> u64 {
        if self.once_in(2) {
            operand = put(put(operand, 46, 47, 0), 41, 45, self.below(4));
        }
        if self.once_in(2) {
            operand = put(put(operand, 37, 38, 0), 32, 36, self.below(4));
        }
        operand
    }

    /// An operand of vecint, one in four with an indexed load. Bits that would make it a no-op or refused are mostly clear; modes, widths
    /// and enable values that have a meaning of their own come more often than others.
    pub fn vecint(&mut self) -> u64 {
        let mut operand = self.bits();
        if self.once_in(24) {
            return operand;
        }
        let indexed = self.once_in(4);
        operand = put(operand, 53, 53, indexed.into());
        if !indexed {
            let mode = if self.once_in(16) { self.below(64) } else { self.pick(&[0, 1, 2, 3, 4, 5, 6, 10, 11, 12]) };
            operand = put(operand, 47, 52, mode);
        }
        if !self.once_in(24) {
            operand = put(operand, 54, 56, 0);
        }
        let mode_4 = operand >> 47 & 127 == 4;
        if !mode_4 && !self.once_in(16) {
            operand = put(operand, 27, 30, 0);
        }
        if self.once_in(2) {
            operand = put(operand, 42, 45, self.pick(&[3, 4, 9, 10, 11, 12, 13]));
        }
        if self.once_in(2) {
            operand = put(put(operand, 38, 40, 0), 32, 37, self.below(7));
        }
        if self.once_in(3) {
            operand = put(operand, 58, 62, self.pick(&[0, 1, 15, 31]));
        }
        operand
    }

    /// An operand of vecfp. Bits that would make it a no-op or refused are mostly clear; ignored ones are as often set.
    pub fn vecfp(&mut self) -> u64 {
        let mut operand = self.bits();
        if self.once_in(24) {
            return operand;
        }
        let indexed = self.once_in(32);
        operand = put(operand, 53, 53, indexed.into());
        if !indexed {
            let mode = if self.once_in(12) { self.below(64) } else { self.pick(&[4, 10, 11, 12]) };
            operand = put(operand, 47, 52, mode);
        }
        if !self.once_in(24) {
            operand = put(operand, 54, 56, 0);
        }
        if !self.once_in(24) {
            operand = put(operand, 27, 30, 0);
        }
        if !self.once_in(24) {
            operand = put(operand, 42, 45, self.pick(&[4, 7]));
        }
        if self.once_in(2) {
            operand = put(put(operand, 38, 40, 0), 32, 36, self.below(7));
        }
        operand
    }

    /// A number that is near an instruction or generation, in some of its bits, or any.
    fn odd_number(&mut self) -> u64 {
        match self.below(4) {
            0 => self.bits(),
            1 => self.pick(&[11, 14, 18, 19, 1, 2]) | 1 << (8 + self.below(56)),
            _ => self.below(256),
        }
    }
}

/// The pattern of 1.
fn one(format: Format) -> u64 {
    format.sign() / 2 - (1 << format.fraction)
}

/// Patterns at the edges of a format, each with both signs: zeros, subnormals, numbers whose sums and products tie, those next to infinity,
/// infinity, and NaNs, quiet and signalling.
pub fn specials(format: Format) -> Vec<u64> {
    let (hidden, infinity, one) = (1u64 << format.fraction, format.infinity(), one(format));
    let bias = one >> format.fraction;
    // 2 to a power, as a normal float
    let power = |n: i64| ((bias as i64 + n) as u64) << format.fraction;
    let (digits, smallest) = (i64::from(format.fraction) + 1, 1 - bias as i64 - i64::from(format.fraction));
    let subnormal = [1, 2, 3, hidden / 2, hidden - 2, hidden - 1];
    let least = [hidden, hidden + 1, 2 * hidden - 1, 2 * hidden];
    let near_1 = [power(-1), one - 1, one, one + 1, one + 2, power(0) + hidden / 2, power(1) - 1, power(1), power(1) + hidden / 2];
    // half of the last place of 1 and of its neighbours, and whole numbers about as large as the digits allow
    let halves = [power(-digits) - 1, power(-digits), power(-digits) + 1, power(1 - digits), power(1 - digits) + hidden / 2];
    let wholes = [power(digits - 1), power(digits) - 1, power(digits), power(digits) + 1];
    // products of these tie between 0 and the smallest float, or are it
    let roots = [power(smallest / 2 - 1), power(smallest / 2 - 1) + 1, power(smallest / 2), power(smallest / 2) + 1];
    // half of the largest's last place: that, and what is more than a quarter of the largest
    let largest = [power(bias as i64 - digits) - 1, power(bias as i64 - digits), infinity - hidden - 1, infinity - hidden, infinity - 1];
    let nans = [infinity + 1, infinity + hidden / 2 - 1, format.default_nan(), format.default_nan() + 1, infinity + hidden - 1];
    let lists: [&[u64]; 10] = [&[0], &subnormal, &least, &near_1, &halves, &wholes, &roots, &largest, &[infinity], &nans];
    lists.concat().into_iter().flat_map(|pattern| [pattern, format.negated(pattern)]).collect()
}

/// An operand with bits `low` to `high` replaced.
pub fn put(operand: u64, low: u32, high: u32, value: u64) -> u64 {
    let mask = (2u64 << high).wrapping_sub(1 << low);
    operand & !mask | value << low & mask
}

#[cfg(test)]
mod tests {
    use super::*;

    #[test]
    fn the_special_floats_are_apart_and_of_both_signs() {
        for format in [SINGLE, DOUBLE] {
            let mut special = specials(format);
            assert_eq!(special.len(), 88);
            assert!(special.iter().all(|&pattern| special.contains(&format.negated(pattern)) && pattern >> (format.bits - 1) <= 1));
            special.sort_unstable();
            special.dedup();
            assert_eq!(special.len(), 88);
        }
        let special = specials(SINGLE);
        for float in [0.0, f32::from_bits(1), f32::MIN_POSITIVE, 1.0, 1.0 + f32::EPSILON, 0.5, 1.5, 3.0, f32::MAX, f32::INFINITY] {
            assert!(special.contains(&float.to_bits().into()) && special.contains(&(-float).to_bits().into()), "{float}");
        }
        for pattern in [0x7f80_0001, 0x7fbf_ffff, 0x7fc0_0000, 0x7fc0_0001, 0xffff_ffff, 0x3380_0000, 0x7300_0000, 0x1a00_0000] {
            assert!(special.contains(&pattern), "{pattern:#x}");
        }
    }
}
