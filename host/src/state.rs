use std::{fmt, ops::Range};

/// The bytes of X, Y and Z together.
pub const REGISTER_BYTES: usize = 5_120;

/// The bytes of a state: the registers, then the count of steps taken.
pub const STATE_LENGTH: usize = REGISTER_BYTES + size_of::<u64>();

/// The unit's state: X and Y of 512 bytes each, then the 64 rows of Z, then the count of steps taken.
///
/// X and Y are 8 registers of 64 bytes each and Z is 64 of them, so a [`Register`] names every 64-byte row. Lanes and the count are
/// little-endian.
///
/// ```
/// use amx::{Register, State, Width};
/// let mut state = State::new();
/// state.set_lane(Register::Z(3), 7, Width::Bits16, -2);
/// assert_eq!(state.lane(Register::Z(3), 7, Width::Bits16), 65_534);
/// assert_eq!(state.signed_lane(Register::Z(3), 7, Width::Bits16), -2);
/// assert_eq!(state.row(Register::Z(3))[14..16], [0xfe, 0xff]);
/// assert_eq!(state.count(), 0);
/// ```
#[derive(Clone, PartialEq, Eq)]
pub struct State([u8; STATE_LENGTH]);

/// A 64-byte row of the state.
#[derive(Clone, Copy, Debug, PartialEq, Eq, Hash)]
pub enum Register {
    /// A register of X, 0 to 7: the bytes from 64 times its number on.
    X(usize),
    /// A register of Y, 0 to 7.
    Y(usize),
    /// A row of Z, 0 to 63.
    Z(usize),
}

/// The width of a lane.
#[derive(Clone, Copy, Debug, PartialEq, Eq, Hash)]
pub enum Width {
    /// 64 lanes in a row.
    Bits8,
    /// 32 lanes in a row.
    Bits16,
    /// 16 lanes in a row.
    Bits32,
}

impl Width {
    /// 1, 2 or 4.
    pub fn bytes(self) -> usize {
        match self {
            Width::Bits8 => 1,
            Width::Bits16 => 2,
            Width::Bits32 => 4,
        }
    }

    /// The lanes of this width in a row.
    pub fn lanes(self) -> usize {
        64 / self.bytes()
    }
}

impl Register {
    /// Every register, in the order of the state's bytes.
    pub fn all() -> impl Iterator<Item = Register> {
        (0..8).map(Register::X).chain((0..8).map(Register::Y)).chain((0..64).map(Register::Z))
    }

    /// The register's first byte in the state.
    ///
    /// # Panics
    ///
    /// Where there is no such register, as a slice does.
    pub fn start(self) -> usize {
        assert!(self.is_there(), "there is no register {self:?}");
        let first = match self {
            Register::X(_) => 0,
            Register::Y(_) => 512,
            Register::Z(_) => 1_024,
        };
        first + 64 * self.number()
    }

    /// `x`, `y` or `z`.
    pub(crate) fn name(self) -> &'static str {
        match self {
            Register::X(_) => "x",
            Register::Y(_) => "y",
            Register::Z(_) => "z",
        }
    }

    fn number(self) -> usize {
        let (Register::X(number) | Register::Y(number) | Register::Z(number)) = self;
        number
    }

    /// How many registers X has, or Y, or Z, whichever this one is of.
    pub(crate) fn count(self) -> usize {
        if matches!(self, Register::Z(_)) { 64 } else { 8 }
    }

    pub(crate) fn is_there(self) -> bool {
        self.number() < self.count()
    }
}

/// `x 0`, as in texts.
impl fmt::Display for Register {
    fn fmt(&self, f: &mut fmt::Formatter) -> fmt::Result {
        write!(f, "{} {}", self.name(), self.number())
    }
}

/// Where a lane of so many bytes lies in its row.
fn bytes_of_lane(lane: usize, bytes: usize) -> Range<usize> {
    assert!(lane < 64 / bytes, "there is no lane {lane} of {bytes} bytes in a row of 64");
    bytes * lane..bytes * (lane + 1)
}

/// Bytes as hex digits, the first byte first.
pub(crate) fn hex(bytes: &[u8]) -> String {
    bytes.iter().map(|byte| format!("{byte:02x}")).collect()
}

impl State {
    /// All bytes 0.
    pub fn new() -> Self {
        State([0; STATE_LENGTH])
    }

    /// A state of these bytes.
    pub fn from_bytes(bytes: [u8; STATE_LENGTH]) -> Self {
        State(bytes)
    }

    /// A state of these registers, whose count is 0.
    pub fn from_registers(registers: [u8; REGISTER_BYTES]) -> Self {
        let mut state = State::new();
        *state.registers_mut() = registers;
        state
    }

    /// All bytes: X, Y, the rows of Z, then the count.
    pub fn bytes(&self) -> &[u8; STATE_LENGTH] {
        &self.0
    }

    /// All bytes, to be written.
    pub fn bytes_mut(&mut self) -> &mut [u8; STATE_LENGTH] {
        &mut self.0
    }

    /// The bytes of X, Y, then the rows of Z.
    pub fn registers(&self) -> &[u8; REGISTER_BYTES] {
        self.0.first_chunk().expect("the registers come first")
    }

    /// The bytes of X, Y, then the rows of Z, to be written.
    pub fn registers_mut(&mut self) -> &mut [u8; REGISTER_BYTES] {
        self.0.first_chunk_mut().expect("the registers come first")
    }

    /// The count of steps taken, which is the serial due: that of the next step.
    ///
    /// ```
    /// let mut state = amx::State::new();
    /// state.set_count(258);
    /// assert_eq!(state.bytes()[amx::REGISTER_BYTES..], [2, 1, 0, 0, 0, 0, 0, 0]);
    /// assert_eq!(state.count(), 258);
    /// ```
    pub fn count(&self) -> u64 {
        u64::from_le_bytes(*self.0.last_chunk().expect("the count comes last"))
    }

    /// Writes the count of steps taken. A serial that was used up before may then be due again.
    pub fn set_count(&mut self, count: u64) {
        *self.0.last_chunk_mut().expect("the count comes last") = count.to_le_bytes();
    }

    /// The 512 bytes of X.
    pub fn x(&self) -> &[u8] {
        &self.0[..512]
    }

    /// The 512 bytes of X, to be written.
    ///
    /// ```
    /// let mut state = amx::State::new();
    /// state.x_mut()[..3].copy_from_slice(&[1, 2, 3]);
    /// assert_eq!(state.x()[1], 2);
    /// ```
    pub fn x_mut(&mut self) -> &mut [u8] {
        &mut self.0[..512]
    }

    /// The 512 bytes of Y.
    pub fn y(&self) -> &[u8] {
        &self.0[512..1_024]
    }

    /// The 512 bytes of Y, to be written.
    pub fn y_mut(&mut self) -> &mut [u8] {
        &mut self.0[512..1_024]
    }

    /// The 64 bytes of a register.
    ///
    /// # Panics
    ///
    /// Where there is no such register, as a slice does.
    pub fn row(&self, register: Register) -> &[u8] {
        &self.0[register.start()..][..64]
    }

    /// The 64 bytes of a register, to be written.
    ///
    /// # Panics
    ///
    /// Where there is no such register, as a slice does.
    pub fn row_mut(&mut self, register: Register) -> &mut [u8] {
        &mut self.0[register.start()..][..64]
    }

    /// The 64 bytes of a register as hex digits, its first byte first.
    ///
    /// # Panics
    ///
    /// Where there is no such register, as a slice does.
    pub fn hex_row(&self, register: Register) -> String {
        hex(self.row(register))
    }

    /// A lane as an unsigned number.
    ///
    /// # Panics
    ///
    /// Where there is no such register or lane, as a slice does.
    pub fn lane(&self, register: Register, lane: usize, width: Width) -> u32 {
        let bytes = &self.row(register)[bytes_of_lane(lane, width.bytes())];
        bytes.iter().rev().fold(0, |number, &byte| number << 8 | u32::from(byte))
    }

    /// A lane as a signed number.
    ///
    /// # Panics
    ///
    /// Where there is no such register or lane, as a slice does.
    pub fn signed_lane(&self, register: Register, lane: usize, width: Width) -> i32 {
        let unused = 32 - 8 * width.bytes();
        (self.lane(register, lane, width) << unused) as i32 >> unused
    }

    /// Writes a lane, modulo 2 to its width: negative numbers are as good as unsigned ones.
    ///
    /// # Panics
    ///
    /// Where there is no such register or lane, as a slice does.
    pub fn set_lane(&mut self, register: Register, lane: usize, width: Width, value: i64) {
        let bytes = &mut self.row_mut(register)[bytes_of_lane(lane, width.bytes())];
        bytes.copy_from_slice(&value.to_le_bytes()[..width.bytes()]);
    }

    /// A lane of 32 bits as a float. [`lane`](Self::lane) has its pattern.
    ///
    /// ```
    /// use amx::{Register, State, Width};
    /// let mut state = State::new();
    /// state.set_f32(Register::X(1), 15, -0.0);
    /// assert_eq!(state.lane(Register::X(1), 15, Width::Bits32), 0x8000_0000);
    /// state.set_f64(Register::Z(2), 0, 1.5);
    /// assert_eq!((state.f64_lane(Register::Z(2), 0), state.f32_lane(Register::Z(2), 1)), (1.5, 1.9375));
    /// ```
    ///
    /// # Panics
    ///
    /// Where there is no such register or lane, as a slice does.
    pub fn f32_lane(&self, register: Register, lane: usize) -> f32 {
        f32::from_le_bytes(self.row(register)[bytes_of_lane(lane, 4)].try_into().expect("four bytes"))
    }

    /// A lane of 64 bits as a float.
    ///
    /// # Panics
    ///
    /// Where there is no such register or lane, as a slice does.
    pub fn f64_lane(&self, register: Register, lane: usize) -> f64 {
        f64::from_le_bytes(self.row(register)[bytes_of_lane(lane, 8)].try_into().expect("eight bytes"))
    }

    /// Writes a lane of 32 bits; a pattern is written by [`f32::from_bits`].
    ///
    /// # Panics
    ///
    /// Where there is no such register or lane, as a slice does.
    pub fn set_f32(&mut self, register: Register, lane: usize, value: f32) {
        self.row_mut(register)[bytes_of_lane(lane, 4)].copy_from_slice(&value.to_le_bytes());
    }

    /// Writes a lane of 64 bits; a pattern is written by [`f64::from_bits`].
    ///
    /// # Panics
    ///
    /// Where there is no such register or lane, as a slice does.
    pub fn set_f64(&mut self, register: Register, lane: usize, value: f64) {
        self.row_mut(register)[bytes_of_lane(lane, 8)].copy_from_slice(&value.to_le_bytes());
    }
}

impl Default for State {
    fn default() -> Self {
        State::new()
    }
}

/// Only the registers that are not all 0, and a count that is not 0.
impl fmt::Debug for State {
    fn fmt(&self, f: &mut fmt::Formatter) -> fmt::Result {
        let set = Register::all().filter(|&register| self.row(register).iter().any(|&byte| byte != 0));
        let mut map = f.debug_map();
        map.entries(set.map(|register| (register, self.row(register))));
        if self.count() != 0 {
            map.entry(&format_args!("count"), &self.count());
        }
        map.finish()
    }
}

#[cfg(test)]
mod tests {
    use super::*;

    #[test]
    fn lanes_are_little_endian_and_kept_modulo_their_width() {
        let mut state = State::new();
        for (width, value, stored) in [(Width::Bits8, 0x1ff, 0xff), (Width::Bits16, -1, 0xffff), (Width::Bits32, 1 << 32 | 5, 5)] {
            let last = width.lanes() - 1;
            state.set_lane(Register::Y(7), last, width, value);
            assert_eq!(state.lane(Register::Y(7), last, width), stored);
        }
        assert_eq!(state.bytes()[1_020..1_024], [5, 0, 0, 0]);
        state.set_lane(Register::Z(63), 15, Width::Bits32, -7);
        assert_eq!(state.signed_lane(Register::Z(63), 15, Width::Bits32), -7);
        assert_eq!(state.registers()[5_116..], [0xf9, 0xff, 0xff, 0xff]);
        assert_eq!(state.bytes()[5_116..], [0xf9, 0xff, 0xff, 0xff, 0, 0, 0, 0, 0, 0, 0, 0]);
    }

    #[test]
    fn floats_are_their_patterns_little_endian() {
        let mut state = State::new();
        state.set_f32(Register::X(7), 15, f32::from_bits(0xffc0_0001));
        state.set_f64(Register::Z(63), 7, f64::from_bits(0x7ff0_0000_0000_0203));
        assert_eq!(state.x()[508..], [1, 0, 0xc0, 0xff]);
        assert_eq!(state.registers()[5_112..], [3, 2, 0, 0, 0, 0, 0xf0, 0x7f]);
        assert_eq!(state.f32_lane(Register::X(7), 15).to_bits(), 0xffc0_0001);
        assert_eq!(state.f64_lane(Register::Z(63), 7).to_bits(), 0x7ff0_0000_0000_0203);
    }

    #[test]
    #[should_panic(expected = "no lane 8 of 8 bytes")]
    fn a_float_lane_past_the_last_panics() {
        State::new().set_f64(Register::Z(0), 8, 1.0);
    }

    #[test]
    #[should_panic(expected = "of 2 bytes")]
    fn a_lane_whose_place_is_past_all_numbers_is_not_lane_0() {
        State::new().lane(Register::Z(0), usize::MAX / 2 + 1, Width::Bits16);
    }

    #[test]
    fn the_count_follows_the_registers_and_leaves_them() {
        let mut state = State::from_registers(std::array::from_fn(|at| at as u8));
        assert_eq!((state.count(), state.bytes().len()), (0, 5_128));
        state.set_count(0x0102_0304_0506_0708);
        assert_eq!(state.bytes()[REGISTER_BYTES..], [8, 7, 6, 5, 4, 3, 2, 1]);
        assert!(state.registers().iter().enumerate().all(|(at, &byte)| byte == at as u8));
        assert_eq!(State::from_bytes(*state.bytes()).count(), 0x0102_0304_0506_0708);
    }

    #[test]
    fn debug_shows_what_is_not_0() {
        let mut state = State::new();
        assert_eq!(format!("{state:?}"), "{}");
        state.set_count(9);
        assert_eq!(format!("{state:?}"), "{count: 9}");
        state.set_lane(Register::Z(5), 0, Width::Bits8, 1);
        let row = format!("{:?}", state.row(Register::Z(5)));
        assert_eq!(format!("{state:?}"), format!("{{Z(5): {row}, count: 9}}"));
    }

    #[test]
    fn registers_follow_each_other() {
        let starts: Vec<usize> = Register::all().map(Register::start).collect();
        assert_eq!(starts, (0..80).map(|n| 64 * n).collect::<Vec<_>>());
    }

    #[test]
    #[should_panic(expected = "no register Z(64)")]
    fn a_row_past_the_last_panics() {
        State::new().row(Register::Z(64));
    }
}
