//! What fields say, as enums that have no reserved values.

use super::{
    field::{Field, FieldError},
    table::{BROADCAST_MODE, ENABLE_MODE, FOUR, SEVERAL},
};

/// What a vecint does in each lane, with s for the shift. The discriminant is the ALU mode.
///
/// Mode 4 works on Z alone, and is a [`Reduction`](crate::Reduction). The modes that are not here are reserved, and no-ops:
/// [`with_field`](crate::with_field) and [`Call::new`](crate::Call::new) take them.
#[derive(Clone, Copy, Debug, PartialEq, Eq, Hash)]
pub enum AluMode {
    /// z + ((x*y) >> s).
    AddProduct = 0,
    /// z - ((x*y) >> s).
    SubtractProduct = 1,
    /// z + ((x+y) >> s).
    AddSum = 2,
    /// z - ((x+y) >> s).
    SubtractSum = 3,
    /// z + ((x*y + 16384) >> 15), clamped to -32768..32767. All lanes are of 16 bits: lane widths and shift are ignored.
    AddRoundedProduct = 5,
    /// z - ((x*y + 16384) >> 15), likewise.
    SubtractRoundedProduct = 6,
    /// (x*y) >> s. It came with M2: on M1 it is [a no-op](crate::Reason::LaterMode), and so are the next two.
    Product = 10,
    /// z + (x >> s), on M2.
    AddX = 11,
    /// z + (y >> s), on M2.
    AddY = 12,
}

/// What a vecfp does in each lane, rounded once. The discriminant is the ALU mode.
///
/// The unit does not cover modes 0, 1, 5 and 7; the others that are not here are reserved, and no-ops. [`with_field`](crate::with_field)
/// and [`Call::new`](crate::Call::new) take them all.
#[derive(Clone, Copy, Debug, PartialEq, Eq, Hash)]
pub enum FloatMode {
    /// +0 where x <= 0, else y, bit for bit.
    Select = 4,
    /// x*y. It came with M2: on M1 it is [a no-op](crate::Reason::LaterMode), and so are the next two.
    Product = 10,
    /// z + x, on M2.
    AddX = 11,
    /// z + y, on M2.
    AddY = 12,
}

/// The format of vecfp's lanes. The discriminant is the number of the lane widths.
#[derive(Clone, Copy, Debug, PartialEq, Eq, Hash)]
pub enum Float {
    /// f32: 16 lanes in a row.
    Single = 4,
    /// f64: 8 lanes in a row.
    Double = 7,
}

/// The bits of a lane of X, of Y and of Z in a vecint. The discriminant is the number of the lane widths.
///
/// Where Z's lanes are wider than the narrower of X and Y, the lanes of a vector go to two rows of Z in turn, or to four.
#[derive(Clone, Copy, Debug, Default, PartialEq, Eq, Hash)]
pub enum LaneWidths {
    /// X 16, Y 16, Z 16: one row.
    #[default]
    X16Y16Z16 = 0,
    /// X 16, Y 16, Z 32: two rows.
    X16Y16Z32 = 3,
    /// X 8, Y 8, Z 32: four rows.
    X8Y8Z32 = 10,
    /// X 8, Y 8, Z 16: two rows.
    X8Y8Z16 = 11,
    /// X 8, Y 16, Z 32: four rows, and each lane of Y is used twice.
    X8Y16Z32 = 12,
    /// X 16, Y 8, Z 32: four rows, and each lane of X is used twice.
    X16Y8Z32 = 13,
}

/// The bits of a lane of Z in a [`Reduction`](crate::Reduction), and those that it is clamped to where it saturates. The discriminant is
/// the number of the lane widths.
#[derive(Clone, Copy, Debug, Default, PartialEq, Eq, Hash)]
pub enum ReductionWidths {
    /// Z 16, clamped to 16.
    #[default]
    Z16To16 = 0,
    /// Z 32, clamped to 16.
    Z32To16 = 3,
    /// Z 32, clamped to 32.
    Z32To32 = 4,
    /// Z 8, clamped to 8.
    Z8To8 = 9,
    /// Z 32, clamped to 8.
    Z32To8 = 10,
    /// Z 16, clamped to 8.
    Z16To8 = 11,
}

/// The lanes of X, or of Y, that a mac16 or an fms64 enables: an enable mode and its value. mac16 has 32 lanes on a side, fms64 has 8.
///
/// Values go to 31; one that does not fit is an error of the builder. **The first 0 lanes, or the last 0, are all of them**: a loop whose
/// lanes have run out must not send its step. The first or last n of fewer lanes are all of them too.
#[derive(Clone, Copy, Debug, Default, PartialEq, Eq, Hash)]
pub enum SideEnable {
    /// All lanes: mode 0, value 0.
    #[default]
    All,
    /// Odd lanes: mode 0, value 1.
    Odd,
    /// Even lanes: mode 0, value 2.
    Even,
    /// Lane n alone: mode 1. There is no lane of fms64 from 8 on, and none is enabled then.
    Lane(u64),
    /// The first n lanes, **all where n is 0**: mode 2.
    First(u64),
    /// The last n lanes, **all where n is 0**: mode 3.
    Last(u64),
}

/// The lanes that a vecint or a vecfp of one vector enables, and what it reads or writes in place of others: an enable mode and its value.
///
/// Values go to 63 in a vecint and to 31 in a vecfp; one that does not fit is an error of the builder. The first or last n of fewer lanes
/// are all of them. **Of [`First`](Self::First) and [`Last`](Self::Last), 0 lanes are all**; where n is counted down to 0, use
/// [`FirstOrNone`](Self::FirstOrNone) and [`LastOrNone`](Self::LastOrNone).
#[derive(Clone, Copy, Debug, Default, PartialEq, Eq, Hash)]
pub enum Enable {
    /// All lanes: mode 0, value 0.
    #[default]
    All,
    /// Odd lanes: mode 0, value 1.
    Odd,
    /// Even lanes: mode 0, value 2.
    Even,
    /// All lanes, and 0 is written to each: mode 0, value 3.
    ZeroOutput,
    /// All lanes, and X is read as 0: mode 0, value 4.
    ZeroX,
    /// All lanes, and Y is read as 0: mode 0, value 5.
    ZeroY,
    /// All lanes, with lane n of Y, modulo Y's lanes, for every lane: mode 1.
    BroadcastY(u64),
    /// The first n lanes, **all where n is 0**: mode 2.
    First(u64),
    /// The last n lanes, **all where n is 0**: mode 3.
    Last(u64),
    /// The first n lanes, none where n is 0: mode 4.
    FirstOrNone(u64),
    /// The last n lanes, none where n is 0: mode 5.
    LastOrNone(u64),
    /// No lane: mode 6.
    NoLane,
}

/// What each of several vectors reads. All lanes are enabled. The discriminant is the broadcast mode.
#[derive(Clone, Copy, Debug, Default, PartialEq, Eq, Hash)]
pub enum Broadcast {
    /// X and Y, each 64 bytes on from the last vector's.
    #[default]
    Consecutive = 0,
    /// 0 is written to every lane.
    ZeroOutput = 1,
    /// The first vector's X, and each vector's Y.
    SameX = 2,
    /// Each vector's X, and the first vector's Y.
    SameY = 3,
    /// X is read as 0.
    ZeroX = 4,
    /// Y is read as 0.
    ZeroY = 5,
    /// Lane 0 of the first vector's X for every lane of every vector, and each vector's Y.
    Lane0OfX = 6,
    /// Each vector's X, and lane 0 of the first vector's Y for every lane of every vector.
    Lane0OfY = 7,
}

/// How many vectors a vecint or a vecfp does on M2, and with which lanes. M1 does one, so that its builders take an [`Enable`] alone.
#[derive(Clone, Copy, Debug, PartialEq, Eq, Hash)]
pub enum Vectors {
    /// One, of some lanes.
    One(Enable),
    /// Two, at Z row and 32 rows on.
    Two(Broadcast),
    /// Four, at Z row and each 16 rows on.
    Four(Broadcast),
}

/// X or Y: the side that an indexed load is of. The discriminant is the field's value.
#[derive(Clone, Copy, Debug, PartialEq, Eq, Hash)]
pub enum Side {
    /// X: the indices are at the X offset, and choose from a register of X.
    X = 0,
    /// Y, likewise.
    Y = 1,
}

/// The width of an indexed load's indices. The discriminant is the field's value.
#[derive(Clone, Copy, Debug, PartialEq, Eq, Hash)]
pub enum IndexBits {
    /// Two bits: an index names one of the register's first 4 elements.
    Two = 0,
    /// Four bits: one of its first 16.
    Four = 1,
}

impl SideEnable {
    /// The enable mode and value.
    fn numbers(self) -> (u64, u64) {
        match self {
            SideEnable::All => (0, 0),
            SideEnable::Odd => (0, 1),
            SideEnable::Even => (0, 2),
            SideEnable::Lane(n) => (1, n),
            SideEnable::First(n) => (2, n),
            SideEnable::Last(n) => (3, n),
        }
    }

    /// An operand that enables these lanes of a side, whose fields these are.
    pub(super) fn set(self, operand: u64, mode: &Field, value: &'static Field) -> Result<u64, FieldError> {
        set_enable(operand, mode, value, self.numbers())
    }
}

impl Enable {
    /// The enable mode and value.
    fn numbers(self) -> (u64, u64) {
        match self {
            Enable::All => (0, 0),
            Enable::Odd => (0, 1),
            Enable::Even => (0, 2),
            Enable::ZeroOutput => (0, 3),
            Enable::ZeroX => (0, 4),
            Enable::ZeroY => (0, 5),
            Enable::BroadcastY(n) => (1, n),
            Enable::First(n) => (2, n),
            Enable::Last(n) => (3, n),
            Enable::FirstOrNone(n) => (4, n),
            Enable::LastOrNone(n) => (5, n),
            Enable::NoLane => (6, 0),
        }
    }
}

impl Vectors {
    /// An operand of these vectors. The enable value is that of the instruction: it is wider in a vecint than in a vecfp.
    pub(super) fn set(self, operand: u64, value: &'static Field) -> Result<u64, FieldError> {
        let several = |four, mode: Broadcast| BROADCAST_MODE.put(FOUR.put(SEVERAL.put(operand, 1), four), mode as u64);
        match self {
            Vectors::One(enable) => set_enable(operand, &ENABLE_MODE, value, enable.numbers()),
            Vectors::Two(mode) => Ok(several(0, mode)),
            Vectors::Four(mode) => Ok(several(1, mode)),
        }
    }
}

fn set_enable(operand: u64, mode: &Field, value: &'static Field, numbers: (u64, u64)) -> Result<u64, FieldError> {
    value.set(mode.put(operand, numbers.0), numbers.1)
}

#[cfg(test)]
mod tests {
    use super::*;
    use crate::{
        Call, Fms64,
        Generation::{M1, M2},
        Mac16, Reduction, Register, State, Vecfp, Vecint, Width, reference, step,
    };
    use Width::Bits16;

    type Test = Result<(), FieldError>;

    /// The lanes of the row of Z that a call enables first.
    fn lanes(call: Call) -> Vec<usize> {
        let lanes = reference::lanes(call.instruction, call.generation, call.operand);
        let row = lanes.first().map_or(0, |lane| lane.row);
        lanes.iter().filter(|lane| lane.row == row).map(|lane| lane.lane).collect()
    }

    /// Those of `count` lanes that are among the first n, or all where n is 0.
    fn first(n: u64, count: usize) -> Vec<usize> {
        (0..count).filter(|&lane| n == 0 || lane < n as usize).collect()
    }

    /// Those that are among the last n, likewise.
    fn last(n: u64, count: usize) -> Vec<usize> {
        (0..count).filter(|&lane| n == 0 || count - lane <= n as usize).collect()
    }

    fn odd(count: usize) -> Vec<usize> {
        (1..count).step_by(2).collect()
    }

    fn even(count: usize) -> Vec<usize> {
        (0..count).step_by(2).collect()
    }

    /// Every enable of a side, and the lanes of so many that it says.
    fn side_enables(count: usize) -> Vec<(SideEnable, Vec<usize>)> {
        let all = (0..count).collect();
        let mut enables = vec![(SideEnable::All, all), (SideEnable::Odd, odd(count)), (SideEnable::Even, even(count))];
        for n in 0..32 {
            enables.push((SideEnable::Lane(n), (0..count).filter(|&lane| lane == n as usize).collect()));
            enables.push((SideEnable::First(n), first(n, count)));
            enables.push((SideEnable::Last(n), last(n, count)));
        }
        enables
    }

    #[test]
    fn a_side_enables_the_lanes_that_are_named() -> Test {
        for (enable, expected) in side_enables(32) {
            assert_eq!(lanes(Call::mac16(M1, Mac16::new().vector(true).x_enable(enable)?)), expected, "X {enable:?}");
            // a lane of Y is two rows of Z, of which the Z row says one
            let call = Call::mac16(M2, Mac16::new().x_enable(SideEnable::Lane(0))?.y_enable(enable)?.z_row(1)?);
            let rows: Vec<usize> = reference::lanes(14, 2, call.operand).iter().map(|lane| lane.row).collect();
            assert_eq!(rows, expected.iter().map(|j| 2 * j + 1).collect::<Vec<_>>(), "Y {enable:?}");
        }
        for (enable, expected) in side_enables(8) {
            let fields = Fms64::new().skip_y(true);
            assert_eq!(lanes(Call::fms64(M1, fields.vector(true).x_enable(enable)?)), expected, "X {enable:?}");
            let call = Call::fms64(M2, fields.x_enable(SideEnable::Lane(0))?.y_enable(enable)?.z_row(5)?);
            let rows: Vec<usize> = reference::lanes(11, 2, call.operand).iter().map(|lane| lane.row).collect();
            assert_eq!(rows, expected.iter().map(|j| 8 * j + 5).collect::<Vec<_>>(), "Y {enable:?}");
        }
        assert_eq!(lanes(Call::mac16(M1, Mac16::new().vector(true).x_enable(SideEnable::First(3))?)), [0, 1, 2]);
        Ok(())
    }

    /// Every enable of one vector whose values go to `most`, and the lanes of so many that it says.
    fn enables(most: u64, count: usize) -> Vec<(Enable, Vec<usize>)> {
        let all: Vec<usize> = (0..count).collect();
        let mut enables = vec![(Enable::Odd, odd(count)), (Enable::Even, even(count)), (Enable::NoLane, Vec::new())];
        enables.extend([Enable::All, Enable::ZeroOutput, Enable::ZeroX, Enable::ZeroY].map(|enable| (enable, all.clone())));
        for n in 0..=most {
            let none_of_0 = |lanes| if n == 0 { Vec::new() } else { lanes };
            enables.push((Enable::BroadcastY(n), all.clone()));
            enables.push((Enable::First(n), first(n, count)));
            enables.push((Enable::Last(n), last(n, count)));
            enables.push((Enable::FirstOrNone(n), none_of_0(first(n, count))));
            enables.push((Enable::LastOrNone(n), none_of_0(last(n, count))));
        }
        enables
    }

    #[test]
    fn a_vector_enables_the_lanes_that_are_named() -> Test {
        for (enable, expected) in enables(63, 32) {
            assert_eq!(lanes(Call::vecint(Vecint::m1(AluMode::AddProduct, enable)?)), expected, "{enable:?}");
            assert_eq!(lanes(Call::vecint(Vecint::m2(AluMode::AddX, Vectors::One(enable))?)), expected, "{enable:?}");
            assert_eq!(lanes(Call::reduction(Reduction::m1(enable)?)), expected, "{enable:?}");
        }
        // of 64 lanes, a reduction's row has all
        for (enable, expected) in enables(63, 64) {
            assert_eq!(lanes(Call::reduction(Reduction::m1(enable)?.lane_widths(ReductionWidths::Z8To8))), expected, "{enable:?}");
        }
        for (format, count) in [(Float::Single, 16), (Float::Double, 8)] {
            for (enable, expected) in enables(31, count) {
                assert_eq!(lanes(Call::vecfp(Vecfp::m1(FloatMode::Select, format, enable)?)), expected, "{enable:?}");
            }
        }
        Ok(())
    }

    #[test]
    fn a_value_that_does_not_fit_is_an_error() {
        let wrong = |error: Option<FieldError>, words: &str| assert_eq!(error.map(|error| error.to_string()), Some(words.to_owned()));
        for enable in [SideEnable::Lane(32), SideEnable::First(32), SideEnable::Last(32)] {
            wrong(Mac16::new().x_enable(enable).err(), "x_enable_value (bits 41..45) is 0 to 31, not 32");
            wrong(Fms64::new().y_enable(enable).err(), "y_enable_value (bits 32..36) is 0 to 31, not 32");
        }
        for enable in [Enable::BroadcastY, Enable::First, Enable::Last, Enable::FirstOrNone, Enable::LastOrNone] {
            wrong(Vecint::m1(AluMode::AddSum, enable(64)).err(), "enable_value (bits 32..37) is 0 to 63, not 64");
            wrong(Vecint::m1_indexed(Side::Y, IndexBits::Two, 0, enable(64)).err(), "enable_value (bits 32..37) is 0 to 63, not 64");
            wrong(Reduction::m2(Vectors::One(enable(u64::MAX))).err(), &format!("enable_value (bits 32..37) is 0 to 63, not {}", u64::MAX));
            wrong(Vecfp::m1(FloatMode::Select, Float::Single, enable(32)).err(), "enable_value (bits 32..36) is 0 to 31, not 32");
        }
    }

    /// Lane 0 of Z row 0 after a step that is done.
    fn lane_0(call: Call, x: i64, y: i64, z: i64) -> i32 {
        let mut state = State::new();
        for (register, value) in [(Register::X(0), x), (Register::Y(0), y), (Register::Z(0), z)] {
            state.set_lane(register, 0, Bits16, value);
        }
        assert!(step(&mut state, call, 0).is_done());
        state.signed_lane(Register::Z(0), 0, Bits16)
    }

    #[test]
    fn an_alu_mode_does_what_its_name_says() -> Test {
        let (x, y, z, s) = (1_200i64, -45i64, 77i64, 3);
        let rounded = (x * y + 16_384) >> 15;
        for (mode, number, result) in [
            (AluMode::AddProduct, 0, z + ((x * y) >> s)),
            (AluMode::SubtractProduct, 1, z - ((x * y) >> s)),
            (AluMode::AddSum, 2, z + ((x + y) >> s)),
            (AluMode::SubtractSum, 3, z - ((x + y) >> s)),
            (AluMode::AddRoundedProduct, 5, z + rounded),
            (AluMode::SubtractRoundedProduct, 6, z - rounded),
            (AluMode::Product, 10, (x * y) >> s),
            (AluMode::AddX, 11, z + (x >> s)),
            (AluMode::AddY, 12, z + (y >> s)),
        ] {
            let fields = Vecint::m2(mode, Vectors::One(Enable::All))?.x_signed(true).y_signed(true).shift(s)?;
            assert_eq!(fields.operand(), 1 << 63 | 3 << 58 | number << 47 | 1 << 26);
            assert_eq!(i64::from(lane_0(Call::vecint(fields), x, y, z)), result, "{mode:?}");
        }
        Ok(())
    }

    #[test]
    fn a_float_mode_does_what_its_name_says() -> Test {
        let (x, y, z) = (1.5f32, -0.25f32, 10.0f32);
        for (mode, number, result) in
            [(FloatMode::Select, 4, y), (FloatMode::Product, 10, x * y), (FloatMode::AddX, 11, z + x), (FloatMode::AddY, 12, z + y)]
        {
            for (format, widths) in [(Float::Single, 4), (Float::Double, 7)] {
                let fields = Vecfp::m2(mode, format, Vectors::One(Enable::All))?;
                assert_eq!(fields.operand(), number << 47 | widths << 42);
                let mut state = State::new();
                for (register, value) in [(Register::X(0), x), (Register::Y(0), y), (Register::Z(0), z)] {
                    match format {
                        Float::Single => state.set_f32(register, 15, value),
                        Float::Double => state.set_f64(register, 7, value.into()),
                    }
                }
                assert!(step(&mut state, Call::vecfp(fields), 0).is_done());
                let lane = match format {
                    Float::Single => state.f32_lane(Register::Z(0), 15),
                    Float::Double => state.f64_lane(Register::Z(0), 7) as f32,
                };
                assert_eq!(lane, result, "{mode:?} {format:?}");
            }
        }
        Ok(())
    }

    #[test]
    fn widths_have_the_bits_of_their_names() -> Test {
        for (widths, number, rows, z_bits) in [
            (LaneWidths::X16Y16Z16, 0, 1, 16),
            (LaneWidths::X16Y16Z32, 3, 2, 32),
            (LaneWidths::X8Y8Z32, 10, 4, 32),
            (LaneWidths::X8Y8Z16, 11, 2, 16),
            (LaneWidths::X8Y16Z32, 12, 4, 32),
            (LaneWidths::X16Y8Z32, 13, 4, 32),
        ] {
            let call = Call::vecint(Vecint::m1(AluMode::AddProduct, Enable::All)?.lane_widths(widths));
            assert_eq!(call.operand, number << 42);
            let lanes = reference::lanes(18, 1, call.operand);
            assert!(lanes.len() == rows * 512 / z_bits && lanes.iter().all(|lane| lane.bytes == z_bits / 8 && lane.row < rows));
        }
        // the bytes of lane 1 of X and of Y show where each is read
        for (widths, x_bits, y_bits) in [(LaneWidths::X8Y16Z32, 8, 16), (LaneWidths::X16Y8Z32, 16, 8)] {
            let mut state = State::new();
            state.x_mut()[x_bits / 8] = 3;
            state.y_mut()[y_bits / 8] = 5;
            let sum = Vecint::m1(AluMode::AddSum, Enable::All)?.lane_widths(widths);
            assert!(step(&mut state, Call::vecint(sum), 0).is_done());
            let lanes = [1, 2, 3].map(|k| state.lane(Register::Z(k), 0, Width::Bits32));
            assert_eq!(lanes, if x_bits == 8 { [3, 5, 5] } else { [5, 3, 3] });
        }
        Ok(())
    }

    #[test]
    fn reductions_have_the_bits_of_their_names() -> Test {
        for (widths, number, z_width, saturation) in [
            (ReductionWidths::Z16To16, 0, Width::Bits16, 16),
            (ReductionWidths::Z32To16, 3, Width::Bits32, 16),
            (ReductionWidths::Z32To32, 4, Width::Bits32, 32),
            (ReductionWidths::Z8To8, 9, Width::Bits8, 8),
            (ReductionWidths::Z32To8, 10, Width::Bits32, 8),
            (ReductionWidths::Z16To8, 11, Width::Bits16, 8),
        ] {
            let fields = Reduction::m1(Enable::All)?.lane_widths(widths).z_signed(true).saturate(true).saturate_signed(true);
            assert_eq!(fields.operand(), 1 << 63 | 4 << 47 | number << 42 | 1 << 30 | 1 << 26);
            // the lowest of a lane is clamped to the lowest of the saturation, and the lane after it stays
            let mut state = State::new();
            state.set_lane(Register::Z(0), 0, z_width, -1 << (8 * z_width.bytes() - 1));
            state.set_lane(Register::Z(0), 1, z_width, 1);
            assert!(step(&mut state, Call::reduction(fields), 0).is_done());
            assert_eq!(i64::from(state.signed_lane(Register::Z(0), 0, z_width)), -1 << (saturation - 1), "{widths:?}");
            assert_eq!(state.lane(Register::Z(0), 1, z_width), 1, "{widths:?}");
        }
        Ok(())
    }

    #[test]
    fn a_broadcast_reads_what_its_name_says() -> Test {
        // lane 9 of vector v is x[v] + y[v]; the lanes 0 of the first are 1,000 and 2,000
        let (x, y) = ([1, 2, 3, 4], [10, 20, 30, 40]);
        let mut state = State::new();
        for v in 0..4 {
            state.set_lane(Register::X(v), 9, Bits16, x[v]);
            state.set_lane(Register::Y(v), 9, Bits16, y[v]);
            state.set_lane(Register::Z(5 + 16 * v), 9, Bits16, 7);
        }
        state.set_lane(Register::X(0), 0, Bits16, 1_000);
        state.set_lane(Register::Y(0), 0, Bits16, 2_000);
        for (broadcast, number, x, y) in [
            (Broadcast::Consecutive, 0, x, y),
            (Broadcast::ZeroOutput, 1, x, y),
            (Broadcast::SameX, 2, [1; 4], y),
            (Broadcast::SameY, 3, x, [10; 4]),
            (Broadcast::ZeroX, 4, [0; 4], y),
            (Broadcast::ZeroY, 5, x, [0; 4]),
            (Broadcast::Lane0OfX, 6, [1_000; 4], y),
            (Broadcast::Lane0OfY, 7, x, [2_000; 4]),
        ] {
            let four = Vecint::m2(AluMode::AddSum, Vectors::Four(broadcast))?.z_row(5)?;
            assert_eq!(four.operand(), 2 << 47 | number << 32 | 1 << 31 | 1 << 25 | 5 << 20);
            let mut after = state.clone();
            assert_eq!(step(&mut after, Call::vecint(four), 0).done(), Ok(256));
            for v in 0..4 {
                let sum = if broadcast == Broadcast::ZeroOutput { 0 } else { 7 + x[v] + y[v] };
                assert_eq!(i64::from(after.lane(Register::Z(5 + 16 * v), 9, Bits16)), sum, "{broadcast:?} {v}");
            }
            // two vectors are 32 rows apart, and all lanes of every vector are enabled
            let two = Vecint::m2(AluMode::AddSum, Vectors::Two(broadcast))?.z_row(31)?;
            assert_eq!(two.operand(), 2 << 47 | number << 32 | 1 << 31 | 31 << 20);
            let places = |rows: &[usize]| rows.iter().flat_map(|&row| (0..32).map(move |lane| (row, lane))).collect::<Vec<_>>();
            for (fields, rows) in [(four, &[5, 21, 37, 53][..]), (two, &[31, 63])] {
                let lanes = reference::lanes(18, 2, fields.operand());
                assert_eq!(lanes.iter().map(|lane| (lane.row, lane.lane)).collect::<Vec<_>>(), places(rows), "{broadcast:?}");
            }
        }
        Ok(())
    }

    #[test]
    fn an_enable_reads_and_writes_what_its_name_says() -> Test {
        let sum = |enable| Vecint::m1(AluMode::AddSum, enable).map(Call::vecint);
        assert_eq!(lane_0(sum(Enable::All)?, 3, 5, 7), 15);
        assert_eq!(lane_0(sum(Enable::ZeroOutput)?, 3, 5, 7), 0);
        assert_eq!(lane_0(sum(Enable::ZeroX)?, 3, 5, 7), 12);
        assert_eq!(lane_0(sum(Enable::ZeroY)?, 3, 5, 7), 10);
        assert_eq!(lane_0(sum(Enable::BroadcastY(32))?, 3, 5, 7), 15);
        assert_eq!(lane_0(sum(Enable::BroadcastY(1))?, 3, 5, 7), 10);
        assert_eq!(lane_0(sum(Enable::NoLane)?, 3, 5, 7), 7);
        // of Z alone
        let reduction = |enable| Reduction::m1(enable)?.shift(1).map(Call::reduction);
        assert_eq!(lane_0(reduction(Enable::ZeroOutput)?, 3, 5, 8), 0);
        for enable in [Enable::All, Enable::ZeroX, Enable::ZeroY, Enable::BroadcastY(1)] {
            assert_eq!(lane_0(reduction(enable)?, 3, 5, 8), 4, "{enable:?}");
        }
        Ok(())
    }
}
