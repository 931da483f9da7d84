use crate::{Call, Instruction, LaneType, State, reference};
use std::{fmt, ops::Range};

/// What a step does to a Z lane that it enables: the numbers that come together there, and what becomes of them.
#[derive(Clone, Copy, Debug, PartialEq, Eq)]
pub struct LaneEffect {
    /// The row of Z, 0 to 63.
    pub row: usize,
    /// The lane in its row.
    pub lane: usize,
    /// The lane's bytes: 1, 2, 4 or 8.
    pub bytes: usize,
    /// The X number, 0 where X reads as 0; none where the operation does not use X.
    pub x: Option<Value>,
    /// The Y number, 0 where Y reads as 0; none where the operation does not use Y.
    pub y: Option<Value>,
    /// What the lane held; none where the operation does not use it.
    pub old: Option<Value>,
    /// What the operation gives: an integer as it is, before it is clamped and before it is kept modulo 2 to the lane's width; a float
    /// rounded once.
    pub result: Value,
    /// What the lane holds afterwards, as the step reads it.
    pub new: Value,
    /// How the new number comes from the result.
    pub kept: Kept,
}

/// A number in a lane, or on its way there.
///
/// `{}` writes an integer in decimal, and a float as a text of steps takes it: in decimal, `inf`, `-inf`, `nan` for the default NaN, and
/// other NaNs by their patterns.
///
/// ```
/// use amx::Value;
/// assert_eq!(Value::Integer(-3).to_string(), "-3");
/// assert_eq!(Value::Single(1.5f32.to_bits()).to_string(), "1.5");
/// assert_eq!(Value::Double((-0.0f64).to_bits()).to_string(), "-0");
/// assert_eq!([0x7fc0_0000, 0x7f80_0001].map(|pattern| Value::Single(pattern).to_string()), ["nan", "0x7f800001"]);
/// ```
#[derive(Clone, Copy, Debug, PartialEq, Eq, Hash)]
pub enum Value {
    /// An integer, as its signs make it.
    Integer(i64),
    /// An f32, by its pattern.
    Single(u32),
    /// An f64, by its pattern.
    Double(u64),
}

/// What becomes of an operation's result in its lane.
#[derive(Clone, Copy, Debug, PartialEq, Eq, Hash)]
pub enum Kept {
    /// The lane holds the result.
    Exact,
    /// The result is outside of the range that the step clamps to, and the lane holds the nearer end of that.
    Clamped,
    /// The result does not fit the lane, which holds it modulo 2 to its width.
    Wrapped,
}

/// What a call that is sent with the serial due does to each Z lane that it enables, by row and lane; nothing where it isn't done.
///
/// The numbers are the [`mod@reference`]'s, which is held to the proved step by comparisons.
///
/// ```
/// use amx::{Call, Generation, Kept, Mac16, Register, SideEnable, State, Value, Width, effects};
/// let mut state = State::new();
/// state.set_lane(Register::X(0), 0, Width::Bits16, 3);
/// state.set_lane(Register::Y(0), 0, Width::Bits16, -2);
/// state.set_lane(Register::Z(7), 0, Width::Bits16, -32_765);
/// let fields = Mac16::new().vector(true).z_row(7)?.x_enable(SideEnable::First(1))?;
///
/// let effects = effects(&state, Call::mac16(Generation::M1, fields));
/// assert_eq!((effects.len(), effects[0].row, effects[0].lane, effects[0].bytes), (1, 7, 0, 2));
/// assert_eq!((effects[0].x, effects[0].y), (Some(Value::Integer(3)), Some(Value::Integer(-2))));
/// assert_eq!(effects[0].old, Some(Value::Integer(-32_765)));
/// assert_eq!((effects[0].result, effects[0].new), (Value::Integer(-32_771), Value::Integer(32_765)));
/// assert_eq!(effects[0].kept, Kept::Wrapped);
/// assert_eq!(effects[0].to_string(), "x 3, y -2, z -32765 gives -32771, wrapped to 32765");
/// # Ok::<(), amx::FieldError>(())
/// ```
pub fn effects(state: &State, call: Call) -> Vec<LaneEffect> {
    effects_in(state, call, 0..64, 0..64)
}

/// Those of the [`effects`] that change a lane with a byte among these of a row of Z, `0..64` at most. It is quick for calls that have
/// none, so it may be asked step after step.
///
/// ```
/// use amx::{Call, State, effects_on};
/// // matrix 32: row 3 has 16 lanes of 4 bytes
/// let call = Call::new(14, 1, 1 << 62);
/// let lanes: Vec<usize> = effects_on(&State::new(), call, 3, 6..9).iter().map(|effect| effect.lane).collect();
/// assert_eq!(lanes, [1, 2]);
/// ```
pub fn effects_on(state: &State, call: Call, row: usize, bytes: Range<usize>) -> Vec<LaneEffect> {
    effects_in(state, call, row..row.saturating_add(1), bytes)
}

fn effects_in(state: &State, call: Call, rows: Range<usize>, bytes: Range<usize>) -> Vec<LaneEffect> {
    let Call { instruction, generation, operand } = call;
    let signed = reference::z_signed(instruction, operand);
    let mut effects = reference::effects(state.bytes(), instruction, generation, operand, rows, bytes);
    effects.sort_by_key(|(lane, _)| (lane.row, lane.lane));
    let float = matches!(Instruction::from_number(instruction), Some(Instruction::Fms64 | Instruction::Vecfp));
    effects.iter().map(|(lane, effect)| if float { of_float(lane, effect) } else { of_integer(lane, effect, signed) }).collect()
}

fn of_integer(lane: &reference::Lane, effect: &reference::Effect, signed: bool) -> LaneEffect {
    let unused = 64 - 8 * lane.bytes;
    let cut = effect.clamped << unused;
    let new = if signed { cut >> unused } else { (cut as u64 >> unused) as i64 };
    // a clamped result fits: no step clamps to more than its lane
    let kept = match new == effect.clamped {
        true if new == effect.result => Kept::Exact,
        true => Kept::Clamped,
        false => Kept::Wrapped,
    };
    lane_effect(lane, effect, new, kept, Value::Integer)
}

/// Every pattern fits its lane, and none is clamped.
fn of_float(lane: &reference::Lane, effect: &reference::Effect) -> LaneEffect {
    let value = |pattern: i64| if lane.bytes == 4 { Value::Single(pattern as u32) } else { Value::Double(pattern as u64) };
    lane_effect(lane, effect, effect.result, Kept::Exact, value)
}

fn lane_effect(lane: &reference::Lane, effect: &reference::Effect, new: i64, kept: Kept, value: impl Fn(i64) -> Value) -> LaneEffect {
    let [x, y, old] = [effect.x, effect.y, effect.old].map(|number| number.map(&value));
    LaneEffect { row: lane.row, lane: lane.lane, bytes: lane.bytes, x, y, old, result: value(effect.result), new: value(new), kept }
}

impl fmt::Display for Value {
    fn fmt(&self, f: &mut fmt::Formatter) -> fmt::Result {
        match *self {
            Value::Integer(number) => number.fmt(f),
            Value::Single(pattern) => f.pad(&LaneType::F32.print(&pattern.to_le_bytes())),
            Value::Double(pattern) => f.pad(&LaneType::F64.print(&pattern.to_le_bytes())),
        }
    }
}

/// `x 3, y -2, z 10 gives 4`, with what was wrapped or clamped.
impl fmt::Display for LaneEffect {
    fn fmt(&self, f: &mut fmt::Formatter) -> fmt::Result {
        let used = [("x", self.x), ("y", self.y), ("z", self.old)];
        let used: Vec<String> = used.iter().filter_map(|(name, value)| value.map(|value| format!("{name} {value}"))).collect();
        match used.is_empty() {
            true => write!(f, "it becomes {}", self.result)?,
            false => write!(f, "{} gives {}", used.join(", "), self.result)?,
        }
        match self.kept {
            Kept::Exact => Ok(()),
            Kept::Clamped => write!(f, ", clamped to {}", self.new),
            Kept::Wrapped => write!(f, ", wrapped to {}", self.new),
        }
    }
}

#[cfg(test)]
mod tests {
    use super::*;
    use crate::{Register, call::step_due, random::Random, text};
    use Kept::{Clamped, Exact, Wrapped};
    use Value::{Double, Integer, Single};

    /// The bytes of a lane that holds a value.
    fn stored(value: Value) -> [u8; 8] {
        match value {
            Integer(number) => number.to_le_bytes(),
            Single(pattern) => u64::from(pattern).to_le_bytes(),
            Double(pattern) => pattern.to_le_bytes(),
        }
    }

    #[test]
    fn the_new_numbers_stored_by_hand_are_the_state_that_the_proved_step_leaves() {
        let (mut random, mut kinds) = (Random::new(21), Vec::new());
        for _ in 0..2_000 {
            let (mut state, call) = (random.state(), random.call());
            let (mut by_hand, effects) = (state.clone(), effects(&state, call));
            assert!(effects.is_sorted_by_key(|effect| (effect.row, effect.lane)), "{call}");
            for effect in effects {
                let bytes = &mut by_hand.row_mut(Register::Z(effect.row))[effect.bytes * effect.lane..][..effect.bytes];
                bytes.copy_from_slice(&stored(effect.new)[..effect.bytes]);
                kinds.push(effect.kept);
            }
            let _ = step_due(&mut state, call); // whatever it answers
            assert!(by_hand.registers() == state.registers(), "{call}");
        }
        assert!([Exact, Clamped, Wrapped].iter().all(|kind| kinds.contains(kind)));
    }

    #[test]
    fn the_effects_on_some_bytes_are_those_of_all_that_have_one_there() {
        let mut random = Random::new(22);
        for _ in 0..2_000 {
            let (state, call) = (random.state(), random.call());
            let (row, start) = (random.below(64) as usize, random.below(64) as usize);
            let bytes = start..start + random.below(8) as usize;
            let mut all = effects(&state, call);
            all.retain(|effect| effect.row == row && (0..effect.bytes).any(|n| bytes.contains(&(effect.bytes * effect.lane + n))));
            assert_eq!(effects_on(&state, call, row, bytes.clone()), all, "row {row}, bytes {bytes:?}, {call}");
        }
        for row in [64, 65, usize::MAX] {
            assert_eq!(effects_on(&State::new(), Call::new(14, 1, 0), row, 0..64), []);
        }
    }

    #[test]
    fn a_step_that_is_not_done_has_no_effects() {
        let mut state = State::new();
        let sum = Call::new(14, 1, 0);
        assert_eq!(effects(&state, sum).len(), 1_024);
        for call in [Call::new(14, 3, 0), Call::new(15, 1, 0), Call::new(18, 1, 1 << 54), Call::new(11, 1, 0)] {
            assert_eq!(effects(&state, call), []);
        }
        state.set_count(u64::MAX);
        assert_eq!(effects(&state, sum), []);
    }

    fn call(step: &str) -> Call {
        step.parse().unwrap()
    }

    /// X, Y and old Z of a lane, where they are used, the result, the new number and how it came.
    type Numbers = ([Option<i64>; 3], i64, i64, Kept);

    /// Those of lane 0 of row 0, from X, Y and Z whose first bytes hold these numbers.
    fn lane_0(step: &str, x: i64, y: i64, z: i64) -> Numbers {
        let mut state = State::new();
        for (register, number) in [(Register::X(0), x), (Register::Y(0), y), (Register::Z(0), z)] {
            state.row_mut(register)[..8].copy_from_slice(&number.to_le_bytes());
        }
        let integer = |value| match value {
            Integer(number) => number,
            value => panic!("{value} is no integer"),
        };
        let effect = effects(&state, call(step))[0];
        ([effect.x, effect.y, effect.old].map(|value| value.map(integer)), integer(effect.result), integer(effect.new), effect.kept)
    }

    #[test]
    fn mac16_adds_and_wraps() {
        assert_eq!(lane_0("mac16 m1 vector", 3, -2, 10), ([Some(3), Some(-2), Some(10)], 4, 4, Exact));
        assert_eq!(lane_0("mac16 m1 vector", 1, 1, 32_767), ([Some(1), Some(1), Some(32_767)], 32_768, -32_768, Wrapped));
        assert_eq!(lane_0("mac16 m1 vector x_i8", 0x1ff, 5, 0), ([Some(-1), Some(5), Some(0)], -5, -5, Exact));
        assert_eq!(lane_0("mac16 m1 vector shift=1 skip_z", -3, 1, 9), ([Some(-3), Some(1), None], -2, -2, Exact));
        assert_eq!(lane_0("mac16 m1 vector skip_x", 3, -2, 10), ([None, Some(-2), Some(10)], 8, 8, Exact));
        assert_eq!(lane_0("mac16 m1 vector skip_y skip_z", 3, -2, 10), ([Some(3), None, None], 3, 3, Exact));
        assert_eq!(lane_0("mac16 m1 vector skip_x skip_y", 3, -2, 10), ([None, None, Some(10)], 10, 10, Exact));
        // 32-bit lanes hold what 16 bits would not
        assert_eq!(lane_0("mac16 m1 z_i32", 256, 256, 0), ([Some(256), Some(256), Some(0)], 65_536, 65_536, Exact));
    }

    #[test]
    fn vecint_has_the_numbers_that_its_mode_uses() {
        let (mode, max) = (|fields: &str| format!("vecint m2 x_signed y_signed {fields}"), 32_767);
        assert_eq!(lane_0(&mode("mode=5"), max, max, 2), ([Some(max), Some(max), Some(2)], 32_768, 32_767, Clamped));
        assert_eq!(lane_0(&mode("mode=5"), max, max, 0), ([Some(max), Some(max), Some(0)], 32_766, 32_766, Exact));
        assert_eq!(lane_0(&mode("mode=6"), max, max, -3), ([Some(max), Some(max), Some(-3)], -32_769, -32_768, Clamped));
        assert_eq!(lane_0(&mode("mode=6"), 1, 16_384, 0), ([Some(1), Some(16_384), Some(0)], -1, -1, Exact));
        assert_eq!(lane_0(&mode("mode=10"), 3, -2, 10), ([Some(3), Some(-2), None], -6, -6, Exact));
        assert_eq!(lane_0(&mode("mode=11"), 3, -2, 10), ([Some(3), None, Some(10)], 13, 13, Exact));
        assert_eq!(lane_0(&mode("mode=12"), 3, -2, 10), ([None, Some(-2), Some(10)], 8, 8, Exact));
        assert_eq!(lane_0("vecint m1 widths=11 y_signed", 255, -1, 0), ([Some(255), Some(-1), Some(0)], -255, -255, Exact));
        // read as 0 is used; an output of 0 uses nothing
        assert_eq!(lane_0(&mode("enable_value=4"), 3, -2, 10), ([Some(0), Some(-2), Some(10)], 10, 10, Exact));
        assert_eq!(lane_0(&mode("enable_value=5"), 3, -2, 10), ([Some(3), Some(0), Some(10)], 10, 10, Exact));
        assert_eq!(lane_0(&mode("enable_value=3"), 3, -2, 10), ([None; 3], 0, 0, Exact));
        assert_eq!(lane_0(&mode("several broadcast_mode=1"), 3, -2, 10), ([None; 3], 0, 0, Exact));
    }

    #[test]
    fn mode_4_reads_z_by_its_own_signs() {
        let z = |fields: &str, z: i64| lane_0(&format!("vecint m1 mode=4 {fields}"), 0, 0, z);
        let old = |old: i64, result, new, kept| ([None, None, Some(old)], result, new, kept);
        assert_eq!(z("widths=11 z_signed saturate saturate_signed", 300), old(300, 300, 127, Clamped));
        assert_eq!(z("widths=11 z_signed saturate saturate_signed", -300), old(-300, -300, -128, Clamped));
        assert_eq!(z("widths=11 z_signed saturate", -5), old(-5, -5, 0, Clamped));
        assert_eq!(z("widths=11 z_signed saturate", 300), old(300, 300, 255, Clamped));
        // where the signs of Z and of the saturation differ, what is stored is the same number by both
        assert_eq!(z("saturate", -1), old(65_535, 65_535, 65_535, Exact));
        assert_eq!(z("z_signed saturate", 32_767), old(32_767, 32_767, 32_767, Exact));
        assert_eq!(z("saturate saturate_signed", -1), old(65_535, 65_535, 32_767, Clamped));
        assert_eq!(z("widths=4 z_signed saturate", i64::from(i32::MIN)), old(-2_147_483_648, -2_147_483_648, 0, Clamped));
        // nothing is clamped: by bit 63 alone
        assert_eq!(z("widths=3 z_signed shift=1", -5), old(-5, -3, -3, Exact));
        assert_eq!(z("widths=3 z_signed shift=1 rounding", -5), old(-5, -2, -2, Exact));
        assert_eq!(z("widths=3", -1), old(4_294_967_295, 4_294_967_295, 4_294_967_295, Exact));
        assert_eq!(z("widths=9 saturate_signed", -1), old(255, 255, 255, Exact));
        assert_eq!(z("widths=9 enable_value=3", -1), ([None; 3], 0, 0, Exact));
    }

    #[test]
    fn floats_are_told_by_their_patterns() {
        let mut state = State::new();
        for (register, number) in [(Register::X(0), 1.5), (Register::Y(0), -2.0), (Register::Z(0), 0.25)] {
            state.set_f32(register, 0, number);
            state.set_f64(register, 1, number.into());
        }
        let single = |step: &str| effects(&state, call(step))[0];
        let double = |step: &str| effects(&state, call(step))[1];
        for (mode, x, y, old, result) in [
            (4, Some(1.5), Some(-2.0), None, -2.0),
            (10, Some(1.5), Some(-2.0), None, -3.0),
            (11, Some(1.5), None, Some(0.25), 1.75),
            (12, None, Some(-2.0), Some(0.25), -1.75),
        ] {
            let value = |float: f32| Single(float.to_bits());
            let effect = single(&format!("vecfp m2 mode={mode} widths=4"));
            assert_eq!(([effect.x, effect.y, effect.old], effect.bytes), ([x, y, old].map(|float| float.map(value)), 4));
            assert_eq!((effect.result, effect.new, effect.kept), (value(result), value(result), Exact));
            let value = |float: f32| Double(f64::from(float).to_bits());
            let effect = double(&format!("vecfp m2 mode={mode} widths=7"));
            assert_eq!(([effect.x, effect.y, effect.old], effect.bytes), ([x, y, old].map(|float| float.map(value)), 8));
            assert_eq!((effect.result, effect.new, effect.kept), (value(result), value(result), Exact));
        }
        let [moved, zero] = ["", " skip_z"].map(|skip| double(&format!("fms64 m1 vector skip_x skip_y{skip}")));
        assert_eq!((moved.x, moved.y, moved.old, moved.new), (None, None, Some(Double(0.25f64.to_bits())), Double(0.25f64.to_bits())));
        assert_eq!((zero.x, zero.y, zero.old, zero.new), (None, None, None, Double((-0.0f64).to_bits())));
        let difference = double("fms64 m1 vector skip_y");
        assert_eq!((difference.y, difference.new), (None, Double((-1.25f64).to_bits())));
    }

    #[test]
    fn a_float_is_written_as_a_text_takes_it() {
        let mut random = Random::new(23);
        for _ in 0..500 {
            let state = random.state();
            let (single, double) = (state.f32_lane(Register::X(1), 0).to_bits(), state.f64_lane(Register::Y(2), 0).to_bits());
            let start = text::assemble(&format!("x 1 f32: {}\ny 2 f64: {}\n", Single(single), Double(double))).unwrap();
            assert_eq!(start.start().f32_lane(Register::X(1), 0).to_bits(), single, "{}", Single(single));
            assert_eq!(start.start().f64_lane(Register::Y(2), 0).to_bits(), double, "{}", Double(double));
        }
        let words =
            [1e30, 1e-7, f32::INFINITY, f32::NEG_INFINITY, 100.0, f32::from_bits(1)].map(|float| Single(float.to_bits()).to_string());
        assert_eq!(words, ["1e30", "1e-7", "inf", "-inf", "100", "1e-45"]);
        assert_eq!(format!("{:>5}|{:<4}|", Integer(-3), Single(0)), "   -3|0   |");
    }
}
