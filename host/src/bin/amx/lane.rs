//! A lane of Z, as `why` and `diff` speak of it.
use amx::{Kept, LaneEffect, LaneType, Register, State, Value};
use std::{fmt, ops::Range};

/// A lane, and how it is read.
#[derive(Clone, Copy, Debug, PartialEq, Eq)]
pub struct Lane {
    pub row: usize,
    pub lane: usize,
    pub read_as: LaneType,
}

impl Lane {
    /// The lane of an effect, read as the step reads it; a lane of mode 4 may be unsigned, and is read as signed all the same.
    pub fn of(effect: &LaneEffect) -> Self {
        let read_as = match (effect.result, effect.bytes) {
            (Value::Single(_), _) => LaneType::F32,
            (Value::Double(_), _) => LaneType::F64,
            (_, 1) => LaneType::I8,
            (_, 2) => LaneType::I16,
            _ => LaneType::I32,
        };
        Lane { row: effect.row, lane: effect.lane, read_as }
    }

    /// Its bytes in its row.
    pub fn bytes(&self) -> Range<usize> {
        let bytes = self.read_as.bytes();
        bytes * self.lane..bytes * (self.lane + 1)
    }

    /// Whether a step that has the effect writes a byte of it.
    pub fn shares_bytes_with(&self, effect: &LaneEffect) -> bool {
        let (bytes, written) = (self.bytes(), effect.bytes * effect.lane..effect.bytes * (effect.lane + 1));
        effect.row == self.row && written.start < bytes.end && bytes.start < written.end
    }

    fn stored<'a>(&self, state: &'a State) -> &'a [u8] {
        &state.row(Register::Z(self.row))[self.bytes()]
    }

    /// Its number in a state, as a word.
    pub fn number(&self, state: &State) -> String {
        self.read_as.print(self.stored(state))
    }

    /// Its number in a state, of integers.
    fn integer(&self, state: &State) -> Option<i64> {
        if matches!(self.read_as, LaneType::F32 | LaneType::F64) { None } else { self.number(state).parse().ok() }
    }

    /// What a step did to it: its effects on the lane, or on those of another width that share bytes with it.
    pub fn told(&self, effects: &[LaneEffect], before: &State, after: &State) -> String {
        let becomes = || format!("so {} becomes {}", self.number(before), self.number(after));
        match effects {
            [] => "and does not write it".to_owned(),
            [effect] if effect.bytes == self.read_as.bytes() => match self.reread(*effect, before, after) {
                Some(effect) if effect.old.is_none() => format!("{effect} (z was {})", self.number(before)),
                Some(effect) => effect.to_string(),
                None => format!("{effect}; {}", becomes()),
            },
            _ => {
                let each = effects.iter().map(|effect| format!("lane {} of {} bits: {effect}; ", effect.lane, 8 * effect.bytes));
                each.collect::<String>() + &becomes()
            }
        }
    }

    /// An effect in the reading of this lane, which may have other signs than the step's: a sum is the same then but for a multiple of 2 to
    /// the width. None of what is no sum or is clamped, and of integers read as floats or the other way round.
    fn reread(&self, effect: LaneEffect, before: &State, after: &State) -> Option<LaneEffect> {
        let is = |value: Value, state| value.to_string() == self.number(state);
        if effect.old.is_none_or(|old| is(old, before)) && is(effect.new, after) {
            return Some(effect);
        }
        let (Some(old), Some(new), Value::Integer(result)) = (self.integer(before), self.integer(after), effect.result) else {
            return None;
        };
        let is_sum = effect.x.is_some() || effect.y.is_some() || effect.old == Some(effect.result);
        if effect.kept == Kept::Clamped || !is_sum {
            return None;
        }
        let result = match effect.old {
            Some(Value::Integer(stepped)) => result + old - stepped,
            _ => result,
        };
        let (value, kept) = (Value::Integer, if result == new { Kept::Exact } else { Kept::Wrapped });
        Some(LaneEffect { old: effect.old.map(|_| value(old)), result: value(result), new: value(new), kept, ..effect })
    }
}

/// `z 3 lane 1 (i16)`.
impl fmt::Display for Lane {
    fn fmt(&self, f: &mut fmt::Formatter) -> fmt::Result {
        write!(f, "z {} lane {} ({})", self.row, self.lane, self.read_as)
    }
}

#[cfg(test)]
mod tests {
    use super::*;
    use amx::{Call, Run, Trace, Width, effects_on};

    /// What a step does to lane 0 of row 0, in a reading.
    fn read(step: &str, x: i64, y: i64, z: i64, width: Width, read_as: LaneType) -> String {
        let call: Call = step.parse().unwrap();
        let mut before = State::new();
        before.set_lane(Register::X(0), 0, Width::Bits16, x);
        before.set_lane(Register::Y(0), 0, Width::Bits16, y);
        before.set_lane(Register::Z(0), 0, width, z);
        let mut run = Run::new(Trace::new(before.clone()).header());
        assert!(run.take(call.try_into().unwrap()).is_some());
        let lane = Lane { row: 0, lane: 0, read_as };
        lane.told(&effects_on(&before, call, 0, lane.bytes()), &before, run.state())
    }

    #[test]
    fn a_sum_is_told_in_the_reading_that_is_asked_for() {
        let sum = |z, read_as| read("mac16 m1 vector", 1, 1, z, Width::Bits16, read_as);
        assert_eq!(sum(32_767, LaneType::I16), "x 1, y 1, z 32767 gives 32768, wrapped to -32768");
        assert_eq!(sum(32_767, LaneType::U16), "x 1, y 1, z 32767 gives 32768");
        assert_eq!(sum(-1, LaneType::I16), "x 1, y 1, z -1 gives 0");
        assert_eq!(sum(-1, LaneType::U16), "x 1, y 1, z 65535 gives 65536, wrapped to 0");
        // what is not added to is told beside it
        let product = |read_as| read("vecint m2 mode=10 x_signed y_signed", -3, 2, 9, Width::Bits16, read_as);
        assert_eq!(product(LaneType::I16), "x -3, y 2 gives -6 (z was 9)");
        assert_eq!(product(LaneType::U16), "x -3, y 2 gives -6, wrapped to 65530 (z was 9)");
        // another width
        assert_eq!(sum(5, LaneType::I8), "lane 0 of 16 bits: x 1, y 1, z 5 gives 6; so 5 becomes 6");
        assert_eq!(read("vecint m2 mode=4 enable_mode=6", 0, 0, 5, Width::Bits16, LaneType::I16), "and does not write it");
    }

    #[test]
    fn what_is_no_sum_is_told_as_the_step_reads_it() {
        let z = |fields: &str, z, read_as| read(&format!("vecint m1 mode=4 {fields}"), 0, 0, z, Width::Bits16, read_as);
        let halved = |read_as| z("z_signed shift=1", -42, read_as);
        assert_eq!(halved(LaneType::I16), "z -42 gives -21");
        assert_eq!(halved(LaneType::U16), "z -42 gives -21; so 65494 becomes 65515");
        assert_eq!(z("shift=1", -42, LaneType::I16), "z 65494 gives 32747; so -42 becomes 32747");
        let clamped = |number, read_as| z("widths=11 z_signed saturate saturate_signed", number, read_as);
        assert_eq!(clamped(300, LaneType::I16), "z 300 gives 300, clamped to 127");
        assert_eq!(clamped(300, LaneType::U16), "z 300 gives 300, clamped to 127");
        assert_eq!(clamped(-300, LaneType::U16), "z -300 gives -300, clamped to -128; so 65236 becomes 65408");
        // moved as it is: by its pattern, which is a number of any reading
        assert_eq!(read("mac16 m1 vector skip_x skip_y", 0, 0, -1, Width::Bits16, LaneType::U16), "z 65535 gives 65535");
        let product = |read_as| read("mac16 m1 z_i32", 3, 2, 1, Width::Bits32, read_as);
        assert_eq!(product(LaneType::F32), "x 3, y 2, z 1 gives 7; so 1e-45 becomes 1e-44");
    }
}
