//! Operands built field by field. A step that a builder can say is one that the documents have.

use super::{
    field::{Field, FieldError},
    table::*,
    values::{AluMode, Enable, Float, FloatMode, IndexBits, LaneWidths, ReductionWidths, Side, SideEnable, Vectors},
};
use crate::Generation;

/// An operand of mac16, built field by field: products of X and Y lanes onto a row of Z, or onto all of it.
///
/// ```
/// use amx::{Call, Generation, Mac16, SideEnable};
/// let fields = Mac16::new().vector(true).x_enable(SideEnable::First(3))?.x_offset(128)?.z_row(3)?.shift(2)?;
/// assert_eq!(fields.operand(), 1 << 63 | 2 << 55 | 2 << 46 | 3 << 41 | 3 << 20 | 128 << 10);
/// assert_eq!(Call::mac16(Generation::M1, fields), Call::new(14, 1, fields.operand()));
/// assert_eq!(fields.x_offset(512).unwrap_err().to_string(), "x_offset (bits 10..18) is 0 to 511, not 512");
/// # Ok::<(), amx::FieldError>(())
/// ```
#[must_use = "a setter hands back a changed copy, and a copy that is dropped sets nothing"]
#[derive(Clone, Copy, Debug, Default, PartialEq, Eq, Hash)]
pub struct Mac16 {
    operand: u64,
}

/// An operand of fms64, built field by field. X or Y is to be skipped: a step that uses both is not covered, and refused.
///
/// ```
/// use amx::{Answer, Call, Fms64, Generation, Refusal, Register, State, step};
/// let fields = Fms64::new().vector(true).skip_y(true).z_row(5)?;
/// assert_eq!(fields.operand(), 1 << 63 | 1 << 28 | 5 << 20);
///
/// let mut state = State::new();
/// state.set_f64(Register::X(0), 7, 0.25);
/// state.set_f64(Register::Z(5), 7, 1.0);
/// assert_eq!(step(&mut state, Call::fms64(Generation::M1, fields), 0), Answer::Done { bytes: 64 });
/// assert_eq!(state.f64_lane(Register::Z(5), 7), 0.75);
///
/// let both = Call::fms64(Generation::M1, fields.skip_y(false));
/// assert_eq!(step(&mut state, both, 1), Answer::Refused(Refusal::NotCovered));
/// # Ok::<(), amx::FieldError>(())
/// ```
#[must_use = "a setter hands back a changed copy, and a copy that is dropped sets nothing"]
#[derive(Clone, Copy, Debug, Default, PartialEq, Eq, Hash)]
pub struct Fms64 {
    operand: u64,
}

/// An operand of vecint, built field by field for one generation: an integer operation in each lane. Of Z alone it is a [`Reduction`].
///
/// ```
/// use amx::{AluMode, Broadcast, Call, Enable, LaneWidths, Vecint, Vectors};
/// let fields = Vecint::m1(AluMode::AddProduct, Enable::First(5))?.lane_widths(LaneWidths::X8Y8Z32).x_signed(true).shift(4)?;
/// assert_eq!(Call::vecint(fields), Call::new(18, 1, 1 << 63 | 4 << 58 | 10 << 42 | 2 << 38 | 5 << 32));
///
/// let four = Vecint::m2(AluMode::AddX, Vectors::Four(Broadcast::SameX))?.z_row(3)?;
/// assert_eq!(Call::vecint(four), Call::new(18, 2, 11 << 47 | 2 << 32 | 1 << 31 | 1 << 25 | 3 << 20));
///
/// let error = Vecint::m1(AluMode::AddProduct, Enable::First(64)).unwrap_err();
/// assert_eq!(error.to_string(), "enable_value (bits 32..37) is 0 to 63, not 64");
/// assert_eq!(four.z_row(32).unwrap_err().to_string(), "z_row (bits 20..24) is 0 to 31, not 32");
/// # Ok::<(), amx::FieldError>(())
/// ```
///
/// M1 does one vector, and there is no way to ask it for several:
///
/// ```compile_fail,E0308
/// use amx::{AluMode, Broadcast, Vecint, Vectors};
/// let two = Vecint::m1(AluMode::AddProduct, Vectors::Two(Broadcast::SameX)); // M2 takes this
/// ```
///
/// Nor do X and Y round or saturate:
///
/// ```compile_fail,E0599
/// use amx::{AluMode, Enable, Vecint};
/// let rounding = Vecint::m1(AluMode::AddProduct, Enable::All)?.rounding(true); // a Reduction does
/// # Ok::<(), amx::FieldError>(())
/// ```
#[must_use = "a setter hands back a changed copy, and a copy that is dropped sets nothing"]
#[derive(Clone, Copy, Debug, PartialEq, Eq, Hash)]
pub struct Vecint {
    generation: Generation,
    operand: u64,
}

/// An operand of vecint in ALU mode 4, built field by field for one generation: each enabled lane of Z is shifted right and, where asked,
/// clamped. It uses neither X nor Y, and each vector is one row of Z.
///
/// ```
/// use amx::{Answer, Call, Enable, Reduction, ReductionWidths, Register, State, Width, step};
/// let fields = Reduction::m1(Enable::All)?.lane_widths(ReductionWidths::Z16To8).z_signed(true).shift(1)?.rounding(true);
/// let clamped = fields.saturate(true).saturate_signed(true);
/// assert_eq!(clamped.operand(), 1 << 63 | 1 << 58 | 4 << 47 | 11 << 42 | 1 << 30 | 1 << 29 | 1 << 26);
///
/// let mut state = State::new();
/// state.set_lane(Register::Z(0), 0, Width::Bits16, -5);
/// state.set_lane(Register::Z(0), 1, Width::Bits16, 300);
/// assert_eq!(step(&mut state, Call::reduction(clamped), 0), Answer::Done { bytes: 64 });
/// assert_eq!([0, 1].map(|lane| state.signed_lane(Register::Z(0), lane, Width::Bits16)), [-2, 127]);
/// # Ok::<(), amx::FieldError>(())
/// ```
///
/// What is X's or Y's can't be set here:
///
/// ```compile_fail,E0599
/// use amx::{Enable, Reduction};
/// let fields = Reduction::m1(Enable::All)?.x_signed(true); // z_signed is there
/// # Ok::<(), amx::FieldError>(())
/// ```
///
/// Of the enables and broadcasts that say what is read or written, those that write 0 have their effect here. The others read X or Y
/// otherwise, and only enable all lanes.
#[must_use = "a setter hands back a changed copy, and a copy that is dropped sets nothing"]
#[derive(Clone, Copy, Debug, PartialEq, Eq, Hash)]
pub struct Reduction {
    generation: Generation,
    operand: u64,
}

/// An operand of vecfp, built field by field for one generation: a float operation in each lane.
///
/// ```
/// use amx::{Answer, Call, Enable, Float, FloatMode, Register, State, Vecfp, Vectors, step};
/// let fields = Vecfp::m2(FloatMode::Product, Float::Single, Vectors::One(Enable::All))?.z_row(3)?;
/// assert_eq!(fields.operand(), 10 << 47 | 4 << 42 | 3 << 20);
///
/// let mut state = State::new();
/// state.set_f32(Register::X(0), 2, 1.5);
/// state.set_f32(Register::Y(0), 2, -0.5);
/// assert_eq!(step(&mut state, Call::vecfp(fields), 0), Answer::Done { bytes: 64 });
/// assert_eq!(state.f32_lane(Register::Z(3), 2), -0.75);
///
/// let error = Vecfp::m1(FloatMode::Select, Float::Double, Enable::Last(32)).unwrap_err();
/// assert_eq!(error.to_string(), "enable_value (bits 32..36) is 0 to 31, not 32");
/// # Ok::<(), amx::FieldError>(())
/// ```
#[must_use = "a setter hands back a changed copy, and a copy that is dropped sets nothing"]
#[derive(Clone, Copy, Debug, PartialEq, Eq, Hash)]
pub struct Vecfp {
    generation: Generation,
    operand: u64,
}

/// The operand of a builder, and its setters: a flag fits its bit, and a number is looked at.
macro_rules! setters {
    ($builder:ident: flags { $($flag:ident $flag_field:ident $flag_meaning:literal)* }
                     numbers { $($number:ident $number_field:ident $number_meaning:literal)* }) => {
        impl $builder {
            /// The operand.
            #[must_use]
            pub fn operand(self) -> u64 {
                self.operand
            }

            $(#[doc = $flag_meaning] pub fn $flag(mut self, on: bool) -> Self {
                self.operand = $flag_field.put(self.operand, on.into());
                self
            })*

            $(#[doc = $number_meaning] pub fn $number(mut self, value: u64) -> Result<Self, FieldError> {
                self.operand = $number_field.set(self.operand, value)?;
                Ok(self)
            })*
        }
    };
}

setters! {
    Mac16:
    flags {
        vector VECTOR "Vector (true) or matrix: bit 63."
        z_i32 Z_I32 "Z is 32-bit, in a matrix: bit 62."
        x_i8 X_I8 "X is i8, the low byte of each 16-bit lane: bit 61."
        y_i8 Y_I8 "Y is i8, the low byte of each 16-bit lane: bit 60."
        skip_x SKIP_X "Skip X: bit 29."
        skip_y SKIP_Y "Skip Y: bit 28."
        skip_z MAC16_SKIP_Z "Skip Z, so that the result is not added to old Z: bit 27."
    }
    numbers {
        shift MAC16_SHIFT "Right shift, 0 to 31: bits 55..59."
        z_row Z_ROW "Z row, 0 to 63: bits 20..25. A matrix step with 16-bit Z looks at its lowest bit only, one with 32-bit Z at none."
        x_offset X_OFFSET "X offset in bytes, 0 to 511: bits 10..18."
        y_offset Y_OFFSET "Y offset in bytes, 0 to 511: bits 0..8."
    }
}

setters! {
    Fms64:
    flags {
        vector VECTOR "Vector (true) or matrix: bit 63."
        skip_x SKIP_X "Skip X: bit 29."
        skip_y SKIP_Y "Skip Y: bit 28."
        skip_z FMS64_SKIP_Z "Skip Z, so that the result is not subtracted from old Z: bit 27."
    }
    numbers {
        z_row Z_ROW "Z row, 0 to 63: bits 20..25. A matrix step looks at its lowest three bits only."
        x_offset X_OFFSET "X offset in bytes, 0 to 511: bits 10..18."
        y_offset Y_OFFSET "Y offset in bytes, 0 to 511: bits 0..8."
    }
}

setters! {
    Vecint:
    flags {
        x_signed X_SIGNED "X is signed: bit 63."
        y_signed Y_SIGNED "Y is signed: bit 26."
    }
    numbers {
        shift VECINT_SHIFT "Right shift, 0 to 31: bits 58..62. Rounded products (ALU modes 5 and 6) ignore it."
        x_offset X_OFFSET "X offset in bytes, 0 to 511: bits 10..18. An indexed load of X has its indices there."
        y_offset Y_OFFSET "Y offset in bytes, 0 to 511: bits 0..8. An indexed load of Y has its indices there."
    }
}

setters! {
    Reduction:
    flags {
        z_signed Z_SIGNED "Z is signed: bit 63."
        saturate SATURATE "Clamp to the saturation width: bit 30."
        rounding ROUNDING "The shift rounds: bit 29."
        saturate_signed SATURATE_SIGNED "The saturation is signed: bit 26."
    }
    numbers {
        shift VECINT_SHIFT "Right shift, 0 to 31: bits 58..62."
    }
}

setters! {
    Vecfp:
    flags {}
    numbers {
        x_offset X_OFFSET "X offset in bytes, 0 to 511: bits 10..18."
        y_offset Y_OFFSET "Y offset in bytes, 0 to 511: bits 0..8."
    }
}

/// The lanes that a mac16 or an fms64 enables.
macro_rules! side_enables {
    ($($builder:ident)*) => {
        $(impl $builder {
            /// The lanes of X that are enabled: mode in bits 46..47, value in bits 41..45.
            pub fn x_enable(mut self, lanes: SideEnable) -> Result<Self, FieldError> {
                self.operand = lanes.set(self.operand, &X_ENABLE_MODE, &X_ENABLE_VALUE)?;
                Ok(self)
            }

            /// The lanes of Y that are enabled: mode in bits 37..38, value in bits 32..36. Ignored in a vector step.
            pub fn y_enable(mut self, lanes: SideEnable) -> Result<Self, FieldError> {
                self.operand = lanes.set(self.operand, &Y_ENABLE_MODE, &Y_ENABLE_VALUE)?;
                Ok(self)
            }
        })*
    };
}

side_enables! { Mac16 Fms64 }

/// What the builders that know their generation share: it decides how many vectors there may be, and they on the rows.
macro_rules! vectors {
    ($($builder:ident $enable_value:ident)*) => {
        $(impl $builder {
            /// Of one vector on M1 or any on M2, with all other fields as they are in `operand`.
            fn of(generation: Generation, vectors: Vectors, operand: u64) -> Result<Self, FieldError> {
                Ok($builder { generation, operand: vectors.set(operand, &$enable_value)? })
            }

            /// The generation that it is for.
            #[must_use]
            pub fn generation(self) -> Generation {
                self.generation
            }

            /// Z row: 0 to 63, bits 20..25; with several vectors that of the first, 0 to 31, bits 20..24.
            pub fn z_row(mut self, value: u64) -> Result<Self, FieldError> {
                self.operand = z_row_of(self.operand).set(self.operand, value)?;
                Ok(self)
            }
        })*
    };
}

vectors! { Vecint VECINT_ENABLE_VALUE Reduction VECINT_ENABLE_VALUE Vecfp VECFP_ENABLE_VALUE }

/// Bit 31 is set on M2 alone here, so that it need not be asked for.
fn z_row_of(operand: u64) -> &'static Field {
    if SEVERAL.of(operand) == 1 { &Z_ROW_OF_SEVERAL } else { &Z_ROW_OF_ONE }
}

impl Mac16 {
    /// All fields 0: a matrix step with 16-bit Z and all lanes enabled.
    pub fn new() -> Self {
        Mac16 { operand: 0 }
    }
}

impl Fms64 {
    /// All fields 0: a matrix step with all lanes enabled that uses both X and Y, and is not covered before one of them is skipped.
    pub fn new() -> Self {
        Fms64 { operand: 0 }
    }
}

impl Vecint {
    /// On M1, which does one vector; X and Y unsigned, lanes of 16 bits, and all other fields 0. An error is a value that does not fit.
    pub fn m1(mode: AluMode, enable: Enable) -> Result<Self, FieldError> {
        Self::of(Generation::M1, Vectors::One(enable), ALU_MODE.put(0, mode as u64))
    }

    /// On M2, likewise, of one vector or several.
    pub fn m2(mode: AluMode, vectors: Vectors) -> Result<Self, FieldError> {
        Self::of(Generation::M2, vectors, ALU_MODE.put(0, mode as u64))
    }

    /// An indexed load on M1, of X or of Y from one of that side's registers, 0 to 7 (bits 49..51); all other fields 0. It is done as
    /// [`AluMode::AddProduct`] is, and has no mode of its own.
    ///
    /// The bytes at the side's offset hold packed indices, lowest bits first. Element k of the side is the register's element that the k-th
    /// index names.
    ///
    /// ```
    /// use amx::{Answer, Call, Enable, IndexBits, Register, Side, State, Vecint, Width, step};
    /// let mut state = State::new();
    /// state.set_lane(Register::X(3), 13, Width::Bits16, 7); // an element of the table,
    /// state.set_lane(Register::X(0), 0, Width::Bits8, 0xd0); // the indices 0 and 13,
    /// state.set_lane(Register::Y(0), 1, Width::Bits16, 2); // and what lane 1 is multiplied by
    ///
    /// let fields = Vecint::m1_indexed(Side::X, IndexBits::Four, 3, Enable::All)?;
    /// assert_eq!(fields.operand(), 1 << 53 | 3 << 49 | 1 << 48);
    /// assert_eq!(step(&mut state, Call::vecint(fields), 0), Answer::Done { bytes: 64 });
    /// assert_eq!(state.lane(Register::Z(0), 1, Width::Bits16), 14);
    ///
    /// let error = Vecint::m1_indexed(Side::X, IndexBits::Four, 8, Enable::All).unwrap_err();
    /// assert_eq!(error.to_string(), "index_register (bits 49..51) is 0 to 7, not 8");
    /// # Ok::<(), amx::FieldError>(())
    /// ```
    pub fn m1_indexed(side: Side, indices: IndexBits, register: u64, enable: Enable) -> Result<Self, FieldError> {
        Self::of(Generation::M1, Vectors::One(enable), indexed(side, indices, register)?)
    }

    /// An indexed load on M2, likewise, of one vector or several. With several the side's offset advances by the bytes of a vector's
    /// indices, and not by 64.
    pub fn m2_indexed(side: Side, indices: IndexBits, register: u64, vectors: Vectors) -> Result<Self, FieldError> {
        Self::of(Generation::M2, vectors, indexed(side, indices, register)?)
    }

    /// Lane widths: bits 42..45. Rounded products (ALU modes 5 and 6) ignore them.
    pub fn lane_widths(mut self, widths: LaneWidths) -> Self {
        self.operand = LANE_WIDTHS.put(self.operand, widths as u64);
        self
    }
}

fn indexed(side: Side, indices: IndexBits, register: u64) -> Result<u64, FieldError> {
    let operand = INDEX_Y.put(INDEX_4_BITS.put(INDEXED.put(0, 1), indices as u64), side as u64);
    INDEX_REGISTER.set(operand, register)
}

impl Reduction {
    /// The ALU mode.
    const MODE: u64 = 4;

    /// On M1, which does one vector; lanes of 16 bits, unsigned, shifted by 0 and not clamped. An error is a value that does not fit.
    pub fn m1(enable: Enable) -> Result<Self, FieldError> {
        Self::of(Generation::M1, Vectors::One(enable), ALU_MODE.put(0, Self::MODE))
    }

    /// On M2, likewise, of one vector or several.
    pub fn m2(vectors: Vectors) -> Result<Self, FieldError> {
        Self::of(Generation::M2, vectors, ALU_MODE.put(0, Self::MODE))
    }

    /// Lane widths: bits 42..45.
    pub fn lane_widths(mut self, widths: ReductionWidths) -> Self {
        self.operand = LANE_WIDTHS.put(self.operand, widths as u64);
        self
    }
}

impl Vecfp {
    /// On M1, which does one vector; all other fields 0. An error is a value that does not fit.
    pub fn m1(mode: FloatMode, format: Float, enable: Enable) -> Result<Self, FieldError> {
        Self::of(Generation::M1, Vectors::One(enable), float(mode, format))
    }

    /// On M2, likewise, of one vector or several.
    pub fn m2(mode: FloatMode, format: Float, vectors: Vectors) -> Result<Self, FieldError> {
        Self::of(Generation::M2, vectors, float(mode, format))
    }
}

fn float(mode: FloatMode, format: Float) -> u64 {
    LANE_WIDTHS.put(ALU_MODE.put(0, mode as u64), format as u64)
}

#[cfg(test)]
mod tests {
    use super::*;
    use crate::{
        Broadcast,
        Generation::{self, M1, M2},
        Instruction,
        operand::{fields, find, with_field},
    };

    type Test = Result<(), FieldError>;

    /// A field by its name, and its setter. A flag is set by 0 and 1.
    type Setter<B> = (&'static str, fn(B, u64) -> Result<B, FieldError>);

    /// Each setter does to the operand what its name does in the table, whatever the others are. Every field that the operand has is set by
    /// one of them or is among the others.
    fn as_in_the_table<B: Copy>(
        (instruction, generation): (Instruction, Generation),
        (start, operand): (B, fn(B) -> u64),
        setters: &[Setter<B>],
        others: &[&str],
    ) -> Test {
        let mut full = start;
        for (name, set) in setters {
            full = set(full, find(instruction, generation, operand(full), name)?.max())?;
        }
        for ((name, set), base) in setters.iter().flat_map(|setter| [(setter, start), (setter, full)]) {
            let field = find(instruction, generation, operand(base), name)?;
            for value in [0, 1, field.max()] {
                let changed = operand(set(base, value)?);
                assert_eq!(changed, with_field(instruction, generation, operand(base), name, value)?, "{name} = {value}");
                assert_eq!((changed ^ operand(base)) & !field.mask(), 0, "{name} = {value}");
            }
            if field.max() > 1 {
                for value in [field.max() + 1, u64::MAX] {
                    assert_eq!(set(base, value).err(), Some(FieldError::Range { field, value }));
                }
            }
        }
        for field in fields(instruction, generation, operand(start)) {
            let is_set = setters.iter().any(|(name, _)| *name == field.name);
            assert!(is_set != others.contains(&field.name), "{} is set {}", field.name, if is_set { "twice" } else { "by none" });
        }
        Ok(())
    }

    #[test]
    fn setters_of_mac16_and_fms64_are_the_table_s() -> Test {
        let enables = ["x_enable_mode", "x_enable_value", "y_enable_mode", "y_enable_value"];
        let mac16: [Setter<Mac16>; 11] = [
            ("vector", |fields, value| Ok(fields.vector(value == 1))),
            ("z_i32", |fields, value| Ok(fields.z_i32(value == 1))),
            ("x_i8", |fields, value| Ok(fields.x_i8(value == 1))),
            ("y_i8", |fields, value| Ok(fields.y_i8(value == 1))),
            ("skip_x", |fields, value| Ok(fields.skip_x(value == 1))),
            ("skip_y", |fields, value| Ok(fields.skip_y(value == 1))),
            ("skip_z", |fields, value| Ok(fields.skip_z(value == 1))),
            ("shift", Mac16::shift),
            ("z_row", Mac16::z_row),
            ("x_offset", Mac16::x_offset),
            ("y_offset", Mac16::y_offset),
        ];
        let fms64: [Setter<Fms64>; 7] = [
            ("vector", |fields, value| Ok(fields.vector(value == 1))),
            ("skip_x", |fields, value| Ok(fields.skip_x(value == 1))),
            ("skip_y", |fields, value| Ok(fields.skip_y(value == 1))),
            ("skip_z", |fields, value| Ok(fields.skip_z(value == 1))),
            ("z_row", Fms64::z_row),
            ("x_offset", Fms64::x_offset),
            ("y_offset", Fms64::y_offset),
        ];
        for generation in [M1, M2] {
            as_in_the_table((Instruction::Mac16, generation), (Mac16::new(), Mac16::operand), &mac16, &enables)?;
            as_in_the_table((Instruction::Fms64, generation), (Fms64::new(), Fms64::operand), &fms64, &enables)?;
        }
        Ok(())
    }

    /// The fields that vecint and vecfp have and that no setter sets, but those of several vectors or of one.
    const OTHERS: [&str; 6] = ["indexed", "alu_mode", "reserved", "lane_widths", "x_shuffle", "y_shuffle"];
    const OF_ONE: [&str; 2] = ["enable_mode", "enable_value"];
    const OF_SEVERAL: [&str; 2] = ["four", "broadcast_mode"];

    /// Some vectors on M2, and the fields that say which.
    fn several_on_m2() -> [(Vectors, Vec<&'static str>); 3] {
        let names = |of: [&'static str; 2]| [&of[..], &OTHERS, &["several"]].concat();
        [
            (Vectors::One(Enable::Last(9)), names(OF_ONE)),
            (Vectors::Two(Broadcast::Lane0OfX), names(OF_SEVERAL)),
            (Vectors::Four(Broadcast::ZeroY), names(OF_SEVERAL)),
        ]
    }

    #[test]
    fn setters_of_vecint_are_the_table_s() -> Test {
        let setters: [Setter<Vecint>; 6] = [
            ("x_signed", |fields, value| Ok(fields.x_signed(value == 1))),
            ("y_signed", |fields, value| Ok(fields.y_signed(value == 1))),
            ("shift", Vecint::shift),
            ("z_row", Vecint::z_row),
            ("x_offset", Vecint::x_offset),
            ("y_offset", Vecint::y_offset),
        ];
        let check = |fields: Vecint, others: &[&str]| {
            as_in_the_table((Instruction::Vecint, fields.generation()), (fields, Vecint::operand), &setters, others)
        };
        let of_an_index = |others: &[&'static str]| {
            let without_mode = others.iter().copied().filter(|&name| name != "alu_mode");
            without_mode.chain(["index_register", "index_4_bits", "index_y"]).collect::<Vec<_>>()
        };
        let on_m1 = [&OF_ONE[..], &OTHERS].concat();
        check(Vecint::m1(AluMode::SubtractSum, Enable::Odd)?, &on_m1)?;
        // register 1 stands where ALU mode 4 would, and is no mode
        check(Vecint::m1_indexed(Side::X, IndexBits::Two, 1, Enable::Odd)?, &of_an_index(&on_m1))?;
        for (vectors, others) in several_on_m2() {
            check(Vecint::m2(AluMode::AddY, vectors)?, &others)?;
            check(Vecint::m2_indexed(Side::Y, IndexBits::Four, 7, vectors)?, &of_an_index(&others))?;
        }
        Ok(())
    }

    #[test]
    fn setters_of_a_reduction_are_the_table_s() -> Test {
        let setters: [Setter<Reduction>; 6] = [
            ("z_signed", |fields, value| Ok(fields.z_signed(value == 1))),
            ("saturate", |fields, value| Ok(fields.saturate(value == 1))),
            ("rounding", |fields, value| Ok(fields.rounding(value == 1))),
            ("saturate_signed", |fields, value| Ok(fields.saturate_signed(value == 1))),
            ("shift", Reduction::shift),
            ("z_row", Reduction::z_row),
        ];
        let check = |fields: Reduction, others: &[&str]| {
            // no step looks at the offsets, and the shuffles' bits are other fields
            let others = [others, &["x_offset", "y_offset"]].concat();
            as_in_the_table((Instruction::Vecint, fields.generation()), (fields, Reduction::operand), &setters, &others)
        };
        check(Reduction::m1(Enable::Odd)?, &[&OF_ONE[..], &OTHERS].concat())?;
        several_on_m2().into_iter().try_for_each(|(vectors, others)| check(Reduction::m2(vectors)?, &others))
    }

    #[test]
    fn setters_of_vecfp_are_the_table_s() -> Test {
        let setters: [Setter<Vecfp>; 3] = [("z_row", Vecfp::z_row), ("x_offset", Vecfp::x_offset), ("y_offset", Vecfp::y_offset)];
        let check = |fields: Vecfp, others: &[&str]| {
            as_in_the_table((Instruction::Vecfp, fields.generation()), (fields, Vecfp::operand), &setters, others)
        };
        check(Vecfp::m1(FloatMode::Select, Float::Double, Enable::Odd)?, &[&OF_ONE[..], &OTHERS].concat())?;
        several_on_m2().into_iter().try_for_each(|(vectors, others)| check(Vecfp::m2(FloatMode::AddX, Float::Single, vectors)?, &others))
    }

    /// The operand of these fields, by their names.
    fn named(instruction: Instruction, generation: Generation, fields: &[(&str, u64)]) -> Result<u64, FieldError> {
        fields.iter().try_fold(0, |operand, &(name, value)| with_field(instruction, generation, operand, name, value))
    }

    #[test]
    fn constructors_set_the_fields_of_their_arguments() -> Test {
        let vecint = |generation, fields: &[(&str, u64)]| named(Instruction::Vecint, generation, fields);
        let one = [("alu_mode", 6), ("enable_mode", 5), ("enable_value", 63)];
        let two = [("several", 1), ("alu_mode", 3), ("broadcast_mode", 7)];
        let four = [("several", 1), ("four", 1), ("alu_mode", 12), ("broadcast_mode", 2)];
        assert_eq!(Vecint::m1(AluMode::SubtractRoundedProduct, Enable::LastOrNone(63))?.operand(), vecint(M1, &one)?);
        assert_eq!(Vecint::m2(AluMode::SubtractSum, Vectors::Two(Broadcast::Lane0OfY))?.operand(), vecint(M2, &two)?);
        assert_eq!(Vecint::m2(AluMode::AddY, Vectors::Four(Broadcast::SameX))?.operand(), vecint(M2, &four)?);

        let reduction = [("several", 1), ("alu_mode", 4), ("broadcast_mode", 1), ("lane_widths", 9)];
        let fields = Reduction::m2(Vectors::Two(Broadcast::ZeroOutput))?.lane_widths(ReductionWidths::Z32To8);
        assert_eq!(fields.lane_widths(ReductionWidths::Z8To8).operand(), vecint(M2, &reduction)?);
        assert_eq!(Reduction::m1(Enable::Even)?.operand(), vecint(M1, &[("alu_mode", 4), ("enable_value", 2)])?);

        let by_x = [("indexed", 1), ("index_register", 2), ("enable_mode", 1), ("enable_value", 9), ("lane_widths", 13)];
        let fields = Vecint::m1_indexed(Side::X, IndexBits::Two, 2, Enable::BroadcastY(9))?.lane_widths(LaneWidths::X8Y8Z32);
        assert_eq!(fields.lane_widths(LaneWidths::X16Y8Z32).operand(), vecint(M1, &by_x)?);
        let by_y = [("several", 1), ("indexed", 1), ("index_register", 5), ("index_4_bits", 1), ("index_y", 1), ("four", 1)];
        let fields = Vecint::m2_indexed(Side::Y, IndexBits::Four, 5, Vectors::Four(Broadcast::Consecutive))?;
        assert_eq!(fields.operand(), vecint(M2, &by_y)?);
        let error = Vecint::m2_indexed(Side::Y, IndexBits::Four, 8, Vectors::One(Enable::All)).unwrap_err();
        assert_eq!(error.to_string(), "index_register (bits 49..51) is 0 to 7, not 8");

        let vecfp = |generation, fields: &[(&str, u64)]| named(Instruction::Vecfp, generation, fields);
        let one = [("alu_mode", 4), ("lane_widths", 7), ("enable_mode", 4), ("enable_value", 31)];
        let four = [("several", 1), ("alu_mode", 10), ("lane_widths", 4), ("four", 1), ("broadcast_mode", 3)];
        assert_eq!(Vecfp::m1(FloatMode::Select, Float::Double, Enable::FirstOrNone(31))?.operand(), vecfp(M1, &one)?);
        assert_eq!(Vecfp::m2(FloatMode::Product, Float::Single, Vectors::Four(Broadcast::SameY))?.operand(), vecfp(M2, &four)?);
        Ok(())
    }

    #[test]
    fn an_enable_takes_the_place_of_the_last_one() -> Test {
        for (enable, mode, value) in [
            (SideEnable::All, 0, 0),
            (SideEnable::Odd, 0, 1),
            (SideEnable::Even, 0, 2),
            (SideEnable::Lane(31), 1, 31),
            (SideEnable::First(30), 2, 30),
            (SideEnable::Last(29), 3, 29),
        ] {
            let sides = named(
                Instruction::Mac16,
                M1,
                &[("x_enable_mode", mode), ("x_enable_value", value), ("y_enable_mode", mode), ("y_enable_value", value)],
            )?;
            let before = SideEnable::Last(31);
            assert_eq!(Mac16::new().x_enable(before)?.y_enable(before)?.x_enable(enable)?.y_enable(enable)?.operand(), sides);
            assert_eq!(Fms64::new().x_enable(before)?.y_enable(before)?.x_enable(enable)?.y_enable(enable)?.operand(), sides);
        }
        Ok(())
    }
}
