//! The fields of each instruction. The builders know them as these constants, people by their names.

use super::field::{
    Field,
    When::{self, *},
};
use crate::Instruction;

const fn field(name: &'static str, low: u32, high: u32, when: When, meaning: &'static str) -> Field {
    Field { name, short: name, low, high, when, meaning }
}

const fn short(field: Field, short: &'static str) -> Field {
    Field { short, ..field }
}

// of all four, or of mac16 and fms64
pub(super) static X_OFFSET: Field = short(field("x_offset", 10, 18, Always, "X offset in bytes"), "x");
pub(super) static Y_OFFSET: Field = short(field("y_offset", 0, 8, Always, "Y offset in bytes"), "y");
pub(super) static VECTOR: Field = field("vector", 63, 63, Always, "vector (1) or matrix (0)");
pub(super) static X_ENABLE_MODE: Field = field("x_enable_mode", 46, 47, Always, "X enable mode");
pub(super) static X_ENABLE_VALUE: Field = field("x_enable_value", 41, 45, Always, "X enable value");
pub(super) static Y_ENABLE_MODE: Field = field("y_enable_mode", 37, 38, Always, "Y enable mode");
pub(super) static Y_ENABLE_VALUE: Field = field("y_enable_value", 32, 36, Always, "Y enable value");
pub(super) static SKIP_X: Field = field("skip_x", 29, 29, Always, "skip X (1) or use it (0)");
pub(super) static SKIP_Y: Field = field("skip_y", 28, 28, Always, "skip Y (1) or use it (0)");
pub(super) static Z_ROW: Field = field("z_row", 20, 25, Always, "Z row");

pub(super) static FMS64_SKIP_Z: Field = field("skip_z", 27, 27, Always, "skip old Z (1) or subtract from it (0)");

static FMS64: [&Field; 11] = [
    &VECTOR,
    &X_ENABLE_MODE,
    &X_ENABLE_VALUE,
    &Y_ENABLE_MODE,
    &Y_ENABLE_VALUE,
    &SKIP_X,
    &SKIP_Y,
    &FMS64_SKIP_Z,
    &Z_ROW,
    &X_OFFSET,
    &Y_OFFSET,
];

pub(super) static Z_I32: Field = field("z_i32", 62, 62, Always, "Z is 32-bit (1) or 16-bit (0), in a matrix");
pub(super) static X_I8: Field = field("x_i8", 61, 61, Always, "X is i8, the low byte of its lane (1), or i16 (0)");
pub(super) static Y_I8: Field = field("y_i8", 60, 60, Always, "Y is i8, the low byte of its lane (1), or i16 (0)");
pub(super) static MAC16_SHIFT: Field = field("shift", 55, 59, Always, "right shift");
pub(super) static MAC16_SKIP_Z: Field = field("skip_z", 27, 27, Always, "skip old Z (1) or add to it (0)");

static MAC16: [&Field; 15] = [
    &VECTOR,
    &Z_I32,
    &X_I8,
    &Y_I8,
    &MAC16_SHIFT,
    &X_ENABLE_MODE,
    &X_ENABLE_VALUE,
    &Y_ENABLE_MODE,
    &Y_ENABLE_VALUE,
    &SKIP_X,
    &SKIP_Y,
    &MAC16_SKIP_Z,
    &Z_ROW,
    &X_OFFSET,
    &Y_OFFSET,
];

// of vecint and vecfp
pub(super) static SEVERAL: Field = field("several", 31, 31, OnM2, "several vectors (1) or one (0)");
pub(super) static INDEXED: Field = field("indexed", 53, 53, Always, "indexed load (1) or plain load (0)");
pub(super) static ALU_MODE: Field = short(field("alu_mode", 47, 52, NotIndexed, "ALU mode"), "mode");
static RESERVED: Field = field("reserved", 54, 56, Always, "must be 0, a no-op otherwise");
pub(super) static INDEX_REGISTER: Field = field("index_register", 49, 51, Indexed, "register to index into");
pub(super) static INDEX_4_BITS: Field = field("index_4_bits", 48, 48, Indexed, "indices of 4 bits (1) or 2 bits (0)");
pub(super) static INDEX_Y: Field = field("index_y", 47, 47, Indexed, "indexed load of Y (1) or X (0)");
pub(super) static LANE_WIDTHS: Field = short(field("lane_widths", 42, 45, Always, "lane widths"), "widths");
pub(super) static ENABLE_MODE: Field = field("enable_mode", 38, 40, OneVector, "enable mode");
pub(super) static BROADCAST_MODE: Field = field("broadcast_mode", 32, 34, Several, "broadcast mode");
pub(super) static FOUR: Field = field("four", 25, 25, Several, "four vectors (1) or two (0)");
pub(super) static Z_ROW_OF_ONE: Field = field("z_row", 20, 25, OneVector, "Z row");
// bit 25 of the row is `four` then, and no row bit above the stride matters
pub(super) static Z_ROW_OF_SEVERAL: Field = field("z_row", 20, 24, Several, "Z row of the first vector");

const fn enable_value(high: u32) -> Field {
    field("enable_value", 32, high, OneVector, "enable value, or the lane of Y that is broadcast")
}

const fn x_shuffle(when: When) -> Field {
    field("x_shuffle", 29, 30, when, "X shuffle, covered as 0 alone")
}

const fn y_shuffle(when: When) -> Field {
    field("y_shuffle", 27, 28, when, "Y shuffle, covered as 0 alone")
}

pub(super) static VECFP_ENABLE_VALUE: Field = enable_value(36);
static VECFP_X_SHUFFLE: Field = x_shuffle(Always);
static VECFP_Y_SHUFFLE: Field = y_shuffle(Always);

// `several`, `indexed` and `alu_mode` decide which others are there, so they come first.
static VECFP: [&Field; 18] = [
    &SEVERAL,
    &INDEXED,
    &ALU_MODE,
    &RESERVED,
    &INDEX_REGISTER,
    &INDEX_4_BITS,
    &INDEX_Y,
    &LANE_WIDTHS,
    &ENABLE_MODE,
    &VECFP_ENABLE_VALUE,
    &BROADCAST_MODE,
    &VECFP_X_SHUFFLE,
    &VECFP_Y_SHUFFLE,
    &FOUR,
    &Z_ROW_OF_ONE,
    &Z_ROW_OF_SEVERAL,
    &X_OFFSET,
    &Y_OFFSET,
];

pub(super) static X_SIGNED: Field = field("x_signed", 63, 63, NotMode4, "X is signed (1) or unsigned (0)");
pub(super) static Z_SIGNED: Field = field("z_signed", 63, 63, Mode4, "Z is signed (1) or unsigned (0)");
pub(super) static VECINT_SHIFT: Field = field("shift", 58, 62, Always, "right shift");
pub(super) static VECINT_ENABLE_VALUE: Field = enable_value(37);
pub(super) static SATURATE: Field = field("saturate", 30, 30, Mode4, "clamp to the saturation width (1) or not (0)");
pub(super) static ROUNDING: Field = field("rounding", 29, 29, Mode4, "the shift rounds (1) or truncates (0)");
static VECINT_X_SHUFFLE: Field = x_shuffle(NotMode4);
static VECINT_Y_SHUFFLE: Field = y_shuffle(NotMode4);
pub(super) static Y_SIGNED: Field = field("y_signed", 26, 26, NotMode4, "Y is signed (1) or unsigned (0)");
pub(super) static SATURATE_SIGNED: Field = field("saturate_signed", 26, 26, Mode4, "the saturation is signed (1) or unsigned (0)");

// in that order for the same reason
static VECINT: [&Field; 25] = [
    &SEVERAL,
    &INDEXED,
    &ALU_MODE,
    &X_SIGNED,
    &Z_SIGNED,
    &VECINT_SHIFT,
    &RESERVED,
    &INDEX_REGISTER,
    &INDEX_4_BITS,
    &INDEX_Y,
    &LANE_WIDTHS,
    &ENABLE_MODE,
    &VECINT_ENABLE_VALUE,
    &BROADCAST_MODE,
    &SATURATE,
    &ROUNDING,
    &VECINT_X_SHUFFLE,
    &VECINT_Y_SHUFFLE,
    &Y_SIGNED,
    &SATURATE_SIGNED,
    &FOUR,
    &Z_ROW_OF_ONE,
    &Z_ROW_OF_SEVERAL,
    &X_OFFSET,
    &Y_OFFSET,
];

/// Every field that an instruction's operands have, whatever the others are; those that decide on others first.
pub(super) fn table(instruction: Instruction) -> &'static [&'static Field] {
    match instruction {
        Instruction::Fms64 => &FMS64,
        Instruction::Mac16 => &MAC16,
        Instruction::Vecint => &VECINT,
        Instruction::Vecfp => &VECFP,
    }
}
