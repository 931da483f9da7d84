//! The AMX unit, integers and floats, for people who write kernels: safe calls of the proved unit, libamx.a.
//!
//! - [`State`] holds the registers and the count of steps taken; [`step`] does one call on it, and [`step_bytes`] does so on bytes of any
//!   length. A call names the count before it, its serial, so that one sent twice adds once.
//! - [`Answer`] tells a step that was done from a no-op and a refusal, with the reason; [`NotDone`] is what is not done, as an error.
//! - [`Mac16`], [`Vecint`], [`Reduction`], [`Vecfp`] and [`Fms64`] build operands by field, of enums that have no reserved values;
//!   [`Call::new`] and [`with_field`] take any number. [`explain`] goes back, with the ignored bits; [`normal`] clears those.
//! - [`Trace`] holds a trace file, a whole one or one that goes on from a [`Checkpoint`]; [`TraceReader`], [`TraceWriter`], [`Run`] and
//!   [`write_run`] read, write and run one step by step, of up to 1,000,000; a file that is none is told by a [`FileFault`]. [`text`] does so
//!   with their texts, whose numbers are of a [`LaneType`].
//! - [`effects`] tells what a step does to each lane, in numbers.
//! - [`mod@reference`] is a second program for the same pages, whose floats are whole numbers ([`rounding`]). Nothing here relies on it but
//!   [`effects`], [`explain`] and [`lane_grid`], and builds without the proved unit; the `compare` program runs both.
//!
//! ```
//! use amx::{AluMode, Answer, Call, Enable, LaneWidths, Register, State, Vecint, Width, step};
//!
//! // X byte 255 unsigned times Y byte -1 signed, onto 16-bit lanes
//! let mut state = State::new();
//! state.set_lane(Register::X(0), 0, Width::Bits8, 255);
//! state.set_lane(Register::Y(0), 0, Width::Bits8, -1);
//! let fields = Vecint::m1(AluMode::AddProduct, Enable::All)?.lane_widths(LaneWidths::X8Y8Z16).y_signed(true);
//!
//! assert_eq!(step(&mut state, Call::vecint(fields), 0), Answer::Done { bytes: 128 });
//! assert_eq!(state.signed_lane(Register::Z(0), 0, Width::Bits16), -255);
//! # Ok::<(), amx::FieldError>(())
//! ```
//!
//! # With the proved unit, and without
//!
//! The feature `proved`, which is on by default, links libamx.a: where these pages say "the proved unit", that is what takes the step.
//! Without it (`--no-default-features`) the crate needs nothing but Rust, on any machine, and the second program takes every step: it is
//! held to the proved unit by comparison, but it is not proved, and it is slower. [`PROVED`] tells which of the two a build has, and
//! [`UNIT_NOTE`] is what its outputs then have to say.
//!
//! # Floats
//!
//! Each float lane is one operation, rounded once, to nearest with ties to even; subnormals are kept, and a result that is not a number is
//! the default NaN. A host must keep the floating-point environment that programs start with: rounding to nearest, and neither
//! flush-to-zero nor denormals-are-zero (bits of MXCSR on x86-64). The safe call restores nothing: [`step`] neither sets these, nor tests
//! them, nor puts them back.
//!
//! ```
//! use amx::{Answer, Call, Enable, Float, FloatMode, Register, State, Vecfp, Vectors, step};
//!
//! // 1 + 2^-24 ties between 1 and the f32 after it, and 1 is even; inf - inf is the default NaN
//! let mut state = State::new();
//! state.set_f32(Register::Z(0), 0, 1.0);
//! state.set_f32(Register::X(0), 0, (2.0f32).powi(-24));
//! state.set_f32(Register::Z(0), 1, f32::INFINITY);
//! state.set_f32(Register::X(0), 1, f32::NEG_INFINITY);
//! let fields = Vecfp::m2(FloatMode::AddX, Float::Single, Vectors::One(Enable::All))?;
//!
//! assert_eq!(step(&mut state, Call::vecfp(fields), 0), Answer::Done { bytes: 64 });
//! assert_eq!(state.f32_lane(Register::Z(0), 0), 1.0);
//! assert_eq!(state.f32_lane(Register::Z(0), 1).to_bits(), 0x7fc0_0000);
//! # Ok::<(), amx::FieldError>(())
//! ```

mod answer;
mod call;
mod effects;
mod explain;
mod fault;
mod lane_type;
mod operand;
pub mod random;
pub mod reference;
pub mod rounding;
mod run;
mod state;
mod stream;
pub mod text;
mod trace;
mod unit;
pub mod words;

pub use answer::{Answer, NotDone, Reason, Refusal};
pub use call::{Call, Generation, Instruction, checkpoint_bytes, normal, run, step, step_bytes};
pub use effects::{Kept, LaneEffect, Value, effects, effects_on};
pub use explain::{Explanation, explain, lane_grid};
pub use fault::{FileFault, FileRefusal, TableField};
pub use lane_type::{LaneType, UnknownLaneType};
pub use operand::{
    AluMode, Broadcast, Enable, Field, FieldError, Float, FloatMode, Fms64, IndexBits, LaneWidths, Mac16, Reduction, ReductionWidths, Side,
    SideEnable, Vecfp, Vecint, Vectors, When, fields, with_field,
};
pub use run::Run;
pub use state::{REGISTER_BYTES, Register, STATE_LENGTH, State, Width};
pub use stream::{ReadError, TraceReader, TraceWriter, WriteError, print_trace, write_run};
pub use trace::{CHECKPOINT_LENGTH, Checkpoint, NoCheckpoint, NoRecord, Record, Trace, TraceFull, TraceHeader};
pub use unit::{PROVED, UNIT_NOTE};
