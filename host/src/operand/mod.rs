//! Operands: the table of their fields, which people name, and the builders, which can't say a wrong one.

mod builders;
mod field;
mod table;
mod values;

pub use builders::{Fms64, Mac16, Reduction, Vecfp, Vecint};
pub use field::{Field, FieldError, When, fields, with_field};
pub(crate) use field::{find, place};
pub use values::{AluMode, Broadcast, Enable, Float, FloatMode, IndexBits, LaneWidths, ReductionWidths, Side, SideEnable, Vectors};
