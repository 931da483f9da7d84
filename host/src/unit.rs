//! The unit that takes the steps: the proved one, or where the feature `proved` is off the second program.

#[cfg(feature = "proved")]
pub(crate) use proved::{checkpoint, normal_answer, normal_operand, step};
#[cfg(not(feature = "proved"))]
pub(crate) use second::{checkpoint, normal_answer, normal_operand, step};

/// Whether the proved unit takes the steps, libamx.a, which the feature `proved` links. Where it is off, the second program does,
/// [`reference`](mod@crate::reference), and every output has to say so: [`UNIT_NOTE`].
pub const PROVED: bool = cfg!(feature = "proved");

/// What an output has to say of the steps in it where they are not the proved unit's, in words; `None` where they are.
///
/// ```
/// let heading = match amx::UNIT_NOTE {
///     Some(note) => format!("answers ({note})"),
///     None => "answers".to_owned(),
/// };
/// assert_eq!(heading == "answers", amx::PROVED);
/// ```
pub const UNIT_NOTE: Option<&str> = if PROVED { None } else { Some("second program, not the proved unit") };

/// The C interface of libamx.a, include/amx.h.
#[cfg(feature = "proved")]
#[allow(unsafe_code)] // the four calls of libamx.a
mod proved {
    unsafe extern "C" {
        fn amx_step(state: *mut u8, length: u64, instruction: u64, generation: u64, operand: u64, serial: u64) -> u64;
        fn amx_checkpoint(state: *const u8, length: u64, consumed: u64, out: *mut u8, out_length: u64) -> u64;
        #[link_name = "amx_normal_answer"]
        pub safe fn normal_answer(instruction: u64, generation: u64, operand: u64) -> u64;
        #[link_name = "amx_normal_operand"]
        pub safe fn normal_operand(instruction: u64, generation: u64, operand: u64) -> u64;
    }

    pub fn step(state: &mut [u8], instruction: u64, generation: u64, operand: u64, serial: u64) -> u64 {
        // SAFETY: pointer and length are of one slice, lent to this call alone; amx_step keeps neither and takes every number
        unsafe { amx_step(state.as_mut_ptr(), state.len() as u64, instruction, generation, operand, serial) }
    }

    pub fn checkpoint(state: &[u8], consumed: u64, out: &mut [u8]) -> u64 {
        // SAFETY: each pointer and its length are of one slice, `out` lent to this call alone; amx_checkpoint keeps neither, writes to
        // `out` alone and takes every number
        unsafe { amx_checkpoint(state.as_ptr(), state.len() as u64, consumed, out.as_mut_ptr(), out.len() as u64) }
    }
}

/// The second program's functions, as libamx.a has them.
#[cfg(not(feature = "proved"))]
mod second {
    use crate::reference;
    pub use reference::{checkpoint, step};

    pub fn normal_answer(instruction: u64, generation: u64, operand: u64) -> u64 {
        reference::normal(instruction, generation, operand).err().unwrap_or(0)
    }

    pub fn normal_operand(instruction: u64, generation: u64, operand: u64) -> u64 {
        reference::normal(instruction, generation, operand).unwrap_or(operand)
    }
}
