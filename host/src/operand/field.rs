use super::table::table;
use crate::{Generation, Instruction};
use std::fmt;

/// A field of an operand, by the name that the documents give it.
#[derive(Debug, PartialEq, Eq)]
pub struct Field {
    /// The name, as in the builders.
    pub name: &'static str,
    /// The name in texts of steps, mostly the same.
    pub short: &'static str,
    /// The lowest bit.
    pub low: u32,
    /// The highest bit.
    pub high: u32,
    /// When the bits have this meaning.
    pub when: When,
    /// What the field says.
    pub meaning: &'static str,
}

/// When a field is there: some bits of a vecint or a vecfp mean different things in different steps.
#[derive(Clone, Copy, Debug, PartialEq, Eq)]
pub enum When {
    /// In every operand.
    Always,
    /// On M2 (bit 31 reads as 0 on M1).
    OnM2,
    /// With one vector.
    OneVector,
    /// With several vectors.
    Several,
    /// In ALU mode 4.
    Mode4,
    /// Outside ALU mode 4.
    NotMode4,
    /// With an indexed load.
    Indexed,
    /// Without an indexed load.
    NotIndexed,
}

impl When {
    /// Whether an operand of vecint or vecfp has fields of this kind. mac16 and fms64 have none but those that are always there.
    fn holds(self, generation: Generation, operand: u64) -> bool {
        let indexed = operand >> 53 & 1 == 1;
        let mode_4 = !indexed && operand >> 47 & 63 == 4;
        let several = generation == Generation::M2 && operand >> 31 & 1 == 1;
        match self {
            When::Always => true,
            When::OnM2 => generation == Generation::M2,
            When::OneVector => !several,
            When::Several => several,
            When::Mode4 => mode_4,
            When::NotMode4 => !mode_4,
            When::Indexed => indexed,
            When::NotIndexed => !indexed,
        }
    }
}

impl fmt::Display for When {
    fn fmt(&self, f: &mut fmt::Formatter) -> fmt::Result {
        f.write_str(match self {
            When::Always => "always",
            When::OnM2 => "on M2",
            When::OneVector => "with one vector (bit 31 clear, or M1)",
            When::Several => "with several vectors (bit 31 set, on M2)",
            When::Mode4 => "in ALU mode 4",
            When::NotMode4 => "outside ALU mode 4",
            When::Indexed => "with an indexed load (bit 53 set)",
            When::NotIndexed => "without an indexed load (bit 53 clear)",
        })
    }
}

impl Field {
    /// The field's bits.
    pub fn mask(&self) -> u64 {
        (2u64 << self.high).wrapping_sub(1 << self.low)
    }

    /// The highest value.
    pub fn max(&self) -> u64 {
        self.mask() >> self.low
    }

    /// The field's value in an operand.
    pub fn of(&self, operand: u64) -> u64 {
        (operand & self.mask()) >> self.low
    }

    /// An operand with the field's bits replaced by a value that fits them.
    pub(super) fn put(&self, operand: u64, value: u64) -> u64 {
        debug_assert!(value <= self.max(), "{} does not hold {value}", self.name);
        operand & !self.mask() | value << self.low
    }

    /// An operand with the field's bits replaced by any value: one that does not fit them is an error.
    pub(crate) fn set(&'static self, operand: u64, value: u64) -> Result<u64, FieldError> {
        if value > self.max() { Err(FieldError::Range { field: self, value }) } else { Ok(self.put(operand, value)) }
    }

    /// `bit 63` or `bits 58..62`.
    pub fn bits(&self) -> String {
        if self.low == self.high { format!("bit {}", self.low) } else { format!("bits {}..{}", self.low, self.high) }
    }
}

/// The fields that an operand has, the ones that decide on others first.
///
/// ```
/// use amx::{Generation, Instruction, fields};
/// let has = |operand, name| fields(Instruction::Vecint, Generation::M2, operand).any(|field| field.name == name);
/// assert!(has(0, "enable_mode") && !has(0, "broadcast_mode"));
/// assert!(has(1 << 31, "broadcast_mode"));
/// ```
pub fn fields(instruction: Instruction, generation: Generation, operand: u64) -> impl Iterator<Item = &'static Field> {
    table(instruction).iter().copied().filter(move |field| field.when.holds(generation, operand))
}

/// An operand with a field changed; the field goes by either of its names. Any value that fits will do, reserved ones too, which the
/// builders do not have.
///
/// ```
/// use amx::{Generation::M1, Instruction::Mac16, with_field};
/// assert_eq!(with_field(Mac16, M1, 0, "shift", 2), Ok(2 << 55));
/// let error = with_field(Mac16, M1, 0, "shift", 32).unwrap_err();
/// assert_eq!(error.to_string(), "shift (bits 55..59) is 0 to 31, not 32");
/// ```
///
/// What the chip does with a reserved ALU mode, of a kernel that is built of fields:
///
/// ```
/// use amx::{AluMode, Answer, Call, Enable, Generation, Instruction, Reason, State, Vecint, step, with_field};
/// let call = Call::vecint(Vecint::m1(AluMode::AddProduct, Enable::All)?);
/// let reserved = Call { operand: with_field(Instruction::Vecint, Generation::M1, call.operand, "alu_mode", 7)?, ..call };
/// assert_eq!(step(&mut State::new(), reserved, 0), Answer::NoOp(Reason::ReservedMode));
/// # Ok::<(), amx::FieldError>(())
/// ```
pub fn with_field(instruction: Instruction, generation: Generation, operand: u64, name: &str, value: u64) -> Result<u64, FieldError> {
    find(instruction, generation, operand, name)?.set(operand, value)
}

/// The field of an operand that goes by a name.
pub(crate) fn find(instruction: Instruction, generation: Generation, operand: u64, name: &str) -> Result<&'static Field, FieldError> {
    let mut named = table(instruction).iter().copied().filter(|field| field.name == name || field.short == name).peekable();
    let first = named.peek().copied();
    named.find(|field| field.when.holds(generation, operand)).ok_or_else(|| match first {
        Some(field) => FieldError::NotThere { field },
        None => FieldError::Unknown { instruction, name: name.to_owned() },
    })
}

/// Where a name stands in its instruction's table.
pub(crate) fn place(instruction: Instruction, name: &str) -> Option<usize> {
    table(instruction).iter().position(|field| field.name == name || field.short == name)
}

/// Why a field was not set.
#[derive(Clone, Debug, PartialEq, Eq)]
pub enum FieldError {
    /// The value does not fit the field.
    Range {
        /// The field.
        field: &'static Field,
        /// The value.
        value: u64,
    },
    /// The operand does not have the field.
    NotThere {
        /// The field.
        field: &'static Field,
    },
    /// The instruction has no field of this name.
    Unknown {
        /// The instruction.
        instruction: Instruction,
        /// The name.
        name: String,
    },
}

impl fmt::Display for FieldError {
    fn fmt(&self, f: &mut fmt::Formatter) -> fmt::Result {
        match self {
            FieldError::Range { field, value } => write!(f, "{} ({}) is 0 to {}, not {value}", field.name, field.bits(), field.max()),
            FieldError::NotThere { field } => write!(f, "{} ({}) is there only {}", field.name, field.bits(), field.when),
            FieldError::Unknown { instruction, name } => {
                let mut names: Vec<&str> = table(*instruction).iter().map(|field| field.short).collect();
                names.sort_unstable();
                names.dedup();
                write!(f, "{} has no field {name:?}; it has {}", instruction.name(), names.join(", "))
            }
        }
    }
}

impl std::error::Error for FieldError {}

#[cfg(test)]
mod tests {
    use super::*;
    use Generation::{M1, M2};

    #[test]
    fn no_two_fields_of_an_operand_share_a_bit_or_a_name() {
        for operand in [0, 1 << 31, 4 << 47, 1 << 53, 1 << 31 | 4 << 47, 1 << 31 | 1 << 53, 4 << 47 | 1 << 53] {
            for (instruction, generation) in Instruction::ALL.into_iter().flat_map(|instruction| [(instruction, M1), (instruction, M2)]) {
                let (mut seen, mut names) = (0, Vec::new());
                for field in fields(instruction, generation, operand) {
                    assert_eq!(seen & field.mask(), 0, "{}", field.name);
                    assert!(!names.contains(&field.short), "{}", field.name);
                    seen |= field.mask();
                    names.push(field.short);
                }
            }
        }
    }

    #[test]
    fn a_field_takes_its_range_and_no_more() {
        for operand in [0, 1 << 31, 4 << 47, 1 << 53] {
            for instruction in Instruction::ALL {
                for field in fields(instruction, M2, operand) {
                    let set = with_field(instruction, M2, operand, field.name, field.max()).unwrap();
                    assert_eq!(set, operand | field.mask());
                    assert_eq!(field.of(set), field.max());
                    let error = with_field(instruction, M2, operand, field.name, field.max() + 1).unwrap_err();
                    assert!(error.to_string().starts_with(field.name) && error.to_string().contains(&format!("0 to {}", field.max())));
                }
            }
        }
    }

    #[test]
    fn an_unknown_name_is_told_what_there_is() {
        let error = with_field(Instruction::Mac16, M1, 0, "mode", 0).unwrap_err().to_string();
        assert!(error.starts_with("mac16 has no field \"mode\"; it has shift, skip_x"), "{error}");
    }
}
