use crate::{Answer, Fms64, Mac16, NotDone, Reduction, State, Vecfp, Vecint, unit};

/// A call of the step. Any numbers may stand here: the step answers for all of them. A call that is made of fields has no reserved ones;
/// [`new`](Self::new) takes any.
#[must_use = "a call does nothing before it is stepped"]
#[derive(Clone, Copy, Debug, PartialEq, Eq, Hash)]
pub struct Call {
    /// 11 is fms64, 14 is mac16, 18 is vecint, 19 is vecfp.
    pub instruction: u64,
    /// 1 is M1, 2 is M2.
    pub generation: u64,
    /// The 64 bits that the instruction takes.
    pub operand: u64,
}

/// The instructions that the unit covers. The discriminant is the instruction's number.
#[derive(Clone, Copy, Debug, PartialEq, Eq, Hash)]
pub enum Instruction {
    /// Differences of f64 lanes onto a row or a matrix of Z.
    Fms64 = 11,
    /// Products of X and Y lanes onto a row or all of Z.
    Mac16 = 14,
    /// Integer operations lane by lane, and reductions of Z.
    Vecint = 18,
    /// Float operations lane by lane.
    Vecfp = 19,
}

/// The generations that the unit covers. The discriminant is the generation's number.
#[derive(Clone, Copy, Debug, PartialEq, Eq, Hash)]
pub enum Generation {
    /// M1.
    M1 = 1,
    /// M2: ALU modes 10 to 12 and several vectors.
    M2 = 2,
}

impl Instruction {
    /// Every instruction, by number.
    pub const ALL: [Self; 4] = [Instruction::Fms64, Instruction::Mac16, Instruction::Vecint, Instruction::Vecfp];

    /// The instruction of this number, if the unit covers it.
    pub fn from_number(number: u64) -> Option<Self> {
        Self::ALL.into_iter().find(|&instruction| instruction as u64 == number)
    }

    /// The instruction of this name, if the unit covers it.
    ///
    /// ```
    /// use amx::Instruction;
    /// assert_eq!((Instruction::from_name("vecfp"), Instruction::from_name("fma64")), (Some(Instruction::Vecfp), None));
    /// ```
    pub fn from_name(name: &str) -> Option<Self> {
        Self::ALL.into_iter().find(|instruction| instruction.name() == name)
    }

    /// `fms64`, `mac16`, `vecint` or `vecfp`.
    pub fn name(self) -> &'static str {
        match self {
            Instruction::Fms64 => "fms64",
            Instruction::Mac16 => "mac16",
            Instruction::Vecint => "vecint",
            Instruction::Vecfp => "vecfp",
        }
    }
}

impl Generation {
    /// Every generation, by number.
    pub const ALL: [Self; 2] = [Generation::M1, Generation::M2];

    /// The generation of this number, if the unit covers it.
    pub fn from_number(number: u64) -> Option<Self> {
        Self::ALL.into_iter().find(|&generation| generation as u64 == number)
    }

    /// The generation of this name, if the unit covers it.
    ///
    /// ```
    /// use amx::Generation;
    /// assert_eq!((Generation::from_name("m2"), Generation::from_name("M2")), (Some(Generation::M2), None));
    /// ```
    pub fn from_name(name: &str) -> Option<Self> {
        Self::ALL.into_iter().find(|generation| generation.name() == name)
    }

    /// `m1` or `m2`.
    pub fn name(self) -> &'static str {
        match self {
            Generation::M1 => "m1",
            Generation::M2 => "m2",
        }
    }
}

impl Call {
    /// A call by its three numbers.
    pub fn new(instruction: u64, generation: u64, operand: u64) -> Self {
        Call { instruction, generation, operand }
    }

    /// A mac16, by its fields, which are the same on both generations.
    pub fn mac16(generation: Generation, fields: Mac16) -> Self {
        Call::known(Instruction::Mac16, generation, fields.operand())
    }

    /// An fms64, likewise.
    pub fn fms64(generation: Generation, fields: Fms64) -> Self {
        Call::known(Instruction::Fms64, generation, fields.operand())
    }

    /// A vecint, by its fields, which are a generation's.
    pub fn vecint(fields: Vecint) -> Self {
        Call::known(Instruction::Vecint, fields.generation(), fields.operand())
    }

    /// A vecint in ALU mode 4, likewise.
    pub fn reduction(fields: Reduction) -> Self {
        Call::known(Instruction::Vecint, fields.generation(), fields.operand())
    }

    /// A vecfp, likewise.
    pub fn vecfp(fields: Vecfp) -> Self {
        Call::known(Instruction::Vecfp, fields.generation(), fields.operand())
    }

    fn known(instruction: Instruction, generation: Generation, operand: u64) -> Self {
        Call::new(instruction as u64, generation as u64, operand)
    }
}

/// One step of the proved unit. Its serial is the state's [`count`](State::count) before it.
///
/// The sums, differences and products of floats are the processor's. They are rounded to nearest and keep subnormals where the thread's
/// floating-point environment is the one that programs start with: rounding to nearest, and neither flush-to-zero nor denormals-are-zero
/// (bits of MXCSR on x86-64). A host must keep it so. This call restores nothing: it neither sets these, nor tests them, nor puts them
/// back, and with others float lanes are not as stated. Integer lanes, moves and answers do not depend on them.
///
/// A call that may not have arrived can be sent again with the same serial, and adds once:
///
/// ```
/// use amx::{Answer, Call, Generation, Mac16, Refusal, Register, State, Width, step};
/// let mut state = State::new();
/// state.set_lane(Register::X(0), 0, Width::Bits16, 3);
/// state.set_lane(Register::Y(0), 0, Width::Bits16, -2);
/// state.set_lane(Register::Z(5), 0, Width::Bits16, 10);
///
/// let call = Call::mac16(Generation::M1, Mac16::new().vector(true).z_row(5)?);
/// let serial = state.count();
/// assert_eq!(step(&mut state, call, serial), Answer::Done { bytes: 64 });
/// assert_eq!(step(&mut state, call, serial), Answer::Refused(Refusal::Serial));
/// assert_eq!(state.signed_lane(Register::Z(5), 0, Width::Bits16), 4);
/// assert_eq!(state.count(), serial + 1);
/// # Ok::<(), amx::FieldError>(())
/// ```
pub fn step(state: &mut State, call: Call, serial: u64) -> Answer {
    step_bytes(state.bytes_mut(), call.instruction, call.generation, call.operand, serial)
}

/// One step of the proved unit on bytes of any length; a length other than [`STATE_LENGTH`](crate::STATE_LENGTH) is refused. What
/// [`step`] says of the floating-point environment holds here too.
///
/// ```
/// use amx::{Answer, REGISTER_BYTES, Refusal, STATE_LENGTH, step_bytes};
/// assert_eq!(step_bytes(&mut [0; REGISTER_BYTES], 14, 1, 1 << 63, 0), Answer::Refused(Refusal::StateLength));
/// assert_eq!(step_bytes(&mut [0; STATE_LENGTH], 14, 1, 1 << 63, 0), Answer::Done { bytes: 64 });
/// ```
pub fn step_bytes(state: &mut [u8], instruction: u64, generation: u64, operand: u64, serial: u64) -> Answer {
    answered(unit::step(state, instruction, generation, operand, serial))
}

/// Writes the checkpoint of a trace that is stopped after some steps, its third section, at the start of `out`: the steps consumed as a
/// u32, then the state. How many bytes were written: [`CHECKPOINT_LENGTH`](crate::CHECKPOINT_LENGTH), or 0 where the state has not
/// [`STATE_LENGTH`](crate::STATE_LENGTH) bytes, `out` has not so much room, or `consumed` is no u32. [`Trace`](crate::Trace) does this
/// for whole files.
///
/// ```
/// use amx::{CHECKPOINT_LENGTH, State, checkpoint_bytes};
/// let mut out = [9; CHECKPOINT_LENGTH + 1];
/// assert_eq!(checkpoint_bytes(State::new().bytes(), 258, &mut out), CHECKPOINT_LENGTH);
/// assert_eq!((&out[..5], out[CHECKPOINT_LENGTH]), (&[2, 1, 0, 0, 0][..], 9));
/// assert_eq!(checkpoint_bytes(State::new().bytes(), 1 << 32, &mut out), 0);
/// ```
#[must_use = "nothing was written where this is 0"]
pub fn checkpoint_bytes(state: &[u8], consumed: u64, out: &mut [u8]) -> usize {
    unit::checkpoint(state, consumed, out) as usize
}

/// The normal operand of a call: its ignored bits cleared. The step with it has the same answer and effect on every state, with every
/// serial. An error is the step's own no-op, or its refusal of the generation, the instruction or an operand that is not covered.
///
/// ```
/// use amx::{Call, NotDone, Reason, normal};
/// assert_eq!(normal(Call::new(14, 1, 1 << 63 | 1 << 62 | 7)), Ok(1 << 63 | 7));
/// assert_eq!(normal(Call::new(18, 1, 1 << 54)), Err(NotDone::NoOp(Reason::ReservedBits)));
/// ```
pub fn normal(call: Call) -> Result<u64, NotDone> {
    let answer = answered(unit::normal_answer(call.instruction, call.generation, call.operand));
    answer.done().map(|_| unit::normal_operand(call.instruction, call.generation, call.operand))
}

/// Every call of a list in turn on one state, each with the serial then due; the answer of each.
///
/// ```
/// use amx::{Answer, Call, Reason, State, run};
/// let calls = [Call::new(14, 1, 1 << 63), Call::new(18, 1, 1 << 54)];
/// let mut state = State::new();
/// assert_eq!(run(&mut state, &calls), [Answer::Done { bytes: 64 }, Answer::NoOp(Reason::ReservedBits)]);
/// assert_eq!(state.count(), 2);
/// ```
#[must_use = "answers that are dropped hide refusals and no-ops"]
pub fn run(state: &mut State, calls: &[Call]) -> Vec<Answer> {
    calls.iter().map(|&call| step_due(state, call)).collect()
}

/// A call with the serial due.
pub(crate) fn step_due(state: &mut State, call: Call) -> Answer {
    let serial = state.count();
    step(state, call, serial)
}

fn answered(number: u64) -> Answer {
    // the library's contract has no other numbers
    Answer::from_number(number).unwrap_or_else(|| panic!("the unit answered {number}, which amx.h does not have"))
}

#[cfg(test)]
mod tests {
    use super::*;
    use crate::{STATE_LENGTH, explain, random::Random, reference};

    #[test]
    fn an_operand_that_is_not_done_is_handed_back_as_given() {
        let mut random = Random::new(9);
        for _ in 0..20_000 {
            let Call { instruction, generation, operand } = random.call();
            let expected = reference::normal(instruction, generation, operand).unwrap_or(operand);
            assert_eq!(unit::normal_operand(instruction, generation, operand), expected);
        }
    }

    #[test]
    fn what_has_no_fields_is_refused_as_the_step_refuses_it() {
        for (instruction, generation) in [(15, 1), (14, 3), (15, 3), (1 << 32 | 14, 2), (18, 0)] {
            let call = Call::new(instruction, generation, 7 << 47);
            let refused = step(&mut State::new(), call, 0).done().unwrap_err();
            assert_eq!((normal(call), explain(call).err()), (Err(refused), Some(refused)));
        }
    }

    #[test]
    fn numbers_above_their_bytes_are_refused() {
        let refusal = |instruction, generation| step_bytes(&mut [0; STATE_LENGTH], instruction, generation, 0, 0).to_string();
        for instruction in [(1 << 32) + 14, (1 << 8) + 11, (1 << 63) + 19] {
            assert_eq!(refusal(instruction, 1), "refused 3");
        }
        assert_eq!(refusal(14, (1 << 32) + 1), "refused 2");
        assert_eq!(refusal(15, 3), "refused 2");
        assert_eq!(step_bytes(&mut [], 15, 3, 0, 0).to_string(), "refused 1");
    }
}
