use std::fmt;

const NO_OP: u64 = 65_536;
const REFUSED: u64 = 131_072;

/// The bytes of Z, which are the most that a step can report.
const MOST: u64 = 4_096;

/// What a step answers. A step that is done or a no-op raises the state's count by one; a no-op changes nothing else, and a refusal no byte.
///
/// An answer is to be looked at: one that is dropped hides a step that did nothing. Where only a done step will do, [`done`](Self::done)
/// makes an error of all others.
///
/// `{}` writes the words of a step line, `{:#}` what the number is as well.
///
/// ```
/// use amx::{Answer, Reason};
/// let answer = Answer::NoOp(Reason::LaterMode);
/// assert_eq!(answer.to_string(), "no-op 3");
/// assert_eq!(format!("{answer:#}"), "no-op 3: ALU modes 10 to 12 are not on M1");
/// let answer = Answer::Done { bytes: 64 };
/// assert_eq!((answer.to_string(), format!("{answer:#}")), ("done 64".to_owned(), "done 64 bytes".to_owned()));
/// ```
///
/// The compiler warns of an answer that is dropped, or stops there where it is told to:
///
/// ```compile_fail
/// #![deny(unused_must_use)]
/// amx::step(&mut amx::State::new(), amx::Call::new(14, 1, 1 << 63), 0);
/// ```
#[must_use = "an answer that is dropped hides a refusal or a no-op"]
#[derive(Clone, Copy, Debug, PartialEq, Eq, Hash)]
pub enum Answer {
    /// The step was done.
    Done {
        /// The bytes of Z in lanes that it enabled, 0 to 4,096. Those of several steps may be summed, whatever their lane widths.
        bytes: u64,
    },
    /// The chip would do nothing either.
    NoOp(Reason),
    /// The unit does not cover the call, or the serial is not the one due.
    Refused(Refusal),
}

/// Why a step is not done: an [`Answer`] other than [`Answer::Done`], as an error. `{}` and `{:#}` write what the answer's do.
///
/// ```
/// use amx::{Answer, NotDone, Refusal};
/// let error = NotDone::Refused(Refusal::Serial);
/// assert_eq!(error.to_string(), "refused 8");
/// assert_eq!(format!("{error:#}"), "refused 8: the serial is not the count of steps taken");
/// assert_eq!(Answer::from(error), Answer::Refused(Refusal::Serial));
/// ```
#[derive(Clone, Copy, Debug, PartialEq, Eq, Hash)]
pub enum NotDone {
    /// The chip would do nothing either.
    NoOp(Reason),
    /// The unit does not cover the call, or the serial is not the one due.
    Refused(Refusal),
}

/// Why a step is a no-op. The discriminant is the reason's number.
#[derive(Clone, Copy, Debug, PartialEq, Eq, Hash)]
pub enum Reason {
    /// vecint or vecfp, any of bits 54..56 set.
    ReservedBits = 1,
    /// vecint, ALU mode 7, 8, 9 or above 12; vecfp, ALU mode 2, 3, 6, 8, 9 or above 12.
    ReservedMode = 2,
    /// vecint or vecfp, ALU mode 10, 11 or 12 on M1.
    LaterMode = 3,
}

/// Why a call is refused. The discriminant is the refusal's number.
#[derive(Clone, Copy, Debug, PartialEq, Eq, Hash)]
pub enum Refusal {
    /// The state is not of 5,128 bytes.
    StateLength = 1,
    /// The generation is not 1 or 2.
    Generation = 2,
    /// The instruction is not 11, 14, 18 or 19.
    Instruction = 3,
    /// vecint, a shuffle outside ALU mode 4; vecfp, ALU mode 0, 1, 5 or 7, an indexed load, lane widths other than 4 and 7, or a shuffle;
    /// fms64, neither X nor Y skipped.
    NotCovered = 4,
    /// The serial is not the count of steps taken, as when the step was taken already.
    Serial = 8,
    /// The count of steps taken is 2^64 - 1, whatever the serial: the state takes no more.
    LastCount = 9,
}

impl Answer {
    /// The answer as the C interface gives it: the bytes, 65,536 + a reason, 131,072 + a refusal.
    ///
    /// ```
    /// use amx::{Answer, Refusal};
    /// assert_eq!(Answer::Refused(Refusal::NotCovered).number(), 131_076);
    /// ```
    pub fn number(self) -> u64 {
        match self {
            Answer::Done { bytes } => bytes,
            Answer::NoOp(reason) => NO_OP + reason as u64,
            Answer::Refused(refusal) => REFUSED + refusal as u64,
        }
    }

    /// The way back from [`number`](Self::number); `None` where a number is no answer.
    ///
    /// ```
    /// use amx::{Answer, Reason};
    /// assert_eq!(Answer::from_number(65_537), Some(Answer::NoOp(Reason::ReservedBits)));
    /// assert_eq!((Answer::from_number(4_096), Answer::from_number(4_097)), (Some(Answer::Done { bytes: 4_096 }), None));
    /// assert_eq!((Answer::from_number(65_536), Answer::from_number(131_077)), (None, None));
    /// ```
    pub fn from_number(number: u64) -> Option<Self> {
        use {Reason::*, Refusal::*};
        match number {
            0..=MOST => Some(Answer::Done { bytes: number }),
            NO_OP..REFUSED => {
                [ReservedBits, ReservedMode, LaterMode].into_iter().find(|&reason| reason as u64 == number - NO_OP).map(Answer::NoOp)
            }
            REFUSED.. => [StateLength, Generation, Instruction, NotCovered, Serial, LastCount]
                .into_iter()
                .find(|&refusal| refusal as u64 == number - REFUSED)
                .map(Answer::Refused),
            _ => None,
        }
    }

    /// Whether the step was done.
    pub fn is_done(self) -> bool {
        matches!(self, Answer::Done { .. })
    }

    /// The bytes that a done step reports; any other answer is an error.
    ///
    /// ```
    /// use amx::{Call, NotDone, Reason, State, step};
    /// fn bytes(call: Call) -> Result<u64, NotDone> {
    ///     let bytes = step(&mut State::new(), call, 0).done()?;
    ///     Ok(bytes)
    /// }
    /// assert_eq!(bytes(Call::new(14, 1, 1 << 63)), Ok(64));
    /// assert_eq!(bytes(Call::new(18, 1, 1 << 54)), Err(NotDone::NoOp(Reason::ReservedBits)));
    /// ```
    pub fn done(self) -> Result<u64, NotDone> {
        match self {
            Answer::Done { bytes } => Ok(bytes),
            Answer::NoOp(reason) => Err(NotDone::NoOp(reason)),
            Answer::Refused(refusal) => Err(NotDone::Refused(refusal)),
        }
    }
}

impl From<NotDone> for Answer {
    fn from(error: NotDone) -> Self {
        match error {
            NotDone::NoOp(reason) => Answer::NoOp(reason),
            NotDone::Refused(refusal) => Answer::Refused(refusal),
        }
    }
}

impl fmt::Display for Answer {
    fn fmt(&self, f: &mut fmt::Formatter) -> fmt::Result {
        match self.done() {
            Ok(bytes) if f.alternate() => write!(f, "done {bytes} bytes"),
            Ok(bytes) => write!(f, "done {bytes}"),
            Err(not_done) => not_done.fmt(f),
        }
    }
}

impl fmt::Display for NotDone {
    fn fmt(&self, f: &mut fmt::Formatter) -> fmt::Result {
        match self {
            NotDone::NoOp(reason) if f.alternate() => write!(f, "no-op {}: {reason}", *reason as u8),
            NotDone::NoOp(reason) => write!(f, "no-op {}", *reason as u8),
            NotDone::Refused(refusal) if f.alternate() => write!(f, "refused {}: {refusal}", *refusal as u8),
            NotDone::Refused(refusal) => write!(f, "refused {}", *refusal as u8),
        }
    }
}

impl std::error::Error for NotDone {}

impl fmt::Display for Reason {
    fn fmt(&self, f: &mut fmt::Formatter) -> fmt::Result {
        f.write_str(match self {
            Reason::ReservedBits => "bits 54..56 are not all 0",
            Reason::ReservedMode => {
                "the ALU mode is none of the instruction's (vecint's are 0 to 6 and 10 to 12, vecfp's 0, 1, 4, 5, 7 and 10 to 12)"
            }
            Reason::LaterMode => "ALU modes 10 to 12 are not on M1",
        })
    }
}

impl fmt::Display for Refusal {
    fn fmt(&self, f: &mut fmt::Formatter) -> fmt::Result {
        f.write_str(match self {
            Refusal::StateLength => "the state is not of 5,128 bytes",
            Refusal::Generation => "the generation is not 1 or 2",
            Refusal::Instruction => "the instruction is not 11 (fms64), 14 (mac16), 18 (vecint) or 19 (vecfp)",
            Refusal::NotCovered => {
                "not covered are shuffles (but in vecint's ALU mode 4); vecfp's ALU modes 0, 1, 5 and 7, indexed loads and lane widths \
                 other than 4 and 7; fms64 with both X and Y"
            }
            Refusal::Serial => "the serial is not the count of steps taken",
            Refusal::LastCount => "the count of steps taken is at its last, 2^64 - 1",
        })
    }
}

#[cfg(test)]
mod tests {
    use super::*;

    /// Every answer that there is, by number; of done ones the ends.
    fn answers() -> impl Iterator<Item = Answer> {
        [0, MOST].into_iter().chain(NO_OP..NO_OP + 16).chain(REFUSED..REFUSED + 16).filter_map(Answer::from_number)
    }

    #[test]
    fn an_answer_is_done_or_an_error_that_leads_back_to_it() {
        assert_eq!(answers().count(), 2 + 3 + 6);
        for answer in answers() {
            match answer.done() {
                Ok(bytes) => assert_eq!(answer, Answer::Done { bytes }),
                Err(error) => {
                    assert_eq!(Answer::from(error), answer);
                    assert_eq!((error.to_string(), format!("{error:#}")), (answer.to_string(), format!("{answer:#}")));
                }
            }
            assert_eq!(answer.done().is_ok(), answer.is_done());
        }
    }

    #[test]
    fn an_error_tells_its_number_and_reason_as_any_error_does() {
        let error: Box<dyn std::error::Error> = NotDone::NoOp(Reason::ReservedBits).into();
        assert_eq!((error.to_string(), format!("{error:#}")), ("no-op 1".to_owned(), "no-op 1: bits 54..56 are not all 0".to_owned()));
    }
}
