//! A call as it is sent: with a serial that is chosen by the state's count, or by the steps before.
use amx::{Call, REGISTER_BYTES, STATE_LENGTH, random::Random};
use std::fmt;

/// The count of a state; one of another length has none.
pub fn count_of(state: &[u8]) -> Option<u64> {
    let count = state.last_chunk().filter(|_| state.len() == STATE_LENGTH)?;
    Some(u64::from_le_bytes(*count))
}

/// A count: 0, any, or one of the last few.
pub fn draw_count(random: &mut Random, few: u64) -> u64 {
    match random.below(4) {
        0 => 0,
        1 => u64::MAX - random.below(few),
        _ => random.bits(),
    }
}

/// Random bytes with a count, where the length has one.
pub fn draw_state(random: &mut Random, length: usize, count: u64) -> Vec<u8> {
    let mut state = random.bytes(length);
    set_count(&mut state, count);
    state
}

/// Writes the count, where there is one.
pub fn set_count(state: &mut [u8], count: u64) {
    if state.len() == STATE_LENGTH {
        state[REGISTER_BYTES..].copy_from_slice(&count.to_le_bytes());
    }
}

/// A call, and how its serial is chosen.
#[derive(Clone, Copy, PartialEq, Eq)]
pub struct Sent {
    pub call: Call,
    pub serial: Serial,
}

/// A serial, chosen when the call is sent.
#[derive(Clone, Copy, PartialEq, Eq)]
pub enum Serial {
    /// The count; where there is none, any will do.
    Due,
    /// So many past the count, modulo 2^64.
    Past(u64),
    /// This one, whatever the count.
    Given(u64),
    /// That of a step of the list that was done or a no-op: so many before the last such step, or the first. The one due where there is none.
    Used(usize),
}

impl Sent {
    pub fn due(call: Call) -> Self {
        Sent { call, serial: Serial::Due }
    }
}

impl Serial {
    /// A wrong serial, but for chance: an old one, a future one, one a power of 2 away, an end of their range, or any.
    pub fn wrong(random: &mut Random) -> Self {
        match random.below(8) {
            0 => Serial::Past(u64::MAX),
            1 => Serial::Past(1),
            2 => Serial::Past(random.below(1_000).wrapping_neg()),
            3 => Serial::Past(random.below(1_000)),
            4 => Serial::Past(1 << random.below(64)),
            5 => Serial::Given(0),
            6 => Serial::Given(u64::MAX),
            _ => Serial::Given(random.bits()),
        }
    }

    /// The number that is sent to a state on which these serials are used up, in their order.
    pub fn number(self, state: &[u8], used: &[u64]) -> u64 {
        let due = count_of(state).unwrap_or(0);
        match self {
            Serial::Due => due,
            Serial::Past(more) => due.wrapping_add(more),
            Serial::Given(serial) => serial,
            Serial::Used(back) => used.get(used.len().saturating_sub(back + 1)).copied().unwrap_or(due),
        }
    }
}

impl fmt::Display for Sent {
    fn fmt(&self, f: &mut fmt::Formatter) -> fmt::Result {
        let Call { instruction, generation, operand } = self.call;
        write!(f, "{}  (raw {instruction} {generation} {operand:#x}), ", self.call)?;
        match self.serial {
            Serial::Due => write!(f, "serial due"),
            Serial::Past(more) if more > u64::MAX / 2 => write!(f, "serial {} before the one due", more.wrapping_neg()),
            Serial::Past(more) => write!(f, "serial {more} after the one due"),
            Serial::Given(serial) => write!(f, "serial {serial}"),
            Serial::Used(0) => write!(f, "serial last used up"),
            Serial::Used(back) => write!(f, "serial used up {back} before the last"),
        }
    }
}
