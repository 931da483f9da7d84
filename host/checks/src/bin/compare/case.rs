//! A case on which two runs may differ, and the search for the smallest like it.
use crate::sent::{Sent, Serial, count_of};
use amx::{Call, REGISTER_BYTES, reference, step_bytes};
use std::fmt::Write;

/// The host's number of a refusal is at least this; a step whose answer is below it raised the count.
pub const REFUSED: u64 = 131_072;

/// A list of calls sent to a state of any length.
#[derive(Clone)]
pub struct Case {
    pub state: Vec<u8>,
    pub sent: Vec<Sent>,
}

/// What a list of calls leaves: the state, and the host's number of each answer.
#[derive(Debug, PartialEq, Eq)]
pub struct End {
    pub state: Vec<u8>,
    pub answers: Vec<u64>,
}

/// A step with a serial.
pub type Step = fn(&mut [u8], Call, u64) -> u64;

pub fn proved(state: &mut [u8], call: Call, serial: u64) -> u64 {
    step_bytes(state, call.instruction, call.generation, call.operand, serial).number()
}

pub fn second(state: &mut [u8], call: Call, serial: u64) -> u64 {
    reference::step(state, call.instruction, call.generation, call.operand, serial)
}

/// A state on its way through a list, and the serials that its steps have used up.
pub struct Run {
    pub state: Vec<u8>,
    pub used: Vec<u64>,
}

impl Run {
    pub fn send(&mut self, step: Step, sent: Sent) -> u64 {
        let serial = sent.serial.number(&self.state, &self.used);
        let answer = step(&mut self.state, sent.call, serial);
        if answer < REFUSED {
            self.used.push(serial);
        }
        answer
    }
}

impl Case {
    /// Calls that are each sent with the serial then due.
    pub fn due(state: Vec<u8>, calls: impl IntoIterator<Item = Call>) -> Self {
        Case { state, sent: calls.into_iter().map(Sent::due).collect() }
    }

    pub fn start(&self) -> Run {
        Run { state: self.state.clone(), used: Vec::new() }
    }

    pub fn run(&self, step: Step) -> End {
        let mut run = self.start();
        let answers = self.sent.iter().map(|&sent| run.send(step, sent)).collect();
        End { state: run.state, answers }
    }

    /// The smallest case found that still fails: calls done beforehand or dropped, serials made the due ones, operand bits cleared one by one,
    /// parts of the state set to 0.
    pub fn shrink(mut self, fails: &dyn Fn(&Case) -> bool) -> Case {
        loop {
            let before = (self.state.clone(), self.sent.clone());
            // a count is reached by the calls that raise it, so dropping them alone may lose it
            for first in (1..self.sent.len()).rev() {
                if self.try_change(fails, |case| case.begin_later(first)) {
                    break;
                }
            }
            for at in (0..self.sent.len()).rev() {
                self.try_change(fails, |case| {
                    case.sent.remove(at);
                });
            }
            for at in 0..self.sent.len() {
                if self.sent[at].serial != Serial::Due {
                    self.try_change(fails, |case| case.sent[at].serial = Serial::Due);
                }
                for bit in 0..64 {
                    if self.sent[at].call.operand >> bit & 1 == 1 {
                        self.try_change(fails, |case| case.sent[at].call.operand &= !(1 << bit));
                    }
                }
            }
            self.clear(fails, 0, self.state.len());
            if before == (self.state.clone(), self.sent.clone()) {
                return self;
            }
        }
    }

    /// Begins with the state that the first calls leave, by the reference.
    fn begin_later(&mut self, first: usize) {
        let mut run = self.start();
        self.sent.drain(..first).for_each(|sent| {
            run.send(second, sent);
        });
        self.state = run.state;
    }

    fn try_change(&mut self, fails: &dyn Fn(&Case) -> bool, change: impl FnOnce(&mut Case)) -> bool {
        let mut changed = self.clone();
        change(&mut changed);
        let smaller = fails(&changed);
        if smaller {
            *self = changed;
        }
        smaller
    }

    /// Sets a part of the state to 0, or else its halves.
    fn clear(&mut self, fails: &dyn Fn(&Case) -> bool, from: usize, to: usize) {
        if self.state[from..to].iter().any(|&byte| byte != 0)
            && !self.try_change(fails, |case| case.state[from..to].fill(0))
            && to - from > 1
        {
            let middle = (from + to) / 2;
            self.clear(fails, from, middle);
            self.clear(fails, middle, to);
        }
    }

    pub fn describe(&self) -> String {
        let mut text = match count_of(&self.state) {
            Some(count) => format!("a state of count {count}, its registers 0 but for:"),
            None => format!("a state of {} bytes, 0 but for:", self.state.len()),
        };
        let shown = if count_of(&self.state).is_some() { REGISTER_BYTES } else { self.state.len() };
        let set: Vec<_> = self.state[..shown].iter().enumerate().filter(|(_, byte)| **byte != 0).collect();
        set.iter().take(32).for_each(|(at, byte)| write!(text, " {at}:{byte:02x}").unwrap());
        if set.len() > 32 {
            write!(text, " and {} more", set.len() - 32).unwrap();
        }
        self.sent.iter().for_each(|sent| write!(text, "\n  {sent}").unwrap());
        text
    }
}

/// Where two ends differ.
pub fn difference(names: [&str; 2], ends: [&End; 2]) -> String {
    let [a, b] = ends;
    let mut text = String::new();
    for (at, (x, y)) in a.answers.iter().zip(&b.answers).enumerate().filter(|(_, (x, y))| x != y).take(4) {
        writeln!(text, "  answer {at}: {} {x}, {} {y}", names[0], names[1]).unwrap();
    }
    if let (Some(x), Some(y)) = (count_of(&a.state), count_of(&b.state))
        && x != y
    {
        writeln!(text, "  count: {} {x}, {} {y}", names[0], names[1]).unwrap();
    }
    for (at, (x, y)) in a.state.iter().zip(&b.state).enumerate().filter(|(_, (x, y))| x != y).take(8) {
        writeln!(text, "  state byte {at}: {} {x:02x}, {} {y:02x}", names[0], names[1]).unwrap();
    }
    text
}

/// Compares two steps on a case and gives the end of both; an error is the report of the smallest case found.
pub fn agree(what: &str, case: &Case, one: Step, other: Step) -> Result<End, String> {
    let differ = |case: &Case| case.run(one) != case.run(other);
    let end = case.run(one);
    if end == case.run(other) {
        return Ok(end);
    }
    let smallest = case.clone().shrink(&differ);
    let found = difference(["proved", "reference"], [&smallest.run(one), &smallest.run(other)]);
    Err(format!("{what} differ; the smallest case found:\n{}\n{found}", smallest.describe()))
}

#[cfg(test)]
mod tests {
    use super::*;
    use crate::sent::draw_state;
    use amx::{STATE_LENGTH, random::Random};

    /// The reference with a wrong product of X lane 5 in vector steps with a shift.
    fn wrong(state: &mut [u8], call: Call, serial: u64) -> u64 {
        let answer = second(state, call, serial);
        if call.instruction == 14 && call.operand >> 63 == 1 && call.operand >> 56 & 1 == 1 && state[10] > 100 {
            state[1_034] ^= 1;
        }
        answer
    }

    #[test]
    fn the_smallest_case_is_found() {
        let mut random = Random::new(3);
        let differ = |case: &Case| case.run(wrong) != case.run(second);
        let case = (0..10_000)
            .map(|_| {
                let state = draw_state(&mut random, STATE_LENGTH, 1 << 40);
                Case::due(state, (0..20).map(|_| random.call()))
            })
            .find(differ)
            .expect("a wrong step shows");
        let smallest = case.clone().shrink(&differ);
        assert_eq!(smallest.sent.len(), 1);
        assert_eq!(smallest.sent[0].call.operand, 1 << 63 | 1 << 56);
        assert_eq!(smallest.state.iter().filter(|&&byte| byte != 0).count(), 1);
        let report = agree("steps", &case, wrong, second).unwrap_err();
        assert!(report.contains("mac16 m") && report.contains("vector shift=2") && report.contains("state byte 1034"), "{report}");
    }

    #[test]
    fn equal_steps_agree() {
        let case = Case::due(vec![1; STATE_LENGTH], vec![Call::new(14, 1, 0); 3]);
        assert_eq!(agree("steps", &case, second, second).map(|end| end.answers), Ok(vec![2_048; 3]));
    }
}
