//! What came of a run, for whoever was not there: totals by answer.
use crate::json;
use amx::{
    Answer, FileFault,
    words::{counted, grouped},
};
use std::fmt;

/// The answers of a run, counted.
#[derive(Clone, Debug, Default, PartialEq, Eq)]
pub struct Summary {
    /// The steps done, the bytes of Z in their enabled lanes, and those of them that enabled none.
    done: u64,
    bytes: u64,
    no_lane: u64,
    /// Each other answer, with the number of its steps and the first of them.
    others: Vec<(Answer, u64, usize)>,
    /// The steps that a checkpoint had consumed before.
    consumed: usize,
}

impl Summary {
    pub fn new(consumed: usize) -> Self {
        Summary { consumed, ..Summary::default() }
    }

    pub fn add(&mut self, place: usize, answer: Answer) {
        if let Answer::Done { bytes } = answer {
            self.done += 1;
            self.bytes += bytes;
            self.no_lane += u64::from(bytes == 0);
        } else if let Some((_, steps, _)) = self.others.iter_mut().find(|(other, ..)| *other == answer) {
            *steps += 1;
        } else {
            self.others.push((answer, 1, place));
        }
    }

    /// Whether a step was refused or a no-op.
    pub fn has_others(&self) -> bool {
        !self.others.is_empty()
    }

    fn no_ops(&self) -> impl Iterator<Item = &(Answer, u64, usize)> {
        self.others.iter().filter(|(answer, ..)| matches!(answer, Answer::NoOp(_)))
    }

    fn refusals(&self) -> impl Iterator<Item = &(Answer, u64, usize)> {
        self.others.iter().filter(|(answer, ..)| matches!(answer, Answer::Refused(_)))
    }

    /// The fields of a JSON object.
    pub fn json(&self) -> String {
        let each = |(answer, steps, first): &(Answer, u64, usize)| {
            let number = match answer {
                Answer::NoOp(reason) => *reason as u64,
                Answer::Refused(refusal) => *refusal as u64,
                Answer::Done { bytes } => *bytes,
            };
            format!("{{\"number\":{number},\"words\":{},\"steps\":{steps},\"first\":{first}}}", json::string(&format!("{answer:#}")))
        };
        let (no_ops, refusals): (Vec<_>, Vec<_>) = (self.no_ops().map(each).collect(), self.refusals().map(each).collect());
        format!(
            "\"consumed\":{},\"steps\":{},\"done\":{{\"steps\":{},\"z_bytes\":{},\"no_lane\":{}}},\"no_op\":[{}],\"refused\":[{}]",
            self.consumed,
            self.steps(),
            self.done,
            self.bytes,
            self.no_lane,
            no_ops.join(","),
            refusals.join(",")
        )
    }

    fn steps(&self) -> u64 {
        self.done + total(self.others.iter())
    }
}

fn total<'a>(answers: impl Iterator<Item = &'a (Answer, u64, usize)>) -> u64 {
    answers.map(|(_, steps, _)| steps).sum()
}

/// What a refused file is told in JSON.
pub fn fault_json(fault: Option<FileFault>) -> String {
    fault.map_or("null".to_owned(), |fault| {
        format!("{{\"number\":{},\"words\":{}}}", fault.refusal() as u8, json::string(&format!("{fault:#}")))
    })
}

impl fmt::Display for Summary {
    fn fmt(&self, f: &mut fmt::Formatter) -> fmt::Result {
        let (no_ops, refusals) = (total(self.no_ops()), total(self.refusals()));
        let (steps, bytes) = (counted(self.steps(), "step"), counted(self.bytes, "byte"));
        write!(f, "{steps}: {} done ({bytes} of Z)", grouped(self.done))?;
        writeln!(f, ", {}, {} refused", counted(no_ops, "no-op"), grouped(refusals))?;
        if self.consumed > 0 {
            writeln!(f, "  {} before them were consumed already", counted(self.consumed as u64, "step"))?;
        }
        for (answer, steps, first) in self.no_ops().chain(self.refusals()) {
            writeln!(f, "  {}, first step {first}: {answer:#}", counted(*steps, "step"))?;
        }
        match (self.steps(), self.done, self.no_lane) {
            (0, ..) => writeln!(f, "  nothing was run"),
            (_, 0, _) => writeln!(f, "  nothing was done: Z is as it was"),
            (_, done, no_lane) if done == no_lane => writeln!(f, "  no lane was enabled: Z is as it was"),
            (_, _, 0) => Ok(()),
            (_, _, no_lane) => writeln!(f, "  {} done enabled no lane", counted(no_lane, "step")),
        }
    }
}

#[cfg(test)]
mod tests {
    use super::*;
    use amx::{Reason, Refusal};

    fn of(answers: &[Answer]) -> Summary {
        let mut summary = Summary::new(0);
        answers.iter().enumerate().for_each(|(place, &answer)| summary.add(place, answer));
        summary
    }

    const NO_OP: Answer = Answer::NoOp(Reason::LaterMode);
    const REFUSED: Answer = Answer::Refused(Refusal::Generation);

    #[test]
    fn totals_are_told_by_answer() {
        let mixed = of(&[Answer::Done { bytes: 4_096 }, REFUSED, NO_OP, Answer::Done { bytes: 64 }, NO_OP]);
        assert_eq!(
            mixed.to_string(),
            "5 steps: 2 done (4,160 bytes of Z), 2 no-ops, 1 refused\n\
             \x20 2 steps, first step 2: no-op 3: ALU modes 10 to 12 are not on M1\n\
             \x20 1 step, first step 1: refused 2: the generation is not 1 or 2\n"
        );
        assert!(mixed.has_others() && !of(&[Answer::Done { bytes: 0 }]).has_others());
    }

    #[test]
    fn a_run_that_did_nothing_is_told_from_one_that_worked() {
        for (answers, words) in [
            (&[][..], "0 steps: 0 done (0 bytes of Z), 0 no-ops, 0 refused\n  nothing was run\n"),
            (&[Answer::Done { bytes: 0 }], "1 step: 1 done (0 bytes of Z), 0 no-ops, 0 refused\n  no lane was enabled: Z is as it was\n"),
            (
                &[Answer::Done { bytes: 0 }, Answer::Done { bytes: 1 }],
                "2 steps: 2 done (1 byte of Z), 0 no-ops, 0 refused\n  1 step done enabled no lane\n",
            ),
        ] {
            assert_eq!(of(answers).to_string(), words);
        }
        assert!(of(&[NO_OP]).to_string().ends_with("\n  nothing was done: Z is as it was\n"));
        let resumed = Summary { consumed: 2, ..of(&[Answer::Done { bytes: 8 }]) };
        assert_eq!(
            resumed.to_string(),
            "1 step: 1 done (8 bytes of Z), 0 no-ops, 0 refused\n  2 steps before them were consumed already\n"
        );
    }

    #[test]
    fn json_has_the_same_numbers() {
        assert_eq!(
            of(&[Answer::Done { bytes: 64 }, REFUSED, REFUSED]).json(),
            "\"consumed\":0,\"steps\":3,\"done\":{\"steps\":1,\"z_bytes\":64,\"no_lane\":0},\"no_op\":[],\
             \"refused\":[{\"number\":2,\"words\":\"refused 2: the generation is not 1 or 2\",\"steps\":2,\"first\":1}]"
        );
        assert_eq!(fault_json(None), "null");
        assert_eq!(
            fault_json(Some(FileFault::Cut { bytes: 5_200, told: 5_212 })),
            "{\"number\":6,\"words\":\"file refused 6: 5,200 bytes, the table says 5,212\"}"
        );
    }
}
