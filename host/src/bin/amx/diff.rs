//! `amx diff`: the first step and lane in which two traces part.
use crate::{
    arguments::{Arguments, Options},
    failure::{Failure, Status},
    input::Steps,
    lane::Lane,
    output,
};
use amx::{
    Answer, Call, LaneType, Record, Register, Run, State, effects_on,
    text::Item,
    words::{counted, grouped},
};
use std::{cmp::Ordering, io::Write, mem};

pub const OPTIONS: Options = Options { usage: "diff A B [--as TYPE]", alone: &[], valued: &["--as"] };

pub fn diff(arguments: &Arguments) -> Result<Status, Failure> {
    let ([a, b], read_as) = (arguments.places()?, arguments.lane_type()?);
    if a == "-" && b == "-" {
        return Err(arguments.wrong("standard input is read once, and cannot be both"));
    }
    let mut sides = [Side::open(a)?, Side::open(b)?];
    align(&mut sides)?;
    let mut comparison = Comparison { sides, read_as, output: output::lines()?, alike: BANKS.to_vec(), same_calls: true };
    let status = comparison.run()?;
    comparison.output.flush()?;
    Ok(status)
}

/// One of the two, as far as it is run.
struct Side {
    name: String,
    items: Box<dyn Iterator<Item = Result<Item, Failure>>>,
    run: Run,
    /// The steps taken or consumed.
    place: usize,
    /// Whether registers were loaded since this was last asked; at first they are as the start has them.
    is_loaded: bool,
}

/// A step that was taken.
struct Taken {
    call: Call,
    answer: Answer,
    before: State,
}

impl Side {
    /// Behind the steps that are consumed.
    fn open(name: &str) -> Result<Self, Failure> {
        let steps = Steps::open(name)?;
        let (run, name) = (Run::new(&steps.header), steps.name.clone());
        let mut side = Side { name, items: Box::new(steps.shown(true)), run, place: 0, is_loaded: true };
        while side.run.is_consumed() {
            let Some(record) = side.next()? else { break };
            let _ = side.run.take(record); // consumed: there is no answer
            side.place += 1;
        }
        Ok(side)
    }

    /// The next step, after the loads before it; none at the end.
    fn next(&mut self) -> Result<Option<Record>, Failure> {
        loop {
            match self.items.next().transpose()? {
                None => return Ok(None),
                Some(Item::Step(record)) => return Ok(Some(record)),
                Some(Item::Load(load)) => {
                    self.run.load(&load);
                    self.is_loaded = true;
                }
            }
        }
    }

    fn take(&mut self, record: Record) -> Taken {
        self.place += 1;
        let before = self.run.state().clone();
        let (_, answer) = self.run.take(record).expect("what is consumed was taken when it was opened");
        Taken { call: record.into(), answer, before }
    }

    fn row(&self, register: Register) -> &[u8] {
        self.run.state().row(register)
    }

    /// What a step did, and to a lane.
    fn told(&self, taken: &Taken, lane: Option<Lane>) -> String {
        let Taken { call, answer, before } = taken;
        let effect = lane.map(|lane| lane.told(&effects_on(before, *call, lane.row, lane.bytes()), before, self.run.state()));
        format!("  {}: {call}: {answer:#}{}", self.name, effect.map(|effect| format!(", {effect}")).unwrap_or_default())
    }
}

/// Brings the one that has consumed fewer steps to where the other is, or to its end.
fn align(sides: &mut [Side; 2]) -> Result<(), Failure> {
    let place = sides[0].place.max(sides[1].place);
    for side in sides {
        while side.place < place {
            let Some(record) = side.next()? else { break };
            side.take(record);
        }
    }
    Ok(())
}

/// X, Y or Z: its name, and its registers by their numbers.
type Bank = (&'static str, fn(usize) -> Register, usize);

const BANKS: [Bank; 3] = [("x", Register::X, 8), ("y", Register::Y, 8), ("z", Register::Z, 64)];

/// The two, as far as they are compared.
struct Comparison<W> {
    sides: [Side; 2],
    read_as: Option<LaneType>,
    output: W,
    /// The banks that were alike so far before each step.
    alike: Vec<Bank>,
    /// Whether the steps so far were the same calls.
    same_calls: bool,
}

impl<W: Write> Comparison<W> {
    /// Takes the steps of both up to the one that parts them, or to the end.
    fn run(&mut self) -> Result<Status, Failure> {
        match self.sides[0].place.cmp(&self.sides[1].place) {
            Ordering::Less => return self.end(0, 1),
            Ordering::Greater => return self.end(1, 0),
            Ordering::Equal => {}
        }
        loop {
            let next = [self.sides[0].next()?, self.sides[1].next()?];
            self.tell_states(next == [None, None])?;
            let (a, b) = match next {
                [Some(a), Some(b)] => (self.sides[0].take(a), self.sides[1].take(b)),
                [None, None] => return self.end_both(),
                [None, Some(_)] => return self.end(0, 1),
                [Some(_), None] => return self.end(1, 0),
            };
            let lane = self.parted(&a, &b);
            if lane.is_some() || a.answer != b.answer {
                return self.part(&a, &b, lane);
            }
            if a.call != b.call && mem::replace(&mut self.same_calls, false) {
                writeln!(self.output, "step {} differs, and does the same: {} and {}", self.sides[0].place - 1, a.call, b.call)?;
            }
        }
    }

    /// Tells of each bank the first time that it differs before a step: as the start has it, or loads.
    fn tell_states(&mut self, at_end: bool) -> Result<(), Failure> {
        let [a, b] = &mut self.sides;
        if !(mem::take(&mut a.is_loaded) | mem::take(&mut b.is_loaded)) {
            return Ok(());
        }
        let at = if at_end { "at the end".to_owned() } else { format!("before step {}", a.place) };
        for bank in mem::take(&mut self.alike) {
            let (name, register, registers) = bank;
            match self.differing((0..registers).map(register), self.read_as.unwrap_or(LaneType::I16)) {
                (None, _) => self.alike.push(bank),
                (Some(first), lanes) => writeln!(self.output, "{at}: {first}, and {}", others(lanes, name))?,
            }
        }
        Ok(())
    }

    /// The first lane that differs, in words, and how many do.
    fn differing(&self, registers: impl Iterator<Item = Register>, read_as: LaneType) -> (Option<String>, u64) {
        let (mut first, mut lanes) = (None, 0);
        for register in registers.filter(|&register| self.sides[0].row(register) != self.sides[1].row(register)) {
            let [a, b] = [0, 1].map(|side| self.sides[side].row(register).chunks(read_as.bytes()));
            for (lane, (a, b)) in a.zip(b).enumerate().filter(|(_, (a, b))| a != b) {
                first.get_or_insert_with(|| format!("{register} lane {lane} ({read_as}) is {} and {}", read_as.print(a), read_as.print(b)));
                lanes += 1;
            }
        }
        (first, lanes)
    }

    /// The first lane that the steps made differ; one that differed before is none.
    fn parted(&self, a: &Taken, b: &Taken) -> Option<Lane> {
        let differs = |&row: &usize| self.sides[0].row(Register::Z(row)) != self.sides[1].row(Register::Z(row));
        (0..64).filter(differs).find_map(|row| self.parted_in(row, a, b))
    }

    fn parted_in(&self, row: usize, a: &Taken, b: &Taken) -> Option<Lane> {
        let z = Register::Z(row);
        let (old, new) = ([a.before.row(z), b.before.row(z)], [self.sides[0].row(z), self.sides[1].row(z)]);
        (0..64).filter(|&byte| old[0][byte] == old[1][byte] && new[0][byte] != new[1][byte]).find_map(|byte| {
            let effects = |taken: &Taken| effects_on(&taken.before, taken.call, row, byte..byte + 1);
            let of_step = || [a, b].into_iter().find_map(|taken| effects(taken).first().map(|effect| Lane::of(effect).read_as));
            let read_as = self.read_as.or_else(of_step).unwrap_or(LaneType::I16);
            let lane = Lane { row, lane: byte / read_as.bytes(), read_as };
            (old[0][lane.bytes()] == old[1][lane.bytes()]).then_some(lane)
        })
    }

    /// A step parts them: in a lane, or in its answers alone.
    fn part(&mut self, a: &Taken, b: &Taken, lane: Option<Lane>) -> Result<Status, Failure> {
        let (step, [x, y]) = (self.sides[0].place - 1, [&self.sides[0], &self.sides[1]].map(|side| side.run.state()));
        match lane {
            Some(lane) => writeln!(self.output, "step {step} parts them: {lane} is {} and {}", lane.number(x), lane.number(y))?,
            None => writeln!(self.output, "step {step} parts them: the answers differ, and no lane")?,
        }
        writeln!(self.output, "{}\n{}", self.sides[0].told(a, lane), self.sides[1].told(b, lane))?;
        if let Some(lane) = lane {
            let (_, lanes) = self.differing((0..64).map(Register::Z), lane.read_as);
            writeln!(self.output, "after it {}", others(lanes, "z"))?;
        }
        Ok(Status::Differ)
    }

    fn end_both(&mut self) -> Result<Status, Failure> {
        writeln!(self.output, "{}: the same answers, and Z parts in no step", counted(self.sides[0].place as u64, "step"))?;
        let same = self.same_calls && self.alike.len() == BANKS.len();
        Ok(if same { Status::Ran } else { Status::Differ })
    }

    /// One ends before the other, or before the other begins.
    fn end(&mut self, shorter: usize, longer: usize) -> Result<Status, Failure> {
        let (shorter, longer) = (&self.sides[shorter], &self.sides[longer]);
        let on = if shorter.place == longer.place {
            "on: no step up to there parts them".to_owned()
        } else {
            format!("on from step {}", longer.place)
        };
        writeln!(self.output, "{} ends after {}, and {} goes {on}", shorter.name, counted(shorter.place as u64, "step"), longer.name)?;
        Ok(Status::Differ)
    }
}

/// How many of so many lanes differ besides the one that is told.
fn others(lanes: u64, bank: &str) -> String {
    match lanes.saturating_sub(1) {
        0 => format!("no other lane of {bank} differs"),
        1 => format!("1 more lane of {bank} differs"),
        more => format!("{} more lanes of {bank} differ", grouped(more)),
    }
}
