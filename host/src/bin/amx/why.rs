//! `amx why`: each step that wrote a lane, with its numbers.
use crate::{
    arguments::{Arguments, Options},
    failure::{Failure, Status},
    input::Steps,
    lane::Lane,
    output,
};
use amx::{
    Call, LaneEffect, LaneType, Record, Register, Run, State, effects_on,
    text::{Item, Load},
    words::counted,
};
use std::io::Write;

pub const OPTIONS: Options = Options { usage: "why FILE z ROW LANE [--as TYPE]", alone: &[], valued: &["--as"] };

pub fn why(arguments: &Arguments) -> Result<Status, Failure> {
    let [file, z, row, lane] = arguments.places()?;
    if z != "z" {
        return Err(arguments.wrong(&format!("steps write z, not {z:?}")));
    }
    let (row, read_as) = (arguments.below("ROW", row, 64)?, arguments.lane_type()?);
    let lane = arguments.below("LANE", lane, read_as.map_or(64, LaneType::lanes))?;
    let steps = Steps::open(file)?;
    let (header, mut output) = (steps.header.clone(), output::lines()?);
    let mut history = History::new(Run::new(&header), row, lane, read_as);
    for item in steps.shown(true) {
        let lines = match item? {
            Item::Step(record) => history.step(record),
            Item::Load(load) => history.load(&load),
        };
        output.write_all(lines.as_bytes())?;
    }
    output.write_all(history.end(header.state()).as_bytes())?;
    output.flush()?;
    Ok(Status::Ran)
}

/// What has become of a lane so far.
struct History {
    run: Run,
    row: usize,
    lane: usize,
    /// How it is read: as asked for, or else as the first step reads it that writes a lane of this number.
    read_as: Option<LaneType>,
    is_asked: bool,
    /// The bytes of the lanes that steps write in the row, each size once.
    sizes: Vec<usize>,
    /// The loads of the row before it is known how the lane is read, and the state that they found.
    loads: Option<(u64, State)>,
    written: u64,
    steps: u64,
}

impl History {
    fn new(run: Run, row: usize, lane: usize, read_as: Option<LaneType>) -> Self {
        History { run, row, lane, read_as, is_asked: read_as.is_some(), sizes: Vec::new(), loads: None, written: 0, steps: 0 }
    }

    fn place(&self) -> Option<Lane> {
        self.read_as.map(|read_as| Lane { row: self.row, lane: self.lane, read_as })
    }

    /// Takes a step; its line, where it writes the lane.
    fn step(&mut self, record: Record) -> String {
        let (call, before) = (Call::from(record), self.run.state().clone());
        let mut effects = if self.run.is_consumed() { Vec::new() } else { effects_on(&before, call, self.row, 0..64) };
        let Some((place, _)) = self.run.take(record) else { return String::new() };
        self.steps += 1;
        self.look_at(&effects);
        let Some(lane) = self.place() else { return String::new() };
        effects.retain(|effect| lane.shares_bytes_with(effect));
        if effects.is_empty() {
            return String::new();
        }
        self.written += 1;
        let loads = self.loads.take().map(|(loads, found)| loads_line(lane, loads, &found, &before));
        format!("{}step {place} {call}: {}\n", loads.unwrap_or_default(), lane.told(&effects, &before, self.run.state()))
    }

    /// The first step that has a lane of this number tells how it is read.
    fn look_at(&mut self, effects: &[LaneEffect]) {
        if let Some(first) = effects.iter().find(|effect| effect.lane == self.lane) {
            self.read_as.get_or_insert(Lane::of(first).read_as);
        }
        // all lanes of a step have one size
        if let Some(bytes) = effects.first().map(|effect| effect.bytes).filter(|bytes| !self.sizes.contains(bytes)) {
            self.sizes.push(bytes);
        }
    }

    /// Loads a register; the line, where it is the lane's row and it is known how the lane is read.
    fn load(&mut self, load: &Load) -> String {
        let before = (load.register == Register::Z(self.row)).then(|| self.run.state().clone());
        self.run.load(load);
        match (before, self.place()) {
            (Some(before), Some(lane)) => loads_line(lane, 1, &before, self.run.state()),
            (Some(before), None) => {
                self.loads.get_or_insert((0, before)).0 += 1;
                String::new()
            }
            (None, _) => String::new(),
        }
    }

    /// What the lane was and is, and which lanes of the row were not looked at.
    fn end(&self, start: &State) -> String {
        let (row, lane) = (self.row, self.lane);
        let mut text = String::new();
        if self.read_as.is_none() && self.loads.is_none() {
            text += &format!("z {row} lane {lane}: no step of {} wrote it\n", self.steps);
        } else {
            // what is loaded alone has no reading of its own
            let of_loads = if lane < LaneType::I16.lanes() { LaneType::I16 } else { LaneType::I8 };
            let lane = Lane { row, lane, read_as: self.read_as.unwrap_or(of_loads) };
            if let Some((loads, found)) = &self.loads {
                text += &loads_line(lane, *loads, found, self.run.state());
            }
            let (was, is) = (lane.number(start), lane.number(self.run.state()));
            text += &format!("{lane} was {was} and is {is}: {} of {} wrote it\n", self.written, counted(self.steps, "step"));
        }
        if !self.is_asked {
            self.sizes.iter().filter(|&&size| self.read_as.is_none_or(|read_as| read_as.bytes() != size)).for_each(|size| {
                text +=
                    &format!("steps write lanes of {} bits in row {row}, 0 to {}: --as tells which are meant\n", 8 * size, 64 / size - 1);
            });
        }
        text
    }
}

/// The line of loads, from the state that they found to the one that they left.
fn loads_line(lane: Lane, loads: u64, found: &State, left: &State) -> String {
    let times = if loads == 1 { String::new() } else { format!(" {loads} times") };
    format!("load z {}{times}: {} becomes {}\n", lane.row, lane.number(found), lane.number(left))
}
