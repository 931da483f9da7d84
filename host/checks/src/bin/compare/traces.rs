//! Trace files of two sections and of three, sound and damaged: this crate's reader and the trace program against the reference's text.
use crate::case::{Case, second};
use crate::sent::{draw_count, draw_state, set_count};
use crate::tally::Tally;
use amx::{
    Call, Checkpoint, Instruction, REGISTER_BYTES, Record, STATE_LENGTH, State, Trace, TraceReader, print_trace, random::Random, reference,
};
use std::io::{self, Cursor, Write};
use std::process::{Command, Output, Stdio};
use std::{fs, path::Path, path::PathBuf, thread};

/// What a program prints for a file.
pub type Text<'a> = &'a dyn Fn(&[u8]) -> String;

/// What is made of a case: a file of two sections, or one of three that goes on from a checkpoint; and its damage.
#[derive(Clone, Debug)]
pub struct Form {
    pub checkpoint: Option<(Place, Saved)>,
    pub damage: Damage,
}

/// Where a run is stopped.
#[derive(Clone, Copy, Debug)]
pub enum Place {
    Start,
    End,
    /// After this many steps, modulo one more than there are.
    Steps(u64),
}

/// The state that a checkpoint holds.
#[derive(Clone, Copy, Debug)]
pub enum Saved {
    /// The run's.
    Run,
    /// The run's, at another count.
    Count(u64),
    /// Another, drawn by this seed.
    Other(u64),
}

/// What is done to a sound file.
#[derive(Clone, Debug)]
pub enum Damage {
    None,
    Cut(usize),
    /// Cut after so many records, modulo one more than there are, and bytes.
    After(u64, usize),
    Shorter(usize),
    Longer(usize),
    /// A byte of the table, turned.
    Table(usize, u8),
    /// A padding byte of a record, by part of the number of records.
    Padding(u64, usize, u8),
    /// So many more steps consumed than there are.
    Consumed(u32),
    /// So many more records than there are, or fewer, by the table.
    Announced(i64),
    /// One record past the most that a trace holds, by the table.
    TooMany,
    Both(Box<Damage>, Box<Damage>),
}

impl Place {
    fn draw(random: &mut Random) -> Self {
        match random.below(4) {
            0 => Place::Start,
            1 => Place::End,
            _ => Place::Steps(random.bits()),
        }
    }

    /// The steps consumed of so many.
    pub fn of(self, steps: usize) -> usize {
        match self {
            Place::Start => 0,
            Place::End => steps,
            Place::Steps(n) => (n % (steps as u64 + 1)) as usize,
        }
    }
}

impl Saved {
    fn draw(random: &mut Random) -> Self {
        match random.below(4) {
            0 => Saved::Count(u64::MAX - random.below(3)),
            1 => Saved::Other(random.bits()),
            _ => Saved::Run,
        }
    }

    /// The state to go on from after the first records of a trace, by the reference.
    fn state(self, trace: &Trace, consumed: usize) -> State {
        let run = || {
            let first = trace.records()[..consumed].iter().map(|&record| record.into());
            Case::due(trace.start().bytes().to_vec(), first).run(second).state
        };
        let state = match self {
            Saved::Run => run(),
            Saved::Count(count) => {
                let mut state = run();
                set_count(&mut state, count);
                state
            }
            Saved::Other(seed) => {
                let mut random = Random::new(seed);
                let count = draw_count(&mut random, 24);
                draw_state(&mut random, STATE_LENGTH, count)
            }
        };
        State::from_bytes(state.try_into().expect("steps leave a state's length"))
    }
}

/// Where the records of a file of so many sections begin.
fn records_at(sections: usize) -> usize {
    4 + 12 * sections + REGISTER_BYTES
}

/// Writes a u32 into a file, where it is that long.
fn put(file: &mut [u8], at: usize, number: usize) {
    if let Some(bytes) = file.get_mut(at..at + 4) {
        bytes.copy_from_slice(&(number as u32).to_le_bytes());
    }
}

/// Has the table of a file say so many records.
fn announce(file: &mut [u8], sections: usize, records: usize) {
    put(file, 24, 16 * records);
    if sections == 3 {
        put(file, 32, records_at(sections) + 16 * records);
    }
}

impl Damage {
    fn draw(random: &mut Random) -> Self {
        match random.below(14) {
            0..=2 => Damage::None,
            3 => Damage::Cut(random.pick(&CUTS)),
            4 => Damage::Cut(random.below(12_000) as usize),
            5 => Damage::Shorter(random.pick(&SHORTER)),
            6 => Damage::Longer(random.pick(&LONGER)),
            7 => Damage::Table(random.below(40) as usize, 1 << random.below(8)),
            8 => Damage::Padding(random.bits(), random.below(6) as usize, 1 << random.below(8)),
            9 => Damage::Consumed(1 + (random.bits() as u32 >> random.below(32)) / 2),
            10 => Damage::TooMany,
            11 => Damage::After(random.bits(), random.below(16) as usize),
            12 => Damage::Announced(random.pick(&[-2, -1, 1, 2, 256, 1 << 12])),
            _ => Damage::both(Damage::draw(random), Damage::draw(random)),
        }
    }

    pub fn both(first: Damage, then: Damage) -> Self {
        Damage::Both(Box::new(first), Box::new(then))
    }

    /// Each kind of damage, at each of its places.
    fn every() -> Vec<Self> {
        let table = (0..40).flat_map(|at| [1, 0x80].map(|turned| Damage::Table(at, turned)));
        // tables that are as long as two entries and not as three, by other counts of sections too
        let counts = (27..42).flat_map(|length| [1, 2, 4, 7].map(|turned| Damage::both(Damage::Cut(length), Damage::Table(0, turned))));
        // of records that are consumed and of others, the last one too
        let padding = [0, 1, 2, 6].into_iter().flat_map(|record| (0..6).map(move |at| Damage::Padding(record, at, 1 << at)));
        let consumed = [1, 2, 253, 256, 1 << 16, 1 << 31, u32::MAX - 3];
        let lengths = CUTS.map(Damage::Cut).into_iter().chain(SHORTER.map(Damage::Shorter)).chain(LONGER.map(Damage::Longer));
        let mut every: Vec<Damage> = [Damage::None, Damage::TooMany].into_iter().chain(lengths).chain(table).chain(counts).collect();
        every.extend(padding.chain(consumed.map(Damage::Consumed)).chain([-1, 1, 256].map(Damage::Announced)));
        // two sections are refused for the first that is met, three for their padding where nothing else is wrong
        let others =
            [Damage::Consumed(1), Damage::Shorter(1), Damage::Longer(1), Damage::Announced(1), Damage::Table(4, 1), Damage::Cut(20)];
        for other in others.into_iter().chain([0, 8, 15].map(|bytes| Damage::After(6, bytes))) {
            every.extend([0, 6, 7].map(|record| Damage::both(Damage::Padding(record, 5, 1), other.clone())));
        }
        every
    }

    /// Damages a file that was of so many sections and records.
    pub fn apply(&self, file: &mut Vec<u8>, sections: usize, records: usize) {
        let end = records_at(sections) + 16 * records;
        match *self {
            Damage::None => {}
            Damage::Cut(length) => file.truncate(length),
            Damage::After(part, bytes) => file.truncate(records_at(sections) + 16 * Place::Steps(part).of(records) + bytes),
            Damage::Shorter(less) => file.truncate(file.len().saturating_sub(less)),
            Damage::Longer(more) => file.extend(vec![0; more]),
            Damage::Table(at, turned) => file.iter_mut().take(4 + 12 * sections).skip(at).take(1).for_each(|byte| *byte ^= turned),
            Damage::Padding(part, at, turned) if records > 0 => {
                let record = records_at(sections) + 16 * (part % records as u64) as usize;
                file.iter_mut().skip(record + 2 + at).take(1).for_each(|byte| *byte ^= turned);
            }
            Damage::Padding(..) => {}
            Damage::Consumed(more) if sections == 3 => put(file, end, (records as u32).saturating_add(more) as usize),
            Damage::Consumed(_) => {}
            Damage::Announced(more) => announce(file, sections, records.saturating_add_signed(more as isize)),
            Damage::TooMany => announce(file, sections, Trace::MAX_RECORDS + 1),
            Damage::Both(ref first, ref then) => {
                first.apply(file, sections, records);
                then.apply(file, sections, records);
            }
        }
    }
}

const CUTS: [usize; 22] =
    [0, 1, 3, 4, 27, 28, 29, 38, 39, 40, 41, 5_147, 5_148, 5_149, 5_159, 5_160, 5_161, 5_163, 5_164, 5_176, 10_291, 10_292];
const SHORTER: [usize; 6] = [1, 8, 16, 5_128, 5_131, 5_132];
const LONGER: [usize; 6] = [1, 12, 15, 16, 17, 5_132];

/// The trace of a case, from its registers.
pub fn trace_of(case: &Case) -> Trace {
    let mut start = State::new();
    start.registers_mut().copy_from_slice(&case.state[..REGISTER_BYTES]);
    let mut trace = Trace::new(start);
    for call in case.sent.iter().map(|sent| sent.call) {
        trace.push(Record::try_from(call).expect("calls of a trace are records")).expect("no more records are drawn");
    }
    trace
}

pub fn file_of(case: &Case, form: &Form) -> Vec<u8> {
    let mut trace = trace_of(case);
    let records = trace.records().len();
    if let Some((place, saved)) = form.checkpoint {
        let consumed = place.of(records);
        let state = saved.state(&trace, consumed);
        trace.set_checkpoint(Checkpoint { consumed, state }).expect("a place is among the records");
    }
    let mut file = trace.to_bytes();
    form.damage.apply(&mut file, if form.checkpoint.is_some() { 3 } else { 2 }, records);
    file
}

/// The most steps that the trace program takes in a run.
pub const RUN: usize = 2_048;

/// A trace's start and calls.
pub fn draw_case(random: &mut Random) -> Case {
    let records = match random.below(32) {
        0 | 1 => 0,
        2 => RUN,
        3 => RUN + random.below(24) as usize,
        _ => random.below(24) as usize,
    };
    draw_case_of(random, records)
}

/// The start and so many calls.
pub fn draw_case_of(random: &mut Random, records: usize) -> Case {
    let state = random.state().bytes().to_vec();
    Case::due(state, (0..records).map(|_| random.record().into()))
}

/// A call of each answer that a step of a trace can have at first: done, refused 4, no-op 1, 2 and 3, refused 2 and 3; then those of vecfp
/// and fms64, and a call of each instruction that is done.
pub fn every_answer(random: &mut Random) -> Case {
    let vecint = |operand| Call::new(18, 1, operand);
    let vecfp = |generation, operand: u64| Call::new(19, generation, 4 << 42 | operand);
    let calls = [Call::new(14, 1, 1 << 63), vecint(1 << 27), vecint(1 << 54), vecint(7 << 47), vecint(10 << 47)];
    let floats = [vecfp(1, 0), vecfp(1, 1 << 54), vecfp(1, 2 << 47), vecfp(1, 10 << 47), vecfp(1, 4 << 47), vecfp(2, 11 << 47)];
    let others = [Call::new(11, 1, 1 << 63), Call::new(11, 2, 1 << 63 | 1 << 28), vecint(0)];
    let unknown = [Call::new(14, 3, 0), Call::new(15, 1, 0)];
    Case::due(random.state().bytes().to_vec(), calls.into_iter().chain(unknown).chain(floats).chain(others))
}

/// Every damage to a file of such calls, of two sections and of three; checkpoints at the ends, of other states and of the last counts;
/// then so many random files.
fn draw_files(random: &mut Random, files: u64) -> impl Iterator<Item = (Case, Form)> {
    let case = every_answer(random);
    let damaged = |checkpoint| Damage::every().into_iter().map(move |damage| Form { checkpoint, damage });
    let mut forms: Vec<Form> = damaged(None).chain(damaged(Some((Place::Steps(2), Saved::Run)))).collect();
    for saved in [Saved::Run, Saved::Count(u64::MAX), Saved::Count(u64::MAX - 1), Saved::Other(random.bits())] {
        let places = [Place::Start, Place::Steps(5), Place::End];
        forms.extend(places.map(|place| Form { checkpoint: Some((place, saved)), damage: Damage::None }));
    }
    let drawn = (0..files).map(move |_| {
        let checkpoint = random.once_in(2).then(|| (Place::draw(random), Saved::draw(random)));
        (draw_case(random), Form { checkpoint, damage: Damage::draw(random) })
    });
    forms.into_iter().map(move |form| (case.clone(), form)).chain(drawn)
}

/// The text of a file by this crate's reader and the proved step, and the count that the run ends at.
fn read(file: &[u8]) -> (String, Option<u64>) {
    let mut text = Vec::new();
    let end = print_trace(TraceReader::seekable(Cursor::new(file)), &mut text).expect("bytes can be read twice, and memory takes the text");
    (String::from_utf8(text).expect("the text is ASCII"), end.map(|state| state.count()))
}

pub fn read_text(file: &[u8]) -> String {
    read(file).0
}

/// The same, and the count that the run ends at.
fn read_count(file: &[u8]) -> String {
    let (text, count) = read(file);
    text + &count.map(|count| format!("count {count}\n")).unwrap_or_default()
}

/// The line that ends the text of a refused file.
pub fn refusal(text: &str) -> Option<&str> {
    text.lines().last().filter(|line| line.starts_with("file refused"))
}

/// The reference's text, and the count that its steps raise: that of the checkpoint, or else 0.
fn reference_count(file: &[u8]) -> String {
    let text = reference::trace(file);
    if refusal(&text).is_some() {
        return text;
    }
    let before = if file[0] == 3 { file.last_chunk().map_or(0, |count| u64::from_le_bytes(*count)) } else { 0 };
    let taken = text.lines().filter(|line| line.starts_with("step ") && !line.contains("refused")).count() as u64;
    format!("{text}count {}\n", before.wrapping_add(taken))
}

/// Compares a program's text of a file with what the reference says, and gives it; an error is the report of the smallest case found.
fn same_text(what: &str, case: &Case, form: &Form, text: Text, expected: Text) -> Result<String, String> {
    let both = |case: &Case| {
        let file = file_of(case, form);
        (text(&file), expected(&file))
    };
    let (given, same) = both(case);
    if given == same {
        return Ok(same);
    }
    let differs = |case: &Case| {
        let (given, same) = both(case);
        given != same
    };
    let smallest = case.clone().shrink(&differs);
    let (given, same) = both(&smallest);
    let found = first_difference([what, "reference"], [&given, &same]);
    Err(format!("{what} and the reference differ on a trace file ({form:?}); the smallest found:\n{}\n{found}", smallest.describe()))
}

/// The first line in which two texts differ.
pub fn first_difference(names: [&str; 2], texts: [&str; 2]) -> String {
    let [one, other] = texts;
    let line = one.lines().zip(other.lines()).take_while(|(a, b)| a == b).count();
    let [a, b] = texts.map(|text| text.lines().nth(line).unwrap_or("(no such line)"));
    format!("  line {line}: {} {a}\n  line {line}: {} {b}\n", names[0], names[1])
}

/// What the files of either kind must have met, and the steps of those that are resumed.
const NEEDED: [&str; 22] = [
    "two sections: run",
    "two sections: file refused 5",
    "two sections: file refused 6",
    "two sections: file refused 7",
    "two sections: file refused 6 after steps",
    "two sections: file refused 7 after steps",
    "three sections: run",
    "three sections: file refused 5",
    "three sections: file refused 6",
    "three sections: file refused 7",
    "resumed step: done",
    "resumed step: no-op 1",
    "resumed step: no-op 2",
    "resumed step: no-op 3",
    "resumed step: refused 2",
    "resumed step: refused 3",
    "resumed step: refused 4",
    "resumed step: refused 9",
    "resumed fms64: done",
    "resumed mac16: done",
    "resumed vecint: done",
    "resumed vecfp: done",
];

fn tally_text(tally: &mut Tally, case: &Case, form: &Form, text: &str) {
    let sections = if form.checkpoint.is_some() { "three sections" } else { "two sections" };
    let after = if text.starts_with("step ") { " after steps" } else { "" };
    tally.meet(refusal(text).map_or(format!("{sections}: run"), |refusal| format!("{sections}: {refusal}{after}")));
    if form.checkpoint.is_some() {
        for line in text.lines() {
            match line.split(' ').collect::<Vec<_>>().as_slice() {
                ["step", place, "done", _] => {
                    let sent = place.parse().ok().and_then(|place: usize| case.sent.get(place));
                    let name = sent.and_then(|sent| Instruction::from_number(sent.call.instruction)).map_or("step", Instruction::name);
                    tally.meet(format!("resumed {name}: done"));
                    tally.meet("resumed step: done".to_owned());
                }
                ["step", _, answer, number] => tally.meet(format!("resumed step: {answer} {number}")),
                _ => {}
            }
        }
    }
}

/// A program on swept and random files: how many, and what they met.
fn compare(random: &mut Random, files: u64, what: &str, text: Text, expected: Text) -> Result<(u64, Tally), String> {
    let (mut count, mut tally) = (0, Tally::default());
    for (case, form) in draw_files(random, files) {
        let text = same_text(what, &case, &form, text, expected)?;
        tally_text(&mut tally, &case, &form, &text);
        count += 1;
    }
    tally.needs(&NEEDED, "trace files")?;
    Ok((count, tally))
}

/// This crate's reader, on files in memory.
pub fn reader(random: &mut Random, files: u64) -> Result<(u64, Tally), String> {
    compare(random, files, "this crate's reader", &read_count, &reference_count)
}

/// The trace program, and a directory for its files that is removed afterwards.
pub struct Program<'a> {
    program: &'a Path,
    directory: PathBuf,
}

impl<'a> Program<'a> {
    pub fn new(program: &'a Path) -> Result<Self, String> {
        let directory = std::env::temp_dir().join(format!("amx-compare-{}", std::process::id()));
        fs::create_dir_all(&directory).map_err(|error| format!("a temporary directory: {error}"))?;
        Ok(Program { program, directory })
    }

    /// What it prints for a file.
    pub fn text(&self, file: &[u8]) -> String {
        let path = self.directory.join("trace");
        let ran = fs::write(&path, file).and_then(|()| Command::new(self.program).arg(&path).output());
        match ran {
            Ok(output) => String::from_utf8_lossy(&output.stdout).into_owned(),
            Err(error) => self.error(error),
        }
    }

    /// What it says of a file that comes through a pipe, a few bytes at a time.
    pub fn piped(&self, file: &[u8], piece: usize) -> Result<Output, String> {
        let mut command = Command::new(self.program);
        command.arg("/dev/stdin").stdin(Stdio::piped()).stdout(Stdio::piped()).stderr(Stdio::piped());
        let mut child = command.spawn().map_err(|error| self.error(error))?;
        let mut input = child.stdin.take().expect("its standard input is a pipe");
        let output = thread::scope(|scope| {
            // nothing is held back between the pieces; a program may end before it has read all
            scope.spawn(move || file.chunks(piece).try_for_each(|piece| input.write_all(piece)));
            child.wait_with_output()
        });
        output.map_err(|error| self.error(error))
    }

    fn error(&self, error: io::Error) -> String {
        format!("{}: {error}", self.program.display())
    }

    pub fn compare(&self, random: &mut Random, files: u64) -> Result<(u64, Tally), String> {
        let compared = compare(random, files, "the trace program", &|file| self.text(file), &reference::trace)?;
        // no file named, or one that isn't there: a message, and nothing on standard output
        for arguments in [vec![], vec![self.directory.join("none")]] {
            let output = Command::new(self.program).args(&arguments).output().map_err(|error| self.error(error))?;
            if !output.stdout.is_empty() || output.stderr.is_empty() {
                return Err(format!(
                    "{} with {arguments:?} says nothing on standard error, or something on standard output\n",
                    self.program.display()
                ));
            }
        }
        Ok(compared)
    }
}

impl Drop for Program<'_> {
    fn drop(&mut self) {
        let _ = fs::remove_dir_all(&self.directory);
    }
}

#[cfg(test)]
mod tests {
    use super::*;

    fn found(text: Text) -> String {
        compare(&mut Random::new(1), 40, "it", text, &reference::trace).err().unwrap_or_default()
    }

    fn u32_at(file: &[u8], at: usize) -> usize {
        file.get(at..at + 4).map_or(0, |bytes| u32::from_le_bytes([bytes[0], bytes[1], bytes[2], bytes[3]]) as usize)
    }

    /// The reference on a file whose third section is changed, where it has one: by the section's place, and the steps consumed.
    fn changed(file: &[u8], change: impl Fn(&mut Vec<u8>, usize, usize)) -> String {
        let mut file = file.to_vec();
        let third = 5_160 + u32_at(&file, 24) / 16 * 16;
        if file.first() == Some(&3) && file.len() >= third + 5_132 {
            let consumed = u32_at(&file, third);
            change(&mut file, third, consumed);
        }
        reference::trace(&file)
    }

    /// The reference's text of a file of three sections, line by line.
    fn lines(file: &[u8], change: impl Fn(&str, usize) -> String) -> String {
        let text = reference::trace(file);
        match u32_at(file, 0) {
            3 if text.ends_with(&format!("steps {}\n", u32_at(file, 24) / 16)) => {
                let consumed = u32_at(file, 5_160 + u32_at(file, 24));
                text.lines().map(|line| change(line, consumed)).collect()
            }
            _ => text,
        }
    }

    fn set(at: usize, number: usize) -> impl Fn(&mut Vec<u8>, usize, usize) {
        move |file, _, _| put(file, at, number)
    }

    #[test]
    fn what_is_wrong_about_a_resumed_trace_is_found() {
        let renumbered = |line: &str, consumed| match line.split(' ').collect::<Vec<_>>().as_slice() {
            ["step", place, answer @ ..] => format!("step {} {}\n", place.parse::<usize>().unwrap() - consumed, answer.join(" ")),
            _ => format!("{line}\n"),
        };
        let fewer = |line: &str, consumed| match line.strip_prefix("steps ") {
            Some(steps) => format!("steps {}\n", steps.parse::<usize>().unwrap() - consumed),
            None => format!("{line}\n"),
        };
        let rows_by_checkpoint = |file: &mut Vec<u8>, third, _| file.copy_within(third + 4..third + 4 + REGISTER_BYTES, 40);
        let from_the_start = |file: &mut Vec<u8>, third, _| file.copy_within(40..40 + REGISTER_BYTES, third + 4);
        let count_of_the_consumed = |file: &mut Vec<u8>, third, consumed: usize| {
            let at = third + 4 + REGISTER_BYTES;
            file[at..at + 8].copy_from_slice(&(consumed as u64).to_le_bytes());
        };
        let consumed_by_a_byte = |file: &mut Vec<u8>, third, consumed: usize| put(file, third, consumed % 256);
        let above_is_the_end = |file: &mut Vec<u8>, third, consumed: usize| put(file, third, consumed.min((third - 5_160) / 16));
        let padding_of_the_rest = |file: &mut Vec<u8>, third, consumed: usize| {
            let records = &mut file[5_160..third];
            records.chunks_exact_mut(16).take(consumed).for_each(|record| record[2..8].fill(0));
        };
        let no_end = |file: &mut Vec<u8>, third, _| file.truncate(third + 5_132);
        let offset_unread = |file: &mut Vec<u8>, third, _| put(file, 32, third);
        for (name, wrong) in [
            ("step numbers from 0", &(|file: &[u8]| lines(file, renumbered)) as Text),
            ("the steps left", &|file| lines(file, fewer)),
            ("rows that differ from the checkpoint", &|file| changed(file, rows_by_checkpoint)),
            ("registers of the start", &|file| changed(file, from_the_start)),
            ("count of the steps consumed", &|file| changed(file, count_of_the_consumed)),
            ("a byte of what is consumed", &|file| changed(file, consumed_by_a_byte)),
            ("consumed above n", &|file| changed(file, above_is_the_end)),
            ("padding of the rest alone", &|file| changed(file, padding_of_the_rest)),
            ("bytes behind the end", &|file| changed(file, no_end)),
            ("the third kind", &|file| changed(file, |file, _, _| file[28..30].copy_from_slice(&[3, 0]))),
            ("the third zero", &|file| changed(file, |file, _, _| file[30..32].fill(0))),
            ("the third offset", &|file| changed(file, offset_unread)),
            ("the third length", &|file| changed(file, set(36, 5_132))),
            ("three sections in 28 bytes", &|file| {
                let short = (28..40).contains(&file.len()) && file[0] == 3;
                if short { "file refused 6\n".to_owned() } else { reference::trace(file) }
            }),
            ("other counts in 39 bytes", &|file| {
                let short = (28..40).contains(&file.len()) && file[0] > 3;
                if short { "file refused 5\n".to_owned() } else { reference::trace(file) }
            }),
            ("stops at refused 9", &|file| {
                let mut ended = false;
                reference::trace(file)
                    .split_inclusive('\n')
                    .filter(|line| {
                        let left = ended && line.starts_with("step ");
                        ended |= line.ends_with("refused 9\n");
                        !left
                    })
                    .collect()
            }),
        ] {
            assert!(found(wrong).starts_with("it and the reference differ on a trace file"), "{name}: {}", found(wrong));
        }
        assert_eq!(found(&reference::trace), "");
    }

    #[test]
    fn padding_is_tested_after_what_is_consumed() {
        let report = found(&|file| {
            let padding = |file: &mut Vec<u8>, third, consumed: usize| put(file, third, consumed.min((third - 5_160) / 16));
            match (reference::trace(file).as_str(), changed(file, padding)) {
                ("file refused 6\n", text) if text == "file refused 7\n" => text,
                (text, _) => text.to_owned(),
            }
        });
        assert!(report.contains("it file refused 7") && report.contains("reference file refused 6"), "{report}");
    }

    #[test]
    fn a_kind_that_was_never_met_is_told() {
        let mut tally = Tally::default();
        let form = Form { checkpoint: Some((Place::Start, Saved::Run)), damage: Damage::None };
        let case = Case::due(vec![0; STATE_LENGTH], [14, 14, 14, 19, 14].map(|instruction| Call::new(instruction, 1, 0)));
        tally_text(&mut tally, &case, &form, "step 3 done 64\nstep 4 refused 9\nsteps 5\n");
        tally_text(&mut tally, &case, &form, "file refused 7\n");
        assert_eq!(
            tally.text(),
            "resumed step: done: 1, resumed step: refused 9: 1, resumed vecfp: done: 1, \
             three sections: file refused 7: 1, three sections: run: 1"
        );
        assert!(tally.needs(&NEEDED, "trace files").unwrap_err().contains("none met two sections: run"));
    }
}
