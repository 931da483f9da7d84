//! `amx asm`, `dis` and `cut`: traces made of texts, texts of traces, and traces cut.
use crate::{
    arguments::{Arguments, Options},
    failure::{Failure, Status},
    input::{Input, Steps},
    output::{self, Finished, Identity, Output},
};
use amx::{
    NoCheckpoint, Record, Run, State, Trace, TraceWriter, WriteError,
    text::{self, Item},
    words::counted,
};
use std::{
    fs,
    io::{self, BufWriter, Write},
    path::Path,
};

pub const ASM: Options = Options { usage: "asm TEXT -o TRACE", alone: &[], valued: &["-o"] };
pub const DIS: Options = Options { usage: "dis TRACE [--as TYPE]", alone: &[], valued: &["--as"] };
pub const CUT: Options = Options { usage: "cut FILE --after K -o TRACE, FILE a trace or a text", alone: &[], valued: &["--after", "-o"] };

/// The most traces that are made of one text.
const MOST: usize = 1_000;

type TraceOutput = TraceWriter<BufWriter<Output>>;

pub fn assemble(arguments: &Arguments) -> Result<Status, Failure> {
    let ([text], trace) = (arguments.places()?, arguments.needed("-o")?);
    let steps = Input::open(text)?.text()?;
    if steps.stretches == 1 && !steps.has_loads { write_trace(trace, steps, None) } else { write_stretches(trace, steps) }
}

pub fn disassemble(arguments: &Arguments) -> Result<Status, Failure> {
    let ([trace], form) = (arguments.places()?, arguments.lane_type()?);
    let steps = Input::open(trace)?.trace()?;
    let mut output = output::lines()?;
    let header = steps.header.clone();
    text::write_text(&header, steps.records(true), form, &mut output)?;
    output.flush()?;
    Ok(Status::Ran)
}

pub fn cut(arguments: &Arguments) -> Result<Status, Failure> {
    let ([file], after, rest) = (arguments.places()?, arguments.number("--after")?, arguments.needed("-o")?);
    let after = after.ok_or_else(|| arguments.missing("--after"))?;
    write_trace(rest, Steps::open(file)?, Some(usize::try_from(after).unwrap_or(usize::MAX)))
}

fn failure(name: &str) -> impl Fn(WriteError) -> Failure {
    move |error| match error {
        WriteError::Io(error) => output::failed(name)(error),
        error => Failure::Usage(format!("{name}: {error}")),
    }
}

fn finish(to: &str, output: BufWriter<Output>) -> Result<Finished, Failure> {
    output.into_inner().map_err(|error| output::failed(to)(error.into_error()))?.finish()
}

/// Writes the steps of a file into a trace file; where they are to be cut, one that goes on after so many.
fn write_trace(to: &str, steps: Steps, cut: Option<usize>) -> Result<Status, Failure> {
    let (header, from) = (steps.header.clone(), steps.name.clone());
    let output = BufWriter::new(Output::create(to, steps.identity.as_slice())?);
    let (start, n) = (header.start(), header.records());
    let writer = match (cut, header.checkpoint()) {
        (Some(_), Some(_)) => Err(WriteError::Checkpoint(NoCheckpoint::Resumed)),
        (Some(consumed), None) => TraceWriter::cut(output, start, n, consumed),
        (None, Some(checkpoint)) => TraceWriter::resumed(output, start, n, checkpoint.clone()),
        (None, None) => TraceWriter::new(output, start, n),
    };
    let mut writer = writer.map_err(|error| match error {
        WriteError::Io(error) => output::failed(to)(error),
        error => Failure::Usage(format!("{from}: {error}")),
    })?;
    for record in steps.records(false) {
        writer.push(record?).map_err(failure(to))?;
    }
    finish(to, writer.finish().map_err(failure(to))?)?.commit()?;
    Ok(Status::Ran)
}

/// Writes a trace for each stretch of steps between loads, all of them or none, and tells their names.
fn write_stretches(to: &str, steps: Steps) -> Result<Status, Failure> {
    let (mut stretches, mut run) = (Stretches::new(to, &steps)?, Run::new(&steps.header));
    let (text, records, mut is_loaded) = (steps.name.clone(), steps.header.records(), false);
    for item in steps.shown(false) {
        let item = item?;
        is_loaded = matches!(item, Item::Load(_));
        match item {
            Item::Step(record) => {
                stretches.push(run.state(), record)?;
                let _ = run.take(record); // a file has no answers: its run tells them
            }
            Item::Load(load) => {
                stretches.end()?;
                run.load(&load);
            }
        }
    }
    stretches.finish(run.state())?.commit()?;
    if is_loaded && records > 0 {
        // a standard error that takes no more stops nothing
        let _ = writeln!(io::stderr(), "{text}: what is loaded after the last step is in no trace");
    }
    Ok(Status::Ran)
}

/// The traces of a text with loads.
struct Stretches {
    text: String,
    name: Numbered,
    inputs: Vec<Identity>,
    announced: usize,
    /// The one that is being written.
    stretch: Option<Stretch>,
    finished: Vec<(String, u64, Finished)>,
}

struct Stretch {
    to: String,
    writer: TraceOutput,
    steps: u64,
}

impl Stretches {
    fn new(to: &str, steps: &Steps) -> Result<Self, Failure> {
        let (text, count) = (steps.name.clone(), steps.stretches);
        if count > 1 && (to == "-" || fs::metadata(to).is_ok_and(|there| !there.is_file())) {
            let message = format!("{to}: {text} makes {count} traces, one for each stretch between loads: name a file");
            return Err(Failure::Usage(message));
        }
        if count > MOST {
            let message = format!("{text}: registers are loaded so often that it makes {count} traces, at most {MOST} are written");
            return Err(Failure::Usage(message));
        }
        // how many steps each of several has is known at its end
        let announced = if count > 1 { Trace::MAX_RECORDS } else { steps.header.records() };
        let inputs = steps.identity.clone().into_iter().collect();
        Ok(Stretches { text, name: Numbered::new(to, count), inputs, announced, stretch: None, finished: Vec::new() })
    }

    /// Begins a stretch.
    fn begin(&self, start: &State) -> Result<Stretch, Failure> {
        if self.finished.len() == self.name.count {
            return Err(Failure::of_file(&self.text, "it changed while it was read"));
        }
        let to = self.name.of(self.finished.len());
        let output = BufWriter::new(Output::create(&to, &self.inputs)?);
        let writer = TraceWriter::new(output, start, self.announced).map_err(failure(&to))?;
        Ok(Stretch { to, writer, steps: 0 })
    }

    /// Writes a step, of a new stretch where none has begun.
    fn push(&mut self, start: &State, record: Record) -> Result<(), Failure> {
        let stretch = self.stretch.take().map_or_else(|| self.begin(start), Ok)?;
        let Stretch { to, writer, steps } = self.stretch.insert(stretch);
        *steps += 1;
        writer.push(record).map_err(failure(to))
    }

    /// Ends the stretch, where there is one.
    fn end(&mut self) -> Result<(), Failure> {
        if let Some(Stretch { to, writer, steps }) = self.stretch.take() {
            let output = if self.name.count == 1 { writer.finish() } else { writer.finish_here() };
            let finished = finish(&to, output.map_err(failure(&to))?)?;
            self.finished.push((to, steps, finished));
        }
        Ok(())
    }

    /// Ends the last stretch; where there is no step, there is a trace of none.
    fn finish(mut self, state: &State) -> Result<Self, Failure> {
        if self.stretch.is_none() && self.finished.is_empty() {
            self.stretch = Some(self.begin(state)?);
        }
        self.end()?;
        Ok(self)
    }

    /// Tells the names of several files, and gives them to these.
    fn commit(self) -> Result<(), Failure> {
        if self.name.count > 1 {
            let mut lines = output::lines()?;
            self.finished.iter().try_for_each(|(name, steps, _)| writeln!(lines, "{name}: {}", counted(*steps, "step")))?;
            lines.flush()?;
        }
        self.finished.into_iter().try_for_each(|(.., finished)| finished.commit())
    }
}

/// The names of several files: `kernel-0.amx` and so on for `kernel.amx`, with as many digits as the last number has.
struct Numbered {
    path: String,
    count: usize,
}

impl Numbered {
    fn new(path: &str, count: usize) -> Self {
        Numbered { path: path.to_owned(), count }
    }

    fn of(&self, number: usize) -> String {
        let (path, digits) = (Path::new(&self.path), (self.count - 1).to_string().len());
        if self.count == 1 {
            return self.path.clone();
        }
        let [stem, dot, extension] = match (path.file_stem(), path.extension()) {
            (Some(stem), Some(extension)) => [stem.to_string_lossy(), ".".into(), extension.to_string_lossy()],
            (stem, _) => [stem.unwrap_or_default().to_string_lossy(), "".into(), "".into()],
        };
        path.with_file_name(format!("{stem}-{number:0digits$}{dot}{extension}")).to_string_lossy().into_owned()
    }
}

#[cfg(test)]
mod tests {
    use super::*;

    #[test]
    fn files_are_numbered_before_their_extension() {
        let names = |path, count| (0..count).map(|number| Numbered::new(path, count).of(number)).collect::<Vec<_>>();
        assert_eq!(names("a/kernel.amx", 2), ["a/kernel-0.amx", "a/kernel-1.amx"]);
        assert_eq!((names("kernel", 1), names("kernel", 11)[9].as_str()), (vec!["kernel".to_owned()], "kernel-09"));
    }
}
