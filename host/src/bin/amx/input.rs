//! Traces and texts, read once and step by step, whatever they come from.
use crate::{
    failure::Failure,
    output::{Identity, create_new},
    progress::Progress,
};
use amx::{
    CHECKPOINT_LENGTH, FileFault, REGISTER_BYTES, ReadError, Record, Trace, TraceHeader, TraceReader,
    text::{Assembler, Item, MAX_LINE, TextError},
    words::counted,
};
use std::{
    env,
    fs::{self, File},
    io::{self, BufRead, BufReader, Cursor, IsTerminal, Read, Seek},
    path::Path,
    process,
};

/// The bytes of the smallest table: a byte 0 among the first so many tells a trace from a text.
const TABLE: usize = 28;

/// The most bytes of a text: an input that does not end is not read for ever.
const MAX_TEXT: u64 = 1 << 28;

/// The most loads of a text: blocks that load for hours are not run.
const MAX_LOADS: u64 = 16_000_000;

/// The bytes of the longest trace of three sections.
const MAX_TRACE: u64 = (40 + REGISTER_BYTES + 16 * Trace::MAX_RECORDS + CHECKPOINT_LENGTH) as u64;

/// A file, or standard input as `-`, that is read from its first byte.
pub struct Input {
    name: String,
    from: From,
    /// The first bytes, as many as the smallest table has.
    first: Vec<u8>,
    identity: Option<Identity>,
}

enum From {
    /// At its first byte.
    File(File),
    /// Behind the first bytes: a pipe, say.
    Once(Box<dyn Read>),
}

/// The steps of a trace or of a text, one by one, and the loads between those of a text.
pub struct Steps {
    pub name: String,
    pub header: TraceHeader,
    pub identity: Option<Identity>,
    /// The stretches of steps between loads: one, but for a text with loads.
    pub stretches: usize,
    pub has_loads: bool,
    items: Box<dyn Iterator<Item = Result<Item, Failure>>>,
}

/// An input as messages call it.
pub fn called(name: &str) -> &str {
    if name == "-" { "standard input" } else { name }
}

impl Input {
    pub fn open(name: &str) -> Result<Self, Failure> {
        if name == "-" {
            return Self::begin(called(name), Box::new(io::stdin()), Identity::of_stream(io::stdin()));
        }
        let failed = |error: io::Error| Failure::of_file(name, error);
        let file = File::open(name).map_err(failed)?;
        let identity = Identity::of(Path::new(name), &file.metadata().map_err(failed)?);
        let mut input = Self::begin(name, Box::new(file.try_clone().map_err(failed)?), identity)?;
        if input.identity.is_some() {
            (&file).rewind().map_err(failed)?;
            input.from = From::File(file);
        }
        Ok(input)
    }

    fn begin(name: &str, mut from: Box<dyn Read>, identity: Option<Identity>) -> Result<Self, Failure> {
        if identity.is_some() && identity == Identity::of_stream(io::stdout()) {
            return Err(Failure::Usage(format!("{name}: standard output goes to this file, which is read")));
        }
        let mut first = Vec::new();
        from.by_ref().take(TABLE as u64).read_to_end(&mut first).map_err(|error| Failure::of_file(name, error))?;
        if first.is_empty() {
            let nothing = FileFault::Short { bytes: 0, table: TABLE as u64 };
            return Err(Failure::Refused(name.to_owned(), nothing));
        }
        Ok(Input { name: name.to_owned(), from: From::Once(from), first, identity })
    }

    fn is_trace(&self) -> bool {
        self.first.contains(&0)
    }

    /// The steps of a trace or of a text.
    pub fn steps(self) -> Result<Steps, Failure> {
        if self.is_trace() { self.trace() } else { self.text() }
    }

    /// The steps of a trace. One of three sections is read twice.
    pub fn trace(self) -> Result<Steps, Failure> {
        if !self.is_trace() {
            let why = format!("it has no byte 0 among its first {TABLE}; amx asm makes a trace of a text");
            return Err(Failure::Usage(format!("{}: this is no trace file: {why}", self.name)));
        }
        let (name, identity) = (self.name, self.identity);
        match self.from {
            From::File(file) => Steps::of_trace(name, identity, TraceReader::seekable(file)),
            From::Once(from) => {
                let mut from = Cursor::new(self.first.clone()).chain(from);
                if self.first.starts_with(&[3, 0, 0, 0]) {
                    let file = keep(&mut from, MAX_TRACE).map_err(not_kept(&name))?;
                    return Steps::of_trace(name, identity, TraceReader::seekable(file));
                }
                Steps::of_trace(name, identity, TraceReader::new(from))
            }
        }
    }

    /// The steps of a text, which is read twice: for its errors and the number of its steps, and then for the steps.
    pub fn text(self) -> Result<Steps, Failure> {
        let (name, identity, failed) = (self.name.clone(), self.identity.clone(), |error: io::Error| Failure::of_file(&self.name, error));
        if self.is_trace() {
            return Err(Failure::Usage(format!("{name}: this is no text: it has a byte 0, as a trace file has; amx dis prints its text")));
        }
        let file = match self.from {
            From::File(file) => file,
            From::Once(from) => keep(&mut Cursor::new(self.first).chain(from), MAX_TEXT).map_err(not_kept(&name))?,
        };
        let mut lines = Lines::new(name.clone(), file.try_clone().map_err(failed)?);
        let items = Progress::new(&mut lines, " steps read".to_owned(), io::stderr(), io::stderr().is_terminal());
        let stretches = stretches(items)?;
        let has_loads = lines.assembler.first_load().is_some();
        let header = lines.assembler.finish().map_err(|error| Failure::Text(name.clone(), error))?;
        (&file).rewind().map_err(failed)?;
        Ok(Steps { name: name.clone(), header, identity, stretches, has_loads, items: Box::new(Lines::new(name, file)) })
    }
}

/// How many stretches of steps there are between loads; one where there are no steps.
fn stretches(items: impl Iterator<Item = Result<Item, Failure>>) -> Result<usize, Failure> {
    let (mut stretches, mut in_stretch) = (0, false);
    for item in items {
        let is_step = matches!(item?, Item::Step(_));
        stretches += usize::from(is_step && !in_stretch);
        in_stretch = is_step;
    }
    Ok(stretches.max(1))
}

impl Steps {
    /// Those of a trace or of a text, by its name.
    pub fn open(name: &str) -> Result<Self, Failure> {
        Input::open(name)?.steps()
    }

    fn of_trace<R: Read + 'static>(
        name: String,
        identity: Option<Identity>,
        reader: Result<TraceReader<R>, ReadError>,
    ) -> Result<Self, Failure> {
        let reader = reader.map_err(|error| Failure::of_reading(&name, error))?;
        let (header, file) = (reader.header().clone(), name.clone());
        let items = reader.map(move |record| record.map(Item::Step).map_err(|error| Failure::of_reading(&file, error)));
        Ok(Steps { name, header, identity, stretches: 1, has_loads: false, items: Box::new(items) })
    }

    /// The steps and loads, and how far they are on a terminal. Where lines are printed on it too, they tell.
    pub fn shown(self, printed: bool) -> impl Iterator<Item = Result<Item, Failure>> {
        let is_terminal = io::stderr().is_terminal() && !(printed && io::stdout().is_terminal());
        Progress::new(self.items, format!(" of {} steps", self.header.records()), io::stderr(), is_terminal)
    }

    /// The steps alone, of what has no loads.
    pub fn records(self, printed: bool) -> impl Iterator<Item = Result<Record, Failure>> {
        let name = self.name.clone();
        self.shown(printed).map(move |item| match item? {
            Item::Step(record) => Ok(record),
            Item::Load(_) => Err(Failure::Usage(format!("{name}: registers are loaded between its steps: amx asm makes traces of it"))),
        })
    }
}

/// Copies what can be read but once to a file that nobody else finds; so many bytes, and one more where there are more.
fn keep(input: &mut impl Read, most: u64) -> io::Result<File> {
    let (path, mut file) = create_new(|number| env::temp_dir().join(format!("amx-{}-{number}", process::id())))?;
    fs::remove_file(&path)?;
    io::copy(&mut input.take(most + 1), &mut file)?;
    file.rewind()?;
    Ok(file)
}

fn not_kept(name: &str) -> impl Fn(io::Error) -> Failure {
    move |error| Failure::of_file(name, format!("to be read twice it is kept in {}: {error}", env::temp_dir().display()))
}

/// The steps of a text, line by line.
struct Lines {
    name: String,
    file: BufReader<File>,
    line: Vec<u8>,
    assembler: Assembler,
    lines: usize,
    /// The bytes that may still come, and the loads.
    left: u64,
    loads_left: u64,
}

impl Lines {
    fn new(name: String, file: File) -> Self {
        let (line, assembler) = (Vec::new(), Assembler::new());
        Lines { name, file: BufReader::new(file), line, assembler, lines: 0, left: MAX_TEXT, loads_left: MAX_LOADS }
    }

    /// Takes the next line; false at the end.
    fn read_line(&mut self) -> Result<bool, Failure> {
        self.line.clear();
        // a line that is cut here is too long, and the assembler says so
        let read = self.file.by_ref().take(MAX_LINE as u64 + 2).read_until(b'\n', &mut self.line);
        let read = read.map_err(|error| Failure::of_file(&self.name, error))?;
        let fits = read as u64 <= self.left;
        (self.lines, self.left) = (self.lines + 1, self.left.saturating_sub(read as u64));
        let wrong = |expected| self.wrong(expected);
        let taken = match str::from_utf8(&self.line) {
            _ if read == 0 => return Ok(false),
            _ if !fits => Err(wrong(format!("a text has at most {}", counted(MAX_TEXT, "byte")))),
            Ok(line) => self.assembler.line(line),
            Err(_) if read > MAX_LINE + 1 => self.assembler.line(&String::from_utf8_lossy(&self.line)),
            Err(_) => Err(wrong("expected a text in UTF-8".to_owned())),
        };
        taken.map(|()| true).map_err(|error| self.failure(error))
    }

    /// The next step or load; none at the end.
    fn item(&mut self) -> Result<Option<Item>, Failure> {
        loop {
            let item = self.assembler.next_item().map_err(|error| self.failure(error))?;
            if matches!(item, Some(Item::Load(_))) {
                let too_many = || self.failure(self.wrong(format!("a text loads at most {}", counted(MAX_LOADS, "register"))));
                self.loads_left = self.loads_left.checked_sub(1).ok_or_else(too_many)?;
            }
            if item.is_some() || !self.read_line()? {
                return Ok(item);
            }
        }
    }

    /// What is wrong with the line that was read last.
    fn wrong(&self, expected: String) -> TextError {
        TextError { line: self.lines, rounds: Vec::new(), expected }
    }

    fn failure(&self, error: TextError) -> Failure {
        Failure::Text(self.name.clone(), error)
    }
}

impl Iterator for Lines {
    type Item = Result<Item, Failure>;

    fn next(&mut self) -> Option<Self::Item> {
        self.item().transpose()
    }
}

#[cfg(test)]
mod tests {
    use super::*;

    #[test]
    fn what_does_not_end_is_kept_and_read_up_to_a_bound() {
        let mut file = keep(&mut io::repeat(b'#'), 1_000).unwrap();
        assert_eq!(file.read_to_end(&mut Vec::new()).unwrap(), 1_001);
        let text = "# ten bytes".as_bytes()[..9].iter().chain(b"\n").copied().collect::<Vec<u8>>();
        for (lines, fits) in [(100, true), (101, false)] {
            let file = keep(&mut Cursor::new(text.repeat(lines)), 2_000).unwrap();
            let mut lines = Lines { left: 1_000, ..Lines::new("text".to_owned(), file) };
            let end = lines.next();
            assert_eq!(end.is_none(), fits);
            let told = end.and_then(Result::err).map(|failure| failure.to_string());
            assert!(fits || told == Some("text, line 101: a text has at most 268,435,456 bytes".to_owned()), "{told:?}");
        }
    }

    #[test]
    fn a_text_that_loads_without_end_is_not_run() {
        let text = "repeat r in 0..4 {\nload x 0 u8: r\nmac16 m1\n}\n";
        for (loads_left, items) in [(4, 8), (3, 6)] {
            let file = keep(&mut Cursor::new(text), 2_000).unwrap();
            let mut lines = Lines { loads_left, ..Lines::new("text".to_owned(), file) };
            assert_eq!(lines.by_ref().take_while(Result::is_ok).count(), items);
        }
        let file = keep(&mut Cursor::new(text), 2_000).unwrap();
        let told = Lines { loads_left: 0, ..Lines::new("text".to_owned(), file) }.next().and_then(Result::err);
        assert_eq!(told.map(|failure| failure.to_string()), Some("text, line 4: a text loads at most 16,000,000 registers".to_owned()));
    }
}
