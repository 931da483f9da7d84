//! Trace files as streams: record after record, whatever their length.
use crate::{
    Checkpoint, FileFault, NoCheckpoint, Record, Register, Run, State, Trace, TraceFull, TraceHeader,
    call::step_due,
    trace::{
        CHECKPOINT_LENGTH, RECORD, bytes_of_checkpoint, bytes_of_record, checkpoint_from, record_at, record_from, table_length, table_of,
    },
    words::counted,
};
use std::{
    fmt,
    fs::File,
    io::{self, BufReader, ErrorKind, Read, Seek, SeekFrom, Write},
    path::Path,
};

/// The bytes that are read at once: 2,048 records.
const BUFFER: usize = 2_048 * RECORD;

/// Reads a trace file record by record, through a buffer of fixed size. It ends with the last record, or with the first error.
///
/// A file of two sections is refused where what is wrong is met: the records before it have been given by then. One of three sections is
/// checked whole first, so it is read twice.
///
/// ```
/// use amx::{FileFault, ReadError, Record, State, TraceReader, TraceWriter};
/// let record = Record { instruction: 14, generation: 1, operand: 1 << 63 };
/// let mut writer = TraceWriter::new(Vec::new(), &State::new(), 2)?;
/// writer.push(record)?;
/// writer.push(record)?;
/// let file = writer.finish()?;
///
/// let reader = TraceReader::new(&file[..])?;
/// assert_eq!(reader.header().records(), 2);
/// assert_eq!(reader.collect::<Result<Vec<_>, _>>()?, [record; 2]);
/// // the last byte is missing
/// let mut reader = TraceReader::new(&file[..file.len() - 1])?;
/// assert_eq!(reader.next().transpose()?, Some(record));
/// assert!(matches!(reader.next(), Some(Err(ReadError::Refused(FileFault::Cut { bytes: 5_179, told: 5_180 })))));
/// assert!(reader.next().is_none());
/// # Ok::<(), Box<dyn std::error::Error>>(())
/// ```
#[derive(Debug)]
pub struct TraceReader<R> {
    input: BufReader<R>,
    header: TraceHeader,
    /// The records given.
    given: usize,
    /// The last record was given, or an error.
    ended: bool,
}

/// Writes a trace file record by record. Who has many hands over an output that is buffered, say a [`BufWriter`](io::BufWriter).
///
/// The table comes first, so the number of records is announced; where it is not known, any that is not too small will do, and
/// [`finish_here`](Self::finish_here) goes back to the table of an output that can seek.
///
/// ```
/// use amx::{Record, State, Trace, TraceWriter};
/// use std::io::Cursor;
/// let mut writer = TraceWriter::new(Cursor::new(Vec::new()), &State::new(), Trace::MAX_RECORDS)?;
/// writer.push(Record { instruction: 14, generation: 1, operand: 1 << 63 })?;
/// let file = writer.finish_here()?.into_inner();
/// assert_eq!(Trace::from_bytes(&file)?.text(), "step 0 done 64\nsteps 1\n");
/// # Ok::<(), Box<dyn std::error::Error>>(())
/// ```
#[derive(Debug)]
pub struct TraceWriter<W> {
    output: W,
    announced: usize,
    written: usize,
    checkpoint: Option<Checkpoint>,
    /// The records that the checkpoint's state takes as they are written.
    run: usize,
}

/// Why a trace is not read on.
#[derive(Debug)]
pub enum ReadError {
    /// The file is no trace.
    Refused(FileFault),
    /// It has three sections, and the input cannot be read twice.
    Once,
    /// The input cannot be read; or what is made of it cannot be written.
    Io(io::Error),
}

/// Why a trace is not written on.
#[derive(Debug)]
pub enum WriteError {
    /// More records are announced than a trace holds.
    Full(TraceFull),
    /// More records are consumed than there are.
    Checkpoint(NoCheckpoint),
    /// As many records were announced, and more or fewer come.
    Announced(usize),
    /// The output cannot be written.
    Io(io::Error),
}

/// Reads until the bytes are filled or the input ends; how many were read.
fn fill(input: &mut impl Read, bytes: &mut [u8]) -> io::Result<usize> {
    let mut filled = 0;
    while filled < bytes.len() {
        match input.read(&mut bytes[filled..]) {
            Ok(0) => break,
            Ok(read) => filled += read,
            Err(error) if error.kind() == ErrorKind::Interrupted => {}
            Err(error) => return Err(error),
        }
    }
    Ok(filled)
}

/// The bytes of a file, as its table tells them.
fn told(records: usize, sections: usize) -> u64 {
    record_at(records, sections) + if sections == 3 { CHECKPOINT_LENGTH as u64 } else { 0 }
}

/// As many bytes, which stand at a place of the file: one that has fewer has not its table's length.
fn read_all<const N: usize>(input: &mut impl Read, at: u64, told: u64) -> Result<[u8; N], ReadError> {
    let mut bytes = [0; N];
    match fill(input, &mut bytes)? {
        read if read < N => Err(FileFault::Cut { bytes: at + read as u64, told }.into()),
        _ => Ok(bytes),
    }
}

/// How many sections and records a file has, by its table.
fn read_table(input: &mut impl Read) -> Result<(usize, usize), ReadError> {
    let mut table = [0; table_length(3)];
    let mut length = fill(input, &mut table[..table_length(2)])?;
    let sections = if table[..4] == 3u32.to_le_bytes() { 3 } else { 2 };
    if sections == 3 {
        length += fill(input, &mut table[length..])?;
    }
    if length < table_length(sections) {
        return Err(FileFault::Short { bytes: length as u64, table: table_length(sections) as u64 }.into());
    }
    Ok((sections, FileFault::of_table(&table, sections)?))
}

/// The checkpoint behind the records, after all of the file has been checked.
fn read_checkpoint(input: &mut impl Read, records: usize) -> Result<Checkpoint, ReadError> {
    let (told, mut padding) = (told(records, 3), None);
    for record in 0..records {
        let bytes = read_all(input, record_at(record, 3), told)?;
        padding = padding.or_else(|| FileFault::of_padding(&bytes, record, 3));
    }
    let checkpoint = checkpoint_from(&read_all(input, record_at(records, 3), told)?);
    if fill(input, &mut [0])? > 0 {
        return Err(FileFault::Longer { told }.into());
    }
    let consumed = checkpoint.consumed;
    let fault = if consumed > records { Some(FileFault::Consumed { consumed, records }) } else { padding };
    fault.map_or(Ok(checkpoint), |fault| Err(fault.into()))
}

impl<R: Read> TraceReader<R> {
    /// Reads a trace of two sections from what can be read but once, a pipe say; three sections are [`ReadError::Once`].
    pub fn new(input: R) -> Result<Self, ReadError> {
        let mut input = BufReader::with_capacity(BUFFER, input);
        match read_table(&mut input)? {
            (3, _) => Err(ReadError::Once),
            (sections, records) => Self::begin(input, sections, records),
        }
    }

    /// Reads the starting state.
    fn begin(mut input: BufReader<R>, sections: usize, records: usize) -> Result<Self, ReadError> {
        let start = State::from_registers(read_all(&mut input, table_length(sections) as u64, told(records, sections))?);
        Ok(TraceReader { input, header: TraceHeader { start, checkpoint: None, records }, given: 0, ended: false })
    }

    /// What the file has but its records.
    pub fn header(&self) -> &TraceHeader {
        &self.header
    }

    /// What the file has but its records, when they have been read.
    pub fn into_header(self) -> TraceHeader {
        self.header
    }

    /// The next record; none at the end, where two sections must end too.
    fn record(&mut self) -> Result<Option<Record>, ReadError> {
        let (given, sections) = (self.given, if self.header.checkpoint.is_some() { 3 } else { 2 });
        let told = told(self.header.records, sections);
        if given < self.header.records {
            let bytes = read_all(&mut self.input, record_at(given, sections), told)?;
            self.given += 1;
            return match FileFault::of_padding(&bytes, given, sections) {
                Some(fault) => Err(fault.into()),
                None => Ok(Some(record_from(&bytes))),
            };
        }
        let more = sections == 2 && fill(&mut self.input, &mut [0])? > 0;
        if more { Err(FileFault::Longer { told }.into()) } else { Ok(None) }
    }
}

impl<R: Read + Seek> TraceReader<R> {
    /// Reads a trace of two sections or three. The input seeks only where there are three: one that cannot is [`ReadError::Once`].
    pub fn seekable(input: R) -> Result<Self, ReadError> {
        let mut input = BufReader::with_capacity(BUFFER, input);
        let (sections, records) = read_table(&mut input)?;
        let mut reader = Self::begin(input, sections, records)?;
        if sections == 3 {
            let at = reader.input.stream_position().map_err(|_| ReadError::Once)?;
            reader.header.checkpoint = Some(read_checkpoint(&mut reader.input, records)?);
            reader.input.seek(SeekFrom::Start(at)).map_err(|_| ReadError::Once)?;
        }
        Ok(reader)
    }
}

impl TraceReader<File> {
    /// Opens a trace file by its name.
    pub fn open(path: impl AsRef<Path>) -> Result<Self, ReadError> {
        Self::seekable(File::open(path)?)
    }
}

impl<R: Read> Iterator for TraceReader<R> {
    type Item = Result<Record, ReadError>;

    fn next(&mut self) -> Option<Self::Item> {
        if self.ended {
            return None;
        }
        let next = self.record();
        self.ended = !matches!(next, Ok(Some(_)));
        next.transpose()
    }
}

impl<W: Write> TraceWriter<W> {
    /// Begins a trace of two sections, of so many records: a trace holds no count, so the state's is left out.
    pub fn new(output: W, start: &State, records: usize) -> Result<Self, WriteError> {
        Self::begin(output, start, records, None, 0)
    }

    /// Begins a trace of three sections, whose run goes on from a checkpoint.
    pub fn resumed(output: W, start: &State, records: usize, checkpoint: Checkpoint) -> Result<Self, WriteError> {
        Self::begin(output, start, records, Some(checkpoint), 0)
    }

    /// Begins a trace of three sections whose run is stopped after some records: the proved step takes them as they are written.
    ///
    /// ```
    /// use amx::{Record, State, Trace, TraceWriter};
    /// let mut trace = Trace::new(State::new());
    /// trace.push(Record { instruction: 14, generation: 1, operand: 1 << 63 })?;
    /// trace.push(Record { instruction: 18, generation: 1, operand: 1 << 54 })?;
    ///
    /// let mut writer = TraceWriter::cut(Vec::new(), trace.start(), 2, 1)?;
    /// trace.records().iter().try_for_each(|&record| writer.push(record))?;
    /// assert_eq!(writer.finish()?, trace.cut(1)?.to_bytes());
    /// # Ok::<(), Box<dyn std::error::Error>>(())
    /// ```
    pub fn cut(output: W, start: &State, records: usize, consumed: usize) -> Result<Self, WriteError> {
        let mut state = start.clone();
        state.set_count(0);
        Self::begin(output, start, records, Some(Checkpoint { consumed, state }), consumed)
    }

    fn begin(output: W, start: &State, announced: usize, checkpoint: Option<Checkpoint>, run: usize) -> Result<Self, WriteError> {
        if announced > Trace::MAX_RECORDS {
            return Err(WriteError::Full(TraceFull));
        }
        let mut writer = TraceWriter { output, announced, written: 0, checkpoint, run };
        writer.consumes_no_more_than(announced)?;
        writer.output.write_all(&writer.table(announced))?;
        writer.output.write_all(start.registers())?;
        Ok(writer)
    }

    fn table(&self, records: usize) -> Vec<u8> {
        table_of(records, if self.checkpoint.is_some() { 3 } else { 2 })
    }

    fn consumes_no_more_than(&self, records: usize) -> Result<(), WriteError> {
        match &self.checkpoint {
            Some(checkpoint) => checkpoint.consumes_no_more_than(records).map_err(WriteError::Checkpoint),
            None => Ok(()),
        }
    }

    /// Writes a record.
    pub fn push(&mut self, record: Record) -> Result<(), WriteError> {
        if self.written == self.announced {
            return Err(WriteError::Announced(self.announced));
        }
        self.output.write_all(&bytes_of_record(record))?;
        if let Some(checkpoint) = self.checkpoint.as_mut().filter(|_| self.written < self.run) {
            let _ = step_due(&mut checkpoint.state, record.into()); // a file has no answers: its run tells them
        }
        self.written += 1;
        Ok(())
    }

    /// Writes what follows the records; as many as were announced have been written.
    pub fn finish(mut self) -> Result<W, WriteError> {
        if self.written != self.announced {
            return Err(WriteError::Announced(self.announced));
        }
        self.write_end()?;
        Ok(self.output)
    }

    fn write_end(&mut self) -> io::Result<()> {
        if let Some(checkpoint) = &self.checkpoint {
            self.output.write_all(&bytes_of_checkpoint(checkpoint))?;
        }
        self.output.flush()
    }
}

impl<W: Write + Seek> TraceWriter<W> {
    /// Ends with the records that were written, and puts their number into the table, at the first byte of the output.
    pub fn finish_here(mut self) -> Result<W, WriteError> {
        self.consumes_no_more_than(self.written)?;
        self.write_end()?;
        self.output.rewind()?;
        self.output.write_all(&self.table(self.written))?;
        self.output.seek(SeekFrom::End(0))?;
        Ok(self.output)
    }
}

/// Runs the records of a trace and writes the text of the run as it goes: a line for each step that it takes, one for each row of Z that
/// differs from the start (not from the checkpoint), and the number of steps, consumed ones too. The end state. The first error ends it;
/// one of the output is among them.
///
/// ```
/// use amx::{Record, State, Trace, TraceReader, write_run};
/// let mut trace = Trace::new(State::new());
/// trace.push(Record { instruction: 14, generation: 1, operand: 1 << 63 })?;
/// let file = trace.to_bytes();
///
/// let mut text = Vec::new();
/// let reader = TraceReader::new(&file[..])?;
/// let header = reader.header().clone();
/// assert_eq!(write_run(&header, reader, &mut text)?.count(), 1);
/// assert_eq!(text, b"step 0 done 64\nsteps 1\n");
/// # Ok::<(), Box<dyn std::error::Error>>(())
/// ```
pub fn write_run<E: From<io::Error>>(
    header: &TraceHeader,
    records: impl IntoIterator<Item = Result<Record, E>>,
    output: &mut impl Write,
) -> Result<State, E> {
    let mut run = Run::new(header);
    for record in records {
        if let Some((place, answer)) = run.take(record?) {
            writeln!(output, "step {place} {answer}")?;
        }
    }
    for row in run.changed_rows() {
        writeln!(output, "z {row} {}", run.state().hex_row(Register::Z(row)))?;
    }
    writeln!(output, "steps {}", header.records())?;
    Ok(run.into_state())
}

/// Writes what the trace program prints for a file as it is read: the text of its run, or else the lines of the steps before what it is
/// refused for, and the refusal. The end state, where it is not refused.
///
/// ```
/// use amx::{Record, State, Trace, TraceReader, print_trace};
/// let mut trace = Trace::new(State::new());
/// trace.push(Record { instruction: 14, generation: 1, operand: 1 << 63 })?;
/// let mut text = Vec::new();
/// let end = print_trace(TraceReader::new(&trace.to_bytes()[..]), &mut text)?;
/// assert_eq!((&text[..], end.map(|state| state.count())), (&b"step 0 done 64\nsteps 1\n"[..], Some(1)));
///
/// let longer = [trace.to_bytes(), vec![0]].concat();
/// text.clear();
/// assert_eq!(print_trace(TraceReader::new(&longer[..]), &mut text)?, None);
/// assert_eq!(text, b"step 0 done 64\nfile refused 6\n");
/// # Ok::<(), Box<dyn std::error::Error>>(())
/// ```
pub fn print_trace<R: Read>(reader: Result<TraceReader<R>, ReadError>, output: &mut impl Write) -> Result<Option<State>, ReadError> {
    let run = reader.and_then(|reader| {
        let header = reader.header().clone();
        write_run(&header, reader, output)
    });
    match run {
        Ok(state) => Ok(Some(state)),
        Err(ReadError::Refused(fault)) => {
            writeln!(output, "{fault}")?;
            Ok(None)
        }
        Err(error) => Err(error),
    }
}

impl From<FileFault> for ReadError {
    fn from(fault: FileFault) -> Self {
        ReadError::Refused(fault)
    }
}

impl From<io::Error> for ReadError {
    fn from(error: io::Error) -> Self {
        ReadError::Io(error)
    }
}

impl From<io::Error> for WriteError {
    fn from(error: io::Error) -> Self {
        WriteError::Io(error)
    }
}

impl fmt::Display for ReadError {
    fn fmt(&self, f: &mut fmt::Formatter) -> fmt::Result {
        match self {
            ReadError::Refused(fault) => fault.fmt(f),
            ReadError::Once => f.write_str("a trace of three sections is read twice, and this input can be read but once"),
            ReadError::Io(error) => error.fmt(f),
        }
    }
}

impl fmt::Display for WriteError {
    fn fmt(&self, f: &mut fmt::Formatter) -> fmt::Result {
        match self {
            WriteError::Full(full) => full.fmt(f),
            WriteError::Checkpoint(error) => error.fmt(f),
            WriteError::Announced(records) => {
                write!(f, "a trace of {} was announced, and there are more or fewer", counted(*records as u64, "step"))
            }
            WriteError::Io(error) => error.fmt(f),
        }
    }
}

impl std::error::Error for ReadError {}
impl std::error::Error for WriteError {}
