use crate::{
    Answer, Call, FileFault, REGISTER_BYTES, ReadError, STATE_LENGTH, State, TraceReader, TraceWriter, checkpoint_bytes, run,
    words::{counted, grouped},
    write_run,
};
use std::{
    fmt,
    io::{self, Cursor},
};

/// The bytes of a checkpoint, the third section of a trace file: a u32, then the state.
pub const CHECKPOINT_LENGTH: usize = size_of::<u32>() + STATE_LENGTH;

/// The bytes of a record.
pub(crate) const RECORD: usize = 16;

/// A step as a trace file holds it: a call whose instruction and generation are bytes.
#[derive(Clone, Copy, Debug, PartialEq, Eq, Hash)]
pub struct Record {
    /// The instruction's number.
    pub instruction: u8,
    /// The generation's number.
    pub generation: u8,
    /// The operand.
    pub operand: u64,
}

/// Where a run was stopped: what the rest of a trace goes on from.
#[derive(Clone, Debug, PartialEq, Eq)]
pub struct Checkpoint {
    /// The records that were run, refused ones too; the next is the one of this place.
    pub consumed: usize,
    /// The state that they left, with its count. Any may stand here: a run goes on from it as it is.
    pub state: State,
}

/// What a trace has but its records.
#[derive(Clone, Debug, PartialEq, Eq)]
pub struct TraceHeader {
    /// At count 0.
    pub(crate) start: State,
    /// Has consumed no more than there are records.
    pub(crate) checkpoint: Option<Checkpoint>,
    /// How many there are.
    pub(crate) records: usize,
}

/// Starting registers and up to 1,000,000 records. A run starts at count 0; one that was stopped goes on from a [`Checkpoint`].
///
/// It is held whole: 16 bytes for a record, so 16 MB for the longest, as much again in [`to_bytes`](Self::to_bytes) and more in
/// [`text`](Self::text). [`TraceReader`], [`TraceWriter`] and [`write_run`] hold no more than a buffer.
///
/// ```
/// use amx::{Record, State, Trace};
/// let mut start = State::new();
/// start.x_mut()[0] = 3;
/// start.y_mut()[0] = 2;
/// let mut trace = Trace::new(start);
/// trace.push(Record { instruction: 14, generation: 1, operand: 1 << 63 })?;
/// trace.push(Record { instruction: 18, generation: 1, operand: 1 << 54 })?;
///
/// assert_eq!(Trace::from_bytes(&trace.to_bytes()), Ok(trace.clone()));
/// let text = format!("step 0 done 64\nstep 1 no-op 1\nz 0 0600{}\nsteps 2\n", "0".repeat(124));
/// assert_eq!(trace.text(), text);
/// # Ok::<(), amx::TraceFull>(())
/// ```
#[derive(Clone, Debug, PartialEq, Eq)]
pub struct Trace {
    /// Has as many records as there are.
    header: TraceHeader,
    records: Vec<Record>,
}

/// A trace holds no more than 1,000,000 records.
#[derive(Clone, Copy, Debug, PartialEq, Eq)]
pub struct TraceFull;

/// Why a trace takes no checkpoint.
#[derive(Clone, Copy, Debug, PartialEq, Eq)]
pub enum NoCheckpoint {
    /// More records are consumed than there are.
    TooFewRecords {
        /// The records consumed.
        consumed: usize,
        /// The records of the trace.
        records: usize,
    },
    /// The trace that is to be cut has a checkpoint already.
    Resumed,
}

/// A call whose instruction or generation is above 255 does not fit a record.
#[derive(Clone, Copy, Debug, PartialEq, Eq)]
pub struct NoRecord(
    /// The call.
    pub Call,
);

impl Checkpoint {
    /// Fits a trace of so many records.
    pub(crate) fn consumes_no_more_than(&self, records: usize) -> Result<(), NoCheckpoint> {
        let consumed = self.consumed;
        if consumed > records { Err(NoCheckpoint::TooFewRecords { consumed, records }) } else { Ok(()) }
    }
}

impl TraceHeader {
    /// Of no records, from a state's registers.
    pub(crate) fn new(mut start: State) -> Self {
        start.set_count(0);
        TraceHeader { start, checkpoint: None, records: 0 }
    }

    /// The starting state, whose count is 0.
    pub fn start(&self) -> &State {
        &self.start
    }

    /// Where a run goes on from, of a trace that was stopped.
    pub fn checkpoint(&self) -> Option<&Checkpoint> {
        self.checkpoint.as_ref()
    }

    /// How many records there are, consumed ones too.
    pub fn records(&self) -> usize {
        self.records
    }

    /// How many of them are consumed.
    pub fn consumed(&self) -> usize {
        self.checkpoint.as_ref().map_or(0, |checkpoint| checkpoint.consumed)
    }

    /// The state that a run goes on from: the checkpoint's, or else the starting one.
    pub fn state(&self) -> &State {
        self.checkpoint.as_ref().map_or(&self.start, |checkpoint| &checkpoint.state)
    }

    /// The same, to be written.
    pub(crate) fn state_mut(&mut self) -> &mut State {
        match &mut self.checkpoint {
            Some(checkpoint) => &mut checkpoint.state,
            None => &mut self.start,
        }
    }

    /// Counts so many more records.
    pub(crate) fn count_records(&mut self, more: u64) -> Result<(), TraceFull> {
        let more = usize::try_from(more).ok().filter(|&more| more <= Trace::MAX_RECORDS - self.records);
        self.records += more.ok_or(TraceFull)?;
        Ok(())
    }
}

impl Trace {
    /// The most records that a trace holds.
    pub const MAX_RECORDS: usize = 1_000_000;

    /// A trace of no records, from a state's registers: a trace holds no count.
    pub fn new(start: State) -> Self {
        Trace { header: TraceHeader::new(start), records: Vec::new() }
    }

    /// Of these records, which are as many as the header has.
    pub(crate) fn from_parts(header: TraceHeader, records: Vec<Record>) -> Self {
        assert_eq!(header.records, records.len(), "a header counts its records");
        Trace { header, records }
    }

    /// What the trace has but its records.
    pub fn header(&self) -> &TraceHeader {
        &self.header
    }

    /// The starting state, whose count is 0.
    pub fn start(&self) -> &State {
        &self.header.start
    }

    /// The starting registers, to be written.
    pub fn registers_mut(&mut self) -> &mut [u8; REGISTER_BYTES] {
        self.header.start.registers_mut()
    }

    /// The records, in order.
    pub fn records(&self) -> &[Record] {
        &self.records
    }

    /// Adds a record at the end.
    pub fn push(&mut self, record: Record) -> Result<(), TraceFull> {
        self.header.count_records(1)?;
        self.records.push(record);
        Ok(())
    }

    /// Where a run goes on from, of a trace that was stopped.
    pub fn checkpoint(&self) -> Option<&Checkpoint> {
        self.header.checkpoint()
    }

    /// Has a run go on from here, and no more from the start or from another checkpoint.
    pub fn set_checkpoint(&mut self, checkpoint: Checkpoint) -> Result<(), NoCheckpoint> {
        checkpoint.consumes_no_more_than(self.records.len())?;
        self.header.checkpoint = Some(checkpoint);
        Ok(())
    }

    /// The rest of a trace whose run is stopped after some records: the same trace, with the checkpoint that the proved step leaves there.
    /// The lines of the first part's steps, and then the text of the rest, are the whole trace's text.
    ///
    /// ```
    /// use amx::{NoCheckpoint, Record, State, Trace};
    /// let mut trace = Trace::new(State::new());
    /// trace.push(Record { instruction: 14, generation: 1, operand: 1 << 63 })?;
    /// trace.push(Record { instruction: 18, generation: 1, operand: 1 << 54 })?;
    ///
    /// let rest = trace.cut(1)?;
    /// assert_eq!(trace.text(), "step 0 done 64\nstep 1 no-op 1\nsteps 2\n");
    /// assert_eq!(rest.text(), "step 1 no-op 1\nsteps 2\n");
    /// assert_eq!(Trace::from_bytes(&rest.to_bytes()), Ok(rest.clone()));
    /// assert_eq!(trace.cut(3), Err(NoCheckpoint::TooFewRecords { consumed: 3, records: 2 }));
    /// assert_eq!(rest.cut(2), Err(NoCheckpoint::Resumed));
    /// # Ok::<(), Box<dyn std::error::Error>>(())
    /// ```
    pub fn cut(&self, consumed: usize) -> Result<Self, NoCheckpoint> {
        if self.header.checkpoint.is_some() {
            return Err(NoCheckpoint::Resumed);
        }
        let (state, _) = run_records(self.start(), self.records.iter().take(consumed));
        let mut rest = self.clone();
        rest.set_checkpoint(Checkpoint { consumed, state })?;
        Ok(rest)
    }

    /// Reads a trace file of two sections or three, as [`TraceReader`] does: of two sections the first refusal that is met counts, and three
    /// are tested for the refusals in their order.
    ///
    /// ```
    /// use amx::{FileFault, FileRefusal, State, Trace};
    /// let mut file = Trace::new(State::new()).to_bytes();
    /// assert_eq!(Trace::from_bytes(&file[..27]), Err(FileFault::Short { bytes: 27, table: 28 }));
    /// file[0] = 3;
    /// assert_eq!(Trace::from_bytes(&file).unwrap_err().refusal(), FileRefusal::Table);
    /// assert_eq!(Trace::from_bytes(&file[..39]), Err(FileFault::Short { bytes: 39, table: 40 }));
    /// ```
    pub fn from_bytes(file: &[u8]) -> Result<Self, FileFault> {
        let read = || {
            let mut reader = TraceReader::seekable(Cursor::new(file))?;
            let records = reader.by_ref().collect::<Result<_, _>>()?;
            Ok(Trace { header: reader.into_header(), records })
        };
        read().map_err(|error| match error {
            ReadError::Refused(fault) => fault,
            ReadError::Once | ReadError::Io(_) => unreachable!("bytes can be read, and twice"),
        })
    }

    /// The trace file: of three sections where there is a checkpoint, else of two.
    pub fn to_bytes(&self) -> Vec<u8> {
        let n = self.records.len();
        let writer = match self.checkpoint() {
            Some(checkpoint) => TraceWriter::resumed(Vec::new(), self.start(), n, checkpoint.clone()),
            None => TraceWriter::new(Vec::new(), self.start(), n),
        };
        let written = writer.and_then(|mut writer| {
            self.records.iter().try_for_each(|&record| writer.push(record))?;
            writer.finish()
        });
        written.expect("a trace has as many records as it counts, and memory takes them")
    }

    /// Runs the records that are not consumed in turn, from the checkpoint or else from the starting state, each with the serial then due:
    /// the end state, and the answer of each.
    #[must_use = "the trace stays as it is: the end state and the answers are the result"]
    pub fn run(&self) -> (State, Vec<Answer>) {
        run_records(self.header.state(), self.records.iter().skip(self.header.consumed()))
    }

    /// The text of a run, as [`write_run`] writes it.
    pub fn text(&self) -> String {
        let mut text = Vec::new();
        let records = self.records.iter().copied().map(Ok::<_, io::Error>);
        write_run(&self.header, records, &mut text).expect("memory takes the text");
        String::from_utf8(text).expect("the text is ASCII")
    }
}

/// Runs records in turn from a state, each with the serial then due.
fn run_records<'a>(state: &State, records: impl Iterator<Item = &'a Record>) -> (State, Vec<Answer>) {
    let mut state = state.clone();
    let calls: Vec<Call> = records.map(|&record| record.into()).collect();
    let answers = run(&mut state, &calls);
    (state, answers)
}

pub(crate) const fn table_length(sections: usize) -> usize {
    4 + 12 * sections
}

/// Where a record begins, in a file of so many sections.
pub(crate) fn record_at(record: usize, sections: usize) -> u64 {
    (table_length(sections) + REGISTER_BYTES) as u64 + RECORD as u64 * record as u64
}

/// The table of a trace of n records: the count of sections, then kind, zero, offset and length of each.
pub(crate) fn table_of(n: usize, sections: usize) -> Vec<u8> {
    let lengths = [REGISTER_BYTES as u64, RECORD as u64 * n as u64, CHECKPOINT_LENGTH as u64];
    let mut words = vec![sections as u64];
    let mut offset = table_length(sections) as u64;
    for (kind, length) in (1..).zip(lengths).take(sections) {
        words.extend([kind, offset, length]);
        offset += length;
    }
    words.into_iter().flat_map(|word| (word as u32).to_le_bytes()).collect()
}

/// A checkpoint, whatever it has consumed.
pub(crate) fn checkpoint_from(bytes: &[u8; CHECKPOINT_LENGTH]) -> Checkpoint {
    let (consumed, state) = bytes.split_first_chunk().expect("what is consumed comes first");
    let state = state.try_into().expect("the state is the rest");
    Checkpoint { consumed: u32::from_le_bytes(*consumed) as usize, state: State::from_bytes(state) }
}

/// The bytes of a checkpoint, by the proved unit.
pub(crate) fn bytes_of_checkpoint(checkpoint: &Checkpoint) -> [u8; CHECKPOINT_LENGTH] {
    let mut section = [0; CHECKPOINT_LENGTH];
    let written = checkpoint_bytes(checkpoint.state.bytes(), checkpoint.consumed as u64, &mut section);
    assert_eq!(written, CHECKPOINT_LENGTH, "libamx.a wrote no checkpoint, though there is room and few steps are consumed");
    section
}

pub(crate) fn bytes_of_record(record: Record) -> [u8; RECORD] {
    let mut bytes = [0; RECORD];
    bytes[..2].copy_from_slice(&[record.instruction, record.generation]);
    bytes[8..].copy_from_slice(&record.operand.to_le_bytes());
    bytes
}

/// A record, whatever its padding.
pub(crate) fn record_from(bytes: &[u8; RECORD]) -> Record {
    let [instruction, generation, _, _, _, _, _, _, operand @ ..] = *bytes;
    Record { instruction, generation, operand: u64::from_le_bytes(operand) }
}

impl From<Record> for Call {
    fn from(record: Record) -> Self {
        Call::new(record.instruction.into(), record.generation.into(), record.operand)
    }
}

impl TryFrom<Call> for Record {
    type Error = NoRecord;

    fn try_from(call: Call) -> Result<Self, NoRecord> {
        match (call.instruction.try_into(), call.generation.try_into()) {
            (Ok(instruction), Ok(generation)) => Ok(Record { instruction, generation, operand: call.operand }),
            _ => Err(NoRecord(call)),
        }
    }
}

impl fmt::Display for TraceFull {
    fn fmt(&self, f: &mut fmt::Formatter) -> fmt::Result {
        write!(f, "a trace holds at most {}", counted(Trace::MAX_RECORDS as u64, "step"))
    }
}

impl fmt::Display for NoCheckpoint {
    fn fmt(&self, f: &mut fmt::Formatter) -> fmt::Result {
        match self {
            NoCheckpoint::TooFewRecords { consumed, records } => {
                write!(f, "{} cannot be consumed, the trace has {}", counted(*consumed as u64, "step"), grouped(*records as u64))
            }
            NoCheckpoint::Resumed => f.write_str("the trace has a checkpoint already"),
        }
    }
}

impl fmt::Display for NoRecord {
    fn fmt(&self, f: &mut fmt::Formatter) -> fmt::Result {
        write!(f, "instruction and generation of a record are 0 to 255, not {} and {}", self.0.instruction, self.0.generation)
    }
}

impl std::error::Error for TraceFull {}
impl std::error::Error for NoCheckpoint {}
impl std::error::Error for NoRecord {}

#[cfg(test)]
pub(crate) mod tests {
    use super::*;
    use crate::FileRefusal;

    /// A trace of so many records, none like another.
    pub(crate) fn trace(n: usize) -> Trace {
        let mut trace = Trace::new(State::new());
        (0..n).for_each(|n| trace.push(Record { instruction: 14, generation: 1, operand: n as u64 }).unwrap());
        trace
    }

    fn of(n: usize) -> Vec<u8> {
        trace(n).to_bytes()
    }

    fn refusal(file: &[u8]) -> Option<FileRefusal> {
        Trace::from_bytes(file).err().map(FileFault::refusal)
    }

    #[test]
    fn a_trace_of_none_and_of_the_most_records_is_read_back() {
        for n in [0, 1, 2_048, 2_049] {
            let trace = Trace::from_bytes(&of(n)).unwrap();
            assert_eq!((trace.records().len(), trace.to_bytes()), (n, of(n)));
        }
        let mut longer = of(1_000_000);
        let mut most = Trace::from_bytes(&longer).unwrap();
        assert!(most == trace(1_000_000));
        assert_eq!(most.push(Record { instruction: 0, generation: 0, operand: 0 }), Err(TraceFull));
        longer.extend([0; 16]);
        longer[24..28].copy_from_slice(&(16u32 * 1_000_001).to_le_bytes());
        assert_eq!(refusal(&longer), Some(FileRefusal::Table));
    }

    #[test]
    fn refusals_come_in_their_order() {
        let mut file = of(2);
        file[5_148 + 16 + 7] = 1;
        assert_eq!(refusal(&file), Some(FileRefusal::Padding));
        file[6] = 1;
        assert_eq!(refusal(&file), Some(FileRefusal::Table));
        assert_eq!(refusal(&file[..27]), Some(FileRefusal::TooShort));
        for length in [28, 5_147, 5_148, 5_164, 5_179] {
            assert_eq!(refusal(&of(2)[..length]), Some(FileRefusal::Table));
        }
        for at in 0..28 {
            let mut file = of(2);
            file[at] ^= 1;
            assert_eq!(refusal(&file), Some(FileRefusal::Table), "byte {at}");
        }
    }

    #[test]
    fn a_checkpoint_follows_the_records() {
        for (n, consumed) in [(0, 0), (3, 0), (3, 2), (3, 3), (2_048, 0x702), (2_048, 2_048)] {
            let mut state = State::from_registers(std::array::from_fn(|at| (at % 249) as u8));
            state.set_count(u64::MAX - 1);
            let mut trace = trace(n);
            trace.set_checkpoint(Checkpoint { consumed, state: state.clone() }).unwrap();
            let file = trace.to_bytes();
            assert_eq!((file.len(), &file[40..5_160]), (10_292 + 16 * n, &of(n)[28..5_148]));
            let (records, checkpoint) = file[5_160..].split_at(16 * n);
            assert_eq!(records, &of(n)[5_148..]);
            assert_eq!(checkpoint[..4], [consumed as u8, (consumed >> 8) as u8, 0, 0]);
            assert_eq!(checkpoint[4..], state.bytes()[..]);
            assert_eq!(Trace::from_bytes(&file), Ok(trace));
        }
    }

    #[test]
    fn no_more_is_consumed_than_there_is() {
        let mut trace = trace(3);
        let too_many = Err(NoCheckpoint::TooFewRecords { consumed: 4, records: 3 });
        assert_eq!(trace.set_checkpoint(Checkpoint { consumed: 4, state: State::new() }), too_many);
        assert_eq!((trace.checkpoint(), trace.cut(4).map(drop), trace.cut(usize::MAX).is_err()), (None, too_many, true));
        // a checkpoint takes the place of another
        for consumed in [3, 1] {
            trace.set_checkpoint(Checkpoint { consumed, state: State::new() }).unwrap();
            assert_eq!(trace.checkpoint().map(|checkpoint| checkpoint.consumed), Some(consumed));
        }
        assert_eq!(trace.cut(2), Err(NoCheckpoint::Resumed));
    }

    #[test]
    fn refusals_of_three_sections_come_in_their_order() {
        let file = trace(2).cut(1).unwrap().to_bytes();
        let consumed = 5_160 + 32;
        let damaged = |damage: &[(usize, u8)]| {
            let mut file = file.clone();
            damage.iter().for_each(|&(at, byte)| file[at] ^= byte);
            refusal(&file)
        };
        // padding of the record that is consumed and of the one that is not
        for at in [5_160 + 2, 5_160 + 16 + 7] {
            assert_eq!(damaged(&[(at, 1)]), Some(FileRefusal::Padding));
            assert_eq!(damaged(&[(at, 1), (consumed, 1 ^ 3)]), Some(FileRefusal::Table));
        }
        for byte in 0..4 {
            assert_eq!(damaged(&[(consumed + byte, 0x80)]), Some(FileRefusal::Table));
        }
        assert_eq!((damaged(&[(consumed, 1)]), damaged(&[(consumed, 1 ^ 2)])), (None, None));
        for at in 0..40 {
            assert_eq!(damaged(&[(at, 1)]), Some(FileRefusal::Table), "byte {at}");
        }
        for length in 0..file.len() {
            let expected = if length < 40 { FileRefusal::TooShort } else { FileRefusal::Table };
            assert_eq!(refusal(&file[..length]), Some(expected), "{length} bytes");
        }
        assert_eq!(refusal(&[&file[..], &[0]].concat()), Some(FileRefusal::Table));
        // another count of sections in so few bytes
        assert_eq!(refusal(&[&[4], &file[1..39]].concat()), Some(FileRefusal::Table));
    }

    #[test]
    fn a_run_starts_at_count_0_and_counts_what_is_not_refused() {
        let mut start = State::new();
        start.set_count(77);
        let mut trace = Trace::new(start);
        assert_eq!(trace.start(), &State::new());
        // done, no-op, refused 2, 3 and 4, done
        for (instruction, generation, operand) in [(14, 1, 0), (18, 1, 1 << 54), (14, 3, 0), (15, 1, 0), (18, 1, 1 << 27), (18, 2, 0)] {
            trace.push(Record { instruction, generation, operand }).unwrap();
        }
        assert_eq!(trace.run().0.count(), 3);
        assert_eq!(Trace::from_bytes(&trace.to_bytes()), Ok(trace));
    }

    #[test]
    fn a_call_above_255_is_no_record() {
        assert_eq!(Record::try_from(Call::new(256, 1, 0)), Err(NoRecord(Call::new(256, 1, 0))));
        assert_eq!(Record::try_from(Call::new(255, 255, 9)).map(Call::from), Ok(Call::new(255, 255, 9)));
    }
}
