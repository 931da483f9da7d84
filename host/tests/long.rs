//! Long traces as streams: files that are made as they are read, sound and damaged, on this crate's reader and on the reference.
mod records;

use amx::{
    Checkpoint, FileFault, FileRefusal, NoCheckpoint, ReadError, Record, Register, State, Trace, TraceReader, TraceWriter, Width,
    WriteError, print_trace, reference,
};
use records::{RECORDS, start};
use std::io::{self, Cursor, ErrorKind, Read, Seek, SeekFrom};

/// The steps that the trace program takes in a run.
const RUN: usize = 2_048;
const SIZES: [usize; 5] = [RUN - 1, RUN, RUN + 1, 2 * RUN, 2 * RUN + 1];
const MOST: usize = 1_000_000;

fn record(place: usize) -> Record {
    RECORDS[place % 7].0
}

/// The lines of some steps.
fn lines(places: std::ops::Range<usize>) -> String {
    places.map(|place| format!("step {place} {}\n", RECORDS[place % 7].1)).collect()
}

/// The text of a sound file, of which some steps are consumed.
fn whole(n: usize, consumed: usize) -> String {
    let sum = (6 * n.div_ceil(7)) as u16;
    let [low, high] = sum.to_le_bytes();
    lines(consumed..n) + &format!("z 0 {low:02x}{high:02x}{}\nsteps {n}\n", "0".repeat(124))
}

/// The text of a file that is refused after so many steps.
fn refused(steps: usize, refusal: FileRefusal) -> String {
    lines(0..steps) + &format!("file refused {}\n", refusal as u8)
}

/// A trace file that is made as it is read, a few bytes at a time.
#[derive(Clone)]
struct Made {
    /// Table and starting registers.
    first: Vec<u8>,
    /// How many records follow, and what follows them.
    records: usize,
    last: Vec<u8>,
    length: usize,
    /// Bytes that are turned, and where.
    turned: Vec<(usize, u8)>,
    /// The most bytes that are handed over at once.
    piece: usize,
    at: usize,
}

impl Made {
    /// A file of two sections, or of three by a checkpoint of the run.
    fn new(n: usize, consumed: Option<usize>) -> Self {
        let mut header = Trace::new(start());
        if consumed.is_some() {
            header.set_checkpoint(Checkpoint { consumed: 0, state: State::new() }).unwrap();
        }
        let mut first = header.to_bytes();
        let last = match consumed {
            Some(consumed) => {
                let mut state = start();
                state.set_lane(Register::Z(0), 0, Width::Bits16, 6 * consumed.div_ceil(7) as i64);
                state.set_count((0..consumed).filter(|&place| taken(place)).count() as u64);
                let mut last = (consumed as u32).to_le_bytes().to_vec();
                last.extend(state.bytes());
                last
            }
            None => Vec::new(),
        };
        first.truncate(first.len() - last.len());
        let length = first.len() + 16 * n + last.len();
        let mut made = Made { first, records: n, last, length, turned: Vec::new(), piece: usize::MAX, at: 0 };
        made.announce(n);
        made
    }

    /// Has the table say so many records.
    fn announce(&mut self, n: usize) -> &mut Self {
        self.first[24..28].copy_from_slice(&(16 * n as u32).to_le_bytes());
        if !self.last.is_empty() {
            self.first[32..36].copy_from_slice(&(5_160 + 16 * n as u32).to_le_bytes());
        }
        self
    }

    /// Where a record begins.
    fn place(&self, record: usize) -> usize {
        self.first.len() + 16 * record
    }

    fn turn(&mut self, record: usize, byte: usize) -> &mut Self {
        self.turned.push((self.place(record) + byte, 0x80));
        self
    }

    fn cut(&mut self, record: usize, bytes: usize) -> &mut Self {
        self.length = self.place(record) + bytes;
        self
    }

    fn longer(&mut self, bytes: usize) -> &mut Self {
        self.length += bytes;
        self
    }

    /// The bytes from here to the end of the part that they stand in.
    fn part(&self) -> Vec<u8> {
        let end = self.place(self.records);
        if self.at < self.first.len() {
            return self.first[self.at..].to_vec();
        }
        if self.at >= end {
            return self.last.get(self.at - end..).filter(|left| !left.is_empty()).map_or(vec![0; 64], <[u8]>::to_vec);
        }
        let (place, inside) = ((self.at - self.first.len()) / 16, (self.at - self.first.len()) % 16);
        let Record { instruction, generation, operand } = record(place);
        let mut bytes = vec![instruction, generation, 0, 0, 0, 0, 0, 0];
        bytes.extend(operand.to_le_bytes());
        bytes.split_off(inside)
    }

    fn file(&self) -> Vec<u8> {
        let mut bytes = Vec::new();
        self.clone().read_to_end(&mut bytes).unwrap();
        bytes
    }
}

/// Whether a step raises the count.
fn taken(place: usize) -> bool {
    !RECORDS[place % 7].1.starts_with("refused")
}

impl Read for Made {
    fn read(&mut self, buffer: &mut [u8]) -> io::Result<usize> {
        let room = buffer.len().min(self.piece).min(self.length.saturating_sub(self.at));
        let mut read = 0;
        while read < room {
            let part = self.part();
            let taken = part.len().min(room - read);
            buffer[read..read + taken].copy_from_slice(&part[..taken]);
            for (at, turned) in &self.turned {
                if (self.at..self.at + taken).contains(at) {
                    buffer[read + at - self.at] ^= turned;
                }
            }
            read += taken;
            self.at += taken;
        }
        Ok(read)
    }
}

impl Seek for Made {
    fn seek(&mut self, to: SeekFrom) -> io::Result<u64> {
        self.at = match to {
            SeekFrom::Start(at) => at as usize,
            SeekFrom::Current(by) => (self.at as i64 + by) as usize,
            SeekFrom::End(by) => (self.length as i64 + by) as usize,
        };
        Ok(self.at as u64)
    }
}

/// What this crate prints, read by name's way: three sections are read twice.
fn printed(made: &Made) -> String {
    let mut text = Vec::new();
    print_trace(TraceReader::seekable(made.clone()), &mut text).unwrap();
    String::from_utf8(text).unwrap()
}

/// Where two long texts differ first.
fn assert_same(what: &str, given: &str, expected: &str) {
    if given != expected {
        let line = given.lines().zip(expected.lines()).take_while(|(a, b)| a == b).count();
        let [a, b] = [given, expected].map(|text| text.lines().nth(line).unwrap_or("(no such line)"));
        panic!("{what}: line {line} is {a:?}, not {b:?}");
    }
}

/// This crate's reader and the reference print this text.
fn check(what: &str, made: &Made, expected: &str) {
    assert_same(what, &printed(made), expected);
    assert_same(&format!("{what}, by the reference"), &reference::trace(&made.file()), expected);
}

/// Records at the ends of the trace and of runs, and in the middle of each run.
fn places(n: usize) -> impl Iterator<Item = usize> {
    [0, 1, 1_000, RUN - 2, RUN - 1, RUN, RUN + 1, 3_000, 2 * RUN - 1, 2 * RUN].into_iter().chain([n - 1]).filter(move |&place| place < n)
}

#[test]
fn a_trace_of_any_number_of_runs_is_printed() {
    for n in [0, 1].into_iter().chain(SIZES) {
        let text = if n == 0 { "steps 0\n".to_owned() } else { whole(n, 0) };
        check(&format!("{n} steps"), &Made::new(n, None), &text);
        for consumed in places(n.max(1)).chain([n]).filter(|&consumed| consumed <= n) {
            let text = if n == 0 { text.clone() } else { whole(n, consumed) };
            check(&format!("{consumed} of {n} steps consumed"), &Made::new(n, Some(consumed)), &text);
        }
    }
}

#[test]
fn bad_padding_is_refused_where_it_is_met() {
    for (n, place) in SIZES.into_iter().flat_map(|n| places(n).map(move |place| (n, place))) {
        for byte in 2..8 {
            let what = format!("padding byte {byte} of record {place} of {n}");
            check(&what, Made::new(n, None).turn(place, byte), &refused(place, FileRefusal::Padding));
        }
        // other bytes of the record are none
        let made = Made::new(n, None);
        let sound = reference::trace(&made.clone().turn(place, 1).file());
        assert!(!sound.contains("file refused"));
        assert_same("a generation", &printed(made.clone().turn(place, 1)), &sound);
    }
}

#[test]
fn a_file_that_ends_early_is_refused_where_it_ends() {
    for (n, place) in SIZES.into_iter().flat_map(|n| places(n).map(move |place| (n, place))) {
        for bytes in [0, 1, 2, 8, 15] {
            let what = format!("{n} records, cut after {place} and {bytes} bytes");
            check(&what, Made::new(n, None).cut(place, bytes), &refused(place, FileRefusal::Table));
        }
        // whatever the padding of a record that is cut short
        for bytes in [3, 8, 15] {
            let what = format!("{n} records, cut after {place} and {bytes} bytes of bad padding");
            check(&what, Made::new(n, None).turn(place, 2).cut(place, bytes), &refused(place, FileRefusal::Table));
        }
    }
}

#[test]
fn a_file_that_has_not_its_table_s_length_is_refused_at_its_end() {
    for n in SIZES {
        check(&format!("{n} records, one more announced"), Made::new(n, None).announce(n + 1), &refused(n, FileRefusal::Table));
        check(&format!("{n} records, one less announced"), Made::new(n, None).announce(n - 1), &refused(n - 1, FileRefusal::Table));
        check(&format!("{n} records, none announced"), Made::new(n, None).announce(0), &refused(0, FileRefusal::Table));
        for bytes in [1, 15, 16, 17, 16 * RUN] {
            check(&format!("{bytes} bytes behind {n} records"), Made::new(n, None).longer(bytes), &refused(n, FileRefusal::Table));
        }
    }
}

#[test]
fn of_bad_padding_and_a_wrong_length_the_first_met_counts() {
    for (n, place) in SIZES.into_iter().flat_map(|n| places(n).map(move |place| (n, place))) {
        let padded = || Made::new(n, None).turn(place, 4).clone();
        for made in [padded().longer(1), padded().announce(n + 1), padded().cut(n - 1, 15), padded().turn(n - 1, 2)] {
            let expected = match place {
                _ if made.length < made.place(place + 1) => refused(place, FileRefusal::Table),
                _ => refused(place, FileRefusal::Padding),
            };
            check(&format!("bad padding of record {place} of {n}, and a later fault"), made, &expected);
        }
        // padding behind the end of the file, or of the records announced
        check("cut before the padding", padded().cut(place, 0), &refused(place, FileRefusal::Table));
        check("no such record announced", padded().announce(place), &refused(place, FileRefusal::Table));
    }
}

#[test]
fn a_starting_state_that_is_cut_short_is_refused_before_any_line() {
    for n in [0, RUN + 1] {
        for (length, refusal) in [
            (0, FileRefusal::TooShort),
            (3, FileRefusal::TooShort),
            (27, FileRefusal::TooShort),
            (28, FileRefusal::Table),
            (29, FileRefusal::Table),
            (5_147, FileRefusal::Table),
        ] {
            let mut made = Made::new(n, None);
            made.length = length;
            check(&format!("{n} records, {length} bytes"), &made, &refused(0, refusal));
        }
    }
    check("no record is there", Made::new(RUN + 1, None).cut(0, 0), &refused(0, FileRefusal::Table));
}

#[test]
fn three_sections_are_refused_before_any_line() {
    for (n, place) in SIZES.into_iter().flat_map(|n| places(n).map(move |place| (n, place))) {
        let padded = || Made::new(n, Some(RUN - 1)).turn(place, 7).clone();
        let check = |what, made: &Made, refusal| check(&format!("{what}, record {place} of {n}"), made, &refused(0, refusal));
        check("padding", &padded(), FileRefusal::Padding);
        check("padding and a byte behind", padded().longer(1), FileRefusal::Table);
        check("padding and a byte less", padded().cut(n, 5_131), FileRefusal::Table);
        check("padding and more consumed", padded().turn(n, 3), FileRefusal::Table);
        check("padding and one record less", padded().announce(n - 1), FileRefusal::Table);
        check("cut at the record", Made::new(n, Some(0)).cut(place, 0), FileRefusal::Table);
        check("cut in the record", padded().cut(place, 8), FileRefusal::Table);
        check("more consumed", Made::new(n, Some(n)).turn(n, 1), FileRefusal::Table);
        check("one record more", Made::new(n, Some(0)).announce(n + 1), FileRefusal::Table);
    }
}

#[test]
fn a_million_steps_are_taken_and_no_more() {
    let made = Made::new(MOST, None);
    assert_same("a million steps", &printed(&made), &whole(MOST, 0));
    assert_same("a million steps, by the reference", &reference::trace(&made.file()), &whole(MOST, 0));
    let consumed = MOST - 3;
    assert_same("three of a million left", &printed(&Made::new(MOST, Some(consumed))), &whole(MOST, consumed));
    for (place, byte) in [(MOST - 1, 7), (488 * RUN, 2), (488 * RUN - 1, 2)] {
        assert_same("bad padding", &printed(made.clone().turn(place, byte)), &refused(place, FileRefusal::Padding));
    }
    assert_same("a byte behind", &printed(made.clone().longer(1)), &refused(MOST, FileRefusal::Table));
    assert_same("a byte less", &printed(made.clone().cut(MOST - 1, 15)), &refused(MOST - 1, FileRefusal::Table));
    assert_same("one less announced", &printed(made.clone().announce(MOST - 1)), &refused(MOST - 1, FileRefusal::Table));
    check("one more announced", made.clone().announce(MOST + 1), &refused(0, FileRefusal::Table));
    check("one more, two sections", &Made::new(MOST + 1, None), &refused(0, FileRefusal::Table));
    check("one more, three sections", &Made::new(MOST + 1, Some(7)), &refused(0, FileRefusal::Table));
}

#[test]
fn a_reader_that_hands_over_a_few_bytes_is_read_as_any() {
    let n = RUN + 1;
    let sound = Made::new(n, None);
    let files = [
        (sound.clone(), whole(n, 0)),
        (Made::new(n, Some(RUN - 1)), whole(n, RUN - 1)),
        (sound.clone().turn(RUN, 5).clone(), refused(RUN, FileRefusal::Padding)),
        (sound.clone().cut(RUN, 9).clone(), refused(RUN, FileRefusal::Table)),
        (sound.clone().longer(1).clone(), refused(n, FileRefusal::Table)),
        (Made::new(n, Some(3)).turn(n, 2).clone(), refused(0, FileRefusal::Table)),
    ];
    for (piece, (made, text)) in [1, 3, 7, 16, 27, 4_095].into_iter().flat_map(|piece| files.iter().map(move |file| (piece, file))) {
        assert_same(&format!("{piece} bytes at a time"), &printed(&Made { piece, ..made.clone() }), text);
    }
}

/// An input that is interrupted before every piece, and fails after some bytes.
struct Failing(Made, usize, bool);

impl Read for Failing {
    fn read(&mut self, buffer: &mut [u8]) -> io::Result<usize> {
        self.2 = !self.2;
        match self.0.at {
            _ if self.2 => Err(ErrorKind::Interrupted.into()),
            at if at >= self.1 => Err(ErrorKind::ConnectionReset.into()),
            _ => self.0.read(buffer),
        }
    }
}

#[test]
fn an_input_that_fails_is_no_refused_file() {
    let made = Made { piece: 4, ..Made::new(RUN, None) };
    let mut text = Vec::new();
    let error = print_trace(TraceReader::new(Failing(made.clone(), 5_148 + 16 * 1_000, false)), &mut text).unwrap_err();
    assert!(matches!(error, ReadError::Io(error) if error.kind() == ErrorKind::ConnectionReset));
    assert_same("the lines before", std::str::from_utf8(&text).unwrap(), &lines(0..1_000));
    text.clear();
    assert!(print_trace(TraceReader::new(Failing(made.clone(), usize::MAX, false)), &mut text).unwrap().is_some());
    assert_same("only interrupted", std::str::from_utf8(&text).unwrap(), &whole(RUN, 0));
    for at in [0, 27, 28, 5_147] {
        let failing = Failing(Made { piece: 1, ..made.clone() }, at, false);
        assert!(matches!(TraceReader::new(failing), Err(ReadError::Io(_))), "byte {at}");
    }
}

#[test]
fn three_sections_are_not_read_from_what_can_be_read_once() {
    let file = Made::new(5, Some(2)).file();
    assert!(matches!(TraceReader::new(&file[..]), Err(ReadError::Once)));
    assert!(matches!(TraceReader::new(&file[..39]), Err(ReadError::Refused(FileFault::Short { bytes: 39, table: 40 }))));
    assert_eq!(TraceReader::seekable(Cursor::new(&file)).unwrap().header().consumed(), 2);
}

#[test]
fn a_reader_gives_records_up_to_the_first_error_and_then_none() {
    let mut reader = TraceReader::new(Made::new(RUN + 2, None).turn(RUN, 2).clone()).unwrap();
    for place in 0..RUN {
        assert_eq!(reader.next().unwrap().unwrap(), record(place));
    }
    assert!(matches!(reader.next(), Some(Err(ReadError::Refused(FileFault::Padding { record: RUN, byte: 2, .. })))));
    assert!(reader.next().is_none());
}

/// The file of so many records that a writer writes.
fn written(mut writer: TraceWriter<Cursor<Vec<u8>>>, n: usize) -> Result<Vec<u8>, WriteError> {
    (0..n).try_for_each(|place| writer.push(record(place)))?;
    writer.finish().map(Cursor::into_inner)
}

#[test]
fn a_file_is_written_record_by_record() {
    for n in [0, 1].into_iter().chain(SIZES) {
        let output = || Cursor::new(Vec::new());
        assert!(written(TraceWriter::new(output(), &start(), n).unwrap(), n).unwrap() == Made::new(n, None).file());
        for consumed in [0, n / 2, n] {
            let expected = Made::new(n, Some(consumed)).file();
            assert!(written(TraceWriter::cut(output(), &start(), n, consumed).unwrap(), n).unwrap() == expected, "{consumed} of {n}");
            let header = TraceReader::seekable(Cursor::new(&expected)).unwrap().into_header();
            let resumed = TraceWriter::resumed(output(), &start(), n, header.checkpoint().unwrap().clone()).unwrap();
            assert!(written(resumed, n).unwrap() == expected);
            // by seeking, where more were announced
            let mut writer = TraceWriter::cut(output(), &start(), MOST, consumed).unwrap();
            (0..n).for_each(|place| writer.push(record(place)).unwrap());
            assert!(writer.finish_here().unwrap().into_inner() == expected);
        }
    }
}

#[test]
fn a_writer_takes_as_many_records_as_were_announced() {
    let writer = |n| TraceWriter::new(Cursor::new(Vec::new()), &start(), n).unwrap();
    assert!(matches!(written(writer(3), 2), Err(WriteError::Announced(3))));
    assert!(matches!(writer(0).push(record(0)), Err(WriteError::Announced(0))));
    assert!(matches!(TraceWriter::new(Vec::new(), &start(), MOST + 1), Err(WriteError::Full(_))));
    assert!(TraceWriter::new(Vec::new(), &start(), MOST).is_ok());
    let too_few = |error| matches!(error, WriteError::Checkpoint(NoCheckpoint::TooFewRecords { consumed: 3, records: 2 }));
    assert!(TraceWriter::cut(Vec::new(), &start(), 2, 3).is_err_and(too_few));
    let mut writer = TraceWriter::cut(Cursor::new(Vec::new()), &start(), 3, 3).unwrap();
    (0..2).for_each(|place| writer.push(record(place)).unwrap());
    assert!(writer.finish_here().is_err_and(too_few));
}
