use super::{
    MAX_BLOCK, MAX_LINE, TextError,
    number::parse_number,
    repeat::Program,
    state::RegisterLine,
    step::{Step, StepError, instructions},
};
use crate::{
    Checkpoint, REGISTER_BYTES, Record, Register, STATE_LENGTH, State, TraceHeader,
    words::{counted, grouped},
};

/// The byte order mark, which some editors put before a text: it is no part of it.
const MARK: char = '\u{feff}';

const NOT_TAKEN: &str = "the items of the lines above are to be taken first";
const LOADS_AND_CHECKPOINT: &str = "a text with loads has no checkpoint";

/// What a text does, besides the state that it starts from.
#[derive(Clone, Copy, Debug, PartialEq, Eq)]
pub enum Item {
    /// A step.
    Step(Record),
    /// A register is loaded.
    Load(Load),
}

/// A register that is loaded, as a whole.
#[derive(Clone, Copy, Debug, PartialEq, Eq)]
pub struct Load {
    /// The register.
    pub register: Register,
    /// What it holds then.
    pub bytes: [u8; 64],
}

impl Load {
    /// Writes the register. The state's count stays: a load is no step.
    ///
    /// # Panics
    ///
    /// Where there is no such register, as a slice does; the assembler makes none of these.
    pub fn apply(&self, state: &mut State) {
        state.row_mut(self.register).copy_from_slice(&self.bytes);
    }
}

/// Takes a text line by line, and gives its steps and loads item by item: after each line, all that there are by then. A repeat block gives
/// none before it is closed, and is expanded as they are taken. The other lines make the header, which is whole after the last.
///
/// ```
/// use amx::{Record, text::{Assembler, Item}};
/// let mut assembler = Assembler::new();
/// assembler.line("x i16: 3  # no item")?;
/// assert_eq!(assembler.next_item()?, None);
/// assembler.line("repeat r in 0..2 { mac16 m1 z_row=r }")?;
/// let record = |operand| Item::Step(Record { instruction: 14, generation: 1, operand });
/// assert_eq!(assembler.next_item()?, Some(record(0)));
/// assert_eq!(assembler.next_item()?, Some(record(1 << 20)));
/// assert_eq!(assembler.next_item()?, None);
/// let header = assembler.clone().finish()?;
/// assert_eq!((header.records(), header.start().x()[0]), (2, 3));
/// assert_eq!(assembler.line("mac15 m1").unwrap_err().line, 3);
/// # Ok::<(), amx::text::TextError>(())
/// ```
#[derive(Clone, Debug)]
pub struct Assembler {
    header: TraceHeader,
    /// The bytes of the starting state that were given, and then of the checkpoint's.
    given: [bool; STATE_LENGTH],
    lines: usize,
    first_load: Option<usize>,
    program: Program,
    /// The bytes of the block that is not closed.
    block: usize,
    error: Option<TextError>,
}

impl Assembler {
    /// Before the first line.
    pub fn new() -> Self {
        Assembler {
            header: TraceHeader::new(State::new()),
            given: [false; STATE_LENGTH],
            lines: 0,
            first_load: None,
            program: Program::default(),
            block: 0,
            error: None,
        }
    }

    /// Takes the next line, of at most [`MAX_LINE`] bytes; [`next_item`](Self::next_item) then gives its items, all of which are to be taken
    /// before the line after it. After an error the text is none: whatever is asked then is answered with that error.
    pub fn line(&mut self, line: &str) -> Result<(), TextError> {
        self.sound()?;
        self.lines += 1;
        let taken = self.take(line).map_err(|expected| TextError::new(self.lines, expected));
        self.kept(taken)
    }

    /// The next step or load of the lines so far; `None` where another line is needed.
    pub fn next_item(&mut self) -> Result<Option<Item>, TextError> {
        self.sound()?;
        let item = self.program.next();
        self.kept(item)
    }

    /// The line of the first load: a trace file has none, so such a text makes more than one.
    pub fn first_load(&self) -> Option<usize> {
        self.first_load
    }

    /// What the lines so far describe but their items. The records are those of all their steps, also of steps that are not taken yet.
    pub fn header(&self) -> &TraceHeader {
        &self.header
    }

    /// After the last line: what the text describes but its items, all of which are taken.
    pub fn finish(self) -> Result<TraceHeader, TextError> {
        self.sound()?;
        if let Some((line, variable)) = self.program.unclosed() {
            return Err(TextError::new(line, format!("the block of {variable} is not closed: expected }}")));
        }
        if self.program.is_ready() {
            return Err(TextError::new(self.lines, NOT_TAKEN.to_owned()));
        }
        Ok(self.header)
    }

    fn sound(&self) -> Result<(), TextError> {
        self.error.clone().map_or(Ok(()), Err)
    }

    /// What was done, and where it is an error that no more is.
    fn kept<T>(&mut self, done: Result<T, TextError>) -> Result<T, TextError> {
        self.error = done.as_ref().err().cloned();
        done
    }

    fn take(&mut self, line: &str) -> Result<(), String> {
        let line = line.strip_prefix(MARK).filter(|_| self.lines == 1).unwrap_or(line);
        let line = line.trim_end_matches(['\r', '\n']);
        if self.program.is_ready() {
            return Err(NOT_TAKEN.to_owned());
        }
        if line.len() > MAX_LINE {
            return Err(format!("a line has at most {}", counted(MAX_LINE as u64, "byte")));
        }
        let line = line.split('#').next().unwrap_or_default();
        self.block = if self.program.is_open() { self.block + line.len() } else { 0 };
        if self.block > MAX_BLOCK {
            return Err(format!("a repeat block has at most {} of text", counted(MAX_BLOCK as u64, "byte")));
        }
        line.split_inclusive(['{', '}', ';']).try_for_each(|piece| self.piece(piece))
    }

    /// A statement with what ends it: the line, `;`, or the beginning or the end of a block.
    fn piece(&mut self, piece: &str) -> Result<(), String> {
        let statement = piece.trim_end_matches(['{', '}', ';']).trim();
        if piece.ends_with('{') {
            return self.program.open(self.lines, statement);
        }
        if !statement.is_empty() {
            self.statement(statement)?;
        }
        if piece.ends_with('}') {
            let steps = self.program.close()?;
            self.count(steps)?;
        }
        Ok(())
    }

    fn statement(&mut self, statement: &str) -> Result<(), String> {
        let first = statement.split_whitespace().next().unwrap_or_default();
        match (first, statement.split_once(':')) {
            ("repeat", _) => Err(format!("expected {{ after {statement:?}")),
            ("load", Some((place, values))) => self.load(place, values),
            ("load", None) => Err(format!("expected a colon and values, as in load x 0 i16: 3 -3, not {statement:?}")),
            (_, Some(_)) if self.began() => Err("lines of a state stand before the first step or load, or right after checkpoint; \
                 load x 0 i16: .. loads a register between steps"
                .to_owned()),
            (_, Some((place, number))) if place.trim() == "count" => self.count_line(number.trim()),
            (_, Some((place, values))) => RegisterLine::parse(place, values, &[])?.store(self.header.state_mut(), &mut self.given),
            (word, None) if word.starts_with("checkpoint") => self.checkpoint_line(statement),
            (_, None) => self.step(statement),
        }
    }

    /// Whether a step or a load came after the start, or after the checkpoint.
    fn began(&self) -> bool {
        self.header.records > self.header.consumed() || self.first_load.is_some() || self.program.is_open()
    }

    fn step(&mut self, statement: &str) -> Result<(), String> {
        let step = Step::parse(statement, self.program.variables()).map_err(|error| match error {
            StepError::Instruction(word) => format!(
                "expected {}, raw, load, repeat, or a line that is no step (x hex:, y i16:, z N f32:, checkpoint), not {word:?}",
                instructions()
            ),
            error => error.to_string(),
        })?;
        self.program.push_step(self.lines, step)?;
        self.count(1)
    }

    fn load(&mut self, place: &str, values: &str) -> Result<(), String> {
        if self.header.checkpoint.is_some() {
            return Err(LOADS_AND_CHECKPOINT.to_owned());
        }
        let load = RegisterLine::parse(place, values, self.program.variables())?;
        self.first_load.get_or_insert(self.lines);
        self.program.push_load(self.lines, load)
    }

    /// Counts steps of the block around them, or of the text.
    fn count(&mut self, steps: u64) -> Result<(), String> {
        if self.program.count(steps) {
            return Ok(());
        }
        let before = self.header.records;
        self.header.count_records(steps).map_err(|full| match steps {
            1 => full.to_string(),
            _ => format!("{full}, and this block makes {} after {}", grouped(steps), grouped(before as u64)),
        })
    }

    /// `checkpoint`: the steps above are consumed.
    fn checkpoint_line(&mut self, line: &str) -> Result<(), String> {
        if line != "checkpoint" {
            return Err(format!("expected checkpoint alone, after the steps that are consumed, not {line:?}"));
        }
        if self.program.is_open() {
            return Err("checkpoint stands in no repeat block".to_owned());
        }
        if self.first_load.is_some() {
            return Err(LOADS_AND_CHECKPOINT.to_owned());
        }
        if self.header.checkpoint.is_some() {
            return Err("checkpoint is given twice".to_owned());
        }
        self.given = [false; STATE_LENGTH];
        self.header.checkpoint = Some(Checkpoint { consumed: self.header.records, state: State::new() });
        Ok(())
    }

    /// `count: N`, of a checkpoint's state.
    fn count_line(&mut self, number: &str) -> Result<(), String> {
        if self.header.checkpoint.is_none() {
            return Err("a run starts at count 0: a count stands after checkpoint".to_owned());
        }
        if std::mem::replace(&mut self.given[REGISTER_BYTES], true) {
            return Err("count is given twice".to_owned());
        }
        self.header.state_mut().set_count(parse_number(number).map_err(|error| error.to_string())?);
        Ok(())
    }
}

impl Default for Assembler {
    fn default() -> Self {
        Assembler::new()
    }
}

#[cfg(test)]
mod tests {
    use super::*;
    use crate::random::Random;

    #[test]
    fn items_that_are_not_taken_are_not_lost() {
        let mut assembler = Assembler::new();
        assembler.line("mac16 m1; load x 0 i8: 1").unwrap();
        assert!(matches!(assembler.next_item(), Ok(Some(Item::Step(_)))));
        let error = assembler.clone().line("mac16 m1").unwrap_err();
        assert_eq!(error.to_string(), "line 2: the items of the lines above are to be taken first");
        assert_eq!(assembler.clone().finish(), Err(TextError { line: 1, ..error }));
        assert!(matches!(assembler.next_item(), Ok(Some(Item::Load(load))) if load.bytes[0] == 1));
        // a line after its last item needs no None first
        assembler.line("mac16 m1").unwrap();
        assert!(matches!(assembler.next_item(), Ok(Some(Item::Step(_)))));
        assert_eq!(assembler.next_item(), Ok(None));
        assert_eq!(assembler.finish().map(|header| header.records()), Ok(2));
    }

    #[test]
    fn after_an_error_there_is_nothing_but_that_error() {
        for line in ["mac15 m1", "mac16 m1; repeat r in 0..0 { }", "mac16 m1; repeat r in 0..2 {} }", "mac16 m1; repeat r in 0..3 { mac16"]
        {
            let mut assembler = Assembler::new();
            let error = assembler.line(line).unwrap_err();
            assert_eq!((assembler.next_item(), assembler.line("mac16 m1")), (Err(error.clone()), Err(error.clone())));
            assert_eq!(assembler.finish(), Err(error));
        }
        let mut assembler = Assembler::new();
        assembler.line("repeat r in 63..65 { mac16 m1 z_row=r }").unwrap();
        assert!(assembler.next_item().is_ok_and(|item| item.is_some()));
        let error = assembler.next_item().unwrap_err();
        assert_eq!(error.rounds, [("r".to_owned(), 64)]);
        assert_eq!((assembler.next_item(), assembler.finish()), (Err(error.clone()), Err(error)));
    }

    /// Lines of words in any order are taken or refused, and what is taken ends.
    #[test]
    fn any_words_are_taken_or_refused() {
        let words = [
            "x",
            "y 1",
            "z 3",
            "load",
            "load x 0",
            "load z r",
            "hex:",
            "i16:",
            "f32:",
            ":",
            "3",
            "-3",
            "0x1_0",
            "1.5",
            "nan",
            "{",
            "}",
            ";",
            "#",
            "repeat",
            "repeat r in 0..3 {",
            "repeat s in 2..2 {",
            "mac16 m1",
            "z_row=r",
            "z_row=2*s-r",
            "x=64*r",
            "raw 14 1",
            "r",
            "-r",
            "count:",
            "checkpoint",
            "vector",
            "é",
            "=",
        ];
        let (mut random, mut items) = (Random::new(41), 0);
        for _ in 0..20_000 {
            let line: Vec<&str> = (0..random.below(9) + 1).map(|_| random.pick(&words)).collect();
            let mut assembler = Assembler::new();
            let taken = [line.join(" ").as_str(), "}"].into_iter().try_for_each(|line| {
                assembler.line(line)?;
                while assembler.next_item()?.is_some() {
                    items += 1;
                }
                Ok::<(), TextError>(())
            });
            assert_eq!(taken.is_err(), assembler.sound().is_err());
        }
        assert!(items > 100, "{items}");
    }

    #[test]
    fn a_byte_order_mark_stands_before_the_first_line_alone() {
        for text in ["\u{feff}mac16 m1", "\u{feff}", "\u{feff}# a comment", "\u{feff}x i16: 3"] {
            let mut assembler = Assembler::new();
            assert_eq!(assembler.line(text), Ok(()));
            while assembler.next_item().unwrap().is_some() {}
            let error = assembler.line("\u{feff}mac16 m1").unwrap_err();
            assert!(error.line == 2 && error.expected.ends_with("not \"\\u{feff}mac16\""), "{error}");
        }
        assert!(Assembler::new().line("\u{feff}\u{feff}mac16 m1").is_err());
    }

    #[test]
    fn a_block_gives_nothing_before_it_is_closed() {
        let mut assembler = Assembler::new();
        for line in ["repeat r in 0..2 {", "mac16 m1 z_row=r", "load z r i8: 1"] {
            assembler.line(line).unwrap();
            assert_eq!(assembler.next_item(), Ok(None));
        }
        assert_eq!((assembler.header().records(), assembler.first_load()), (0, Some(3)));
        assembler.line("}").unwrap();
        assert_eq!(assembler.header().records(), 2);
        assert_eq!(std::iter::from_fn(|| assembler.next_item().unwrap()).count(), 4);
    }
}
