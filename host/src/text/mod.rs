//! Texts of steps, for people: `assemble` makes a trace of a text, `disassemble` goes back, and the way there and back is exact.
//! [`Assembler`] and [`write_text`] do so line by line. A [`Call`] alone is read by `parse` and written by `to_string`.
//!
//! One line each; what follows a `#` is a comment. A byte order mark before the first line is passed over.
//!
//! ```text
//! x i16: 3 -3                                     # the starting state: lanes of X from 0 on; i8, i16, i32, u8, u16, u32, f32 or f64
//! y 1 u8: 255 0x10 0b101                          # lanes of register 1 of Y, from its first
//! z 3 hex: ff7f 00 01                             # bytes of row 3 of Z, two hex digits each; all others are 0
//! x 1 f32: 1.5 -0 2e-40 inf -inf nan 0x7f800001   # float lanes: numbers, the default NaN, or patterns
//! mac16 m1 vector x=0 y=64 z_row=3 shift=2        # steps: instruction, generation, fields by name; fields not named are 0
//! vecint m2 several four widths=3 broadcast_mode=2
//! vecint m1 indexed index_4_bits index_register=3 # X by indices of 4 bits into its register 3; index_y for Y
//! vecint m1 shift=4 bits=0x200                    # bits= sets bits that have no name
//! vecfp m2 mode=10 widths=4 x=64                  # f32 lanes are widths 4, f64 lanes 7
//! fms64 m1 vector skip_y z_row=3                  # z - x
//! raw 18 2 0x8000000000000000                     # a step by its numbers, any
//! repeat r in 0..64 { mac16 m1 vector z_row=r; vecint m1 z_row=r }
//! ```
//!
//! A repeat block does its steps for each number of the range, without its end. `;` ends a step as the line's end does, so a block may stand
//! in one line or have many. Blocks may stand in blocks, up to 8 deep, each with another variable, and each round does at least one step.
//! Values of fields, register numbers of loads and their lanes may be expressions of the variables: `+`, `-` and `*`, without spaces.
//!
//! ```text
//! load x 0 i16: 3 -3                              # between steps a register is loaded as a whole: lanes not given are 0
//! repeat r in 0..8 {
//!   load y r i16: r 2*r+1
//!   repeat s in 0..4 {
//!     mac16 m1 vector y=64*r z_row=4*r+s
//!   }
//! }
//! ```
//!
//! A trace file has no loads: a text with loads makes one for each stretch of steps between them ([`assemble_all`]), and has no checkpoint. A
//! text without may have one:
//!
//! ```text
//! mac16 m1 vector
//! checkpoint                                      # the steps above are consumed, and the rest goes on from this state:
//! count: 7                                        # its count, and its registers as above; what is not given is 0
//! z 3 i16: 384
//! mac16 m1 vector                                 # the next step
//! ```

mod assembler;
mod expression;
mod number;
mod repeat;
mod state;
mod step;

pub use assembler::{Assembler, Item, Load};
pub(crate) use number::plain;
pub use number::{NumberError, parse_number};
pub use state::print_register;
pub use step::StepError;

use crate::{Call, LaneType, Record, State, Trace, TraceHeader};
use state::print_state;
use std::{
    fmt,
    io::{self, Write},
};

/// The most bytes of a line, without its end.
pub const MAX_LINE: usize = 65_536;

/// The most bytes of a repeat block's text behind its first line, without comments: it is held.
pub const MAX_BLOCK: usize = 262_144;

/// What is wrong with a text, and in which line.
#[derive(Clone, Debug, PartialEq, Eq)]
pub struct TextError {
    /// The line, counted from 1.
    pub line: usize,
    /// In which round of the repeat blocks around it, the outermost first: their variables and the values of these. None where that is not
    /// needed to tell.
    pub rounds: Vec<(String, u64)>,
    /// What was expected.
    pub expected: String,
}

impl TextError {
    /// In every round.
    fn new(line: usize, expected: String) -> Self {
        TextError { line, rounds: Vec::new(), expected }
    }
}

impl fmt::Display for TextError {
    fn fmt(&self, f: &mut fmt::Formatter) -> fmt::Result {
        write!(f, "line {}", self.line)?;
        self.rounds.iter().try_for_each(|(variable, value)| write!(f, ", {variable} = {value}"))?;
        write!(f, ": {}", self.expected)
    }
}

impl std::error::Error for TextError {}

/// The trace that a text describes, which has no loads.
///
/// ```
/// use amx::text::{assemble, disassemble};
/// let trace = assemble("x i16: 3\ny i16: 2\nmac16 m1 vector  # one row\n")?;
/// assert_eq!(trace.records()[0].operand, 1 << 63);
/// assert_eq!(disassemble(&trace), "x 0 hex: 03\ny 0 hex: 02\nmac16 m1 vector\n");
///
/// let error = assemble("mac16 m1 vector\nmac16 m1 shift=32\n").unwrap_err();
/// assert_eq!(error.to_string(), "line 2: shift (bits 55..59) is 0 to 31, not 32");
/// let error = assemble("repeat r in 0..64 { mac16 m1 vector z_row=2*r }\n").unwrap_err();
/// assert_eq!(error.to_string(), "line 1, r = 32: z_row (bits 20..25) is 0 to 63, not 64");
/// # Ok::<(), amx::text::TextError>(())
/// ```
pub fn assemble(text: &str) -> Result<Trace, TextError> {
    let (mut assembler, mut records) = (Assembler::new(), Vec::new());
    for line in text.lines() {
        assembler.line(line)?;
        if let Some(line) = assembler.first_load() {
            let expected = "a trace has no loads: a text with loads makes a trace for each stretch of steps between them".to_owned();
            return Err(TextError::new(line, expected));
        }
        while let Some(Item::Step(record)) = assembler.next_item()? {
            records.push(record);
        }
    }
    Ok(Trace::from_parts(assembler.finish()?, records))
}

/// The traces that a text with loads describes: one for each stretch of steps between loads. Each starts from the registers that the proved
/// step leaves at the end of the stretch before, and what is loaded then. Loads without steps behind them are in none. Of a text without
/// loads it is the one trace that [`assemble`] makes.
///
/// ```
/// use amx::text::{assemble_all, disassemble};
/// let text = "x i16: 3\ny i16: 2\nmac16 m1 vector\nload x 0 i16: 4\nmac16 m1 vector\n";
/// let traces: Vec<String> = assemble_all(text)?.iter().map(disassemble).collect();
/// assert_eq!(traces[0], "x 0 hex: 03\ny 0 hex: 02\nmac16 m1 vector\n");
/// assert_eq!(traces[1], "x 0 hex: 04\ny 0 hex: 02\nz 0 hex: 06\nmac16 m1 vector\n");
/// # Ok::<(), amx::text::TextError>(())
/// ```
pub fn assemble_all(text: &str) -> Result<Vec<Trace>, TextError> {
    let (mut assembler, mut stretches) = (Assembler::new(), Stretches::default());
    for line in text.lines() {
        assembler.line(line)?;
        while let Some(item) = assembler.next_item()? {
            stretches.take(assembler.header(), item);
        }
    }
    let loads = assembler.first_load().is_some();
    let header = assembler.finish()?;
    if !loads {
        return Ok(vec![Trace::from_parts(header, stretches.records)]);
    }
    let last = stretches.end();
    stretches.traces.extend(last);
    Ok(stretches.traces)
}

/// The stretches of steps between loads.
#[derive(Default)]
struct Stretches {
    traces: Vec<Trace>,
    /// What the next one starts from, once there is an item.
    start: Option<State>,
    records: Vec<Record>,
}

impl Stretches {
    fn take(&mut self, header: &TraceHeader, item: Item) {
        match item {
            Item::Step(record) => {
                self.start.get_or_insert_with(|| header.start().clone());
                self.records.push(record);
            }
            Item::Load(load) => {
                if let Some(trace) = self.end() {
                    self.start = Some(trace.run().0);
                    self.traces.push(trace);
                }
                load.apply(self.start.get_or_insert_with(|| header.start().clone()));
            }
        }
    }

    /// The stretch that ends here, unless it has no steps.
    fn end(&mut self) -> Option<Trace> {
        let records = std::mem::take(&mut self.records);
        let start = self.start.clone().filter(|_| !records.is_empty())?;
        Some(Trace::from_parts(TraceHeader { records: records.len(), ..TraceHeader::new(start) }, records))
    }
}

/// The text of a trace: [`assemble`] makes the same trace of it. A state is told by bytes in hex, since it does not tell what its lanes are.
pub fn disassemble(trace: &Trace) -> String {
    let mut text = Vec::new();
    let records = trace.records().iter().copied().map(Ok::<_, io::Error>);
    write_text(trace.header(), records, None, &mut text).expect("memory takes the text");
    String::from_utf8(text).expect("the text is ASCII")
}

/// Writes the text of a trace as its records come, and its states as lanes of a type, or else by bytes in hex: either way [`assemble`] makes
/// the same trace of it. The first error ends it, and one of the output is among them.
///
/// ```
/// use amx::{LaneType, text::{assemble, write_text}};
/// let trace = assemble("x i16: 3 -3\nz 5 f32: 1\nmac16 m1 vector\n")?;
/// let mut text = Vec::new();
/// let records = trace.records().iter().copied().map(Ok::<_, std::io::Error>);
/// write_text(trace.header(), records, Some(LaneType::I16), &mut text)?;
/// assert_eq!(text, b"x 0 i16: 3 -3\nz 5 i16: 0 16256\nmac16 m1 vector\n");
/// # Ok::<(), Box<dyn std::error::Error>>(())
/// ```
pub fn write_text<E: From<io::Error>>(
    header: &TraceHeader,
    records: impl IntoIterator<Item = Result<Record, E>>,
    form: Option<LaneType>,
    output: &mut impl Write,
) -> Result<(), E> {
    let saved = header.checkpoint().map(|checkpoint| format!("checkpoint\n{}", print_state(&checkpoint.state, form))).unwrap_or_default();
    output.write_all(print_state(header.start(), form).as_bytes())?;
    for (place, record) in records.into_iter().enumerate() {
        let record = record?;
        if place == header.consumed() {
            output.write_all(saved.as_bytes())?;
        }
        writeln!(output, "{}", Call::from(record))?;
    }
    if header.consumed() == header.records() {
        output.write_all(saved.as_bytes())?;
    }
    Ok(())
}

#[cfg(test)]
mod tests {
    use super::*;
    use crate::{Answer, Checkpoint, Register, Width, random::Random, run};

    fn error(text: &str) -> TextError {
        assemble_all(text).unwrap_err()
    }

    fn text_as(trace: &Trace, form: Option<LaneType>) -> String {
        let mut text = Vec::new();
        write_text(trace.header(), trace.records().iter().copied().map(Ok::<_, io::Error>), form, &mut text).unwrap();
        String::from_utf8(text).unwrap()
    }

    #[test]
    fn there_and_back_is_exact() {
        let mut random = Random::new(7);
        for form in LaneType::ALL.into_iter().cycle().take(40) {
            let records = random.below(40);
            let mut trace = random.trace(records as usize);
            if random.once_in(2) {
                let (consumed, mut state) = (random.below(records + 1) as usize, random.state());
                state.set_count(random.bits());
                trace.set_checkpoint(Checkpoint { consumed, state }).unwrap();
            }
            assert_eq!(assemble(&text_as(&trace, Some(form))).as_ref(), Ok(&trace), "{form}");
            assert_eq!(assemble(&disassemble(&trace)).as_ref(), Ok(&trace));
            assert_eq!(assemble_all(&disassemble(&trace)), Ok(vec![trace]));
        }
    }

    #[test]
    fn lanes_are_written_up_to_the_last_that_is_not_0() {
        let trace = assemble("x 3 hex: 0300 fdff 0000 0080\ny i8: 0 0 -1\nmac16 m1\n").unwrap();
        for (form, lines) in [
            (None, "x 3 hex: 0300fdff00000080\ny 0 hex: 0000ff\n"),
            (Some(LaneType::I8), "x 3 i8: 3 0 -3 -1 0 0 0 -128\ny 0 i8: 0 0 -1\n"),
            (Some(LaneType::I16), "x 3 i16: 3 -3 0 -32768\ny 0 i16: 0 255\n"),
            (Some(LaneType::U32), "x 3 u32: 4294770691 2147483648\ny 0 u32: 16711680\n"),
            (Some(LaneType::F32), "x 3 f32: 0xfffd0003 -0\ny 0 f32: 2.3418052e-38\n"),
        ] {
            assert_eq!(text_as(&trace, form), format!("{lines}mac16 m1\n"));
        }
        let floats = "x 0 f64: -0\nz 63 f64: 0 -0 0 nan 0 0 0 2.5\n";
        assert_eq!(text_as(&assemble(floats).unwrap(), Some(LaneType::F64)), floats);
    }

    #[test]
    fn a_checkpoint_stands_among_the_steps_and_has_a_state_of_its_own() {
        let text = "x 0 hex: 03\ny 0 hex: 02\nmac16 m1 vector\nvecint m1 reserved=1\n\
                    checkpoint\ncount: 2\nx 0 hex: 03\ny 0 hex: 02\nz 0 hex: 06\nmac16 m1 vector\n";
        let trace = assemble(text).unwrap();
        let checkpoint = trace.checkpoint().unwrap();
        assert_eq!((checkpoint.consumed, checkpoint.state.count(), checkpoint.state.row(Register::Z(0))[0]), (2, 2, 6));
        assert_eq!((trace.start().count(), trace.start().row(Register::Z(0))[0], trace.records().len()), (0, 0, 3));
        assert_eq!(disassemble(&trace), text);
        let mut whole = assemble("x i16: 3\ny i16: 2\nmac16 m1 vector\nvecint m1 reserved=1\nmac16 m1 vector\n").unwrap();
        assert_eq!(whole.cut(2), Ok(trace));
        // before the first step and after the last, of a state that is all 0
        for consumed in [0, 3] {
            whole.set_checkpoint(Checkpoint { consumed, state: State::new() }).unwrap();
            assert_eq!(assemble(&disassemble(&whole)), Ok(whole.clone()));
        }
        assert_eq!(disassemble(&assemble(" checkpoint # nothing is consumed").unwrap()), "checkpoint\n");
        // steps of a block are consumed like others
        let repeated = assemble("repeat r in 0..5 { mac16 m1 z_row=r }\ncheckpoint\nz 1 i8: 3\nrepeat r in 0..2 { mac16 m1 }\n").unwrap();
        assert_eq!((repeated.checkpoint().unwrap().consumed, repeated.records().len()), (5, 7));
    }

    #[test]
    fn the_starting_state_is_read() {
        let trace = assemble(
            "x hex: 01 02\nx 1 hex: 0a\ny 7 u8: 255\n\n# nothing\nz 0x3f hex: 00\t50  # a comment: with a colon\nz 3 i32: -7; z 4 i16: 3 -3\n",
        );
        let trace = trace.unwrap();
        let start = trace.start();
        assert_eq!(start.x()[..3], [1, 2, 0]);
        assert_eq!((start.x()[64], start.y()[448]), (10, 255));
        assert_eq!(start.row(Register::Z(63))[..2], [0, 0x50]);
        assert_eq!(start.signed_lane(Register::Z(3), 0, Width::Bits32), -7);
        assert_eq!(start.row(Register::Z(4))[..5], [3, 0, 0xfd, 0xff, 0]);
        assert_eq!(assemble("").unwrap(), Trace::new(State::new()));
        // X and Y have 512 bytes as a whole
        let whole = assemble(&format!("x i16: {}\ny u8: {}", "1 ".repeat(256), "0 ".repeat(511) + "7")).unwrap();
        assert_eq!((whole.start().x()[510], whole.start().y()[511]), (1, 7));
    }

    #[test]
    fn float_lanes_are_read() {
        let trace = assemble(
            "x f32: 1.5 -0 nan  # from the first lane on
x 3 f32: inf -inf 0x7f800001 0xffff_ffff 1e-45 1.4e-45 3.4028235e38 16777217 0.1
y f64: -2.5e-3 nan 0x7ff0_0000_0000_0001 5e-324
y 7 f64: -inf inf -0 0 .5 +7 1e-400 0b1
z 5 f32: 0.30000001
z 63 f64: 0.30000000000000004
",
        )
        .unwrap();
        let start = trace.start();
        let single = |n: usize| (0..10).map(|lane| start.lane(Register::X(n), lane, Width::Bits32)).collect::<Vec<_>>();
        assert_eq!(single(0)[..4], [0x3fc0_0000, 0x8000_0000, 0x7fc0_0000, 0]);
        // a tie goes to the even neighbour, and what is under half of the smallest float is 0
        let expected = [0x7f80_0000, 0xff80_0000, 0x7f80_0001, 0xffff_ffff, 1, 1, 0x7f7f_ffff, 0x4b80_0000, 0x3dcc_cccd, 0];
        assert_eq!(single(3), expected);
        let double = |n: usize| (0..8).map(|lane| start.f64_lane(Register::Y(n), lane).to_bits()).collect::<Vec<_>>();
        assert_eq!(double(0)[..5], [(-2.5e-3f64).to_bits(), 0x7ff8 << 48, 0x7ff0 << 48 | 1, 1, 0]);
        assert_eq!(double(7), [0xfff0 << 48, 0x7ff0 << 48, 1 << 63, 0, 0x3fe0 << 48, 7f64.to_bits(), 0, 1]);
        assert_eq!(start.f32_lane(Register::Z(5), 0), 0.3);
        assert_eq!(start.f64_lane(Register::Z(63), 0), 0.1 + 0.2);
        let text = "x f32: 1\nvecfp m2 mode=11 widths=4\ncheckpoint\ncount: 1\nx 0 f32: 2\nz 0 f32: 1\n";
        let resumed = assemble(text).unwrap();
        assert_eq!(resumed.start().f32_lane(Register::X(0), 0), 1.0);
        assert_eq!(resumed.checkpoint().unwrap().state.f32_lane(Register::X(0), 0), 2.0);
    }

    #[test]
    fn errors_name_the_line_and_what_was_expected() {
        const TYPES: &str = "(i8, i16, i32, u8, u16, u32, f32 or f64)";
        for (text, line, words) in [
            (
                "\nmac15 m1",
                2,
                "expected fms64, mac16, vecint, vecfp, raw, load, repeat, or a line that is no step (x hex:, y i16:, z N f32:, checkpoint), \
                 not \"mac15\"",
            ),
            ("mac16 m1 vector\nmac16 m1 vector vector", 2, "vector is given twice"),
            ("\n\nmac16 m1 z_row=64", 3, "z_row (bits 20..25) is 0 to 63, not 64"),
            ("raw 256 2 0", 1, "instruction and generation of a record are 0 to 255, not 256 and 2"),
            ("mac16 m1\nx i8: 0", 2, "stand before the first step or load, or right after checkpoint; load x 0 i16: .. loads a register"),
            ("mac16 m1\nx: 00", 2, "stand before the first step"),
            ("load x 0 i8: 0\nx i8: 0", 2, "stand before the first step or load"),
            ("mac16 m1; x i8: 0", 1, "stand before the first step or load"),
            ("x hex: 0", 1, "two hex digits to a byte, and \"0\" has 1"),
            ("x hex: 00 5 0", 1, "two hex digits to a byte, and \"5\" has 1"),
            ("x hex: 0xff", 1, "expected hex digits, not 'x'"),
            ("x hex: 0g", 1, "expected hex digits, not 'g'"),
            ("x hex: 00é0", 1, "expected hex digits, not 'é'"),
            ("z hex: 00", 1, "expected x, x N, y, y N (N 0 to 7) or z N (0 to 63), then hex or a lane type (i8, "),
            ("z: 00", 1, "before the colon, not \"z\""),
            ("x 8 hex: 00", 1, "there is no x 8: x N has N 0 to 7"),
            ("z 64 i8: 0", 1, "there is no z 64: z N has N 0 to 63"),
            ("y 0x1_0000_0000_0000 i8: 0", 1, "there is no y 281474976710656: y N has N 0 to 7"),
            ("x hex: 00\nx 0 i8: 0", 2, "byte 0 of x 0 i8 is given twice"),
            ("\nx f32: 1.5 1,5", 2, "expected an f32 (1.5, -0, 2e-3, inf, -inf, nan, or its pattern, 0x..), not \"1,5\""),
            ("x i16: 1\ny i16: 40000", 2, "40000 is not an i16 (-32768 to 32767)"),
            ("y 1 u8: 255 256", 1, "256 is not a u8 (0 to 255)"),
            ("z 1 f32: 0x1_0000_0000", 1, "0x1_0000_0000 is no pattern of 32 bits"),
            ("z f32: 1", 1, "before the colon, not \"z f32\""),
            ("x f16: 1", 1, "not \"x f16\""),
            ("x f32 1: 1", 1, "not \"x f32 1\""),
            ("f32: 1", 1, "not \"f32\""),
            (": 1", 1, "not \"\""),
            ("x f32 f32: 1", 1, "not \"x f32 f32\""),
            ("x 0 hex: 00000000 00\nx f32: 0 1", 2, "byte 0 of x f32 is given twice"),
            ("count: 0", 1, "a run starts at count 0: a count stands after checkpoint"),
            ("checkpoint\ncount: 1\ncount: 2", 3, "count is given twice"),
            ("checkpoint\ncount: 0x10000000000000000", 2, "expected a number of 64 bits"),
            ("checkpoint\ncount:", 2, "expected a number of 64 bits"),
            ("checkpoint\nx i8: 0\nx i8: 0", 3, "byte 0 of x i8 is given twice"),
            ("checkpoint\nmac16 m1\nx i8: 0", 3, "stand before the first step or load, or right after checkpoint"),
            ("checkpoint\nmac16 m1\ncheckpoint", 3, "checkpoint is given twice"),
            ("checkpoint 2", 1, "expected checkpoint alone, after the steps that are consumed, not \"checkpoint 2\""),
            ("checkpoint: 2", 1, "before the colon, not \"checkpoint\""),
            ("load x 0 i8: 1\nmac16 m1\ncheckpoint", 3, "a text with loads has no checkpoint"),
            ("checkpoint\nmac16 m1\nload x 0 i8: 1", 3, "a text with loads has no checkpoint"),
            ("load x i16: 1", 1, "expected load x N, load y N (N 0 to 7) or load z N (0 to 63), then hex or a lane type (i8, "),
            ("load x 8 i16: 1", 1, "there is no x 8: x N has N 0 to 7"),
            ("load x r i16: 1", 1, "before the colon, not \"load x r i16\""),
            ("load x 0 i16 3", 1, "expected a colon and values, as in load x 0 i16: 3 -3, not \"load x 0 i16 3\""),
            ("load", 1, "expected a colon and values"),
            ("load:", 1, "before the colon, not \"load\""),
            ("mac16 m1\nload z 3 i8: 128", 2, "128 is not an i8 (-128 to 127)"),
        ] {
            let TextError { line: at, rounds, expected } = error(text);
            assert!(at == line && rounds.is_empty() && expected.contains(words), "{text:?}: line {at}: {expected}");
        }
        for (text, line, hex, numbers) in [
            ("\nx: 0300 fdff", 2, "x hex: 0300 fdff", "x i16: ..."),
            ("x 3: 05", 1, "x 3 hex: 05", "x 3 i16: ..."),
            ("  z  0x3 :05  # a row", 1, "z 0x3 hex: 05", "z 0x3 i16: ..."),
            ("y:", 1, "y hex:", "y i16: ..."),
            ("mac16 m1\nload x 0: 10 20", 2, "load x 0 hex: 10 20", "load x 0 i16: ..."),
        ] {
            let place = hex.split(" hex").next().unwrap();
            let expected =
                format!("{place}: does not say what the numbers are: for bytes in hex write {hex:?}, for numbers {numbers:?} {TYPES}");
            assert_eq!(error(text), TextError { line, rounds: vec![], expected });
        }
        let long = format!("x: {}", "00".repeat(512));
        assert!(error(&long).expected.contains(&format!("write \"x hex: {}..\", for", "00".repeat(32))));
    }

    #[test]
    fn lengths_are_bounded() {
        let long = error("repeat r in 0..999999 { raw 0 0 0 }\nmac16 m1\nmac16 m1\n");
        assert_eq!(long.to_string(), "line 3: a trace holds at most 1,000,000 steps");
        assert_eq!(error(&format!("z 1 hex: {}", "00".repeat(65))).expected, "z 1 hex has 64 bytes, not 65");
        for (place, lanes) in
            [("x f32", 128), ("y f64", 64), ("x 7 f32", 16), ("z 63 f64", 8), ("x i8", 512), ("y 0 u16", 32), ("load z 1 i32", 16)]
        {
            assert!(assemble_all(&format!("{place}: {}", "1 ".repeat(lanes))).is_ok());
            let expected = format!("{place} has {lanes} lanes, not {}", lanes + 1);
            assert_eq!(error(&format!("{place}: {}", "1 ".repeat(lanes + 1))).expected, expected);
        }
        let line = format!("mac16 m1 #{}", "x".repeat(MAX_LINE - 10));
        assert_eq!((line.len(), assemble(&format!("{line}\r\n")).unwrap().records().len()), (MAX_LINE, 1));
        assert_eq!(error(&format!("\n{line}x\n")).to_string(), "line 2: a line has at most 65,536 bytes");
    }

    /// The answers of a text's items, taken one by one, and the state after the last step.
    fn run_items(text: &str) -> (Vec<Answer>, State) {
        let (mut assembler, mut state, mut answers, mut end) = (Assembler::new(), None, Vec::new(), State::new());
        for line in text.lines() {
            assembler.line(line).unwrap();
            while let Some(item) = assembler.next_item().unwrap() {
                let state = state.get_or_insert_with(|| assembler.header().start().clone());
                match item {
                    Item::Step(record) => {
                        answers.extend(run(state, &[record.into()]));
                        end.clone_from(state);
                    }
                    Item::Load(load) => load.apply(state),
                }
            }
        }
        (answers, end)
    }

    /// The traces of a text run one after the other give the answers and the registers that its items give in their order.
    fn stretches_are_the_whole(text: &str, stretches: usize) {
        let (expected, end) = run_items(text);
        let traces = assemble_all(text).unwrap();
        assert_eq!(traces.len(), stretches);
        let runs: Vec<_> = traces.iter().map(Trace::run).collect();
        assert_eq!(runs.iter().flat_map(|(_, answers)| answers.clone()).collect::<Vec<_>>(), expected);
        if let Some((last, _)) = runs.last() {
            assert!(last.registers() == end.registers());
        }
        assert!(traces.iter().all(|trace| !trace.records().is_empty() && trace.start().count() == 0 && trace.checkpoint().is_none()));
    }

    #[test]
    fn stretches_run_one_after_the_other_are_the_whole() {
        let mac = "mac16 m1 vector";
        stretches_are_the_whole(&format!("x i16: 3\ny i16: 2\n{mac}\nload x 0 i16: 4 -1\nload y 0 hex: 0200 0500\n{mac}\n{mac}"), 2);
        stretches_are_the_whole(&format!("load x 0 i16: 3\n{mac}\nvecint m1 reserved=1\nload z 0 f32: 1.5"), 1);
        let mut random = Random::new(23);
        for _ in 0..30 {
            let mut text = disassemble(&random.trace(0));
            let (mut stretches, mut in_stretch) = (0, false);
            for _ in 0..random.below(60) {
                if random.once_in(4) {
                    let register = Register::all().nth(random.below(80) as usize).unwrap();
                    let form = random.pick(&[None, Some(LaneType::I16), Some(LaneType::F64)]);
                    text += &format!("load {}\n", print_register(register, &random.bytes(64), form));
                    in_stretch = false;
                } else {
                    stretches += usize::from(!in_stretch);
                    in_stretch = true;
                    text += &format!("{}\n", random.trace(1).records().first().copied().map(Call::from).unwrap());
                }
            }
            if text.contains("load ") {
                stretches_are_the_whole(&text, stretches);
            }
        }
    }

    #[test]
    fn a_load_is_of_a_whole_register_and_in_no_single_trace() {
        let text = "x i8: 1 2 3\nmac16 m1\nload x 0 i8: 9\nmac16 m1\nload x 0 i8:\nload y 7 u16: 1\nmac16 m1\nload z 0 i8: 1\n";
        let traces = assemble_all(text).unwrap();
        let starts: Vec<_> = traces.iter().map(|trace| (trace.start().x()[..3].to_vec(), trace.start().y()[448])).collect();
        assert_eq!(starts, [(vec![1, 2, 3], 0), (vec![9, 0, 0], 0), (vec![0, 0, 0], 1)]);
        let one = TextError {
            line: 3,
            rounds: vec![],
            expected: "a trace has no loads: a text with loads makes a trace for each stretch of steps between them".to_owned(),
        };
        assert_eq!(assemble(text), Err(one));
        assert_eq!(assemble("\nrepeat r in 0..2 {\nmac16 m1\nload x r i8: 1\n}").unwrap_err().line, 4);
        assert_eq!(assemble_all("load x 0 i8: 1\n"), Ok(vec![]));
        assert_eq!(assemble_all("x i8: 1\n").map(|traces| (traces.len(), traces[0].start().x()[0])), Ok((1, 1)));
    }
}
