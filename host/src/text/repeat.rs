//! Repeat blocks, expanded item by item: of a million steps no more is held than the block's text says.
use super::{TextError, assembler::Item, number::parse_number, state::RegisterLine, step::Step};
use crate::{Generation, Instruction, LaneType, Record, operand::place};
use std::ops::Range;

/// The most blocks around a step.
const MAX_DEPTH: usize = 8;

/// Words that are no names of variables, besides those of fields, instructions, generations and lane types.
const RESERVED: [&str; 13] = ["raw", "load", "repeat", "in", "checkpoint", "count", "bits", "hex", "x", "y", "z", "inf", "nan"];

/// Steps and loads with the repeat blocks around them, and how far they are expanded.
#[derive(Clone, Debug, Default)]
pub(super) struct Program {
    parts: Vec<Part>,
    /// The blocks that are not closed, the outermost first.
    open: Vec<Open>,
    /// Their variables.
    variables: Vec<String>,
    /// The part that comes next, and the values of the variables there.
    at: usize,
    values: Vec<u64>,
}

#[derive(Clone, Debug)]
enum Part {
    Item(Item),
    /// An item that depends on variables, and its line.
    Template(usize, Box<Template>),
    /// A block of a round at least.
    Repeat(Box<Block>),
    /// The end of the block that the part of this place begins.
    End(usize),
}

#[derive(Clone, Debug)]
enum Template {
    Step(Step<'static>),
    Load(RegisterLine),
}

#[derive(Clone, Debug)]
struct Block {
    variable: String,
    range: Range<u64>,
    /// The place of its end.
    end: usize,
}

#[derive(Clone, Copy, Debug)]
struct Open {
    line: usize,
    /// The place of its first part.
    place: usize,
    /// The steps in a round.
    steps: u64,
}

impl Program {
    /// Whether a block is not closed.
    pub fn is_open(&self) -> bool {
        !self.open.is_empty()
    }

    /// Whether there are items to take.
    pub fn is_ready(&self) -> bool {
        !self.is_open() && self.at < self.parts.len()
    }

    /// The variables of the blocks that are not closed.
    pub fn variables(&self) -> &[String] {
        &self.variables
    }

    /// The outermost block that is not closed: its line and its variable.
    pub fn unclosed(&self) -> Option<(usize, &str)> {
        self.open.first().map(|open| open.line).zip(self.variables.first().map(String::as_str))
    }

    /// `repeat r in 0..64`, of this line.
    pub fn open(&mut self, line: usize, header: &str) -> Result<(), String> {
        let (variable, range) = parse_header(header)?;
        if self.variables.contains(&variable) {
            return Err(format!("{variable} is the variable of a block around this one"));
        }
        if self.open.len() == MAX_DEPTH {
            return Err(format!("repeat blocks are at most {MAX_DEPTH} deep"));
        }
        self.open.push(Open { line, place: self.parts.len(), steps: 0 });
        self.variables.push(variable.clone());
        self.parts.push(Part::Repeat(Box::new(Block { variable, range, end: 0 })));
        Ok(())
    }

    /// `}`: how many steps the block makes, at least one in each round.
    pub fn close(&mut self) -> Result<u64, String> {
        let (Some(open), Some(variable)) = (self.open.pop(), self.variables.pop()) else {
            return Err("there is no repeat block that } would close".to_owned());
        };
        if open.steps == 0 {
            return Err(format!("the block of {variable} has no step: each round does at least one"));
        }
        let end = self.parts.len();
        let Part::Repeat(block) = &mut self.parts[open.place] else { unreachable!("a block begins where it was opened") };
        block.end = end;
        let rounds = block.range.end - block.range.start;
        match rounds {
            0 => self.parts.truncate(open.place),
            _ => self.parts.push(Part::End(open.place)),
        }
        Ok(open.steps.saturating_mul(rounds))
    }

    /// Counts steps of the innermost block; false where there is none.
    pub fn count(&mut self, steps: u64) -> bool {
        let block = self.open.last_mut();
        block.map(|block| block.steps = block.steps.saturating_add(steps)).is_some()
    }

    /// Adds a step of this line.
    pub fn push_step(&mut self, line: usize, step: Step) -> Result<(), String> {
        self.parts.push(match step.is_one_call() {
            true => Part::Item(step_item(&step, &[])?),
            false => Part::Template(line, Box::new(Template::Step(step.into_owned()))),
        });
        Ok(())
    }

    /// Adds a load of this line.
    pub fn push_load(&mut self, line: usize, load: RegisterLine) -> Result<(), String> {
        self.parts.push(match load.is_one_load() {
            true => Part::Item(load.load(&[]).map(Item::Load)?),
            false => Part::Template(line, Box::new(Template::Load(load))),
        });
        Ok(())
    }

    /// The next item of the blocks that are closed; none at the end, and then nothing is held.
    pub fn next(&mut self) -> Result<Option<Item>, TextError> {
        if self.is_open() {
            return Ok(None);
        }
        while let Some(part) = self.parts.get(self.at) {
            let at = self.at;
            self.at += 1;
            match part {
                Part::Item(item) => return Ok(Some(*item)),
                Part::Template(line, template) => {
                    let item = template.item(&self.values);
                    return item.map(Some).map_err(|expected| TextError { line: *line, rounds: self.rounds(at), expected });
                }
                Part::Repeat(block) => self.values.push(block.range.start),
                Part::End(begin) => self.next_round(*begin),
            }
        }
        self.parts.clear();
        self.at = 0;
        Ok(None)
    }

    /// Goes back to the first part of a block, unless its last round is done.
    fn next_round(&mut self, begin: usize) {
        let (Part::Repeat(block), Some(value)) = (&self.parts[begin], self.values.last_mut()) else {
            unreachable!("an end names the block that it is of")
        };
        *value += 1;
        if block.range.contains(value) {
            self.at = begin + 1;
        } else {
            self.values.pop();
        }
    }

    /// The variables of the blocks around a part, with their values.
    fn rounds(&self, at: usize) -> Vec<(String, u64)> {
        let around = self.parts[..at].iter().filter_map(|part| match part {
            Part::Repeat(block) if block.end > at => Some(block.variable.clone()),
            _ => None,
        });
        around.zip(self.values.iter().copied()).collect()
    }
}

impl Template {
    /// The item for these values of the variables.
    fn item(&self, values: &[u64]) -> Result<Item, String> {
        match self {
            Template::Step(step) => step_item(step, values),
            Template::Load(load) => load.load(values).map(Item::Load),
        }
    }
}

fn step_item(step: &Step, values: &[u64]) -> Result<Item, String> {
    let call = step.call(values).map_err(|error| error.to_string())?;
    Record::try_from(call).map(Item::Step).map_err(|error| error.to_string())
}

/// The variable of a block, and its range.
fn parse_header(header: &str) -> Result<(String, Range<u64>), String> {
    let words: Vec<&str> = header.split_whitespace().collect();
    let wrong = || format!("expected repeat NAME in A..B {{, not {:?}", format!("{} {{", words.join(" ")).trim_start());
    let ["repeat", variable, "in", range] = words[..] else { return Err(wrong()) };
    let (first, end) = range.split_once("..").ok_or_else(wrong)?;
    let number = |word| parse_number(word).map_err(|error| format!("range of {variable}: {error}"));
    let range = number(first)?..number(end)?;
    if range.start > range.end {
        return Err(format!("range of {variable}: expected A..B with A at most B, not {first}..{end}"));
    }
    check_name(variable)?;
    Ok((variable.to_owned(), range))
}

fn check_name(name: &str) -> Result<(), String> {
    let is_name = |letter: char| letter.is_ascii_alphanumeric() || letter == '_';
    if name.starts_with(|first: char| first.is_ascii_digit()) || !name.chars().all(is_name) {
        return Err(format!("expected a name of letters, digits and _ that begins with no digit, not {name:?}"));
    }
    let is_field = Instruction::ALL.into_iter().any(|instruction| place(instruction, name).is_some());
    let is_first = Instruction::from_name(name).is_some() || Generation::from_name(name).is_some();
    if is_field || is_first || RESERVED.contains(&name) || name.parse::<LaneType>().is_ok() {
        return Err(format!("{name} has a meaning of its own: a variable goes by another name, say r"));
    }
    Ok(())
}

#[cfg(test)]
mod tests {
    use super::*;
    use crate::{
        Register, Trace,
        text::{Assembler, MAX_BLOCK, assemble, assemble_all, disassemble},
    };

    fn steps(text: &str) -> String {
        disassemble(&assemble(text).unwrap())
    }

    fn error(text: &str) -> String {
        assemble_all(text).unwrap_err().to_string()
    }

    #[test]
    fn a_block_is_its_steps_for_each_number_of_the_range() {
        let expected = "mac16 m1 z_row=2 x=128\nvecint m2 z_row=5\nmac16 m1 z_row=3 x=192\nvecint m2 z_row=7\n";
        for text in [
            "repeat r in 2..4 { mac16 m1 x=64*r z_row=r; vecint m2 z_row=2*r+1 }",
            "repeat r in 2..4 {mac16 m1 x=64*r z_row=r;vecint m2 z_row=2*r+1}  # on one line",
            "repeat  r in 0x2..0b100 { # rounds\n\n  mac16 m1 x=64*r z_row=r  # a step\n  # nothing\n  vecint m2 z_row=2*r+1;\n}\n",
            "repeat row_3 in 2..4 { mac16 m1 z_row=row_3 x=64*row_3;\nvecint m2 z_row=row_3+row_3+1 }",
            "repeat r in 0..0 { mac16 m1 z_row=r }; repeat q in 2..4 { mac16 m1 x=64*q z_row=q; ; vecint m2 z_row=1+q*2 };",
        ] {
            assert_eq!(steps(text), expected, "{text}");
        }
        assert_eq!(
            steps("repeat r in 0..2 { raw 18 r+1 0x100*r; mac16 m1 vector=r bits=512*r }"),
            "\
            vecint m1\nmac16 m1\nvecint m2 y=256\nmac16 m1 vector bits=0x200\n"
        );
    }

    #[test]
    fn blocks_stand_in_blocks() {
        let lines =
            (0..2).flat_map(|r| (0..3).map(move |s| format!("mac16 m1 z_row={}\n", 3 * r + s)).chain([format!("vecint m1 z_row={r}\n")]));
        let expected = lines.collect::<String>().replace(" z_row=0", "");
        assert_eq!(steps("repeat r in 0..2 { repeat s in 0..3 { mac16 m1 z_row=3*r+s }; vecint m1 z_row=r }"), expected);
        assert_eq!(steps("repeat r in 0..2 {\n repeat s in 0..3 {\n  mac16 m1 z_row=3*r+s\n } vecint m1 z_row=r\n}"), expected);
        // no variable reads as a number
        assert_eq!(steps("repeat _1 in 2..3 { mac16 m1 z_row=_1 }"), "mac16 m1 z_row=2\n");
        // the same variable again, after its block
        let twice = "repeat r in 0..1 { repeat s in 0..1 { mac16 m1 z_row=s } repeat s in 1..2 { mac16 m1 z_row=s } }";
        assert_eq!(steps(twice), "mac16 m1\nmac16 m1 z_row=1\n");
        let deep: String = (0..8).map(|n| format!("repeat r{n} in 0..2 {{ ")).collect();
        let text = format!("{deep} mac16 m1 z_row=r0+r1+r2+r3+r4+r5+r6+8*r7 {}", "}".repeat(8));
        assert_eq!(assemble(&text).unwrap().records().len(), 256);
        assert_eq!(error(&format!("{deep} repeat r8 in 0..1 {{")), "line 1: repeat blocks are at most 8 deep");
    }

    #[test]
    fn loads_in_a_block_depend_on_its_variables() {
        let text = "repeat r in 1..4 {\n load x r i16: r -r 2*r+1 -7 0xffff\n load y 2*r-1 f32: r 1.5 r-3 1e-3\n load z 60+r hex: 0r\n}";
        assert!(error(text).starts_with("line 4: expected hex digits, not 'r'"));
        let mut assembler = Assembler::new();
        let text =
            "repeat r in 1..4 { load x r i16: r -r 2*r+1 -7 0xffff; load y 2*r-1 f32: r 1.5 r-3 1e-3; load z 60+r hex: 0a; mac16 m1 }";
        assembler.line(text).unwrap();
        for r in 1..4 {
            let mut loaded = |register, lanes: &[[u8; 4]], size: usize| {
                let Ok(Some(Item::Load(load))) = assembler.next_item() else { panic!("no load") };
                let expected: Vec<u8> = lanes.iter().flat_map(|lane| lane[..size].to_vec()).collect();
                assert_eq!((load.register, &load.bytes[..expected.len()]), (register, &expected[..]));
                assert!(load.bytes[expected.len()..].iter().all(|&byte| byte == 0));
            };
            let (whole, float) = (i32::to_le_bytes, f32::to_le_bytes);
            loaded(Register::X(r as usize), &[whole(r), whole(-r), whole(2 * r + 1), whole(-7), whole(-1)], 2);
            loaded(Register::Y(2 * r as usize - 1), &[float(r as f32), float(1.5), float((r - 3) as f32), float(1e-3)], 4);
            loaded(Register::Z(60 + r as usize), &[[10, 0, 0, 0]], 1);
            assert!(matches!(assembler.next_item(), Ok(Some(Item::Step(_)))));
        }
        assert_eq!(assembler.next_item(), Ok(None));
        assert_eq!((assembler.first_load(), assembler.finish().unwrap().records()), (Some(1), 3));
    }

    #[test]
    fn errors_name_the_line_and_the_round() {
        for (text, message) in [
            ("\n\nrepeat r in 0..64 { mac16 m1 z_row=2*r }", "line 3, r = 32: z_row (bits 20..25) is 0 to 63, not 64"),
            ("repeat r in 40..41 {\nmac16 m1\nmac16 m1 z_row=2*r\n}", "line 3, r = 40: z_row (bits 20..25) is 0 to 63, not 80"),
            (
                "repeat r in 0..9 { repeat s in 3..4 {\nmac16 m1 z_row=r-1 } }",
                "line 2, r = 0, s = 3: z_row: r-1 is -1, and must not be below 0",
            ),
            ("repeat s in 0..2 { mac16 m1 } repeat r in 5..6 { raw 14 1 r-6 }", "line 1, r = 5: r-6 is -1, and must not be below 0"),
            ("repeat r in 0..9 { mac16 m1; load x r i8: 1 }", "line 1, r = 8: there is no x 8: x N has N 0 to 7"),
            ("repeat r in 0..9 { mac16 m1; load x r-1 i8: 1 }", "line 1, r = 0: r-1 is -1, and must not be below 0"),
            ("repeat r in 127..129 { mac16 m1; load x 1 i8: 1 r }", "line 1, r = 128: 128 is not an i8 (-128 to 127)"),
            ("repeat r in 0..256 { raw 250+r 1 0 }", "line 1, r = 6: instruction and generation of a record are 0 to 255, not 256 and 1"),
            ("repeat r in 3..5 { vecint m1 mode=r rounding }", "line 1, r = 3: rounding (bit 29) is there only in ALU mode 4"),
            // wrong in every round
            ("repeat r in 0..2 { mac16 m1 shift=32 }", "line 1: shift (bits 55..59) is 0 to 31, not 32"),
            ("repeat r in 0..2 { mac16 m1 z_row = r }", "line 1: expected NAME=VALUE without spaces, not \"=\""),
            (
                "repeat r in 0..0 {\nfms64 m1 z_row=r shift=r\n}",
                "line 2: fms64 has no field \"shift\"; it has skip_x, skip_y, skip_z, vector, x, x_enable_mode, x_enable_value, y, y_enable_mode, y_enable_value, z_row",
            ),
            (
                "repeat r in 0..2 {\nmac16 m1 z_row=q\n}",
                "line 2: z_row: expected a number of 64 bits (12, 0x1f or 0b101), or an expression of r by +, - and *, not \"q\"",
            ),
            (
                "repeat r in 0..2 { repeat s in 0..2 { mac16 m1 } mac16 m1 z_row=s }",
                "line 1: z_row: expected a number of 64 bits (12, 0x1f or 0b101), or an expression of r by +, - and *, not \"s\"",
            ),
            ("repeat r in 0..2 { load x 1 i16: q 1 }", "line 1: expected an i16 (-32768 to 32767, or its pattern, 0x..), not \"q\""),
            ("repeat r in 0..2 { load x 1 i16: 40000 }", "line 1: 40000 is not an i16 (-32768 to 32767)"),
            (
                "repeat r in 0..2 { load x r: 10 }",
                "line 1: load x r: does not say what the numbers are: for bytes in hex write \"load x r hex: 10\", for numbers \"load x r i16: ...\" (i8, i16, i32, u8, u16, u32, f32 or f64)",
            ),
            (
                "repeat r in 0..2 {\nx i8: 1\n}",
                "line 2: lines of a state stand before the first step or load, or right after checkpoint; load x 0 i16: .. loads a register between steps",
            ),
            ("repeat r in 0..2 {\ncheckpoint\n}", "line 2: checkpoint stands in no repeat block"),
        ] {
            assert_eq!(error(text), message, "{text}");
        }
    }

    #[test]
    fn blocks_are_checked() {
        for (text, message) in [
            ("mac16 m1\nrepeat r in 0..2 {\nmac16 m1\n", "line 2: the block of r is not closed: expected }"),
            ("repeat r in 0..2 { mac16 m1 # }", "line 1: the block of r is not closed: expected }"),
            ("mac16 m1\n}", "line 2: there is no repeat block that } would close"),
            ("repeat r in 0..2 { mac16 m1 } }", "line 1: there is no repeat block that } would close"),
            ("repeat r in 0..2\n{ mac16 m1 }", "line 1: expected { after \"repeat r in 0..2\""),
            ("mac16 m1 {", "line 1: expected repeat NAME in A..B {, not \"mac16 m1 {\""),
            ("{ mac16 m1 }", "line 1: expected repeat NAME in A..B {, not \"{\""),
            ("repeat 0..2 { mac16 m1 }", "line 1: expected repeat NAME in A..B {, not \"repeat 0..2 {\""),
            ("repeat r in 64 { mac16 m1 }", "line 1: expected repeat NAME in A..B {, not \"repeat r in 64 {\""),
            ("repeat r in 0..=2 { mac16 m1 }", "line 1: range of r: expected a number of 64 bits (12, 0x1f or 0b101), not \"=2\""),
            ("repeat r in -1..2 { mac16 m1 }", "line 1: range of r: expected a number of 64 bits (12, 0x1f or 0b101), not \"-1\""),
            ("repeat r in 3..2 { mac16 m1 }", "line 1: range of r: expected A..B with A at most B, not 3..2"),
            ("repeat r in 0..2 { repeat r in 0..2 { mac16 m1 } }", "line 1: r is the variable of a block around this one"),
            ("repeat r in 0..2 { }", "line 1: the block of r has no step: each round does at least one"),
            ("repeat r in 0..2 {\nload x 0 i8: r\n}", "line 3: the block of r has no step: each round does at least one"),
            // rounds without steps would have no end
            (
                "repeat r in 0..1000000000000 { repeat s in 0..0 { mac16 m1 } }",
                "line 1: the block of r has no step: each round does at least one",
            ),
            ("repeat 2r in 0..2 { mac16 m1 }", "line 1: expected a name of letters, digits and _ that begins with no digit, not \"2r\""),
            ("repeat r-s in 0..2 { mac16 m1 }", "line 1: expected a name of letters, digits and _ that begins with no digit, not \"r-s\""),
            ("repeat é in 0..2 { mac16 m1 }", "line 1: expected a name of letters, digits and _ that begins with no digit, not \"é\""),
        ] {
            assert_eq!(error(text), message, "{text}");
        }
        let names =
            ["x", "y", "z", "z_row", "x_offset", "mode", "alu_mode", "broadcast_mode", "vector", "raw", "load", "repeat", "checkpoint"];
        for name in names.into_iter().chain(["count", "in", "bits", "hex", "i16", "f64", "nan", "inf", "m1", "mac16", "vecfp"]) {
            let message = format!("line 1: {name} has a meaning of its own: a variable goes by another name, say r");
            assert_eq!(error(&format!("repeat {name} in 0..2 {{ mac16 m1 }}")), message);
        }
        let line = format!("mac16 m1 z_row=r # {}\n", "a comment".repeat(20));
        let held = MAX_BLOCK / line.find('#').unwrap();
        assert_eq!(assemble(&format!("repeat r in 0..1 {{\n{}}}", line.repeat(held))).unwrap().records().len(), held);
        let long = error(&format!("repeat r in 0..1 {{\n{}}}", line.repeat(held + 1)));
        assert_eq!(long, format!("line {}: a repeat block has at most 262,144 bytes of text", held + 2));
    }

    #[test]
    fn a_million_steps_are_expanded_one_by_one() {
        let mut program = Program::default();
        program.open(1, "repeat q in 0..15625").unwrap();
        program.open(1, "repeat r in 0..64").unwrap();
        let step = Step::parse("mac16 m1 vector z_row=r", program.variables()).unwrap();
        program.push_step(1, step).unwrap();
        assert!(program.count(1));
        let inner = program.close().unwrap();
        assert!(program.count(inner));
        assert_eq!((program.close(), program.next().is_ok_and(|item| item.is_some())), (Ok(1_000_000), true));
        for taken in 1..1_000_000 {
            let record = Record { instruction: 14, generation: 1, operand: 1 << 63 | (taken % 64) << 20 };
            assert!(program.next() == Ok(Some(Item::Step(record))) && program.parts.len() == 5, "{taken}");
        }
        assert_eq!((program.next(), program.parts.len()), (Ok(None), 0));
    }

    #[test]
    fn a_block_makes_no_more_steps_than_a_trace_holds() {
        let mut assembler = Assembler::new();
        assembler.line("repeat q in 0..15625 { repeat r in 0..64 { mac16 m1 vector z_row=r } }").unwrap();
        assert_eq!(assembler.header().records(), Trace::MAX_RECORDS);
        for (rounds, told) in [("1000000", "1,000,000"), ("18446744073709551615", "18,446,744,073,709,551,615")] {
            let message = format!("line 2: a trace holds at most 1,000,000 steps, and this block makes {told} after 1");
            assert_eq!(error(&format!("mac16 m1\nrepeat r in 0..{rounds} {{ mac16 m1 z_row=r }}")), message);
        }
        let nested = "repeat q in 0..18446744073709551615 { repeat r in 0..18446744073709551615 { mac16 m1; mac16 m1 } }";
        assert!(error(nested).starts_with("line 1: a trace holds at most 1,000,000 steps, and this block makes "));
    }
}
