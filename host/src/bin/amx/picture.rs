//! `amx picture`: a run as a page to look at, Z step by step.
use crate::{
    arguments::{Arguments, Options},
    failure::{Failure, Status},
    input::Steps,
    json,
    output::{self, Output},
    summary::Summary,
};
use amx::{
    Answer, Call, Record, Register, Run, State, TraceHeader, UNIT_NOTE, reference,
    text::{Item, Load},
    words::{counted, grouped},
};
use std::{
    io::{self, Write},
    iter,
    ops::Range,
};

pub const OPTIONS: Options =
    Options { usage: "picture FILE [--from K] -o PAGE, FILE a trace or a text", alone: &[], valued: &["--from", "-o"] };

/// The page but for what comes from the file and the build: `{{file}}`, `{{data}}` and other places stand where that goes.
const TEMPLATE: &str = include_str!("picture.html");

/// The most steps of a page. Where each changes all of Z, it has 12 MB.
const MOST: usize = 2_048;

pub fn picture(arguments: &Arguments) -> Result<Status, Failure> {
    let ([file], page) = (arguments.places()?, arguments.needed("-o")?);
    let from = arguments.number("--from")?.unwrap_or(0);
    let steps = Steps::open(file)?;
    let (name, shown) = (steps.name.clone(), shown(&steps.header, from)?);
    let mut output = Output::create(page, steps.identity.as_slice())?;
    let picture = Picture::take(steps, shown)?;
    output.write_all(picture.page(&name).as_bytes()).map_err(output::failed(page))?;
    output.finish()?.commit()?;
    if let Some(note) = picture.note() {
        // a standard error that takes no more stops nothing
        let _ = writeln!(io::stderr(), "{name}: {note}");
    }
    Ok(Status::Ran)
}

/// The places of the steps that a page shows: those from a place on that are not consumed, and no more than fit.
fn shown(header: &TraceHeader, from: u64) -> Result<Range<usize>, Failure> {
    let records = header.records();
    let first = usize::try_from(from).unwrap_or(usize::MAX);
    if first > 0 && first >= records {
        return Err(Failure::Usage(format!("--from: there is no step {from}, the file has {} from 0 on", grouped(records as u64))));
    }
    let first = first.max(header.consumed());
    Ok(first..records.min(first + MOST))
}

/// What a page shows.
struct Picture {
    /// The starting state, which rows are compared with, and the one before the first item.
    start: State,
    before: State,
    /// The steps shown, by their places.
    shown: Range<usize>,
    /// These steps and the loads between them, in JSON.
    items: Vec<String>,
    /// The place of the next step, and the loads right before it: the state that they found, and their registers.
    place: usize,
    loads: Option<(State, Vec<Register>)>,
    /// What came of all steps, shown or not.
    summary: Summary,
    consumed: usize,
    records: usize,
}

impl Picture {
    /// Runs all steps, those that are not shown too: a file that is refused has no page.
    fn take(steps: Steps, shown: Range<usize>) -> Result<Self, Failure> {
        let mut run = Run::new(&steps.header);
        let mut picture = Picture::new(&steps.header, shown);
        for item in steps.shown(false) {
            match item? {
                Item::Step(record) => picture.step(&mut run, record),
                Item::Load(load) => picture.load(&mut run, &load),
            }
        }
        picture.end_loads(run.state());
        Ok(picture)
    }

    fn new(header: &TraceHeader, shown: Range<usize>) -> Self {
        let (consumed, records) = (header.consumed(), header.records());
        let (start, before) = (header.start().clone(), header.state().clone());
        Picture { start, before, shown, items: Vec::new(), place: 0, loads: None, summary: Summary::new(consumed), consumed, records }
    }

    fn step(&mut self, run: &mut Run, record: Record) {
        self.end_loads(run.state());
        let before = self.shown.contains(&self.place).then(|| run.state().clone());
        self.place += 1;
        let Some((place, answer)) = run.take(record) else { return };
        self.summary.add(place, answer);
        if let Some(before) = before {
            self.push(&step_json(place, record.into(), answer), before, run.state());
        }
    }

    /// Loads one after the other are one item. Those behind the last step are shown with it.
    fn load(&mut self, run: &mut Run, load: &Load) {
        if self.shown.contains(&self.place) || self.place == self.shown.end && self.place == self.records {
            let (_, registers) = self.loads.get_or_insert_with(|| (run.state().clone(), Vec::new()));
            if !registers.contains(&load.register) {
                registers.push(load.register);
            }
        }
        run.load(load);
    }

    fn end_loads(&mut self, after: &State) {
        if let Some((before, registers)) = self.loads.take() {
            self.push(&load_json(&registers), before, after);
        }
    }

    /// Adds an item: its own fields, and what it changes.
    fn push(&mut self, fields: &str, before: State, after: &State) {
        self.items.push(format!("{{{fields},\"changes\":\"{}\"}}", base64(&changes(&before, after))));
        if self.items.len() == 1 {
            self.before = before;
        }
    }

    /// What is to be known of a page that has not all steps.
    fn note(&self) -> Option<String> {
        let Range { start, end } = self.shown;
        let [first, last, all] = [start, end.saturating_sub(1), self.records].map(|number| grouped(number as u64));
        let steps =
            if first == last { format!("step {first} of {all} is shown") } else { format!("steps {first} to {last} of {all} are shown") };
        let next = if end < self.records { format!("; --from {end} shows the next") } else { String::new() };
        (start > self.consumed || end < self.records).then(|| steps + &next)
    }

    /// The page. What is inserted is not searched for places in turn.
    fn page(&self, file: &str) -> String {
        let mut pieces = TEMPLATE.split("{{");
        let mut page = pieces.next().unwrap_or_default().to_owned();
        for piece in pieces {
            let (place, rest) = piece.split_once("}}").expect("a place in the template ends");
            page += &match place {
                "file" => html(file),
                "words" => html(&self.summary.to_string()),
                "unit" => UNIT_NOTE.unwrap_or("the proved unit").to_owned(),
                "version" => env!("CARGO_PKG_VERSION").to_owned(),
                _ => self.json(),
            };
            page += rest;
        }
        page
    }

    fn json(&self) -> String {
        let part = self.note().map(|note| format!("{note}; the totals are of all steps"));
        let notes: Vec<String> = UNIT_NOTE.into_iter().chain(part.as_deref()).map(json::string).collect();
        format!(
            "{{\"summary\":{{{}}},\n\"words\":{},\n\"notes\":[{}],\n\"start\":\"{}\",\n\"before\":\"{}\",\n\"items\":[\n{}\n]}}",
            self.summary.json(),
            json::string(&self.summary.to_string()),
            notes.join(","),
            base64(self.start.registers()),
            base64(&changes(&self.start, &self.before)),
            self.items.join(",\n")
        )
    }
}

/// The fields of a step. Which lanes it enables is told where it enables any.
fn step_json(place: usize, call: Call, answer: Answer) -> String {
    let kind = match answer {
        Answer::Done { .. } => "done",
        Answer::NoOp(_) => "no-op",
        Answer::Refused(_) => "refused",
    };
    format!(
        "\"kind\":\"step\",\"number\":{place},\"text\":{},\"answer\":\"{kind}\",\"words\":{}{}",
        json::string(&call.to_string()),
        json::string(&format!("{answer:#}")),
        if answer.is_done() { lanes_json(call) } else { String::new() }
    )
}

/// The fields of loads.
fn load_json(registers: &[Register]) -> String {
    let names: Vec<String> = registers.iter().map(Register::to_string).collect();
    let words = format!("{} loaded", counted(registers.len() as u64, "register"));
    format!("\"kind\":\"load\",\"text\":\"load {}\",\"words\":\"{words}\"", names.join(", "))
}

/// How the enabled lanes are read, and which they are: the lanes that rows have in common, and these rows, each as bits in hex.
fn lanes_json(call: Call) -> String {
    let lanes = reference::lanes(call.instruction, call.generation, call.operand);
    let Some(bytes) = lanes.first().map(|lane| lane.bytes) else { return String::new() };
    let is_float = matches!(call.instruction, 11 | 19);
    let mut rows = [0u64; 64];
    lanes.iter().for_each(|lane| rows[lane.row] |= 1 << lane.lane);
    let mut groups: Vec<(u64, u64)> = Vec::new();
    for (row, &mask) in rows.iter().enumerate().filter(|&(_, &mask)| mask != 0) {
        match groups.iter_mut().find(|group| group.0 == mask) {
            Some((_, rows)) => *rows |= 1 << row,
            None => groups.push((mask, 1 << row)),
        }
    }
    let groups: Vec<String> = groups.iter().map(|(lanes, rows)| format!("[\"{lanes:x}\",\"{rows:x}\"]")).collect();
    format!(",\"reading\":\"{}{}\",\"enabled\":[{}]", if is_float { 'f' } else { 'i' }, 8 * bytes, groups.join(","))
}

/// The bytes of a run's place and length, each a u16, before the run's own bytes.
const RUN_HEAD: usize = 4;

/// The registers' bytes that differ, as runs: the place of the first, how many there are, and the new bytes. Those between two runs are
/// repeated where this is no longer than to begin another.
fn changes(before: &State, after: &State) -> Vec<u8> {
    let (before, after) = (before.registers(), after.registers());
    let mut runs: Vec<Range<usize>> = Vec::new();
    for at in (0..after.len()).filter(|&at| before[at] != after[at]) {
        match runs.last_mut() {
            Some(run) if at - run.end <= RUN_HEAD => run.end = at + 1,
            _ => runs.push(at..at + 1),
        }
    }
    let number = |number: usize| (number as u16).to_le_bytes();
    runs.into_iter().flat_map(|run| [&number(run.start)[..], &number(run.len()), &after[run]].concat()).collect()
}

fn base64(bytes: &[u8]) -> String {
    const DIGITS: &[u8; 64] = b"ABCDEFGHIJKLMNOPQRSTUVWXYZabcdefghijklmnopqrstuvwxyz0123456789+/";
    let mut text = String::with_capacity(bytes.len().div_ceil(3) * 4);
    for three in bytes.chunks(3) {
        let number = (0..3).fold(0, |number, at| number << 8 | usize::from(three.get(at).copied().unwrap_or(0)));
        let digits = (0..=three.len()).map(|at| char::from(DIGITS[number >> (18 - 6 * at) & 63]));
        text.extend(digits.chain(iter::repeat_n('=', 3 - three.len())));
    }
    text
}

/// A text that may stand in a page, also between quotes.
fn html(text: &str) -> String {
    let mut page = String::new();
    for letter in text.chars() {
        match letter {
            '&' => page += "&amp;",
            '<' => page += "&lt;",
            '>' => page += "&gt;",
            '"' => page += "&quot;",
            '\'' => page += "&#39;",
            _ => page.push(letter),
        }
    }
    page
}

#[cfg(test)]
mod tests {
    use super::*;

    #[test]
    fn bytes_are_written_in_base64() {
        for (bytes, text) in [("", ""), ("f", "Zg=="), ("fo", "Zm8="), ("foo", "Zm9v"), ("foob", "Zm9vYg=="), ("\u{ff}", "w78=")] {
            assert_eq!(base64(bytes.as_bytes()), text);
        }
    }

    #[test]
    fn what_a_page_would_take_for_its_own_is_escaped() {
        assert_eq!(html("a<b>&\"'{{data}}"), "a&lt;b&gt;&amp;&quot;&#39;{{data}}");
    }

    #[test]
    fn changes_are_runs_and_close_ones_are_joined() {
        let (before, mut after) = (State::new(), State::new());
        assert_eq!(changes(&before, &after), []);
        let z = Register::Z(0).start();
        for at in [z, z + 5, z + 11, z + 4_095] {
            after.bytes_mut()[at] = 9;
        }
        after.set_count(7);
        let runs = [[0, 4, 6, 0, 9, 0, 0, 0, 0, 9].as_slice(), &[11, 4, 1, 0, 9], &[255, 19, 1, 0, 9]].concat();
        assert_eq!(changes(&before, &after), runs);
    }

    #[test]
    fn lanes_are_told_by_the_rows_that_share_them() {
        for (step, lanes) in [
            ("mac16 m1", ",\"reading\":\"i16\",\"enabled\":[[\"ffffffff\",\"5555555555555555\"]]"),
            ("vecint m1 widths=3 enable_mode=2 enable_value=5 z_row=3", ",\"reading\":\"i32\",\"enabled\":[[\"7\",\"4\"],[\"3\",\"8\"]]"),
            ("vecint m1 mode=4 widths=9 z_row=63", ",\"reading\":\"i8\",\"enabled\":[[\"ffffffffffffffff\",\"8000000000000000\"]]"),
            ("vecfp m1 mode=4 widths=4", ",\"reading\":\"f32\",\"enabled\":[[\"ffff\",\"1\"]]"),
            ("fms64 m1 skip_y z_row=9", ",\"reading\":\"f64\",\"enabled\":[[\"ff\",\"202020202020202\"]]"),
            ("vecint m1 enable_mode=6", ""),
        ] {
            assert_eq!(lanes_json(step.parse().unwrap()), lanes, "{step}");
        }
    }
}
