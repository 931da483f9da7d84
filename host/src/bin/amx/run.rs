//! `amx run`: the lines of a run, and what came of it.
use crate::{
    arguments::{Arguments, Options},
    failure::{Failure, Status},
    input::{Steps, called},
    json, output,
    summary::{Summary, fault_json},
};
use amx::{
    LaneType, Register, Run, State, UNIT_NOTE, Width,
    text::{Item, print_register},
};
use std::io::{self, BufWriter, Write};

pub const OPTIONS: Options = Options {
    usage: "run FILE [--as TYPE | --matrix] [--strict] [--summary | --json]",
    alone: &["--matrix", "--strict", "--summary", "--json"],
    valued: &["--as"],
};

/// What is printed on standard output.
#[derive(Clone, Copy, PartialEq, Eq)]
enum Form {
    /// A line for each step and each row that changed, as the trace program has them; the summary goes to standard error.
    Lines,
    Summary,
    /// Also of what cannot be run.
    Json,
}

impl Form {
    fn of(arguments: &Arguments) -> Result<Self, Failure> {
        match (arguments.is_given("--summary"), arguments.is_given("--json")) {
            (true, true) => Err(arguments.wrong("--summary and --json are both given")),
            (true, false) if arguments.is_given("--as") || arguments.is_given("--matrix") => {
                Err(arguments.wrong("--summary prints no rows, which --as and --matrix are about"))
            }
            (true, false) => Ok(Form::Summary),
            (false, true) => Ok(Form::Json),
            (false, false) => Ok(Form::Lines),
        }
    }

    /// Whether standard output has something to say of a run that ended so.
    fn tells(self, failure: &Failure) -> bool {
        match failure {
            Failure::Refused(..) => true,
            Failure::File(..) | Failure::Text(..) => self == Form::Json,
            Failure::Usage(_) | Failure::Output(_) => false,
        }
    }
}

pub fn run(arguments: &Arguments) -> Result<Status, Failure> {
    let ([file], rows, form) = (arguments.places()?, Rows::of(arguments)?, Form::of(arguments)?);
    let steps = match Steps::open(file) {
        Err(failure) if !form.tells(&failure) => return Err(failure),
        steps => steps,
    };
    let mut output = if form == Form::Json { BufWriter::new(io::stdout().lock()) } else { output::lines()? };
    let mut ran = Ran::default();
    let failure = match steps.and_then(|steps| ran.take(steps, form, &mut output)) {
        Err(failure) if !form.tells(&failure) => return Err(failure),
        taken => taken.err(),
    };
    match form {
        Form::Lines => ran.write_rows(failure.as_ref(), rows, &mut output)?,
        Form::Summary => write!(output, "{}", ran.summary)?,
        Form::Json => writeln!(output, "{}", ran.json(file, failure.as_ref(), rows))?,
    }
    output.flush()?;
    if form == Form::Lines {
        // a standard error that takes no more stops nothing
        let _ = write!(io::stderr(), "{}: {}", called(file), ran.summary);
    }
    match failure {
        Some(failure) => Err(failure),
        None if arguments.is_given("--strict") && ran.summary.has_others() => Ok(Status::Strict),
        None => Ok(Status::Ran),
    }
}

/// How rows of Z are told.
#[derive(Clone, Copy, PartialEq, Eq)]
enum Rows {
    /// As the trace program tells them.
    Hex,
    Lanes(LaneType),
    /// The product of a matrix with 32-bit lanes, which lies in two rows for each lane of Y, as one row.
    Matrix,
}

impl Rows {
    fn of(arguments: &Arguments) -> Result<Self, Failure> {
        match (arguments.lane_type()?, arguments.is_given("--matrix")) {
            (Some(_), true) => Err(arguments.wrong("--as and --matrix are both given; a matrix is i32")),
            (None, true) => Ok(Rows::Matrix),
            (Some(lane_type), false) => Ok(Rows::Lanes(lane_type)),
            (None, false) => Ok(Rows::Hex),
        }
    }
}

/// The product that a matrix step with 32-bit lanes adds to: that of lane i of X and lane j of Y is in row 2j + i mod 2, lane i div 2.
fn matrix(state: &State) -> Vec<Vec<i32>> {
    let number = |i: usize, j: usize| state.signed_lane(Register::Z(2 * j + i % 2), i / 2, Width::Bits32);
    (0..32).map(|j| (0..32).map(|i| number(i, j)).collect()).collect()
}

/// A line for each lane of Y, in columns.
fn write_matrix(state: &State, output: &mut impl Write) -> io::Result<()> {
    let matrix = matrix(state);
    let width = matrix.iter().flatten().map(|number| number.to_string().len()).max().unwrap_or(0);
    writeln!(output, "matrix: lane j of Y in line j, lanes 0 to 31 of X from left to right, i32")?;
    for (j, line) in matrix.iter().enumerate() {
        let numbers: String = line.iter().map(|number| format!(" {number:>width$}")).collect();
        writeln!(output, "{j:>2}:{numbers}")?;
    }
    Ok(())
}

/// A run, as far as it went.
#[derive(Default)]
struct Ran {
    summary: Summary,
    /// None where the file was refused before any step.
    run: Option<Run>,
    records: usize,
}

impl Ran {
    /// Runs the steps, with a line for each.
    fn take(&mut self, steps: Steps, form: Form, output: &mut impl Write) -> Result<(), Failure> {
        self.summary = Summary::new(steps.header.consumed());
        self.records = steps.header.records();
        let run = self.run.insert(Run::new(&steps.header));
        for item in steps.shown(form == Form::Lines) {
            let taken = match item? {
                Item::Step(record) => run.take(record),
                Item::Load(load) => {
                    run.load(&load);
                    None
                }
            };
            if let Some((place, answer)) = taken {
                self.summary.add(place, answer);
                if form == Form::Lines {
                    writeln!(output, "step {place} {answer}")?;
                }
            }
        }
        Ok(())
    }

    /// The lines behind those of the steps: the rows that changed and the number of steps, or the refusal.
    fn write_rows(&self, failure: Option<&Failure>, rows: Rows, output: &mut impl Write) -> io::Result<()> {
        if let Some(fault) = failure.and_then(Failure::fault) {
            return writeln!(output, "{fault}");
        }
        let Some(run) = &self.run else { return Ok(()) };
        let state = run.state();
        match rows {
            Rows::Hex => run.changed_rows().try_for_each(|row| writeln!(output, "z {row} {}", state.hex_row(Register::Z(row))))?,
            Rows::Lanes(lane_type) => {
                let line = |row| print_register(Register::Z(row), state.row(Register::Z(row)), Some(lane_type));
                run.changed_rows().try_for_each(|row| writeln!(output, "{}", line(row)))?;
            }
            Rows::Matrix => write_matrix(state, output)?,
        }
        writeln!(output, "steps {}", self.records)
    }

    fn json(&self, file: &str, failure: Option<&Failure>, rows: Rows) -> String {
        let told = match (&self.run, failure) {
            (Some(run), None) => rows_json(run, rows),
            _ => "\"rows\":[]".to_owned(),
        };
        format!(
            "{{\"unit\":{},\"file\":{},{},{told},\"file_refused\":{},\"error\":{}}}",
            json::string(UNIT_NOTE.unwrap_or("the proved unit")),
            json::string(file),
            self.summary.json(),
            fault_json(failure.and_then(Failure::fault)),
            failure.map_or("null".to_owned(), Failure::json)
        )
    }
}

/// The rows that changed, or the matrix, as a field of a JSON object.
fn rows_json(run: &Run, rows: Rows) -> String {
    let list = |items: Vec<String>| format!("[{}]", items.join(","));
    let state = run.state();
    let row = |row: usize| match rows {
        Rows::Lanes(lane_type) => {
            let lanes = state.row(Register::Z(row)).chunks(lane_type.bytes()).map(|lane| lane_type.print(lane));
            // JSON has no infinities and no patterns
            let float = matches!(lane_type, LaneType::F32 | LaneType::F64);
            let lanes = lanes.map(|number| if float { json::string(&number) } else { number }).collect();
            format!("{{\"row\":{row},\"{lane_type}\":{}}}", list(lanes))
        }
        _ => format!("{{\"row\":{row},\"hex\":\"{}\"}}", state.hex_row(Register::Z(row))),
    };
    match rows {
        Rows::Matrix => {
            let lines = matrix(state).iter().map(|line| list(line.iter().map(i32::to_string).collect())).collect();
            format!("\"matrix\":{}", list(lines))
        }
        _ => format!("\"rows\":{}", list(run.changed_rows().map(row).collect())),
    }
}
