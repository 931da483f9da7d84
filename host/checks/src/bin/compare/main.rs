//! The proved unit against the reference, on swept and random inputs.
mod case;
mod counts;
mod cuts;
mod floats;
mod long;
mod sent;
mod steps;
mod swaps;
mod tally;
mod traces;

use crate::tally::Tally;
use amx::{random::Random, reference, text::parse_number};
use std::{
    path::{Path, PathBuf},
    process::ExitCode,
    time::Instant,
};

const HELP: &str = "\
compare [OPTIONS]: the proved unit against the reference
  --seed N          what is drawn, the same for the same number (1)
  --steps N         random steps (400000); floats, sequences, normal operands, swaps and traces follow it
  --trace PROGRAM   the trace program (../target/bin/amx_trace)
  --need-trace      it is an error where the trace program is not there
A difference ends it with status 1, and with the smallest case found; so does an answer or a kind of
file that was not met.";

struct Options {
    seed: u64,
    steps: u64,
    trace: PathBuf,
    need_trace: bool,
}

fn options() -> Result<Option<Options>, String> {
    let trace = PathBuf::from(env!("CARGO_MANIFEST_DIR")).join("../../target/bin/amx_trace");
    let mut options = Options { seed: 1, steps: 400_000, trace, need_trace: false };
    let mut arguments = std::env::args().skip(1);
    let number = |word: &str| parse_number(word).map_err(|error| error.to_string());
    while let Some(argument) = arguments.next() {
        let mut value = || arguments.next().ok_or(format!("{argument} needs a value"));
        match argument.as_str() {
            "--help" | "-h" => return Ok(None),
            "--seed" => options.seed = number(&value()?)?,
            "--steps" => options.steps = number(&value()?)?,
            "--trace" => options.trace = value()?.into(),
            "--need-trace" => options.need_trace = true,
            other => return Err(format!("there is no option {other}\n{HELP}")),
        }
    }
    Ok(Some(options))
}

fn compare(options: &Options) -> Result<(), String> {
    let start = Instant::now();
    let Options { seed, steps, .. } = *options;
    println!("seed {seed}");
    // a seed of its own for each part, so that one does not depend on the others' lengths
    let random = |part| Random::new(seed.wrapping_mul(16) + part);
    single_steps(random, steps)?;
    float_steps(random, steps)?;
    lists(random, steps)?;
    files(random, steps)?;
    if options.trace.is_file() {
        trace_program(&options.trace, random, steps)?;
    } else if options.need_trace {
        return Err(format!("there is no trace program {}\n", options.trace.display()));
    } else {
        println!("note: trace program skipped, there is no {}", options.trace.display());
    }
    println!("no difference, {:.1} s", start.elapsed().as_secs_f64());
    Ok(())
}

/// Steps of all instructions, each from a state of its own.
fn single_steps(random: impl Fn(u64) -> Random, steps: u64) -> Result<(), String> {
    let counts = counts::every(case::proved)?;
    println!("{counts} steps, every enable mode, value and lane width: as many bytes counted as a walk over Z finds in enabled lanes");
    let mut tally = Tally::default();
    let beside = steps::table(case::proved, &mut random(7), &mut tally)?;
    println!("{beside} steps, the rows of the table beside each other: same bytes, same answers ({})", tally.text());
    let mut tally = Tally::default();
    let swept = steps::swept(&mut random(0), &mut tally)?;
    println!("{swept} swept steps: same bytes, same answers ({})", tally.text());
    let mut tally = Tally::default();
    let drawn = steps::random(&mut random(1), steps, &mut tally)?;
    println!("{drawn} random steps: same bytes, same answers ({})", tally.text());
    Ok(())
}

/// Operations on floats, and steps of them.
fn float_steps(random: impl Fn(u64) -> Random, steps: u64) -> Result<(), String> {
    let operations = floats::rounding(&floats::IN_WHOLE_NUMBERS, &mut random(11), steps)?;
    println!("{operations} sums, differences and products: the reference's, in whole numbers, are the processor's");
    let mut tally = Tally::default();
    let special = floats::special(case::proved, &mut tally)?;
    println!(
        "{special} steps, every pair of special floats through every mode and form: same bytes, same answers ({} kinds of results)",
        tally.names()
    );
    let (floats, [vecfp, fms64]) = floats::random(&mut random(12), steps / 2)?;
    println!("{floats} random steps on floats: same bytes, same answers (vecfp: {}; fms64: {})", vecfp.text(), fms64.text());
    Ok(())
}

/// Steps one after the other, normal operands, and steps that are swapped.
fn lists(random: impl Fn(u64) -> Random, steps: u64) -> Result<(), String> {
    let lists = steps / 400;
    let (sequences, again) = steps::sequences(&mut random(2), lists)?;
    println!(
        "{sequences} steps in {lists} sequences: same bytes at their ends, same answers; \
         the {again} sent with a serial that was used up change no byte"
    );
    let normals = steps / 4;
    let tally = steps::normals(&mut random(3), normals)?;
    println!("{normals} normal operands: the reference's, same effect and answer with any serial, normal themselves ({})", tally.text());
    let swaps = swaps::chains(&mut random(4), steps / 40)?;
    println!(
        "{} chains of {} allowed swaps ({} apart, {} adding to shared bytes): same bytes, same answers; \
         of {} pairs not allowed by their lanes {} differ when swapped, of {} among them that add floats {}, \
         and of {} not allowed by the count {}",
        swaps.chains,
        swaps.apart + swaps.adding,
        swaps.apart,
        swaps.adding,
        swaps.not_allowed,
        swaps.not_allowed_differ,
        swaps.floats,
        swaps.floats_differ,
        swaps.no_room,
        swaps.no_room_differ
    );
    Ok(())
}

/// Checkpoints, trace files, and such files cut in two.
fn files(random: impl Fn(u64) -> Random, steps: u64) -> Result<(), String> {
    let checkpoints = cuts::checkpoints(cuts::proved_checkpoint, &mut random(8))?;
    println!("{checkpoints} checkpoints, of states and rooms of any length: the reference's bytes and answers");
    let (files, tally) = traces::reader(&mut random(5), steps / 200)?;
    println!(
        "{files} trace files of two sections and three, sound and damaged: this crate reads them as the reference does, \
         and runs end at the count of steps taken ({})",
        tally.text()
    );
    let texts: [(&str, traces::Text); 2] = [("this crate", &traces::read_text), ("the reference", &reference::trace)];
    let (cut, tally) = cuts::cuts(cuts::proved_cut, &mut random(9), steps / 1_000, &texts)?;
    println!("{cut} cuts of traces: the reference's files, and the lines of both parts are those of the whole ({})", tally.text());
    Ok(())
}

/// The trace program on short files and cut ones, and with this crate on long ones.
fn trace_program(program: &Path, random: impl Fn(u64) -> Random, steps: u64) -> Result<(), String> {
    let program = traces::Program::new(program)?;
    let (files, _) = program.compare(&mut random(6), steps / 1_000)?;
    println!("{files} trace files of two sections and three, sound and damaged: the trace program prints the reference's text");
    let text = |file: &[u8]| program.text(file);
    let (cut, _) = cuts::cuts(cuts::proved_cut, &mut random(10), steps / 4_000, &[("the trace program", &text)])?;
    println!("{cut} cuts of traces: the trace program goes on with them");
    let both: [(&str, traces::Text); 2] = [("this crate", &traces::read_text), ("the trace program", &text)];
    let (files, tally) = long::files(&mut random(13), &both)?;
    println!(
        "{files} trace files of one run of steps to three, damaged at their edges: both print the reference's text ({})",
        tally.text()
    );
    let files = long::most(&mut random(14), &both)?;
    println!("{files} trace files of a million steps and one more: both print the reference's text");
    let files = long::pipes(&program, &mut random(15))?;
    println!("{files} trace files from a pipe, a few bytes at a time: the trace program prints the reference's text");
    Ok(())
}

fn main() -> ExitCode {
    let compared = options().and_then(|options| match options {
        Some(options) => compare(&options),
        None => {
            println!("{HELP}");
            Ok(())
        }
    });
    match compared {
        Ok(()) => ExitCode::SUCCESS,
        Err(error) => {
            eprintln!("{}", error.trim_end());
            ExitCode::FAILURE
        }
    }
}
