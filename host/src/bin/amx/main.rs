//! The command `amx`: steps as text, trace files, and operands explained.
mod arguments;
mod diff;
mod failure;
mod input;
mod json;
mod lane;
mod output;
mod picture;
mod progress;
mod run;
mod summary;
mod traces;
mod why;

use crate::{
    arguments::{Arguments, Options},
    failure::{Failure, Status},
};
use amx::{Call, UNIT_NOTE, explain, lane_grid, text::StepError, words::counted};
use std::{
    env,
    io::{self, Write},
    process::ExitCode,
};

const HELP: &str = include_str!("help.txt");

/// A command, with its options and what does it.
type Command = (&'static str, Options, fn(&Arguments) -> Result<Status, Failure>);

const COMMANDS: [Command; 9] = [
    ("run", run::OPTIONS, run::run),
    ("why", why::OPTIONS, why::why),
    ("diff", diff::OPTIONS, diff::diff),
    ("picture", picture::OPTIONS, picture::picture),
    ("asm", traces::ASM, traces::assemble),
    ("dis", traces::DIS, traces::disassemble),
    ("cut", traces::CUT, traces::cut),
    ("explain", Options { usage: "explain INSTRUCTION GENERATION OPERAND, or a step as in a text", alone: &[], valued: &[] }, explain_step),
    ("lanes", Options { usage: "lanes INSTRUCTION GENERATION OPERAND, or a step as in a text", alone: &[], valued: &[] }, show_lanes),
];

fn main() -> ExitCode {
    let words: Result<Vec<String>, _> = env::args_os().skip(1).map(|word| word.into_string()).collect();
    let done = words.map_err(|word| Failure::Usage(format!("{word:?} is not UTF-8"))).and_then(|words| command(&words));
    match done {
        Ok(status) => status.into(),
        Err(failure) => {
            if !failure.is_silent() {
                // a standard error that takes no more changes no status
                let _ = writeln!(io::stderr(), "amx: {failure}");
            }
            failure.status().into()
        }
    }
}

fn command(words: &[String]) -> Result<Status, Failure> {
    let names = || COMMANDS.iter().map(|(name, ..)| *name).collect::<Vec<_>>().join(", ");
    let asks = |names: &[&str]| words.iter().take_while(|&word| word != "--").any(|word| names.contains(&word.as_str()));
    if asks(&["--help", "-h"]) {
        return print(HELP);
    }
    if asks(&["--version", "-V"]) {
        writeln!(io::stdout(), "amx {} ({})", env!("CARGO_PKG_VERSION"), UNIT_NOTE.unwrap_or("the proved unit"))?;
        return Ok(Status::Ran);
    }
    let Some((first, words)) = words.split_first() else {
        return Err(Failure::Usage(format!("expected a command: {}\n\n{HELP}", names())));
    };
    let Some((_, options, run)) = COMMANDS.iter().find(|(name, ..)| name == first) else {
        return Err(Failure::Usage(format!("expected a command ({}), not {first:?}; amx --help tells more", names())));
    };
    if let Some(note) = UNIT_NOTE {
        let _ = writeln!(io::stderr(), "amx: {note}");
    }
    run(&Arguments::parse(words, options)?)
}

fn explain_step(arguments: &Arguments) -> Result<Status, Failure> {
    let explanation = explain(step(arguments)?).map_err(|refusal| Failure::Usage(format!("{refusal:#}")))?;
    print(&explanation.to_string())
}

fn show_lanes(arguments: &Arguments) -> Result<Status, Failure> {
    print(&lane_grid(step(arguments)?))
}

fn print(text: &str) -> Result<Status, Failure> {
    let mut output = output::lines()?;
    output.write_all(text.as_bytes())?;
    output.flush()?;
    Ok(Status::Ran)
}

/// Three numbers, or the words of a step.
fn step(arguments: &Arguments) -> Result<Call, Failure> {
    let line = arguments.all().join(" ");
    let numbers = line.starts_with(|first: char| first.is_ascii_digit());
    let call = match line.as_str() {
        "" => return Err(arguments.wrong("0 words given")),
        _ if numbers => format!("raw {line}").parse(),
        _ => line.parse(),
    };
    call.map_err(|error| match error {
        StepError::Raw(words) if numbers => arguments.wrong(&format!("{} given", counted(words as u64, "number"))),
        error => arguments.wrong(&error.to_string()),
    })
}

#[cfg(test)]
mod tests {
    use super::*;

    #[test]
    fn help_has_every_command_and_option_and_fits_a_terminal() {
        for (name, options, _) in &COMMANDS {
            assert!(HELP.lines().any(|line| line.starts_with(&format!("  amx {name} "))), "{name}");
            for option in options.alone.iter().chain(options.valued) {
                assert!(HELP.contains(option), "{option}");
            }
        }
        let widest = HELP.lines().map(|line| line.chars().count()).max();
        assert!(widest.is_some_and(|columns| columns <= 140), "{widest:?}");
    }
}
