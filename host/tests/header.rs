//! include/amx.h: its constants are this crate's numbers, and C and C++ that uses them links the proved unit.
use amx::{Answer, CHECKPOINT_LENGTH, Generation, Instruction, REGISTER_BYTES, STATE_LENGTH};
use std::{collections::BTreeMap, fs, path::PathBuf};

type Numbers = BTreeMap<String, u64>;

fn include() -> PathBuf {
    PathBuf::from(env!("CARGO_MANIFEST_DIR")).join("../include")
}

/// The constants that a header defines: numbers, and sums of them and of constants above.
fn defined(header: &str) -> Numbers {
    let mut numbers = Numbers::new();
    let definitions = header.lines().filter_map(|line| line.strip_prefix("#define ")?.split_once(' '));
    for (name, definition) in definitions.filter(|(name, _)| !name.contains('(')) {
        let sum = definition.split("//").next().unwrap().trim().trim_matches(['(', ')']);
        let number = sum.split(" + ").map(|term| term.parse().ok().or_else(|| numbers.get(term).copied())).sum::<Option<u64>>();
        let number = number.unwrap_or_else(|| panic!("{name} is {definition}, expected a sum of numbers and constants above"));
        assert_eq!(numbers.insert(name.to_owned(), number), None, "{name} is defined twice");
    }
    numbers
}

/// The macros of a header that take an argument.
fn macros(header: &str) -> Vec<&str> {
    header.lines().filter_map(|line| Some(line.strip_prefix("#define ")?.split_once('(')?.0)).filter(|name| !name.contains(' ')).collect()
}

/// `ReservedBits` as it stands in a constant, `RESERVED_BITS`.
fn in_capitals(variant: &str) -> String {
    let between = |at: usize, letter: char| if at > 0 && letter.is_uppercase() { "_" } else { "" };
    variant.char_indices().map(|(at, letter)| format!("{}{}", between(at, letter), letter.to_ascii_uppercase())).collect()
}

/// This crate's numbers, by the names that they have in the header.
fn of_this_crate() -> Numbers {
    let lengths = [("STATE_LENGTH", STATE_LENGTH), ("COUNT_AT", REGISTER_BYTES), ("CHECKPOINT_LENGTH", CHECKPOINT_LENGTH)];
    let mut numbers: Numbers = lengths.into_iter().map(|(name, number)| (name.to_owned(), number as u64)).collect();
    numbers.extend((0..256).filter_map(Instruction::from_number).map(|one| (one.name().to_uppercase(), one as u64)));
    numbers.extend((0..256).filter_map(Generation::from_number).map(|one| (one.name().to_uppercase(), one as u64)));
    for (number, answer) in (0..1 << 18).filter_map(|number| Some((number, Answer::from_number(number)?))) {
        let (base, variant, within) = match answer {
            Answer::Done { bytes } => {
                numbers.insert("MOST_BYTES".to_owned(), bytes); // the last one stays
                continue;
            }
            Answer::NoOp(reason) => ("NO_OP", format!("{reason:?}"), reason as u64),
            Answer::Refused(refusal) => ("REFUSED", format!("{refusal:?}"), refusal as u64),
        };
        numbers.insert(base.to_owned(), number - within);
        numbers.insert(format!("{base}_{}", in_capitals(&variant)), number);
    }
    numbers.into_iter().map(|(name, number)| (format!("AMX_{name}"), number)).collect()
}

#[test]
fn the_constants_are_this_crate_s_numbers() {
    let header = fs::read_to_string(include().join("amx.h")).unwrap();
    let defined = defined(&header);
    assert_eq!(defined, of_this_crate());
    assert_eq!((defined["AMX_VECINT"], defined["AMX_NO_OP_LATER_MODE"], defined["AMX_REFUSED_LAST_COUNT"]), (18, 65_539, 131_081));
    assert_eq!(macros(&header), ["AMX_IS_DONE", "AMX_IS_NO_OP", "AMX_IS_REFUSED"]);
}

#[test]
fn what_a_header_defines_is_evaluated() {
    let header = "#define GUARD\n#define A 7 // seven\n#define B (A + 1)   // eight\n#define F(a) ((a) < B)\n";
    assert_eq!(defined(header), Numbers::from([("A".to_owned(), 7), ("B".to_owned(), 8)]));
    assert_eq!(macros(header), ["F"]);
    for wrong in ["#define A B", "#define A 1\n#define A 1", "#define A (1 * 2)"] {
        assert!(std::panic::catch_unwind(|| defined(wrong)).is_err(), "{wrong}");
    }
}

#[cfg(feature = "proved")]
mod compiled {
    use super::{defined, include};
    use std::{
        env, fs,
        io::{self, ErrorKind, Write},
        path::Path,
        process::{self, Command},
    };

    /// What tests/header.c prints, in a language; `None` where its compiler is not there.
    fn printed(compiler: &str, language: &str, standard: &str) -> Option<String> {
        let source = Path::new(env!("CARGO_MANIFEST_DIR")).join("tests/header.c");
        let program = Path::new(env!("CARGO_TARGET_TMPDIR")).join(format!("header-{language}-{}", process::id()));
        let mut command = Command::new(compiler);
        command.args([standard, "-Wall", "-Wextra", "-pedantic", "-Werror", "-I"]).arg(include()).args(["-x", language]).arg(source);
        let compiled = match command.args(["-x", "none", env!("AMX_LIBRARY"), "-o"]).arg(&program).output() {
            Err(error) if error.kind() == ErrorKind::NotFound => return None,
            compiled => compiled.unwrap(),
        };
        assert!(compiled.status.success(), "{compiler}:\n{}", String::from_utf8_lossy(&compiled.stderr));
        let output = Command::new(&program).output().unwrap();
        fs::remove_file(program).unwrap();
        let text = String::from_utf8(output.stdout).unwrap();
        assert!(output.status.success(), "{compiler}:\n{text}");
        Some(text)
    }

    #[test]
    fn every_answer_is_its_constant_in_c_and_in_cpp() {
        let mut constants = defined(&fs::read_to_string(include().join("amx.h")).unwrap());
        constants.retain(|name, _| name.starts_with("AMX_NO_OP_") || name.starts_with("AMX_REFUSED_"));
        for (compiler, language, standard) in [("cc", "c", "-std=c99"), ("c++", "c++", "-std=c++11")] {
            let Some(text) = printed(compiler, language, standard) else {
                // past the harness, which keeps what a test that passes prints
                writeln!(io::stderr(), "SKIPPED: there is no {compiler}, so tests/header.c is not built with amx.h").unwrap();
                continue;
            };
            for (name, number) in &constants {
                assert!(text.lines().any(|line| line == format!("{name} {number}")), "{compiler}: {name} is not met\n{text}");
            }
        }
    }
}
