//! The examples of README.md, as they stand there: what is typed after a `$` prints the lines below it.
#![cfg(unix)]
mod common;

use amx::UNIT_NOTE;
use common::Room;
use std::{
    env, fs,
    path::{Path, PathBuf},
    process::Command,
};

/// A line that is typed, and the lines that stand below it.
struct Example {
    typed: String,
    printed: String,
}

/// The examples in the indented blocks of a page.
fn examples(page: &str) -> Vec<Example> {
    let mut examples: Vec<Example> = Vec::new();
    let mut open = false;
    for line in page.lines() {
        let Some(line) = line.strip_prefix("    ") else {
            open = false;
            continue;
        };
        if let Some(typed) = line.strip_prefix("$ ") {
            examples.push(Example { typed: typed.to_owned(), printed: String::new() });
            open = true;
        } else if let Some(example) = examples.last_mut().filter(|_| open) {
            example.printed += &format!("{line}\n");
        }
    }
    examples
}

fn repository() -> PathBuf {
    Path::new(env!("CARGO_MANIFEST_DIR")).parent().unwrap().to_owned()
}

/// What needs the toolchain, or more time or files than a test has.
fn is_left_out(typed: &str) -> bool {
    ["make", "cargo", "cd host", "cc ", "git", "rt "].iter().any(|first| typed.starts_with(first))
}

#[test]
fn the_examples_print_what_the_page_says() {
    let (room, page) = (Room::new("readme"), fs::read_to_string(repository().join("README.md")).unwrap());
    let trace_program = repository().join("target/bin/amx_trace");
    let programs = [Path::new(env!("CARGO_BIN_EXE_amx")).parent().unwrap().to_owned(), trace_program.parent().unwrap().to_owned()];
    let path = env::join_paths(programs.into_iter().chain(env::split_paths(&env::var_os("PATH").unwrap()))).unwrap();
    let mut tried = 0;
    for Example { typed, printed } in examples(&page).into_iter().filter(|example| !is_left_out(&example.typed)) {
        if let Some(file) = typed.strip_prefix("cat ").filter(|file| !file.contains(' ')) {
            room.write(file, printed);
            continue;
        }
        if typed.contains("amx_trace") && !trace_program.is_file() {
            eprintln!("left out, as there is no {}: {typed}", trace_program.display());
            continue;
        }
        let run = Command::new("bash").args(["-c", &format!("{{ {typed}\n}} 2>&1")]).env("PATH", &path).current_dir(&room.0).output();
        let said = String::from_utf8(run.unwrap().stdout).unwrap();
        let said: String = said.split_inclusive('\n').filter(|line| !UNIT_NOTE.is_some_and(|note| line.contains(note))).collect();
        assert_eq!(said, printed, "{typed}");
        tried += 1;
    }
    assert!(tried >= 20, "only {tried} examples were found");
}
