//! Which unit took the steps: in a build without the proved one, every output says so.
mod common;

use amx::{PROVED, UNIT_NOTE};
use common::{Room, name};
use std::{
    fs,
    path::Path,
    process::{Command, Output},
};

fn amx(arguments: &[&str]) -> Output {
    Command::new(env!("CARGO_BIN_EXE_amx")).args(arguments).output().unwrap()
}

#[test]
fn an_output_says_whose_steps_it_has() {
    let room = Room::new("unit");
    let text = room.write("text", "mac16 m1 vector\n");
    let (trace, rest) = (room.0.join("trace"), room.0.join("rest"));
    let note = UNIT_NOTE.unwrap_or("second program");
    for arguments in [
        &["asm", name(&text), "-o", name(&trace)][..],
        &["dis", name(&trace)],
        &["run", name(&trace)],
        &["run", "--summary", name(&trace)],
        &["cut", name(&trace), "--after", "1", "-o", name(&rest)],
        &["explain", "mac16 m1"],
        &["lanes", "mac16 m1"],
    ] {
        let output = amx(arguments);
        let (said, told) = (String::from_utf8(output.stdout).unwrap(), String::from_utf8(output.stderr).unwrap());
        assert!(output.status.success());
        assert_eq!(told.starts_with(&format!("amx: {note}\n")), !PROVED, "{arguments:?}");
        assert_eq!(said.starts_with(&format!("# {note}\n")), !PROVED && !arguments.contains(&"-o"), "{arguments:?}");
    }
    let json = String::from_utf8(amx(&["run", "--json", name(&trace)]).stdout).unwrap();
    let version = String::from_utf8(amx(&["--version"]).stdout).unwrap();
    assert_eq!(
        (json.contains("\"unit\":\"the proved unit\""), version == concat!("amx ", env!("CARGO_PKG_VERSION"), " (the proved unit)\n")),
        (PROVED, PROVED)
    );
    assert_eq!((json.contains(note), version.contains(note)), (!PROVED, !PROVED));
}

/// `cargo install` takes every program of the package: those that compare and time are in another.
#[test]
fn the_package_has_no_other_program() {
    let package = Path::new(env!("CARGO_MANIFEST_DIR"));
    let programs: Vec<_> = fs::read_dir(package.join("src/bin")).unwrap().map(|entry| entry.unwrap().file_name()).collect();
    assert_eq!(programs, ["amx"]);
    let manifest = fs::read_to_string(package.join("Cargo.toml")).unwrap();
    assert!(!package.join("src/main.rs").exists() && !manifest.contains("[[bin]]"));
    assert!(package.join("checks/src/bin/compare/main.rs").exists() && package.join("checks/src/bin/speed.rs").exists());
}
