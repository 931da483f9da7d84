//! What the tests of the command `amx` have in common: a directory of their own, and the command from outside.
#![allow(dead_code)] // no test uses all of it
use amx::UNIT_NOTE;
use std::{
    fs,
    io::Write,
    path::{Path, PathBuf},
    process::{Command, Output, Stdio},
    sync::atomic::{AtomicUsize, Ordering},
    thread,
};

/// A directory of the test's own, removed afterwards.
pub struct Room(pub PathBuf);

impl Room {
    pub fn new(name: &str) -> Self {
        static ROOMS: AtomicUsize = AtomicUsize::new(0);
        let number = ROOMS.fetch_add(1, Ordering::Relaxed);
        let path = std::env::temp_dir().join(format!("amx-test-{}-{number}-{name}", std::process::id()));
        fs::create_dir_all(&path).unwrap();
        Room(path)
    }

    pub fn write(&self, name: &str, bytes: impl AsRef<[u8]>) -> PathBuf {
        let path = self.0.join(name);
        fs::write(&path, bytes).unwrap();
        path
    }

    pub fn names(&self) -> Vec<String> {
        let mut names: Vec<_> = fs::read_dir(&self.0).unwrap().map(|entry| entry.unwrap().file_name().into_string().unwrap()).collect();
        names.sort();
        names
    }
}

impl Drop for Room {
    fn drop(&mut self) {
        let _ = fs::remove_dir_all(&self.0);
    }
}

pub fn amx(arguments: &[&str]) -> Output {
    noted(Command::new(env!("CARGO_BIN_EXE_amx")).args(arguments).output().unwrap())
}

/// What is left of an output without what it says of the unit, in a build that has not the proved one: there standard error has said so
/// but where nothing is run, and so has the first line of lines.
pub fn noted(mut output: Output) -> Output {
    if let Some(note) = UNIT_NOTE {
        for (bytes, line) in [(&mut output.stdout, format!("# {note}\n")), (&mut output.stderr, format!("amx: {note}\n"))] {
            if bytes.starts_with(line.as_bytes()) {
                bytes.drain(..line.len());
            }
        }
    }
    output
}

/// The command, fed by a pipe that hands over a few bytes at a time.
pub fn fed(arguments: &[&str], bytes: &[u8], piece: usize) -> Output {
    let mut command = Command::new(env!("CARGO_BIN_EXE_amx"));
    let mut child = command.args(arguments).stdin(Stdio::piped()).stdout(Stdio::piped()).stderr(Stdio::piped()).spawn().unwrap();
    let mut input = child.stdin.take().unwrap();
    thread::scope(|scope| {
        // it may end before it has read all
        scope.spawn(move || bytes.chunks(piece).try_for_each(|piece| input.write_all(piece)));
        noted(child.wait_with_output().unwrap())
    })
}

/// What a command that ran says on standard output. `run` says on standard error what came of it, and no other says anything there.
pub fn said(arguments: &[&str]) -> String {
    let output = amx(arguments);
    assert!(output.status.success(), "{arguments:?}: {}", String::from_utf8_lossy(&output.stderr));
    assert_eq!(output.stderr.is_empty(), arguments[0] != "run", "{arguments:?}: {}", String::from_utf8_lossy(&output.stderr));
    String::from_utf8(output.stdout).unwrap()
}

/// The exit statuses that `amx --help` tells.
pub const USAGE: i32 = 2;
pub const FILE: i32 = 3;
pub const REFUSED: i32 = 4;
pub const TEXT: i32 = 5;
pub const STRICT: i32 = 6;

/// An error: its status, nothing on standard output, a message that has these words.
pub fn fails(status: i32, arguments: &[&str], words: &str) {
    let output = amx(arguments);
    let message = String::from_utf8(output.stderr).unwrap();
    assert_eq!((output.status.code(), output.stdout.len()), (Some(status), 0), "{arguments:?}: {message}");
    assert!(message.starts_with("amx: ") && message.contains(words), "{arguments:?}: {message}");
}

pub fn name(path: &Path) -> &str {
    path.to_str().unwrap()
}
