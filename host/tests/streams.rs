//! What the command `amx` reads and writes: pipes, statuses, summaries, full disks, and files that are lost by no mistake.
#![cfg(unix)]
mod common;

use amx::{Trace, UNIT_NOTE, text};
use common::{FILE, REFUSED, Room, STRICT, TEXT, USAGE, amx, fails, fed, name, noted, said};
use std::{
    fs::{self, Permissions},
    io::{Read, Write},
    os::unix::fs::{MetadataExt, PermissionsExt, symlink},
    process::{Command, Output, Stdio},
    thread,
};

const STEPS: &str = "x hex: 03\ny hex: 02\nmac16 m1 vector\nvecint m1 reserved=1\nraw 15 1 0\n";

fn trace() -> Trace {
    text::assemble(STEPS).unwrap()
}

fn lines() -> String {
    format!("step 0 done 64\nstep 1 no-op 1\nstep 2 refused 3\nz 0 0600{}\nsteps 3\n", "0".repeat(124))
}

const SUMMARY: &str = "3 steps: 1 done (64 bytes of Z), 1 no-op, 1 refused
  1 step, first step 1: no-op 1: bits 54..56 are not all 0
  1 step, first step 2: refused 3: the instruction is not 11 (fms64), 14 (mac16), 18 (vecint) or 19 (vecfp)
";

/// A command line of the shell's, in which `$1` is the program and `$2` and so on are the words.
fn shell(line: &str, words: &[&str]) -> Output {
    noted(Command::new("sh").args(["-c", line, "sh", env!("CARGO_BIN_EXE_amx")]).args(words).output().unwrap())
}

fn text_of(bytes: &[u8]) -> &str {
    str::from_utf8(bytes).unwrap()
}

#[test]
fn a_pipe_is_read_once_by_any_name() {
    let room = Room::new("pipes");
    let (file, rest) = (trace().to_bytes(), trace().cut(1).unwrap());
    for (input, printed) in [(&file[..], lines()), (STEPS.as_bytes(), lines()), (&rest.to_bytes(), rest.text())] {
        for place in ["-", "/dev/stdin"] {
            for piece in [1, 4_096] {
                let output = fed(&["run", place], input, piece);
                assert_eq!((output.status.code(), text_of(&output.stdout)), (Some(0), printed.as_str()), "{place}");
            }
        }
        let fifo = room.0.join("fifo");
        assert!(Command::new("mkfifo").arg(&fifo).status().unwrap().success());
        let output = thread::scope(|scope| {
            scope.spawn(|| fs::write(&fifo, input).unwrap());
            amx(&["run", name(&fifo)])
        });
        assert_eq!((output.status.code(), text_of(&output.stdout)), (Some(0), printed.as_str()));
        fs::remove_file(&fifo).unwrap();
    }
    // every command that reads, and one that writes to the other
    let text = room.write("text", STEPS);
    let output = shell("\"$1\" asm - -o - < \"$2\" | \"$1\" dis - | \"$1\" run -", &[name(&text)]);
    assert_eq!((output.status.code(), text_of(&output.stdout)), (Some(0), lines().as_str()));
    let rest = shell("\"$1\" cut - --after 1 -o - < \"$2\" | \"$1\" run - | grep -m 1 step", &[name(&text)]);
    assert_eq!(text_of(&rest.stdout), "step 1 no-op 1\n");
    // what is read twice is kept meanwhile, where that can be
    let output = shell("cat \"$2\" | TMPDIR=/none \"$1\" run -", &[name(&text)]);
    assert_eq!(output.status.code(), Some(FILE));
    assert!(
        text_of(&output.stderr).ends_with("standard input: to be read twice it is kept in /none: No such file or directory (os error 2)\n")
    );
    // standard input is read from where it stands
    let behind = shell("{ read line; \"$1\" run -; } < \"$2\"", &[name(&text)]);
    assert!(text_of(&behind.stdout).starts_with("step 0 done 64\nstep 1 no-op 1\nstep 2 refused 3\nsteps 3\n"), "{behind:?}");
}

#[test]
fn what_is_empty_is_refused_5() {
    let room = Room::new("empty");
    let (empty, out) = (room.write("empty", ""), room.0.join("out"));
    for arguments in [&["run", name(&empty)][..], &["run", "-"], &["run", "/dev/null"]] {
        let output = fed(arguments, b"", 1);
        assert_eq!((output.status.code(), text_of(&output.stdout)), (Some(REFUSED), "file refused 5\n"));
        assert!(text_of(&output.stderr).contains(": file refused 5: it is empty\n"), "{output:?}");
    }
    fails(REFUSED, &["dis", name(&empty)], "empty: file refused 5: it is empty");
    fails(REFUSED, &["asm", name(&empty), "-o", name(&out)], "empty: file refused 5: it is empty");
    fails(REFUSED, &["cut", name(&empty), "--after", "0", "-o", name(&out)], "empty: file refused 5: it is empty");
    // a text of no steps is one, where it has a line
    assert_eq!(said(&["run", name(&room.write("comment", "# nothing\n"))]), "steps 0\n");
    assert_eq!(room.names(), ["comment", "empty"]);
}

#[test]
fn statuses_tell_how_it_ended() {
    let room = Room::new("statuses");
    let (file, text) = (room.write("trace", trace().to_bytes()), room.write("text", STEPS));
    let done = room.write("done", "mac16 m1 vector\n");
    let status = |arguments: &[&str]| amx(arguments).status.code().unwrap();
    for (arguments, expected) in [
        (&["run", name(&file)][..], 0),
        (&["run", name(&text), "--strict"], STRICT),
        (&["run", "--summary", name(&text), "--strict"], STRICT),
        (&["run", "--json", "--strict", name(&file)], STRICT),
        (&["run", "--strict", name(&done)], 0),
        (&["run", name(&room.0)], FILE),
        (&["run", name(&room.0.join("absent"))], FILE),
        (&["run", name(&file), "--summary", "--json"], USAGE),
        (&["run", name(&file), "--summary", "--as", "i16"], USAGE),
        (&["run", name(&file), "--summary", "--matrix"], USAGE),
        (&["run", name(&file), name(&file)], USAGE),
        (&["fly"], USAGE),
        (&["run", name(&room.write("wrong", "mac16 m3\n"))], TEXT),
        (&["run", "--strict", name(&room.write("short", &trace().to_bytes()[..5_170]))], REFUSED),
        (&["--help"], 0),
    ] {
        assert_eq!(status(arguments), expected, "{arguments:?}");
    }
    let help = said(&["--help"]);
    for line in ["0  ", "1  ", "2  ", "3  ", "4  ", "5  ", "6  "] {
        assert!(help.lines().any(|told| told.trim_start().starts_with(line)), "{line}");
    }
}

#[test]
fn a_run_is_summed_up() {
    let room = Room::new("summary");
    let file = room.write("trace", trace().to_bytes());
    let output = amx(&["run", name(&file)]);
    assert_eq!((text_of(&output.stdout), text_of(&output.stderr)), (lines().as_str(), format!("{}: {SUMMARY}", name(&file)).as_str()));
    let output = fed(&["run", "-"], &trace().to_bytes(), 4_096);
    assert_eq!(text_of(&output.stderr), format!("standard input: {SUMMARY}"));
    let output = amx(&["run", name(&file), "--summary"]);
    assert_eq!((text_of(&output.stdout), output.stderr.len()), (SUMMARY, 0));
    let output = amx(&["run", name(&file), "--json"]);
    let json = format!(
        "{{\"unit\":\"{}\",\"file\":\"{}\",\"consumed\":0,\"steps\":3,\"done\":{{\"steps\":1,\"z_bytes\":64,\"no_lane\":0}},\
         \"no_op\":[{{\"number\":1,\"words\":\"no-op 1: bits 54..56 are not all 0\",\"steps\":1,\"first\":1}}],\
         \"refused\":[{{\"number\":3,\"words\":\"refused 3: the instruction is not 11 (fms64), 14 (mac16), 18 (vecint) or 19 (vecfp)\",\
         \"steps\":1,\"first\":2}}],\"rows\":[{{\"row\":0,\"hex\":\"0600{}\"}}],\"file_refused\":null,\"error\":null}}\n",
        UNIT_NOTE.unwrap_or("the proved unit"),
        name(&file),
        "0".repeat(124)
    );
    assert_eq!((text_of(&output.stdout), output.stderr.len()), (json.as_str(), 0));
}

#[test]
fn what_cannot_be_run_is_told_in_json_too() {
    let room = Room::new("json");
    for (file, status, words) in [
        (room.write("a \"b\"\n", "mac16 m3\n"), TEXT, "a \\\"b\\\"\\u000a, line 1: expected m1 or m2"),
        (room.0.join("absent"), FILE, "absent: No such file or directory (os error 2)"),
        (room.write("empty", ""), REFUSED, "empty: file refused 5: it is empty"),
    ] {
        let output = amx(&["run", "--json", name(&file)]);
        let json = text_of(&output.stdout);
        assert_eq!((output.status.code(), json.lines().count()), (Some(status), 1), "{output:?}");
        assert!(
            json.contains("\"steps\":0,\"done\":{\"steps\":0,\"z_bytes\":0,\"no_lane\":0},\"no_op\":[],\"refused\":[],\"rows\":[],"),
            "{json}"
        );
        assert!(json.contains(&format!("\"error\":{{\"status\":{status},\"words\":\"")) && json.contains(words), "{json}");
        assert!(json.ends_with("\"}}\n") && text_of(&output.stderr).starts_with("amx: "), "{output:?}");
    }
}

#[test]
fn a_refused_file_is_told_with_the_fact() {
    let room = Room::new("facts");
    let sound = trace().to_bytes();
    let mut padded = sound.clone();
    padded[5_148 + 16 + 5] = 9;
    for (bytes, steps, number, fact) in [
        (&sound[..5_190], "step 0 done 64\nstep 1 no-op 1\n", 6, "5,190 bytes, the table says 5,196"),
        (&padded, "step 0 done 64\n", 7, "byte 5 of step 1, byte 5,169 of the file, is 0x09, where padding is 0"),
        (&sound[..27], "", 5, "27 bytes, and its table has 28"),
    ] {
        let file = room.write("damaged", bytes);
        let output = amx(&["run", name(&file)]);
        assert_eq!((output.status.code(), text_of(&output.stdout)), (Some(REFUSED), format!("{steps}file refused {number}\n").as_str()));
        let message = format!("amx: {}: file refused {number}: {fact}\n", name(&file));
        assert!(text_of(&output.stderr).ends_with(&message), "{output:?}");
        let output = amx(&["run", "--json", name(&file)]);
        let refused = format!(
            "\"rows\":[],\"file_refused\":{{\"number\":{number},\"words\":\"file refused {number}: {fact}\"}},\"error\":{{\"status\":4,"
        );
        assert!(output.status.code() == Some(REFUSED) && text_of(&output.stdout).contains(&refused), "{output:?}");
        // what was run before is summed up too
        let output = amx(&["run", "--summary", name(&file)]);
        let said = text_of(&output.stdout);
        assert_eq!((output.status.code(), said.starts_with(&format!("{} step", steps.lines().count()))), (Some(REFUSED), true), "{said}");
    }
}

#[test]
fn a_full_disk_is_told() {
    let room = Room::new("full");
    let (file, text) = (room.write("trace", trace().to_bytes()), room.write("text", STEPS));
    for line in ["run \"$2\"", "run --json \"$2\"", "dis \"$2\"", "explain mac16 m1", "lanes mac16 m1", "--help"] {
        let output = shell(&format!("\"$1\" {line} > /dev/full"), &[name(&file)]);
        assert_eq!(output.status.code(), Some(FILE), "{line}");
        assert!(text_of(&output.stderr).contains("amx: standard output: No space left on device"), "{output:?}");
    }
    for line in ["asm \"$2\" -o -", "cut \"$2\" --after 1 -o -", "picture \"$2\" -o -", "why \"$2\" z 0 0", "diff \"$2\" \"$2\""] {
        let output = shell(&format!("\"$1\" {line} > /dev/full"), &[name(&text)]);
        assert_eq!(output.status.code(), Some(FILE), "{line}");
        assert_eq!(text_of(&noted(output).stderr), "amx: standard output: No space left on device (os error 28)\n", "{line}");
    }
    fails(FILE, &["asm", name(&text), "-o", "/dev/full"], "/dev/full: No space left on device");
    // names that cannot be told are given to no file
    let loads = room.write("loads", "mac16 m1\nload x 0 i8: 1\nmac16 m1\n");
    let output = shell("\"$1\" asm \"$2\" -o \"$3\" > /dev/full", &[name(&loads), name(&room.0.join("stretch"))]);
    assert_eq!(output.status.code(), Some(FILE), "{output:?}");
    fs::remove_file(loads).unwrap();
    // a file that cannot grow: the old one stays, and nothing else is left
    let old = room.write("old", "old");
    let limited = "trap '' XFSZ; ulimit -f 2; \"$1\" asm \"$2\" -o \"$3\"";
    for target in [name(&old), name(&room.0.join("new"))] {
        let output = shell(limited, &[name(&text), target]);
        assert_eq!(output.status.code(), Some(FILE), "{output:?}");
        assert!(text_of(&output.stderr).contains("File too large"), "{output:?}");
    }
    assert_eq!((fs::read(&old).unwrap(), room.names()), (b"old".to_vec(), vec!["old".to_owned(), "text".to_owned(), "trace".to_owned()]));
}

#[test]
fn who_stops_reading_is_told_no_more() {
    let room = Room::new("stops");
    let text = room.write("text", "mac16 m1 vector\n".repeat(20_000));
    for arguments in [&["run", name(&text)][..], &["asm", name(&text), "-o", "-"], &["picture", name(&text), "-o", "-"]] {
        let mut command = Command::new(env!("CARGO_BIN_EXE_amx"));
        let mut child = command.args(arguments).stdout(Stdio::piped()).stderr(Stdio::piped()).spawn().unwrap();
        child.stdout.take().unwrap().read_exact(&mut [0; 14]).unwrap();
        let output = noted(child.wait_with_output().unwrap());
        assert_eq!((output.status.code(), output.stderr.len()), (Some(FILE), 0), "{arguments:?}");
    }
    // and a standard error that is closed changes nothing
    let output = shell("\"$1\" run --strict \"$2\" 2>&-", &[name(&room.write("steps", STEPS))]);
    assert_eq!((output.status.code(), text_of(&output.stdout)), (Some(STRICT), lines().as_str()));
}

#[test]
fn what_is_read_is_not_written_to() {
    let room = Room::new("own");
    let (file, text) = (room.write("trace", trace().to_bytes()), room.write("text", STEPS));
    let (link, hard) = (room.0.join("link"), room.0.join("hard"));
    symlink(&text, &link).unwrap();
    fs::hard_link(&text, &hard).unwrap();
    for target in [&text, &link, &hard] {
        fails(USAGE, &["asm", name(&text), "-o", name(target)], "this is what is read, and would be lost: name another file");
    }
    fails(USAGE, &["cut", name(&file), "--after", "1", "-o", name(&file)], "would be lost");
    for (line, input) in [
        ("\"$1\" run \"$2\" >> \"$2\"", "trace"),
        ("\"$1\" run --json \"$2\" >> \"$2\"", "trace"),
        ("\"$1\" dis \"$2\" >> \"$2\"", "trace"),
        ("\"$1\" run - < \"$2\" >> \"$2\"", "standard input"),
    ] {
        let output = shell(line, &[name(&file)]);
        assert_eq!(output.status.code(), Some(USAGE));
        let message = format!("{input}: standard output goes to this file, which is read\n");
        assert!(text_of(&output.stderr).contains(&message), "{output:?}");
    }
    // standard input is a file too
    for line in ["asm - -o \"$2\" < \"$2\"", "asm /dev/stdin -o \"$2\" < \"$2\"", "picture - -o \"$2\" < \"$2\""] {
        let output = shell(&format!("\"$1\" {line}"), &[name(&text)]);
        assert_eq!(output.status.code(), Some(USAGE), "{line}");
        assert!(text_of(&output.stderr).contains("text: this is what is read, and would be lost"), "{output:?}");
    }
    assert!(fs::read(&text).unwrap() == STEPS.as_bytes() && fs::read(&file).unwrap() == trace().to_bytes());
    assert_eq!(room.names(), ["hard", "link", "text", "trace"]);
}

#[test]
fn a_file_that_is_written_anew_keeps_its_permissions() {
    let room = Room::new("permissions");
    let (text, target) = (room.write("text", STEPS), room.write("target", "old"));
    for mode in [0o640, 0o600, 0o755] {
        fs::set_permissions(&target, Permissions::from_mode(mode)).unwrap();
        said(&["asm", name(&text), "-o", name(&target)]);
        assert_eq!(fs::metadata(&target).unwrap().mode() & 0o777, mode);
        assert!(fs::read(&target).unwrap() == trace().to_bytes());
    }
    // a link that leads nowhere yet
    let link = room.0.join("link");
    symlink(room.0.join("new"), &link).unwrap();
    said(&["asm", name(&text), "-o", name(&link)]);
    assert!(fs::symlink_metadata(&link).unwrap().is_symlink());
    assert!(fs::read(room.0.join("new")).unwrap() == trace().to_bytes());
}

/// Hands over the same bytes again and again, until nobody takes them.
fn endless(arguments: &[&str], bytes: &[u8]) -> Output {
    let mut command = Command::new(env!("CARGO_BIN_EXE_amx"));
    let mut child = command.args(arguments).stdin(Stdio::piped()).stdout(Stdio::piped()).stderr(Stdio::piped()).spawn().unwrap();
    let mut input = child.stdin.take().unwrap();
    thread::scope(|scope| {
        scope.spawn(move || while input.write_all(bytes).is_ok() {});
        noted(child.wait_with_output().unwrap())
    })
}

#[test]
fn an_input_that_does_not_end_is_not_read_for_ever() {
    let cases = [
        (&b"#"[..], TEXT, "line 1: a line has at most 65,536 bytes"),
        (b"\0", REFUSED, "file refused 6: its table tells of 0 sections"),
        (b"\x03\0\0\0", REFUSED, "file refused 6: the kind of section 1 is 3"),
    ];
    for (bytes, status, words) in cases {
        let output = endless(&["run", "-"], &bytes.repeat(65_536));
        assert_eq!(output.status.code(), Some(status), "{output:?}");
        assert!(text_of(&output.stderr).contains(words), "{output:?}");
    }
}

#[test]
fn what_is_of_the_wrong_kind_is_told_so() {
    let room = Room::new("kinds");
    let (file, out) = (room.write("trace", trace().to_bytes()), room.0.join("out"));
    fails(
        USAGE,
        &["asm", name(&file), "-o", name(&out)],
        "trace: this is no text: it has a byte 0, as a trace file has; amx dis prints its text",
    );
    let text = room.write("text", STEPS);
    fails(
        USAGE,
        &["dis", name(&text)],
        "text: this is no trace file: it has no byte 0 among its first 28; amx asm makes a trace of a text",
    );
    fs::remove_file(text).unwrap();
    assert_eq!(room.names(), ["trace"]);
}
