//! The `amx` program from outside: its texts, its files, its errors and their statuses.
mod common;

use amx::{Checkpoint, Record, State, Trace, random::Random, reference, text};
use common::{FILE, REFUSED, Room, TEXT, USAGE, amx, fails, fed, name, said};
use std::{fs, path::Path};

const SAMPLE: &str = "# the scope's sample\nx i16: 3\ny i16: 2\nmac16 m1 vector\nvecint m1 reserved=1\n";

fn sample_text() -> String {
    format!("step 0 done 64\nstep 1 no-op 1\nz 0 0600{}\nsteps 2\n", "0".repeat(124))
}

#[test]
fn a_text_is_assembled_run_and_taken_apart() {
    let room = Room::new("sample");
    let text = room.write("sample.txt", SAMPLE);
    let trace = room.0.join("sample.amx");
    assert_eq!(said(&["asm", name(&text), "-o", name(&trace)]), "");
    assert_eq!(fs::read(&trace).unwrap().len(), 5_148 + 32);
    assert_eq!(reference::trace(&fs::read(&trace).unwrap()), sample_text());
    assert_eq!(said(&["run", name(&trace)]), sample_text());
    assert_eq!(said(&["run", name(&text)]), sample_text());
    assert_eq!(said(&["dis", name(&trace)]), "x 0 hex: 03\ny 0 hex: 02\nmac16 m1 vector\nvecint m1 reserved=1\n");
    assert_eq!(room.names(), ["sample.amx", "sample.txt"]);
}

#[test]
fn any_trace_is_taken_apart_and_put_together_again() {
    let room = Room::new("any");
    let mut random = Random::new(5);
    for (records, checkpoint) in [0, 1, 100, 2_048].into_iter().flat_map(|records| [false, true].map(|checkpoint| (records, checkpoint))) {
        let mut trace = random.trace(records);
        if checkpoint {
            let mut state = random.state();
            state.set_count(random.bits());
            trace.set_checkpoint(Checkpoint { consumed: random.below(records as u64 + 1) as usize, state }).unwrap();
        }
        let file = room.write("one", trace.to_bytes());
        let text = room.write("text", said(&["dis", name(&file)]));
        let again = room.0.join("again");
        said(&["asm", "-o", name(&again), name(&text)]);
        assert!(fs::read(&file).unwrap() == fs::read(&again).unwrap());
        assert!(said(&["run", name(&file)]) == reference::trace(&trace.to_bytes()));
        assert!(said(&["run", name(&text)]) == reference::trace(&trace.to_bytes()));
    }
}

#[test]
fn a_trace_is_cut_and_goes_on() {
    let room = Room::new("cut");
    let text = room.write("sample.txt", SAMPLE);
    let (trace, rest) = (room.0.join("sample.amx"), room.0.join("rest.amx"));
    said(&["asm", name(&text), "-o", name(&trace)]);
    // a trace or its text, options in any order
    for arguments in [
        ["cut", name(&trace), "--after", "1", "-o", name(&rest)],
        ["cut", name(&trace), "-o", name(&rest), "--after", "0x1"],
        ["cut", "--after", "1", "-o", name(&rest), name(&text)],
        ["cut", "-o", name(&rest), "--after", "1", name(&text)],
    ] {
        assert_eq!(said(&arguments), "");
        assert_eq!(reference::cut(&fs::read(&trace).unwrap(), 1), fs::read(&rest).ok());
        assert_eq!(said(&["run", name(&rest)]), sample_text()["step 0 done 64\n".len()..]);
        fs::remove_file(&rest).unwrap();
    }
    said(&["cut", name(&trace), "--after", "1", "-o", name(&rest)]);
    let apart =
        "x 0 hex: 03\ny 0 hex: 02\nmac16 m1 vector\ncheckpoint\ncount: 1\nx 0 hex: 03\ny 0 hex: 02\nz 0 hex: 06\nvecint m1 reserved=1\n";
    assert_eq!(said(&["dis", name(&rest)]), apart);
    // after all
    said(&["cut", name(&trace), "--after", "2", "-o", name(&rest)]);
    assert_eq!(said(&["run", name(&rest)]), sample_text()["step 0 done 64\nstep 1 no-op 1\n".len()..]);
    assert_eq!(room.names(), ["rest.amx", "sample.amx", "sample.txt"]);
}

#[test]
fn any_trace_is_cut_at_any_place() {
    let room = Room::new("anywhere");
    let mut random = Random::new(17);
    for records in [0, 5, 40, 2_048] {
        let trace = random.trace(records);
        let (file, rest) = (room.write("whole", trace.to_bytes()), room.0.join("rest"));
        let whole = said(&["run", name(&file)]);
        for after in [0, 1, records / 2, records.saturating_sub(1), records].into_iter().filter(|&after| after <= records) {
            said(&["cut", name(&file), "--after", &after.to_string(), "-o", name(&rest)]);
            assert_eq!(reference::cut(&trace.to_bytes(), after), fs::read(&rest).ok());
            let first: String = whole.split_inclusive('\n').take(after).collect();
            assert!(first + &said(&["run", name(&rest)]) == whole, "cut after {after} of {records}");
        }
    }
}

#[test]
fn a_cut_that_cannot_be_made_writes_no_file() {
    let room = Room::new("no-cut");
    let text = room.write("sample.txt", SAMPLE);
    let (trace, rest) = (room.0.join("sample.amx"), room.0.join("rest.amx"));
    said(&["asm", name(&text), "-o", name(&trace)]);
    let damaged = room.write("damaged", &fs::read(&trace).unwrap()[..5_000]);
    let cut =
        |status, file: &Path, after: &str, words: &str| fails(status, &["cut", name(file), "--after", after, "-o", name(&rest)], words);
    cut(USAGE, &trace, "3", "sample.amx: 3 steps cannot be consumed, the trace has 2");
    cut(USAGE, &text, "18446744073709551615", "18,446,744,073,709,551,615 steps cannot be consumed, the trace has 2");
    for after in ["", "one", "-1", "1.5", "18446744073709551616"] {
        cut(USAGE, &trace, after, &format!("--after: expected a number of 64 bits (12, 0x1f or 0b101), not {after:?}"));
    }
    cut(REFUSED, &damaged, "0", "damaged: file refused 6: 5,000 bytes, the table says 5,180");
    cut(FILE, &room.0.join("absent"), "0", "absent: ");
    cut(TEXT, &room.write("wrong.txt", "mac16 m3"), "0", "wrong.txt, line 1: expected m1 or m2");
    assert_eq!(room.names(), ["damaged", "sample.amx", "sample.txt", "wrong.txt"]);
    said(&["cut", name(&trace), "--after", "1", "-o", name(&rest)]);
    let before = fs::read(&rest).unwrap();
    fails(USAGE, &["cut", name(&rest), "--after", "1", "-o", name(&room.0.join("other"))], "rest.amx: the trace has a checkpoint already");
    cut(USAGE, &trace, "3", "3 steps cannot be consumed");
    assert_eq!(fs::read(&rest).unwrap(), before);
    fails(FILE, &["cut", name(&trace), "--after", "1", "-o", name(&room.0.join("none/rest"))], "none/rest: ");
    for words in
        [&["cut"][..], &["cut", "a"], &["cut", "a", "-o", "b"], &["cut", "a", "--after", "1"], &["cut", "a", "b", "--after", "1", "-o"]]
    {
        fails(USAGE, words, "expected cut FILE --after K -o TRACE, FILE a trace or a text");
    }
}

#[test]
fn an_error_writes_no_file_and_leaves_the_old_one() {
    let room = Room::new("errors");
    let wrong = room.write("wrong.txt", "x i16: 3\nmac16 m1 vector\nmac16 m1 shift=32\n");
    let trace = room.0.join("trace");
    let message = "wrong.txt, line 3: shift (bits 55..59) is 0 to 31, not 32";
    fails(TEXT, &["asm", name(&wrong), "-o", name(&trace)], message);
    fails(TEXT, &["run", name(&wrong)], message);
    assert_eq!(room.names(), ["wrong.txt"]);
    fs::write(&trace, "old").unwrap();
    fails(TEXT, &["asm", name(&wrong), "-o", name(&trace)], message);
    assert_eq!(fs::read(&trace).unwrap(), b"old");

    let text = room.write("sample.txt", SAMPLE);
    fails(FILE, &["asm", name(&text), "-o", name(&room.0.join("none/trace"))], "none/trace: ");
    fails(FILE, &["asm", name(&text), "-o", name(&room.0)], "directory");
    fails(FILE, &["asm", name(&text), "-o", ""], "expected the name of a file");
    fails(FILE, &["asm", name(&room.0.join("absent")), "-o", name(&trace)], "absent: ");
    let not_text = room.write("not.txt", [0xff, 0xfe]);
    fails(TEXT, &["asm", name(&not_text), "-o", name(&trace)], "expected a text in UTF-8");
    assert_eq!(room.names(), ["not.txt", "sample.txt", "trace", "wrong.txt"]);
}

#[cfg(unix)]
#[test]
fn a_link_to_a_trace_stays_a_link_and_a_pipe_is_written_to() {
    let room = Room::new("links");
    let text = room.write("sample.txt", SAMPLE);
    let (trace, link) = (room.write("trace", "old"), room.0.join("link"));
    std::os::unix::fs::symlink(&trace, &link).unwrap();
    said(&["asm", name(&text), "-o", name(&link)]);
    assert!(fs::symlink_metadata(&link).unwrap().is_symlink());
    assert_eq!(fs::read(&trace).unwrap().len(), 5_148 + 32);
    let piped = amx(&["asm", name(&text), "-o", "/dev/stdout"]);
    assert!(piped.status.success() && piped.stdout == fs::read(&trace).unwrap());
    assert_eq!(room.names(), ["link", "sample.txt", "trace"]);
}

#[test]
fn damaged_traces_are_refused_by_number() {
    let room = Room::new("damaged");
    let mut trace = Trace::new(State::new());
    trace.push(Record { instruction: 14, generation: 1, operand: 0 }).unwrap();
    let (sound, cut) = (trace.to_bytes(), trace.cut(1).unwrap().to_bytes());
    let damaged = |sound: &[u8], at: usize| {
        let mut bytes = sound.to_vec();
        bytes[at] ^= 3;
        bytes
    };
    for (bytes, line) in [
        (sound[..27].to_vec(), "file refused 5"),
        (damaged(&sound, 5), "file refused 6"),
        (sound[..5_160].to_vec(), "file refused 6"),
        (damaged(&sound, 5_150), "file refused 7"),
        (cut[..39].to_vec(), "file refused 5"),
        (damaged(&cut, 30), "file refused 6"),
        // 2 consumed of 1
        (damaged(&cut, 5_176), "file refused 6"),
        (damaged(&cut, 5_162), "file refused 7"),
    ] {
        let file = room.write("trace", bytes);
        fails(REFUSED, &["dis", name(&file)], line);
        let output = amx(&["run", name(&file)]);
        assert_eq!((output.status.code(), String::from_utf8(output.stdout).unwrap()), (Some(REFUSED), format!("{line}\n")));
    }
}

/// A text of steps, done and not, and the lines that they are answered with.
fn many(steps: usize) -> (String, String) {
    let steps =
        || (0..steps).map(|n| [("mac16 m1 vector", "done 64"), ("vecint m1 reserved=1", "no-op 1"), ("raw 15 1 0x7", "refused 3")][n % 3]);
    let text: String = steps().map(|(step, _)| format!("{step}\n")).collect();
    let lines: String = steps().enumerate().map(|(place, (_, answer))| format!("step {place} {answer}\n")).collect();
    (format!("x 0 hex: 03\n{text}"), lines)
}

#[test]
fn a_million_steps_are_assembled_run_cut_and_taken_apart() {
    let room = Room::new("million");
    let (text, lines) = many(1_000_000);
    let (text_file, trace, rest) = (room.write("text", &text), room.0.join("trace"), room.0.join("rest"));
    said(&["asm", name(&text_file), "-o", name(&trace)]);
    assert_eq!(fs::metadata(&trace).unwrap().len(), 16_005_148);
    let whole = format!("{lines}steps 1000000\n");
    assert!(said(&["run", name(&trace)]) == whole);
    assert!(said(&["run", name(&text_file)]) == whole);
    assert!(said(&["dis", name(&trace)]) == text);
    said(&["cut", name(&trace), "--after", "999999", "-o", name(&rest)]);
    assert_eq!(said(&["run", name(&rest)]), "step 999999 done 64\nsteps 1000000\n");
    // one more
    fs::write(&text_file, text + "mac16 m1\n").unwrap();
    fails(TEXT, &["asm", name(&text_file), "-o", name(&rest)], "text, line 1000002: a trace holds at most 1,000,000 steps");
    assert_eq!(room.names(), ["rest", "text", "trace"]);
}

#[test]
fn what_is_wrong_with_two_sections_comes_after_the_steps_before_it() {
    let room = Room::new("late");
    let (text, lines) = many(4_097);
    let (text, trace) = (room.write("text", text), room.0.join("trace"));
    said(&["asm", name(&text), "-o", name(&trace)]);
    let sound = fs::read(&trace).unwrap();
    let mut padded = sound.clone();
    padded[5_148 + 16 * 4_096 + 7] = 1;
    let longer = [&sound[..], &[0]].concat();
    for (bytes, steps, refusal) in
        [(&padded[..], 4_096, 7), (&padded[..padded.len() - 1], 4_096, 6), (&longer, 4_097, 6), (&sound[..5_148], 0, 6)]
    {
        let file = room.write("damaged", bytes);
        let before: String = lines.split_inclusive('\n').take(steps).collect();
        let output = amx(&["run", name(&file)]);
        assert_eq!(output.status.code(), Some(REFUSED));
        assert!(String::from_utf8(output.stdout).unwrap() == format!("{before}file refused {refusal}\n"));
        // no file is left of a cut, wherever the damage is
        fails(
            REFUSED,
            &["cut", name(&file), "--after", "1", "-o", name(&room.0.join("rest"))],
            &format!("damaged: file refused {refusal}: "),
        );
    }
    assert_eq!(room.names(), ["damaged", "text", "trace"]);
}

#[cfg(unix)]
#[test]
fn a_pipe_that_hands_over_a_few_bytes_is_read() {
    let (text, lines) = many(2_049);
    let whole = format!("{lines}steps 2049\n");
    let trace = text::assemble(&text).unwrap();
    let file = trace.to_bytes();
    for piece in [1, 3, 7, 5_000] {
        for bytes in [&file, text.as_bytes()] {
            let output = fed(&["run", "/dev/stdin"], bytes, piece);
            assert_eq!(output.status.code(), Some(0));
            assert!(output.stdout == whole.as_bytes(), "{piece} bytes at a time");
        }
        let output = fed(&["run", "/dev/stdin"], &file[..file.len() - 1], piece);
        let cut: String = lines.split_inclusive('\n').take(2_048).collect();
        assert!(output.stdout == format!("{cut}file refused 6\n").as_bytes(), "{piece} bytes at a time");
        assert_eq!(output.status.code(), Some(REFUSED));
    }
    // three sections are read twice, and kept for it
    let rest = trace.cut(3).unwrap();
    let output = fed(&["run", "/dev/stdin"], &rest.to_bytes(), 4_096);
    assert_eq!(output.status.code(), Some(0));
    assert!(output.stdout == rest.text().as_bytes());
}

#[test]
fn floats_are_assembled_run_and_taken_apart() {
    let room = Room::new("floats");
    let steps = "vecfp m2 mode=10 widths=4\nfms64 m1 vector skip_y z_row=1 x=64\nvecfp m2 mode=12 widths=7 z_row=2\nfms64 m1\n";
    let lanes = "x f32: 1.5 -0 inf 0x1\ny f32: 2 1e30 0 0.5\nx 1 f64: 0.25 nan -inf\nz 1 f64: 1 1 -inf 0x7ff0000000000001\n";
    let text = room.write("floats.txt", format!("{lanes}{steps}"));
    let trace = room.0.join("floats.amx");
    said(&["asm", name(&text), "-o", name(&trace)]);
    // 3, -0, the default NaN, and half of the smallest, a tie that is even as 0
    let product = format!("00004040{}{}{}", "00000080", "0000c07f", "0".repeat(104));
    // 0.75, and NaNs: of a NaN, of infinities that cancel out, and of a signalling one
    let nan = "000000000000f87f";
    let difference = format!("000000000000e83f{nan}{nan}{nan}{}", "0".repeat(64));
    // Y as doubles: they are moved to row 2 as they are, since 0 is added
    let sum = format!("00000040caf24971{}0000003f{}", "0".repeat(8), "0".repeat(96));
    let expected =
        format!("step 0 done 64\nstep 1 done 64\nstep 2 done 64\nstep 3 refused 4\nz 0 {product}\nz 1 {difference}\nz 2 {sum}\nsteps 4\n");
    assert_eq!(said(&["run", name(&trace)]), expected);
    assert_eq!(said(&["run", name(&text)]), expected);
    assert_eq!(reference::trace(&fs::read(&trace).unwrap()), expected);
    let apart = said(&["dis", name(&trace)]);
    let first = "x 0 hex: 0000c03f000000800000807f01\nx 1 hex: 000000000000d03f000000000000f87f000000000000f0ff\n";
    assert!(apart.starts_with(first) && apart.ends_with(steps), "{apart}");
    let again = room.write("again.txt", apart);
    assert_eq!(said(&["run", name(&again)]), expected);
}

#[test]
fn a_float_that_is_none_is_refused_by_its_line() {
    let room = Room::new("no-floats");
    let trace = room.0.join("trace");
    for (text, message) in [
        ("x f32: 1.5\ny 2 f64: 1.5 one\n", "line 2: expected an f64 (1.5, -0, 2e-3, inf, -inf, nan, or its pattern, 0x..), not \"one\""),
        ("\n\nz 3 f32: 1e39", "line 3: 1e39 is beyond the largest f32"),
        ("z 3 f32: 0x7fc000001", "line 1: 0x7fc000001 is no pattern of 32 bits"),
        ("z 3 f64: 1 2 3 4 5 6 7 8 9", "line 1: z 3 f64 has 8 lanes, not 9"),
        (
            "z f64: 1",
            "line 1: expected x, x N, y, y N (N 0 to 7) or z N (0 to 63), then hex or a lane type (i8, i16, i32, u8, u16, u32, f32 or f64), \
             before the colon, not \"z f64\"",
        ),
        ("vecfp m2 mode=10 widths=4\nvecfp m2 mode=64", "line 2: alu_mode (bits 47..52) is 0 to 63, not 64"),
        ("fms64 m1 several", "line 1: fms64 has no field \"several\"; it has skip_x, "),
        ("vecfp m1 broadcast_mode=1", "line 1: broadcast_mode (bits 32..34) is there only with several vectors (bit 31 set, on M2)"),
    ] {
        let file = room.write("wrong.txt", text);
        fails(TEXT, &["asm", name(&file), "-o", name(&trace)], &format!("wrong.txt, {message}"));
    }
    assert_eq!(room.names(), ["wrong.txt"]);
}

#[test]
fn an_old_text_is_told_the_line_to_write() {
    let room = Room::new("old");
    let types = "(i8, i16, i32, u8, u16, u32, f32 or f64)";
    for (text, line, place, hex) in [("\nx: 0300 fdff\n", 2, "x", "0300 fdff"), ("x 3: 05\nmac16 m1\n", 1, "x 3", "05")] {
        let file = room.write("old.txt", text);
        let message = format!(
            "old.txt, line {line}: {place}: does not say what the numbers are: for bytes in hex write \"{place} hex: {hex}\", \
             for numbers \"{place} i16: ...\" {types}\n"
        );
        fails(TEXT, &["asm", name(&file), "-o", name(&room.0.join("trace"))], &message);
        fails(TEXT, &["run", name(&file)], &message);
    }
    assert_eq!(room.names(), ["old.txt"]);
}

#[test]
fn repeated_steps_are_assembled_run_and_taken_apart() {
    let room = Room::new("repeat");
    let text =
        "x i16: 3\ny i16: 2 # 6\nrepeat r in 0..3 {\n  mac16 m1 vector z_row=2*r # rows 0, 2 and 4\n}\nrepeat r in 1..2 { raw 15 1 r }\n";
    let (text, trace) = (room.write("repeat.txt", text), room.0.join("repeat.amx"));
    said(&["asm", name(&text), "-o", name(&trace)]);
    let steps = "mac16 m1 vector\nmac16 m1 vector z_row=2\nmac16 m1 vector z_row=4\nraw 15 1 0x1\n";
    assert_eq!(said(&["dis", name(&trace)]), format!("x 0 hex: 03\ny 0 hex: 02\n{steps}"));
    let rows: String = [0, 2, 4].map(|row| format!("z {row} 0600{}\n", "0".repeat(124))).concat();
    let expected = format!("step 0 done 64\nstep 1 done 64\nstep 2 done 64\nstep 3 refused 3\n{rows}steps 4\n");
    assert_eq!(said(&["run", name(&text)]), expected);
    assert_eq!(said(&["run", name(&trace)]), expected);
    for (text, message) in [
        ("\nrepeat r in 0..64 { mac16 m1 z_row=2*r }", "line 2, r = 32: z_row (bits 20..25) is 0 to 63, not 64\n"),
        ("repeat r in 0..64 {\nmac16 m1\n", "line 1: the block of r is not closed: expected }\n"),
        ("repeat r in 0..1000001 { mac16 m1 }", "line 1: a trace holds at most 1,000,000 steps, and this block makes 1,000,001 after 0\n"),
        (&format!("mac16 m1 # {}\n", "-".repeat(70_000)), "line 1: a line has at most 65,536 bytes\n"),
    ] {
        let wrong = room.write("wrong.txt", text);
        fails(TEXT, &["asm", name(&wrong), "-o", name(&room.0.join("none"))], &format!("wrong.txt, {message}"));
    }
    assert_eq!(room.names(), ["repeat.amx", "repeat.txt", "wrong.txt"]);
}

/// Lines that end as on other systems, tabs, and the mark that some editors begin a text with.
#[test]
fn a_text_is_read_whatever_editor_wrote_it() {
    let room = Room::new("editors");
    let text = "x i16: 3\ny i16: 2  # 6\nrepeat r in 0..2 {\n  load z 5 i16: r\n  mac16 m1 vector z_row=r\n}\n";
    let expected = said(&["run", name(&room.write("plain.txt", text))]);
    let dos = text.replace('\n', "\r\n").replace("  ", "\t");
    for other in [&dos, dos.trim_end(), &format!("\u{feff}{text}"), &format!("\u{feff}{dos}")] {
        assert_eq!(said(&["run", name(&room.write("other.txt", other))]), expected, "{other:?}");
    }
    let later = room.write("later.txt", format!("{text}\u{feff}mac16 m1\n"));
    fails(TEXT, &["run", name(&later)], "later.txt, line 7: expected fms64, mac16");
}

#[test]
fn indexed_loads_are_assembled_run_and_taken_apart() {
    let room = Room::new("indexed");
    // X by the indices 3, 2, 1 and 0 and so on into register 1, times 1 in Y; and a shuffle, which is not covered
    let steps = "vecint m1 indexed index_register=1\nvecint m2 indexed index_4_bits index_y y_shuffle=1\n";
    let text = room.write("indexed.txt", format!("x hex: 1b\nx 1 i16: 10 20 30 40\ny i16: 1 1 1 1\n{steps}"));
    let trace = room.0.join("indexed.amx");
    said(&["asm", name(&text), "-o", name(&trace)]);
    let expected = format!("step 0 done 64\nstep 1 refused 4\nz 0 28001e0014000a00{}\nsteps 2\n", "0".repeat(112));
    assert_eq!(said(&["run", name(&trace)]), expected);
    assert_eq!(reference::trace(&fs::read(&trace).unwrap()), expected);
    assert!(said(&["dis", name(&trace)]).ends_with(steps));
    assert!(
        said(&["lanes", "vecint m1 indexed index_register=1 widths=12 enable_value=1"])
            .starts_with("done 64 bytes, lanes of 32 bits\nz 3   ####")
    );
}

#[test]
fn help_says_all_of_it_and_wrong_words_are_refused() {
    let help = said(&["--help"]);
    // every field by its name
    for operand in [0, 1 << 31, 4 << 47, 1 << 53] {
        for instruction in amx::Instruction::ALL {
            for field in amx::fields(instruction, amx::Generation::M2, operand) {
                assert!(help.split_whitespace().any(|word| word.trim_end_matches(';') == field.short), "{}", field.short);
            }
        }
    }
    fails(USAGE, &[], "expected a command: run, why, diff, picture, asm, dis, cut, explain, lanes\n\namx: the proved AMX unit");
    fails(
        USAGE,
        &["assemble"],
        "expected a command (run, why, diff, picture, asm, dis, cut, explain, lanes), not \"assemble\"; amx --help tells more",
    );
    fails(USAGE, &["asm", "text"], "expected asm TEXT -o TRACE: -o is missing");
    fails(USAGE, &["dis"], "expected dis TRACE [--as TYPE]: 0 words given");
    fails(USAGE, &["run"], "expected run FILE [--as TYPE | --matrix] [--strict] [--summary | --json]: 0 words given");
    fails(USAGE, &["run", "a", "--loud"], "there is no option --loud");
}
