//! `amx why` and `amx diff`: what became of a lane, and where two traces part.
mod common;

use amx::{Call, Register, State, Width, random::Random, text};
use common::{FILE, REFUSED, Room, TEXT, USAGE, amx, fails, fed, name, said};

const KERNEL: &str = "x i16: 3 -3
y i16: 2 7
mac16 m1 vector z_row=3
mac16 m1 vector z_row=4
vecint m1 mode=4 z_signed shift=2 rounding z_row=3
vecint m1 mode=11 z_row=3
";

#[test]
fn each_step_that_wrote_a_lane_is_told_with_its_numbers() {
    let room = Room::new("why");
    let text = room.write("kernel", KERNEL);
    assert_eq!(
        said(&["why", name(&text), "z", "3", "1"]),
        "step 0 mac16 m1 vector z_row=3: x -3, y 7, z 0 gives -21\n\
         step 2 vecint m1 mode=4 z_signed shift=2 rounding z_row=3: z -21 gives -5\n\
         z 3 lane 1 (i16) was 0 and is -5: 2 of 4 steps wrote it\n"
    );
    assert_eq!(said(&["why", name(&text), "z", "5", "0"]), "z 5 lane 0: no step of 4 wrote it\n");
    assert_eq!(said(&["why", name(&text), "z", "5", "0", "--as", "u8"]), "z 5 lane 0 (u8) was 0 and is 0: 0 of 4 steps wrote it\n");
    // from a pipe, and from where a run was stopped
    let trace = text::assemble(KERNEL).unwrap();
    let output = fed(&["why", "-", "z", "3", "1"], &trace.cut(1).unwrap().to_bytes(), 4_096);
    assert_eq!(
        String::from_utf8(output.stdout).unwrap(),
        "step 2 vecint m1 mode=4 z_signed shift=2 rounding z_row=3: z -21 gives -5\nz 3 lane 1 (i16) was -21 and is -5: 1 of 3 steps wrote it\n"
    );
}

#[test]
fn what_was_wrapped_or_clamped_is_told() {
    let room = Room::new("kept");
    let text = room.write(
        "text",
        "x i16: 1\ny i16: 1\nz 0 i16: 32767\nz 1 i16: 300\nz 2 f32: 16777216\nx 1 f32: 1\n\
         mac16 m1 vector\nvecint m1 mode=4 widths=11 z_signed saturate saturate_signed z_row=1\n\
         vecfp m2 mode=11 widths=4 z_row=2 x=64\nvecint m2 enable_value=3\n",
    );
    let first = |row: &str, read_as: &str| said(&["why", name(&text), "z", row, "0", "--as", read_as]).lines().next().unwrap().to_owned();
    assert_eq!(first("0", "i16"), "step 0 mac16 m1 vector: x 1, y 1, z 32767 gives 32768, wrapped to -32768");
    assert_eq!(first("0", "u16"), "step 0 mac16 m1 vector: x 1, y 1, z 32767 gives 32768");
    assert_eq!(
        first("1", "i16"),
        "step 1 vecint m1 mode=4 z_signed widths=11 saturate saturate_signed z_row=1: z 300 gives 300, clamped to 127"
    );
    // a float is rounded: 2^24 + 1 is not there
    assert_eq!(first("2", "f32"), "step 2 vecfp m2 mode=11 widths=4 z_row=2 x=64: x 1, z 16777216 gives 16777216");
    let all = said(&["why", name(&text), "z", "0", "0"]);
    assert!(all.contains("step 3 vecint m2 enable_value=3: it becomes 0 (z was -32768)\n"), "{all}");
}

#[test]
fn lanes_of_other_widths_that_share_bytes_are_told() {
    let room = Room::new("shared");
    let text =
        room.write("text", "x i16: 1 1\ny i16: 1 1\nmac16 m1 vector\nload z 0 i16: 5\nmac16 m1 z_i32 x_enable_mode=1 y_enable_mode=1\n");
    assert_eq!(
        said(&["why", name(&text), "z", "0", "0"]),
        "step 0 mac16 m1 vector: x 1, y 1, z 0 gives 1\n\
         load z 0: 1 becomes 5\n\
         step 1 mac16 m1 z_i32 x_enable_mode=1 y_enable_mode=1: lane 0 of 32 bits: x 1, y 1, z 5 gives 6; so 5 becomes 6\n\
         z 0 lane 0 (i16) was 0 and is 6: 2 of 2 steps wrote it\n\
         steps write lanes of 32 bits in row 0, 0 to 15: --as tells which are meant\n"
    );
    assert_eq!(
        said(&["why", name(&text), "z", "0", "0", "--as", "i32"]).lines().next().unwrap(),
        "step 0 mac16 m1 vector: lane 0 of 16 bits: x 1, y 1, z 0 gives 1; lane 1 of 16 bits: x 1, y 1, z 0 gives 1; so 0 becomes 65537"
    );
}

#[test]
fn loads_are_told_whenever_they_come() {
    let room = Room::new("told-loads");
    // before it is known how the lane is read, and in a row that no step writes
    let text = room.write(
        "text",
        "x i16: 1\ny i16: 1\nload z 0 i16: 5\nload z 0 i32: 7\nload z 9 i16: -1\nmac16 m1 z_i32 x_enable_mode=1 y_enable_mode=1\nload z 0 i32: -1\n",
    );
    assert_eq!(
        said(&["why", name(&text), "z", "0", "0"]),
        "load z 0 2 times: 0 becomes 7\n\
         step 0 mac16 m1 z_i32 x_enable_mode=1 y_enable_mode=1: x 1, y 1, z 7 gives 8\n\
         load z 0: 8 becomes -1\n\
         z 0 lane 0 (i32) was 0 and is -1: 1 of 1 step wrote it\n"
    );
    let loaded = |lane: &str| said(&["why", name(&text), "z", "9", lane]);
    assert_eq!(loaded("0"), "load z 9: 0 becomes -1\nz 9 lane 0 (i16) was 0 and is -1: 0 of 1 step wrote it\n");
    assert_eq!(loaded("40"), "load z 9: 0 becomes 0\nz 9 lane 40 (i8) was 0 and is 0: 0 of 1 step wrote it\n");
    // a number that the lanes of the row do not have
    let wide = room.write("wide", "mac16 m1 z_i32\n");
    assert_eq!(
        said(&["why", name(&wide), "z", "3", "20"]),
        "z 3 lane 20: no step of 1 wrote it\nsteps write lanes of 32 bits in row 3, 0 to 15: --as tells which are meant\n"
    );
}

/// The last number of every lane is the run's.
#[test]
fn the_last_number_is_that_of_the_run() {
    let room = Room::new("last");
    let mut random = Random::new(31);
    let trace = random.trace(60);
    let (file, end) = (room.write("trace", trace.to_bytes()), trace.run().0);
    for _ in 0..25 {
        let (row, lane) = (random.below(64) as usize, random.below(32) as usize);
        let text = said(&["why", name(&file), "z", &row.to_string(), &lane.to_string(), "--as", "i16"]);
        let number = |state: &State| state.signed_lane(Register::Z(row), lane, Width::Bits16);
        let words = format!("z {row} lane {lane} (i16) was {} and is {}: ", number(trace.start()), number(&end));
        assert!(text.contains(&words), "{words}in\n{text}");
    }
}

#[test]
fn words_that_name_no_lane_are_refused() {
    let room = Room::new("no-lane");
    let text = room.write("kernel", KERNEL);
    for (words, message) in [
        (&["why", name(&text), "z", "64", "0"][..], "ROW is 0 to 63, not \"64\""),
        (&["why", name(&text), "z", "3", "64"], "LANE is 0 to 63, not \"64\""),
        (&["why", name(&text), "z", "3", "32", "--as", "i16"], "LANE is 0 to 31, not \"32\""),
        (&["why", name(&text), "x", "3", "0"], "steps write z, not \"x\""),
        (&["why", name(&text), "z", "3"], "expected why FILE z ROW LANE [--as TYPE]: 3 words given"),
        (&["diff", name(&text)], "expected diff A B [--as TYPE]: 1 word given"),
        (&["diff", "-", "-"], "standard input is read once, and cannot be both"),
    ] {
        fails(USAGE, words, message);
    }
    fails(FILE, &["diff", name(&text), name(&room.0.join("absent"))], "absent: ");
    fails(TEXT, &["why", name(&room.write("wrong", "mac16 m3\n")), "z", "0", "0"], "wrong, line 1: ");
    fails(REFUSED, &["diff", name(&room.write("empty", "")), name(&text)], "empty: file refused 5");
}

/// What `diff` says, and its status.
fn parts(a: &str, b: &str) -> (i32, String) {
    let room = Room::new("diff");
    let output = amx(&["diff", name(&room.write("a", a)), name(&room.write("b", b))]);
    let text = String::from_utf8(output.stdout).unwrap().replace(&format!("{}/", name(&room.0)), "");
    (output.status.code().unwrap(), text)
}

#[test]
fn two_traces_part_in_a_step_and_a_lane() {
    assert_eq!(parts(KERNEL, KERNEL), (0, "4 steps: the same answers, and Z parts in no step\n".to_owned()));
    assert_eq!(
        parts(KERNEL, &KERNEL.replace(" rounding", "")),
        (
            1,
            "step 2 parts them: z 3 lane 0 (i16) is 2 and 1\n\
             \x20 a: vecint m1 mode=4 z_signed shift=2 rounding z_row=3: done 64 bytes, z 6 gives 2\n\
             \x20 b: vecint m1 mode=4 z_signed shift=2 z_row=3: done 64 bytes, z 6 gives 1\n\
             after it 1 more lane of z differs\n"
                .to_owned()
        )
    );
    let (status, text) = parts(KERNEL, &KERNEL.replace("2 7", "2 8"));
    assert_eq!(status, 1);
    assert!(text.starts_with("before step 0: y 0 lane 1 (i16) is 7 and 8, and no other lane of y differs\nstep 0 parts them: z 3 lane 1 (i16) is -21 and -24\n"), "{text}");
    assert!(text.ends_with("x -3, y 8, z 0 gives -24\nafter it no other lane of z differs\n"), "{text}");
}

#[test]
fn answers_ends_and_steps_that_change_nothing_are_told() {
    let (status, text) = parts(KERNEL, &KERNEL.replace("vecint m1 mode=11", "vecint m2 mode=11 enable_mode=6"));
    assert_eq!((status, text.lines().next().unwrap()), (1, "step 3 parts them: the answers differ, and no lane"));
    assert!(text.contains("  a: vecint m1 mode=11 z_row=3: no-op 3: ALU modes 10 to 12 are not on M1\n"), "{text}");
    // a step that does not write the lane
    let (_, text) = parts(KERNEL, &KERNEL.replacen("z_row=4", "z_row=5", 1));
    assert!(text.contains("  b: mac16 m1 vector z_row=5: done 64 bytes, and does not write it\n"), "{text}");
    let (status, text) = parts(KERNEL, &format!("{KERNEL}mac16 m1\n"));
    assert_eq!((status, text.as_str()), (1, "a ends after 4 steps, and b goes on: no step up to there parts them\n"));
    // another operand with the same effect
    let (status, text) = parts(KERNEL, &KERNEL.replace("mac16 m1 vector z_row=4", "mac16 m2 vector z_row=4"));
    let lines = "step 1 differs, and does the same: mac16 m1 vector z_row=4 and mac16 m2 vector z_row=4\n4 steps: the same answers, and Z parts in no step\n";
    assert_eq!((status, text.as_str()), (1, lines));
}

#[test]
fn registers_that_loads_make_differ_are_told() {
    let step = "mac16 m1 vector\n";
    let same = "2 steps: the same answers, and Z parts in no step\n";
    for (loads, told) in [
        ("load z 5 i16: 1 2", "before step 1: z 5 lane 0 (i16) is 0 and 1, and 1 more lane of z differs\n"),
        ("load x 5 i16: 0 7", "before step 1: x 5 lane 1 (i16) is 0 and 7, and no other lane of x differs\n"),
    ] {
        assert_eq!(parts(&step.repeat(2), &format!("{step}{loads}\n{step}")), (1, format!("{told}{same}")));
        let at_end = told.replace("before step 1", "at the end");
        assert_eq!(parts(&step.repeat(2), &format!("{step}{step}{loads}\n")), (1, format!("{at_end}{same}")));
    }
    // what they load may part the traces in a step
    let kernel = "x i16: 1\ny i16: 1\nmac16 m1 vector\n";
    let (status, text) = parts(&format!("{kernel}load y 0 i16: 2\n{step}"), &format!("{kernel}load y 0 i16: 3\n{step}"));
    let first =
        "before step 1: y 0 lane 0 (i16) is 2 and 3, and no other lane of y differs\nstep 1 parts them: z 0 lane 0 (i16) is 3 and 4\n";
    assert!(status == 1 && text.starts_with(first), "{text}");
}

/// A lane that differs from the start does not part them when the difference reaches another byte.
#[test]
fn a_lane_that_differed_before_is_not_parted() {
    let text = |z: i32| format!("x i16: 1\ny i16: 1\nz 0 i16: {z}\nrepeat r in 0..3 {{ mac16 m1 vector }}\n");
    let told = "before step 0: z 0 lane 0 (i16) is 253 and 254, and no other lane of z differs\n";
    assert_eq!(parts(&text(253), &text(254)), (1, format!("{told}3 steps: the same answers, and Z parts in no step\n")));
}

#[test]
fn one_that_ends_before_the_other_begins_is_told() {
    let room = Room::new("short");
    let rest = room.write("rest", text::assemble(KERNEL).unwrap().cut(2).unwrap().to_bytes());
    let short = room.write("short", "mac16 m1 vector\n");
    for files in [[&short, &rest], [&rest, &short]] {
        let output = amx(&["diff", name(files[0]), name(files[1])]);
        let told = format!("{} ends after 1 step, and {} goes on from step 2\n", name(&short), name(&rest));
        assert_eq!((output.status.code(), String::from_utf8(output.stdout).unwrap()), (Some(1), told));
    }
}

#[test]
fn a_rest_is_compared_with_the_whole() {
    let room = Room::new("rest");
    let trace = text::assemble(KERNEL).unwrap();
    let (whole, rest) = (room.write("whole", trace.to_bytes()), room.write("rest", trace.cut(2).unwrap().to_bytes()));
    for files in [[&whole, &rest], [&rest, &whole]] {
        assert_eq!(said(&["diff", name(files[0]), name(files[1])]), "4 steps: the same answers, and Z parts in no step\n");
    }
}

/// Traces that differ in one record part in that step or later, and in the lane that differs first.
#[test]
fn the_step_that_parts_two_traces_is_the_first() {
    let room = Room::new("first");
    let mut random = Random::new(41);
    for _ in 0..20 {
        let a = random.trace(12);
        let (place, mut b) = (random.below(12) as usize, amx::Trace::new(a.start().clone()));
        let other = random.call();
        for (n, &record) in a.records().iter().enumerate() {
            b.push(if n == place { other.try_into().unwrap_or(record) } else { record }).unwrap();
        }
        let ends = |trace: &amx::Trace, steps: usize| {
            let calls: Vec<Call> = trace.records()[..steps].iter().map(|&record| record.into()).collect();
            let mut state = trace.start().clone();
            let answers = amx::run(&mut state, &calls);
            (state.registers()[1_024..].to_vec(), answers)
        };
        let first = (1..=12).find(|&steps| ends(&a, steps) != ends(&b, steps));
        let output = amx(&["diff", name(&room.write("a", a.to_bytes())), name(&room.write("b", b.to_bytes()))]);
        let text = String::from_utf8(output.stdout).unwrap();
        match first {
            Some(steps) => assert!(text.contains(&format!("step {} parts them", steps - 1)), "{steps}: {text}"),
            None => assert!(text.ends_with("the same answers, and Z parts in no step\n"), "{text}"),
        }
    }
}
