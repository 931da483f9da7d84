//! Lanes as numbers, and registers loaded between steps, through the command `amx`.
mod common;

use amx::{LaneType, Register, State, Width, text};
use common::{Room, TEXT, USAGE, amx, fails, name, said};
use std::fs;

#[test]
fn rows_are_printed_as_numbers_of_every_type() {
    let room = Room::new("types");
    let text = room.write("text", "x i16: 3 -3\ny i16: 2 7\nmac16 m1 vector z_row=3\n");
    let rows = |form: &str| said(&["run", name(&text), "--as", form]).lines().nth(1).unwrap().to_owned();
    for (form, row) in [
        ("i8", "z 3 i8: 6 0 -21 -1"),
        ("u8", "z 3 u8: 6 0 235 255"),
        ("i16", "z 3 i16: 6 -21"),
        ("u16", "z 3 u16: 6 65515"),
        ("i32", "z 3 i32: -1376250"),
        ("u32", "z 3 u32: 4293591046"),
        ("f32", "z 3 f32: 0xffeb0006"),
        ("f64", "z 3 f64: 2.121315833e-314"),
    ] {
        assert_eq!(rows(form), row);
        // what is printed can be written
        let again = room.write("again", format!("{row}\n"));
        let trace = text::assemble(&fs::read_to_string(&again).unwrap()).unwrap();
        assert_eq!(trace.start().row(Register::Z(3))[..4], [6, 0, 0xeb, 0xff], "{form}");
    }
    fails(USAGE, &["run", name(&text), "--as", "i64"], "--as: ");
    fails(USAGE, &["run", name(&text), "--as", "i16", "--matrix"], "--as and --matrix are both given");
    let json = String::from_utf8(amx(&["run", name(&text), "--json", "--as", "i16"]).stdout).unwrap();
    assert!(json.contains(&format!("\"rows\":[{{\"row\":3,\"i16\":[6,-21{}]}}]", ",0".repeat(30))), "{json}");
    let json = String::from_utf8(amx(&["run", name(&text), "--json", "--as", "f32"]).stdout).unwrap();
    assert!(json.contains("\"f32\":[\"0xffeb0006\",\"0\""), "{json}");
}

#[test]
fn a_row_that_became_0_is_printed() {
    let room = Room::new("zero");
    let text = room.write("text", "z 3 i16: 5\nvecint m2 mode=10 z_row=3\n");
    assert_eq!(said(&["run", name(&text), "--as", "i16"]), "step 0 done 64\nz 3 i16: 0\nsteps 1\n");
}

#[test]
fn a_trace_is_taken_apart_as_numbers_and_put_together_again() {
    let room = Room::new("apart");
    let text = room.write("text", "x i16: 3 -3\nz 5 f32: 1.5\nmac16 m1\n");
    let (trace, again) = (room.0.join("trace"), room.0.join("again"));
    said(&["asm", name(&text), "-o", name(&trace)]);
    assert_eq!(said(&["dis", name(&trace), "--as", "i16"]), "x 0 i16: 3 -3\nz 5 i16: 0 16320\nmac16 m1\n");
    for form in LaneType::ALL {
        let apart = room.write("apart", said(&["dis", name(&trace), "--as", form.name()]));
        said(&["asm", name(&apart), "-o", name(&again)]);
        assert!(fs::read(&trace).unwrap() == fs::read(&again).unwrap(), "{form}");
    }
}

#[test]
fn a_matrix_is_printed_as_it_was_multiplied() {
    let room = Room::new("matrix");
    let text = room.write("text", "x i16: 1 2 3\ny i16: 10 -100\nmac16 m1 z_i32\n");
    let printed = said(&["run", name(&text), "--matrix"]);
    let lines: Vec<&str> = printed.lines().collect();
    assert_eq!((lines.len(), lines[0], lines[34]), (35, "step 0 done 4096", "steps 1"));
    let numbers = |line: &str| line[3..].split_whitespace().map(|word| word.parse().unwrap()).collect::<Vec<i32>>();
    assert_eq!(numbers(lines[2])[..4], [10, 20, 30, 0]);
    assert_eq!(numbers(lines[3])[..4], [-100, -200, -300, 0]);
    assert!(lines[4..34].iter().all(|line| numbers(line) == [0; 32]));
    assert!(lines[2..34].iter().all(|line| line.len() == lines[2].len()), "columns stand below each other");
    let json = String::from_utf8(amx(&["run", name(&text), "--matrix", "--json"]).stdout).unwrap();
    assert!(json.contains("\"matrix\":[[10,20,30,0,") && json.contains("],[-100,-200,-300,0,"), "{json}");
}

const LOADS: &str = "x i16: 3
y i16: 2
mac16 m1 vector
repeat r in 1..3 {
  load x 0 i16: 10*r
  mac16 m1 vector z_row=r
  vecint m1 reserved=1
}
load y 0 hex:
load z 9 i16: 7
";

#[test]
fn registers_are_loaded_between_steps() {
    let room = Room::new("loads");
    let text = room.write("text", LOADS);
    assert_eq!(
        said(&["run", name(&text), "--as", "i16"]),
        "step 0 done 64\nstep 1 done 64\nstep 2 no-op 1\nstep 3 done 64\nstep 4 no-op 1\n\
         z 0 i16: 6\nz 1 i16: 20\nz 2 i16: 40\nz 9 i16: 7\nsteps 5\n"
    );
    fails(USAGE, &["cut", name(&text), "--after", "1", "-o", name(&room.0.join("rest"))], "text: registers are loaded between its steps");
    assert_eq!(room.names(), ["text"]);
}

#[test]
fn a_trace_is_written_for_each_stretch_between_loads() {
    let room = Room::new("stretches");
    let text = room.write("kernel.txt", LOADS);
    let target = room.0.join("kernel.amx");
    let names = [0, 1, 2].map(|number| room.0.join(format!("kernel-{number}.amx")));
    let told = format!("{}: 1 step\n{}: 2 steps\n{}: 2 steps\n", name(&names[0]), name(&names[1]), name(&names[2]));
    let output = amx(&["asm", name(&text), "-o", name(&target)]);
    assert_eq!((output.status.code(), String::from_utf8(output.stdout).unwrap()), (Some(0), told));
    // no trace has the last loads
    let note = format!("{}: what is loaded after the last step is in no trace\n", name(&text));
    assert_eq!(String::from_utf8(output.stderr).unwrap(), note);
    assert_eq!(room.names(), ["kernel-0.amx", "kernel-1.amx", "kernel-2.amx", "kernel.txt"]);
    // the same files as the library makes, and each starts where the one before ended
    let traces = text::assemble_all(LOADS).unwrap();
    let mut last: Option<State> = None;
    for (trace, file) in traces.iter().zip(&names) {
        assert!(trace.to_bytes() == fs::read(file).unwrap());
        if let Some(last) = last {
            assert_eq!(trace.start().row(Register::Z(0)), last.row(Register::Z(0)));
        }
        last = Some(trace.run().0);
    }
    assert_eq!(last.unwrap().signed_lane(Register::Z(2), 0, Width::Bits16), 40);
    // all or none: the last name is a directory
    names.iter().for_each(|name| fs::remove_file(name).unwrap());
    fs::create_dir(&names[2]).unwrap();
    assert_eq!(amx(&["asm", name(&text), "-o", name(&target)]).status.code(), Some(3));
    assert_eq!(room.names(), ["kernel-2.amx", "kernel.txt"]);
    for to in ["-", "/dev/null"] {
        fails(USAGE, &["asm", name(&text), "-o", to], "makes 3 traces, one for each stretch between loads: name a file");
    }
}

#[test]
fn loads_before_the_first_step_make_one_trace() {
    let room = Room::new("first");
    let trace = room.0.join("trace");
    for (text, start) in [("load x 0 i16: 3\nmac16 m1 vector\n", "x 0 hex: 03\nmac16 m1 vector\n"), ("load x 0 i16: 3\n", "x 0 hex: 03\n")]
    {
        let file = room.write("text", text);
        assert_eq!(said(&["asm", name(&file), "-o", name(&trace)]), "");
        assert_eq!(said(&["dis", name(&trace)]), start);
        // to a pipe too
        let piped = amx(&["asm", name(&file), "-o", "-"]);
        assert!(piped.status.success() && piped.stdout == fs::read(&trace).unwrap());
    }
    let often = room.write("often", "repeat r in 0..1001 { load x 0 u16: r; mac16 m1 }\n");
    fails(USAGE, &["asm", name(&often), "-o", name(&trace)], "it makes 1001 traces, at most 1000 are written");
    assert!(said(&["run", name(&often)]).ends_with("steps 1001\n"));
    fails(TEXT, &["run", name(&room.write("wrong", "load x 8 i16: 3\nmac16 m1\n"))], "wrong, line 1: ");
}
