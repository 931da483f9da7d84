//! `amx explain` and `amx lanes` from outside: what is said of an operand, and that it is so.
mod common;

use amx::{Call, Generation, Instruction, State, explain, random::Random, reference, step};
use common::{USAGE, fails, said};
use std::collections::BTreeSet;

/// What is said of a step.
fn explained(step: &str) -> String {
    explain(step.parse().unwrap()).unwrap().to_string()
}

/// The words of a field of a step, with what is said of its being ignored.
fn words(step: &str, field: &str) -> String {
    let text = explained(step);
    let line = text.lines().find(|line| line.split_whitespace().any(|word| word == field)).unwrap_or_else(|| panic!("{field} in\n{text}"));
    let about = line.find(": ").map(|at| at + 2).or(line.find(" (").filter(|_| line.ends_with("ignored)")));
    about.map_or(String::new(), |at| line[at..].trim().to_owned())
}

#[test]
fn an_operand_is_explained() {
    let text = said(&["explain", "18", "2", "0x8200_0000_8230_0040"]);
    for line in [
        "vecint on M2, operand 0x8200000082300040\n",
        "  bit 63       x_signed         1    X is signed (1) or unsigned (0)\n",
        "  bits 47..52  mode             0    ALU mode: z + ((x*y) >> s)\n",
        "  bits 32..34  broadcast_mode   0    broadcast mode: X and Y of each vector\n",
        "  bit 25       four             1    four vectors (1) or two (0)\n",
        "  bits 20..24  z_row            3    Z row of the first vector: rows 3, 19, 35, 51 (bit 24 ignored)\n",
        "ignored and set: bit 57\n",
        "ignored here: bits 9, 19, 24, 35..41, 46, 57\n",
        "normal operand 0x8000000082300040\n",
        "answer: done 256 bytes\nwrites z 3, 19, 35, 51 lanes 0..31 (16 bits)\n",
    ] {
        assert!(text.contains(line), "{line}in\n{text}");
    }
    assert_eq!(said(&["explain", "vecint m2 several four z_row=3 y=64 x_signed bits=0x200_0000_0000_0000"]), text);
    assert!(said(&["explain", "18 1 0x40000000000000"]).ends_with("answer: no-op 1: bits 54..56 are not all 0\nwrites nothing\n"));
    let text = said(&["explain", "vecint", "m1", "x_shuffle=1"]);
    assert!(
        text.contains("no ignored bit is set\nnot covered here: x_shuffle\nanswer: refused 4: not covered are shuffles (but in "),
        "{text}"
    );
    fails(USAGE, &["explain", "15", "1", "0"], "refused 3: the instruction is not 11 (fms64), 14 (mac16), 18 (vecint) or 19 (vecfp)");
    fails(USAGE, &["explain", "14", "1"], "expected explain INSTRUCTION GENERATION OPERAND, or a step as in a text: 2 numbers given");
    fails(USAGE, &["explain"], "expected explain INSTRUCTION GENERATION OPERAND");
    fails(USAGE, &["explain", "14", "1", "1e3"], "expected a number of 64 bits (12, 0x1f or 0b101), not \"1e3\"");
    fails(USAGE, &["explain", "mac17", "m1"], "not \"mac17\"");
}

#[test]
fn an_indexed_load_is_explained() {
    let text = said(&["explain", "vecint m2 several four indexed index_register=3 index_4_bits widths=11 x=200 bits=0x10000000000000"]);
    for line in [
        "  bit 53       indexed          1    indexed load (1) or plain load (0): as ALU mode 0, z + ((x*y) >> s)\n",
        "  bits 49..51  index_register   3    register to index into: bytes 192..255 of X\n",
        "  bit 48       index_4_bits     1    indices of 4 bits (1) or 2 bits (0): lowest bits first\n",
        "  bit 47       index_y          0    indexed load of Y (1) or X (0): element k of X is the register's element that the k-th index names\n",
        "  bits 10..18  x                200  X offset in bytes: 32 bytes of indices are there, and for each next vector 32 bytes on\n",
        "  bits 0..8    y                0    Y offset in bytes\n",
        "ignored and set: bit 52\n",
        "ignored here: bits 9, 19..20, 24, 35..41, 46, 52, 57\n",
        "normal operand 0x00272c0082032000\n",
        "answer: done 512 bytes\nwrites z 0..1, 16..17, 32..33, 48..49 lanes 0..31 (16 bits)\n",
    ] {
        assert!(text.contains(line), "{line}in\n{text}");
    }
    for (step, side, indices) in [
        ("vecint m1 indexed index_y index_register=7 y=500", "Y", "8 bytes of indices are there"),
        ("vecint m1 indexed index_y index_4_bits widths=12", "Y", "16 bytes of indices are there"),
        ("vecint m1 indexed index_y index_4_bits widths=13", "Y", "32 bytes of indices are there"),
        ("vecint m2 several indexed widths=12 broadcast_mode=6", "X", "16 bytes of indices are there, the same for all vectors"),
        ("vecint m2 several indexed index_y broadcast_mode=3", "Y", "8 bytes of indices are there, the same for all vectors"),
        ("vecint m2 several indexed broadcast_mode=3", "X", "8 bytes of indices are there, and for each next vector 8 bytes on"),
    ] {
        let (text, words) = (said(&["explain", step]), format!("{side} offset in bytes: {indices}\n"));
        assert!(text.contains(&words), "{words}in\n{text}");
    }
    // no mode's words, though the register's bits read as mode 4; and bit 52 is the mode's without an indexed load
    let text = said(&["explain", "vecint m1 indexed index_register=1 widths=3"]);
    assert!(text.contains("X 16, Y 16, Z 32 bits\n") && text.contains("answer: done 128 bytes\n"), "{text}");
    assert!(said(&["explain", "vecint m1"]).contains("ignored here: bits 9, 19, 31, 41, 46, 57\n"));
    assert!(said(&["explain", "vecint m2 indexed y_shuffle=2"]).contains("not covered here: y_shuffle\nanswer: refused 4: "));
    assert!(said(&["explain", "vecint m2 indexed y_shuffle=2 reserved=4"]).contains("answer: no-op 1: bits 54..56"));
}

#[test]
fn a_vecfp_is_explained() {
    let text = said(&["explain", "vecfp m2 mode=10 widths=4 enable_mode=2 enable_value=3 z_row=3 y=64 bits=0x8000_0020_0400_0000"]);
    for line in [
        "vecfp on M2, operand 0x800510a304300040\n",
        "  bits 47..52  mode             10   ALU mode: x*y\n",
        "  bits 42..45  widths           4    lane widths: X, Y and Z f32\n",
        "  bits 32..36  enable_value     3    enable value, or the lane of Y that is broadcast: the first 3 lanes\n",
        "  bits 20..25  z_row            3    Z row\n",
        "ignored and set: bits 26, 37, 63\n",
        "ignored here: bits 9, 19, 26, 37, 41, 46, 57..63\n",
        "normal operand 0x0005108300300040\n",
        "answer: done 12 bytes\n",
    ] {
        assert!(text.contains(line), "{line}in\n{text}");
    }
    for (step, words) in [
        ("vecfp m1 mode=4 widths=7", "ALU mode: +0 where x <= 0, else y\n"),
        ("vecfp m1 mode=4 widths=7", "lane widths: X, Y and Z f64\n"),
        ("vecfp m1 mode=4 widths=7", "ignored here: bits 9, 19, 26, 31, 37, 41, 46, 57..63\n"),
        ("vecfp m2 several four mode=11 widths=4", "ignored here: bits 9, 19, 24, 26, 35..41, 46, 57..63\n"),
        ("vecfp m2 several mode=10 widths=4 broadcast_mode=4", "broadcast mode: X reads as 0\n"),
        ("vecfp m2 several mode=12 widths=4 broadcast_mode=4", "broadcast mode: Y of each vector\n"),
        ("vecfp m1 mode=12 widths=4", "answer: no-op 3: ALU modes 10 to 12 are not on M1\n"),
        (
            "vecfp m2 mode=2 widths=4",
            "answer: no-op 2: the ALU mode is none of the instruction's (vecint's are 0 to 6 and 10 to 12, vecfp's",
        ),
        ("vecfp m2 mode=4 widths=4 reserved=1", "answer: no-op 1: bits 54..56 are not all 0\n"),
        ("vecfp m2 widths=4", "ALU mode: z + x*y, not covered\n"),
        ("vecfp m2 widths=4", "not covered here: mode\nanswer: refused 4: "),
        ("vecfp m2 mode=10 widths=12 enable_value=1", "lane widths: X and Y floats of 16 bits, not covered\n"),
        ("vecfp m2 mode=7 y_shuffle=3 x_shuffle=1", "not covered here: mode, widths, x_shuffle, y_shuffle\n"),
        ("vecfp m2 mode=4 widths=4 y_shuffle=3", "not covered here: y_shuffle\n"),
        ("vecfp m1 indexed index_register=1 widths=4", "indexed load (1) or plain load (0): not covered\n"),
        ("vecfp m1 indexed index_register=1 widths=4", "not covered here: indexed\n"),
    ] {
        let text = said(&["explain", step]);
        assert!(text.contains(words), "{words}in\n{text}");
    }
}

#[test]
fn an_fms64_is_explained() {
    let text = said(&["explain", "11", "1", "0x4000_5000_13c0_0200"]);
    for line in [
        "fms64 on M1, operand 0x4000500013c00200\n",
        "  bits 41..45  x_enable_value   8    X enable value: no lane\n",
        "  bit 27       skip_z           0    skip old Z (1) or subtract from it (0): the lane becomes z - x\n",
        "  bits 20..25  z_row            60   Z row: no row is written (bits 23..25 ignored)\n",
        "ignored and set: bits 9, 23..25, 62\n",
        "ignored here: bits 9, 19, 23..26, 30..31, 39..40, 48..62\n",
        "normal operand 0x0000500010400000\n",
        "answer: done 0 bytes\nwrites nothing\n",
    ] {
        assert!(text.contains(line), "{line}in\n{text}");
    }
    for (skips, operation) in
        [("skip_y skip_z", "-x"), ("skip_x", "z - y"), ("skip_x skip_z", "-y"), ("skip_x skip_y", "z"), ("skip_x skip_y skip_z", "-0")]
    {
        let text = said(&["explain", &format!("fms64 m2 vector x_enable_mode=1 x_enable_value=7 {skips}")]);
        assert!(text.contains(&format!("the lane becomes {operation}\n")), "{text}");
        assert!(text.ends_with("answer: done 8 bytes\nwrites z 0 lane 7 (64 bits)\n"), "{text}");
        assert!(
            text.contains("X enable value: lane 7 alone\n") && text.contains("ignored here: bits 9, 19, 26, 30..40, 48..62\n"),
            "{text}"
        );
    }
    let text = said(&["explain", "fms64 m2 vector skip_z"]);
    assert!(text.contains("the lane becomes -(x*y), not covered\n"), "{text}");
    assert!(text.contains("not covered here: skip_x and skip_y, both 0\nanswer: refused 4: "), "{text}");
}

#[test]
fn mode_4_is_told_as_z_alone() {
    for (fields, field, told) in [
        ("enable_value=4", "enable_value", "all lanes"),
        ("enable_value=5", "enable_value", "all lanes"),
        ("enable_value=3", "enable_value", "all lanes, and the output is 0"),
        ("enable_mode=1 enable_value=9", "enable_value", "all lanes"),
        ("enable_mode=2 enable_value=31", "enable_value", "the first 31 lanes"),
        ("enable_mode=2 enable_value=32", "enable_value", "all lanes"),
        ("enable_mode=3 enable_value=16 widths=10", "enable_value", "all lanes"),
        ("enable_mode=5 enable_value=63 widths=9", "enable_value", "the last 63 lanes"),
        ("several broadcast_mode=0", "broadcast_mode", "no effect in ALU mode 4"),
        ("several broadcast_mode=1", "broadcast_mode", "the output is 0"),
        ("several broadcast_mode=6", "broadcast_mode", "no effect in ALU mode 4"),
        ("", "mode", "z >> s"),
        ("rounding", "mode", "z >> s"),
        ("rounding", "rounding", "no effect where the shift is 0"),
        ("rounding shift=1", "mode", "(z + 2^(s-1)) >> s"),
        ("rounding shift=1", "rounding", ""),
        ("saturate widths=10 saturate_signed", "mode", "z >> s, clamped to -128..127"),
        ("saturate widths=4", "mode", "z >> s, clamped to 0..4294967295"),
        ("enable_value=3", "mode", "z >> s, overridden: the output is 0"),
        ("saturate widths=10", "widths", "Z 32 bits, saturation 8"),
        ("widths=10", "widths", "Z 32 bits"),
        ("widths=10", "saturate_signed", "no effect where nothing is clamped"),
        ("x=7", "x", "(ignored)"),
        ("y=7", "y", "(ignored)"),
        ("z_row=7 widths=10", "z_row", ""),
        ("z_row=7 several", "z_row", "rows 7 and 39"),
    ] {
        assert_eq!(words(&format!("vecint m2 mode=4 {fields}"), field), told, "{fields}");
    }
}

#[test]
fn masks_are_told_by_their_lanes() {
    for (step, field, told) in [
        ("vecint m1 widths=12 enable_value=1", "enable_value", "odd lanes at X's lane width and at Y's, both needed"),
        ("vecint m1 widths=13 enable_mode=5 enable_value=3", "enable_value", "the last 3 lanes at X's lane width and at Y's, both needed"),
        ("vecint m1 widths=12 enable_mode=2 enable_value=40", "enable_value", "the first 40 lanes at X's lane width"),
        ("vecint m1 widths=13 enable_mode=3 enable_value=32", "enable_value", "the last 32 lanes at Y's lane width"),
        ("vecint m1 widths=12 enable_value=4", "enable_value", "all lanes, and X reads as 0"),
        ("vecint m1 widths=12 enable_mode=7", "enable_value", "no lane"),
        ("vecint m1 widths=11 enable_value=1", "enable_value", "odd lanes"),
        ("vecint m1 mode=5 widths=12 enable_value=1", "enable_value", "odd lanes"),
        ("vecint m1 enable_mode=2 enable_value=32", "enable_value", "all lanes"),
        ("vecint m1 enable_mode=4 enable_value=1", "enable_value", "the first lane"),
        ("vecint m1 enable_mode=4", "enable_value", "no lane"),
        ("vecint m1 enable_mode=1 enable_value=33", "enable_value", "all lanes, and Y lane 1 for every lane"),
        ("vecint m1 widths=12 enable_mode=1 enable_value=63", "enable_value", "all lanes, and Y lane 31 for every lane"),
        ("vecint m1 widths=13 enable_mode=1 enable_value=63", "enable_value", "all lanes, and Y lane 63 for every lane"),
        // what is not used is not told
        ("vecint m2 mode=11 enable_mode=1 enable_value=3", "enable_value", "all lanes"),
        ("vecint m2 mode=11 enable_value=5", "enable_value", "all lanes"),
        ("vecint m2 mode=12 enable_value=4", "enable_value", "all lanes"),
        ("vecint m2 mode=12 enable_value=5", "enable_value", "all lanes, and Y reads as 0"),
        ("vecint m2 mode=12 several broadcast_mode=6", "broadcast_mode", "Y of each vector"),
        ("vecint m2 mode=11 several broadcast_mode=6", "broadcast_mode", "the same X for all vectors, and its lane 0 for all lanes"),
        ("vecint m2 mode=11 several", "broadcast_mode", "X of each vector"),
        ("vecfp m1 mode=4 widths=4 enable_mode=1 enable_value=18", "enable_value", "all lanes, and Y lane 2 for every lane"),
        ("vecfp m1 mode=4 widths=7 enable_mode=3 enable_value=8", "enable_value", "all lanes"),
        ("vecfp m1 mode=4 widths=7 enable_mode=3 enable_value=7", "enable_value", "the last 7 lanes"),
        ("fms64 m1 skip_x x_enable_mode=1 x_enable_value=8", "x_enable_value", "no lane"),
        ("fms64 m1 skip_x x_enable_mode=2 x_enable_value=8", "x_enable_value", "all lanes"),
        ("fms64 m1 skip_x y_enable_mode=3 y_enable_value=31", "y_enable_value", "all lanes"),
        ("mac16 m1 x_enable_mode=2 x_enable_value=31", "x_enable_value", "the first 31 lanes"),
        ("mac16 m1 x_enable_mode=1 x_enable_value=31", "x_enable_value", "lane 31 alone"),
        ("mac16 m1 y_enable_value=3", "y_enable_value", "no lane"),
    ] {
        assert_eq!(words(step, field), told, "{step}");
    }
}

#[test]
fn what_is_ignored_or_not_read_is_told_so() {
    for (step, field, told) in [
        ("mac16 m1 vector y_enable_value=1", "y_enable_value", "(ignored)"),
        ("fms64 m1 vector skip_x y_enable_mode=1", "y_enable_value", "(ignored)"),
        ("mac16 m1 z_i32 z_row=9", "z_row", "(ignored)"),
        ("vecint m1 mode=5 widths=10", "widths", "(ignored)"),
        ("vecint m1 mode=6 shift=3", "shift", "(ignored)"),
        ("vecint m1 mode=6", "mode", "z - ((x*y + 16384) >> 15), clamped to -32768..32767"),
        ("mac16 m1 skip_x", "x", "not read"),
        ("mac16 m1 skip_x", "y", ""),
        ("fms64 m1 skip_y", "y", "not read"),
        ("vecint m2 mode=11", "y", "not read"),
        ("vecint m2 mode=12", "x", "not read"),
        ("vecint m1 enable_value=4", "x", "not read"),
        ("vecint m1 enable_value=3", "y", "not read"),
        ("vecint m2 several broadcast_mode=5", "y", "not read"),
        ("vecint m2 several indexed broadcast_mode=4", "x", "not read"),
        ("vecint m2 several indexed broadcast_mode=4", "index_register", "X is not read"),
        ("vecint m2 several indexed index_y broadcast_mode=4", "index_register", "bytes 0..63 of Y"),
        ("vecint m1 indexed enable_value=3", "indexed", "as ALU mode 0, z + ((x*y) >> s), overridden: the output is 0"),
        ("vecfp m2 mode=11 widths=4", "y", "not read"),
        ("vecfp m2 mode=10 widths=4 enable_value=3", "mode", "x*y, overridden: the output is 0"),
    ] {
        assert_eq!(words(step, field), told, "{step}");
    }
}

#[test]
fn what_is_not_done_tells_no_lanes() {
    for step in [
        "vecint m1 mode=11 enable_mode=2 enable_value=3 z_row=3 widths=3",
        "vecint m1 mode=7 enable_mode=2 enable_value=3 z_row=3 widths=3",
        "vecint m2 x_shuffle=1 enable_mode=1 several=0 z_row=3 widths=3",
        "vecint m2 reserved=1 several z_row=3 widths=3",
        "vecfp m1 mode=4 widths=3 enable_value=1 z_row=3",
        "fms64 m1 x_enable_value=1 z_row=3",
    ] {
        let text = explained(step);
        assert!(text.ends_with("writes nothing\n"), "{text}");
        for told in [" lanes,", "lanes\n", "lanes (", "lanes at", "rows", "of each vector", "the output is 0"] {
            assert!(!text.contains(told), "{told:?} in\n{text}");
        }
    }
    assert_eq!(words("vecint m1 mode=11", "mode"), "z + (x >> s), not on M1");
    assert_eq!(words("vecfp m1 mode=10 widths=4", "mode"), "x*y, not on M1");
    assert_eq!(words("vecint m1 mode=9", "mode"), "none");
}

#[test]
fn the_rows_and_lanes_that_are_written_are_named() {
    for (step, rows, writes) in [
        (
            "vecint m1 widths=3 enable_mode=2 enable_value=5 z_row=3",
            "rows 2 and 3 (bit 20 ignored)",
            "z 2 lanes 0..2, z 3 lanes 0..1 (32 bits)",
        ),
        ("vecint m1 widths=3 enable_mode=2 enable_value=1 z_row=3", "row 2 (bit 20 ignored)", "z 2 lane 0 (32 bits)"),
        ("vecint m1 widths=10 z_row=22", "rows 20..23 (bits 20..21 ignored)", "z 20..23 lanes 0..15 (32 bits)"),
        (
            "vecint m1 widths=10 enable_mode=2 enable_value=5 z_row=22",
            "rows 20..23 (bits 20..21 ignored)",
            "z 20 lanes 0..1, z 21..23 lane 0 (32 bits)",
        ),
        ("vecint m1 widths=12 enable_value=1 z_row=9", "row 11 (bits 20..21 ignored)", "z 11 lanes 0..15 (32 bits)"),
        ("vecint m1 enable_value=1 z_row=9", "", "z 9 lanes 1, 3, 5 .. 31 (16 bits)"),
        ("vecint m1 enable_mode=6 z_row=9", "no row is written", "nothing"),
        ("vecint m2 several z_row=3", "rows 3 and 35", "z 3, 35 lanes 0..31 (16 bits)"),
        (
            "vecint m2 several four widths=3 z_row=5",
            "rows 4..5, 20..21, 36..37, 52..53 (bits 20, 24 ignored)",
            "z 4..5, 20..21, 36..37, 52..53 lanes 0..15 (32 bits)",
        ),
        ("vecint m1 mode=4 widths=9 z_row=63", "", "z 63 lanes 0..63 (8 bits)"),
        ("vecfp m2 mode=11 widths=7 enable_value=1 z_row=9", "", "z 9 lanes 1, 3, 5, 7 (64 bits)"),
        ("fms64 m1 skip_x z_row=13", "rows 5, 13, 21 .. 61 (bits 23..25 ignored)", "z 5, 13, 21 .. 61 lanes 0..7 (64 bits)"),
        (
            "fms64 m1 skip_x z_row=5 y_enable_value=2 x_enable_mode=1 x_enable_value=3",
            "rows 5, 21, 37, 53 (bits 23..25 ignored)",
            "z 5, 21, 37, 53 lane 3 (64 bits)",
        ),
        ("fms64 m1 vector skip_y z_row=13", "", "z 13 lanes 0..7 (64 bits)"),
        ("mac16 m1 vector z_row=7", "", "z 7 lanes 0..31 (16 bits)"),
        ("mac16 m1 z_row=7", "rows 1, 3, 5 .. 63 (odd rows) (bits 21..25 ignored)", "z 1, 3, 5 .. 63 (odd rows) lanes 0..31 (16 bits)"),
        (
            "mac16 m1 z_row=6 y_enable_value=1 x_enable_mode=3 x_enable_value=3",
            "rows 2, 6, 10 .. 62 (bits 21..25 ignored)",
            "z 2, 6, 10 .. 62 lanes 29..31 (16 bits)",
        ),
        ("mac16 m1 z_i32", "(ignored)", "z 0..63 lanes 0..15 (32 bits)"),
        ("mac16 m1 z_i32 x_enable_value=1", "(ignored)", "z 1, 3, 5 .. 63 (odd rows) lanes 0..15 (32 bits)"),
        (
            "mac16 m1 z_i32 x_enable_mode=2 x_enable_value=3 y_enable_mode=2 y_enable_value=2",
            "(ignored)",
            "z 0, 2 lanes 0..1, z 1, 3 lane 0 (32 bits)",
        ),
    ] {
        assert_eq!(words(step, "z_row"), rows, "{step}");
        assert!(explained(step).ends_with(&format!("\nwrites {writes}\n")), "{}", explained(step));
    }
}

/// The numbers of a list, say `0..2, 5` or `1, 3, 5 .. 31`.
fn numbers(list: &str) -> Vec<usize> {
    let mut all: Vec<usize> = Vec::new();
    for part in list.split(", ") {
        let number = |word: &str| word.parse::<usize>().unwrap_or_else(|_| panic!("{word:?} in {list:?}"));
        if let Some((next, last)) = part.split_once(" .. ") {
            let step = number(next) - all.last().unwrap();
            all.extend((number(next)..=number(last)).step_by(step));
            assert_eq!(*all.last().unwrap(), number(last), "{list}");
        } else if let Some((first, last)) = part.split_once("..") {
            all.extend(number(first)..=number(last));
        } else {
            all.push(number(part));
        }
    }
    all
}

/// The rows and lanes that a `writes` line names, and the bytes of a lane.
fn named(writes: &str) -> (BTreeSet<(usize, usize)>, usize) {
    let mut lanes = BTreeSet::new();
    let told = writes.strip_prefix("writes ").unwrap();
    if told == "nothing" {
        return (lanes, 0);
    }
    let (told, bits) = told.strip_suffix(" bits)").unwrap().rsplit_once(" (").unwrap();
    for group in told.split("z ").skip(1) {
        let (rows, of_each) = group.trim_end_matches(", ").split_once(" lane").unwrap();
        let rows = numbers(rows.split(" (").next().unwrap());
        let of_each = numbers(of_each.trim_start_matches('s').trim());
        assert!(rows.is_sorted() && of_each.is_sorted(), "{writes}");
        lanes.extend(rows.iter().flat_map(|&row| of_each.iter().map(move |&lane| (row, lane))));
    }
    (lanes, bits.parse::<usize>().unwrap() / 8)
}

/// Whatever the step, the lanes named are the enabled ones; they have the bytes that the proved step counts, and it changes no others.
#[test]
fn the_lanes_named_are_those_that_the_proved_step_writes() {
    let mut random = Random::new(12);
    for instruction in Instruction::ALL {
        for _ in 0..2_000 {
            let generation = random.pick(&[1, 2]);
            let operand = match instruction {
                Instruction::Fms64 => random.fms64(),
                Instruction::Mac16 => random.mac16(),
                Instruction::Vecint => random.vecint(),
                Instruction::Vecfp => random.vecfp(),
            };
            let call = Call::new(instruction as u64, generation, operand);
            let explanation = explain(call).unwrap();
            let (lanes, bytes) = named(&explanation.writes());
            let enabled = reference::lanes(call.instruction, call.generation, call.operand);
            assert_eq!(lanes, enabled.iter().map(|lane| (lane.row, lane.lane)).collect(), "{}", call);
            let counted = if explanation.answer.is_done() { explanation.answer.number() } else { 0 };
            assert_eq!(counted, (bytes * lanes.len()) as u64);
            let (before, mut after) = (random.state(), State::new());
            after.clone_from(&before);
            let _ = step(&mut after, call, before.count()); // whatever it answers
            let changed = (0..5_120).filter(|&at| before.registers()[at] != after.registers()[at]);
            for at in changed {
                assert!(at >= 1_024 && lanes.contains(&((at - 1_024) / 64, at % 64 / bytes)), "byte {at}, {}", call);
            }
        }
    }
}

/// Whether the words of a mask allow a lane, of so many.
fn allows(words: &str, lane: usize, lanes: usize) -> bool {
    let number = || words.split(' ').find_map(|word| word.parse::<usize>().ok()).unwrap();
    match words {
        "all lanes" => true,
        "no lane" => false,
        "odd lanes" => lane % 2 == 1,
        "even lanes" => lane.is_multiple_of(2),
        "the first lane" => lane == 0,
        "the last lane" => lane + 1 == lanes,
        words if words.starts_with("the first ") => lane < number(),
        words if words.starts_with("the last ") => lane + number() >= lanes,
        words => panic!("{words:?}"),
    }
}

/// The words of every enable mode and value, at every lane width, are those of the lanes that are enabled.
#[test]
fn the_words_of_every_mask_are_true() {
    // of Z alone in mode 4; in mode 0 the bits of a lane of X, of Y and of Z
    let alone = [(3, 32), (4, 32), (9, 8), (10, 32), (11, 16), (0, 16)].map(|(widths, bits)| (4, widths, bits, bits, bits));
    let forms = [(0, 16, 16, 16), (3, 16, 16, 32), (10, 8, 8, 32), (11, 8, 8, 16), (12, 8, 16, 32), (13, 16, 8, 32)];
    let forms = forms.map(|(widths, x_bits, y_bits, z_bits)| (0, widths, x_bits, y_bits, z_bits));
    for (mode, widths, x_bits, y_bits, z_bits) in alone.into_iter().chain(forms) {
        let (narrower, [x_lanes, y_lanes]) = (x_bits.min(y_bits), [512 / x_bits, 512 / y_bits]);
        for (enable_mode, value) in (0..8).flat_map(|mode| (0..64).map(move |value| (mode, value))) {
            let step = format!("vecint m1 mode={mode} widths={widths} enable_mode={enable_mode} enable_value={value}");
            let told = words(&step, "enable_value");
            let told = told.split(", and ").next().unwrap();
            let expected = (0..512 / narrower).filter(|&k| {
                let (x, y) = (k * narrower / x_bits, k * narrower / y_bits);
                match told.split_once(" at ") {
                    None => allows(told, x, x_lanes) && allows(told, y, y_lanes),
                    Some((told, "X's lane width")) => allows(told, x, x_lanes),
                    Some((told, "Y's lane width")) => allows(told, y, y_lanes),
                    Some((told, _)) => allows(told, x, x_lanes) && allows(told, y, y_lanes),
                }
            });
            let call = step.parse::<Call>().unwrap();
            let group = z_bits / narrower;
            let enabled = reference::lanes(18, Generation::M1 as u64, call.operand);
            let enabled: Vec<usize> = enabled.iter().map(|lane| group * lane.lane + lane.row).collect();
            assert_eq!(expected.collect::<Vec<_>>(), enabled, "{step}: {told}");
        }
    }
}

#[test]
fn lanes_are_shown() {
    assert_eq!(
        said(&["lanes", "vecint", "m1", "widths=3", "enable_mode=4", "enable_value=5", "z_row=9"]),
        "done 20 bytes, lanes of 32 bits\nz 8   ###.............\nz 9   ##..............\n"
    );
    // widths 12 and 13: allowed by X's mask and by Y's
    assert_eq!(said(&["lanes", "vecint m1 widths=12 enable_value=1 z_row=9"]), "done 64 bytes, lanes of 32 bits\nz 11  ################\n");
    assert_eq!(
        said(&["lanes", "vecint m1 widths=13 enable_mode=2 enable_value=5"]),
        "done 20 bytes, lanes of 32 bits\nz 0   ##..............\nz 1   #...............\nz 2   #...............\nz 3   #...............\n"
    );
    assert_eq!(said(&["lanes", "vecint m1 enable_mode=6"]), "done 0 bytes\n");
    assert_eq!(said(&["lanes", "14", "3", "0"]), "refused 2: the generation is not 1 or 2\n");
    assert_eq!(said(&["lanes", "14", "1", "0"]).lines().count(), 33);
    assert_eq!(
        said(&["lanes", "vecfp m2 mode=11 widths=4 enable_mode=5 enable_value=3 z_row=9"]),
        "done 12 bytes, lanes of 32 bits\nz 9   .............###\n"
    );
    assert_eq!(said(&["lanes", "vecfp m1 mode=4 widths=7 enable_value=1"]), "done 32 bytes, lanes of 64 bits\nz 0   .#.#.#.#\n");
    assert_eq!(
        said(&["lanes", "vecfp m2 several mode=10 widths=7 z_row=3"]),
        "done 128 bytes, lanes of 64 bits\nz 3   ########\nz 35  ########\n"
    );
    assert_eq!(
        said(&["lanes", "fms64 m1 skip_x z_row=13 x_enable_mode=2 x_enable_value=3 y_enable_mode=1 y_enable_value=2"]),
        "done 24 bytes, lanes of 64 bits\nz 21  ###.....\n"
    );
    assert_eq!(said(&["lanes", "fms64 m1 vector skip_y z_row=13"]), "done 64 bytes, lanes of 64 bits\nz 13  ########\n");
    assert!(said(&["lanes", "fms64 m1 vector"]).starts_with("refused 4: not covered are shuffles"));
}

/// The lanes that are shown have as many bytes as the proved step says, whatever the step.
#[test]
fn lanes_are_those_that_the_step_counts() {
    let mut random = Random::new(11);
    for _ in 0..2_000 {
        let call = random.call();
        let grid = amx::lane_grid(call);
        if let Some(first) = grid.lines().next().filter(|line| line.starts_with("done ")) {
            let numbers: Vec<usize> = first.split(' ').filter_map(|word| word.parse().ok()).collect();
            let shown = grid.matches('#').count();
            assert_eq!(8 * numbers[0], shown * numbers.get(1).unwrap_or(&0), "{}", call);
        }
    }
}
