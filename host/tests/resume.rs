//! Traces that are stopped and go on, on the proved unit and on the reference: the two parts are the whole, wherever the cut is.
mod records;

use amx::{Checkpoint, NoCheckpoint, Record, Register, State, Trace, TraceReader, Width, print_trace, random::Random, reference};
use records::{RECORDS, start};
use std::{fs, io::Cursor, path::PathBuf};

const LAST: u64 = u64::MAX;

/// A trace of these records.
fn trace(records: impl IntoIterator<Item = Record>) -> Trace {
    let mut trace = Trace::new(start());
    records.into_iter().for_each(|record| trace.push(record).unwrap());
    trace
}

/// A trace of every answer, twice.
fn every_answer() -> Trace {
    trace(RECORDS.map(|(record, _)| record).into_iter().chain(RECORDS.map(|(record, _)| record)))
}

/// The stored files and the texts that the programs must print for them, by another source (tools/traces.py).
fn stored() -> Vec<(String, Vec<u8>, String)> {
    let home = PathBuf::from(env!("CARGO_MANIFEST_DIR")).join("../crates/traces");
    let names = fs::read_to_string(home.join("args")).unwrap();
    let stdout = fs::read_to_string(home.join("stdout")).unwrap();
    let mut texts = stdout.as_str();
    let mut files = Vec::new();
    for (name, next) in names.lines().zip(names.lines().skip(1)) {
        let rest = texts.strip_prefix(&format!("{name}\n")).expect("each text stands after its name");
        let (text, after) = rest.split_at(rest.find(&format!("{next}\n")).unwrap());
        texts = after;
        // the last names are of files that cannot be read
        if let Ok(file) = fs::read(home.join("data").join(name)) {
            files.push((name.to_owned(), file, text.to_owned()));
        }
    }
    files
}

fn lines(text: &str, n: usize) -> String {
    text.split_inclusive('\n').take(n).collect()
}

/// Cuts a trace at every place, or at some where it is long: the lines before the cut, and then the text of the rest, are the whole text,
/// and the rest ends as the whole does. The reference goes on with every n-th.
fn cut_everywhere(trace: &Trace, every: usize) {
    let (whole, end, steps) = (trace.text(), trace.run().0, trace.records().len());
    assert_eq!(whole, reference::trace(&trace.to_bytes()));
    for consumed in (0..=steps).step_by((steps / 2_500 * 10).max(1)).chain([steps]) {
        let rest = trace.cut(consumed).unwrap();
        let first = lines(&whole, consumed);
        assert!(first.lines().all(|line| line.starts_with("step ")));
        assert_eq!(first.clone() + &rest.text(), whole, "cut after {consumed} of {steps}");
        assert_eq!(rest.run().0, end, "cut after {consumed} of {steps}");
        if consumed % every == 0 || consumed == steps {
            let file = rest.to_bytes();
            assert_eq!(Some(&file), reference::cut(&trace.to_bytes(), consumed).as_ref());
            assert_eq!(first + &reference::trace(&file), whole, "cut after {consumed} of {steps}, by the reference");
            assert_eq!(Trace::from_bytes(&file), Ok(rest));
        }
    }
}

#[test]
fn both_parts_are_the_whole_wherever_a_trace_is_cut() {
    cut_everywhere(&trace([]), 1);
    cut_everywhere(&every_answer(), 1);
    let mut random = Random::new(6);
    for records in [1, 2, 7, 40, 300] {
        cut_everywhere(&random.trace(records), 1);
    }
}

#[test]
#[cfg_attr(not(feature = "proved"), ignore = "thousands of runs, which the second program is slow to take")]
fn stored_traces_are_cut_everywhere() {
    let mut cut = 0;
    for (name, file, _) in stored() {
        match Trace::from_bytes(&file) {
            Ok(trace) if trace.checkpoint().is_none() => {
                // the reference is slow, and long traces have thousands of steps
                cut_everywhere(&trace, if trace.records().len() > 500 { 256 } else { 1 });
                cut += 1;
            }
            Ok(trace) => assert_eq!(trace.cut(0), Err(NoCheckpoint::Resumed), "{name}"),
            Err(_) => {}
        }
    }
    assert!(cut >= 7, "{cut} stored traces were cut");
}

/// The stored texts are a third program's.
#[test]
fn stored_traces_print_their_texts() {
    let files = stored();
    for (name, file, text) in &files {
        let mut read = Vec::new();
        print_trace(TraceReader::seekable(Cursor::new(file)), &mut read).unwrap();
        assert!(read == text.as_bytes(), "{name}, by this crate:\n{}", String::from_utf8_lossy(&read));
        assert!(reference::trace(file) == *text, "{name}, by the reference");
    }
    let resumed = files.iter().filter(|(name, _, _)| name.starts_with("resumed_")).count();
    assert!(files.len() > 50 && resumed >= 8, "{} files, {resumed} of them resumed", files.len());
}

#[test]
fn a_resumed_trace_numbers_and_counts_on() {
    let trace = every_answer();
    // done, refused 4, no-op 1 and refused 2 are consumed; two of them raised the count
    let rest = trace.cut(4).unwrap();
    let checkpoint = rest.checkpoint().unwrap();
    assert_eq!((checkpoint.consumed, checkpoint.state.count()), (4, 2));
    assert_eq!(checkpoint.state.lane(Register::Z(0), 0, Width::Bits16), 6);
    let steps: String = (4..14).map(|place| format!("step {place} {}\n", RECORDS[place % 7].1)).collect();
    assert_eq!(rest.text(), format!("{steps}z 0 0c00{}\nsteps 14\n", "0".repeat(124)));
    assert_eq!(rest.run().0.count(), 8);
    // at the end no step is left, and the rows are still told
    assert_eq!(trace.cut(14).unwrap().text(), format!("z 0 0c00{}\nsteps 14\n", "0".repeat(124)));
}

#[test]
fn a_trace_goes_on_from_any_state() {
    let mut trace = every_answer();
    let mut state = State::new();
    state.set_lane(Register::X(0), 0, Width::Bits16, 5);
    state.set_lane(Register::Y(0), 0, Width::Bits16, 7);
    state.set_lane(Register::Z(9), 31, Width::Bits16, -1);
    state.set_count(1 << 40);
    trace.set_checkpoint(Checkpoint { consumed: 7, state }).unwrap();
    let steps: String = (7..14).map(|place| format!("step {place} {}\n", RECORDS[place - 7].1)).collect();
    // by the start, which has neither row
    let rows = format!("z 0 2300{}\nz 9 {}ffff\n", "0".repeat(124), "0".repeat(124));
    assert_eq!(trace.text(), format!("{steps}{rows}steps 14\n"));
    assert_eq!(reference::trace(&trace.to_bytes()), trace.text());
    assert_eq!(trace.run().0.count(), (1 << 40) + 4);
}

#[test]
fn a_row_that_the_checkpoint_has_as_the_start_does_is_not_told() {
    // the step adds 6, and the checkpoint has -6 there
    let mut trace = trace([RECORDS[0].0]);
    let mut state = trace.start().clone();
    state.set_lane(Register::Z(0), 0, Width::Bits16, -6);
    trace.set_checkpoint(Checkpoint { consumed: 0, state: state.clone() }).unwrap();
    assert_eq!(trace.text(), "step 0 done 64\nsteps 1\n");
    trace.set_checkpoint(Checkpoint { consumed: 1, state }).unwrap();
    assert_eq!(trace.text(), format!("z 0 faff{}\nsteps 1\n", "0".repeat(124)));
    assert_eq!(reference::trace(&trace.to_bytes()), trace.text());
}

#[test]
fn the_last_count_refuses_the_rest_and_stops_nothing() {
    let mut trace = every_answer();
    let refused = |place: usize| match RECORDS[place % 7].1 {
        answer @ ("refused 2" | "refused 3") => answer,
        _ => "refused 9",
    };
    for (consumed, left) in [(0, 0), (0, 1), (0, 2), (3, 0), (3, 1), (14, 0)] {
        let mut state = trace.start().clone();
        state.set_count(LAST - left);
        trace.set_checkpoint(Checkpoint { consumed, state }).unwrap();
        let mut room = left;
        let steps: String = (consumed..14)
            .map(|place| {
                let answer = if room > 0 { RECORDS[place % 7].1 } else { refused(place) };
                room -= u64::from(!answer.starts_with("refused"));
                format!("step {place} {answer}\n")
            })
            .collect();
        let text = trace.text();
        assert!(text.starts_with(&steps) && text.ends_with("steps 14\n"), "consumed {consumed}, {left} left: {text}");
        assert_eq!(text.lines().filter(|line| line.starts_with("step ")).count(), 14 - consumed);
        assert_eq!(reference::trace(&trace.to_bytes()), text);
        assert_eq!(trace.run().0.count(), LAST - room);
    }
}

/// The refusal of a file, by this crate's reader and by the reference: of three sections before any line.
fn refusal(file: &[u8]) -> Option<u8> {
    let refusal = Trace::from_bytes(file).err();
    let text = reference::trace(file);
    match refusal {
        Some(refusal) if file.first() == Some(&2) => assert!(text.ends_with(&format!("{refusal}\n")), "{text}"),
        Some(refusal) => assert_eq!(text, format!("{refusal}\n")),
        None => assert!(!text.contains("file refused"), "{text}"),
    }
    refusal.map(|fault| fault.refusal() as u8)
}

#[test]
fn a_file_is_refused_by_the_first_that_applies() {
    let sound = trace([RECORDS[0].0; 3]).cut(2).unwrap().to_bytes();
    let third = 5_160 + 48;
    let changed = |changes: &[(usize, u8)]| {
        let mut file = sound.clone();
        changes.iter().for_each(|&(at, byte)| file[at] = byte);
        file
    };
    assert_eq!((refusal(&sound), sound.len()), (None, 10_340));
    // 5 comes before 6: no table of three entries
    assert_eq!(
        (refusal(&sound[..27]), refusal(&sound[..28]), refusal(&sound[..39]), refusal(&sound[..40])),
        (Some(5), Some(5), Some(5), Some(6))
    );
    for sections in [0, 1, 2, 4, 255] {
        let other = changed(&[(0, sections)]);
        assert_eq!((refusal(&other[..27]), refusal(&other[..28]), refusal(&other[..39])), (Some(5), Some(6), Some(6)));
        assert_eq!(refusal(&other), Some(6));
    }
    // all three entries, the length, and what is consumed
    for (at, byte) in sound.iter().enumerate().take(40) {
        assert_eq!(refusal(&changed(&[(at, byte ^ 0x40)])), Some(6), "byte {at}");
    }
    assert_eq!((refusal(&sound[..10_339]), refusal(&[&sound[..], &[0]].concat())), (Some(6), Some(6)));
    for (consumed, refused) in [(0, None), (3, None), (4, Some(6)), (255, Some(6))] {
        assert_eq!(refusal(&changed(&[(third, consumed)])), refused);
    }
    for byte in 1..4 {
        assert_eq!(refusal(&changed(&[(third + byte, 1)])), Some(6));
    }
    // then the padding of every record, consumed or not
    for at in (0..3).flat_map(|record| (2..8).map(move |at| 5_160 + 16 * record + at)) {
        assert_eq!(refusal(&changed(&[(at, 1)])), Some(7));
        assert_eq!(refusal(&changed(&[(at, 1), (third, 4)])), Some(6));
        assert_eq!(refusal(&changed(&[(at, 1), (31, 1)])), Some(6));
    }
}

#[test]
fn the_length_of_either_kind_is_its_table_s() {
    for (n, sections) in [(0, 2), (0, 3), (1, 2), (1, 3), (2_048, 2), (2_048, 3)] {
        let whole = trace(vec![RECORDS[0].0; n]);
        let file = if sections == 3 { whole.cut(n).unwrap().to_bytes() } else { whole.to_bytes() };
        assert_eq!(file.len(), [5_148, 10_292][sections - 2] + 16 * n);
        assert_eq!(refusal(&file), None);
        // a whole record more or less, or a whole section
        for less in [16, 5_132] {
            let length = file.len() - less;
            assert_eq!(refusal(&file[..length]), Some(if length < 28 { 5 } else { 6 }));
        }
        assert_eq!(refusal(&[&file[..], &[0; 16]].concat()), Some(6));
        assert_eq!(refusal(&[&file[..], &[0; 5_132]].concat()), Some(6));
    }
}
