//! Traces cut in two: the bytes of a checkpoint, the file that goes on from it, and the lines of both parts joined.
use crate::case::Case;
use crate::tally::Tally;
use crate::traces::{Place, Text, draw_case, every_answer, first_difference, trace_of};
use amx::{CHECKPOINT_LENGTH, REGISTER_BYTES, STATE_LENGTH, Trace, checkpoint_bytes, random::Random, reference};

/// Writes a checkpoint of a state and of steps consumed; how many bytes.
pub type Write = fn(&[u8], u64, &mut [u8]) -> u64;

/// The file of a trace that is stopped after so many steps.
pub type Cut = fn(&Trace, usize) -> Vec<u8>;

pub fn proved_checkpoint(state: &[u8], consumed: u64, out: &mut [u8]) -> u64 {
    checkpoint_bytes(state, consumed, out) as u64
}

pub fn proved_cut(trace: &Trace, consumed: usize) -> Vec<u8> {
    trace.cut(consumed).map_or_else(|error| error.to_string().into_bytes(), |rest| rest.to_bytes())
}

/// Lengths of the state and of the room for its checkpoint, and numbers of steps, at their ends. The number of checkpoints.
pub fn checkpoints(write: Write, random: &mut Random) -> Result<u64, String> {
    const LENGTHS: [usize; 8] = [0, 1, REGISTER_BYTES, STATE_LENGTH - 1, STATE_LENGTH, STATE_LENGTH + 1, CHECKPOINT_LENGTH, 10_256];
    const ROOMS: [usize; 8] =
        [0, 4, STATE_LENGTH, CHECKPOINT_LENGTH - 1, CHECKPOINT_LENGTH, CHECKPOINT_LENGTH + 1, CHECKPOINT_LENGTH + 4, 10_264];
    const CONSUMED: [u64; 11] = [0, 1, 0x102, 2_048, 0x0403_0201, 1 << 31, (1 << 32) - 1, 1 << 32, (1 << 32) + 1, 1 << 63, u64::MAX];
    let mut count = 0;
    for (length, room) in LENGTHS.into_iter().flat_map(|length| ROOMS.map(|room| (length, room))) {
        let (state, before) = (random.bytes(length), random.bytes(room));
        for consumed in CONSUMED {
            let (mut one, mut other) = (before.clone(), before.clone());
            let answers = (write(&state, consumed, &mut one), reference::checkpoint(&state, consumed, &mut other));
            if (answers.0, &one) != (answers.1, &other) {
                let at = one.iter().zip(&other).take_while(|(a, b)| a == b).count();
                return Err(format!(
                    "a checkpoint of a state of {length} bytes, {consumed} steps consumed, room for {room} bytes: \
                     answered {}, by the reference {}; the first byte that differs is {at} of {room}\n",
                    answers.0, answers.1
                ));
            }
            count += 1;
        }
    }
    Ok(count)
}

/// A trace of no steps, one of every answer cut at every place, and so many random ones, each cut at its ends and somewhere between.
fn draw_cuts(random: &mut Random, traces: u64) -> impl Iterator<Item = (Case, Place)> {
    let (every, none) = (every_answer(random), Case::due(vec![0; STATE_LENGTH], []));
    let swept = (0..=every.sent.len() as u64).map(move |steps| (every.clone(), Place::Steps(steps)));
    let drawn = (0..traces).flat_map(move |_| {
        let case = draw_case(random);
        [Place::Start, Place::Steps(random.bits()), Place::End].map(|place| (case.clone(), place))
    });
    swept.chain([(none, Place::Start)]).chain(drawn)
}

/// Cuts traces in two and has programs go on with them: how many cuts, and of which kinds.
pub fn cuts(cut: Cut, random: &mut Random, traces: u64, texts: &[(&str, Text)]) -> Result<(u64, Tally), String> {
    let (mut count, mut tally) = (0, Tally::default());
    for (case, place) in draw_cuts(random, traces) {
        if let Some(found) = fault(&case, place, cut, texts, &mut tally) {
            let smallest = case.shrink(&|case| fault(case, place, cut, texts, &mut Tally::default()).is_some());
            let found = fault(&smallest, place, cut, texts, &mut tally).unwrap_or(found);
            return Err(format!("{found}the smallest trace found:\n{}\n", smallest.describe()));
        }
        count += 1;
    }
    tally.needs(&["at the start", "between", "at the end", "of no steps", "past a refused step"], "cuts")?;
    Ok((count, tally))
}

/// What is wrong about a trace that is cut: the file, or the lines of both parts by one of the programs.
fn fault(case: &Case, place: Place, cut: Cut, texts: &[(&str, Text)], tally: &mut Tally) -> Option<String> {
    let trace = trace_of(case);
    let (file, steps) = (trace.to_bytes(), trace.records().len());
    let consumed = place.of(steps);
    let rest = cut(&trace, consumed);
    let expected = reference::cut(&file, consumed).expect("a place is among the records");
    if rest != expected {
        let at = rest.iter().zip(&expected).take_while(|(a, b)| a == b).count();
        return Some(format!(
            "the file of a trace of {steps} steps that is cut after {consumed} has {} bytes, by the reference {}; \
             the first that differs is {at}; ",
            rest.len(),
            expected.len()
        ));
    }
    let whole = reference::trace(&file);
    let first: String = whole.split_inclusive('\n').take(consumed).collect();
    tally.meet(
        match consumed {
            _ if steps == 0 => "of no steps",
            0 => "at the start",
            _ if consumed == steps => "at the end",
            _ => "between",
        }
        .to_owned(),
    );
    if first.contains("refused") {
        tally.meet("past a refused step".to_owned());
    }
    texts.iter().find_map(|(what, text)| {
        let joined = first.clone() + &text(&rest);
        (joined != whole).then(|| {
            let found = first_difference(["joined", "whole"], [&joined, &whole]);
            format!("{what} does not go on with a trace of {steps} steps that was cut after {consumed}:\n{found}")
        })
    })
}

#[cfg(test)]
mod tests {
    use super::*;
    use crate::traces::read_text;
    use amx::{Checkpoint, State};

    #[test]
    fn a_checkpoint_that_is_wrong_is_found() {
        let found = |write| checkpoints(write, &mut Random::new(1)).err().unwrap_or_default();
        let wrong: [(Write, &str); 5] = [
            (|state, consumed, out| reference::checkpoint(state, consumed & 0xffff_ffff, out), "4294967296 steps consumed"),
            (|state, consumed, out| reference::checkpoint(&state[..state.len().min(STATE_LENGTH)], consumed, out), "of 5129 bytes"),
            (|state, consumed, out| reference::checkpoint(state, consumed.swap_bytes() >> 32, out), "1 steps consumed"),
            (
                |state, consumed, out| {
                    let written = reference::checkpoint(state, consumed, out);
                    out.iter_mut().skip(CHECKPOINT_LENGTH).for_each(|byte| *byte = !*byte);
                    written
                },
                "the first byte that differs is 5132 of 5133",
            ),
            (
                |state, consumed, out| {
                    let written = reference::checkpoint(state, consumed, out);
                    if written == 0 {
                        out.iter_mut().zip(state).for_each(|(byte, &saved)| *byte = saved);
                    }
                    written
                },
                "answered 0, by the reference 0",
            ),
        ];
        for (write, words) in wrong {
            assert!(found(write).contains(words), "{words}: {}", found(write));
        }
        assert_eq!(found(reference::checkpoint), "");
    }

    fn from(trace: &Trace, consumed: usize, state: State) -> Vec<u8> {
        let mut rest = trace.clone();
        rest.set_checkpoint(Checkpoint { consumed, state }).unwrap();
        rest.to_bytes()
    }

    /// The state after the first records.
    fn left(trace: &Trace, consumed: usize) -> State {
        trace.cut(consumed).unwrap().checkpoint().unwrap().state.clone()
    }

    #[test]
    fn a_cut_that_is_wrong_is_found() {
        let wrong: [Cut; 4] = [
            |trace, consumed| from(trace, consumed, trace.start().clone()),
            |trace, consumed| from(trace, consumed, left(trace, consumed.saturating_sub(1))),
            // refused steps are consumed too
            |trace, consumed| from(trace, left(trace, consumed).count() as usize, left(trace, consumed)),
            |trace, _| trace.to_bytes(),
        ];
        for cut in wrong {
            let report = cuts(cut, &mut Random::new(1), 4, &[]).err().unwrap_or_default();
            assert!(report.starts_with("the file of a trace"), "{report}");
        }
        assert!(cuts(proved_cut, &mut Random::new(1), 4, &[]).is_ok());
    }

    #[test]
    fn a_program_that_does_not_go_on_is_found() {
        let whole = |file: &[u8]| {
            Trace::from_bytes(file).map_or_else(
                |refusal| refusal.to_string(),
                |trace| {
                    let mut again = Trace::new(trace.start().clone());
                    trace.records().iter().for_each(|&record| again.push(record).unwrap());
                    again.text()
                },
            )
        };
        let report = cuts(proved_cut, &mut Random::new(1), 4, &[("this crate", &read_text), ("it", &whole)]).err().unwrap_or_default();
        assert!(report.starts_with("it does not go on with a trace of 1 steps that was cut after 1:\n  line 1: joined step 0"), "{report}");
    }
}
