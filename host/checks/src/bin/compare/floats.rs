//! Floats: the reference's rounding against the processor's operators, every pair of special patterns through every mode and form, and
//! random steps on float lanes.
use crate::case::{Case, Step, agree, second};
use crate::sent::set_count;
use crate::steps::{ANSWERS, PROGRAMS, each, on_both, pairs};
use crate::tally::Tally;
use amx::rounding::{DOUBLE, Format, SINGLE};
use amx::{Call, Register, STATE_LENGTH, random::Random, random::specials, reference};

/// An operation on two patterns of a format.
type Operation = fn(Format, u64, u64) -> u64;

/// The operations that are rounded.
#[derive(Clone, Copy)]
pub struct Operations {
    sum: Operation,
    difference: Operation,
    product: Operation,
}

pub const IN_WHOLE_NUMBERS: Operations = Operations { sum: Format::sum, difference: Format::difference, product: Format::product };

/// An operation of the processor, in a format; a result that is not a number has the default NaN's pattern.
fn processor(format: Format, single: fn(f32, f32) -> f32, double: fn(f64, f64) -> f64, a: u64, b: u64) -> u64 {
    let (nan, pattern) = if format == SINGLE {
        let result = single(f32::from_bits(a as u32), f32::from_bits(b as u32));
        (result.is_nan(), result.to_bits().into())
    } else {
        let result = double(f64::from_bits(a), f64::from_bits(b));
        (result.is_nan(), result.to_bits())
    };
    if nan { format.default_nan() } else { pattern }
}

/// What is wrong about the rounding of a pair.
fn rounding_fault(operations: &Operations, format: Format, a: u64, b: u64) -> Option<String> {
    let results = [
        ("+", (operations.sum)(format, a, b), processor(format, |a, b| a + b, |a, b| a + b, a, b)),
        ("-", (operations.difference)(format, a, b), processor(format, |a, b| a - b, |a, b| a - b, a, b)),
        ("*", (operations.product)(format, a, b), processor(format, |a, b| a * b, |a, b| a * b, a, b)),
    ];
    let (sign, given, expected) = results.into_iter().find(|(_, given, expected)| given != expected)?;
    Some(format!("f{}: {a:#x} {sign} {b:#x} is {given:#x} in whole numbers, and {expected:#x} by the processor\n", format.bits))
}

/// The rounding in whole numbers against the processor's operators, for every pair of special patterns and so many random ones. The
/// number of operations.
pub fn rounding(operations: &Operations, random: &mut Random, count: u64) -> Result<u64, String> {
    let mut compared = 0;
    for format in [SINGLE, DOUBLE] {
        let special = specials(format);
        let swept = pairs(special.iter().copied(), special.len() as u64).map(|(a, b)| (a, special[b as usize]));
        let drawn = (0..count).map(|_| (random.float(format, &special), random.float(format, &special)));
        for (a, b) in swept.chain(drawn) {
            rounding_fault(operations, format, a, b).map_or(Ok(()), Err)?;
            compared += 3;
        }
    }
    Ok(compared)
}

/// Lanes of a format, to be put into registers.
struct Lanes {
    format: Format,
    patterns: Vec<u64>,
}

impl Lanes {
    fn new(format: Format, patterns: impl Iterator<Item = u64>) -> Self {
        Lanes { format, patterns: patterns.collect() }
    }

    /// Writes the lanes from a place on into a register; behind the last they are 0.
    fn put(&self, state: &mut [u8], register: Register, from: usize) {
        let bytes = self.format.bits as usize / 8;
        let lanes = state[register.start()..][..64].chunks_exact_mut(bytes);
        for (lane, pattern) in lanes.zip(self.patterns.iter().skip(from)) {
            lane.copy_from_slice(&pattern.to_le_bytes()[..bytes]);
        }
    }
}

/// How special pairs are laid out in a state: the pair is X and Y, or X and Z, or Y and Z, and the other is a third pattern.
const LAYOUTS: [[usize; 3]; 3] = [[0, 1, 2], [0, 2, 1], [2, 0, 1]];

/// States that have every pair of special patterns, in all three layouts. Register n of X and of Y and row n of Z have the same pairs, and
/// so have the rows of two vectors from row 8 + n on, and those of four from row n on.
fn pair_states(format: Format) -> impl Iterator<Item = Vec<u8>> {
    let special = specials(format);
    let count = special.len();
    let (lanes, pairs) = (512 / format.bits as usize, count * count);
    let starts = LAYOUTS.into_iter().flat_map(move |layout| (0..pairs).step_by(8 * lanes).map(move |first| (layout, first)));
    starts.map(move |(layout, first)| {
        let triple = |n: usize| [special[n / count % count], special[n % count], special[(n / 7 + n) % count]];
        let [x, y, z] = layout.map(|which| Lanes::new(format, (first..first + 8 * lanes).map(|n| triple(n)[which])));
        let mut state = vec![0; STATE_LENGTH];
        for n in 0..8 {
            x.put(&mut state, Register::X(n), lanes * n);
            y.put(&mut state, Register::Y(n), lanes * n);
            let rows = [(n, 0), (16 + n, 1), (32 + n, 2), (48 + n, 3), (8 + n, 0), (40 + n, 1), (24 + n, 4), (56 + n, 5)];
            rows.into_iter().for_each(|(row, vector)| z.put(&mut state, Register::Z(row), lanes * ((n + vector) % 8)));
        }
        state
    })
}

/// The offsets of register n of X and of Y, and a row of Z.
fn place(n: u64, row: u64) -> u64 {
    row << 20 | (64 * n) << 10 | (64 * n)
}

/// A vecfp in every mode and form, where the pairs of `pair_states` lie.
fn vecfp_calls(format: Format) -> Vec<Call> {
    let widths = if format == SINGLE { 4 } else { 7 } << 42;
    let mut operands = Vec::new();
    for n in 0..8 {
        // all lanes, output 0, X read as 0, Y read as 0, and a lane of Y for every lane
        operands.extend([0, 3, 4, 5, 1 << 6 | n].map(|enable| place(n, n) | enable << 32));
    }
    for broadcast in 0..8 {
        operands.extend([0, 2, 4, 6].map(|n| place(n, 8 + n) | broadcast << 32 | 1 << 31));
        operands.extend([0, 4].map(|n| place(n, n) | broadcast << 32 | 1 << 31 | 1 << 25));
    }
    let on_m2 = operands.iter().flat_map(|operand| [4, 10, 11, 12].map(|mode| Call::new(19, 2, operand | mode << 47 | widths)));
    let on_m1 = operands.iter().filter(|&operand| operand >> 31 & 1 == 0).map(|operand| Call::new(19, 1, operand | 4 << 47 | widths));
    on_m2.chain(on_m1).collect()
}

/// An fms64 of every operation that is done.
fn fms64_calls(places: impl Iterator<Item = u64>) -> Vec<Call> {
    on_both(11, pairs(places, 6).map(|(place, skips)| place | (skips + 2) << 27).collect())
}

/// The vector steps of fms64 where the pairs of `pair_states` lie.
fn fms64_vectors() -> Vec<Call> {
    fms64_calls((0..8).map(|n| 1 << 63 | place(n, n)))
}

/// The matrix steps where those of `matrix_states` lie.
fn fms64_matrices() -> Vec<Call> {
    fms64_calls((0..8).map(|n| place(n, n)))
}

/// States that have every pair of special doubles as an X lane and a Z lane of a matrix, and as a Y lane and a Z lane.
fn matrix_states() -> Vec<Vec<u8>> {
    let special = specials(DOUBLE);
    let count = special.len();
    let mut states = Vec::new();
    for (first, more) in (0..count).step_by(8).flat_map(|first| [0, count - 64].map(|more| (first, more))) {
        // of a Z lane at row 8j + r, lane i, the X lane is i and the Y lane is j
        for by_row in [true, false] {
            let mut state = vec![0; STATE_LENGTH];
            let side = Lanes::new(DOUBLE, (0..8).map(|lane| special[(first + lane) % count]));
            (0..8).for_each(|n| side.put(&mut state, Register::X(n), 0));
            (0..8).for_each(|n| side.put(&mut state, Register::Y(n), 0));
            for row in 0..64 {
                let z = |lane| special[more + if by_row { row } else { 8 * (row % 8) + lane }];
                Lanes::new(DOUBLE, (0..8).map(z)).put(&mut state, Register::Z(row), 0);
            }
            states.push(state);
        }
    }
    states
}

/// What kind of float a pattern is, by place.
const KINDS: [&str; 7] = ["+0", "-0", "subnormal", "normal", "infinite", "default NaN", "other NaN"];

fn kind(format: Format, pattern: u64) -> usize {
    let (magnitude, hidden) = (pattern & (format.sign() - 1), 1 << format.fraction);
    match magnitude {
        _ if pattern == 0 => 0,
        0 => 1,
        _ if magnitude < hidden => 2,
        _ if magnitude < format.infinity() => 3,
        _ if magnitude == format.infinity() => 4,
        _ if pattern == format.default_nan() => 5,
        _ => 6,
    }
}

/// The operation of a call that is done, with its format; none where the output is forced to 0.
fn operation(call: Call) -> Option<String> {
    let Call { instruction, generation, operand } = call;
    if instruction == 11 {
        let form = if operand >> 63 == 1 { "vector" } else { "matrix" };
        return Some(format!("fms64 {form} {}", ["", "", "z-x", "-x", "z-y", "-y", "z", "-0"][(operand >> 27 & 7) as usize]));
    }
    let several = generation == 2 && operand >> 31 & 1 == 1;
    if several && operand >> 32 & 7 == 1 || !several && operand >> 32 & 0x1df == 3 {
        return None;
    }
    let width = if operand >> 42 & 15 == 4 { 32 } else { 64 };
    Some(format!("vecfp f{width} mode {}", operand >> 47 & 63))
}

/// Meets the kinds of the floats that a call has left in its lanes.
fn meet_kinds(tally: &mut Tally, call: Call, state: &[u8]) {
    let Some(operation) = operation(call) else { return };
    let mut met = [false; KINDS.len()];
    for lane in reference::lanes(call.instruction, call.generation, call.operand) {
        let pattern = state[lane.start()..][..lane.bytes].iter().rev().fold(0, |pattern, &byte| pattern << 8 | u64::from(byte));
        met[kind(if lane.bytes == 4 { SINGLE } else { DOUBLE }, pattern)] = true;
    }
    KINDS.into_iter().zip(met).filter(|(_, met)| *met).for_each(|(kind, _)| tally.meet(format!("{operation}: {kind}")));
}

/// What every operation must have left at least once: all kinds, NaNs of other patterns where bits are moved, and of -0 itself.
fn needed_kinds() -> Vec<String> {
    let (moved, rounded) = (&KINDS[..], &KINDS[..6]);
    let vecfp = [("mode 4", moved), ("mode 10", rounded), ("mode 11", rounded), ("mode 12", rounded)];
    let fms64 = [("z-x", rounded), ("-x", moved), ("z-y", rounded), ("-y", moved), ("z", moved), ("-0", &KINDS[1..2])];
    let vecfp = ["vecfp f32", "vecfp f64"].into_iter().flat_map(|form| vecfp.map(|(operation, kinds)| (form, operation, kinds)));
    let fms64 = ["fms64 vector", "fms64 matrix"].into_iter().flat_map(|form| fms64.map(|(operation, kinds)| (form, operation, kinds)));
    vecfp.chain(fms64).flat_map(|(form, operation, kinds)| kinds.iter().map(move |kind| format!("{form} {operation}: {kind}"))).collect()
}

/// Every pair of special patterns through every mode and form. The number of steps.
pub fn special(step: Step, tally: &mut Tally) -> Result<u64, String> {
    let singles = pair_states(SINGLE).map(|state| (state, vecfp_calls(SINGLE)));
    let doubles = pair_states(DOUBLE).map(|state| (state, [vecfp_calls(DOUBLE), fms64_vectors()].concat()));
    let matrices = matrix_states().into_iter().map(|state| (state, fms64_matrices()));
    let mut count = 0;
    for (state, calls) in singles.chain(doubles).chain(matrices) {
        for call in calls {
            let end = agree(PROGRAMS, &Case::due(state.clone(), [call]), step, second)?;
            meet_kinds(tally, call, &end.state);
            count += 1;
        }
    }
    let needed = needed_kinds();
    tally.needs(&needed.iter().map(String::as_str).collect::<Vec<_>>(), "special steps")?;
    Ok(count)
}

/// A state of floats, all of one format, with a count.
pub fn draw_floats(random: &mut Random, length: usize, count: u64) -> Vec<u8> {
    let format = random.pick(&[SINGLE, DOUBLE]);
    let mut state = random.floats(format, length);
    set_count(&mut state, count);
    state
}

/// Random steps of vecfp, and half as many of fms64, on such states; what either was answered. The number of steps.
pub fn random(random: &mut Random, steps: u64) -> Result<(u64, [Tally; 2]), String> {
    let (mut operands, mut tallies) = (Random::new(random.bits()), [Tally::default(), Tally::default()]);
    let vecfp = (0..steps).map(|_| Call::new(19, operands.pick(&[1, 2, 2, 2]), operands.vecfp())).collect::<Vec<_>>();
    let fms64 = (0..steps / 2).map(|_| Call::new(11, operands.pick(&[1, 2]), operands.fms64())).collect::<Vec<_>>();
    let mut count = each(random, vecfp.into_iter(), draw_floats, &mut tallies[0])?;
    count += each(random, fms64.into_iter(), draw_floats, &mut tallies[1])?;
    // on known instructions and generations, and states of the right length; fms64 is never a no-op
    tallies[0].needs(&ANSWERS[3..], "random steps of vecfp")?;
    tallies[1].needs(&["refused 4", "refused 8", "refused 9", "done", "done 0"], "random steps of fms64")?;
    Ok((count, tallies))
}

#[cfg(test)]
mod tests {
    use super::*;
    use amx::REGISTER_BYTES;
    use std::collections::HashSet;

    fn pattern(bytes: &[u8]) -> u64 {
        bytes.iter().rev().fold(0, |pattern, &byte| pattern << 8 | u64::from(byte))
    }

    /// The X, Y and old Z of each lane of a call that reads whole registers.
    fn sources(state: &[u8], call: Call) -> Vec<[u64; 3]> {
        let lanes = reference::lanes(call.instruction, call.generation, call.operand);
        let (matrix, stride) = (call.instruction == 11 && call.operand >> 63 == 0, if call.operand >> 25 & 1 == 1 { 16 } else { 32 });
        let lane = |lane: &reference::Lane| {
            let vector = if call.instruction == 19 && call.operand >> 31 & 1 == 1 { lane.row / stride } else { 0 };
            let at = |offset: u64, lane_number: usize| (offset as usize + 64 * vector + lane.bytes * lane_number) % 512;
            let x = at(call.operand >> 10 & 511, lane.lane);
            let y = 512 + at(call.operand & 511, if matrix { lane.row / 8 } else { lane.lane });
            [x, y, lane.start()].map(|start| pattern(&state[start..][..lane.bytes]))
        };
        lanes.iter().map(lane).collect()
    }

    #[test]
    fn every_special_pair_goes_through_every_form() {
        let every = |format: Format| specials(format).len().pow(2);
        let met = |states: &mut dyn Iterator<Item = Vec<u8>>, calls: &[Call]| {
            let mut met = [HashSet::new(), HashSet::new(), HashSet::new()];
            for state in states {
                for [x, y, z] in calls.iter().flat_map(|&call| sources(&state, call)) {
                    met.iter_mut().zip([(x, y), (x, z), (y, z)]).for_each(|(met, pair)| {
                        met.insert(pair);
                    });
                }
            }
            met.map(|met| met.len())
        };
        for format in [SINGLE, DOUBLE] {
            // one vector, two and four, each source advancing
            for form in [0, 1 << 31, 1 << 31 | 1 << 25] {
                let chosen = |call: &Call| call.generation == 2 && call.operand >> 47 == 10 && call.operand & (0x1ff << 32) == 0;
                let calls: Vec<Call> = vecfp_calls(format).into_iter().filter(chosen).collect();
                let calls: Vec<Call> = calls.into_iter().filter(|call| call.operand & (1 << 31 | 1 << 25) == form).collect();
                assert_eq!(met(&mut pair_states(format), &calls), [every(format); 3], "{form:#x}");
            }
        }
        assert_eq!(met(&mut pair_states(DOUBLE), &fms64_vectors()), [every(DOUBLE); 3]);
        // a matrix step that is done uses X or Y, and not both
        assert_eq!(met(&mut matrix_states().into_iter(), &fms64_matrices())[1..], [every(DOUBLE); 2]);
    }

    /// The reference with the results of vectors changed, by ALU mode (fms64: the skips), format, X, Y, old Z and result.
    fn altered(state: &mut [u8], call: Call, serial: u64, change: fn(u64, Format, [u64; 3], u64) -> u64) -> u64 {
        let (before, answer) = (state.to_vec(), second(state, call, serial));
        let plain = if call.instruction == 11 { call.operand >> 63 == 1 } else { call.operand & (0x1ff << 32 | 1 << 31) == 0 };
        if answer < 65_536 && plain && state.len() == STATE_LENGTH {
            let mode = if call.instruction == 11 { call.operand >> 27 & 7 } else { call.operand >> 47 & 63 };
            let lanes = reference::lanes(call.instruction, call.generation, call.operand);
            for (lane, sources) in lanes.iter().zip(sources(&before, call)) {
                let format = if lane.bytes == 4 { SINGLE } else { DOUBLE };
                let bytes = &mut state[lane.start()..][..lane.bytes];
                let result = change(100 * u64::from(call.instruction == 11) + mode, format, sources, pattern(bytes));
                bytes.copy_from_slice(&result.to_le_bytes()[..lane.bytes]);
            }
        }
        answer
    }

    /// A step that is altered.
    macro_rules! altering {
        ($change:expr) => {
            (|state, call, serial| altered(state, call, serial, $change)) as Step
        };
    }

    fn is_nan(format: Format, pattern: u64) -> bool {
        kind(format, pattern) >= 5
    }

    #[test]
    fn what_is_wrong_about_a_float_is_found() {
        let wrong = [
            (
                "a payload that is kept",
                altering!(|mode, format, [_, _, z], result| {
                    if mode == 11 && is_nan(format, z) { z | 1 << (format.fraction - 1) } else { result }
                }),
            ),
            (
                "the sign of a NaN",
                altering!(|mode, format, [x, y, _], result| {
                    if mode == 10 && is_nan(format, result) { result | (x ^ y) & format.sign() } else { result }
                }),
            ),
            (
                "subnormal results flushed to 0",
                altering!(|mode, format, _, result| {
                    if mode != 4 && mode < 100 && kind(format, result) == 2 { result & format.sign() } else { result }
                }),
            ),
            (
                "subnormal sources read as 0",
                altering!(|mode, format, [_, y, z], result| {
                    if mode == 12 && kind(format, y) == 2 { format.sum(z, y & format.sign()) } else { result }
                }),
            ),
            ("x - z for z - x", altering!(|mode, format, [x, _, z], result| if mode == 102 { format.difference(x, z) } else { result })),
            (
                "-0 lost in a sum of two of them",
                altering!(|mode, format, [x, _, z], result| { if mode == 11 && x == format.sign() && z == x { 0 } else { result } }),
            ),
            ("mode 4 at a NaN", altering!(|mode, format, [x, ..], result| if mode == 4 && is_nan(format, x) { 0 } else { result })),
            ("mode 4 at -0", altering!(|mode, format, [x, y, _], result| if mode == 4 && x == format.sign() { y } else { result })),
            (
                "0 * infinity",
                altering!(|mode, format, [x, y, _], result| { if mode == 10 && x == 0 && y == format.infinity() { 0 } else { result } }),
            ),
            (
                "a NaN made quiet by a move",
                altering!(|mode, format, _, result| {
                    if mode == 106 && is_nan(format, result) { result | 1 << (format.fraction - 1) } else { result }
                }),
            ),
            (
                "a NaN whose sign stays",
                altering!(|mode, format, [_, y, _], result| if mode == 105 && is_nan(format, y) { y } else { result }),
            ),
            ("+0 for -0", altering!(|mode, _, _, result| if mode == 107 { 0 } else { result })),
        ];
        for (name, step) in wrong {
            let report = special(step, &mut Tally::default()).err().unwrap_or_default();
            assert!(report.starts_with("the two programs differ"), "{name}: {report}");
        }
        assert!(special(second, &mut Tally::default()).is_ok());
    }

    #[test]
    fn what_is_wrong_about_a_rounding_is_found() {
        let half_up: Operation = |format, a, b| {
            // away from 0 where the double of the sum is a tie of singles
            let exact = f64::from(f32::from_bits(a as u32)) + f64::from(f32::from_bits(b as u32));
            let tie = format == SINGLE && exact.is_finite() && exact.to_bits() % (1 << 29) == 1 << 28;
            if tie { ((exact * (1.0 + f64::EPSILON)) as f32).to_bits().into() } else { format.sum(a, b) }
        };
        let truncated: Operation = |format, a, b| match format.product(a, b) {
            result if format == DOUBLE && (f64::from_bits(a).mul_add(f64::from_bits(b), -f64::from_bits(result))) < 0.0 => result - 1,
            result => result,
        };
        let zeros: Operation = |format, a, b| if a == format.sign() && b == 0 { 0 } else { format.difference(a, b) };
        for (operations, words) in [
            (Operations { sum: half_up, ..IN_WHOLE_NUMBERS }, "f32: "),
            (Operations { product: truncated, ..IN_WHOLE_NUMBERS }, "f64: "),
            (Operations { difference: zeros, ..IN_WHOLE_NUMBERS }, "f32: 0x80000000 - 0x0 is 0x0 in whole numbers"),
        ] {
            let report = rounding(&operations, &mut Random::new(1), 1_000).err().unwrap_or_default();
            assert!(report.starts_with(words), "{report}");
        }
        let special = specials(SINGLE).len() as u64;
        assert_eq!(rounding(&IN_WHOLE_NUMBERS, &mut Random::new(1), 1_000), Ok(6 * (special * special + 1_000)));
    }

    #[test]
    fn a_kind_of_float_that_was_never_met_is_told() {
        let mut tally = Tally::default();
        let mut state = vec![0; REGISTER_BYTES + 8];
        meet_kinds(&mut tally, Call::new(11, 1, 1 << 63 | 2 << 27 | 1 << 46), &state);
        state[Register::Z(0).start() + 3] = 0x80;
        meet_kinds(&mut tally, Call::new(19, 2, 10 << 47 | 4 << 42 | 2 << 38 | 2 << 32), &state);
        // an output that is forced to 0 tells nothing
        meet_kinds(&mut tally, Call::new(19, 2, 11 << 47 | 4 << 42 | 3 << 32), &state);
        meet_kinds(&mut tally, Call::new(19, 2, 11 << 47 | 4 << 42 | 1 << 32 | 1 << 31), &state);
        assert_eq!(tally.text(), "fms64 vector z-x: +0: 1, vecfp f32 mode 10: +0: 1, vecfp f32 mode 10: -0: 1");
        assert_eq!(needed_kinds().len(), 2 * (7 + 3 * 6) + 2 * (2 * 6 + 3 * 7 + 1));
    }
}
