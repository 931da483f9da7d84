//! The proved unit's speed against the reference's, in one run. Ratios are of medians of interleaved runs; below 1 the proved unit is faster.
use amx::{
    AluMode, Answer, Broadcast, Call, Enable, FieldError, Float, FloatMode, Fms64, Generation::M2, IndexBits, LaneWidths, Mac16, Reduction,
    ReductionWidths, Register, Side, State, Vecfp, Vecint, Vectors, random::Random, reference, step,
};
use std::{hint::black_box, time::Instant};

const RUNS: usize = 31;

/// One vector, with all its lanes.
const ONE: Vectors = Vectors::One(Enable::All);

/// The host's number of a refusal is at least this; a step whose answer is below it raised the count.
const REFUSED: u64 = 131_072;

/// One program over a list of calls; the serial due after them.
type Program = fn(&mut State, &[Call]) -> u64;

fn proved(state: &mut State, calls: &[Call]) -> u64 {
    send(state.count(), calls, |call, serial| step(state, call, serial).number())
}

fn second(state: &mut State, calls: &[Call]) -> u64 {
    send(state.count(), calls, |call, serial| reference::step(state.bytes_mut(), call.instruction, call.generation, call.operand, serial))
}

/// Every call with the serial due, which the answers tell: no step waits for the count to be read.
fn send(mut serial: u64, calls: &[Call], mut step: impl FnMut(Call, u64) -> u64) -> u64 {
    for &call in calls {
        let taken = step(call, serial) < REFUSED;
        serial += u64::from(taken);
    }
    serial
}

fn seconds(state: &mut State, calls: &[Call], program: Program) -> f64 {
    let start = Instant::now();
    let due = black_box(program(black_box(state), black_box(calls)));
    let seconds = start.elapsed().as_secs_f64();
    assert_eq!(due, state.count(), "a step was sent with another serial than the one due");
    seconds
}

fn median(mut times: Vec<f64>) -> f64 {
    times.sort_by(f64::total_cmp);
    times[times.len() / 2]
}

/// A state at the start of a cache line, so that the rows of both programs lie alike in theirs.
#[repr(align(64))]
struct Aligned(State);

/// Times both programs on a list, each run from the same bytes, and checks that both end in the same.
fn measure(name: &str, start: &State, calls: &[Call]) {
    let mut times = [Vec::new(), Vec::new()];
    for _ in 0..RUNS {
        let (mut a, mut b) = (Aligned(start.clone()), Aligned(start.clone()));
        times[0].push(seconds(&mut a.0, calls, proved));
        times[1].push(seconds(&mut b.0, calls, second));
        assert!(a.0 == b.0, "{name}: the two programs end in different states");
    }
    let [proved, second] = times.map(median);
    let each = 1e9 / calls.len() as f64;
    println!("{name:<36} {:>7.0} ns a step   reference {:>7.0}   ratio {:.3}", proved * each, second * each, proved / second);
}

/// The step of a form at the X offsets of seven kernels, over and over. Floats lie in whole lanes.
fn form(name: &str, start: &State, call: Call, count: usize) {
    let apart = if matches!(call.instruction, 11 | 19) { 8 } else { 3 };
    let calls: Vec<Call> = (0..count).map(|n| Call { operand: call.operand | (n as u64 % 7 * apart) << 10, ..call }).collect();
    measure(name, start, &calls);
}

fn main() -> Result<(), FieldError> {
    let mut random = Random::new(1);
    let start = random.state();
    let mac16 = |fields| Call::mac16(M2, fields);
    let vecint = |mode, widths, vectors| -> Result<Call, FieldError> {
        Ok(Call::vecint(Vecint::m2(mode, vectors)?.lane_widths(widths).shift(3)?.x_signed(true).y_signed(true)))
    };
    form("mac16, matrix 16", &start, mac16(Mac16::new()), 300);
    form("mac16, matrix 32", &start, mac16(Mac16::new().z_i32(true)), 300);
    form("mac16, vector", &start, mac16(Mac16::new().vector(true)), 4_000);
    for (name, widths) in [
        ("widths 0 (16 16 16)", LaneWidths::X16Y16Z16),
        ("widths 3 (16 16 32)", LaneWidths::X16Y16Z32),
        ("widths 10 (8 8 32)", LaneWidths::X8Y8Z32),
        ("widths 11 (8 8 16)", LaneWidths::X8Y8Z16),
    ] {
        form(&format!("vecint, mode 0, {name}"), &start, vecint(AluMode::AddProduct, widths, ONE)?, 4_000);
    }
    let four = Vectors::Four(Broadcast::Consecutive);
    form("vecint, mode 0, four vectors", &start, vecint(AluMode::AddProduct, LaneWidths::X16Y16Z16, four)?, 2_000);
    let reduction = Reduction::m2(ONE)?.lane_widths(ReductionWidths::Z32To16).shift(3)?.z_signed(true).rounding(true).saturate(true);
    form("vecint, mode 4, widths 3 (32 to 16)", &start, Call::reduction(reduction), 4_000);
    form("vecint, mode 5", &start, vecint(AluMode::AddRoundedProduct, LaneWidths::X16Y16Z16, ONE)?, 4_000);
    let mixed: Vec<Call> = (0..4_000).map(|_| random.integer_call()).collect();
    measure("mac16, vecint, 4,000 random calls", &start, &mixed);
    let works = |&call: &Call| matches!(step(&mut State::new(), call, 0), Answer::Done { bytes: 1.. });
    let records: Vec<Call> = std::iter::repeat_with(|| random.integer_call()).filter(works).take(2_048).collect();
    measure("a whole trace, 2,048 done steps", &start, &records);
    let indexed = Vecint::m2_indexed(Side::X, IndexBits::Four, 3, ONE)?.shift(3)?.x_signed(true).y_signed(true);
    form("vecint, indexed X, widths 0", &start, Call::vecint(indexed), 4_000);
    form("vecint, indexed X, widths 10", &start, Call::vecint(indexed.lane_widths(LaneWidths::X8Y8Z32)), 4_000);
    let is_indexed = |call: &Call| call.instruction == 18 && call.operand >> 53 & 1 == 1;
    let loads = std::iter::repeat_with(|| random.integer_call()).filter(|call| is_indexed(call) && works(call));
    measure("vecint, 2,048 done indexed steps", &start, &loads.take(2_048).collect::<Vec<_>>());
    floats(&mut random)
}

/// vecfp of both formats, fms64 as a vector and a matrix, and any of them that are done.
fn floats(random: &mut Random) -> Result<(), FieldError> {
    // numbers from 1 to 2: a processor may be slow with subnormal ones
    let (mut singles, mut doubles) = (State::new(), State::new());
    for (register, lane) in Register::all().flat_map(|register| (0..16).map(move |lane| (register, lane))) {
        let number = 1.0 + random.below(1 << 20) as f32 / (1 << 20) as f32;
        singles.set_f32(register, lane, number);
        doubles.set_f64(register, lane / 2, number.into());
    }
    for (mode, operation) in
        [(FloatMode::Select, "x <= 0 ? 0 : y"), (FloatMode::Product, "x*y"), (FloatMode::AddX, "z + x"), (FloatMode::AddY, "z + y")]
    {
        for (name, format, start) in [("f32", Float::Single, &singles), ("f64", Float::Double, &doubles)] {
            let call = Call::vecfp(Vecfp::m2(mode, format, ONE)?);
            form(&format!("vecfp {name}, mode {} ({operation})", mode as u64), start, call, 4_000);
        }
    }
    let four = Vecfp::m2(FloatMode::AddX, Float::Single, Vectors::Four(Broadcast::Consecutive))?;
    form("vecfp f32, mode 11, four vectors", &singles, Call::vecfp(four), 2_000);
    for (name, fields) in [("z - x", Fms64::new().skip_y(true)), ("-y", Fms64::new().skip_x(true).skip_z(true))] {
        form(&format!("fms64, vector, {name}"), &doubles, Call::fms64(M2, fields.vector(true)), 4_000);
        form(&format!("fms64, matrix, {name}"), &doubles, Call::fms64(M2, fields), 1_000);
    }
    let calls: Vec<Call> = (0..4_000).map(|_| random.float_call()).collect();
    measure("vecfp, fms64, 4,000 random calls", &doubles, &calls);
    Ok(())
}
