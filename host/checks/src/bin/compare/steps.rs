//! Steps one by one and in sequences, and normal operands.
use crate::case::{Case, Step, agree, difference, proved, second};
use crate::floats::draw_floats;
use crate::sent::{Sent, Serial, count_of, draw_count, draw_state, set_count};
use crate::tally::Tally;
use amx::{Answer, Call, Instruction, REGISTER_BYTES, Refusal, STATE_LENGTH, normal, random::Random, random::put, reference};

/// Every answer, done with no lane apart. Sweeps of operands, on states of the right length, do not meet the first three.
pub const ANSWERS: [&str; 11] =
    ["refused 1", "refused 2", "refused 3", "refused 4", "refused 8", "refused 9", "no-op 1", "no-op 2", "no-op 3", "done", "done 0"];

/// Two states that go through the same steps, one by each program.
struct Pair {
    proved: Vec<u8>,
    second: Vec<u8>,
}

impl Pair {
    fn new(bytes: Vec<u8>) -> Self {
        Pair { second: bytes.clone(), proved: bytes }
    }

    /// A call with the serial due.
    fn step(&mut self, before: &mut Vec<u8>, call: Call, tally: &mut Tally) -> Result<(), String> {
        before.clone_from(&self.proved);
        let due = count_of(before).unwrap_or(0);
        let answers = (proved(&mut self.proved, call, due), second(&mut self.second, call, due));
        tally.count(answers.0);
        if answers.0 == answers.1 && self.proved == self.second {
            return Ok(());
        }
        agree(PROGRAMS, &Case::due(before.clone(), [call]), proved, second).map(drop)
    }
}

pub const PROGRAMS: &str = "the two programs";

/// One call on a state of its own.
fn one(step: Step, state: Vec<u8>, sent: Sent, tally: &mut Tally) -> Result<(), String> {
    let end = agree(PROGRAMS, &Case { state, sent: vec![sent] }, step, second)?;
    tally.count(end.answers[0]);
    Ok(())
}

/// Draws a state of some length with a count.
type Draw = fn(&mut Random, usize, u64) -> Vec<u8>;

/// Every call of a list with the serial due, on states that are drawn anew now and then. One in four is sent to a copy as well, whose count is
/// drawn, mostly with a wrong serial: what a refused serial hides is compared all the same. The number of steps.
pub fn each(random: &mut Random, calls: impl Iterator<Item = Call>, draw: Draw, tally: &mut Tally) -> Result<u64, String> {
    let mut pair = Pair::new(Vec::new());
    let (mut before, mut aside, mut count) = (Vec::new(), 0, 0);
    for call in calls {
        if count % 48 == 0 {
            let taken = if random.once_in(2) { 0 } else { random.bits() };
            pair = Pair::new(draw(random, STATE_LENGTH, taken));
        }
        if random.once_in(4) {
            let mut state = pair.proved.clone();
            set_count(&mut state, draw_count(random, 4));
            let serial = if random.once_in(4) { Serial::Due } else { Serial::wrong(random) };
            one(proved, state, Sent { call, serial }, tally)?;
            aside += 1;
        }
        pair.step(&mut before, call, tally)?;
        count += 1;
    }
    Ok(count + aside)
}

/// The rows of the table of answers beside each other, so that their order shows: lengths, generations, instructions, counts and serials, each
/// with operands that the rows after them tell apart. The number of steps.
pub fn table(step: Step, random: &mut Random, tally: &mut Tally) -> Result<u64, String> {
    const LENGTHS: [usize; 5] = [0, REGISTER_BYTES, STATE_LENGTH - 1, STATE_LENGTH, STATE_LENGTH + 1];
    const COUNTS: [u64; 8] = [0, 1, 255, (1 << 32) - 1, u64::MAX - 3, u64::MAX - 2, u64::MAX - 1, u64::MAX];
    const SERIALS: [Serial; 6] =
        [Serial::Due, Serial::Past(1), Serial::Past(u64::MAX), Serial::Past(1 << 32), Serial::Given(0), Serial::Given(u64::MAX)];
    // of vecint: done, done with no lane, no-op 1, 2 and 3, refused 4, and no-ops that would be refused 4 next
    const VECINT: [u64; 9] =
        [1 << 63, 6 << 38, 1 << 54, 7 << 47, 10 << 47, 1 << 27, 1 << 54 | 1 << 27, 7 << 47 | 1 << 27, 10 << 47 | 1 << 27];
    // of vecfp: done, done with no lane, no-op 3 or done, refused 4 for the widths, the mode, a shuffle and an indexed load, and no-ops that
    // would be refused 4 next
    const SELECT: u64 = 4 << 47 | 4 << 42;
    const VECFP: [u64; 12] = [
        SELECT,
        SELECT | 6 << 38,
        10 << 47 | 7 << 42,
        4 << 47 | 3 << 42,
        5 << 47 | 4 << 42,
        SELECT | 1 << 27,
        SELECT | 1 << 53,
        SELECT | 1 << 54,
        SELECT | 1 << 53 | 1 << 54,
        2 << 47 | 4 << 42,
        8 << 47 | 1 << 30,
        12 << 47 | 4 << 42 | 1 << 29,
    ];
    // of fms64: done, done with no lane; the others above are refused 4 but for the shuffles, which are its skips
    const FMS64: [u64; 4] = [1 << 63 | 1 << 28, 1 << 29, 3 << 27, 1 << 46 | 8 << 41 | 1 << 28];
    let mut count = 0;
    for length in LENGTHS {
        let bytes = random.bytes(length);
        for taken in if length == STATE_LENGTH { &COUNTS[..] } else { &COUNTS[..1] } {
            let mut state = bytes.clone();
            set_count(&mut state, *taken);
            for (instruction, generation) in pairs([13, 14, 18, 1 << 32 | 14, 10, 11, 12, 19, 20, 1 << 8 | 19], 4) {
                let operands = VECINT.into_iter().chain(VECFP).chain(FMS64);
                for (operand, serial) in operands.flat_map(|operand| SERIALS.map(|serial| (operand, serial))) {
                    let call = Call::new(instruction, generation, operand);
                    one(step, state.clone(), Sent { call, serial }, tally)?;
                    count += 1;
                }
            }
        }
    }
    tally.needs(&ANSWERS, "steps of the table")?;
    Ok(count)
}

/// The fields of each instruction swept, alone and in the pairs and triples that matter to each other.
pub fn swept(random: &mut Random, tally: &mut Tally) -> Result<u64, String> {
    let (mac16, vecint) = (sweep_mac16(random), sweep_vecint(random));
    let integers = each(random, mac16.into_iter().chain(vecint), draw_state, tally)?;
    tally.needs(&ANSWERS[3..], "swept steps")?;
    let (vecfp, fms64) = (sweep_vecfp(random), sweep_fms64(random));
    let mut of_floats = Tally::default();
    let floats = each(random, vecfp.into_iter().chain(fms64), draw_floats, &mut of_floats)?;
    of_floats.needs(&ANSWERS[3..], "swept steps of floats")?;
    tally.join(of_floats);
    Ok(integers + floats)
}

/// Z row and the offsets, and nothing that is ignored.
const PLACES: u64 = 0x3f7_fdff;

/// Both generations of each operand.
pub fn on_both(instruction: u64, operands: Vec<u64>) -> Vec<Call> {
    operands.into_iter().flat_map(|operand| [1, 2].map(|generation| Call::new(instruction, generation, operand))).collect()
}

/// Every item with every number below n.
pub fn pairs(items: impl IntoIterator<Item = u64>, n: u64) -> impl Iterator<Item = (u64, u64)> {
    items.into_iter().flat_map(move |item| (0..n).map(move |number| (item, number)))
}

fn sweep_mac16(random: &mut Random) -> Vec<Call> {
    let mut operands = Vec::new();
    // the forms: vector, matrix 16, matrix 32
    for form in [1 << 63, 0, 1 << 62] {
        for (x, y) in pairs(0..128, 128) {
            // a vector step ignores the Y mask
            if form >> 63 == 0 || y % 16 == 0 {
                let sides_and_shift = random.bits() & 0x7f << 55;
                operands.push(form | sides_and_shift | x << 41 | y << 32 | random.bits() & (PLACES | 7 << 27 | 127 << 48));
            }
        }
        for (sides, shift) in pairs(0..32, 32) {
            operands.push(form | (sides & 3) << 60 | (sides >> 2) << 27 | shift << 55 | random.bits() & PLACES);
        }
        for (offset, row) in pairs((0..512).step_by(11), 64) {
            operands.push(form | row << 20 | offset << 10 | (511 - offset));
        }
        operands.extend((0..64).map(|bit| form ^ 1 << bit));
    }
    on_both(14, operands)
}

fn sweep_fms64(random: &mut Random) -> Vec<Call> {
    let mut operands = Vec::new();
    for form in [1 << 63, 0] {
        // what is done, and any of what is ignored
        let skips = |random: &mut Random| form | random.pick(&[2, 3, 4, 5, 6, 7]) << 27 | random.bits() & (0x7fff << 48 | PLACES);
        for (x, y) in pairs(0..128, 128).filter(|(_, y)| form == 0 || y % 16 == 0) {
            operands.push(put(put(skips(random), 41, 47, x), 32, 38, y));
        }
        for (skipped, row) in pairs(0..8, 64) {
            operands.push(form | skipped << 27 | row << 20 | random.bits() & PLACES & !(63 << 20));
        }
        for (offset, row) in pairs((0..512).step_by(7), 8) {
            operands.push(put(put(put(skips(random), 10, 18, offset), 0, 8, 511 - offset), 20, 25, row));
        }
        operands.extend(pairs(2..8, 64).map(|(skipped, bit)| (form | skipped << 27) ^ 1 << bit));
    }
    on_both(11, operands)
}

fn sweep_vecfp(random: &mut Random) -> Vec<Call> {
    const MODES: [u64; 4] = [4, 10, 11, 12];
    // places and all that is ignored, and no shuffle
    let other = |random: &mut Random| random.bits() & (0x7f << 57 | 1 << 46 | 1 << 41 | 0x07ff_ffff);
    let mut operands = Vec::new();
    // all that bits 47..53 can say, at every width
    for (kind, widths) in pairs(0..128, 16) {
        let form = kind << 47 | widths << 42;
        operands.push(form | other(random));
        operands.extend(pairs(0..2, 8).map(|(four, broadcast)| put(form | other(random), 25, 25, four) | 1 << 31 | broadcast << 32));
    }
    for (mode, widths) in MODES.into_iter().flat_map(|mode| [4, 7].map(|widths| (mode, widths))) {
        let form = mode << 47 | widths << 42;
        // enable modes and values with the bit above, and broadcast modes with what is ignored then
        for (several, value) in pairs(0..3, 512) {
            operands.push(put(form | other(random), 25, 25, several / 2) | several.min(1) << 31 | value << 32);
        }
        operands.extend(pairs(0..2, 64).map(|(several, row)| put(form | other(random), 20, 25, row) | several << 31));
        // both sides round the end of the ring, with one vector, two and four
        for (offset, vectors) in pairs(448..512, 3) {
            let placed = put(put(form | other(random), 10, 18, offset), 0, 8, 959 - offset);
            operands.push(put(placed, 25, 25, vectors / 2) | vectors.min(1) << 31);
        }
        // shuffles and the reserved bits, and every bit turned
        operands.extend((0..128).map(|bits| form | (bits & 15) << 27 | (bits >> 4) << 54));
        operands.extend((0..64).flat_map(|bit| [form ^ 1 << bit, form ^ 1 << 31 ^ 1 << bit]));
    }
    on_both(19, operands)
}

fn sweep_vecint(random: &mut Random) -> Vec<Call> {
    // ALU modes, and indexed loads of X and Y with indices of 2 and 4 bits, as bits 47..53 have them
    const KINDS: [u64; 14] = [0, 1, 2, 3, 4, 5, 6, 10, 11, 12, 64, 65, 66, 67];
    const WIDTHS: [u64; 8] = [0, 3, 4, 9, 10, 11, 12, 13];
    // signs, places and some of what is ignored; in mode 4 its switches, and no shuffle in others
    let other = |random: &mut Random, kind| random.bits() & if kind == 4 { 0x8200_0200_7fff_ffff } else { 0x8200_0200_07ff_ffff };
    let mut operands = Vec::new();
    // all that bits 47..53 can say: of indexed loads every register, and the bit that they ignore
    for (kind, widths) in pairs(0..128, 16) {
        let form = kind << 47 | widths << 42;
        operands.push(form | other(random, kind));
        for (four, broadcast) in pairs(0..2, 8) {
            operands.push(put(form | other(random, kind), 25, 25, four) | 1 << 31 | broadcast << 32);
        }
    }
    for (kind, widths) in KINDS.into_iter().flat_map(|kind| WIDTHS.map(|widths| (kind, widths))) {
        let register = if kind < 64 { 0 } else { random.below(16) << 49 };
        let form = kind << 47 | register | widths << 42;
        for value in 0..512 {
            operands.push(form | value << 32 | random.below(32) << 58 | other(random, kind));
        }
        for (signs, shift) in pairs(0..4, 32) {
            operands.push(put(put(form | shift << 58 | other(random, kind), 63, 63, signs & 1), 26, 26, signs >> 1));
        }
        for (several, row) in pairs(0..2, 64) {
            operands.push(put(form | other(random, kind), 20, 25, row) | several << 31);
        }
        // both sides round the end of the ring, with one vector, two and four
        for (offset, vectors) in pairs(448..512, 3) {
            let placed = put(put(form | other(random, kind), 10, 18, offset), 0, 8, 959 - offset);
            operands.push(put(placed, 25, 25, vectors / 2) | vectors.min(1) << 31);
        }
    }
    for form in KINDS.map(|kind| kind << 47) {
        // shuffles and the reserved bits, beside every mode and an indexed load, and every bit turned
        operands.extend((0..128).map(|bits| form | (bits & 15) << 27 | (bits >> 4) << 54));
        operands.extend((0..64).flat_map(|bit| [form ^ 1 << bit, form ^ 1 << 31 ^ 1 << bit]));
    }
    // ALU mode 4: all its switches
    for (switches, shift) in pairs(0..16, 32) {
        let switched = (switches & 1) << 63 | (switches >> 1 & 3) << 29 | (switches >> 3) << 26;
        operands.extend((0..16).map(|widths| 4 << 47 | switched | shift << 58 | widths << 42 | random.bits() & PLACES));
    }
    on_both(18, operands)
}

/// Random calls, unknown instructions and generations, wrong serials and wrong lengths among them.
pub fn random(random: &mut Random, steps: u64, tally: &mut Tally) -> Result<u64, String> {
    let mut calls = Random::new(random.bits());
    let count = each(random, (0..steps).map(|_| calls.call()), draw_state, tally)?;
    let wrong_lengths = steps / 40;
    for _ in 0..wrong_lengths {
        let length = match random.below(4) {
            0 => random.pick(&[0, 1, 1_024, REGISTER_BYTES, STATE_LENGTH - 1, STATE_LENGTH, STATE_LENGTH + 1, 10_240]),
            _ => random.below(6_000) as usize,
        };
        let taken = draw_count(random, 4);
        let state = draw_state(random, length, taken);
        let sent = Sent { call: random.call(), serial: Serial::wrong(random) };
        one(proved, state, sent, tally)?;
    }
    tally.needs(&ANSWERS, &format!("{steps} random steps"))?;
    Ok(count + wrong_lengths)
}

/// A list of calls, among them some that are sent again, others with a serial that was used up, and others with a wrong one.
fn draw_sequence(random: &mut Random) -> Case {
    let length = if random.once_in(32) { 0 } else { 1 + random.below(120) };
    let bytes = if random.once_in(32) { random.below(6_000) as usize } else { STATE_LENGTH };
    let taken = draw_count(random, 120);
    let mut case = Case { state: draw_state(random, bytes, taken), sent: Vec::new() };
    for _ in 0..length {
        let call = random.call();
        case.sent.push(match random.below(24) {
            0 => Sent { call: case.sent.last().map_or(call, |last| last.call), serial: Serial::Used(0) },
            1 => Sent { call, serial: Serial::Used(random.below(40) as usize) },
            2 => Sent { call, serial: Serial::wrong(random) },
            _ => Sent::due(call),
        });
    }
    case
}

/// Lists of calls, each on one state from its start to its end. The number of steps, and of those sent with a serial that was used up.
pub fn sequences(random: &mut Random, lists: u64) -> Result<(u64, u64), String> {
    let (mut count, mut again) = (0, 0);
    for _ in 0..lists {
        let case = draw_sequence(random);
        again += sent_again(&case, proved).map_err(|fault| {
            let smallest = case.clone().shrink(&|case| sent_again(case, proved).is_err());
            let fault = sent_again(&smallest, proved).err().unwrap_or(fault);
            format!("{fault}; the smallest case found:\n{}\n", smallest.describe())
        })?;
        agree("sequences of calls", &case, proved, second)?;
        count += case.sent.len() as u64;
    }
    Ok((count, again))
}

/// The steps of a list that are sent with a serial that was used up: how many, or the first that changes a byte or is not refused for it.
fn sent_again(case: &Case, step: Step) -> Result<u64, String> {
    let (mut run, mut again) = (case.start(), 0);
    for (place, &sent) in case.sent.iter().enumerate() {
        let before = run.used.contains(&sent.serial.number(&run.state, &run.used)).then(|| run.state.clone());
        let answer = Answer::from_number(run.send(step, sent));
        let Some(before) = before else { continue };
        again += 1;
        let refused =
            matches!(answer, Some(Answer::Refused(Refusal::Serial | Refusal::LastCount | Refusal::Generation | Refusal::Instruction)));
        if !refused || run.state != before {
            let changed = if run.state == before { "changes nothing" } else { "changes the state" };
            return Err(format!("step {place}, sent with a serial that was used up, is answered {answer:?} and {changed}"));
        }
    }
    Ok(again)
}

/// Normal operands: the reference's, of the same answer and effect on any state with any serial, and normal themselves. How many each
/// instruction had.
pub fn normals(random: &mut Random, count: u64) -> Result<Tally, String> {
    let mut tally = Tally::default();
    for n in 0..count {
        let length = if random.once_in(64) { random.below(6_000) as usize } else { STATE_LENGTH };
        let taken = draw_count(random, 4);
        let state = if n % 64 == 0 { vec![0; STATE_LENGTH] } else { draw_state(random, length, taken) };
        let serial = if random.once_in(16) { Serial::wrong(random) } else { Serial::Due };
        let case = Case { state, sent: vec![Sent { call: random.call(), serial }] };
        tally.meet(normal_kind(case.sent[0].call));
        if let Some(fault) = normal_fault(&case) {
            let smallest = case.shrink(&|case| normal_fault(case).is_some());
            let fault = normal_fault(&smallest).unwrap_or(fault);
            return Err(format!("{fault}; the smallest case found:\n{}\n", smallest.describe()));
        }
    }
    tally.needs(&["none", "fms64", "mac16", "vecint", "vecfp"], "normal operands")?;
    Ok(tally)
}

/// The instruction of a call that has a normal operand.
fn normal_kind(call: Call) -> String {
    let known = Instruction::from_number(call.instruction).filter(|_| normal(call).is_ok());
    known.map_or("none", Instruction::name).to_owned()
}

fn normal_fault(case: &Case) -> Option<String> {
    let [Sent { call, serial }] = case.sent[..] else { return None };
    let given = normal(call);
    let expected = reference::normal(call.instruction, call.generation, call.operand);
    if given.map_err(|not_done| Answer::from(not_done).number()) != expected {
        return Some(format!("the normal operand is {given:x?}, and by the reference {expected:x?}"));
    }
    let Ok(operand) = given else { return None };
    let again = Call { operand, ..call };
    if normal(again) != Ok(operand) {
        return Some(format!("the normal operand {operand:#x} is not normal"));
    }
    let normalised = Case { state: case.state.clone(), sent: vec![Sent { call: again, serial }] };
    let (plain, normal) = (case.run(proved), normalised.run(proved));
    if plain != normal {
        let found = difference(["as given", "normal"], [&plain, &normal]);
        return Some(format!("the normal operand {operand:#x} does something else:\n{found}"));
    }
    // a call that has a normal operand is done where its serial is due
    let answer = plain.answers[0];
    let due = count_of(&case.state).is_some_and(|count| count != u64::MAX && serial.number(&case.state, &[]) == count);
    let words = if due { "due" } else { "not due" };
    (due != (answer < 65_536)).then(|| format!("a call that has a normal operand, with a serial that is {words}, is answered {answer}"))
}

#[cfg(test)]
mod tests {
    use super::*;
    use crate::case::REFUSED;

    fn taken(state: &[u8]) -> u64 {
        count_of(state).unwrap_or(0)
    }

    /// What a call is answered where its serial is the one due.
    fn by_call(call: Call) -> u64 {
        reference::normal(call.instruction, call.generation, call.operand).err().unwrap_or(0)
    }

    fn serial_before_last_count(state: &mut [u8], call: Call, serial: u64) -> u64 {
        match second(state, call, serial) {
            answer if answer == REFUSED + 9 && serial != u64::MAX => REFUSED + 8,
            answer => answer,
        }
    }

    fn serial_before_instruction(state: &mut [u8], call: Call, serial: u64) -> u64 {
        match second(state, call, serial) {
            answer if answer == REFUSED + 3 && serial != taken(state) => REFUSED + 8,
            answer => answer,
        }
    }

    fn serial_after_no_ops(state: &mut [u8], call: Call, serial: u64) -> u64 {
        match second(state, call, serial) {
            answer if answer == REFUSED + 8 && (1..REFUSED).contains(&by_call(call)) => by_call(call),
            answer => answer,
        }
    }

    fn serial_after_shuffles(state: &mut [u8], call: Call, serial: u64) -> u64 {
        match second(state, call, serial) {
            answer if answer == REFUSED + 8 && by_call(call) == REFUSED + 4 => REFUSED + 4,
            answer => answer,
        }
    }

    fn refusal_counts(state: &mut [u8], call: Call, serial: u64) -> u64 {
        let answer = second(state, call, serial);
        if answer == REFUSED + 4 {
            set_count(state, serial + 1);
        }
        answer
    }

    fn no_op_does_not_count(state: &mut [u8], call: Call, serial: u64) -> u64 {
        let answer = second(state, call, serial);
        if (65_536..REFUSED).contains(&answer) {
            set_count(state, serial);
        }
        answer
    }

    fn count_wraps(state: &mut [u8], call: Call, serial: u64) -> u64 {
        let last = taken(state) == u64::MAX && serial == u64::MAX;
        if last {
            set_count(state, 0);
        }
        let answer = second(state, call, if last { 0 } else { serial });
        if last {
            set_count(state, if answer < REFUSED { 0 } else { u64::MAX });
        }
        answer
    }

    fn low_half_of_the_serial(state: &mut [u8], call: Call, serial: u64) -> u64 {
        let same = serial as u32 == taken(state) as u32;
        second(state, call, if same { taken(state) } else { serial })
    }

    fn length_of_the_registers(state: &mut [u8], call: Call, serial: u64) -> u64 {
        match second(state, call, serial) {
            _ if state.len() == REGISTER_BYTES => by_call(call),
            answer => answer,
        }
    }

    /// An operand of vecfp by vecint's modes: 2 and 3 are among them.
    fn modes_of_vecint(state: &mut [u8], call: Call, serial: u64) -> u64 {
        let wrong = call.instruction == 19 && matches!(call.operand >> 47 & 127, 2 | 3 | 6);
        second(state, if wrong { Call { operand: put(call.operand, 47, 53, 0), ..call } } else { call }, serial)
    }

    /// vecfp's mode 4 with its shuffles ignored, as vecint's are.
    fn shuffles_of_mode_4(state: &mut [u8], call: Call, serial: u64) -> u64 {
        let wrong = call.instruction == 19 && call.operand >> 47 & 127 == 4;
        second(state, if wrong { Call { operand: put(call.operand, 27, 30, 0), ..call } } else { call }, serial)
    }

    fn both_inputs_of_fms64(state: &mut [u8], call: Call, serial: u64) -> u64 {
        let wrong = call.instruction == 11 && call.operand >> 28 & 3 == 0;
        second(state, if wrong { Call { operand: call.operand | 1 << 28, ..call } } else { call }, serial)
    }

    fn instruction_by_a_byte(state: &mut [u8], call: Call, serial: u64) -> u64 {
        second(state, Call { instruction: call.instruction & 255, ..call }, serial)
    }

    #[test]
    fn the_table_finds_what_is_wrong_about_floats() {
        for (step, difference) in [
            (modes_of_vecint as Step, "answer 0: proved 131076, reference 65538"),
            (shuffles_of_mode_4, "proved 64, reference 131076"),
            (both_inputs_of_fms64, "reference 131076"),
            (instruction_by_a_byte, "reference 131075"),
        ] {
            let report = table(step, &mut Random::new(1), &mut Tally::default()).unwrap_err();
            assert!(report.contains(difference), "{difference}: {report}");
        }
    }

    fn serials_ignored(state: &mut [u8], call: Call, _: u64) -> u64 {
        second(state, call, taken(state))
    }

    #[test]
    fn the_table_finds_what_is_wrong_about_serials() {
        let found = |step| table(step, &mut Random::new(1), &mut Tally::default());
        for (step, difference) in [
            (serial_before_last_count as Step, "answer 0: proved 131080, reference 131081"),
            (serial_before_instruction, "answer 0: proved 131080, reference 131075"),
            (serial_after_no_ops, "answer 0: proved 65537, reference 131080"),
            (serial_after_shuffles, "answer 0: proved 131076, reference 131080"),
            (refusal_counts, "count: proved 1, reference 0"),
            (no_op_does_not_count, "count: proved 0, reference 1"),
            (count_wraps, "reference 131081\n  count: proved 0, reference 18446744073709551615"),
            (low_half_of_the_serial, "serial 4294967296 after the one due\n  answer 0: proved 2048, reference 131080"),
            (length_of_the_registers, "a state of 5120 bytes"),
            (serials_ignored, "serial 1 after the one due"),
        ] {
            let report = found(step).unwrap_err();
            assert!(report.contains(difference), "{difference}: {report}");
        }
        assert!(found(second).is_ok());
    }

    #[test]
    fn a_step_that_is_taken_twice_is_found() {
        let call = Call::new(14, 1, 1 << 63);
        let again = |serial| Sent { call, serial };
        let case = |sent: &[Sent]| Case { state: vec![1; STATE_LENGTH], sent: sent.to_vec() };
        let retried = case(&[Sent::due(call), again(Serial::Used(0)), Sent::due(call), again(Serial::Used(1))]);
        assert_eq!(sent_again(&retried, second), Ok(2));
        assert!(sent_again(&retried, serials_ignored).unwrap_err().contains("step 1, sent with a serial that was used up"));
        // a state of another length uses no serial up
        let short = Case { state: vec![1; REGISTER_BYTES], ..retried };
        assert_eq!(sent_again(&short, second), Ok(0));
    }
}
