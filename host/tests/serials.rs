//! The count of steps taken and the serials, on the proved unit and on the reference: the order of the table, what is counted, and retries.
use amx::{
    Answer, Call, Enable, Float, FloatMode, Generation::M1, Mac16, REGISTER_BYTES, Reason, Refusal, Register, STATE_LENGTH, State, Vecfp,
    Vectors, Width, normal, reference, run, step, step_bytes,
};

const DONE: Call = Call { instruction: 14, generation: 1, operand: 1 << 63 };
/// Floats: x <= 0 ? +0 : y and z - x.
const FLOATS: [Call; 2] = [
    Call { instruction: 19, generation: 1, operand: 4 << 47 | 4 << 42 },
    Call { instruction: 11, generation: 1, operand: 1 << 63 | 1 << 28 },
];
const NO_OP: [(Call, Reason); 6] = [
    (Call { instruction: 18, generation: 1, operand: 1 << 54 }, Reason::ReservedBits),
    (Call { instruction: 18, generation: 1, operand: 7 << 47 }, Reason::ReservedMode),
    (Call { instruction: 18, generation: 1, operand: 10 << 47 }, Reason::LaterMode),
    (Call { instruction: 19, generation: 1, operand: 1 << 54 }, Reason::ReservedBits),
    (Call { instruction: 19, generation: 2, operand: 2 << 47 }, Reason::ReservedMode),
    (Call { instruction: 19, generation: 1, operand: 10 << 47 }, Reason::LaterMode),
];
/// A shuffle, a sum of a product, and a difference of one.
const NOT_COVERED: [Call; 3] = [
    Call { instruction: 18, generation: 1, operand: 1 << 27 },
    Call { instruction: 19, generation: 1, operand: 4 << 42 },
    Call { instruction: 11, generation: 1, operand: 1 << 63 },
];
const GENERATION: Call = Call { instruction: 15, generation: 3, operand: 0 };
const INSTRUCTION: Call = Call { instruction: 15, generation: 1, operand: 0 };

const LAST: u64 = u64::MAX;

/// Registers that have no byte 0, so that a done step changes some, and a count.
fn state(count: u64) -> State {
    let mut state = State::from_registers(std::array::from_fn(|at| (at * 37 % 251) as u8 | 1));
    state.set_count(count);
    state
}

/// What a step answers, after both programs have agreed on it and on every byte.
fn sent(state: &mut State, call: Call, serial: u64) -> Answer {
    let mut second = state.clone();
    let number = reference::step(second.bytes_mut(), call.instruction, call.generation, call.operand, serial);
    let answer = step(state, call, serial);
    assert_eq!((answer.number(), &*state), (number, &second), "the two programs differ on {call:?} with serial {serial}");
    answer
}

/// The refusal of a step, which has changed no byte.
fn refused(count: u64, call: Call, serial: u64) -> Refusal {
    let (start, mut after) = (state(count), state(count));
    let answer = sent(&mut after, call, serial);
    assert_eq!(start, after);
    match answer {
        Answer::Refused(refusal) => refusal,
        other => panic!("{call:?} with serial {serial} at count {count} is answered {other}"),
    }
}

fn calls() -> impl Iterator<Item = Call> {
    FLOATS.into_iter().chain([DONE]).chain(NOT_COVERED).chain(NO_OP.map(|(call, _)| call))
}

#[test]
fn a_serial_is_tested_after_the_instruction_and_before_the_operand() {
    for count in [0, 1, 256, 1 << 32, LAST - 1] {
        // an old one, a future one, one that differs in a high byte, the ends
        for serial in [count.wrapping_sub(1), count + 1, count ^ 1 << 32, count ^ 1 << 63, LAST] {
            assert_eq!(refused(count, GENERATION, serial), Refusal::Generation);
            assert_eq!(refused(count, INSTRUCTION, serial), Refusal::Instruction);
            calls().for_each(|call| assert_eq!(refused(count, call, serial), Refusal::Serial));
        }
    }
}

#[test]
fn the_last_count_is_tested_before_the_serial() {
    for serial in [0, LAST - 1, LAST] {
        assert_eq!(refused(LAST, GENERATION, serial), Refusal::Generation);
        assert_eq!(refused(LAST, INSTRUCTION, serial), Refusal::Instruction);
        calls().for_each(|call| assert_eq!(refused(LAST, call, serial), Refusal::LastCount));
    }
}

#[test]
fn a_state_of_another_length_has_no_count() {
    for length in [0, 8, REGISTER_BYTES, STATE_LENGTH - 1, STATE_LENGTH + 1] {
        for (call, serial) in calls().chain([GENERATION, INSTRUCTION]).flat_map(|call| [0, 1, LAST].map(|serial| (call, serial))) {
            let mut bytes = vec![0xff; length];
            let answer = step_bytes(&mut bytes, call.instruction, call.generation, call.operand, serial);
            assert_eq!(answer, Answer::Refused(Refusal::StateLength));
            assert_eq!(reference::step(&mut bytes, call.instruction, call.generation, call.operand, serial), answer.number());
            assert_eq!(bytes, vec![0xff; length]);
        }
    }
}

#[test]
fn done_and_no_op_raise_the_count_and_a_refusal_does_not() {
    // one past a byte's end, and one past all but the last
    for count in [0, 255, (1 << 56) - 1, LAST - 2] {
        for call in FLOATS.into_iter().chain([DONE]) {
            let mut after = state(count);
            assert_eq!(sent(&mut after, call, count), Answer::Done { bytes: 64 });
            assert_eq!(after.count(), count + 1);
            assert_ne!(after.registers(), state(count).registers());
        }
        for (call, reason) in NO_OP {
            let mut after = state(count);
            assert_eq!(sent(&mut after, call, count), Answer::NoOp(reason));
            assert_eq!(after, state(count + 1));
        }
        NOT_COVERED.into_iter().for_each(|call| assert_eq!(refused(count, call, count), Refusal::NotCovered));
        assert_eq!(refused(count, GENERATION, count), Refusal::Generation);
        assert_eq!(refused(count, INSTRUCTION, count), Refusal::Instruction);
    }
}

#[test]
fn the_last_step_raises_the_count_to_its_last() {
    for call in [DONE, NO_OP[0].0] {
        let mut state = state(LAST - 1);
        assert!(!matches!(sent(&mut state, call, LAST - 1), Answer::Refused(_)));
        assert_eq!(state.count(), LAST);
        let full = state.clone();
        for serial in [LAST, LAST - 1, 0] {
            calls().for_each(|call| assert_eq!(sent(&mut state, call, serial), Answer::Refused(Refusal::LastCount)));
        }
        assert_eq!(state, full);
    }
}

#[test]
fn a_call_that_is_sent_again_adds_once() {
    let product = |z_row| Call::mac16(M1, Mac16::new().vector(true).z_row(z_row).unwrap());
    let mut state = State::new();
    state.set_lane(Register::X(0), 0, Width::Bits16, 3);
    state.set_lane(Register::Y(0), 0, Width::Bits16, 2);
    for (z_row, serial) in [(7, 0), (8, 1), (7, 2)] {
        assert_eq!(sent(&mut state, product(z_row), serial), Answer::Done { bytes: 64 });
        let once = state.clone();
        // whatever is sent with a serial that was used up, and however late
        for (old, call) in (0..=serial).flat_map(|old| calls().chain([product(z_row)]).map(move |call| (old, call))) {
            assert_eq!(sent(&mut state, call, old), Answer::Refused(Refusal::Serial));
        }
        assert_eq!(state, once);
    }
    assert_eq!([7, 8].map(|row| state.lane(Register::Z(row), 0, Width::Bits16)), [12, 6]);
    // a call that did not arrive is taken when it is sent again
    assert_eq!(sent(&mut state, product(8), 3), Answer::Done { bytes: 64 });
    assert_eq!((state.lane(Register::Z(8), 0, Width::Bits16), state.count()), (12, 4));
}

#[test]
fn a_float_sum_that_is_sent_again_adds_once() {
    let sum = Call::vecfp(Vecfp::m2(FloatMode::AddX, Float::Double, Vectors::One(Enable::All)).unwrap());
    let mut state = State::new();
    state.set_f64(Register::X(0), 3, 0.1);
    for (serial, total) in [(0, 0.1), (1, 0.2), (2, 0.300_000_000_000_000_04)] {
        assert_eq!(sent(&mut state, sum, serial), Answer::Done { bytes: 64 });
        assert_eq!(sent(&mut state, sum, serial), Answer::Refused(Refusal::Serial));
        assert_eq!(state.f64_lane(Register::Z(0), 3), total);
    }
}

#[test]
fn a_refused_step_does_not_use_its_serial_up() {
    let mut state = state(9);
    for call in NOT_COVERED.into_iter().chain([GENERATION, INSTRUCTION]) {
        assert!(matches!(sent(&mut state, call, 9), Answer::Refused(_)));
    }
    assert_eq!(sent(&mut state, DONE, 9), Answer::Done { bytes: 64 });
    assert_eq!(sent(&mut state, NO_OP[0].0, 9), Answer::Refused(Refusal::Serial));
}

#[test]
fn two_adding_steps_swap_up_to_the_count_2_to_the_64_minus_3() {
    let other = Call { operand: DONE.operand | 64, ..DONE };
    let both = |count, calls: [Call; 2]| {
        let mut state = state(count);
        let answers = run(&mut state, &calls);
        (state, answers)
    };
    for (count, swap) in [(0, true), (LAST - 2, true), (LAST - 1, false)] {
        let ((one, answers), (turned, mut others)) = (both(count, [DONE, other]), both(count, [other, DONE]));
        others.reverse();
        assert_eq!((&answers, &one) == (&others, &turned), swap, "at count {count}");
        assert_eq!(answers == others, swap);
        // the count is the same either way
        assert_eq!(one.count(), turned.count());
    }
    assert_eq!(both(LAST - 1, [DONE, other]).1, [Answer::Done { bytes: 64 }, Answer::Refused(Refusal::LastCount)]);
}

#[test]
fn the_normal_operand_knows_no_serial() {
    let call = Call { operand: DONE.operand | 1 << 62 | 1 << 9, ..DONE };
    let plain = Call { operand: normal(call).unwrap(), ..call };
    assert_eq!(plain, DONE);
    for (count, serial) in [(0, 0), (0, 1), (5, 4), (LAST - 1, LAST - 1), (LAST, LAST), (LAST, 0)] {
        let (mut one, mut other) = (state(count), state(count));
        assert_eq!(sent(&mut one, call, serial), sent(&mut other, plain, serial));
        assert_eq!(one, other);
    }
}

#[test]
fn a_refusal_has_its_number_and_words() {
    for (refusal, number, words) in [
        (Refusal::Serial, 131_080, "refused 8: the serial is not the count of steps taken"),
        (Refusal::LastCount, 131_081, "refused 9: the count of steps taken is at its last, 2^64 - 1"),
    ] {
        let answer = Answer::Refused(refusal);
        assert_eq!((answer.number(), Answer::from_number(number)), (number, Some(answer)));
        assert_eq!(format!("{answer:#}"), words);
        assert_eq!(answer.to_string(), words[..9]);
    }
    for number in [131_072, 131_077, 131_078, 131_079, 131_082] {
        assert_eq!(Answer::from_number(number), None);
    }
}
