//! The scope's numbers at the edges, on the proved unit and on the reference.
use amx::{
    AluMode, Answer, Broadcast, Call, Enable, FieldError, Float, FloatMode, Fms64, Generation::M1, Generation::M2, IndexBits, Instruction,
    LaneWidths, Mac16, NotDone, Reason, Reduction, ReductionWidths, Refusal, Register, Side, SideEnable, State, Trace, Vecfp, Vecint,
    Vectors, Width, normal, reference, step, with_field,
};
use std::error::Error;

type Test = Result<(), Box<dyn Error>>;

/// A state with some lanes set: register, lane, width, value.
fn state(lanes: &[(Register, usize, Width, i64)]) -> State {
    let mut state = State::new();
    lanes.iter().for_each(|&(register, lane, width, value)| state.set_lane(register, lane, width, value));
    state
}

/// The end state and answer of one step with the serial due, after both programs have agreed on it.
fn stepped(start: &State, call: Call) -> (State, Answer) {
    let (mut proved, mut second) = (start.clone(), start.clone());
    let answer = step(&mut proved, call, start.count());
    let number = reference::step(second.bytes_mut(), call.instruction, call.generation, call.operand, start.count());
    assert_eq!((answer.number(), &proved), (number, &second), "the two programs differ on {call:?}");
    (proved, answer)
}

/// The state of a step that changed the count alone.
fn counted(start: &State) -> State {
    let mut state = start.clone();
    state.set_count(start.count() + 1);
    state
}

/// One vector, with all its lanes.
const ONE: Vectors = Vectors::One(Enable::All);

const X: Register = Register::X(0);
const Y: Register = Register::Y(0);
const Z: Register = Register::Z(0);
use Width::{Bits8, Bits16, Bits32};

/// A step on lane 0 of X, Y and Z, all of one width: the signed lane 0 of Z afterwards.
fn lane_0(call: Call, width: Width, x: i64, y: i64, z: i64) -> i32 {
    stepped(&state(&[(X, 0, width, x), (Y, 0, width, y), (Z, 0, width, z)]), call).0.signed_lane(Z, 0, width)
}

#[test]
fn mac16_vector_adds_a_product_and_wraps() {
    let call = Call::mac16(M1, Mac16::new().vector(true));
    assert_eq!(lane_0(call, Bits16, 3, -2, 10), 4);
    assert_eq!(lane_0(call, Bits16, 1, 1, 32_767), -32_768);
}

#[test]
fn a_shift_rounds_towards_minus_infinity() -> Test {
    let call = Call::mac16(M1, Mac16::new().vector(true).skip_z(true).shift(1)?);
    assert_eq!(lane_0(call, Bits16, -3, 1, 99), -2);
    // before Z is added: shifting the sum would give 1
    let call = Call::mac16(M1, Mac16::new().vector(true).shift(1)?);
    assert_eq!(lane_0(call, Bits16, 1, 1, 1), 1);
    assert_eq!(lane_0(call, Bits16, -1, 1, 1), 0);
    Ok(())
}

#[test]
fn an_i8_is_the_low_byte_of_its_lane() {
    assert_eq!(lane_0(Call::mac16(M1, Mac16::new().vector(true).x_i8(true)), Bits16, 0x01ff, 5, 0), -5);
}

#[test]
fn matrix_lanes_go_to_their_places() -> Test {
    let start = state(&[(X, 3, Bits16, 7), (Y, 5, Bits16, 11)]);
    let (wide, answer) = stepped(&start, Call::mac16(M1, Mac16::new().z_i32(true)));
    assert_eq!((wide.lane(Register::Z(11), 1, Bits32), answer), (77, Answer::Done { bytes: 4_096 }));
    let (narrow, _) = stepped(&start, Call::mac16(M1, Mac16::new().z_row(7)?));
    assert_eq!(narrow.lane(Register::Z(11), 3, Bits16), 77);
    for state in [wide, narrow] {
        assert_eq!(state.registers()[1_024..].iter().filter(|&&byte| byte != 0).count(), 1);
    }
    Ok(())
}

#[test]
fn first_3_by_odd_is_48_lanes() -> Test {
    let fields = Mac16::new().x_enable(SideEnable::First(3))?.y_enable(SideEnable::Odd)?;
    for (wide, bytes) in [(false, 96), (true, 192)] {
        let call = Call::mac16(M2, fields.z_i32(wide));
        assert_eq!(reference::lanes(call.instruction, call.generation, call.operand).len(), 48);
        assert_eq!(stepped(&State::new(), call).1, Answer::Done { bytes });
    }
    Ok(())
}

#[test]
fn a_step_reports_the_bytes_of_its_lanes() -> Test {
    // five lanes of 8, 16 and 32 bits, in mode 4 and by products; none; and four vectors where one reports 64 bytes
    let answer = |call| stepped(&State::new(), call).1;
    for (widths, bytes) in [(ReductionWidths::Z8To8, 5), (ReductionWidths::Z16To16, 10), (ReductionWidths::Z32To16, 20)] {
        let five = Reduction::m1(Enable::First(5))?.lane_widths(widths);
        assert_eq!(answer(Call::reduction(five)), Answer::Done { bytes }, "{widths:?}");
    }
    for (widths, bytes) in [(LaneWidths::X8Y8Z16, 10), (LaneWidths::X16Y16Z16, 10), (LaneWidths::X16Y16Z32, 20), (LaneWidths::X8Y8Z32, 20)]
    {
        let five = Vecint::m1(AluMode::AddProduct, Enable::First(5))?.lane_widths(widths);
        assert_eq!(answer(Call::vecint(five)), Answer::Done { bytes }, "{widths:?}");
    }
    assert_eq!(answer(Call::vecint(Vecint::m1(AluMode::AddProduct, Enable::NoLane)?)), Answer::Done { bytes: 0 });
    for (vectors, bytes) in [(ONE, 64), (Vectors::Two(Broadcast::Consecutive), 128), (Vectors::Four(Broadcast::Consecutive), 256)] {
        assert_eq!(answer(Call::vecint(Vecint::m2(AluMode::AddProduct, vectors)?)), Answer::Done { bytes });
        assert_eq!(answer(Call::reduction(Reduction::m2(vectors)?.lane_widths(ReductionWidths::Z8To8))), Answer::Done { bytes });
    }
    Ok(())
}

#[test]
fn modes_5_and_6_round_and_clamp() -> Test {
    let signed = |mode| Ok::<_, FieldError>(Call::vecint(Vecint::m1(mode, Enable::All)?.x_signed(true).y_signed(true)));
    assert_eq!(lane_0(signed(AluMode::AddRoundedProduct)?, Bits16, 32_767, 32_767, 0), 32_766);
    assert_eq!(lane_0(signed(AluMode::AddRoundedProduct)?, Bits16, 32_767, 32_767, 2), 32_767);
    assert_eq!(lane_0(signed(AluMode::SubtractRoundedProduct)?, Bits16, 1, 16_384, 0), -1);
    Ok(())
}

#[test]
fn mixed_signs_at_widths_11() -> Test {
    let fields = Vecint::m1(AluMode::AddProduct, Enable::All)?.y_signed(true).lane_widths(LaneWidths::X8Y8Z16);
    let start = state(&[(X, 0, Bits8, 255), (Y, 0, Bits8, -1)]);
    assert_eq!(stepped(&start, Call::vecint(fields)).0.signed_lane(Z, 0, Bits16), -255);
    assert_eq!(stepped(&start, Call::vecint(fields.shift(4)?)).0.signed_lane(Z, 0, Bits16), -16);
    Ok(())
}

#[test]
fn mode_4_truncates_rounds_and_clamps() -> Test {
    let fields = Reduction::m1(Enable::All)?.z_signed(true);
    assert_eq!(lane_0(Call::reduction(fields.shift(1)?), Bits16, 0, 0, -5), -3);
    assert_eq!(lane_0(Call::reduction(fields.shift(1)?.rounding(true)), Bits16, 0, 0, -5), -2);
    let to_8 = fields.saturate(true).saturate_signed(true);
    assert_eq!(lane_0(Call::reduction(to_8.lane_widths(ReductionWidths::Z16To8)), Bits16, 0, 0, 300), 127);
    assert_eq!(lane_0(Call::reduction(to_8.lane_widths(ReductionWidths::Z32To8)), Bits32, 0, 0, 300), 127);
    Ok(())
}

#[test]
fn a_quartet_takes_the_place_of_the_low_bits_of_z_row() -> Test {
    let fields = Vecint::m1(AluMode::AddProduct, Enable::All)?.lane_widths(LaneWidths::X8Y8Z32).z_row(22)?;
    let (state, _) = stepped(&state(&[(X, 37, Bits8, 3), (Y, 37, Bits8, 5)]), Call::vecint(fields));
    assert_eq!(state.lane(Register::Z(21), 9, Bits32), 15);
    assert_eq!(state.registers()[1_024..].iter().filter(|&&byte| byte != 0).count(), 1);
    Ok(())
}

#[test]
fn widths_12_and_13_need_both_masks() -> Test {
    use LaneWidths::{X8Y16Z32, X16Y8Z32};
    let masked = |widths, enable| Ok::<_, FieldError>(Call::vecint(Vecint::m2(AluMode::AddX, Vectors::One(enable))?.lane_widths(widths)));
    // odd lanes: k = 3, 7, 11 and so on, which are the whole of the fourth row
    let ones = state(&(0..64).map(|lane| (X, lane, Bits8, 1)).collect::<Vec<_>>());
    let (after, answer) = stepped(&ones, masked(X8Y16Z32, Enable::Odd)?);
    assert_eq!(answer, Answer::Done { bytes: 4 * 16 });
    for (row, lane) in (0..64).flat_map(|row| (0..16).map(move |lane| (row, lane))) {
        assert_eq!(after.lane(Register::Z(row), lane, Bits32), u32::from(row == 3));
    }
    // each mask has its own lane count; those that read or write something else enable all
    for (widths, enable, lanes) in [
        (X8Y16Z32, Enable::First(40), 40),
        (X8Y16Z32, Enable::LastOrNone(40), 40),
        (X16Y8Z32, Enable::Even, 16),
        (X16Y8Z32, Enable::First(5), 5),
        (X16Y8Z32, Enable::Last(5), 5),
        (X8Y16Z32, Enable::ZeroOutput, 64),
        (X16Y8Z32, Enable::ZeroX, 64),
        (X8Y16Z32, Enable::ZeroY, 64),
        (X16Y8Z32, Enable::BroadcastY(9), 64),
    ] {
        assert_eq!(stepped(&ones, masked(widths, enable)?).1, Answer::Done { bytes: 4 * lanes }, "{widths:?} {enable:?}");
    }
    Ok(())
}

#[test]
fn odd_lanes_of_widths_12_leave_row_1_to_others() -> Test {
    let odd = Call::vecint(Vecint::m1(AluMode::AddProduct, Enable::Odd)?.lane_widths(LaneWidths::X8Y16Z32));
    let stored = Call::mac16(M1, Mac16::new().vector(true).skip_z(true).z_row(1)?);
    let start = State::from_registers(std::array::from_fn(|at| (at * 37 % 251) as u8));
    let one = stepped(&stepped(&start, odd).0, stored).0;
    let other = stepped(&stepped(&start, stored).0, odd).0;
    assert!(one == other);
    let changed: Vec<_> = (0..64).filter(|&row| one.row(Register::Z(row)) != start.row(Register::Z(row))).collect();
    assert_eq!(changed, [1, 3]);
    Ok(())
}

#[test]
fn four_vectors_go_to_four_rows() -> Test {
    // Z row 37 has bit 25 set, which makes the vectors four
    let call = Call::new(18, 2, 1 << 31 | 37 << 20);
    assert_eq!(call, Call::vecint(Vecint::m2(AluMode::AddProduct, Vectors::Four(Broadcast::Consecutive))?.z_row(5)?));
    let rows = |call: Call| {
        let mut rows: Vec<_> = reference::lanes(call.instruction, call.generation, call.operand).iter().map(|lane| lane.row).collect();
        rows.dedup();
        rows
    };
    assert_eq!(rows(call), [5, 21, 37, 53]);
    assert_eq!(rows(Call { generation: 1, ..call }), [37]);
    let ones = state(&(0..4).flat_map(|n| [(Register::X(n), 0, Bits16, 1), (Register::Y(n), 0, Bits16, n as i64 + 1)]).collect::<Vec<_>>());
    let (state, answer) = stepped(&ones, call);
    assert_eq!([5, 21, 37, 53].map(|row| state.lane(Register::Z(row), 0, Bits16)), [1, 2, 3, 4]);
    assert_eq!(answer, Answer::Done { bytes: 256 });
    Ok(())
}

#[test]
fn a_load_goes_round_the_ring() -> Test {
    // offset 480: byte 40, the low one of lane 20, comes from byte 8
    let fields = Mac16::new().vector(true).skip_y(true).x_offset(480)?;
    let (state, _) = stepped(&state(&[(X, 4, Bits16, 9)]), Call::mac16(M1, fields));
    assert_eq!(state.lane(Z, 20, Bits16), 9);
    Ok(())
}

#[test]
fn a_broadcast_lane_is_taken_modulo_the_lanes_of_y() -> Test {
    let call = Call::vecint(Vecint::m1(AluMode::AddProduct, Enable::BroadcastY(33))?);
    let (state, _) = stepped(&state(&[(X, 9, Bits16, 2), (Y, 1, Bits16, 21)]), call);
    assert_eq!(state.lane(Z, 9, Bits16), 42);
    Ok(())
}

fn register(side: Side, n: usize) -> Register {
    match side {
        Side::X => Register::X(n),
        Side::Y => Register::Y(n),
    }
}

fn other(side: Side) -> Side {
    match side {
        Side::X => Side::Y,
        Side::Y => Side::X,
    }
}

fn at_offset(side: Side, fields: Vecint, offset: u64) -> Result<Vecint, FieldError> {
    match side {
        Side::X => fields.x_offset(offset),
        Side::Y => fields.y_offset(offset),
    }
}

/// A state for indexed loads of a side: a table of elements in one of its registers, bytes of its ring, and 1 in every lane of the other side.
fn tables(side: Side, width: Width, n: usize, table: &[i64], bytes: &[(usize, u8)], ones: Width) -> State {
    let mut state = State::new();
    table.iter().enumerate().for_each(|(lane, &element)| state.set_lane(register(side, n), lane, width, element));
    bytes.iter().for_each(|&(at, byte)| state.set_lane(register(side, at / 64), at % 64, Bits8, byte.into()));
    (0..8).for_each(|n| (0..ones.lanes()).for_each(|lane| state.set_lane(register(other(side), n), lane, ones, 1)));
    state
}

/// The first lanes of a step with one vector in a group of Z rows, in their order.
fn first_lanes<const N: usize>(state: &State, rows: usize, width: Width) -> [u32; N] {
    std::array::from_fn(|k| state.lane(Register::Z(k % rows), k / rows, width))
}

#[test]
fn an_index_names_an_element_of_the_register() -> Test {
    for side in [Side::X, Side::Y] {
        // two bits, lowest first: e4 is 0 1 2 3, and 1b is 3 2 1 0
        let start = tables(side, Bits16, 2, &[10, 20, 30, 40, 99], &[(0, 0xe4), (1, 0x1b)], Bits16);
        let (after, answer) = stepped(&start, Call::vecint(Vecint::m1_indexed(side, IndexBits::Two, 2, Enable::All)?));
        assert_eq!(first_lanes(&after, 1, Bits16), [10, 20, 30, 40, 40, 30, 20, 10, 10, 10]);
        assert_eq!(answer, Answer::Done { bytes: 64 });
        // four bits: 10 is 0 1, and f4 is 4 15; of 8-bit lanes, the last is by the high half of byte 31
        let table: Vec<i64> = (100..116).collect();
        let start = tables(side, Bits16, 7, &table, &[(0, 0x10), (1, 0x32), (2, 0xf4)], Bits16);
        let (after, _) = stepped(&start, Call::vecint(Vecint::m2_indexed(side, IndexBits::Four, 7, ONE)?));
        assert_eq!(first_lanes(&after, 1, Bits16), [100, 101, 102, 103, 104, 115, 100, 100]);
        let start = tables(side, Bits8, 7, &table, &[(0, 0x10), (1, 0xf2), (31, 0xc0)], Bits8);
        let fields = Vecint::m1_indexed(side, IndexBits::Four, 7, Enable::All)?.lane_widths(LaneWidths::X8Y8Z32);
        let (after, answer) = stepped(&start, Call::vecint(fields));
        assert_eq!(first_lanes(&after, 4, Bits32), [100, 101, 102, 115, 100, 100]);
        assert_eq!((after.lane(Register::Z(3), 15, Bits32), answer), (112, Answer::Done { bytes: 256 }));
        // of two bits, by the two highest of byte 15; the elements are signed as the side is
        let start = tables(side, Bits8, 1, &[-1, -2, -3, -4], &[(0, 0x0c), (15, 0x80)], Bits8);
        let fields = Vecint::m1_indexed(side, IndexBits::Two, 1, Enable::All)?.lane_widths(LaneWidths::X8Y8Z16);
        let (after, _) = stepped(&start, Call::vecint(fields));
        assert_eq!(first_lanes(&after, 2, Bits16), [255, 252, 255]);
        assert_eq!(after.lane(Register::Z(1), 31, Bits16), 253);
        let signed = if side == Side::X { fields.x_signed(true) } else { fields.y_signed(true) };
        let (after, _) = stepped(&start, Call::vecint(signed));
        assert_eq!([0, 1].map(|row| after.signed_lane(Register::Z(row), 0, Bits16)), [-1, -4]);
    }
    Ok(())
}

#[test]
fn indices_go_round_the_ring_and_the_register_stays() -> Test {
    for side in [Side::X, Side::Y] {
        // offset 500: byte 511 has the indices 22 and 23, byte 0 has 24 and 25
        let start = tables(side, Bits16, 1, &[7, 8, 9, 10, 11], &[(511, 0x21), (0, 0x43)], Bits16);
        let fields = at_offset(side, Vecint::m1_indexed(side, IndexBits::Four, 1, Enable::All)?, 500)?;
        let (after, _) = stepped(&start, Call::vecint(fields));
        let lanes: [u32; 32] = first_lanes(&after, 1, Bits16);
        assert_eq!((lanes[..22].to_vec(), &lanes[22..]), (vec![7; 22], [8, 9, 10, 11, 7, 7, 7, 7, 7, 7].as_slice()));
    }
    Ok(())
}

#[test]
fn the_lanes_of_widths_12_and_13_share_the_wider_side_s_elements() -> Test {
    // the narrower side has an index for each lane, the wider one for each pair of lanes
    for (widths, side, width, ones, lanes) in [
        (LaneWidths::X8Y16Z32, Side::X, Bits8, Bits16, [21, 22, 20, 23, 20]),
        (LaneWidths::X8Y16Z32, Side::Y, Bits16, Bits8, [21, 21, 22, 22, 20]),
        (LaneWidths::X16Y8Z32, Side::X, Bits16, Bits8, [21, 21, 22, 22, 20]),
        (LaneWidths::X16Y8Z32, Side::Y, Bits8, Bits16, [21, 22, 20, 23, 20]),
    ] {
        let start = tables(side, width, 4, &[20, 21, 22, 23], &[(0, 0x21), (1, 0x30)], ones);
        let fields = Vecint::m1_indexed(side, IndexBits::Four, 4, Enable::All)?.lane_widths(widths);
        let (after, answer) = stepped(&start, Call::vecint(fields));
        assert_eq!((first_lanes(&after, 4, Bits32), answer), (lanes, Answer::Done { bytes: 256 }), "{widths:?} {side:?}");
    }
    Ok(())
}

/// The width of a side's lanes.
fn side_width(side: Side, widths: LaneWidths) -> Width {
    use LaneWidths::*;
    match (widths, side) {
        (X8Y8Z16 | X8Y8Z32, _) | (X8Y16Z32, Side::X) | (X16Y8Z32, Side::Y) => Bits8,
        _ => Bits16,
    }
}

/// Lane 0 of each of four vectors: 50 to 53 by the indices 0 to 3, which are `advance` bytes apart, times 1 to 4 from the other side's registers.
fn four_vectors(side: Side, indices: IndexBits, widths: LaneWidths, advance: usize, broadcast: Broadcast) -> Result<[u32; 4], FieldError> {
    let width = |side| side_width(side, widths);
    // from offset 480 on, round the ring; register 5 is in none of it
    let bytes: Vec<(usize, u8)> = (0..4).map(|n| ((480 + advance * n) % 512, n as u8)).collect();
    let mut start = tables(side, width(side), 5, &[50, 51, 52, 53], &bytes, width(other(side)));
    (0..4).for_each(|n| start.set_lane(register(other(side), n), 0, width(other(side)), n as i64 + 1));
    let fields = Vecint::m2_indexed(side, indices, 5, Vectors::Four(broadcast))?.lane_widths(widths);
    let (after, answer) = stepped(&start, Call::vecint(at_offset(side, fields, 480)?));
    let z = if matches!(widths, LaneWidths::X16Y16Z16 | LaneWidths::X8Y8Z16) { Bits16 } else { Bits32 };
    let lanes = width(Side::X).lanes().max(width(Side::Y).lanes());
    assert_eq!(answer, Answer::Done { bytes: (4 * lanes * z.bytes()) as u64 });
    Ok([0, 16, 32, 48].map(|row| after.lane(Register::Z(row), 0, z)))
}

#[test]
fn an_indexed_side_advances_by_64_times_index_bits_over_lane_bits() -> Test {
    use LaneWidths::*;
    for (side, widths, two, four) in [
        (Side::X, X16Y16Z16, 8, 16),
        (Side::Y, X16Y16Z16, 8, 16),
        (Side::X, X16Y16Z32, 8, 16),
        (Side::Y, X8Y8Z32, 16, 32),
        (Side::X, X8Y8Z16, 16, 32),
        (Side::X, X8Y16Z32, 16, 32),
        (Side::Y, X8Y16Z32, 8, 16),
        (Side::X, X16Y8Z32, 8, 16),
        (Side::Y, X16Y8Z32, 16, 32),
    ] {
        for (indices, advance) in [(IndexBits::Two, two), (IndexBits::Four, four)] {
            let lanes = four_vectors(side, indices, widths, advance, Broadcast::Consecutive)?;
            assert_eq!(lanes, [50, 102, 156, 212], "{side:?} {widths:?} {indices:?}");
        }
    }
    Ok(())
}

#[test]
fn broadcast_modes_repeat_the_indices_or_the_other_side() -> Test {
    let (advancing, repeated, other_repeated) = ([50, 102, 156, 212], [50, 100, 150, 200], [50, 51, 52, 53]);
    for (broadcast, x, y) in [
        (Broadcast::Consecutive, advancing, advancing),
        (Broadcast::ZeroOutput, [0; 4], [0; 4]),
        (Broadcast::SameX, repeated, other_repeated),
        (Broadcast::SameY, other_repeated, repeated),
        (Broadcast::ZeroX, [0; 4], [0; 4]),
        (Broadcast::ZeroY, [0; 4], [0; 4]),
        (Broadcast::Lane0OfX, repeated, other_repeated),
        (Broadcast::Lane0OfY, other_repeated, repeated),
    ] {
        for (indices, widths, advance) in [
            (IndexBits::Four, LaneWidths::X16Y16Z16, 16),
            (IndexBits::Two, LaneWidths::X8Y8Z16, 16),
            (IndexBits::Four, LaneWidths::X8Y8Z32, 32),
        ] {
            assert_eq!(four_vectors(Side::X, indices, widths, advance, broadcast)?, x, "X, {broadcast:?}, {widths:?}");
            assert_eq!(four_vectors(Side::Y, indices, widths, advance, broadcast)?, y, "Y, {broadcast:?}, {widths:?}");
        }
    }
    Ok(())
}

#[test]
fn zeros_and_broadcast_lanes_come_after_the_indexed_load() -> Test {
    for side in [Side::X, Side::Y] {
        let mut start = tables(side, Bits16, 3, &[60, 61, 62, 63], &[(0, 0x32), (1, 0x01)], Bits16);
        (0..32).for_each(|lane| start.set_lane(Z, lane, Bits16, 5));
        let lanes = |enable| -> Result<[u32; 4], FieldError> {
            let (after, answer) = stepped(&start, Call::vecint(Vecint::m1_indexed(side, IndexBits::Four, 3, enable)?));
            assert_eq!(answer, Answer::Done { bytes: 64 });
            Ok(first_lanes(&after, 1, Bits16))
        };
        assert_eq!(lanes(Enable::All)?, [67, 68, 66, 65]);
        // whichever side has the indices
        assert_eq!((lanes(Enable::ZeroOutput)?, lanes(Enable::ZeroX)?, lanes(Enable::ZeroY)?), ([0; 4], [5; 4], [5; 4]));
        // Y lane 33 modulo 32, which the second index names
        assert_eq!(lanes(Enable::BroadcastY(33))?, if side == Side::Y { [68; 4] } else { [67, 68, 66, 65] });

        // lane 0 for all lanes is the element that the first index names
        let lane_0 = if side == Side::X { Broadcast::Lane0OfX } else { Broadcast::Lane0OfY };
        let (after, _) = stepped(&start, Call::vecint(Vecint::m2_indexed(side, IndexBits::Four, 3, Vectors::Two(lane_0))?));
        assert_eq!(first_lanes(&after, 1, Bits16), [67; 32]);
        assert_eq!(after.lane(Register::Z(32), 31, Bits16), 62);
    }
    Ok(())
}

#[test]
fn what_an_indexed_load_ignores_and_what_refuses_it() -> Test {
    let start = State::from_registers(std::array::from_fn(|at| (at * 37 % 251) as u8));
    for generation in [M1, M2] {
        // whatever ALU mode its bits would be
        for fields in 0..64 {
            let call = Call::new(18, generation as u64, 1 << 53 | fields << 47 | 12 << 42);
            let without_bit_52 = Call { operand: call.operand & !(1 << 52), ..call };
            assert_eq!(stepped(&start, call), stepped(&start, without_bit_52));
            assert_eq!(normal(call), Ok(without_bit_52.operand));
            assert_eq!(reference::normal(18, generation as u64, call.operand), Ok(without_bit_52.operand));
            assert!(reference::only_adds(18, generation as u64, call.operand));
            assert_eq!(reference::lanes(18, generation as u64, call.operand).len(), 64);
            for bit in 27..=30 {
                let shuffled = Call { operand: call.operand | 1 << bit, ..call };
                assert_eq!(stepped(&start, shuffled), (start.clone(), Answer::Refused(Refusal::NotCovered)));
            }
            for bit in 54..=56 {
                let reserved = Call { operand: call.operand | 1 << bit | 1 << 27, ..call };
                assert_eq!(stepped(&start, reserved), (counted(&start), Answer::NoOp(Reason::ReservedBits)));
            }
        }
        // without bit 53, bit 52 is one of the ALU mode's
        let call = Call::new(18, generation as u64, 1 << 52);
        assert_eq!(stepped(&start, call).1, Answer::NoOp(Reason::ReservedMode));
        assert_eq!(normal(call), Err(NotDone::NoOp(Reason::ReservedMode)));
    }
    Ok(())
}

/// A vecfp of one vector on M2.
fn vecfp(mode: FloatMode, format: Float) -> Result<Call, FieldError> {
    Vecfp::m2(mode, format, ONE).map(Call::vecfp)
}

/// A step on lane 0 of X, Y and Z of singles, by their patterns: lane 0 of Z afterwards.
fn single_0(call: Call, x: u32, y: u32, z: u32) -> u32 {
    let lanes = [(X, x), (Y, y), (Z, z)].map(|(register, pattern)| (register, 0, Bits32, pattern.into()));
    stepped(&state(&lanes), call).0.lane(Z, 0, Bits32)
}

/// The same of doubles.
fn double_0(call: Call, x: u64, y: u64, z: u64) -> u64 {
    let mut start = State::new();
    [(X, x), (Y, y), (Z, z)].into_iter().for_each(|(register, pattern)| start.set_f64(register, 0, f64::from_bits(pattern)));
    stepped(&start, call).0.f64_lane(Z, 0).to_bits()
}

const NAN: u32 = 0x7fc0_0000;
const NAN_64: u64 = 0x7ff8_0000_0000_0000;
const MINUS_0: u64 = 1 << 63;

#[test]
fn sums_of_singles_round_once_to_the_nearest_even() -> Test {
    for (z, x, sum) in [
        (0x3f80_0000, 0x3380_0000, 0x3f80_0000), // 1 and half of its last place
        (0x3f80_0001, 0x3380_0000, 0x3f80_0002),
        (0x3f80_0000, 0x3380_0001, 0x3f80_0001), // and a little more
        (0x7f7f_ffff, 0x7300_0000, 0x7f80_0000), // the largest and half of its last place
        (0x7f7f_ffff, 0x72ff_ffff, 0x7f7f_ffff),
        (0x0000_0001, 0x0000_0001, 0x0000_0002), // subnormals are kept
        (0x0080_0000, 0x8000_0001, 0x007f_ffff),
        (0x8000_0000, 0x8000_0000, 0x8000_0000), // zeros
        (0x8000_0000, 0x0000_0000, 0x0000_0000),
        (0x3f80_0000, 0xbf80_0000, 0x0000_0000),
        (0x7f80_0000, 0xff80_0000, NAN), // infinities and NaNs
        (0x7f80_0000, 0x7f7f_ffff, 0x7f80_0000),
        (0x7f80_0001, 0x3f80_0000, NAN),
        (0x3f80_0000, 0xffff_ffff, NAN),
    ] {
        assert_eq!(single_0(vecfp(FloatMode::AddX, Float::Single)?, x, 0x7fc0_0001, z), sum, "{z:#x} + {x:#x}");
        assert_eq!(single_0(vecfp(FloatMode::AddY, Float::Single)?, 0x7fc0_0001, x, z), sum, "{z:#x} + {x:#x}");
    }
    Ok(())
}

#[test]
fn products_round_once_and_old_z_is_not_used() -> Test {
    for (x, y, product) in [
        (0x3f80_0001, 0x3f80_0001, 0x3f80_0002),
        (0x1a00_0000, 0x1a00_0000, 0x0000_0000), // 2^-150 ties between 0 and the smallest
        (0x1a00_0000, 0x1a00_0001, 0x0000_0001),
        (0x9a00_0000, 0x1a00_0000, 0x8000_0000),
        (0x00ff_ffff, 0x3f00_0000, 0x0080_0000), // up to the smallest normal one
        (0x7f7f_ffff, 0x4000_0000, 0x7f80_0000),
        (0x0000_0000, 0x7f80_0000, NAN),
        (0x8000_0000, 0x3f80_0000, 0x8000_0000),
        (0x7fbf_ffff, 0x0000_0000, NAN),
    ] {
        assert_eq!(single_0(vecfp(FloatMode::Product, Float::Single)?, x, y, 0x7f80_0001), product, "{x:#x} * {y:#x}");
    }
    let tenth = 0.1f64.to_bits();
    assert_eq!(double_0(vecfp(FloatMode::Product, Float::Double)?, tenth, tenth, NAN_64), 0.010_000_000_000_000_002f64.to_bits());
    assert_eq!(double_0(vecfp(FloatMode::Product, Float::Double)?, 0, 0xfff0 << 48, 0), NAN_64);
    assert_eq!(double_0(vecfp(FloatMode::AddX, Float::Double)?, tenth, 0, 0.2f64.to_bits()), 0.300_000_000_000_000_04f64.to_bits());
    assert_eq!(double_0(vecfp(FloatMode::AddY, Float::Double)?, 0, 0x7ff0 << 48 | 1, 0), NAN_64);
    Ok(())
}

#[test]
fn a_selection_moves_bits() -> Test {
    for fields in [Vecfp::m1(FloatMode::Select, Float::Single, Enable::All)?, Vecfp::m2(FloatMode::Select, Float::Single, ONE)?] {
        let call = Call::vecfp(fields);
        let y = 0xff80_0001;
        // at most 0: both zeros and all below
        for x in [0, 0x8000_0000, 0x8000_0001, 0xbf80_0000, 0xff80_0000] {
            assert_eq!(single_0(call, x, y, 0x1234), 0, "{x:#x}");
        }
        // above 0, or not a number: the bits of y, those of a signalling NaN too
        for x in [1, 0x3f80_0000, 0x7f80_0000, 0x7f80_0001, 0xffc0_0000] {
            assert_eq!(single_0(call, x, y, 0x1234), y, "{x:#x}");
            assert_eq!(single_0(call, x, 0x8000_0000, 0x1234), 0x8000_0000, "{x:#x}");
        }
    }
    assert_eq!(double_0(vecfp(FloatMode::Select, Float::Double)?, 1, 0xfff0 << 48 | 7, 9), 0xfff0 << 48 | 7);
    assert_eq!(double_0(vecfp(FloatMode::Select, Float::Double)?, MINUS_0, 0xfff0 << 48 | 7, 9), 0);
    Ok(())
}

#[test]
fn a_side_that_reads_as_0_is_plus_0() -> Test {
    use FloatMode::{AddX, AddY, Product, Select};
    let call = |mode, enable| Vecfp::m2(mode, Float::Single, Vectors::One(enable)).map(Call::vecfp);
    // 0 * infinity, and sums that turn -0 into +0 and any NaN into the default one
    assert_eq!(single_0(call(Product, Enable::ZeroX)?, 0x3f80_0000, 0x7f80_0000, 0), NAN);
    assert_eq!(single_0(call(Product, Enable::ZeroY)?, 0xbf80_0000, 0x7f80_0000, 0), 0x8000_0000);
    for (mode, enable) in [(AddX, Enable::ZeroX), (AddY, Enable::ZeroY)] {
        assert_eq!(single_0(call(mode, enable)?, 7, 7, 0x8000_0000), 0);
        assert_eq!(single_0(call(mode, enable)?, 7, 7, 0xff80_0001), NAN);
        assert_eq!(single_0(call(mode, enable)?, 7, 7, 0x7f80_0001), NAN);
    }
    assert_eq!(single_0(call(AddX, Enable::ZeroY)?, 7, 7, 0), 7);
    // an output that is forced to 0 is +0, whatever it would be
    for mode in [Select, Product, AddX, AddY] {
        assert_eq!(single_0(call(mode, Enable::ZeroOutput)?, NAN, NAN, NAN), 0);
        let several = Vecfp::m2(mode, Float::Double, Vectors::Two(Broadcast::ZeroOutput))?;
        assert_eq!(double_0(Call::vecfp(several), NAN_64, NAN_64, NAN_64), 0);
    }
    Ok(())
}

#[test]
fn fms64_subtracts_negates_and_moves() -> Test {
    let (nan, one, two) = (0xfff0 << 48 | 5, 1f64.to_bits(), 2f64.to_bits());
    for vector in [true, false] {
        let call =
            |skips: u64| Call::fms64(M1, Fms64::new().vector(vector).skip_x(skips & 4 != 0).skip_y(skips & 2 != 0).skip_z(skips & 1 != 0));
        assert_eq!(double_0(call(2), two, 0, one), (-1f64).to_bits());
        assert_eq!(double_0(call(4), 0, two, one), (-1f64).to_bits());
        for (skips, from_x) in [(2, true), (4, false)] {
            let difference = |side, z| if from_x { double_0(call(skips), side, nan, z) } else { double_0(call(skips), nan, side, z) };
            assert_eq!([difference(0, 0), difference(0, MINUS_0), difference(MINUS_0, MINUS_0)], [0, MINUS_0, 0]);
            assert_eq!([difference(nan, one), difference(one, nan), difference(0x7ff0 << 48, 0x7ff0 << 48)], [NAN_64; 3]);
            assert_eq!(difference(1, 0), MINUS_0 | 1);
        }
        // a NaN's sign is turned too, and its payload stays
        assert_eq!((double_0(call(3), nan, 0, one), double_0(call(5), 0, nan, one)), (nan ^ MINUS_0, nan ^ MINUS_0));
        assert_eq!((double_0(call(3), 0, nan, one), double_0(call(5), nan, MINUS_0, one)), (MINUS_0, 0));
        assert_eq!((double_0(call(6), one, two, nan), double_0(call(7), one, two, nan)), (nan, MINUS_0));
        for skips in 0..8 {
            let bytes = if vector { 64 } else { 512 };
            let covered = if skips < 2 { Answer::Refused(Refusal::NotCovered) } else { Answer::Done { bytes } };
            assert_eq!(stepped(&State::new(), call(skips)).1, covered);
        }
    }
    Ok(())
}

#[test]
fn fms64_lanes_go_to_their_places() -> Test {
    let mut start = State::new();
    start.set_f64(X, 3, 0.5);
    start.set_f64(Y, 6, 0.25);
    let ends = |fields| stepped(&start, Call::fms64(M2, fields)).0;
    let set = |state: &State| -> Vec<(usize, usize, f64)> {
        let lanes = (0..64).flat_map(|row| (0..8).map(move |lane| (row, lane)));
        lanes.map(|(row, lane)| (row, lane, state.f64_lane(Register::Z(row), lane))).filter(|lane| lane.2 != 0.0).collect()
    };
    // -x in the rows of every Y lane, -y in every lane of its row; of Z row 29 a matrix takes 5
    let matrix = Fms64::new().z_row(29)?;
    assert_eq!(set(&ends(matrix.skip_y(true))), (0..8).map(|j| (8 * j + 5, 3, -0.5)).collect::<Vec<_>>());
    assert_eq!(set(&ends(matrix.skip_x(true))), (0..8).map(|i| (53, i, -0.25)).collect::<Vec<_>>());
    assert_eq!(set(&ends(matrix.skip_y(true).vector(true))), [(29, 3, -0.5)]);
    assert_eq!(set(&ends(matrix.skip_x(true).vector(true))), [(29, 6, -0.25)]);
    // odd X lanes and the last 2 of Y; a vector has X's alone
    let masked = matrix.skip_y(true).x_enable(SideEnable::Odd)?.y_enable(SideEnable::Last(2))?;
    assert_eq!(set(&ends(masked)), [(53, 3, -0.5), (61, 3, -0.5)]);
    assert_eq!(stepped(&start, Call::fms64(M1, masked)).1, Answer::Done { bytes: 4 * 2 * 8 });
    assert_eq!(stepped(&start, Call::fms64(M1, masked.vector(true))).1, Answer::Done { bytes: 4 * 8 });
    // there is no lane 8, and the first 8 and more are all
    let fields = Fms64::new().skip_y(true).vector(true);
    for (enable, lanes) in [
        (SideEnable::Lane(7), 1),
        (SideEnable::Lane(8), 0),
        (SideEnable::Lane(31), 0),
        (SideEnable::First(7), 7),
        (SideEnable::First(8), 8),
        (SideEnable::First(31), 8),
        (SideEnable::Last(9), 8),
        (SideEnable::Last(0), 8),
    ] {
        assert_eq!(stepped(&start, Call::fms64(M2, fields.x_enable(enable)?)).1, Answer::Done { bytes: 8 * lanes }, "{enable:?}");
    }
    // the values that have no name enable none
    let unnamed = with_field(Instruction::Fms64, M2, fields.operand(), "x_enable_value", 3)?;
    assert_eq!(stepped(&start, Call::new(11, 2, unnamed)).1, Answer::Done { bytes: 0 });
    Ok(())
}

#[test]
fn vecfp_lanes_go_to_their_places() -> Test {
    let mut start = State::new();
    (0..8).for_each(|n| start.set_f32(Register::X(n), 9, n as f32 + 1.0));
    let ends = |fields| stepped(&start, Call::vecfp(fields));
    let rows = |state: &State| -> Vec<(usize, f32)> {
        (0..64).map(|row| (row, state.f32_lane(Register::Z(row), 9))).filter(|lane| lane.1 != 0.0).collect()
    };
    let (after, answer) = ends(Vecfp::m2(FloatMode::AddX, Float::Single, Vectors::Four(Broadcast::Consecutive))?.z_row(5)?.x_offset(384)?);
    assert_eq!((rows(&after), answer), (vec![(5, 7.0), (21, 8.0), (37, 1.0), (53, 2.0)], Answer::Done { bytes: 256 }));
    let (after, answer) = ends(Vecfp::m2(FloatMode::AddX, Float::Single, Vectors::Two(Broadcast::SameX))?.z_row(31)?);
    assert_eq!((rows(&after), answer), (vec![(31, 1.0), (63, 1.0)], Answer::Done { bytes: 128 }));
    // lane 0 of X for all lanes
    start.set_f64(X, 0, 1.5);
    let (after, _) = stepped(&start, Call::vecfp(Vecfp::m2(FloatMode::AddX, Float::Double, Vectors::Two(Broadcast::Lane0OfX))?));
    assert!((0..8).all(|lane| after.f64_lane(Register::Z(32), lane) == 1.5));
    // a lane of Y for all lanes, modulo the lanes of its width; M1 does one vector
    start.set_f64(Y, 1, 2.5);
    for (value, sum) in [(1, 2.5), (9, 2.5), (17, 2.5), (0, 0.0)] {
        let call = Call::vecfp(Vecfp::m2(FloatMode::AddY, Float::Double, Vectors::One(Enable::BroadcastY(value)))?);
        assert_eq!(stepped(&start, call).0.f64_lane(Z, 5), sum, "{value}");
    }
    let several = Call::vecfp(Vecfp::m2(FloatMode::Select, Float::Single, Vectors::Four(Broadcast::Consecutive))?);
    assert_eq!(stepped(&start, Call { generation: 1, ..several }).1, Answer::Done { bytes: 64 });
    Ok(())
}

#[test]
fn vecfp_masks_have_their_own_lane_count() -> Test {
    for (format, bytes, lanes) in [(Float::Single, 4, 16), (Float::Double, 8, 8)] {
        let masked = |mode, value| -> Result<Call, FieldError> {
            let operand = Vecfp::m1(FloatMode::Select, format, Enable::All)?.operand();
            let operand = with_field(Instruction::Vecfp, M1, operand, "enable_mode", mode)?;
            Ok(Call::new(19, 1, with_field(Instruction::Vecfp, M1, operand, "enable_value", value)?))
        };
        // those that have no name too
        for (mode, value, enabled) in [
            (0, 0, lanes),
            (0, 1, lanes / 2),
            (0, 2, lanes / 2),
            (0, 3, lanes),
            (0, 6, 0),
            (1, 31, lanes),
            (2, 0, lanes),
            (2, 5, 5),
            (2, 16, lanes),
            (3, 31, lanes),
            (4, 0, 0),
            (4, 7, 7),
            (5, 0, 0),
            (5, lanes - 1, lanes - 1),
            (5, 30, lanes),
            (6, 1, 0),
            (7, 0, 0),
        ] {
            let call = masked(mode, value)?;
            let done = stepped(&State::new(), call).1;
            assert_eq!(done, Answer::Done { bytes: bytes * enabled }, "{mode} {value}");
            // bit 37 is none of the value's
            assert_eq!(stepped(&State::new(), Call { operand: call.operand | 1 << 37, ..call }).1, done);
        }
    }
    Ok(())
}

#[test]
fn what_vecfp_answers_where_it_is_not_done() {
    let start = State::from_registers(std::array::from_fn(|at| (at * 37 % 251) as u8));
    for generation in [1, 2] {
        for (mode, widths) in (0..64).flat_map(|mode| (0..16).map(move |widths| (mode, widths))) {
            let call = Call::new(19, generation, mode << 47 | widths << 42);
            let covered = matches!(widths, 4 | 7) && matches!(mode, 4 | 10..=12);
            let expected = match mode {
                0 | 1 | 5 | 7 => Answer::Refused(Refusal::NotCovered),
                10..=12 if generation == 1 => Answer::NoOp(Reason::LaterMode),
                4 | 10..=12 if covered => Answer::Done { bytes: 64 },
                4 | 10..=12 => Answer::Refused(Refusal::NotCovered),
                _ => Answer::NoOp(Reason::ReservedMode),
            };
            let (after, answer) = stepped(&start, call);
            assert_eq!(answer, expected, "{mode} {widths}");
            assert_eq!(normal(call), answer.done().map(|_| call.operand));
            match answer {
                Answer::Refused(_) => assert!(after == start),
                Answer::NoOp(_) => assert!(after == counted(&start)),
                Answer::Done { .. } => assert_eq!(after.count(), 1),
            }
            // a shuffle, in mode 4 too, and an indexed load, whatever its fields; the reserved bits come before all
            for (bits, answer) in (27..31).map(|bit| (1 << bit, expected)).chain([(1 << 53, Answer::Refused(Refusal::NotCovered))]) {
                let shuffled = if answer.is_done() { Answer::Refused(Refusal::NotCovered) } else { answer };
                assert_eq!(stepped(&start, Call { operand: call.operand | bits, ..call }).1, shuffled, "{mode} {widths} {bits:#x}");
            }
            for bit in 54..57 {
                let reserved = Call { operand: call.operand | 1 << bit | 1 << 27, ..call };
                assert_eq!(stepped(&start, reserved), (counted(&start), Answer::NoOp(Reason::ReservedBits)));
            }
        }
    }
}

#[test]
fn what_float_steps_ignore() {
    /// The bits of some ranges.
    fn ranges(ranges: &[(u32, u32)]) -> u64 {
        ranges.iter().map(|&(low, high)| (2u64 << high).wrapping_sub(1 << low)).sum()
    }
    let vecfp = [(57, 63), (46, 46), (41, 41), (26, 26), (19, 19), (9, 9)];
    let fms64 = [(48, 62), (39, 40), (30, 31), (26, 26), (19, 19), (9, 9)];
    let several: u64 = 11 << 47 | 4 << 42 | 1 << 31;
    for (instruction, generation, operand, ignored) in [
        (19, 1, 4 << 47 | 4 << 42, ranges(&vecfp) | 1 << 37 | 1 << 31),
        (19, 2, 11 << 47 | 7 << 42, ranges(&vecfp) | 1 << 37),
        (19, 2, several, ranges(&vecfp) | ranges(&[(35, 40)])),
        (19, 2, several | 1 << 25, ranges(&vecfp) | ranges(&[(35, 40), (24, 24)])),
        (11, 1, 1 << 63 | 1 << 28, ranges(&fms64) | ranges(&[(32, 38)])),
        (11, 2, 1 << 29, ranges(&fms64) | ranges(&[(23, 25)])),
        (11, 2, 3 << 28, ranges(&fms64) | ranges(&[(23, 25)])),
    ] {
        // all that decide nothing else set beside them: offsets of a side that is skipped are no ignored bits
        let places = 0x1f << 20 & !ignored | 0x1ff << 10 | 0x1ff;
        let call = Call::new(instruction, generation, operand | places | ignored);
        let start = State::from_registers(std::array::from_fn(|at| (at * 37 % 251) as u8));
        assert_eq!(normal(call), Ok(operand | places), "{instruction} {generation} {operand:#x}");
        assert_eq!(reference::normal(instruction, generation, call.operand), Ok(operand | places));
        assert_eq!(stepped(&start, call), stepped(&start, Call { operand: operand | places, ..call }));
        assert!(!reference::only_adds(instruction, generation, operand));
    }
}

#[test]
fn a_trace_of_floats() -> Test {
    let mut start = State::new();
    start.set_f32(X, 0, 1.5);
    start.set_f32(Y, 0, 0.25);
    let mut trace = Trace::new(start);
    trace.push(Call::vecfp(Vecfp::m2(FloatMode::Product, Float::Single, Vectors::One(Enable::First(1)))?).try_into()?)?;
    trace.push(Call::vecfp(Vecfp::m1(FloatMode::Product, Float::Single, Enable::First(1))?).try_into()?)?;
    trace.push(Call::fms64(M1, Fms64::new().vector(true).z_row(1)?).try_into()?)?;
    trace.push(Call::fms64(M1, Fms64::new().vector(true).z_row(1)?.skip_x(true).skip_y(true).skip_z(true)).try_into()?)?;
    // 0.375 is 3ec00000, and -0 is written to row 1
    let rows = format!("z 0 0000c03e{}\nz 1 {}\n", "0".repeat(120), "0000000000000080".repeat(8));
    let text = format!("step 0 done 4\nstep 1 no-op 3\nstep 2 refused 4\nstep 3 done 64\n{rows}steps 4\n");
    assert_eq!(trace.text(), text);
    assert_eq!(reference::trace(&trace.to_bytes()), text);
    Ok(())
}

#[test]
fn the_scope_s_sample_trace() -> Test {
    let mut trace = Trace::new(state(&[(X, 0, Bits8, 3), (Y, 0, Bits8, 2)]));
    for call in [Call::new(14, 1, 1 << 63), Call::new(18, 1, 1 << 54)] {
        trace.push(call.try_into()?)?;
    }
    let text = format!("step 0 done 64\nstep 1 no-op 1\nz 0 0600{}\nsteps 2\n", "0".repeat(124));
    assert_eq!(trace.text(), text);
    assert_eq!(reference::trace(&trace.to_bytes()), text);
    Ok(())
}
