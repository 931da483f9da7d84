//! The bytes that a step counts, for every enable mode, value and lane width.
use crate::case::Step;
use crate::sent::count_of;
use crate::steps::{on_both, pairs};
use amx::{Call, REGISTER_BYTES, STATE_LENGTH, reference};

/// Every mode and value of X's mask with every one of Y's, in a vector step, matrix 16 and matrix 32.
fn mac16() -> Vec<u64> {
    [1 << 63, 0, 1 << 62].into_iter().flat_map(|form| pairs(0..128, 128).map(move |(x, y)| form | x << 41 | y << 32)).collect()
}

/// Every mode and value with every number of lane widths, read as X, Y and Z (ALU mode 0), as Z and saturation (4) and not at all (5),
/// in one vector, two and four.
fn vecint() -> Vec<u64> {
    let forms =
        pairs([0, 4, 5], 16).flat_map(|(mode, widths)| [0, 1 << 31, 1 << 31 | 1 << 25].map(|vectors| mode << 47 | widths << 42 | vectors));
    forms.flat_map(|form| (0..512).map(move |enable| form | enable << 32)).collect()
}

/// Every mode and value with both lane widths, and the bit above the value, in one vector, two and four.
fn vecfp(mode: u64) -> Vec<u64> {
    let forms = [0, 1 << 31, 1 << 31 | 1 << 25].into_iter().flat_map(|vectors| [4, 7].map(|widths| mode << 47 | widths << 42 | vectors));
    forms.flat_map(|form| (0..512).map(move |enable| form | enable << 32)).collect()
}

/// Every mode and value of X's mask with every one of Y's, in a vector step and a matrix step.
fn fms64() -> Vec<u64> {
    [1 << 63, 0].into_iter().flat_map(|form| pairs(0..128, 128).map(move |(x, y)| form | 1 << 28 | x << 41 | y << 32)).collect()
}

/// The positions of Z that lie in lanes that the reference has enabled, one by one.
fn walked(call: Call) -> u64 {
    let mut enabled = [false; REGISTER_BYTES];
    for lane in reference::lanes(call.instruction, call.generation, call.operand) {
        enabled[lane.start()..][..lane.bytes].fill(true);
    }
    enabled[1_024..].iter().filter(|&&on| on).count() as u64
}

/// Compares the bytes that a step counts with a walk over Z, in every case. The number of cases.
pub fn every(step: Step) -> Result<usize, String> {
    // sums and products of vecfp are M2's
    let on_m2 = [10, 11, 12].into_iter().flat_map(vecfp).map(|operand| Call::new(19, 2, operand)).collect();
    let calls = [on_both(14, mac16()), on_both(18, vecint()), on_both(19, vecfp(4)), on_m2, on_both(11, fms64())].concat();
    let mut state = vec![0; STATE_LENGTH];
    for &call in &calls {
        let due = count_of(&state).expect("the length is a state's");
        let counted = step(&mut state, call, due);
        let walked = walked(call);
        if counted != walked {
            return Err(format!("{call} counts {counted} bytes, and {walked} lie in enabled lanes"));
        }
    }
    Ok(calls.len())
}

#[cfg(test)]
mod tests {
    use super::*;
    use crate::case::second;

    #[test]
    fn one_wrong_count_is_found() {
        // one byte short where widths 13, lanes of 16 and 8 bits, have the last 7 of each side
        fn short(state: &mut [u8], call: Call, serial: u64) -> u64 {
            let wrong = call.instruction == 18 && call.operand == 13 << 42 | 3 << 38 | 7 << 32;
            second(state, call, serial) - u64::from(wrong)
        }
        let report = every(short).unwrap_err();
        assert!(report.contains("widths=13") && report.contains("counts 27 bytes, and 28 lie in enabled lanes"), "{report}");
        // lane 8 of fms64 taken modulo 8, and vecfp's value with the bit above it
        fn modulo(state: &mut [u8], call: Call, serial: u64) -> u64 {
            let wrong = call.instruction == 11 && call.operand >> 41 & 127 == 40;
            second(state, Call { operand: if wrong { call.operand & !(8 << 41) } else { call.operand }, ..call }, serial)
        }
        fn bit_37(state: &mut [u8], call: Call, serial: u64) -> u64 {
            let wrong = call.instruction == 19 && call.operand >> 31 & 1 == 0 && call.operand >> 37 & 15 == 1;
            second(state, Call { operand: if wrong { call.operand | 7 << 38 } else { call.operand }, ..call }, serial)
        }
        let report = every(modulo).unwrap_err();
        assert!(report.contains("x_enable_value=8") && report.contains("counts 8 bytes, and 0 lie in enabled lanes"), "{report}");
        assert!(every(bit_37).unwrap_err().contains("bits=0x2000000000 counts 0 bytes, and 64 lie in enabled lanes"));
        let floats = (2 + 3) * 3 * 2 * 512 + 2 * 2 * 128 * 128;
        assert_eq!(every(second), Ok(2 * (3 * 128 * 128 + 3 * 16 * 3 * 512) + floats));
    }
}
