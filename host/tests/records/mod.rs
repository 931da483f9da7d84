//! Records of every answer, for tests of traces.
use amx::{Record, Register, State, Width};

/// A record of each answer that a step can have at first, and the words of that answer. As many divide no run of 2,048 steps.
pub const RECORDS: [(Record, &str); 7] = [
    (Record { instruction: 14, generation: 1, operand: 1 << 63 }, "done 64"),
    (Record { instruction: 18, generation: 1, operand: 1 << 27 }, "refused 4"),
    (Record { instruction: 18, generation: 1, operand: 1 << 54 }, "no-op 1"),
    (Record { instruction: 14, generation: 3, operand: 0 }, "refused 2"),
    (Record { instruction: 18, generation: 2, operand: 7 << 47 }, "no-op 2"),
    (Record { instruction: 15, generation: 1, operand: 0 }, "refused 3"),
    (Record { instruction: 18, generation: 1, operand: 10 << 47 }, "no-op 3"),
];

/// X 3 and Y 2 in their lanes 0: each done step adds 6 to lane 0 of Z row 0.
pub fn start() -> State {
    let mut start = State::new();
    start.set_lane(Register::X(0), 0, Width::Bits16, 3);
    start.set_lane(Register::Y(0), 0, Width::Bits16, 2);
    start
}
