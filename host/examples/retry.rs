//! A call whose answer was lost is sent again with the same serial, and adds once.
use amx::{Call, Register, State, Width, step};

fn main() {
    let mut state = State::new();
    state.set_lane(Register::X(0), 0, Width::Bits16, 3);
    state.set_lane(Register::Y(0), 0, Width::Bits16, 2);
    let (call, serial) = (Call::new(14, 1, 1 << 63), state.count()); // mac16, vector
    println!("timed out: {:#}", step(&mut state, call, serial)); // done, but the driver does not hear of it
    println!("sent again: {:#}", step(&mut state, call, serial));
    println!("lane 0 of Z row 0 is {}, count {}", state.lane(Register::Z(0), 0, Width::Bits16), state.count());
}
