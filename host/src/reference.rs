//! A second program for the same pages: the four instructions, what they do to each lane, the normal operand, the terms of the swap rule,
//! the trace text, and traces cut in two.
//!
//! Written from the scope's text lane by lane, for plainness and not for speed. It shares no code with the proved unit nor with the rest
//! of this crate, so that a misreading in one of them shows when they are compared; its floats are [`rounding`](crate::rounding)'s, in
//! whole numbers, where the proved unit has the processor's. Answers are the host's numbers: the Z bytes in enabled lanes, 65,536 + the
//! reason of a no-op, 131,072 + the number of a refusal.

use crate::rounding::{DOUBLE, Format, SINGLE};
use std::ops::Range;

const NO_OP: u64 = 65_536;
const REFUSED: u64 = 131_072;

/// Where Z begins in the state.
const Z: usize = 1_024;

/// The bytes of X, Y and Z. The count of steps taken follows them and ends the state.
const REGISTERS: usize = 5_120;
const LENGTH: usize = REGISTERS + 8;

/// The bytes of a trace's third section: the steps consumed, then the state.
const CHECKPOINT: usize = 4 + LENGTH;

fn bits(operand: u64, low: u32, high: u32) -> usize {
    (operand >> low & ((2 << (high - low)) - 1)) as usize
}

fn bit(operand: u64, n: u32) -> bool {
    operand >> n & 1 == 1
}

/// A Z lane that a step enables.
#[derive(Clone, Copy, Debug, PartialEq, Eq)]
pub struct Lane {
    /// The row of Z, 0 to 63.
    pub row: usize,
    /// The lane in its row.
    pub lane: usize,
    /// The lane's bytes: 1, 2, 4 or 8.
    pub bytes: usize,
    /// Which of several vectors, and the X and Y lanes that come here.
    vector: usize,
    x: usize,
    y: usize,
}

impl Lane {
    /// The lane's first byte, in the state.
    pub fn start(&self) -> usize {
        Z + 64 * self.row + self.bytes * self.lane
    }
}

/// What a step reads for an enabled lane, and what it gives to it. Numbers of float steps are patterns.
#[derive(Clone, Copy, Debug, PartialEq, Eq)]
pub(crate) struct Effect {
    /// The X number, 0 where X reads as 0; none where the operation does not use X.
    pub x: Option<i64>,
    /// The Y number, likewise.
    pub y: Option<i64>,
    /// What the lane had; none where the operation does not use it.
    pub old: Option<i64>,
    /// What the operation gives: integers exactly, floats rounded once.
    pub result: i64,
    /// The result, clamped where the step clamps it. It is stored modulo 2 to the lane's width.
    pub clamped: i64,
}

/// The refusal of an unknown generation or instruction.
fn unknown(instruction: u64, generation: u64) -> Option<u64> {
    if generation != 1 && generation != 2 {
        return Some(REFUSED + 2);
    }
    if !matches!(instruction, 11 | 14 | 18 | 19) {
        return Some(REFUSED + 3);
    }
    None
}

/// The refusal of a step before its operand is read: the first row of the table that applies.
fn refused(state: &[u8], instruction: u64, generation: u64, serial: u64) -> Option<u64> {
    if state.len() != LENGTH {
        return Some(REFUSED + 1);
    }
    if let Some(refusal) = unknown(instruction, generation) {
        return Some(refusal);
    }
    if taken(state) == u64::MAX {
        return Some(REFUSED + 9);
    }
    if serial != taken(state) {
        return Some(REFUSED + 8);
    }
    None
}

/// The steps taken, of a state that has a count.
fn taken(state: &[u8]) -> u64 {
    u64_in(&state[REGISTERS..])
}

/// The answer of a step that isn't done, by the call alone: the first row of the table that applies, where length and serial are right.
fn not_done(instruction: u64, generation: u64, operand: u64) -> Option<u64> {
    if let Some(refusal) = unknown(instruction, generation) {
        return Some(refusal);
    }
    let (mode, shuffled) = (alu_mode(operand), bits(operand, 27, 30) != 0);
    let (modes, covered): (&[usize], bool) = match instruction {
        11 => return (!bit(operand, 29) && !bit(operand, 28)).then_some(REFUSED + 4),
        14 => return None,
        18 => (&[0, 1, 2, 3, 4, 5, 6, 10, 11, 12], mode == 4 || !shuffled),
        _ => {
            let (covered_mode, covered_width) = (matches!(mode, 4 | 10 | 11 | 12), matches!(bits(operand, 42, 45), 4 | 7));
            (&[0, 1, 4, 5, 7, 10, 11, 12], !bit(operand, 53) && covered_mode && covered_width && !shuffled)
        }
    };
    if bits(operand, 54, 56) != 0 {
        return Some(NO_OP + 1);
    }
    if !modes.contains(&mode) {
        return Some(NO_OP + 2);
    }
    if matches!(mode, 10..=12) && generation == 1 {
        return Some(NO_OP + 3);
    }
    (!covered).then_some(REFUSED + 4)
}

/// The Z lanes that a call enables where it is sent with the serial due, none where it isn't done.
pub fn lanes(instruction: u64, generation: u64, operand: u64) -> Vec<Lane> {
    lanes_in(instruction, generation, operand, &(0..64))
}

/// Those of the lanes that lie in some rows.
fn lanes_in(instruction: u64, generation: u64, operand: u64, rows: &Range<usize>) -> Vec<Lane> {
    let mut enabled = match (not_done(instruction, generation, operand), instruction) {
        (Some(_), _) => return Vec::new(),
        (None, 11) => fms64_lanes(operand, rows),
        (None, 14) => mac16_lanes(operand, rows),
        _ => vector_lanes(generation, read_bits(instruction, operand), lane_bits(instruction, operand), rows),
    };
    if *rows != (0..64) {
        enabled.retain(|lane| rows.contains(&lane.row));
    }
    enabled
}

/// Whether a step only adds to Z, so that it may be swapped with another such step of the same lane width. Sums of floats are rounded, so
/// their order shows: no float step does.
pub fn only_adds(instruction: u64, generation: u64, operand: u64) -> bool {
    if not_done(instruction, generation, operand).is_some() {
        return false;
    }
    match instruction {
        14 => !bit(operand, 27),
        18 => matches!(alu_mode(operand), 0..=3 | 11 | 12) && !forced_to_0(instruction, generation, operand),
        _ => false,
    }
}

/// One step on a state of any length: the host's number, and the state as the step leaves it.
pub fn step(state: &mut [u8], instruction: u64, generation: u64, operand: u64, serial: u64) -> u64 {
    if let Some(refusal) = refused(state, instruction, generation, serial) {
        return refusal;
    }
    let answer = match not_done(instruction, generation, operand) {
        Some(answer) => answer,
        None => done(state, instruction, generation, operand),
    };
    if answer < REFUSED {
        let count = taken(state) + 1;
        state[REGISTERS..].copy_from_slice(&count.to_le_bytes());
    }
    answer
}

/// What a done step does to the registers, and the Z bytes in its enabled lanes.
fn done(state: &mut [u8], instruction: u64, generation: u64, operand: u64) -> u64 {
    let enabled = lanes(instruction, generation, operand);
    let loaded = Loaded::new(state, instruction, generation, operand);
    for lane in &enabled {
        let result = loaded.result(loaded.numbers(state, lane));
        store(state, lane, loaded.clamped(result));
    }
    enabled.iter().map(|lane| lane.bytes as u64).sum()
}

/// What a step that is sent with the serial due does to each lane that it enables and that has a byte in these rows, at these places of the
/// row; nothing where it isn't done.
pub(crate) fn effects(
    state: &[u8],
    instruction: u64,
    generation: u64,
    operand: u64,
    rows: Range<usize>,
    places: Range<usize>,
) -> Vec<(Lane, Effect)> {
    if state.len() != LENGTH || refused(state, instruction, generation, taken(state)).is_some() {
        return Vec::new();
    }
    let mut enabled = lanes_in(instruction, generation, operand, &(rows.start..rows.end.min(64)));
    enabled.retain(|lane| places.start.max(lane.bytes * lane.lane) < places.end.min(lane.bytes * (lane.lane + 1)));
    if enabled.is_empty() {
        return Vec::new();
    }
    let loaded = Loaded::new(state, instruction, generation, operand);
    let [uses_x, uses_y, uses_z] = uses(instruction, generation, operand);
    let effect = |lane| {
        let [x, y, old] = loaded.numbers(state, &lane);
        let result = loaded.result([x, y, old]);
        let (x, y, old) = (uses_x.then_some(x), uses_y.then_some(y), uses_z.then_some(old));
        (lane, Effect { x, y, old, result, clamped: loaded.clamped(result) })
    };
    enabled.into_iter().map(effect).collect()
}

/// A done step, with the numbers that X and Y give to it.
struct Loaded {
    instruction: u64,
    operand: u64,
    forced_to_0: bool,
    /// The least and the greatest number, where a result is clamped.
    clamp: Option<(i64, i64)>,
    z_signed: bool,
    /// X and Y; none where it is not read, and then 0, or +0, in every lane.
    x: Option<Side>,
    y: Option<Side>,
}

/// The numbers of X or Y, vector by vector; those of floats are patterns.
struct Side {
    lanes: usize,
    numbers: Vec<i64>,
}

impl Side {
    /// Lanes of so many bytes; of each, the low ones that are read make the number.
    fn new(vectors: impl ExactSizeIterator<Item = [u8; 64]>, bytes: usize, read: usize, signed: bool) -> Self {
        let lanes = 64 / bytes;
        let mut numbers = Vec::with_capacity(lanes * vectors.len());
        for vector in vectors {
            numbers.extend(vector.chunks_exact(bytes).map(|lane| number(&lane[..read], signed)));
        }
        Side { lanes, numbers }
    }

    fn lane(&self, vector: usize, lane: usize) -> i64 {
        self.numbers[self.lanes * vector + lane]
    }
}

impl Loaded {
    fn new(state: &[u8], instruction: u64, generation: u64, operand: u64) -> Self {
        let operand = read_bits(instruction, operand);
        let [reads_x, reads_y] = reads(instruction, generation, operand);
        let side = |y| match instruction {
            11 | 14 => matrix_side(state, instruction, operand, y),
            _ => vector_side(state, instruction, generation, operand, y),
        };
        let (x, y) = (reads_x.then(|| side(false)), reads_y.then(|| side(true)));
        let (forced_to_0, clamp) = (forced_to_0(instruction, generation, operand), clamp(instruction, operand));
        Loaded { instruction, operand, forced_to_0, clamp, z_signed: z_signed(instruction, operand), x, y }
    }

    /// The numbers of X, Y and Z that come together in a lane.
    fn numbers(&self, state: &[u8], lane: &Lane) -> [i64; 3] {
        let x = self.x.as_ref().map_or(0, |x| x.lane(lane.vector, lane.x));
        let y = self.y.as_ref().map_or(0, |y| y.lane(lane.vector, lane.y));
        [x, y, number(&state[lane.start()..][..lane.bytes], self.z_signed)]
    }

    /// What the operation gives for them.
    fn result(&self, [x, y, z]: [i64; 3]) -> i64 {
        match self.instruction {
            _ if self.forced_to_0 => 0,
            11 => fms64(self.operand, x as u64, y as u64, z as u64) as i64,
            14 => mac16(self.operand, x, y, z),
            18 => vecint(self.operand, x, y, z),
            _ => vecfp(self.operand, x as u64, y as u64, z as u64) as i64,
        }
    }

    fn clamped(&self, result: i64) -> i64 {
        self.clamp.map_or(result, |(least, greatest)| result.clamp(least, greatest))
    }
}

/// The operand as the step reads it: vecfp ignores the highest bit of what is vecint's enable value.
fn read_bits(instruction: u64, operand: u64) -> u64 {
    if instruction == 19 { operand & !(1 << 37) } else { operand }
}

/// 64 bytes of X or Y, round the 512-byte ring.
fn load(ring: &[u8; 512], offset: usize) -> [u8; 64] {
    std::array::from_fn(|i| ring[(offset + i) % 512])
}

/// The little-endian number in 1, 2 or 4 bytes; in 8 bytes, the pattern of a float.
fn number(bytes: &[u8], signed: bool) -> i64 {
    let (unsigned, unused) = (u64_in(bytes) as i64, 64 - 8 * bytes.len());
    if signed { unsigned << unused >> unused } else { unsigned }
}

/// The little-endian number in 1, 2, 4 or 8 bytes, unsigned.
fn u64_in(bytes: &[u8]) -> u64 {
    match *bytes {
        [byte] => byte.into(),
        [a, b] => u16::from_le_bytes([a, b]).into(),
        [a, b, c, d] => u32::from_le_bytes([a, b, c, d]).into(),
        _ => u64::from_le_bytes(bytes.try_into().expect("8 bytes")),
    }
}

/// Stores a result modulo 2 to the lane's width.
fn store(state: &mut [u8], lane: &Lane, result: i64) {
    for (byte, stored) in state[lane.start()..][..lane.bytes].iter_mut().zip(result.to_le_bytes()) {
        *byte = stored;
    }
}

/// Enable modes 0, 2 and 3 as all instructions have them: lane `i` of `count`.
fn common_mask(mode: usize, n: usize, i: usize, count: usize) -> bool {
    match (mode, n) {
        (0, 0) => true,
        (0, 1) => i % 2 == 1,
        (0, 2) => i.is_multiple_of(2),
        (2 | 3, 0) => true,
        (2, n) => i < n,
        (3, n) => i + n >= count,
        _ => false,
    }
}

/// The masks of X and of Y that mac16 and fms64 have: lane `i` of `count`. There is no lane `count` that mode 1 could enable.
fn side_mask(operand: u64, x: bool, i: usize, count: usize) -> bool {
    let (mode, n) = if x { (bits(operand, 46, 47), bits(operand, 41, 45)) } else { (bits(operand, 37, 38), bits(operand, 32, 36)) };
    if mode == 1 { i == n } else { common_mask(mode, n, i, count) }
}

fn mac16_lanes(operand: u64, rows: &Range<usize>) -> Vec<Lane> {
    let (x_on, y_on) = (|i: &usize| side_mask(operand, true, *i, 32), |j: &usize| side_mask(operand, false, *j, 32));
    let z_row = bits(operand, 20, 25);
    let mut enabled = Vec::with_capacity(1_024);
    if bit(operand, 63) {
        enabled.extend((0..32).filter(x_on).map(|i| Lane { row: z_row, lane: i, bytes: 2, vector: 0, x: i, y: i }));
        return enabled;
    }
    for j in (rows.start / 2..rows.end.div_ceil(2)).filter(y_on) {
        for i in (0..32).filter(x_on) {
            enabled.push(if bit(operand, 62) {
                Lane { row: 2 * j + i % 2, lane: i / 2, bytes: 4, vector: 0, x: i, y: j }
            } else {
                Lane { row: 2 * j + z_row % 2, lane: i, bytes: 2, vector: 0, x: i, y: j }
            });
        }
    }
    enabled
}

fn mac16(operand: u64, x: i64, y: i64, z: i64) -> i64 {
    let value = match (bit(operand, 29), bit(operand, 28)) {
        (false, false) => x * y,
        (false, true) => x,
        (true, false) => y,
        (true, true) => 0,
    };
    let old = if bit(operand, 27) { 0 } else { z };
    old + (value >> bits(operand, 55, 59))
}

fn fms64_lanes(operand: u64, rows: &Range<usize>) -> Vec<Lane> {
    let (x_on, y_on) = (|i: &usize| side_mask(operand, true, *i, 8), |j: &usize| side_mask(operand, false, *j, 8));
    let z_row = bits(operand, 20, 25);
    let lane = |row, i, j| Lane { row, lane: i, bytes: 8, vector: 0, x: i, y: j };
    let mut enabled = Vec::with_capacity(64);
    if bit(operand, 63) {
        enabled.extend((0..8).filter(x_on).map(|i| lane(z_row, i, i)));
        return enabled;
    }
    for j in (rows.start / 8..rows.end.div_ceil(8)).filter(y_on) {
        enabled.extend((0..8).filter(x_on).map(|i| lane(8 * j + z_row % 8, i, j)));
    }
    enabled
}

fn fms64(operand: u64, x: u64, y: u64, z: u64) -> u64 {
    match (bit(operand, 29), bit(operand, 28), bit(operand, 27)) {
        (false, _, false) => DOUBLE.difference(z, x), // Y is skipped: it is not done otherwise
        (false, _, true) => DOUBLE.negated(x),
        (true, false, false) => DOUBLE.difference(z, y),
        (true, false, true) => DOUBLE.negated(y),
        (true, true, false) => z,
        (true, true, true) => DOUBLE.sign(), // -0
    }
}

/// The ALU mode of vecint and vecfp: 0 in an indexed load, whose own fields stand in the mode's bits.
fn alu_mode(operand: u64) -> usize {
    if bit(operand, 53) { 0 } else { bits(operand, 47, 52) }
}

/// The bits of an X, a Y and a Z lane, outside mode 4.
fn widths(operand: u64) -> (usize, usize, usize) {
    match (alu_mode(operand), bits(operand, 42, 45)) {
        (5 | 6, _) => (16, 16, 16),
        (_, 3) => (16, 16, 32),
        (_, 10) => (8, 8, 32),
        (_, 11) => (8, 8, 16),
        (_, 12) => (8, 16, 32),
        (_, 13) => (16, 8, 32),
        _ => (16, 16, 16),
    }
}

/// The bits of a Z lane in mode 4, and those it is clamped to.
fn reduced_widths(operand: u64) -> (usize, usize) {
    match bits(operand, 42, 45) {
        3 => (32, 16),
        4 => (32, 32),
        9 => (8, 8),
        10 => (32, 8),
        11 => (16, 8),
        _ => (16, 16),
    }
}

fn several_vectors(generation: u64, operand: u64) -> bool {
    generation == 2 && bit(operand, 31)
}

/// The broadcast mode of several vectors; of one vector, none.
fn broadcast(generation: u64, operand: u64) -> Option<usize> {
    several_vectors(generation, operand).then(|| bits(operand, 32, 34))
}

/// Enable mode and value of one vector; of several, none.
fn enable(generation: u64, operand: u64) -> Option<(usize, usize)> {
    (!several_vectors(generation, operand)).then(|| (bits(operand, 38, 40), bits(operand, 32, 37)))
}

/// Whether a vecint or a vecfp is overridden: by this broadcast mode of several vectors, or by this value of enable mode 0.
fn overridden(instruction: u64, generation: u64, operand: u64, mode: usize, value: usize) -> bool {
    let operand = read_bits(instruction, operand);
    let given = broadcast(generation, operand) == Some(mode) || enable(generation, operand) == Some((0, value));
    matches!(instruction, 18 | 19) && given
}

/// Whether a step stores 0 whatever there is.
pub(crate) fn forced_to_0(instruction: u64, generation: u64, operand: u64) -> bool {
    overridden(instruction, generation, operand, 1, 3)
}

fn vector_mask(mode: usize, n: usize, i: usize, count: usize) -> bool {
    match (mode, n) {
        (0, 3..=5) | (1, _) => true,
        (4, n) => i < n,
        (5, n) => i + n >= count,
        _ => common_mask(mode, n, i, count),
    }
}

/// The bits of an X, a Y and a Z lane of a step that is done.
pub(crate) fn lane_bits(instruction: u64, operand: u64) -> (usize, usize, usize) {
    let alike = |bits| (bits, bits, bits);
    match instruction {
        11 => alike(64),
        14 if !bit(operand, 63) && bit(operand, 62) => (16, 16, 32),
        14 => alike(16),
        19 => alike(float_format(operand).bits as usize),
        // Z alone: its own width masks it, and it has no group of rows
        _ if alu_mode(operand) == 4 => alike(reduced_widths(operand).0),
        _ => widths(operand),
    }
}

/// How many vectors there are, and the rows from one to the next.
fn vectors(generation: u64, operand: u64) -> (usize, usize) {
    match (several_vectors(generation, operand), bit(operand, 25)) {
        (false, _) => (1, 64),
        (true, false) => (2, 32),
        (true, true) => (4, 16),
    }
}

/// The enabled lanes of one vector, two or four, by the bits of an X, a Y and a Z lane; of vectors with no place in the rows, none.
fn vector_lanes(generation: u64, operand: u64, (x_bits, y_bits, z_bits): (usize, usize, usize), rows: &Range<usize>) -> Vec<Lane> {
    let (vectors, stride) = vectors(generation, operand);
    let narrower = x_bits.min(y_bits);
    let group = z_bits / narrower;
    let mut enabled = Vec::with_capacity(256);
    for vector in 0..vectors {
        let row = (bits(operand, 20, 25) % stride + stride * vector) / group * group;
        if row + group <= rows.start || rows.end <= row {
            continue;
        }
        for k in 0..512 / narrower {
            let (mut x, mut y) = (k * narrower / x_bits, k * narrower / y_bits);
            if let Some((mode, n)) = enable(generation, operand) {
                // read at X's lane width and at Y's: both must allow the lane
                if !vector_mask(mode, n, x, 512 / x_bits) || !vector_mask(mode, n, y, 512 / y_bits) {
                    continue;
                }
                if mode == 1 {
                    y = n % (512 / y_bits);
                }
            }
            match broadcast(generation, operand) {
                Some(6) => x = 0,
                Some(7) => y = 0,
                _ => {}
            }
            enabled.push(Lane { row: row + k % group, lane: k / group, bytes: z_bits / 8, vector, x, y });
        }
    }
    enabled
}

/// The bits of an index and the register that is indexed, where the load of Y (or X) is an indexed one.
fn indexed(operand: u64, y: bool) -> Option<(usize, usize)> {
    (bit(operand, 53) && bit(operand, 47) == y).then(|| (if bit(operand, 48) { 4 } else { 2 }, bits(operand, 49, 51)))
}

/// Element `k` is the register's element that the `k`-th index names. Indices are packed, lowest bits first.
fn picked(register: &[u8], indices: &[u8; 64], index_bits: usize, lane_bytes: usize) -> [u8; 64] {
    let index = |k: usize| usize::from(indices[k * index_bits / 8]) >> (k * index_bits % 8) & ((1 << index_bits) - 1);
    std::array::from_fn(|i| register[lane_bytes * index(i / lane_bytes) + i % lane_bytes])
}

/// The bytes of X or of Y, and where in them a step begins to load.
fn ring(state: &[u8], operand: u64, y: bool) -> (&[u8; 512], usize) {
    let (start, offset) = if y { (512, bits(operand, 0, 8)) } else { (0, bits(operand, 10, 18)) };
    (state[start..].first_chunk().expect("the state has its length"), offset)
}

/// X or Y of a mac16 or an fms64. An i8 is the low byte of its 16-bit lane.
fn matrix_side(state: &[u8], instruction: u64, operand: u64, y: bool) -> Side {
    let (ring, offset) = ring(state, operand, y);
    let vector = [load(ring, offset)].into_iter();
    match (instruction, bit(operand, if y { 60 } else { 61 })) {
        (11, _) => Side::new(vector, 8, 8, false),
        (_, true) => Side::new(vector, 2, 1, true),
        (_, false) => Side::new(vector, 2, 2, true),
    }
}

/// X or Y of a vecint or a vecfp.
fn vector_side(state: &[u8], instruction: u64, generation: u64, operand: u64, y: bool) -> Side {
    let (ring, offset) = ring(state, operand, y);
    let (x_bits, y_bits, _) = lane_bits(instruction, operand);
    let (lane_bits, signed) = if y { (y_bits, bit(operand, 26)) } else { (x_bits, bit(operand, 63)) };
    let indexed = indexed(operand, y);
    let advance = match indexed {
        _ if repeats(generation, operand)[usize::from(y)] => 0,
        Some((index_bits, _)) => 64 * index_bits / lane_bits,
        None => 64,
    };
    let vector = |vector| {
        let bytes = load(ring, offset + advance * vector);
        match indexed {
            Some((index_bits, register)) => picked(&ring[64 * register..][..64], &bytes, index_bits, lane_bits / 8),
            None => bytes,
        }
    };
    Side::new((0..vectors(generation, operand).0).map(vector), lane_bits / 8, lane_bits / 8, signed && instruction == 18)
}

fn vecint(operand: u64, x: i64, y: i64, z: i64) -> i64 {
    let shift = bits(operand, 58, 62);
    match alu_mode(operand) {
        0 => z + ((x * y) >> shift),
        1 => z - ((x * y) >> shift),
        2 => z + ((x + y) >> shift),
        3 => z - ((x + y) >> shift),
        4 if bit(operand, 29) && shift > 0 => (z + (1 << (shift - 1))) >> shift,
        4 => z >> shift,
        5 => z + ((x * y + 16_384) >> 15),
        6 => z - ((x * y + 16_384) >> 15),
        10 => (x * y) >> shift,
        11 => z + (x >> shift),
        _ => z + (y >> shift), // 12: the others are not done
    }
}

/// The least and the greatest number that a step stores, where it clamps: vecint in modes 5 and 6, and in mode 4 where asked.
pub(crate) fn clamp(instruction: u64, operand: u64) -> Option<(i64, i64)> {
    let signed = |bits: usize| (-(1 << (bits - 1)), (1 << (bits - 1)) - 1);
    let saturation = reduced_widths(operand).1;
    match (instruction, alu_mode(operand)) {
        (18, 4) if !bit(operand, 30) => None,
        (18, 4) if bit(operand, 26) => Some(signed(saturation)),
        (18, 4) => Some((0, (1 << saturation) - 1)),
        (18, 5 | 6) => Some(signed(16)),
        _ => None,
    }
}

/// Whether the operation of a step that is done uses X, Y and what the lane had. One that reads as 0 is used.
pub(crate) fn uses(instruction: u64, generation: u64, operand: u64) -> [bool; 3] {
    let mode = alu_mode(operand);
    match instruction {
        _ if forced_to_0(instruction, generation, operand) => [false; 3],
        11 | 14 => [!bit(operand, 29), !bit(operand, 28), !bit(operand, 27)],
        18 if mode == 4 => [false, false, true],
        18 => [mode != 12, mode != 11, mode != 10],
        _ => [mode != 12, mode != 11, matches!(mode, 11 | 12)],
    }
}

/// Whether a step that is done loads X and Y: those that it uses, but where they read as 0.
pub(crate) fn reads(instruction: u64, generation: u64, operand: u64) -> [bool; 2] {
    let [x, y, _] = uses(instruction, generation, operand);
    let reads_as_0 = |n| overridden(instruction, generation, operand, n, n);
    [x && !reads_as_0(4), y && !reads_as_0(5)]
}

/// Whether several vectors have the same X, and the same Y.
pub(crate) fn repeats(generation: u64, operand: u64) -> [bool; 2] {
    let broadcast = broadcast(generation, operand);
    [matches!(broadcast, Some(2 | 6)), matches!(broadcast, Some(3 | 7))]
}

/// Whether a step takes its Z lanes for signed numbers. What mode 4 clamps to, by another sign, is the same number by this one.
pub(crate) fn z_signed(instruction: u64, operand: u64) -> bool {
    match instruction {
        18 if alu_mode(operand) == 4 => bit(operand, 63),
        14 | 18 => true,
        _ => false, // patterns
    }
}

/// The format of vecfp's lanes: the others are not done.
fn float_format(operand: u64) -> Format {
    if bits(operand, 42, 45) == 4 { SINGLE } else { DOUBLE }
}

fn vecfp(operand: u64, x: u64, y: u64, z: u64) -> u64 {
    let format = float_format(operand);
    match alu_mode(operand) {
        4 if format.at_most_0(x) => 0,
        4 => y,
        10 => format.product(x, y),
        11 => format.sum(z, x),
        _ => format.sum(z, y), // 12: the others are not done
    }
}

/// The normal operand: the operand with its ignored bits cleared; an error is the number of the step's own no-op or refusal.
pub fn normal(instruction: u64, generation: u64, operand: u64) -> Result<u64, u64> {
    if let Some(answer) = not_done(instruction, generation, operand) {
        return Err(answer);
    }
    let ignored = match instruction {
        11 => fms64_ignored(operand),
        14 => mac16_ignored(operand),
        18 => vecint_ignored(generation, operand),
        _ => vecfp_ignored(generation, operand),
    };
    Ok(ignored.into_iter().flat_map(|(low, high)| low..=high).fold(operand, |operand, n| operand & !(1 << n)))
}

fn mac16_ignored(operand: u64) -> Vec<(u32, u32)> {
    let mut ranges = vec![(48, 54), (39, 40), (30, 31), (26, 26), (19, 19), (9, 9)];
    match (bit(operand, 63), bit(operand, 62)) {
        (true, _) => ranges.extend([(62, 62), (32, 38)]),
        (false, false) => ranges.push((21, 25)),
        (false, true) => ranges.push((20, 25)),
    }
    ranges
}

fn fms64_ignored(operand: u64) -> Vec<(u32, u32)> {
    let mut ranges = vec![(48, 62), (39, 40), (30, 31), (26, 26), (19, 19), (9, 9)];
    ranges.push(if bit(operand, 63) { (32, 38) } else { (23, 25) });
    ranges
}

/// What vecint and vecfp both ignore.
fn vector_ignored(generation: u64, operand: u64) -> Vec<(u32, u32)> {
    let mut ranges = vec![(57, 57), (46, 46), (41, 41), (19, 19), (9, 9)];
    if generation == 1 {
        ranges.push((31, 31));
    }
    if several_vectors(generation, operand) {
        ranges.push((35, 40));
        if bit(operand, 25) {
            ranges.push((24, 24));
        }
    }
    ranges
}

fn vecfp_ignored(generation: u64, operand: u64) -> Vec<(u32, u32)> {
    let mut ranges = vector_ignored(generation, operand);
    ranges.extend([(58, 63), (37, 37), (26, 26)]);
    ranges
}

fn vecint_ignored(generation: u64, operand: u64) -> Vec<(u32, u32)> {
    let mode = alu_mode(operand);
    let mut ranges = vector_ignored(generation, operand);
    if bit(operand, 53) {
        ranges.push((52, 52));
    }
    if mode == 5 || mode == 6 {
        ranges.extend([(58, 62), (42, 45)]);
    }
    if mode == 4 {
        ranges.extend([(27, 28), (10, 18), (0, 8)]);
    } else {
        let (x_bits, y_bits, z_bits) = widths(operand);
        match z_bits / x_bits.min(y_bits) {
            2 => ranges.push((20, 20)),
            4 => ranges.push((20, 21)),
            _ => {}
        }
    }
    ranges
}

fn u16_at(file: &[u8], at: usize) -> usize {
    number(&file[at..at + 2], false) as usize
}

fn u32_at(file: &[u8], at: usize) -> usize {
    number(&file[at..at + 4], false) as usize
}

/// The most steps of a trace file.
const MOST: usize = 1_000_000;

const TOO_SHORT: u64 = 5;
const TABLE: u64 = 6;
const PADDING: u64 = 7;

/// How many sections and steps the table of a file tells, or the number of its refusal. The bodies are not looked at.
fn table(file: &[u8]) -> Result<(usize, usize), u64> {
    if file.len() < 28 {
        return Err(TOO_SHORT);
    }
    let sections = u32_at(file, 0);
    if sections == 3 && file.len() < 40 {
        return Err(TOO_SHORT);
    }
    if sections != 2 && sections != 3 {
        return Err(TABLE);
    }
    let entry = |at| (u16_at(file, at), u16_at(file, at + 2), u32_at(file, at + 4), u32_at(file, at + 8));
    let first = if sections == 2 { 28 } else { 40 };
    let second = first + REGISTERS;
    let steps = u32_at(file, 24) / 16;
    let third = second + 16 * steps;
    if entry(4) != (1, 0, first, REGISTERS) || entry(16) != (2, 0, second, 16 * steps) || steps > MOST {
        return Err(TABLE);
    }
    if sections == 3 && entry(28) != (3, 0, third, CHECKPOINT) {
        return Err(TABLE);
    }
    Ok((sections, steps))
}

/// The starting registers and what follows them, of a file of so many sections.
fn bodies(file: &[u8], sections: usize) -> Result<(&[u8], &[u8]), u64> {
    file[4 + 12 * sections..].split_at_checked(REGISTERS).ok_or(TABLE)
}

/// A record that is there and whose padding is 0.
fn record_at(records: &[u8], place: usize) -> Result<&[u8], u64> {
    let record = records.get(16 * place..16 * place + 16).ok_or(TABLE)?;
    if record[2..8] == [0; 6] { Ok(record) } else { Err(PADDING) }
}

/// The steps consumed and the state to go on from, of the bodies behind the starting registers, which are checked whole.
fn resumed(records: &[u8], steps: usize) -> Result<(usize, Vec<u8>), u64> {
    if records.len() != 16 * steps + CHECKPOINT || u32_at(records, 16 * steps) > steps {
        return Err(TABLE);
    }
    for place in 0..steps {
        record_at(records, place)?;
    }
    Ok((u32_at(records, 16 * steps), records[16 * steps + 4..].to_vec()))
}

/// A state at count 0, which a run starts from.
fn at_count_0(start: &[u8]) -> Vec<u8> {
    [start, &[0; 8]].concat()
}

/// The step of a record, with the serial due.
fn step_due(state: &mut [u8], record: &[u8]) -> u64 {
    let serial = taken(state);
    step(state, record[0].into(), record[1].into(), u64_in(&record[8..]), serial)
}

/// The text that the trace program prints for a file: the lines of the steps not yet consumed and of changed rows, or the refusal of the
/// file. Two sections are refused where what is wrong is met, after the lines of the steps before it; three before any line.
pub fn trace(file: &[u8]) -> String {
    let mut text = String::new();
    if let Err(refusal) = print(file, &mut text) {
        text += &format!("file refused {refusal}\n");
    }
    text
}

/// Adds the lines of a file, up to what it is refused for.
fn print(file: &[u8], text: &mut String) -> Result<(), u64> {
    let (sections, steps) = table(file)?;
    let (start, records) = bodies(file, sections)?;
    let (consumed, mut state) = match sections {
        2 => (0, at_count_0(start)),
        _ => resumed(records, steps)?,
    };
    for place in consumed..steps {
        let answer = step_due(&mut state, record_at(records, place)?);
        let words = match answer {
            REFUSED.. => format!("refused {}", answer - REFUSED),
            NO_OP.. => format!("no-op {}", answer - NO_OP),
            _ => format!("done {answer}"),
        };
        *text += &format!("step {place} {words}\n");
    }
    if sections == 2 && records.len() > 16 * steps {
        return Err(TABLE);
    }
    for row in 0..64 {
        let bytes = Z + 64 * row..Z + 64 * row + 64;
        // whatever the state was that the run went on from
        if state[bytes.clone()] != start[bytes.clone()] {
            let digits: String = state[bytes].iter().map(|byte| format!("{byte:02x}")).collect();
            *text += &format!("z {row} {digits}\n");
        }
    }
    *text += &format!("steps {steps}\n");
    Ok(())
}

/// Writes the third section of a trace: the steps consumed as a u32, then the state. How many bytes were written: all or none.
pub fn checkpoint(state: &[u8], consumed: u64, out: &mut [u8]) -> u64 {
    if state.len() != LENGTH || out.len() < CHECKPOINT || consumed >= 1 << 32 {
        return 0;
    }
    out[..4].copy_from_slice(&consumed.to_le_bytes()[..4]);
    out[4..CHECKPOINT].copy_from_slice(state);
    CHECKPOINT as u64
}

/// The three-section file of a two-section one whose run is stopped after some of its steps. None where the file is no such file, or has
/// fewer steps.
pub fn cut(file: &[u8], consumed: usize) -> Option<Vec<u8>> {
    let (sections, steps) = table(file).ok()?;
    let (start, records) = bodies(file, sections).ok()?;
    if sections != 2 || records.len() != 16 * steps || consumed > steps {
        return None;
    }
    let mut state = at_count_0(start);
    for place in 0..steps {
        let record = record_at(records, place).ok()?;
        if place < consumed {
            step_due(&mut state, record);
        }
    }
    let table = [3, 1, 40, 5_120, 2, 5_160, records.len(), 3, 5_160 + records.len(), 5_132];
    let table: Vec<u8> = table.into_iter().flat_map(|number| (number as u32).to_le_bytes()).collect();
    let mut third = vec![0; CHECKPOINT];
    checkpoint(&state, consumed as u64, &mut third);
    Some([&table, start, records, &third].concat())
}
