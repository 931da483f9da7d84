//! Lists of calls rearranged by chains of allowed swaps of neighbours.
use crate::case::{Case, End, REFUSED, difference, proved};
use crate::sent::{Sent, count_of, draw_count, draw_state, set_count};
use amx::{Call, STATE_LENGTH, random::Random, random::put, reference};

/// What decides whether a call may be swapped, by the reference: the bytes of each row in enabled lanes, and the lane width if it only adds;
/// and whether it raises the count.
#[derive(Clone, Copy)]
struct Reach {
    rows: [u64; 64],
    adds: Option<usize>,
    raises: bool,
}

impl Reach {
    fn of(length: usize, call: Call) -> Self {
        let Call { instruction, generation, operand } = call;
        let mut reach = Reach { rows: [0; 64], adds: None, raises: false };
        // on another length every call is refused, and a refused step enables no lane
        if length == STATE_LENGTH {
            reach.raises = reference::normal(instruction, generation, operand).err().is_none_or(|answer| answer < REFUSED);
            for lane in reference::lanes(instruction, generation, operand) {
                let bytes = (1 << lane.bytes) - 1;
                reach.rows[lane.row] |= bytes << (lane.bytes * lane.lane);
                if reference::only_adds(instruction, generation, operand) {
                    reach.adds = Some(lane.bytes);
                }
            }
        }
        reach
    }

    fn meets(&self, other: &Reach) -> bool {
        self.rows.iter().zip(&other.rows).any(|(a, b)| a & b != 0)
    }
}

/// Whether the lanes of two calls allow a swap.
fn allowed(a: &Reach, b: &Reach) -> bool {
    !a.meets(b) || (a.adds.is_some() && a.adds == b.adds)
}

/// Whether the count before two calls allows a swap: both can be taken. Where there is no count, none is needed.
fn has_room(count: Option<u64>) -> bool {
    count.is_none_or(|count| count <= u64::MAX - 2)
}

/// The count after these calls; the last one stays.
fn raised<'a>(count: Option<u64>, calls: impl Iterator<Item = &'a Reach>) -> Option<u64> {
    Some(count?.saturating_add(calls.filter(|reach| reach.raises).count() as u64))
}

/// Whether a call is done and adds floats to old Z: a sum of vecfp, or a difference of fms64.
fn adds_floats(call: Call) -> bool {
    let done = reference::normal(call.instruction, call.generation, call.operand).is_ok();
    match call.instruction {
        11 => done && matches!(call.operand >> 27 & 7, 2 | 4),
        19 => done && matches!(call.operand >> 47 & 63, 11 | 12),
        _ => false,
    }
}

/// What was swapped.
#[derive(Default)]
pub struct Swaps {
    pub chains: u64,
    pub apart: u64,
    pub adding: u64,
    pub not_allowed: u64,
    pub not_allowed_differ: u64,
    /// Of those that are not allowed, both adding floats.
    pub floats: u64,
    pub floats_differ: u64,
    pub no_room: u64,
    pub no_room_differ: u64,
}

/// Runs random lists before and after random chains.
pub fn chains(random: &mut Random, lists: u64) -> Result<Swaps, String> {
    let mut swaps = Swaps::default();
    for n in 0..lists {
        let length = if random.once_in(64) { random.below(6_000) as usize } else { STATE_LENGTH };
        // one list in four begins at one of the last counts, so that some end at the last one
        let count = draw_count(random, 24);
        let state = draw_state(random, length, count);
        let case = Case::due(state, draw_list(random, n % 2 == 0));
        chain(random, &case, &mut swaps)?;
        swaps.chains += 1;
    }
    if swaps.floats_differ == 0 {
        return Err(format!(
            "of {} pairs that add floats to the same lanes none differs when swapped, so that the rule was not tested",
            swaps.floats
        ));
    }
    Ok(swaps)
}

/// Random calls; or calls that often meet and only add, at either width, and such as add floats.
fn draw_list(random: &mut Random, adding: bool) -> Vec<Call> {
    let count = random.below(24);
    let mut draw = |_| {
        let mut call = random.call();
        if adding {
            call.operand &= match call.instruction {
                14 => !(1 << 27),
                // z - x in few rows
                11 => !(1 << 27 | 0x36 << 20),
                // z + x of singles in few rows
                19 => {
                    call.operand = put(put(call.operand, 47, 53, 11), 42, 45, 4);
                    !(7 << 54 | 15 << 27 | 0x3e << 20)
                }
                // few rows, and ALU modes 0 to 3 or an indexed load; nothing that is refused
                _ if call.operand >> 53 & 1 == 1 => !(7 << 54 | 15 << 27 | 0x3e << 20),
                _ => !(0x3fc << 47 | 15 << 27 | 0x3e << 20),
            };
        }
        call
    };
    (0..count).map(&mut draw).collect()
}

fn chain(random: &mut Random, case: &Case, swaps: &mut Swaps) -> Result<(), String> {
    let reach: Vec<Reach> = case.sent.iter().map(|sent| Reach::of(case.state.len(), sent.call)).collect();
    // the list as it is by now, by places in the list as it was
    let mut order: Vec<usize> = (0..case.sent.len()).collect();
    for _ in 0..if order.len() < 2 { 0 } else { random.below(60) } {
        let at = random.below(order.len() as u64 - 1) as usize;
        let (a, b) = (&reach[order[at]], &reach[order[at + 1]]);
        let count = raised(count_of(&case.state), order[..at].iter().map(|&place| &reach[place]));
        // pairs that are not allowed are not asked for, but they tell whether the rule allows too little
        let differs = || {
            let mut pair = Case { state: case.state.clone(), sent: vec![case.sent[order[at]], case.sent[order[at + 1]]] };
            count.into_iter().for_each(|count| set_count(&mut pair.state, count));
            u64::from(swapped_differs(&pair))
        };
        if !has_room(count) {
            swaps.no_room += 1;
            swaps.no_room_differ += differs();
        } else if allowed(a, b) {
            *(if a.meets(b) { &mut swaps.adding } else { &mut swaps.apart }) += 1;
            order.swap(at, at + 1);
        } else if swaps.not_allowed < 20_000 {
            let differ = differs();
            swaps.not_allowed += 1;
            swaps.not_allowed_differ += differ;
            if [at, at + 1].into_iter().all(|at| adds_floats(case.sent[order[at]].call)) {
                swaps.floats += 1;
                swaps.floats_differ += differ;
            }
        }
    }
    let rearranged = Case { state: case.state.clone(), sent: order.iter().map(|&place| case.sent[place]).collect() };
    let (plain, mut swapped) = (case.run(proved), rearranged.run(proved));
    put_back(&mut swapped, &order);
    if plain == swapped {
        return Ok(());
    }
    Err(report(case, &order))
}

/// The answers in the order of the list as it was.
fn put_back(end: &mut End, order: &[usize]) {
    let mut answers = vec![0; order.len()];
    order.iter().zip(&end.answers).for_each(|(&place, &answer)| answers[place] = answer);
    end.answers = answers;
}

fn both_ways(pair: &Case) -> (End, End) {
    let turned = Case { state: pair.state.clone(), sent: pair.sent.iter().rev().copied().collect() };
    let mut turned = turned.run(proved);
    turned.answers.reverse();
    (pair.run(proved), turned)
}

fn swapped_differs(pair: &Case) -> bool {
    let (plain, turned) = both_ways(pair);
    plain != turned
}

/// The smallest pair that may be swapped and differs, or the whole list where no pair alone shows it.
fn report(case: &Case, order: &[usize]) -> String {
    let fails = |pair: &Case| {
        let [Sent { call: a, .. }, Sent { call: b, .. }] = pair.sent[..] else { return false };
        let lanes_allow = allowed(&Reach::of(pair.state.len(), a), &Reach::of(pair.state.len(), b));
        lanes_allow && has_room(count_of(&pair.state)) && swapped_differs(pair)
    };
    // sorting the new order by swaps of neighbours takes back only pairs that the chain has swapped
    let mut order = order.to_vec();
    for end in (1..order.len()).rev() {
        for at in 0..end {
            if order[at] > order[at + 1] {
                let before = Case { state: case.state.clone(), sent: order[..at].iter().map(|&place| case.sent[place]).collect() };
                let pair = Case { state: before.run(proved).state, sent: vec![case.sent[order[at]], case.sent[order[at + 1]]] };
                if fails(&pair) {
                    let smallest = pair.shrink(&fails);
                    let (plain, turned) = both_ways(&smallest);
                    let found = difference(["in order", "swapped"], [&plain, &turned]);
                    return format!("an allowed swap differs; the smallest pair found:\n{}\n{found}", smallest.describe());
                }
                order.swap(at, at + 1);
            }
        }
    }
    format!("a chain of allowed swaps differs, and no pair of it alone:\n{}\n", case.describe())
}

#[cfg(test)]
mod tests {
    use super::*;

    fn reach(operand: u64) -> Reach {
        Reach::of(STATE_LENGTH, Call::new(14, 1, operand))
    }

    #[test]
    fn the_rule_has_the_edges_that_the_scope_names() {
        let (vector, wide) = (reach(1 << 63), reach(1 << 62));
        assert!(allowed(&vector, &vector) && allowed(&wide, &wide));
        // a carry breaks 16-bit and 32-bit additions to the same bytes
        assert!(!allowed(&vector, &wide));
        // skipping Z does not add
        assert!(!allowed(&vector, &reach(1 << 63 | 1 << 27)));
        assert!(allowed(&vector, &reach(1 << 63 | 1 << 27 | 1 << 20)));
        // saturating sums don't swap, and a call that is not done may be swapped with any
        let vecint = |operand| Reach::of(STATE_LENGTH, Call::new(18, 1, operand));
        assert!(!allowed(&vecint(5 << 47), &vecint(5 << 47)));
        assert!(allowed(&vecint(5 << 47), &vecint(1 << 54)));
        // an output that is forced to 0 does not add, X read as 0 does
        assert!(!allowed(&vecint(3 << 32), &vecint(0)) && allowed(&vecint(4 << 32), &vecint(0)));
        // an indexed load adds as ALU mode 0 does, whatever mode its fields read as
        for fields in 0..64 {
            assert!(allowed(&vecint(1 << 53 | fields << 47), &vecint(0)));
            assert!(!allowed(&vecint(1 << 53 | fields << 47), &vecint(3 << 42)));
            assert!(!allowed(&vecint(1 << 53 | fields << 47 | 3 << 32), &vecint(0)));
        }
        // sums of floats are rounded, so two that meet don't swap; nor do floats and integers, nor moves
        let vecfp = |operand| Reach::of(STATE_LENGTH, Call::new(19, 2, operand));
        let fms64 = |operand| Reach::of(STATE_LENGTH, Call::new(11, 2, operand));
        let (sum, difference) = (11 << 47 | 4 << 42, 1 << 63 | 1 << 28);
        assert!(!allowed(&vecfp(sum), &vecfp(sum)) && !allowed(&vecfp(sum), &vecfp(sum ^ 7 << 47)));
        assert!(!allowed(&fms64(difference), &fms64(difference)) && !allowed(&vecfp(sum), &fms64(difference)));
        assert!(!allowed(&vecfp(sum), &vector) && !allowed(&fms64(3 << 28), &fms64(3 << 28)));
        // apart, they do: other rows, other lanes, other rows of a matrix
        assert!(allowed(&vecfp(sum), &vecfp(sum | 1 << 20)) && allowed(&vecfp(sum | 1 << 32), &vecfp(sum | 2 << 32)));
        assert!(allowed(&fms64(1 << 28), &fms64(1 << 28 | 1 << 20)) && !allowed(&fms64(1 << 28), &fms64(1 << 28 | 1 << 23)));
        assert!(allowed(&vecfp(sum), &vecfp(5 << 47)));
        // on another length any two
        let short = |operand| Reach::of(STATE_LENGTH - 1, Call::new(14, 1, operand));
        assert!(allowed(&short(0), &short(1 << 62)) && has_room(None));
    }

    #[test]
    fn the_order_of_two_float_sums_shows() {
        // 2^24 - 2^24 + 1 is 1, but 2^24 + 1 is rounded to 2^24, and 2^24 - 2^24 is 0
        let mut state = vec![0; STATE_LENGTH];
        for (at, float) in [(0, -16_777_216f32), (512, 1.0), (1_024, 16_777_216.0)] {
            state[at..at + 4].copy_from_slice(&float.to_le_bytes());
        }
        let sums = [11 << 47 | 4 << 42, 12 << 47 | 4 << 42].map(|operand| Call::new(19, 2, operand));
        assert!(sums.into_iter().all(adds_floats) && swapped_differs(&Case::due(state, sums)));
        assert!(!adds_floats(Call::new(19, 1, 11 << 47 | 4 << 42)) && !adds_floats(Call::new(19, 2, 10 << 47 | 4 << 42)));
        assert!(adds_floats(Call::new(11, 1, 1 << 28)) && !adds_floats(Call::new(11, 1, 0)) && !adds_floats(Call::new(14, 1, 0)));
    }

    #[test]
    fn a_swap_needs_room_for_both_steps() {
        let (adding, no_op, refused) = (Call::new(14, 1, 1 << 63), Call::new(18, 1, 1 << 54), Call::new(15, 1, 0));
        let differs = |count, a, b| {
            let mut pair = Case::due(vec![1; STATE_LENGTH], [a, b]);
            set_count(&mut pair.state, count);
            swapped_differs(&pair)
        };
        for (count, room) in [(u64::MAX - 2, true), (u64::MAX - 1, false), (u64::MAX, false)] {
            assert_eq!(has_room(Some(count)), room);
        }
        let other = Call { operand: 1 << 63 | 64, ..adding };
        assert!(!differs(u64::MAX - 2, adding, other) && !differs(u64::MAX - 2, adding, no_op));
        // of two steps only the first is taken at 2^64 - 2, and the other is refused 9: their answers tell which
        assert!(differs(u64::MAX - 1, adding, other) && differs(u64::MAX - 1, adding, no_op));
        assert!(!differs(u64::MAX - 1, adding, refused) && !differs(u64::MAX, adding, other));
    }

    #[test]
    fn the_count_is_raised_by_what_is_not_refused() {
        let list = [Call::new(14, 1, 0), Call::new(18, 1, 1 << 54), Call::new(18, 1, 1 << 27), Call::new(15, 1, 0), Call::new(14, 0, 0)];
        let reach = |length| list.map(|call| Reach::of(length, call));
        assert_eq!(raised(Some(5), reach(STATE_LENGTH).iter()), Some(7));
        assert_eq!(raised(Some(u64::MAX - 1), reach(STATE_LENGTH).iter()), Some(u64::MAX));
        assert_eq!(raised(None, reach(STATE_LENGTH - 1).iter()), None);
    }
}
