//! Sets of states: union, inclusion, meeting, the set of one state.

use crate::draw::{all_lists, EDGES};
use library::{calls, probes, rounds::rounds};
use reference::answers::BAD_SET;
use reference::random::Random;

/// The states of a set, one by one.
fn states(set: u64) -> Vec<u32> {
    (0..64).filter(|state| set >> state & 1 == 1).collect()
}

fn assert_by_states(a: u64, b: u64) {
    let (of_a, of_b) = (states(a), states(b));
    let both: Vec<u32> = (0..64)
        .filter(|state| of_a.contains(state) || of_b.contains(state))
        .collect();
    assert_eq!(states(probes::union(a, b)), both, "{a} {b}");
    let within = of_a.iter().all(|state| of_b.contains(state));
    assert_eq!(probes::within(a, b), within, "{a} {b}");
    let meets = of_a.iter().any(|state| of_b.contains(state));
    assert_eq!(probes::meets(a, b), meets, "{a} {b}");
}

/// Catches inclusion the wrong way round, and the empty set treated as a case of its own.
#[test]
fn small_sets_are_dealt_with_state_by_state() {
    for sets in all_lists(16, 2) {
        assert_by_states(sets[0], sets[1]);
    }
}

/// Catches a mask that is cut to fewer than 64 bits on its way.
#[test]
fn sets_of_any_64_bits_are_dealt_with_state_by_state() {
    for a in EDGES {
        for b in EDGES {
            assert_by_states(a, b);
        }
    }
    let mut random = Random::new(101);
    for _ in 0..rounds(2000) {
        let a = random.number();
        let mask = random.number();
        for b in [mask, a & mask, a | mask, !a, !a & mask] {
            assert_by_states(a, b);
            assert_by_states(b, a);
        }
    }
}

/// Catches a shift by 64 or more, and state 63 refused.
#[test]
fn the_set_of_one_state_is_one_bit() {
    for state in 0..64 {
        assert_eq!(calls::single(state), Ok(1 << state));
    }
    for state in EDGES.into_iter().filter(|state| *state > 63) {
        assert_eq!(calls::single(state), Err(BAD_SET), "{state}");
    }
}
