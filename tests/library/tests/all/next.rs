//! The set that a letter takes a set to.

use crate::draw::{all_lists, any_question, blank, pattern, EDGES};
use library::faults::{assert_refused_in_order, of_pattern, Fault};
use library::{calls, rounds::rounds};
use reference::answers::{BAD_LETTER, BAD_SET, BAD_SIZE, BAD_TABLE};
use reference::pattern::{check_shape, next, Pattern};
use reference::random::Random;

/// The library's answer, which is the reference's. Masks are not judged here.
fn assert_next(pattern: &Pattern, set: u64, letter: u8) -> Result<u64, u64> {
    let fits = u64::from(letter) < pattern.letters;
    let wanted = check_shape(pattern)
        .and_then(|()| fits.then_some(()).ok_or(BAD_LETTER))
        .map(|()| next(pattern, set, u64::from(letter)));
    let found = calls::next(pattern, set, letter);
    assert_eq!(found, wanted, "{pattern:?} {set} {letter}");
    found
}

/// Catches rows read letter by letter, a letter mixed up with another, and members
/// that are no states.
#[test]
fn every_successor_in_every_pattern_of_two_states_and_two_letters() {
    for rows in all_lists(4, 4) {
        let pattern = pattern(2, 2, 0, &rows);
        for set in (0..8).chain([1 << 63, u64::MAX]) {
            for letter in [0, 1, 2, 255] {
                let _ = assert_next(&pattern, set, letter);
            }
        }
    }
}

/// Catches a row that is looked up in the wrong place: here every row is another set.
#[test]
fn row_s_times_k_plus_a_is_reached_from_state_s_by_letter_a() {
    for (states, letters) in [(64u64, 32u8), (63, 31), (64, 1), (1, 32), (7, 5)] {
        let mut right = blank(states, letters.into());
        for (place, row) in right.rows.iter_mut().enumerate() {
            *row = place as u64 + 1;
        }
        for state in 0..states {
            for letter in 0..letters {
                let place = state * u64::from(letters) + u64::from(letter);
                let found = assert_next(&right, 1 << state, letter);
                assert_eq!(found, Ok(place + 1), "{states} {letters} {state} {letter}");
            }
        }
    }
}

/// Catches a member that is left out, the last one above all, and a union that is not one.
#[test]
fn random_sets_go_where_the_reference_says() {
    let mut random = Random::new(103);
    for _ in 0..rounds(2000) {
        let pattern = any_question(&mut random).pattern;
        for _ in 0..30 {
            let letter = random.below(pattern.letters) as u8;
            for set in [random.number(), random.set(pattern.states, 1, 8), u64::MAX] {
                assert!(assert_next(&pattern, set, letter).is_ok());
            }
        }
    }
}

/// A call of the probe.
#[derive(Clone, Debug)]
struct Call {
    pattern: Pattern,
    letter: u8,
}

/// Catches a letter that is not judged, or judged before the shape.
#[test]
fn every_fault_of_a_successor_is_refused_in_order() {
    let mut faults = of_pattern(|call: &mut Call| &mut call.pattern);
    faults.retain(|fault| fault.refusal() != BAD_SET);
    faults.push(Fault::new("letter k", BAD_LETTER, |call: &mut Call| {
        call.letter = call.pattern.letters.min(255) as u8;
    }));
    faults.push(Fault::new("letter 255", BAD_LETTER, |call: &mut Call| {
        call.letter = 255;
    }));
    let order = [BAD_SIZE, BAD_TABLE, BAD_LETTER];
    for (pattern, letter) in [(blank(3, 1), 0), (blank(64, 32), 31)] {
        let right = Call { pattern, letter };
        assert_refused_in_order(&right, &faults, &order, |call| {
            assert_next(&call.pattern, u64::MAX, call.letter)
                .err()
                .unwrap_or(0)
        });
    }
}

/// Catches rows that are looked at before the shape is known to be right.
#[test]
fn no_size_leads_beyond_the_rows_that_are_lent() {
    for states in EDGES {
        for letters in EDGES {
            for rows in [0, 1, 2, 64, 2048] {
                let pattern = pattern(states, letters, 0, &vec![u64::MAX; rows]);
                for letter in [0, 31, 32, 255] {
                    let _ = assert_next(&pattern, u64::MAX, letter);
                }
            }
        }
    }
}
