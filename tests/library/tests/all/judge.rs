//! One sequence judged from one set.

use crate::draw::{all_lists, all_sequences, any_question, blank, pattern, EDGES};
use library::faults::{assert_refused_in_order, beyond, of_pattern, Fault};
use library::{calls, cases, rounds::rounds};
use reference::answers::*;
use reference::judge::judge;
use reference::pattern::Pattern;
use reference::random::Random;

/// The library's answer, which is the reference's.
fn assert_judged(pattern: &Pattern, set: u64, sequence: &[u8]) -> u64 {
    let found = calls::judge(pattern, set, sequence);
    let wanted = judge(pattern, set, sequence);
    assert_eq!(found, wanted, "{pattern:?} {set} {sequence:?}");
    found
}

/// Catches what the file says of each case.
#[test]
fn the_named_questions_are_judged_as_they_should() {
    let keys = ["pattern", "set", "sequence", "answer"];
    for case in cases::load("judge.txt", &keys, &[]) {
        let (pattern, sequence) = (case.pattern("pattern"), case.letters("sequence"));
        let found = assert_judged(&pattern, case.number("set"), &sequence);
        assert_eq!(found, case.answer("answer"), "{}", case.name);
    }
}

/// Catches anything wrong that one letter can show, bad masks and letters among it.
#[test]
fn every_question_over_two_states_and_one_letter() {
    let sequences = all_sequences(2, 3);
    for masks in all_lists(8, 4) {
        let pattern = pattern(2, 1, masks[0], &masks[1..3]);
        for sequence in &sequences {
            assert_judged(&pattern, masks[3], sequence);
        }
    }
}

/// Catches rows read letter by letter, and letters taken in the wrong order.
#[test]
fn every_question_over_two_states_and_two_letters() {
    let sequences = all_sequences(2, 4);
    for masks in all_lists(4, 6) {
        let pattern = pattern(2, 2, masks[0], &masks[1..5]);
        for sequence in &sequences {
            assert_judged(&pattern, masks[5], sequence);
        }
    }
}

/// Catches what needs many states, many letters or a long sequence.
#[test]
fn random_sequences_are_judged_as_the_reference_does() {
    let mut random = Random::new(105);
    let mut counts = [0; 2];
    for _ in 0..rounds(4000) {
        let question = any_question(&mut random);
        let pattern = &question.pattern;
        for _ in 0..20 {
            let length = random.below(12);
            let mut letter = || random.below(pattern.letters) as u8;
            let sequence: Vec<u8> = (0..length).map(|_| letter()).collect();
            let set = *random.pick(&[question.x, question.y]).expect("two starts");
            let answer = assert_judged(pattern, set, &sequence);
            counts[usize::from(answer == ACCEPT)] += 1;
        }
    }
    assert!(counts.iter().all(|count| *count > 3000), "{counts:?}");
}

/// Catches a length that is held in a byte, and a sequence judged only in its first part.
#[test]
fn a_sequence_may_be_as_long_as_it_likes() {
    // The letter takes each state to the next, and the last to the first.
    let ring: Vec<u64> = (0..64).map(|state| 1 << ((state + 1) % 64)).collect();
    let ring = pattern(64, 1, 1, &ring);
    for length in [0usize, 1, 63, 64, 255, 256, 65_535, 65_536, 100_000] {
        let wanted = if length % 64 == 0 { ACCEPT } else { REJECT };
        let mut sequence = vec![0; length];
        assert_eq!(assert_judged(&ring, 1, &sequence), wanted, "{length}");
        if let Some(last) = sequence.last_mut() {
            *last = 1;
            assert_eq!(assert_judged(&ring, 1, &sequence), BAD_LETTER, "{length}");
        }
    }
}

/// A call of the judge.
#[derive(Clone, Debug)]
struct Call {
    pattern: Pattern,
    set: u64,
    sequence: Vec<u8>,
}

fn letter_k(call: &Call) -> u8 {
    call.pattern.letters.min(255) as u8
}

/// Catches a fault that is not looked at, or that is looked at too early or too
/// late: 10, 11, 12, 15 is the order.
#[test]
fn every_fault_of_a_judging_is_refused_in_order() {
    let mut faults = of_pattern(|call: &mut Call| &mut call.pattern);
    faults.extend([
        Fault::new("bit n in the set", BAD_SET, |call: &mut Call| {
            call.set |= beyond(&call.pattern)
        }),
        Fault::new("bit 63 in the set", BAD_SET, |call: &mut Call| {
            call.set |= 1 << 63
        }),
        Fault::new("letter k first", BAD_LETTER, |call: &mut Call| {
            call.sequence[0] = letter_k(call);
        }),
        Fault::new("letter k last", BAD_LETTER, |call: &mut Call| {
            call.sequence.push(letter_k(call));
        }),
        Fault::new("letter 255", BAD_LETTER, |call: &mut Call| {
            call.sequence.push(255)
        }),
    ]);
    let order = [BAD_SIZE, BAD_TABLE, BAD_SET, BAD_LETTER];
    for (pattern, letter) in [(blank(3, 1), 0), (blank(62, 32), 31)] {
        let (set, sequence) = (1, vec![letter; 4]);
        let right = Call {
            pattern,
            set,
            sequence,
        };
        assert_refused_in_order(&right, &faults, &order, |call| {
            assert_judged(&call.pattern, call.set, &call.sequence)
        });
    }
}

/// Catches a product of n and k that is formed before the size is judged, and rows
/// that are looked at before their number is known to be right.
#[test]
fn n_and_k_may_be_any_number_of_64_bits() {
    for states in EDGES {
        for letters in EDGES {
            for rows in [0, 1, 2, 64, 2048] {
                let pattern = pattern(states, letters, 0, &vec![0; rows]);
                for set in EDGES {
                    assert_judged(&pattern, set, &[0, 31, 255]);
                }
            }
        }
    }
}

/// Catches a set with a bit that is no state let pass, or the last state refused, at any n.
#[test]
fn the_judged_set_may_have_the_states_of_the_pattern_only() {
    for states in 1..=64 {
        let right = blank(states, 1);
        for bit in 0..64 {
            let wanted = if bit < states { REJECT } else { BAD_SET };
            assert_eq!(
                assert_judged(&right, 1 << bit, &[]),
                wanted,
                "{states} {bit}"
            );
        }
    }
}

/// Catches a sequence that is judged only as far as it is needed: from the empty
/// set nothing is accepted, and still every letter counts.
#[test]
fn a_bad_letter_is_found_wherever_it_stands() {
    for letters in [1u64, 2, 31, 32] {
        let right = blank(1, letters);
        for place in 0..40 {
            let mut sequence = vec![letters as u8 - 1; 40];
            assert_eq!(assert_judged(&right, 0, &sequence), REJECT);
            sequence[place] = letters as u8;
            assert_eq!(assert_judged(&right, 0, &sequence), BAD_LETTER, "{place}");
        }
    }
}
