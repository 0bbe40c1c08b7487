//! What is against a pattern: its size, its rows, its masks.

use crate::draw::{any_question, blank, pattern, EDGES};
use library::calls::check_pattern;
use library::faults::{assert_refused_in_order, of_pattern};
use library::rounds::rounds;
use reference::answers::{BAD_SET, BAD_SIZE, BAD_TABLE};
use reference::pattern::{check, Pattern};
use reference::random::Random;

/// The library's answer, which is the reference's.
fn refusal(pattern: &Pattern) -> u64 {
    let found = check_pattern(pattern);
    assert_eq!(found, check(pattern), "{pattern:?}");
    found.err().unwrap_or(0)
}

/// Catches a range that is one off, a mask that is not looked at, and 10, 11, 12 out of order.
#[test]
fn every_fault_of_a_pattern_is_refused_in_order() {
    let order = [BAD_SIZE, BAD_TABLE, BAD_SET];
    for right in [blank(3, 1), blank(62, 32), pattern(2, 3, 3, &[3; 6])] {
        assert_refused_in_order(&right, &of_pattern(|p| p), &order, refusal);
    }
}

/// Catches a product of n and k that is formed, and wraps, before the size is judged.
#[test]
fn n_and_k_may_be_any_number_of_64_bits() {
    for states in EDGES {
        for letters in EDGES {
            for rows in [0, 1, 2, 64, 2048, 2049] {
                refusal(&pattern(states, letters, u64::MAX, &vec![0; rows]));
            }
            let product = states.wrapping_mul(letters);
            if product <= 4096 {
                refusal(&pattern(states, letters, 0, &vec![0; product as usize]));
            }
        }
    }
}

/// Catches a shift by 64, a range of masks that is one bit off, and a mask that is
/// looked at only when it is reached.
#[test]
fn a_mask_with_bit_n_or_bit_63_is_bad_wherever_it_stands() {
    for states in 1..=64 {
        let right = blank(states, 2);
        let last = 1 << (states - 1);
        let beyond = [states, 63]
            .into_iter()
            .filter(|bit| *bit >= states && *bit < 64);
        let bad: Vec<u64> = beyond.map(|bit| 1 << bit).collect();
        for place in 0..=right.rows.len() {
            let with = |mask| {
                let mut pattern = right.clone();
                let masks = std::iter::once(&mut pattern.finals).chain(&mut pattern.rows);
                *masks.into_iter().nth(place).expect("a mask") = mask;
                pattern
            };
            assert_eq!(refusal(&with(last)), 0, "{states} states, mask {place}");
            for mask in &bad {
                assert_eq!(
                    refusal(&with(*mask)),
                    BAD_SET,
                    "{states} states, mask {place}"
                );
                assert_eq!(refusal(&with(*mask | last)), BAD_SET);
            }
        }
    }
}

/// Catches a right pattern that is refused, and a bad mask among many right ones that is let pass.
#[test]
fn random_patterns_are_refused_as_the_reference_does() {
    let mut random = Random::new(102);
    let mut seen = [0; 2];
    for _ in 0..rounds(4000) {
        let mut pattern = any_question(&mut random).pattern;
        assert_eq!(refusal(&pattern), 0);
        let place = random.below(pattern.rows.len() as u64) as usize;
        pattern.rows[place] |= 1 << random.below(64);
        seen[usize::from(refusal(&pattern) == BAD_SET)] += 1;
    }
    assert!(seen.iter().all(|count| *count > 200), "{seen:?}");
}
