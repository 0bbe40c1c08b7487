//! What several tests draw their questions from.

use reference::pattern::{Pattern, MAX_LETTERS, MAX_STATES};
use reference::questions::{question, Question};
use reference::random::Random;

/// Numbers at the ends of all ranges that the scope has, and of 64 bits.
pub const EDGES: [u64; 13] = [
    0,
    1,
    2,
    31,
    32,
    33,
    63,
    64,
    65,
    1 << 32,
    1 << 63,
    u64::MAX - 1,
    u64::MAX,
];

/// A number of states and of letters: any, and the greatest in every fourth case.
pub fn sizes(random: &mut Random) -> (u64, u64) {
    let mut size = |most| match random.chance(1, 4) {
        true => most,
        false => random.between(1, most),
    };
    (size(MAX_STATES), size(MAX_LETTERS))
}

/// A random question of any size.
pub fn any_question(random: &mut Random) -> Question {
    let (states, letters) = sizes(random);
    question(random, states, letters)
}

/// A random question of few states and letters.
pub fn small_question(random: &mut Random) -> Question {
    let (states, letters) = (random.between(1, 9), random.between(1, 3));
    question(random, states, letters)
}

/// A pattern from its numbers.
pub fn pattern(states: u64, letters: u64, finals: u64, rows: &[u64]) -> Pattern {
    Pattern {
        states,
        letters,
        finals,
        rows: rows.to_vec(),
    }
}

/// A pattern whose rows and finals are all empty.
pub fn blank(states: u64, letters: u64) -> Pattern {
    pattern(states, letters, 0, &vec![0; (states * letters) as usize])
}

/// Every list of numbers below a bound, of one length.
pub fn all_lists(bound: u64, length: u32) -> impl Iterator<Item = Vec<u64>> {
    (0..bound.pow(length)).map(move |number| {
        (0..length)
            .map(|place| number / bound.pow(place) % bound)
            .collect()
    })
}

/// Every sequence of letters below a bound, up to a length.
pub fn all_sequences(bound: u64, most: u32) -> Vec<Vec<u8>> {
    let narrow = |list: Vec<u64>| list.into_iter().map(|letter| letter as u8).collect();
    (0..=most)
        .flat_map(|length| all_lists(bound, length).map(narrow))
        .collect()
}
