//! Patterns: their shape, their sets, the successor of a set and the empty sequence.

use crate::answers::{BAD_SET, BAD_SIZE, BAD_TABLE};
use std::ops::Range;

/// The most states a pattern may have.
pub const MAX_STATES: u64 = 64;

/// The most letters a pattern may have.
pub const MAX_LETTERS: u64 = 32;

/// A pattern as it is lent: nothing is promised about its numbers.
#[derive(Clone, Debug, Default, PartialEq, Eq)]
pub struct Pattern {
    /// n, the number of states.
    pub states: u64,
    /// k, the number of letters.
    pub letters: u64,
    /// The mask of the final states.
    pub finals: u64,
    /// Row s*k+a is the set reached from state s by letter a.
    pub rows: Vec<u64>,
}

/// The set of all states; with 64 states or more no bit is left out.
pub fn all_states(states: u64) -> u64 {
    if states >= MAX_STATES {
        u64::MAX
    } else {
        (1 << states) - 1
    }
}

/// The letters in rising order; none that no pattern can have.
pub fn letters(pattern: &Pattern) -> Range<u64> {
    0..pattern.letters.min(MAX_LETTERS)
}

/// Whether n and k are in their ranges, else BAD-SIZE.
pub fn check_size(states: u64, letters: u64) -> Result<(), u64> {
    let fits = (1..=MAX_STATES).contains(&states) && (1..=MAX_LETTERS).contains(&letters);
    fits.then_some(()).ok_or(BAD_SIZE)
}

/// Size and number of rows, else BAD-SIZE or BAD-TABLE.
pub fn check_shape(pattern: &Pattern) -> Result<(), u64> {
    check_size(pattern.states, pattern.letters)?;
    let fits = pattern.rows.len() as u64 == pattern.states * pattern.letters;
    fits.then_some(()).ok_or(BAD_TABLE)
}

/// The pattern's own masks and the given sets, else BAD-SET.
pub fn check_sets(pattern: &Pattern, given: impl IntoIterator<Item = u64>) -> Result<(), u64> {
    let all = all_states(pattern.states);
    let fits = std::iter::once(pattern.finals)
        .chain(pattern.rows.iter().copied())
        .chain(given)
        .all(|set| set & !all == 0);
    fits.then_some(()).ok_or(BAD_SET)
}

/// The first refusal that the pattern alone gives: 10, 11 or 12.
pub fn check(pattern: &Pattern) -> Result<(), u64> {
    check_shape(pattern)?;
    check_sets(pattern, [])
}

/// The row of a state and a letter; empty where the pattern has none.
fn row(pattern: &Pattern, state: u64, letter: u64) -> u64 {
    let number = state
        .checked_mul(pattern.letters)
        .and_then(|first| first.checked_add(letter))
        .and_then(|number| usize::try_from(number).ok());
    number
        .filter(|_| letter < pattern.letters)
        .and_then(|number| pattern.rows.get(number).copied())
        .unwrap_or(0)
}

/// The set that a letter takes a set to: the union of the rows of its members.
pub fn next(pattern: &Pattern, set: u64, letter: u64) -> u64 {
    (0..MAX_STATES)
        .filter(|state| set >> state & 1 == 1)
        .fold(0, |union, state| union | row(pattern, state, letter))
}

/// Whether a set accepts the empty sequence: it meets the finals.
pub fn accepts(pattern: &Pattern, set: u64) -> bool {
    set & pattern.finals != 0
}
