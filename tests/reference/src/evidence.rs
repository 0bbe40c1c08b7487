//! The check of a list of pairs that somebody else offers as evidence.

use crate::answers::{BAD_LIST, NOT_PROVED, PROVED};
use crate::congruence::{congruent, Pair};
use crate::pattern::{accepts, check_sets, check_shape, letters, next, Pattern};

/// The most pairs that evidence may have.
pub const MAX_PAIRS: usize = 1024;

/// What the check returns.
#[derive(Clone, Copy, Debug, Default, PartialEq, Eq)]
pub struct Check {
    /// PROVED, NOT-PROVED or a refusal.
    pub answer: u64,
    /// On NOT-PROVED the lowest failing pair, or the number of pairs; else 0.
    pub place: u64,
}

/// The check; refusals come in the order 10, 11, 16, 12.
pub fn check(pattern: &Pattern, x: u64, y: u64, lefts: &[u64], rights: &[u64]) -> Check {
    let sides = lefts.iter().chain(rights).copied();
    let refusal = check_shape(pattern)
        .and_then(|()| check_list(lefts, rights))
        .and_then(|()| check_sets(pattern, [x, y].into_iter().chain(sides)));
    if let Err(answer) = refusal {
        return Check { answer, place: 0 };
    }
    let pairs: Vec<Pair> = lefts.iter().copied().zip(rights.iter().copied()).collect();
    match fault(pattern, (x, y), &pairs) {
        None => Check {
            answer: PROVED,
            place: 0,
        },
        Some(place) => Check {
            answer: NOT_PROVED,
            place: place as u64,
        },
    }
}

pub(crate) fn check_list(lefts: &[u64], rights: &[u64]) -> Result<(), u64> {
    let fits = lefts.len() == rights.len() && lefts.len() <= MAX_PAIRS;
    fits.then_some(()).ok_or(BAD_LIST)
}

/// The place of the fault: the starting pair, which has to follow from the list, is looked at before the listed ones.
fn fault(pattern: &Pattern, (x, y): Pair, pairs: &[Pair]) -> Option<usize> {
    if !congruent(x, y, pairs) {
        return Some(pairs.len());
    }
    pairs.iter().position(|&pair| !holds(pattern, pair, pairs))
}

/// Whether a pair agrees on the empty sequence and has successors congruent by the list.
fn holds(pattern: &Pattern, (left, right): Pair, pairs: &[Pair]) -> bool {
    accepts(pattern, left) == accepts(pattern, right)
        && letters(pattern).all(|letter| {
            congruent(
                next(pattern, left, letter),
                next(pattern, right, letter),
                pairs,
            )
        })
}
