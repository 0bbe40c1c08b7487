//! One sequence judged from one set.

use crate::answers::{ACCEPT, BAD_LETTER, REJECT};
use crate::pattern::{accepts, check_sets, check_shape, next, Pattern};

/// ACCEPT or REJECT, or the refusals 10, 11, 12, 15 in that order.
pub fn judge(pattern: &Pattern, set: u64, sequence: &[u8]) -> u64 {
    match check_question(pattern, set, sequence) {
        Err(refusal) => refusal,
        Ok(()) if accepts(pattern, reached(pattern, set, sequence)) => ACCEPT,
        Ok(()) => REJECT,
    }
}

fn check_question(pattern: &Pattern, set: u64, sequence: &[u8]) -> Result<(), u64> {
    check_shape(pattern)?;
    check_sets(pattern, [set])?;
    let fits = sequence
        .iter()
        .all(|&letter| u64::from(letter) < pattern.letters);
    fits.then_some(()).ok_or(BAD_LETTER)
}

/// The set that a sequence takes a set to.
pub fn reached(pattern: &Pattern, set: u64, sequence: &[u8]) -> u64 {
    sequence
        .iter()
        .fold(set, |set, &letter| next(pattern, set, u64::from(letter)))
}
