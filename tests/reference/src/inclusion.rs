//! The one-way question: whether every sequence that is accepted from X is accepted from Y.

use crate::answers::{DIFFERENT, NOT_WITHIN, SAME, WITHIN};
use crate::pattern::Pattern;
use crate::walk::{refusal, refused, walk, Comparison};

/// The one-way question: the walk of X+Y and Y, with answers of its own.
///
/// It is refused as the comparison of X and Y is: 10, 11, 13, 12.
pub fn within(
    pattern: &Pattern,
    x: u64,
    y: u64,
    room: u64,
    list_lengths: &[u64],
    sequence_length: u64,
) -> Comparison {
    if let Err(answer) = refusal(pattern, x, y, room, list_lengths, sequence_length) {
        return refused(answer);
    }
    let walked = walk(pattern, x | y, y, room);
    let answer = match walked.answer {
        SAME => WITHIN,
        DIFFERENT => NOT_WITHIN,
        full => full,
    };
    Comparison { answer, ..walked }
}
