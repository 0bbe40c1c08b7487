//! Judging one event sequence from one set of states.

use crate::{exports, version};
use crate::{Pattern, Refused};

/// What [`judge`] answers.
#[derive(Clone, Copy, Debug, PartialEq, Eq)]
#[non_exhaustive]
pub enum Judged {
    /// The sequence is accepted from the set.
    Accept,
    /// The sequence is not accepted from the set.
    Reject,
}

impl Judged {
    /// The scope's number for it.
    pub const fn number(self) -> u8 {
        match self {
            Judged::Accept => 3,
            Judged::Reject => 4,
        }
    }
}

/// Whether a sequence of letters is accepted from a set of states.
///
/// A set accepts the empty sequence if it meets the finals. A letter takes a set to the union of
/// the rows of its members. The refusals are, in this order, BAD-SIZE, BAD-TABLE, BAD-SET and
/// BAD-LETTER.
pub fn judge(pattern: &Pattern<'_>, set: u64, sequence: &[u8]) -> Result<Judged, Refused> {
    version::hold();
    // SAFETY: both slices are valid for reads of their counts, and the call only reads them.
    let judged = unsafe {
        exports::pb_judge(
            pattern.states,
            pattern.letters,
            pattern.finals,
            pattern.rows.as_ptr(),
            pattern.rows.len(),
            set,
            sequence.as_ptr(),
            sequence.len(),
        )
    };
    match judged.answer {
        3 => Ok(Judged::Accept),
        4 => Ok(Judged::Reject),
        refusal => Err(Refused::from_answer(refusal, None)),
    }
}
