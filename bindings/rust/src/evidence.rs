//! Checking a list of pairs that somebody else offers as evidence.

use crate::{exports, version};
use crate::{Pattern, Record, Refused};

/// The most pairs that evidence may have.
pub const MAX_PAIRS: usize = 1024;

/// What [`check`] answers.
#[derive(Clone, Copy, Debug, PartialEq, Eq)]
#[non_exhaustive]
pub enum Checked {
    /// The evidence holds: both sets accept the same sequences, whoever wrote the list.
    Proved,
    /// The evidence does not hold. That does not mean that the languages differ.
    NotProved {
        /// The number of pairs if the two sets do not follow from the list, else the lowest failing pair.
        place: usize,
    },
}

impl Checked {
    /// The scope's number for it.
    pub const fn number(self) -> u8 {
        match self {
            Checked::Proved => 5,
            Checked::NotProved { .. } => 6,
        }
    }
}

/// Checks a list of pairs as evidence that the sets `x` and `y` accept the same sequences. Pair i
/// is `lefts[i]` and `rights[i]`.
///
/// The evidence holds exactly when `x` and `y` are congruent by the list, and each pair agrees on
/// the empty sequence and has, for each letter, successors congruent by the list. Two sets are
/// congruent by a list where they are equal or listed, either way round, or are led to by these in
/// chains and unions; so no pairs at all show that a set is the same as itself. The refusals are, in
/// this order, BAD-SIZE, BAD-TABLE, BAD-LIST and BAD-SET.
pub fn check(
    pattern: &Pattern<'_>,
    x: u64,
    y: u64,
    lefts: &[u64],
    rights: &[u64],
) -> Result<Checked, Refused> {
    version::hold();
    // SAFETY: all three slices are valid for reads of their counts, and the call only reads them.
    let checked = unsafe {
        exports::pb_check(
            pattern.states,
            pattern.letters,
            pattern.finals,
            pattern.rows.as_ptr(),
            pattern.rows.len(),
            x,
            y,
            lefts.as_ptr(),
            lefts.len(),
            rights.as_ptr(),
            rights.len(),
        )
    };
    answered(checked)
}

/// [`check`] of the pairs of a list of records, as a comparison leaves it. Parents and letters are
/// not looked at.
pub fn check_records(
    pattern: &Pattern<'_>,
    x: u64,
    y: u64,
    records: &[Record],
) -> Result<Checked, Refused> {
    version::hold();
    // SAFETY: both slices are valid for reads of their counts, and the call only reads them.
    let checked = unsafe {
        exports::pb_check_records(
            pattern.states,
            pattern.letters,
            pattern.finals,
            pattern.rows.as_ptr(),
            pattern.rows.len(),
            x,
            y,
            records.as_ptr(),
            records.len(),
        )
    };
    answered(checked)
}

fn answered(checked: exports::PbChecked) -> Result<Checked, Refused> {
    match checked.answer {
        5 => Ok(Checked::Proved),
        6 => Ok(Checked::NotProved {
            place: checked.place,
        }),
        refusal => Err(Refused::from_answer(refusal, None)),
    }
}
