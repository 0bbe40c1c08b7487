//! The one-way question: whether a set accepts only what another one accepts.

use crate::{exports, version};
use crate::{Columns, Lists, Pattern, Record, Refused};

/// What the one-way question answers. `Records` is how the kept records are lent and given back.
#[derive(Clone, Copy, Debug, PartialEq, Eq)]
#[non_exhaustive]
pub enum Inclusion<'lent, Records = &'lent [Record]> {
    /// Every event sequence that is accepted from `x` is accepted from `y`.
    Within {
        /// The records kept: evidence that [`check`](crate::check) proves of `x | y` and `y`,
        /// also where there are none.
        records: Records,
        /// How many candidates were dealt with: one more than letters times records.
        examined: usize,
    },
    /// A sequence is accepted from `x` and not from `y`.
    NotWithin {
        /// The records kept.
        records: Records,
        /// How many candidates were dealt with, the one that differs included.
        examined: usize,
        /// The letters of that sequence, none for the empty one.
        sequence: &'lent [u8],
    },
    /// The room ran out: nothing is known of the two sets.
    Full {
        /// The records kept, as many as the room.
        records: Records,
        /// How many candidates were dealt with, the one without room included.
        examined: usize,
    },
}

impl<Records> Inclusion<'_, Records> {
    /// The scope's number for it.
    pub const fn number(&self) -> u8 {
        match self {
            Inclusion::Within { .. } => 8,
            Inclusion::NotWithin { .. } => 9,
            Inclusion::Full { .. } => 2,
        }
    }
}

/// The answer with the records and the sequence that were written.
fn answered<Records>(
    compared: exports::PbCompared,
    records: Records,
    sequence: &mut [u8],
) -> Result<Inclusion<'_, Records>, Refused> {
    let examined = compared.examined;
    match compared.answer {
        8 => Ok(Inclusion::Within { records, examined }),
        9 => Ok(Inclusion::NotWithin {
            records,
            examined,
            sequence: &sequence[..compared.length],
        }),
        2 => Ok(Inclusion::Full { records, examined }),
        refusal => Err(Refused::from_answer(refusal, None)),
    }
}

/// Whether every event sequence that is accepted from the set `x` is accepted from `y`, with room for
/// so many records.
///
/// It is the comparison of `x | y` with `y`, and the records are of those two. What is lent, and what
/// of it is written, is as for [`compare`](crate::compare). More room never changes an answer other
/// than FULL, unless the larger call is refused. A room as large as the number of distinct sets that
/// sequences lead to from `x | y` or `y` never gives FULL. The refusals are those of the comparison of
/// `x` and `y`: in this order, BAD-SIZE, BAD-TABLE, BAD-ROOM and BAD-SET.
pub fn within<'lent>(
    pattern: &Pattern<'_>,
    x: u64,
    y: u64,
    room: usize,
    records: &'lent mut [Record],
    sequence: &'lent mut [u8],
) -> Result<Inclusion<'lent>, Refused> {
    version::hold();
    // SAFETY: the rows are valid for reads, records and sequence for writes of their counts, and
    // slices that are lent for writing overlap with no other.
    let compared = unsafe {
        exports::pb_within(
            pattern.states,
            pattern.letters,
            pattern.finals,
            pattern.rows.as_ptr(),
            pattern.rows.len(),
            x,
            y,
            room,
            records.as_mut_ptr(),
            records.len(),
            sequence.as_mut_ptr(),
            sequence.len(),
        )
    };
    let records = &records[..compared.kept];
    answered(compared, records, sequence)
}

/// [`within`] for a host with little stack: it has no table of its own.
pub fn within_lists<'lent>(
    pattern: &Pattern<'_>,
    x: u64,
    y: u64,
    room: usize,
    lists: Lists<'lent>,
    sequence: &'lent mut [u8],
) -> Result<Inclusion<'lent, Columns<'lent>>, Refused> {
    version::hold();
    // SAFETY: as for `within`.
    let compared = unsafe {
        exports::pb_within_lists(
            pattern.states,
            pattern.letters,
            pattern.finals,
            pattern.rows.as_ptr(),
            pattern.rows.len(),
            x,
            y,
            room,
            lists.lefts.as_mut_ptr(),
            lists.lefts.len(),
            lists.rights.as_mut_ptr(),
            lists.rights.len(),
            lists.parents.as_mut_ptr(),
            lists.parents.len(),
            lists.taken.as_mut_ptr(),
            lists.taken.len(),
            sequence.as_mut_ptr(),
            sequence.len(),
        )
    };
    let columns = lists.written(compared.kept);
    answered(compared, columns, sequence)
}
