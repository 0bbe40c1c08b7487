//! Comparing two sets of states.

use crate::{exports, version};
use crate::{Pattern, Refused};

/// The largest room that may be asked for.
pub const MAX_ROOM: usize = 1024;

/// The room of [`compare_default`].
pub const DEFAULT_ROOM: usize = 1024;

/// A kept record: a pair of sets, and how the walk came to it.
#[derive(Clone, Copy, Debug, Default, PartialEq, Eq, Hash)]
#[repr(C)]
pub struct Record {
    /// The set reached from `x`.
    pub left: u64,
    /// The set reached from `y`.
    pub right: u64,
    /// The number of the record that this one came from; 0 for record 0.
    pub parent: u16,
    /// The letter taken from there; 0 for record 0.
    pub letter: u8,
}

/// What a comparison answers. `Records` is how the kept records are lent and given back.
#[derive(Clone, Copy, Debug, PartialEq, Eq)]
#[non_exhaustive]
pub enum Compared<'lent, Records = &'lent [Record]> {
    /// Every event sequence is accepted from both sets or from neither.
    Same {
        /// The records kept, none where `x` is `y`: evidence that [`check`](crate::check) always proves.
        records: Records,
        /// How many candidates were dealt with: one more than letters times records.
        examined: usize,
    },
    /// A sequence is accepted from exactly one of the two sets.
    Different {
        /// The records kept.
        records: Records,
        /// How many candidates were dealt with, the one that differs included.
        examined: usize,
        /// The letters of that sequence, none for the empty one.
        sequence: &'lent [u8],
    },
    /// The room ran out: nothing is known of the two sets.
    Full {
        /// The records kept, as many as the room.
        records: Records,
        /// How many candidates were dealt with, the one without room included.
        examined: usize,
    },
}

impl<Records> Compared<'_, Records> {
    /// The scope's number for it.
    pub const fn number(&self) -> u8 {
        match self {
            Compared::Same { .. } => 0,
            Compared::Different { .. } => 1,
            Compared::Full { .. } => 2,
        }
    }
}

/// The answer with the records and the sequence that were written.
fn answered<Records>(
    compared: exports::PbCompared,
    records: Records,
    sequence: &mut [u8],
) -> Result<Compared<'_, Records>, Refused> {
    let examined = compared.examined;
    match compared.answer {
        0 => Ok(Compared::Same { records, examined }),
        1 => Ok(Compared::Different {
            records,
            examined,
            sequence: &sequence[..compared.length],
        }),
        2 => Ok(Compared::Full { records, examined }),
        refusal => Err(Refused::from_answer(refusal, None)),
    }
}

/// Whether the sets `x` and `y` accept the same event sequences, with room for so many records.
///
/// `records` and `sequence` may be longer than the room; what is not given back, and all of it on a
/// refusal, keeps its content. More room never changes an answer other than FULL, unless the larger
/// call is refused. A room as large as the number of distinct sets that sequences lead to from `x`
/// or `y` never gives FULL. The refusals are, in this order, BAD-SIZE, BAD-TABLE, BAD-ROOM and
/// BAD-SET.
pub fn compare<'lent>(
    pattern: &Pattern<'_>,
    x: u64,
    y: u64,
    room: usize,
    records: &'lent mut [Record],
    sequence: &'lent mut [u8],
) -> Result<Compared<'lent>, Refused> {
    version::hold();
    // SAFETY: the rows are valid for reads, records and sequence for writes of their counts, and
    // slices that are lent for writing overlap with no other.
    let compared = unsafe {
        exports::pb_compare(
            pattern.states,
            pattern.letters,
            pattern.finals,
            pattern.rows.as_ptr(),
            pattern.rows.len(),
            x,
            y,
            room,
            records.as_mut_ptr(),
            records.len(),
            sequence.as_mut_ptr(),
            sequence.len(),
        )
    };
    let records = &records[..compared.kept];
    answered(compared, records, sequence)
}

/// The short form of [`compare`]: it takes room [`DEFAULT_ROOM`], and refuses with BAD-ROOM fewer
/// records or sequence bytes than that.
pub fn compare_default<'lent>(
    pattern: &Pattern<'_>,
    x: u64,
    y: u64,
    records: &'lent mut [Record],
    sequence: &'lent mut [u8],
) -> Result<Compared<'lent>, Refused> {
    version::hold();
    // SAFETY: as for `compare`.
    let compared = unsafe {
        exports::pb_compare_default(
            pattern.states,
            pattern.letters,
            pattern.finals,
            pattern.rows.as_ptr(),
            pattern.rows.len(),
            x,
            y,
            records.as_mut_ptr(),
            records.len(),
            sequence.as_mut_ptr(),
            sequence.len(),
        )
    };
    let records = &records[..compared.kept];
    answered(compared, records, sequence)
}

/// Memory lent for kept records column by column; the four may differ in length.
#[derive(Debug)]
pub struct Lists<'lent> {
    /// For the left sets.
    pub lefts: &'lent mut [u64],
    /// For the right sets.
    pub rights: &'lent mut [u64],
    /// For the parents.
    pub parents: &'lent mut [u16],
    /// For the letters taken.
    pub taken: &'lent mut [u8],
}

impl<'lent> Lists<'lent> {
    /// The first records of the columns.
    pub(crate) fn written(self, kept: usize) -> Columns<'lent> {
        Columns {
            lefts: &self.lefts[..kept],
            rights: &self.rights[..kept],
            parents: &self.parents[..kept],
            taken: &self.taken[..kept],
        }
    }
}

/// Kept records column by column: record i is entry i of each.
#[derive(Clone, Copy, Debug, PartialEq, Eq)]
pub struct Columns<'lent> {
    /// The left sets.
    pub lefts: &'lent [u64],
    /// The right sets.
    pub rights: &'lent [u64],
    /// The parents.
    pub parents: &'lent [u16],
    /// The letters taken.
    pub taken: &'lent [u8],
}

/// [`compare`] for a host with little stack: it has no table of its own.
pub fn compare_lists<'lent>(
    pattern: &Pattern<'_>,
    x: u64,
    y: u64,
    room: usize,
    lists: Lists<'lent>,
    sequence: &'lent mut [u8],
) -> Result<Compared<'lent, Columns<'lent>>, Refused> {
    version::hold();
    // SAFETY: as for `compare`.
    let compared = unsafe {
        exports::pb_compare_lists(
            pattern.states,
            pattern.letters,
            pattern.finals,
            pattern.rows.as_ptr(),
            pattern.rows.len(),
            x,
            y,
            room,
            lists.lefts.as_mut_ptr(),
            lists.lefts.len(),
            lists.rights.as_mut_ptr(),
            lists.rights.len(),
            lists.parents.as_mut_ptr(),
            lists.parents.len(),
            lists.taken.as_mut_ptr(),
            lists.taken.len(),
            sequence.as_mut_ptr(),
            sequence.len(),
        )
    };
    let columns = lists.written(compared.kept);
    answered(compared, columns, sequence)
}
