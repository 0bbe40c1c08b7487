//! Pattern files, read and written.

use crate::{exports, version};
use crate::{Pattern, Refused, MAX_LETTERS, MAX_STATES};

/// As many rows as any pattern file has: a row buffer of this length is always long enough.
pub const MAX_ROWS: usize = MAX_STATES * MAX_LETTERS;

/// The length of the longest pattern file.
pub const LONGEST_FILE: usize = 20_512;

/// What [`read_pattern`] has read.
#[derive(Clone, Copy, Debug, PartialEq, Eq)]
#[non_exhaustive]
pub struct PatternRead<'rows> {
    /// The file's pattern; its rows are the first ones of the buffer lent.
    pub pattern: Pattern<'rows>,
    /// The file's X.
    pub x: u64,
    /// The file's Y.
    pub y: u64,
}

/// Reads a pattern file. Its rows are written into `rows`, which may be longer than the pattern
/// needs: [`MAX_ROWS`] are always enough. What is not written, and all of it on a refusal, keeps
/// its content.
///
/// The first fault by place decides, and the error has its [`place`](Refused::place). The refusals
/// are BAD-SIZE, BAD-SET, NO-ROOM, CUT, PADDED, TAIL and TOO-BIG.
pub fn read_pattern<'rows>(
    bytes: &[u8],
    rows: &'rows mut [u64],
) -> Result<PatternRead<'rows>, Refused> {
    version::hold();
    // SAFETY: the bytes are valid for reads and the rows for writes of their counts, and a shared
    // and a unique slice do not overlap.
    let read = unsafe {
        exports::pb_read_pattern(bytes.as_ptr(), bytes.len(), rows.as_mut_ptr(), rows.len())
    };
    match read.answer {
        7 => Ok(PatternRead {
            pattern: Pattern {
                states: read.states,
                letters: read.letters,
                finals: read.finals,
                rows: &rows[..read.states * read.letters],
            },
            x: read.x,
            y: read.y,
        }),
        refusal => Err(Refused::from_answer(refusal, Some(read.place))),
    }
}

/// Writes the pattern file of a pattern and the sets `x` and `y` to the first of `bytes`, which may
/// be longer than the file: [`LONGEST_FILE`] are always enough. What is not written, and all of it
/// on a refusal, keeps its content. It answers how many bytes the file has.
///
/// The refusals are, in this order, BAD-SIZE, BAD-TABLE, BAD-SET and NO-ROOM.
pub fn write_pattern(
    pattern: &Pattern<'_>,
    x: u64,
    y: u64,
    bytes: &mut [u8],
) -> Result<usize, Refused> {
    version::hold();
    // SAFETY: the rows are valid for reads and the bytes for writes of their counts, and a shared
    // and a unique slice do not overlap.
    let written = unsafe {
        exports::pb_write_pattern(
            pattern.states,
            pattern.letters,
            pattern.finals,
            pattern.rows.as_ptr(),
            pattern.rows.len(),
            x,
            y,
            bytes.as_mut_ptr(),
            bytes.len(),
        )
    };
    match written.answer {
        7 => Ok(written.count),
        refusal => Err(Refused::from_answer(refusal, None)),
    }
}
