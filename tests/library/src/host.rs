//! The exports that hosts call, with the numbers that a C host sees.

use reference::pattern::Pattern;
use reference::questions::Question;

/// A record as it is lent: all its 24 bytes, those that no field has among them.
pub type RecordBytes = [u64; 3];

/// The answer to a comparison, and to the one-way question.
#[repr(C)]
#[derive(Clone, Copy, Debug, PartialEq, Eq)]
pub struct PbCompared {
    /// SAME, DIFFERENT, FULL, WITHIN, NOT-WITHIN or a refusal; all else is 0 on a refusal.
    pub answer: u8,
    /// The number of records kept.
    pub kept: usize,
    /// The number of candidates dealt with.
    pub examined: usize,
    /// The number of sequence bytes.
    pub length: usize,
}

/// The answer to `pb_judge`.
#[repr(C)]
#[derive(Clone, Copy, Debug, PartialEq, Eq)]
pub struct PbJudged {
    /// ACCEPT, REJECT or a refusal.
    pub answer: u8,
}

/// The answer to `pb_check`.
#[repr(C)]
#[derive(Clone, Copy, Debug, PartialEq, Eq)]
pub struct PbChecked {
    /// PROVED, NOT-PROVED or a refusal.
    pub answer: u8,
    /// On NOT-PROVED the place, else 0.
    pub place: usize,
}

/// The answer to `pb_read_pattern`.
#[repr(C)]
#[derive(Clone, Copy, Debug, PartialEq, Eq)]
pub struct PbPattern {
    /// DONE or a refusal; all else but the place is 0 on a refusal.
    pub answer: u8,
    /// n.
    pub states: usize,
    /// k.
    pub letters: usize,
    /// The finals.
    pub finals: u64,
    /// X.
    pub x: u64,
    /// Y.
    pub y: u64,
    /// The place of the fault, 0 on DONE.
    pub place: usize,
}

/// The answer to `pb_write_pattern`.
#[repr(C)]
#[derive(Clone, Copy, Debug, PartialEq, Eq)]
pub struct PbWritten {
    /// DONE or a refusal.
    pub answer: u8,
    /// The bytes written, 0 on a refusal.
    pub count: usize,
}

/// The answer to `pb_expressions`.
#[repr(C)]
#[derive(Clone, Copy, Debug, PartialEq, Eq)]
pub struct PbExpressed {
    /// DONE or a refusal; all else but place and text is 0 on a refusal.
    pub answer: u8,
    /// n.
    pub states: usize,
    /// k.
    pub letters: usize,
    /// The finals.
    pub finals: u64,
    /// X.
    pub x: u64,
    /// Y.
    pub y: u64,
    /// The place of the fault, 0 on DONE.
    pub place: usize,
    /// The text of the fault, 0 on DONE.
    pub text: u8,
}

mod exports {
    //! As `crates/pressbadger/src` declares them. A lent slice goes over as a pointer and a count.

    use super::{PbChecked, PbCompared, PbExpressed, PbJudged, PbPattern, PbWritten, RecordBytes};

    extern "C" {
        pub fn pb_version() -> u32;
        pub fn pb_compare(
            states: usize,
            letters: usize,
            finals: u64,
            rows: *const u64,
            rows_count: usize,
            x: u64,
            y: u64,
            room: usize,
            records: *mut RecordBytes,
            records_count: usize,
            sequence: *mut u8,
            sequence_count: usize,
        ) -> PbCompared;
        pub fn pb_compare_default(
            states: usize,
            letters: usize,
            finals: u64,
            rows: *const u64,
            rows_count: usize,
            x: u64,
            y: u64,
            records: *mut RecordBytes,
            records_count: usize,
            sequence: *mut u8,
            sequence_count: usize,
        ) -> PbCompared;
        pub fn pb_compare_lists(
            states: usize,
            letters: usize,
            finals: u64,
            rows: *const u64,
            rows_count: usize,
            x: u64,
            y: u64,
            room: usize,
            lefts: *mut u64,
            lefts_count: usize,
            rights: *mut u64,
            rights_count: usize,
            parents: *mut u16,
            parents_count: usize,
            taken: *mut u8,
            taken_count: usize,
            sequence: *mut u8,
            sequence_count: usize,
        ) -> PbCompared;
        pub fn pb_within(
            states: usize,
            letters: usize,
            finals: u64,
            rows: *const u64,
            rows_count: usize,
            x: u64,
            y: u64,
            room: usize,
            records: *mut RecordBytes,
            records_count: usize,
            sequence: *mut u8,
            sequence_count: usize,
        ) -> PbCompared;
        pub fn pb_within_lists(
            states: usize,
            letters: usize,
            finals: u64,
            rows: *const u64,
            rows_count: usize,
            x: u64,
            y: u64,
            room: usize,
            lefts: *mut u64,
            lefts_count: usize,
            rights: *mut u64,
            rights_count: usize,
            parents: *mut u16,
            parents_count: usize,
            taken: *mut u8,
            taken_count: usize,
            sequence: *mut u8,
            sequence_count: usize,
        ) -> PbCompared;
        pub fn pb_check_records(
            states: usize,
            letters: usize,
            finals: u64,
            rows: *const u64,
            rows_count: usize,
            x: u64,
            y: u64,
            records: *const RecordBytes,
            records_count: usize,
        ) -> PbChecked;
        pub fn pb_judge(
            states: usize,
            letters: usize,
            finals: u64,
            rows: *const u64,
            rows_count: usize,
            set: u64,
            sequence: *const u8,
            sequence_count: usize,
        ) -> PbJudged;
        pub fn pb_check(
            states: usize,
            letters: usize,
            finals: u64,
            rows: *const u64,
            rows_count: usize,
            x: u64,
            y: u64,
            lefts: *const u64,
            lefts_count: usize,
            rights: *const u64,
            rights_count: usize,
        ) -> PbChecked;
        pub fn pb_read_pattern(
            bytes: *const u8,
            bytes_count: usize,
            rows: *mut u64,
            rows_count: usize,
        ) -> PbPattern;
        pub fn pb_write_pattern(
            states: usize,
            letters: usize,
            finals: u64,
            rows: *const u64,
            rows_count: usize,
            x: u64,
            y: u64,
            bytes: *mut u8,
            bytes_count: usize,
        ) -> PbWritten;
        pub fn pb_expressions(
            one: *const u8,
            one_count: usize,
            two: *const u8,
            two_count: usize,
            rows: *mut u64,
            rows_count: usize,
        ) -> PbExpressed;
    }
}

/// The sizes of a pattern as a host hands them over.
fn sizes(pattern: &Pattern) -> (usize, usize) {
    (pattern.states as usize, pattern.letters as usize)
}

/// The version of the interface.
pub fn version() -> u32 {
    // SAFETY: nothing is lent.
    unsafe { exports::pb_version() }
}

/// Compares two sets in a room; the pattern's rows are those lent.
pub fn compare(
    question: &Question,
    rows: &[u64],
    room: usize,
    records: &mut [RecordBytes],
    sequence: &mut [u8],
) -> PbCompared {
    let Question { pattern, x, y } = question;
    let (states, letters) = sizes(pattern);
    // SAFETY: the rows are valid for reads, the others for writes of their counts, and a record has
    // the size and the alignment of its bytes.
    unsafe {
        exports::pb_compare(
            states,
            letters,
            pattern.finals,
            rows.as_ptr(),
            rows.len(),
            *x,
            *y,
            room,
            records.as_mut_ptr(),
            records.len(),
            sequence.as_mut_ptr(),
            sequence.len(),
        )
    }
}

/// Compares two sets in the default room; the pattern's rows are those lent.
pub fn compare_default(
    question: &Question,
    rows: &[u64],
    records: &mut [RecordBytes],
    sequence: &mut [u8],
) -> PbCompared {
    let Question { pattern, x, y } = question;
    let (states, letters) = sizes(pattern);
    // SAFETY: as for `compare`.
    unsafe {
        exports::pb_compare_default(
            states,
            letters,
            pattern.finals,
            rows.as_ptr(),
            rows.len(),
            *x,
            *y,
            records.as_mut_ptr(),
            records.len(),
            sequence.as_mut_ptr(),
            sequence.len(),
        )
    }
}

/// Four lists lent for the records, column by column.
pub struct Lists<'a> {
    /// For the left sets.
    pub lefts: &'a mut [u64],
    /// For the right sets.
    pub rights: &'a mut [u64],
    /// For the parents.
    pub parents: &'a mut [u16],
    /// For the letters taken.
    pub taken: &'a mut [u8],
}

/// Compares two sets in a room, with records column by column; the pattern's rows are those lent.
pub fn compare_lists(
    question: &Question,
    rows: &[u64],
    room: usize,
    lists: Lists,
    sequence: &mut [u8],
) -> PbCompared {
    let Question { pattern, x, y } = question;
    let (states, letters) = sizes(pattern);
    // SAFETY: the rows are valid for reads and the others for writes of their counts.
    unsafe {
        exports::pb_compare_lists(
            states,
            letters,
            pattern.finals,
            rows.as_ptr(),
            rows.len(),
            *x,
            *y,
            room,
            lists.lefts.as_mut_ptr(),
            lists.lefts.len(),
            lists.rights.as_mut_ptr(),
            lists.rights.len(),
            lists.parents.as_mut_ptr(),
            lists.parents.len(),
            lists.taken.as_mut_ptr(),
            lists.taken.len(),
            sequence.as_mut_ptr(),
            sequence.len(),
        )
    }
}

/// Asks the one-way question of two sets in a room; the pattern's rows are those lent.
pub fn within(
    question: &Question,
    rows: &[u64],
    room: usize,
    records: &mut [RecordBytes],
    sequence: &mut [u8],
) -> PbCompared {
    let Question { pattern, x, y } = question;
    let (states, letters) = sizes(pattern);
    // SAFETY: as for `compare`.
    unsafe {
        exports::pb_within(
            states,
            letters,
            pattern.finals,
            rows.as_ptr(),
            rows.len(),
            *x,
            *y,
            room,
            records.as_mut_ptr(),
            records.len(),
            sequence.as_mut_ptr(),
            sequence.len(),
        )
    }
}

/// Asks the one-way question of two sets in a room, with records column by column; the pattern's rows are those lent.
pub fn within_lists(
    question: &Question,
    rows: &[u64],
    room: usize,
    lists: Lists,
    sequence: &mut [u8],
) -> PbCompared {
    let Question { pattern, x, y } = question;
    let (states, letters) = sizes(pattern);
    // SAFETY: as for `compare_lists`.
    unsafe {
        exports::pb_within_lists(
            states,
            letters,
            pattern.finals,
            rows.as_ptr(),
            rows.len(),
            *x,
            *y,
            room,
            lists.lefts.as_mut_ptr(),
            lists.lefts.len(),
            lists.rights.as_mut_ptr(),
            lists.rights.len(),
            lists.parents.as_mut_ptr(),
            lists.parents.len(),
            lists.taken.as_mut_ptr(),
            lists.taken.len(),
            sequence.as_mut_ptr(),
            sequence.len(),
        )
    }
}

/// Checks the pairs of a list of records; the pattern's rows are those lent.
pub fn check_records(question: &Question, rows: &[u64], records: &[RecordBytes]) -> PbChecked {
    let Question { pattern, x, y } = question;
    let (states, letters) = sizes(pattern);
    // SAFETY: both slices are valid for reads of their counts, and the call only reads them.
    unsafe {
        exports::pb_check_records(
            states,
            letters,
            pattern.finals,
            rows.as_ptr(),
            rows.len(),
            *x,
            *y,
            records.as_ptr(),
            records.len(),
        )
    }
}

/// Judges one sequence; the pattern's rows are those lent.
pub fn judge(pattern: &Pattern, rows: &[u64], set: u64, sequence: &[u8]) -> PbJudged {
    let (states, letters) = sizes(pattern);
    // SAFETY: both slices are valid for reads of their counts, and the call only reads them.
    unsafe {
        exports::pb_judge(
            states,
            letters,
            pattern.finals,
            rows.as_ptr(),
            rows.len(),
            set,
            sequence.as_ptr(),
            sequence.len(),
        )
    }
}

/// Checks a list of pairs; the pattern's rows are those lent.
pub fn check(
    pattern: &Pattern,
    rows: &[u64],
    x: u64,
    y: u64,
    lefts: &[u64],
    rights: &[u64],
) -> PbChecked {
    let (states, letters) = sizes(pattern);
    // SAFETY: all slices are valid for reads of their counts, and the call only reads them.
    unsafe {
        exports::pb_check(
            states,
            letters,
            pattern.finals,
            rows.as_ptr(),
            rows.len(),
            x,
            y,
            lefts.as_ptr(),
            lefts.len(),
            rights.as_ptr(),
            rights.len(),
        )
    }
}

/// Reads a pattern file into the rows lent.
pub fn read_pattern(bytes: &[u8], rows: &mut [u64]) -> PbPattern {
    // SAFETY: the bytes are valid for reads and the rows for writes of their counts.
    unsafe { exports::pb_read_pattern(bytes.as_ptr(), bytes.len(), rows.as_mut_ptr(), rows.len()) }
}

/// Writes a pattern file into the bytes lent; the pattern's rows are those lent.
pub fn write_pattern(
    pattern: &Pattern,
    rows: &[u64],
    x: u64,
    y: u64,
    bytes: &mut [u8],
) -> PbWritten {
    let (states, letters) = sizes(pattern);
    // SAFETY: the rows are valid for reads and the bytes for writes of their counts.
    unsafe {
        exports::pb_write_pattern(
            states,
            letters,
            pattern.finals,
            rows.as_ptr(),
            rows.len(),
            x,
            y,
            bytes.as_mut_ptr(),
            bytes.len(),
        )
    }
}

/// Makes two texts into one pattern, in the rows lent.
pub fn expressions(one: &[u8], two: &[u8], rows: &mut [u64]) -> PbExpressed {
    // SAFETY: the texts are valid for reads and the rows for writes of their counts.
    unsafe {
        exports::pb_expressions(
            one.as_ptr(),
            one.len(),
            two.as_ptr(),
            two.len(),
            rows.as_mut_ptr(),
            rows.len(),
        )
    }
}
