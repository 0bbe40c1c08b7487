//! The exports that only tests call, made safe to call.

/// What most probes return.
#[repr(C)]
#[derive(Clone, Copy, Debug, PartialEq, Eq)]
pub struct Probed {
    /// DONE or a refusal.
    pub answer: u8,
    /// The value, 0 on a refusal.
    pub value: u64,
}

/// What reading a number returns.
#[repr(C)]
#[derive(Clone, Copy, Debug, PartialEq, Eq)]
pub struct ProbedNumber {
    /// DONE, CUT, PADDED or TOO-BIG.
    pub answer: u8,
    /// The number, 0 on a fault.
    pub value: u64,
    /// How many bytes it took, 0 on a fault.
    pub took: usize,
    /// The place of the fault, 0 on DONE.
    pub place: usize,
}

mod exports {
    //! As `crates/probes/src` declares them. A lent slice goes over as a pointer and a count.

    use super::{Probed, ProbedNumber};

    extern "C" {
        pub fn probe_union(a: u64, b: u64) -> u64;
        pub fn probe_within(a: u64, c: u64) -> bool;
        pub fn probe_meets(a: u64, b: u64) -> bool;
        pub fn probe_single(s: usize) -> Probed;
        pub fn probe_pattern(
            states: usize,
            letters: usize,
            finals: u64,
            rows: *const u64,
            rows_count: usize,
        ) -> Probed;
        pub fn probe_next(
            states: usize,
            letters: usize,
            rows: *const u64,
            rows_count: usize,
            set: u64,
            letter: u8,
        ) -> Probed;
        pub fn probe_close(
            lefts: *const u64,
            lefts_count: usize,
            rights: *const u64,
            rights_count: usize,
            set: u64,
        ) -> Probed;
        pub fn probe_congruent(
            lefts: *const u64,
            lefts_count: usize,
            rights: *const u64,
            rights_count: usize,
            a: u64,
            b: u64,
        ) -> Probed;
        pub fn probe_read_number(bytes: *const u8, bytes_count: usize, at: usize) -> ProbedNumber;
        pub fn probe_write_number(out: *mut u8, out_count: usize, at: usize, value: u64) -> Probed;
    }
}

/// The union of two sets.
pub fn union(a: u64, b: u64) -> u64 {
    // SAFETY: nothing is lent.
    unsafe { exports::probe_union(a, b) }
}

/// Whether the first set lies within the second.
pub fn within(a: u64, c: u64) -> bool {
    // SAFETY: nothing is lent.
    unsafe { exports::probe_within(a, c) }
}

/// Whether two sets have a state in common.
pub fn meets(a: u64, b: u64) -> bool {
    // SAFETY: nothing is lent.
    unsafe { exports::probe_meets(a, b) }
}

/// The set of one state.
pub fn single(state: usize) -> Probed {
    // SAFETY: nothing is lent.
    unsafe { exports::probe_single(state) }
}

/// What is against a pattern, with value 0.
pub fn pattern(states: usize, letters: usize, finals: u64, rows: &[u64]) -> Probed {
    // SAFETY: the slice is valid for reads of its count, and the call only reads it.
    unsafe { exports::probe_pattern(states, letters, finals, rows.as_ptr(), rows.len()) }
}

/// The set that a letter takes a set to.
pub fn next(states: usize, letters: usize, rows: &[u64], set: u64, letter: u8) -> Probed {
    let (pointer, count) = (rows.as_ptr(), rows.len());
    // SAFETY: the slice is valid for reads of its count, and the call only reads it.
    unsafe { exports::probe_next(states, letters, pointer, count, set, letter) }
}

/// A set closed by a list of pairs.
pub fn close(lefts: &[u64], rights: &[u64], set: u64) -> Probed {
    // SAFETY: both slices are valid for reads of their counts, and the call only reads them.
    unsafe {
        exports::probe_close(
            lefts.as_ptr(),
            lefts.len(),
            rights.as_ptr(),
            rights.len(),
            set,
        )
    }
}

/// Whether two sets are congruent by a list of pairs: value 1 or 0.
pub fn congruent(lefts: &[u64], rights: &[u64], a: u64, b: u64) -> Probed {
    // SAFETY: both slices are valid for reads of their counts, and the call only reads them.
    unsafe {
        exports::probe_congruent(
            lefts.as_ptr(),
            lefts.len(),
            rights.as_ptr(),
            rights.len(),
            a,
            b,
        )
    }
}

/// The number at a place of some bytes.
pub fn read_number(bytes: &[u8], at: usize) -> ProbedNumber {
    // SAFETY: the bytes are valid for reads of their count, and the call only reads them.
    unsafe { exports::probe_read_number(bytes.as_ptr(), bytes.len(), at) }
}

/// A number put at a place of the bytes: the place after it, or NO-ROOM.
pub fn write_number(bytes: &mut [u8], at: usize, value: u64) -> Probed {
    // SAFETY: the bytes are valid for writes of their count.
    unsafe { exports::probe_write_number(bytes.as_mut_ptr(), bytes.len(), at, value) }
}
