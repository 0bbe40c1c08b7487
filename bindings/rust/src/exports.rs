//! The exports of the static library, as `crates/pressbadger/src` declares them. A lent slice goes
//! over as a pointer and a count.

use crate::Record;

#[repr(C)]
pub struct PbCompared {
    pub answer: u8,
    pub kept: usize,
    pub examined: usize,
    pub length: usize,
}

#[repr(C)]
pub struct PbJudged {
    pub answer: u8,
}

#[repr(C)]
pub struct PbChecked {
    pub answer: u8,
    pub place: usize,
}

#[repr(C)]
pub struct PbPattern {
    pub answer: u8,
    pub states: usize,
    pub letters: usize,
    pub finals: u64,
    pub x: u64,
    pub y: u64,
    pub place: usize,
}

#[repr(C)]
pub struct PbWritten {
    pub answer: u8,
    pub count: usize,
}

#[repr(C)]
pub struct PbExpressed {
    pub answer: u8,
    pub states: usize,
    pub letters: usize,
    pub finals: u64,
    pub x: u64,
    pub y: u64,
    pub place: usize,
    pub text: u8,
}

extern "C" {
    pub fn pb_version() -> u32;

    pub fn pb_compare(
        states: usize,
        letters: usize,
        finals: u64,
        rows: *const u64,
        rows_count: usize,
        x: u64,
        y: u64,
        room: usize,
        records: *mut Record,
        records_count: usize,
        sequence: *mut u8,
        sequence_count: usize,
    ) -> PbCompared;

    pub fn pb_compare_default(
        states: usize,
        letters: usize,
        finals: u64,
        rows: *const u64,
        rows_count: usize,
        x: u64,
        y: u64,
        records: *mut Record,
        records_count: usize,
        sequence: *mut u8,
        sequence_count: usize,
    ) -> PbCompared;

    pub fn pb_compare_lists(
        states: usize,
        letters: usize,
        finals: u64,
        rows: *const u64,
        rows_count: usize,
        x: u64,
        y: u64,
        room: usize,
        lefts: *mut u64,
        lefts_count: usize,
        rights: *mut u64,
        rights_count: usize,
        parents: *mut u16,
        parents_count: usize,
        taken: *mut u8,
        taken_count: usize,
        sequence: *mut u8,
        sequence_count: usize,
    ) -> PbCompared;

    pub fn pb_within(
        states: usize,
        letters: usize,
        finals: u64,
        rows: *const u64,
        rows_count: usize,
        x: u64,
        y: u64,
        room: usize,
        records: *mut Record,
        records_count: usize,
        sequence: *mut u8,
        sequence_count: usize,
    ) -> PbCompared;

    pub fn pb_within_lists(
        states: usize,
        letters: usize,
        finals: u64,
        rows: *const u64,
        rows_count: usize,
        x: u64,
        y: u64,
        room: usize,
        lefts: *mut u64,
        lefts_count: usize,
        rights: *mut u64,
        rights_count: usize,
        parents: *mut u16,
        parents_count: usize,
        taken: *mut u8,
        taken_count: usize,
        sequence: *mut u8,
        sequence_count: usize,
    ) -> PbCompared;

    pub fn pb_judge(
        states: usize,
        letters: usize,
        finals: u64,
        rows: *const u64,
        rows_count: usize,
        set: u64,
        sequence: *const u8,
        sequence_count: usize,
    ) -> PbJudged;

    pub fn pb_check(
        states: usize,
        letters: usize,
        finals: u64,
        rows: *const u64,
        rows_count: usize,
        x: u64,
        y: u64,
        lefts: *const u64,
        lefts_count: usize,
        rights: *const u64,
        rights_count: usize,
    ) -> PbChecked;

    pub fn pb_check_records(
        states: usize,
        letters: usize,
        finals: u64,
        rows: *const u64,
        rows_count: usize,
        x: u64,
        y: u64,
        records: *const Record,
        records_count: usize,
    ) -> PbChecked;

    pub fn pb_read_pattern(
        bytes: *const u8,
        bytes_count: usize,
        rows: *mut u64,
        rows_count: usize,
    ) -> PbPattern;

    pub fn pb_write_pattern(
        states: usize,
        letters: usize,
        finals: u64,
        rows: *const u64,
        rows_count: usize,
        x: u64,
        y: u64,
        bytes: *mut u8,
        bytes_count: usize,
    ) -> PbWritten;

    pub fn pb_expressions(
        one: *const u8,
        one_count: usize,
        two: *const u8,
        two_count: usize,
        rows: *mut u64,
        rows_count: usize,
    ) -> PbExpressed;
}
