//! Points of the scope about numbers and pattern files that could be read otherwise, as small cases.

use crate::cases::{a, blank};
use reference::answers::*;
use reference::file::{read, write, LONGEST_FILE};
use reference::numbers::{self, encode};
use reference::pattern::{self, Pattern};
use reference::report::{report, INPUT_LIMIT};

/// A number and how many bytes it took, or a refusal.
type Read = Result<(u64, usize), u64>;

/// Nine bytes with bit 7 set and then the given ones.
fn after_nine(rest: &[u8]) -> Vec<u8> {
    [&[0x80; 9], rest].concat()
}

/// The scope, §9.7: catches a tenth byte that is judged late or misnamed, or an eleventh that is looked at.
#[test]
fn the_tenth_byte_is_judged_as_soon_as_it_is_seen() {
    let table: [(&[u8], Read); 10] = [
        (&[], Err(CUT)),
        (&[0x00], Err(PADDED)),
        (&[0x01], Ok((1 << 63, 10))),
        (&[0x01, 0x80], Ok((1 << 63, 10))),
        (&[0x02], Err(TOO_BIG)),
        (&[0x7f], Err(TOO_BIG)),
        (&[0x80], Err(TOO_BIG)),
        (&[0x80, 0x00], Err(TOO_BIG)),
        (&[0x81], Err(TOO_BIG)),
        (&[0xff], Err(TOO_BIG)),
    ];
    for (rest, wanted) in table {
        assert_eq!(numbers::read(&after_nine(rest), 0), wanted, "{rest:?}");
    }
}

/// The scope, §9.7, §9.8: catches 00 bytes called PADDED before the number has ended.
#[test]
fn only_a_last_group_of_0_is_needless() {
    let table: [(&[u8], Read); 8] = [
        (&[0x00], Ok((0, 1))),
        (&[0x80, 0x80], Err(CUT)),
        (&[0x80, 0x80, 0x00], Err(PADDED)),
        (&[0x81, 0x00], Err(PADDED)),
        (&[0x80, 0x01], Ok((128, 2))),
        (&[0x80, 0x80, 0x01], Ok((1 << 14, 3))),
        (&[0xac, 0x02], Ok((300, 2))),
        (&[0x7f, 0x00], Ok((127, 1))),
    ];
    for (bytes, wanted) in table {
        assert_eq!(numbers::read(bytes, 0), wanted, "{bytes:?}");
    }
}

/// Catches groups written highest first, or a form that is not the shortest.
#[test]
fn numbers_are_written_lowest_group_first() {
    let table: [(u64, &[u8]); 6] = [
        (0, &[0]),
        (127, &[0x7f]),
        (128, &[0x80, 0x01]),
        (300, &[0xac, 0x02]),
        (
            1 << 63,
            &[0x80, 0x80, 0x80, 0x80, 0x80, 0x80, 0x80, 0x80, 0x80, 0x01],
        ),
        (
            u64::MAX,
            &[0xff, 0xff, 0xff, 0xff, 0xff, 0xff, 0xff, 0xff, 0xff, 0x01],
        ),
    ];
    for (value, bytes) in table {
        assert_eq!(encode(value), bytes);
    }
}

/// Catches a value that is cut short or read from the wrong place.
#[test]
fn every_number_is_read_back_at_any_place() {
    for bit in 0..64 {
        for value in [
            1u64 << bit,
            (1 << bit) - 1,
            u64::MAX >> bit,
            u64::MAX << bit,
        ] {
            let bytes = [&[0xff, 0xff][..], &encode(value), &[0xff]].concat();
            let wanted = Ok((value, bytes.len() - 3));
            assert_eq!(numbers::read(&bytes, 2), wanted, "{value}");
        }
    }
}

fn fault(bytes: &[u8]) -> (u64, u64) {
    let reading = read(bytes, 2048);
    (reading.answer, reading.place)
}

/// The scope, §9.12: catches a later number's form judged before an earlier one's range.
#[test]
fn form_goes_before_range_and_the_earlier_number_wins() {
    assert_eq!(fault(&[0x41, 0x80, 0x00]), (BAD_SIZE, 0));
    assert_eq!(fault(&[0x01, 0x01, 0x82, 0x00]), (PADDED, 2));
    assert_eq!(fault(&encode(1 << 63)), (BAD_SIZE, 0));
}

/// The scope, §9.10: catches NO-ROOM judged after finals, or before k.
#[test]
fn no_room_is_judged_after_k_and_before_finals() {
    let table: [(&[u8], u64, (u64, u64)); 6] = [
        (&[3, 1], 2, (NO_ROOM, 2)),
        (&[3, 1, 0x80], 2, (NO_ROOM, 2)),
        (&[3, 1, 0xff, 0x00], 2, (NO_ROOM, 2)),
        (&[3], 0, (CUT, 1)),
        (&[3, 33], 0, (BAD_SIZE, 1)),
        (&[3, 1], 3, (CUT, 2)),
    ];
    for (bytes, rows, wanted) in table {
        let reading = read(bytes, rows);
        assert_eq!((reading.answer, reading.place), wanted, "{bytes:?}");
    }
}

/// The scope, §9.13: catches CUT placed where the data ends inside a number.
#[test]
fn cut_is_placed_at_the_first_byte_of_the_number() {
    assert_eq!(fault(&[0x83, 0x80, 0x80]), (CUT, 0));
    assert_eq!(fault(&[40, 1, 0x80, 0x80, 0x80]), (CUT, 2));
    assert_eq!(fault(&[40, 1, 0x80, 0x80, 0x01]), (CUT, 5));
}

/// The scope, §7.8: catches a longer row buffer refused, or longer rows taken by another call.
#[test]
fn only_the_reader_takes_more_rows_than_n_times_k() {
    let bytes = [3, 1, 5, 2, 1, 4, 1, 4];
    for rows in [3, 4, 2048, u64::MAX] {
        assert_eq!(read(&bytes, rows).pattern, a());
    }
    let mut longer = a();
    longer.rows.push(0);
    assert_eq!(pattern::check(&longer), Err(BAD_TABLE));
}

/// The scope, §9.14: catches values left over from the numbers read before the fault.
#[test]
fn a_refusing_reader_returns_0_for_all_but_the_place() {
    let reading = read(&[3, 1, 5, 2, 1, 4, 1, 4, 9], 3);
    assert_eq!((reading.answer, reading.place), (TAIL, 8));
    assert_eq!(reading.pattern, Pattern::default());
    assert_eq!((reading.x, reading.y), (0, 0));
    assert_eq!(read(&[3, 1, 5, 2, 1, 4, 1, 4], 3).place, 0);
}

/// The scope, §7.9: catches a row that is judged only when it is reached.
#[test]
fn rows_that_nothing_reaches_are_judged_as_well() {
    for row in 0..12 {
        let mut pattern = blank(4, 3);
        pattern.rows[row] = 16;
        assert_eq!(pattern::check(&pattern), Err(BAD_SET), "row {row}");
        pattern.rows[row] = 15;
        assert_eq!(pattern::check(&pattern), Ok(()), "row {row}");
    }
}

/// The scope, §2.4: catches a shift by 64 and a range of masks that is one bit off.
#[test]
fn with_64_states_no_mask_is_bad_and_below_bit_n_is() {
    for states in 1..=64 {
        let all = u64::MAX >> (64 - states);
        assert_eq!(pattern::all_states(states), all);
        assert_eq!(pattern::check_sets(&blank(states, 1), [all]), Ok(()));
        if states < 64 {
            let one_more = pattern::check_sets(&blank(states, 1), [1 << states]);
            assert_eq!(one_more, Err(BAD_SET));
        }
    }
}

/// The scope, §9.15: catches a buffer of exactly the file's length refused, and bytes left on refusal.
#[test]
fn the_writer_needs_exactly_the_bytes_of_the_file() {
    let largest = Pattern {
        finals: u64::MAX,
        rows: vec![u64::MAX; 64 * 32],
        ..blank(64, 32)
    };
    let longest = LONGEST_FILE as u64;
    let written = write(&largest, u64::MAX, u64::MAX, longest);
    assert_eq!((written.answer, written.bytes.len()), (DONE, 20_512));
    let refused = write(&largest, u64::MAX, u64::MAX, longest - 1);
    assert_eq!((refused.answer, refused.bytes.len()), (NO_ROOM, 0));
}

/// The scope, §10.1: catches a cap on the input that hides the tail of the longest file.
#[test]
fn the_cap_on_the_input_never_changes_an_answer() {
    let largest = Pattern {
        finals: 1 << 63,
        rows: vec![1 << 63; 64 * 32],
        ..blank(64, 32)
    };
    let mut bytes = write(&largest, 1 << 63, 1 << 63, 20_512).bytes;
    assert_eq!(bytes.len() + 1, INPUT_LIMIT);
    assert_eq!(report(&bytes), b"SAME 0 1\n");
    for _ in 0..3 {
        bytes.push(0);
        assert_eq!(report(&bytes), b"REFUSED 22 20512\n");
    }
}
