//! Every refusal of every call, and the order where several apply.

use crate::cases::{a, blank, pattern};
use reference::answers::*;
use reference::evidence::{check, Check, MAX_PAIRS};
use reference::file::{read, write, Writing};
use reference::judge::judge;
use reference::pattern::{self, Pattern};
use reference::walk::{compare, compare_default, Comparison};

const HUGE: u64 = u64::MAX;

/// Patterns that are refused, each with all faults that come later in the order as well.
fn refused_patterns() -> Vec<(Pattern, u64)> {
    vec![
        (pattern(0, 1, 9, &[]), BAD_SIZE),
        (pattern(65, 1, 9, &[HUGE; 3]), BAD_SIZE),
        (pattern(1, 0, 9, &[]), BAD_SIZE),
        (pattern(1, 33, 9, &[HUGE; 3]), BAD_SIZE),
        (pattern(HUGE, HUGE, HUGE, &[HUGE]), BAD_SIZE),
        (pattern(1 << 32, 1 << 32, 0, &[]), BAD_SIZE),
        (pattern(3, 1, 9, &[2, 1]), BAD_TABLE),
        (pattern(3, 1, 9, &[2, 1, 4, 8]), BAD_TABLE),
        (pattern(64, 32, 0, &[]), BAD_TABLE),
        (pattern(3, 1, 8, &[2, 1, 4]), BAD_SET),
        (pattern(3, 1, 5, &[2, 1, 8]), BAD_SET),
        (pattern(3, 1, 5, &[HUGE, 1, 4]), BAD_SET),
    ]
}

fn refused(answer: u64) -> Comparison {
    Comparison {
        answer,
        ..Comparison::default()
    }
}

/// Catches a range that is one off, a row that is not looked at, and 10, 11, 12 out of order.
#[test]
fn a_bad_pattern_is_refused_by_every_call() {
    for (pattern, answer) in refused_patterns() {
        assert_eq!(pattern::check(&pattern), Err(answer), "{pattern:?}");
        assert_eq!(judge(&pattern, 1, &[]), answer, "{pattern:?}");
        let comparison = compare(&pattern, 1, 1, 0, &[0], 0);
        assert_eq!(comparison, refused(answer), "{pattern:?}");
        let checked = check(&pattern, 1, 1, &[1], &[1]);
        assert_eq!(checked, Check { answer, place: 0 }, "{pattern:?}");
        let bytes = Vec::new();
        let written = write(&pattern, 1, 1, 20_512);
        assert_eq!(written, Writing { answer, bytes }, "{pattern:?}");
    }
    assert_eq!(pattern::check(&a()), Ok(()));
}

/// Catches a BAD-ROOM given too early or too late: 10, 11, 13, 12 is the order.
#[test]
fn the_comparison_refuses_in_its_order() {
    let table = [
        (pattern(65, 1, 9, &[]), HUGE, 1025, BAD_SIZE),
        (pattern(3, 1, 9, &[]), HUGE, 1025, BAD_TABLE),
        (pattern(3, 1, 9, &[2, 1, 4]), HUGE, 1025, BAD_ROOM),
        (pattern(3, 1, 9, &[2, 1, 4]), HUGE, 1024, BAD_SET),
        (a(), 8, 1024, BAD_SET),
        (a(), 4, 1024, DIFFERENT),
    ];
    for (pattern, y, room, answer) in table {
        let found = compare(&pattern, 1, y, room, &[2000], 2000);
        assert_eq!(found.answer, answer, "{pattern:?} {y} {room}");
    }
    assert_eq!(compare(&a(), 8, 1, 1, &[1], 1), refused(BAD_SET));
}

/// Catches a buffer that is not looked at, and a longer one that is refused.
#[test]
fn a_buffer_shorter_than_the_room_is_bad_room() {
    let table: [(u64, &[u64], u64, u64); 9] = [
        (1, &[1], 1, DIFFERENT),
        (1, &[9], 9, DIFFERENT),
        (1, &[0], 1, BAD_ROOM),
        (1, &[1], 0, BAD_ROOM),
        (1, &[1, 1, 1, 0], 1, BAD_ROOM),
        (1, &[0, 1, 1, 1], 1, BAD_ROOM),
        (1024, &[1024], 1023, BAD_ROOM),
        (1024, &[1023], 1024, BAD_ROOM),
        (HUGE, &[HUGE], HUGE, BAD_ROOM),
    ];
    for (room, lists, sequence, answer) in table {
        let found = compare(&a(), 1, 4, room, lists, sequence);
        assert_eq!(found.answer, answer, "{room} {lists:?} {sequence}");
    }
}

/// Catches a short form with another room than 1024, or one that judges no buffers.
#[test]
fn the_short_form_takes_room_1024() {
    assert_eq!(compare_default(&a(), 1, 4, &[1024], 1024).answer, DIFFERENT);
    let short = [(1023, 1024), (1024, 1023), (0, 0)];
    for (list, sequence) in short {
        let found = compare_default(&a(), 1, 4, &[list], sequence);
        assert_eq!(found, refused(BAD_ROOM), "{list} {sequence}");
    }
}

/// Catches a letter judged before the sets, and a sequence judged only as far as it is needed.
#[test]
fn the_judge_refuses_in_its_order() {
    let table: [(u64, &[u8], u64); 8] = [
        (1, &[], ACCEPT),
        (1, &[0], REJECT),
        (1, &[0, 0], ACCEPT),
        (0, &[0, 0], REJECT),
        (8, &[1], BAD_SET),
        (1, &[1], BAD_LETTER),
        (0, &[0, 0, 255], BAD_LETTER),
        (HUGE, &[], BAD_SET),
    ];
    for (set, sequence, answer) in table {
        assert_eq!(judge(&a(), set, sequence), answer, "{set} {sequence:?}");
    }
    assert_eq!(judge(&blank(1, 32), 1, &[31]), REJECT);
    assert_eq!(judge(&blank(1, 32), 1, &[32]), BAD_LETTER);
}

/// Catches BAD-LIST given after BAD-SET or only beyond 1024 pairs.
#[test]
fn the_check_refuses_in_its_order() {
    let most = vec![3; MAX_PAIRS];
    let over = vec![HUGE; MAX_PAIRS + 1];
    type Row<'a> = (Pattern, u64, &'a [u64], &'a [u64], u64);
    let table: [Row; 10] = [
        (pattern(65, 1, 0, &[]), HUGE, &[], &[1], BAD_SIZE),
        (pattern(3, 1, 0, &[]), HUGE, &[], &[1], BAD_TABLE),
        (pattern(3, 1, 9, &[2, 1, 4]), HUGE, &[], &[1], BAD_LIST),
        (a(), HUGE, &[1, 2], &[1], BAD_LIST),
        (a(), HUGE, &over, &over, BAD_LIST),
        (a(), 8, &[3], &[4], BAD_SET),
        (a(), 4, &[8], &[4], BAD_SET),
        (a(), 4, &[3, 3], &[4, 8], BAD_SET),
        (a(), 3, &most, &most, PROVED),
        (a(), 4, &[3], &[4], PROVED),
    ];
    for (number, (pattern, y, lefts, rights, answer)) in table.into_iter().enumerate() {
        let found = check(&pattern, 3, y, lefts, rights);
        assert_eq!(found, Check { answer, place: 0 }, "row {number}");
    }
    assert_eq!(check(&a(), 8, 4, &[3], &[4]).answer, BAD_SET);
}

/// Catches a writer that wants more bytes than the file has, or judges 14 before 12.
#[test]
fn the_writer_refuses_in_its_order() {
    let written = |pattern: &Pattern, y, length| write(pattern, 1, y, length);
    assert_eq!(written(&pattern(65, 1, 9, &[]), HUGE, 0).answer, BAD_SIZE);
    assert_eq!(written(&pattern(3, 1, 9, &[]), HUGE, 0).answer, BAD_TABLE);
    assert_eq!(written(&a(), 8, 0).answer, BAD_SET);
    assert_eq!(written(&a(), 4, 7).answer, NO_ROOM);
    assert_eq!(written(&a(), 4, 7).bytes, []);
    assert_eq!(written(&a(), 4, 8).bytes, [3, 1, 5, 2, 1, 4, 1, 4]);
    assert_eq!(written(&a(), 4, HUGE).answer, DONE);
    assert_eq!(write(&a(), 8, 1, 8).answer, BAD_SET);
}

/// Catches a fault of a pattern file that is missed, misnamed or misplaced.
#[test]
fn the_reader_refuses_with_number_and_place() {
    let table: [(&[u8], u64, u64, u64); 20] = [
        (&[], 3, CUT, 0),
        (&[0], 3, BAD_SIZE, 0),
        (&[65], 3, BAD_SIZE, 0),
        (&[3], 3, CUT, 1),
        (&[3, 0], 3, BAD_SIZE, 1),
        (&[3, 33], 3, BAD_SIZE, 1),
        (&[3, 1, 5], 2, NO_ROOM, 2),
        (&[3, 1], 3, CUT, 2),
        (&[3, 1, 8], 3, BAD_SET, 2),
        (&[3, 1, 5, 2, 1, 8, 1, 4], 3, BAD_SET, 5),
        (&[3, 1, 5, 2, 0x81], 3, CUT, 4),
        (&[3, 1, 5, 2, 1, 4, 8], 3, BAD_SET, 6),
        (&[3, 1, 5, 2, 1, 4, 1, 8], 3, BAD_SET, 7),
        (&[3, 1, 5, 2, 1, 4, 1], 3, CUT, 7),
        (&[3, 1, 5, 2, 1, 4, 1, 4, 0], 3, TAIL, 8),
        (&[3, 1, 5, 2, 1, 4, 1, 4, 0x80], 3, TAIL, 8),
        (&[3, 1, 5, 2, 0x81, 0, 9], 3, PADDED, 4),
        (&[&[3, 1][..], &[0xff; 10]].concat(), 3, TOO_BIG, 2),
        (&[3, 1, 5, 2, 1, 4, 1, 4], 0, NO_ROOM, 2),
        (&[3, 1, 5, 2, 1, 4, 1, 4], 3, DONE, 0),
    ];
    for (bytes, rows, answer, place) in table {
        let reading = read(bytes, rows);
        assert_eq!(
            (reading.answer, reading.place),
            (answer, place),
            "{bytes:?}"
        );
        let numbers = (reading.x, reading.y, reading.pattern);
        let wanted = if answer == DONE {
            (1, 4, a())
        } else {
            Default::default()
        };
        assert_eq!(numbers, wanted, "{bytes:?}");
    }
}

/// Catches an answer number or name that is not the scope's (§7).
#[test]
fn every_answer_number_has_its_name() {
    let numbers: Vec<u64> = NAMES.iter().map(|(number, _)| *number).collect();
    let wanted: Vec<u64> = (0..=16).chain(20..=23).chain(30..=32).collect();
    assert_eq!(numbers, wanted);
    let some = [
        (6, "NOT-PROVED"),
        (8, "WITHIN"),
        (9, "NOT-WITHIN"),
        (13, "BAD-ROOM"),
        (14, "NO-ROOM"),
        (15, "BAD-LETTER"),
    ];
    for (number, wanted) in some {
        assert_eq!(name(number), Some(wanted));
    }
    assert_eq!(name(17), None);
    assert!(!is_refusal(NOT_WITHIN) && is_refusal(BAD_SIZE));
}
