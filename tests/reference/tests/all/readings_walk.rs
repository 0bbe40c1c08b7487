//! Points of the scope about the walk that could be read otherwise, as small cases.

use crate::cases::{a, b, blank, compare_all, compare_in, d, pairs, pattern};
use reference::answers::*;
use reference::congruence::close;
use reference::pattern::Pattern;
use reference::questions::Question;
use reference::walk::{compare, Comparison, Record};

fn found(pattern: Pattern, x: u64, y: u64, room: u64) -> Comparison {
    compare_in(&Question { pattern, x, y }, room)
}

fn numbers(comparison: &Comparison) -> [u64; 4] {
    let Comparison {
        answer,
        kept,
        examined,
        length,
        ..
    } = *comparison;
    [answer, kept, examined, length]
}

/// A chain of two letters where only letter 1 then 0 then 1 leads to the end.
fn chain() -> Pattern {
    pattern(4, 2, 8, &[0, 2, 4, 0, 0, 8, 0, 0])
}

/// The scope, §5.2: catches candidates taken letter by letter or last record first.
#[test]
fn candidates_come_from_records_in_order_by_rising_letters() {
    let split = pattern(
        8,
        2,
        0,
        &[2, 4, 8, 16, 32, 64, 0, 0, 0, 0, 0, 0, 0, 0, 0, 0],
    );
    let comparison = found(split, 1, 128, 1024);
    let start = Record {
        left: 1,
        right: 128,
        parent: 0,
        letter: 0,
    };
    let first = [
        (2, 0, 0),
        (4, 0, 1),
        (8, 1, 0),
        (16, 1, 1),
        (32, 2, 0),
        (64, 2, 1),
    ];
    let rest = first.map(|(left, parent, letter)| Record {
        left,
        right: 0,
        parent,
        letter,
    });
    assert_eq!(comparison.records, [&[start][..], &rest].concat());
    assert_eq!(numbers(&comparison), [SAME, 7, 15, 0]);
}

/// The scope, §5.3: catches the four rules in another order.
#[test]
fn the_rules_for_a_candidate_come_in_their_order() {
    let congruent_goes_before_full = found(b(), 1, 8, 3);
    assert_eq!(numbers(&congruent_goes_before_full), [SAME, 3, 4, 0]);
    let different_goes_before_full = found(a(), 2, 4, 0);
    assert_eq!(numbers(&different_goes_before_full), [DIFFERENT, 0, 1, 0]);
    let full_goes_before_keeping = found(b(), 1, 8, 1);
    assert_eq!(numbers(&full_goes_before_keeping), [FULL, 1, 2, 0]);
}

/// The scope, §5.7: catches a path that ends on meeting a parent 0 instead of record 0.
#[test]
fn the_letter_of_record_1_counts() {
    let comparison = found(chain(), 1, 0, 1024);
    assert_eq!(comparison.sequence, [1, 0, 1]);
    assert_eq!(comparison.records[1].parent, 0);
    assert_eq!(comparison.records[1].letter, 1);
    assert_eq!(comparison.length, 3);
}

/// The scope, §6.7: catches room 0 refused, and FULL called before equality or difference.
#[test]
fn room_0_with_empty_buffers_is_a_valid_question() {
    let table = [
        (0, 0, [SAME, 0, 1, 0]),
        (1, 1, [SAME, 0, 1, 0]),
        (1, 4, [FULL, 0, 1, 0]),
        (0, 2, [FULL, 0, 1, 0]),
        (1, 2, [DIFFERENT, 0, 1, 0]),
        (2, 1, [DIFFERENT, 0, 1, 0]),
    ];
    for (x, y, wanted) in table {
        assert_eq!(numbers(&found(a(), x, y, 0)), wanted, "{x} {y}");
    }
}

/// The scope, §5.8: catches a first candidate that is kept though X = Y, or skipped though not.
#[test]
fn same_keeps_nothing_exactly_when_the_two_sets_are_equal() {
    let empty = blank(3, 2);
    for (x, y) in (0..8).flat_map(|x| (0..8).map(move |y| (x, y))) {
        let comparison = found(empty.clone(), x, y, 1024);
        assert_eq!(comparison.answer, SAME);
        assert_eq!(comparison.kept == 0, x == y, "{x} {y}");
    }
}

/// The scope, §4.5: catches an empty side that is passed over, or one that adds everything.
#[test]
fn a_pair_with_an_empty_side_adds_to_every_set() {
    assert_eq!(close(0, &[(5, 0)]), 5);
    assert_eq!(close(2, &[(0, 5)]), 7);
    assert_eq!(close(2, &[(0, 0)]), 2);
    assert_eq!(close(2, &[]), 2);
    assert_eq!(pairs(&found(d(), 1, 0, 1)), [(1, 0)]);
}

/// The scope, §7.10: catches buffers judged by what would be kept instead of by the room.
#[test]
fn buffers_are_judged_by_the_room_asked_for() {
    assert_eq!(compare(&a(), 1, 1, 5, &[4], 5).answer, BAD_ROOM);
    assert_eq!(compare(&a(), 1, 1, 5, &[5], 4).answer, BAD_ROOM);
    assert_eq!(compare(&a(), 1, 1, 0, &[4], 4).answer, SAME);
    assert_eq!(compare(&a(), 1, 1, 1025, &[2000], 2000).answer, BAD_ROOM);
}

/// The scope, §5.9: catches FULL called when the records fill the room and the next candidate differs.
#[test]
fn different_may_fill_the_room_with_a_sequence_as_long() {
    let comparison = found(chain(), 1, 0, 3);
    assert_eq!([comparison.kept, comparison.length], [3, 3]);
    assert_eq!(comparison.answer, DIFFERENT);
    assert_eq!(found(chain(), 1, 0, 2).answer, FULL);
}

/// Catches a room that has an influence before it is used up.
#[test]
fn a_longer_room_leaves_the_records_as_they_are() {
    let question = Question {
        pattern: b(),
        x: 1,
        y: 8,
    };
    assert_eq!(compare_in(&question, 3), compare_all(&question));
}
