//! Two sets compared: named questions, all small ones, the families, what is lent.

use crate::draw::{all_lists, pattern, small_question};
use library::calls::{self, Lengths};
use library::{cases, rounds::rounds};
use reference::answers::*;
use reference::questions::{figure_five, long_way, renamed_copy, switches, Question};
use reference::random::Random;
use reference::walk::{compare, compare_default, Comparison, Record, MAX_ROOM};

/// The library's comparison, which is the reference's, with records and column by column.
pub fn assert_compared(question: &Question, room: u64, lengths: Lengths) -> Comparison {
    let Question { pattern, x, y } = question;
    let Lengths { records, sequence } = lengths;
    let wanted = compare(pattern, *x, *y, room, &[records as u64], sequence as u64);
    let found = calls::compare(question, room, lengths);
    assert_eq!(found, wanted, "room {room}, {lengths:?}, {question:?}");
    let by_columns = calls::compare_lists(question, room, [records; 4], sequence);
    assert_eq!(by_columns, wanted, "room {room}, {lengths:?}, {question:?}");
    found
}

/// The library's comparison with four lists, which is the reference's.
pub fn assert_lists(
    question: &Question,
    room: u64,
    lists: [usize; 4],
    sequence: usize,
) -> Comparison {
    let Question { pattern, x, y } = question;
    let lengths = lists.map(|length| length as u64);
    let wanted = compare(pattern, *x, *y, room, &lengths, sequence as u64);
    let found = calls::compare_lists(question, room, lists, sequence);
    assert_eq!(found, wanted, "room {room}, {lists:?}, {question:?}");
    found
}

/// Records and a sequence of one length.
pub fn both(length: usize) -> Lengths {
    Lengths {
        records: length,
        sequence: length,
    }
}

/// The comparison with records and sequence exactly as long as the room, or long
/// enough for a room that is refused.
pub fn compared(question: &Question, room: u64) -> Comparison {
    assert_compared(question, room, both(room.min(MAX_ROOM + 1) as usize))
}

/// Catches what the file says of each case: the mistakes of the scope, §12, and what could be read otherwise.
#[test]
fn the_named_questions_are_compared_as_they_should() {
    let keys = [
        "pattern", "starts", "room", "answer", "kept", "examined", "sequence",
    ];
    for case in cases::load("compare.txt", &keys, &["records"]) {
        let question = case.question();
        let found = compared(&question, case.number("room"));
        let wanted = ["kept", "examined"].map(|key| case.number(key));
        assert_eq!(found.answer, case.answer("answer"), "{}", case.name);
        assert_eq!([found.kept, found.examined], wanted, "{}", case.name);
        assert_eq!(found.sequence, case.letters("sequence"), "{}", case.name);
        if case.has("records") {
            let wanted: Vec<Record> = case.numbers("records").chunks(4).map(record).collect();
            assert_eq!(found.records, wanted, "{}", case.name);
        } else {
            assert_eq!(found.kept, 0, "{} does not name its records", case.name);
        }
    }
}

/// A record of a file of cases.
pub fn record(numbers: &[u64]) -> Record {
    match *numbers {
        [left, right, parent, letter] => Record {
            left,
            right,
            parent,
            letter,
        },
        _ => panic!("a record has four numbers"),
    }
}

/// Catches anything wrong that two states can show, in every room up to one more than is needed.
#[test]
fn every_question_over_two_states_and_two_letters() {
    for letters in 1..=2 {
        for masks in all_lists(4, 2 * letters + 3) {
            let question = Question {
                pattern: pattern(2, letters.into(), masks[0], &masks[3..]),
                x: masks[1],
                y: masks[2],
            };
            let mut room = 0;
            while compared(&question, room).answer == FULL {
                room += 1;
            }
            compared(&question, room + 1);
        }
    }
}

/// Catches FULL called before looking for a difference, and a sequence that has no
/// place for its last letter: here the answer comes with a full list.
#[test]
fn different_may_come_with_a_full_list() {
    let mut random = Random::new(119);
    let mut seen = 0;
    for _ in 0..rounds(6000) {
        let question = small_question(&mut random);
        let found = compared(&question, MAX_ROOM);
        if found.answer == DIFFERENT && found.kept > 0 {
            assert_eq!(compared(&question, found.kept), found);
            assert_eq!(compared(&question, found.kept - 1).answer, FULL);
            seen += 1;
        }
    }
    assert!(seen > 1000, "{seen}");
}

/// Catches a parent or a length held in too few bits, and a sequence written backwards.
#[test]
fn a_sequence_may_have_1024_letters() {
    let question = long_way(1024);
    let found = compared(&question, MAX_ROOM);
    let numbers = [found.answer, found.kept, found.length];
    assert_eq!(numbers, [DIFFERENT, 1024, 1024]);
    assert_eq!(found.sequence[..2], [9, 5]);
    assert_eq!(found.sequence[1..], [5, 17].repeat(512)[..1023]);
    assert_eq!(found.records[1023].parent, 1022);
    let short = compared(&question, MAX_ROOM - 1);
    assert_eq!([short.answer, short.kept, short.length], [FULL, 1023, 0]);
}

/// Catches a congruence without unions or transitivity, and a room that is one off.
#[test]
fn figure_five_keeps_2n_plus_1_pairs() {
    for n in 1..=20 {
        let question = figure_five(n);
        let needed = 2 * n + 1;
        for room in [needed, needed + 1, MAX_ROOM] {
            let found = compared(&question, room);
            assert_eq!((found.answer, found.kept), (SAME, needed), "{n}");
        }
        let found = compared(&question, needed - 1);
        assert_eq!((found.answer, found.kept), (FULL, needed - 1), "{n}");
    }
}

/// Catches a room of 1024 that cannot be filled, and a candidate skipped without reason.
#[test]
fn switches_keep_every_pair_that_is_reached() {
    for count in 1..=10 {
        let (question, needed) = (switches(count), 1 << count);
        let found = compared(&question, needed);
        let wanted = (SAME, needed, 1 + count * needed);
        assert_eq!((found.answer, found.kept, found.examined), wanted);
        assert_eq!(compared(&question, needed - 1).answer, FULL);
    }
    let found = compared(&switches(11), MAX_ROOM);
    assert_eq!((found.answer, found.kept), (FULL, MAX_ROOM));
}

/// Catches sameness that is missed under renaming. A copy is SAME, or too large for the room.
#[test]
fn a_renamed_copy_is_the_same() {
    let mut random = Random::new(120);
    let mut counts = [0; 3];
    for round in 0..rounds(3000) {
        let states = if round % 40 == 0 { 32 } else { 8 };
        let (states, letters) = (random.between(1, states), random.between(1, 3));
        let drawn = reference::questions::question(&mut random, states, letters);
        let copy = renamed_copy(&mut random, &drawn.pattern, drawn.x);
        let found = compared(&copy, *random.pick(&[16, 64, 300]).expect("some"));
        assert!([SAME, FULL].contains(&found.answer), "{copy:?}");
        counts[found.answer as usize] += 1;
    }
    assert!(counts[0] > 1000 && counts[2] > 20, "{counts:?}");
}

/// Catches something written beyond what is named, in lists that are all of different length.
#[test]
fn what_is_lent_may_be_longer_than_the_room() {
    let mut random = Random::new(121);
    for _ in 0..rounds(4000) {
        let question = small_question(&mut random);
        let room = random.below(12);
        let exact = compared(&question, room);
        let mut length = || (room + random.below(9)) as usize;
        let (records, sequence) = (length(), length());
        let found = assert_compared(&question, room, Lengths { records, sequence });
        assert_eq!(found, exact);
        let lists = [length(), length(), length(), length()];
        assert_eq!(assert_lists(&question, room, lists, sequence), exact);
    }
}

/// Catches empty lists refused, and a room of 0 that keeps something.
#[test]
fn room_0_needs_nothing_lent() {
    let mut counts = [0; 3];
    for masks in all_lists(8, 6) {
        let question = Question {
            pattern: pattern(3, 1, masks[0], &masks[1..4]),
            x: masks[4],
            y: masks[5],
        };
        let found = assert_compared(&question, 0, both(0));
        let numbers = [found.kept, found.examined, found.length];
        assert_eq!(numbers, [0, 1, 0], "{question:?}");
        counts[found.answer as usize] += 1;
    }
    assert!(counts.iter().all(|count| *count > 1000), "{counts:?}");
}

/// Catches a short form with another room than 1024, or one that judges nothing that is lent.
#[test]
fn the_short_form_takes_room_1024() {
    let table = [0, 1, 256, 1023, 1024, 1025, 2000];
    for question in [figure_five(7), switches(10), switches(11), long_way(1024)] {
        let Question { pattern, x, y } = &question;
        for records in table {
            for sequence in table {
                let found = calls::compare_default(&question, Lengths { records, sequence });
                let refused = records.min(sequence) < 1024;
                assert_eq!(found.answer == BAD_ROOM, refused, "{records} {sequence}");
                if refused || records == sequence {
                    let (records, sequence) = (records as u64, sequence as u64);
                    let wanted = compare_default(pattern, *x, *y, &[records], sequence);
                    assert_eq!(found, wanted, "{records} {sequence}");
                }
            }
        }
    }
}
