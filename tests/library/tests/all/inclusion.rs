//! The one-way question: named questions, all small ones, evidence, rooms, what is lent and what is refused.

use crate::comparison::{both, compared, record};
use crate::draw::{all_lists, any_question, blank, pattern, small_question};
use crate::rooms::{assert_refusals, Call};
use library::calls::{self, Lengths};
use library::{cases, rounds::rounds};
use reference::answers::*;
use reference::congruence::Pair;
use reference::evidence::Check;
use reference::inclusion::within;
use reference::questions::{figure_five, long_way, switches, Question};
use reference::random::Random;
use reference::subsets::{inclusion, sets_reached, Inclusion};
use reference::walk::{Comparison, Record, MAX_ROOM};

/// How many pairs or sets the subset construction may reach.
const CAP: usize = 200;

/// The library's answer, which is the reference's, with records and column by column.
fn assert_within(question: &Question, room: u64, lengths: Lengths) -> Comparison {
    let Question { pattern, x, y } = question;
    let Lengths { records, sequence } = lengths;
    let wanted = within(pattern, *x, *y, room, &[records as u64], sequence as u64);
    let found = calls::within(question, room, lengths);
    assert_eq!(found, wanted, "room {room}, {lengths:?}, {question:?}");
    let by_columns = calls::within_lists(question, room, [records; 4], sequence);
    assert_eq!(by_columns, wanted, "room {room}, {lengths:?}, {question:?}");
    found
}

/// The library's answer with four lists, which is the reference's.
fn assert_lists(question: &Question, room: u64, lists: [usize; 4], sequence: usize) -> Comparison {
    let Question { pattern, x, y } = question;
    let lengths = lists.map(|length| length as u64);
    let wanted = within(pattern, *x, *y, room, &lengths, sequence as u64);
    let found = calls::within_lists(question, room, lists, sequence);
    assert_eq!(found, wanted, "room {room}, {lists:?}, {question:?}");
    found
}

/// The answer with records and sequence exactly as long as the room, or long enough for a room
/// that is refused, held to the subset construction.
fn asked(question: &Question, room: u64) -> Comparison {
    let found = assert_within(question, room, both(room.min(MAX_ROOM + 1) as usize));
    if found.answer < FIRST_REFUSAL {
        judge(question, &found);
    }
    found
}

/// Holds an answer to the subset construction of X and of Y side by side, where that is small
/// enough, and to the judging of its sequence. Says whether the construction was.
fn judge(question: &Question, found: &Comparison) -> bool {
    let Question { pattern, x, y } = question;
    let whole = 1 + pattern.letters * found.kept;
    match found.answer {
        WITHIN => assert_eq!(found.examined, whole, "{question:?}"),
        _ => assert!(found.examined <= whole, "{question:?}"),
    }
    if found.answer == NOT_WITHIN {
        let judged = [*x, *y].map(|set| calls::judge(pattern, set, &found.sequence));
        assert_eq!(judged, [ACCEPT, REJECT], "{question:?} {found:?}");
    }
    match inclusion(pattern, *x, *y, CAP) {
        Inclusion::Within => assert_ne!(found.answer, NOT_WITHIN, "{question:?}"),
        Inclusion::Escapes(_) => assert_ne!(found.answer, WITHIN, "{question:?}"),
        Inclusion::TooBig => return false,
    }
    true
}

/// The same question with X and Y exchanged.
fn turned(question: &Question) -> Question {
    Question {
        pattern: question.pattern.clone(),
        x: question.y,
        y: question.x,
    }
}

/// A small question; in about every fourth one Y has X's states too, and in another fourth all states of Y are final.
fn drawn(random: &mut Random) -> Question {
    let mut question = small_question(random);
    match random.below(4) {
        0 => question.y |= question.x,
        1 => question.pattern.finals |= question.y,
        _ => {}
    }
    question
}

/// Catches what the file says of each case.
#[test]
fn the_named_one_way_questions_are_answered_as_they_should() {
    let keys = [
        "pattern", "starts", "room", "answer", "kept", "examined", "sequence",
    ];
    for case in cases::load("within.txt", &keys, &["records"]) {
        let found = asked(&case.question(), case.number("room"));
        let wanted = ["kept", "examined"].map(|key| case.number(key));
        assert_eq!(found.answer, case.answer("answer"), "{}", case.name);
        assert_eq!([found.kept, found.examined], wanted, "{}", case.name);
        assert_eq!(found.sequence, case.letters("sequence"), "{}", case.name);
        if case.has("records") {
            let wanted: Vec<Record> = case.numbers("records").chunks(4).map(record).collect();
            assert_eq!(found.records, wanted, "{}", case.name);
        } else {
            assert_eq!(found.kept, 0, "{} does not name its records", case.name);
        }
    }
}

/// Catches anything wrong that two states can show, in every room up to one more than is needed.
#[test]
fn every_one_way_question_over_two_states_and_two_letters() {
    let mut answers = [0; 2];
    for letters in 1..=2 {
        for masks in all_lists(4, 2 * letters + 3) {
            let question = Question {
                pattern: pattern(2, letters.into(), masks[0], &masks[3..]),
                x: masks[1],
                y: masks[2],
            };
            let mut room = 0;
            while asked(&question, room).answer == FULL {
                room += 1;
            }
            let found = asked(&question, room + 1);
            assert!(judge(&question, &found), "{question:?}");
            answers[(found.answer - WITHIN) as usize] += 1;
        }
    }
    assert!(answers.iter().all(|count| *count > 3000), "{answers:?}");
}

/// Catches inclusion that is missed or made up, the wrong way, or by states and not by languages.
#[test]
fn random_one_way_questions_are_answered_as_the_subset_construction_does() {
    let mut random = Random::new(131);
    let mut judged = [0; 2];
    let mut by_language = 0;
    for _ in 0..rounds(12_000) {
        let question = drawn(&mut random);
        let found = asked(&question, MAX_ROOM);
        if judge(&question, &found) {
            judged[(found.answer - WITHIN) as usize] += 1;
            by_language += usize::from(found.answer == WITHIN && found.kept > 0);
        }
    }
    assert!(judged.iter().all(|count| *count > 2000), "{judged:?}");
    assert!(by_language > 1000, "{by_language}");
}

/// Catches what shows only in large patterns, and in rooms that are too small for them.
#[test]
fn one_way_questions_of_every_size_are_answered_as_the_reference_does() {
    let mut random = Random::new(132);
    let mut answers = [0; 3];
    for _ in 0..rounds(3000) {
        let question = any_question(&mut random);
        let found = asked(&question, random.below(40));
        answers[[FULL, WITHIN, NOT_WITHIN]
            .iter()
            .position(|answer| *answer == found.answer)
            .expect("one of the three")] += 1;
    }
    assert!(answers.iter().all(|count| *count > 100), "{answers:?}");
}

/// Catches one of the two ways taken for both: within each other is the same.
#[test]
fn within_each_other_is_the_same() {
    let mut random = Random::new(133);
    let mut counts = [0; 3];
    for _ in 0..rounds(4000) {
        let question = drawn(&mut random);
        let ways = [&question, &turned(&question)].map(|way| asked(way, MAX_ROOM).answer);
        let within = ways.iter().filter(|answer| **answer == WITHIN).count();
        let same = compared(&question, MAX_ROOM).answer == SAME;
        assert_eq!(within == 2, same, "{question:?}");
        counts[within] += 1;
    }
    assert!(counts.iter().all(|count| *count > 300), "{counts:?}");
}

/// The pairs of the records that were kept.
fn pairs(found: &Comparison) -> Vec<Pair> {
    let pair = |record: &Record| (record.left, record.right);
    found.records.iter().map(pair).collect()
}

/// Catches records that are no evidence, or evidence of something else: they are of X+Y and Y.
#[test]
fn the_records_of_within_are_proved_of_both_together() {
    let mut random = Random::new(134);
    let mut proved = 0;
    for _ in 0..rounds(6000) {
        let question = drawn(&mut random);
        let found = asked(&question, MAX_ROOM);
        if found.answer != WITHIN {
            continue;
        }
        let list = pairs(&found);
        let joined = Question {
            x: question.x | question.y,
            ..question.clone()
        };
        let wanted = Check {
            answer: PROVED,
            place: 0,
        };
        assert_eq!(calls::check_records(&joined, &list), wanted, "{question:?}");
        let (lefts, rights): (Vec<u64>, Vec<u64>) = list.iter().copied().unzip();
        let Question { pattern, x, y } = &joined;
        let found = calls::check(pattern, *x, *y, &lefts, &rights);
        assert_eq!(found, wanted, "{question:?}");
        proved += 1;
    }
    assert!(proved > 500, "{proved}");
}

/// Catches an answer that changes when the room is raised, and FULL with kept other than the room.
#[test]
fn rooms_raised_step_by_step_end_with_one_way_answered() {
    let mut random = Random::new(135);
    let mut full = 0;
    for _ in 0..rounds(1500) {
        let question = drawn(&mut random);
        let answered = asked(&question, MAX_ROOM);
        for room in 0..answered.kept {
            let found = asked(&question, room);
            let numbers = [found.answer, found.kept, found.length];
            assert_eq!(numbers, [FULL, room, 0], "{question:?}");
            assert_eq!(found.records, answered.records[..room as usize]);
            full += 1;
        }
        for room in answered.kept..answered.kept + 4 {
            assert_eq!(asked(&question, room), answered, "{question:?}");
        }
    }
    assert!(full > 1000, "{full}");
}

/// Catches FULL where demand 3 rules it out: with m sets reached from X+Y or from Y, a room of m-1 is enough.
#[test]
fn a_room_one_less_than_the_sets_reached_from_both_together_is_never_full() {
    let mut random = Random::new(136);
    let mut exact = 0;
    for _ in 0..rounds(8000) {
        let question = drawn(&mut random);
        let Question { pattern, x, y } = &question;
        let Some(reached) = sets_reached(pattern, x | y, *y, 1000) else {
            continue;
        };
        let room = reached as u64 - 1;
        let found = asked(&question, room);
        assert_ne!(found.answer, FULL, "{question:?}");
        exact += usize::from(found.kept == room);
    }
    assert!(exact > 200, "{exact}");
}

/// Catches a walk of X and Y in the place of that of X+Y and Y: this family is SAME with 2n+1 pairs, and so it is
/// WITHIN with as many; but the other way the walk keeps every pair that is reached, and is FULL where X and Y are not.
#[test]
fn one_way_may_keep_more_pairs_than_the_comparison() {
    for n in 1..=20 {
        let question = figure_five(n);
        let found = asked(&question, MAX_ROOM);
        assert_eq!((found.answer, found.kept), (WITHIN, 2 * n + 1), "{n}");
        let reached = (1 << (n + 1)) - 1;
        let wanted = match reached <= MAX_ROOM {
            true => (WITHIN, reached),
            false => (FULL, MAX_ROOM),
        };
        let found = asked(&turned(&question), MAX_ROOM);
        assert_eq!((found.answer, found.kept), wanted, "{n}");
    }
}

/// Catches a FULL of the library's small tables given for a larger room, asked one way.
#[test]
fn around_64_pairs_one_way_answers_as_in_any_other_room() {
    let questions = [
        (figure_five(5), 63),
        (switches(6), 64),
        (figure_five(6), 127),
    ];
    for (question, needed) in questions {
        let question = turned(&question);
        for room in (61..=68).chain([126, 127, 128, MAX_ROOM]) {
            let found = asked(&question, room);
            let wanted = match needed <= room {
                true => (WITHIN, needed),
                false => (FULL, room),
            };
            assert_eq!((found.answer, found.kept), wanted, "room {room}");
        }
    }
}

/// Catches a room of 1024 that cannot be filled, and a candidate skipped without reason: the lone state stays in the union.
#[test]
fn switches_asked_one_way_keep_every_pair_or_few() {
    for count in 1..=10 {
        let (question, needed) = (switches(count), 1 << count);
        let found = asked(&question, MAX_ROOM);
        assert_eq!((found.answer, found.kept), (WITHIN, count + 1), "{count}");
        let found = asked(&turned(&question), needed);
        let wanted = (WITHIN, needed, 1 + count * needed);
        assert_eq!((found.answer, found.kept, found.examined), wanted);
        assert_eq!(asked(&turned(&question), needed - 1).answer, FULL);
    }
    let found = asked(&turned(&switches(11)), MAX_ROOM);
    assert_eq!((found.answer, found.kept), (FULL, MAX_ROOM));
}

/// Catches a length, a parent or a room that is held in too few bits.
#[test]
fn a_sequence_of_not_within_may_have_1024_letters() {
    let question = long_way(1024);
    let found = asked(&turned(&question), MAX_ROOM);
    let numbers = [found.answer, found.kept, found.length];
    assert_eq!(numbers, [NOT_WITHIN, 1024, 1024]);
    assert_eq!(found.records[1023].parent, 1022);
    let short = asked(&turned(&question), MAX_ROOM - 1);
    assert_eq!([short.answer, short.kept, short.length], [FULL, 1023, 0]);
}

/// Catches something written beyond what is named, in lists that are all of different length.
#[test]
fn what_is_lent_one_way_may_be_longer_than_the_room() {
    let mut random = Random::new(137);
    for _ in 0..rounds(4000) {
        let question = drawn(&mut random);
        let room = random.below(12);
        let exact = asked(&question, room);
        let mut length = || (room + random.below(9)) as usize;
        let (records, sequence) = (length(), length());
        let found = assert_within(&question, room, Lengths { records, sequence });
        assert_eq!(found, exact);
        let lists = [length(), length(), length(), length()];
        assert_eq!(assert_lists(&question, room, lists, sequence), exact);
    }
}

/// The answer, by the call with records too where the lists are of one length.
fn answer(call: &Call) -> u64 {
    let [records, others @ ..] = call.lists;
    let found = assert_lists(&call.question, call.room, call.lists, call.sequence);
    if others == [records; 3] {
        let sequence = call.sequence;
        assert_within(&call.question, call.room, Lengths { records, sequence });
    }
    let numbers = [found.kept, found.examined, found.length];
    assert!(found.answer < 10 || numbers == [0; 3], "{call:?}");
    found.answer
}

/// Catches a fault of X or Y that the union hides, or one that is looked at too early or too late: 10, 11, 13, 12.
#[test]
fn every_fault_of_a_one_way_question_is_refused_in_order() {
    assert_refusals(answer);
}

/// Catches X or Y not judged as it was given.
#[test]
fn the_starts_of_a_one_way_question_may_have_the_states_of_the_pattern_only() {
    for states in 1..=64 {
        for bit in 0..64 {
            let ask = |x, y| {
                let pattern = blank(states, 1);
                asked(&Question { pattern, x, y }, 1).answer
            };
            let wanted = if bit < states { WITHIN } else { BAD_SET };
            assert_eq!(ask(1 << bit, 0), wanted, "{states} {bit}");
            assert_eq!(ask(0, 1 << bit), wanted, "{states} {bit}");
            assert_eq!(ask(1 << bit, 1 << bit), wanted, "{states} {bit}");
        }
    }
}

/// Catches an example whose page says of it what is not so.
#[test]
fn the_pattern_loosened_on_purpose_is_within_one_way() {
    let file = concat!(
        env!("CARGO_MANIFEST_DIR"),
        "/../../examples/second-sample.pattern"
    );
    let bytes = std::fs::read(file).expect("the example is there");
    let read = calls::read_pattern(&bytes, 2048);
    assert_eq!(read.answer, DONE);
    let question = Question {
        pattern: read.pattern,
        x: read.x,
        y: read.y,
    };
    let found = asked(&question, MAX_ROOM);
    assert_eq!([found.answer, found.kept, found.examined], [WITHIN, 4, 49]);
    assert_eq!(pairs(&found), [(17, 16), (34, 32), (68, 64), (72, 64)]);
    let found = asked(&turned(&question), MAX_ROOM);
    assert_eq!(
        [found.answer, found.kept, found.examined],
        [NOT_WITHIN, 2, 23]
    );
    assert_eq!(found.sequence, [3, 9]);
    assert_eq!(compared(&question, MAX_ROOM).sequence, [3, 9]);
}
