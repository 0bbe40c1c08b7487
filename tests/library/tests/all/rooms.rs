//! What the room does to an answer, and every refusal of the comparison.

use crate::comparison::{assert_compared, assert_lists, both, compared};
use crate::draw::{blank, pattern, small_question, EDGES};
use library::calls::Lengths;
use library::faults::{assert_refused_in_order, beyond, of_pattern, Fault};
use library::rounds::rounds;
use reference::answers::*;
use reference::pattern::Pattern;
use reference::questions::{long_way, Question};
use reference::random::Random;
use reference::subsets::sets_reached;
use reference::walk::MAX_ROOM;

/// Catches an answer that changes when the room is raised, FULL with kept other than
/// the room, and records of FULL that are not the first ones of the whole walk.
#[test]
fn rooms_raised_step_by_step_end_with_one_answer() {
    let mut random = Random::new(122);
    let mut full = 0;
    for _ in 0..rounds(1500) {
        let question = small_question(&mut random);
        let answered = compared(&question, MAX_ROOM);
        assert!([SAME, DIFFERENT].contains(&answered.answer), "{question:?}");
        for room in 0..answered.kept {
            let found = compared(&question, room);
            let numbers = [found.answer, found.kept, found.length];
            assert_eq!(numbers, [FULL, room, 0], "{question:?}");
            assert_eq!(found.records, answered.records[..room as usize]);
            full += 1;
        }
        for room in answered.kept..answered.kept + 4 {
            assert_eq!(compared(&question, room), answered, "{question:?}");
        }
    }
    assert!(full > 2000, "{full}");
}

/// Catches FULL where demand 3 (the scope, §6.10) rules it out: with m sets reached
/// from either start, a room of m-1 is enough.
#[test]
fn a_room_one_less_than_the_sets_reached_is_never_full() {
    let mut random = Random::new(123);
    let mut exact = 0;
    for _ in 0..rounds(10_000) {
        let question = small_question(&mut random);
        let Question { pattern, x, y } = &question;
        let Some(reached) = sets_reached(pattern, *x, *y, 1000) else {
            continue;
        };
        let room = reached as u64 - 1;
        let found = compared(&question, room);
        assert_ne!(found.answer, FULL, "{question:?}");
        exact += usize::from(found.kept == room);
    }
    assert!(exact > 300, "{exact}");
}

/// Catches a FULL of the library's small tables given for a larger room, what they hold
/// cut or written where it is not the answer, and an answer that is one pair off.
#[test]
fn around_64_pairs_a_room_answers_as_any_other() {
    for needed in 62..=67 {
        let question = long_way(needed);
        for room in (62..=68).chain([127, 128, 129, MAX_ROOM]) {
            let found = compared(&question, room);
            let wanted = match needed <= room {
                true => [DIFFERENT, needed, needed],
                false => [FULL, room, 0],
            };
            assert_eq!([found.answer, found.kept, found.length], wanted);
            let longer = both(room as usize + 70);
            assert_eq!(assert_compared(&question, room, longer), found);
        }
    }
}

/// A call of the comparison, or of the one-way question: the lengths are those of four lists and of the sequence.
#[derive(Clone, Debug)]
pub struct Call {
    pub question: Question,
    pub room: u64,
    pub lists: [usize; 4],
    pub sequence: usize,
}

/// The answer, by the call with records too where the lists are of one length.
fn answer(call: &Call) -> u64 {
    let [records, others @ ..] = call.lists;
    let found = assert_lists(&call.question, call.room, call.lists, call.sequence);
    if others == [records; 3] {
        let sequence = call.sequence;
        assert_compared(&call.question, call.room, Lengths { records, sequence });
    }
    let numbers = [found.kept, found.examined, found.length];
    assert!(found.answer < 10 || numbers == [0; 3], "{call:?}");
    found.answer
}

/// One less than the room, or than a length that is long enough for any room.
fn one_short(call: &Call) -> usize {
    call.room.min(2000) as usize - 1
}

/// The faults of a room and of what is lent.
fn faults_of_room() -> Vec<Fault<Call>> {
    let mut faults = vec![
        Fault::new("room 1025", BAD_ROOM, |call: &mut Call| {
            call.room = MAX_ROOM + 1;
            call.lists = [2000; 4];
            call.sequence = 2000;
        }),
        Fault::new("room 2^64-1", BAD_ROOM, |call: &mut Call| {
            call.room = u64::MAX;
        }),
        Fault::new("sequence one short", BAD_ROOM, |call: &mut Call| {
            call.sequence = one_short(call);
        }),
        Fault::new("records one short", BAD_ROOM, |call: &mut Call| {
            call.lists = [one_short(call); 4];
        }),
        Fault::new("nothing lent", BAD_ROOM, |call: &mut Call| {
            call.lists = [0; 4];
            call.sequence = 0;
        }),
    ];
    let lists = ["lefts", "rights", "parents", "letters"];
    faults.extend(lists.into_iter().enumerate().map(|(list, name)| {
        Fault::new(name, BAD_ROOM, move |call: &mut Call| {
            call.lists[list] = one_short(call);
        })
    }));
    faults
}

/// Fails unless every fault is refused, and of two the one that comes first: 10, 11, 13, 12 is the order.
pub fn assert_refusals(answer: impl Fn(&Call) -> u64) {
    let mut faults = of_pattern(|call: &mut Call| &mut call.question.pattern);
    faults.extend(faults_of_room());
    faults.extend([
        Fault::new("bit n in X", BAD_SET, |call: &mut Call| {
            call.question.x |= beyond(&call.question.pattern);
        }),
        Fault::new("bit n in Y", BAD_SET, |call: &mut Call| {
            call.question.y |= beyond(&call.question.pattern);
        }),
        Fault::new("bit 63 in X", BAD_SET, |call: &mut Call| {
            call.question.x |= 1 << 63;
        }),
        Fault::new("bit 63 in Y", BAD_SET, |call: &mut Call| {
            call.question.y |= 1 << 63;
        }),
    ]);
    let order = [BAD_SIZE, BAD_TABLE, BAD_ROOM, BAD_SET];
    for (pattern, room) in [(blank(3, 1), 1), (blank(3, 1), 65), (blank(62, 32), 1024)] {
        let question = Question {
            pattern,
            x: 1,
            y: 2,
        };
        let right = Call {
            question,
            room,
            lists: [room as usize; 4],
            sequence: room as usize,
        };
        assert_refused_in_order(&right, &faults, &order, &answer);
    }
}

/// Catches a fault that is not looked at, or that is looked at too early or too late.
#[test]
fn every_fault_of_a_comparison_is_refused_in_order() {
    assert_refusals(answer);
}

/// Catches a list that is judged by what would be kept: here nothing would be.
#[test]
fn lists_are_judged_by_the_room_asked_for() {
    let question = Question {
        pattern: pattern(3, 1, 5, &[2, 1, 4]),
        x: 1,
        y: 1,
    };
    for room in [0, 1, 2, 64, 65, 255, 256, 257, 1023, 1024, 1025] {
        for length in [
            0, 1, 2, 63, 64, 65, 254, 255, 256, 257, 1022, 1023, 1024, 1025,
        ] {
            let wanted = match length >= room && room <= MAX_ROOM {
                true => SAME,
                false => BAD_ROOM,
            };
            let found = assert_compared(&question, room, both(length as usize));
            assert_eq!(found.answer, wanted, "{room} {length}");
        }
    }
}

/// Catches a product of n and k that is formed before the size is judged, and a room
/// that is used before it is judged.
#[test]
fn n_and_k_and_the_room_may_be_any_number_of_64_bits() {
    for states in EDGES {
        for letters in EDGES {
            for rows in [0, 1, 2, 64, 2048] {
                let pattern = Pattern {
                    states,
                    letters,
                    finals: 0,
                    rows: vec![0; rows],
                };
                let question = Question {
                    pattern,
                    x: 0,
                    y: 1,
                };
                for room in EDGES {
                    assert_compared(&question, room, both(3));
                }
            }
        }
    }
}

/// Catches a set with a bit that is no state let pass, or the last state refused, at any n.
#[test]
fn the_starts_may_have_the_states_of_the_pattern_only() {
    for states in 1..=64 {
        for bit in 0..64 {
            let ask = |x, y| {
                let pattern = blank(states, 1);
                compared(&Question { pattern, x, y }, 1).answer
            };
            let wanted = if bit < states { SAME } else { BAD_SET };
            assert_eq!(ask(1 << bit, 0), wanted, "{states} {bit}");
            assert_eq!(ask(0, 1 << bit), wanted, "{states} {bit}");
        }
    }
}
