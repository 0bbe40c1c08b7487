//! The walk against the subset construction, over all small questions and random ones.

use crate::cases::{a, all_of_two_states, b, c, compare_all, compare_in, d};
use reference::answers::*;
use reference::judge::judge;
use reference::questions::{figure_five, question, renamed_copy, switches, Question};
use reference::random::Random;
use reference::subsets::{equivalence, sets_reached, Verdict};
use reference::walk::{Comparison, MAX_ROOM};

const CAP: usize = 20_000;

/// All questions over two states with one letter and with two, then random ones.
fn small_questions() -> impl Iterator<Item = Question> {
    let mut random = Random::new(11);
    let drawn = (0..4000).map(move |_| {
        let states = random.between(1, 9);
        let letters = random.between(1, 4);
        question(&mut random, states, letters)
    });
    all_of_two_states(1)
        .chain(all_of_two_states(2))
        .chain(drawn)
}

/// Catches a walk that stops too early, goes on too long, or builds a sequence
/// that does not tell the two sets apart. A shortest one is what the walk finds,
/// since records only stand for pairs as near to the start as the candidate.
#[test]
fn the_walk_agrees_with_the_subset_construction() {
    let mut counts = [0; 2];
    for question in small_questions() {
        let comparison = compare_all(&question);
        let Question { pattern, x, y } = &question;
        match equivalence(pattern, *x, *y, CAP) {
            Verdict::Equivalent => assert_eq!(comparison.answer, SAME, "{question:?}"),
            Verdict::Different(shortest) => {
                assert_eq!(comparison.answer, DIFFERENT, "{question:?}");
                assert_eq!(comparison.sequence.len(), shortest.len(), "{question:?}");
                assert_tells_apart(&question, &comparison.sequence);
                assert_tells_apart(&question, &shortest);
            }
            Verdict::TooBig => panic!("{question:?}"),
        }
        counts[comparison.answer as usize] += 1;
    }
    assert!(counts.iter().all(|&count| count > 1000), "{counts:?}");
}

fn assert_tells_apart(question: &Question, sequence: &[u8]) {
    let Question { pattern, x, y } = question;
    let mut judged = [judge(pattern, *x, sequence), judge(pattern, *y, sequence)];
    judged.sort_unstable();
    assert_eq!(judged, [ACCEPT, REJECT], "{question:?} {sequence:?}");
}

/// Catches kept or examined counted wrongly, a length over kept, and the bound of the scope, §6.10, overstepped.
#[test]
fn the_numbers_of_the_walk_keep_their_bounds() {
    for question in small_questions() {
        let Question { pattern, x, y } = &question;
        let comparison = compare_all(&question);
        let whole = 1 + pattern.letters * comparison.kept;
        if comparison.answer == SAME {
            assert_eq!(comparison.examined, whole, "{question:?}");
        } else {
            assert!(comparison.examined <= whole, "{question:?}");
            assert!(comparison.examined > comparison.kept, "{question:?}");
        }
        assert!(comparison.length <= comparison.kept, "{question:?}");
        let reached = sets_reached(pattern, *x, *y, CAP).expect("small") as u64;
        assert!(comparison.kept < reached, "{question:?}");
    }
}

/// Catches a record that is not the successor pair of its parent, or kept out of order.
#[test]
fn every_record_comes_from_an_earlier_one() {
    for question in small_questions() {
        let comparison = compare_all(&question);
        let records = &comparison.records;
        for (number, record) in records.iter().enumerate().skip(1) {
            let parent = &records[record.parent as usize];
            let next = |set| reference::pattern::next(&question.pattern, set, record.letter);
            assert!((record.parent as usize) < number, "{question:?}");
            assert_eq!(
                [record.left, record.right],
                [parent.left, parent.right].map(next)
            );
        }
        if let Some(first) = records.first() {
            let numbers = [first.left, first.right, first.parent, first.letter];
            assert_eq!(numbers, [question.x, question.y, 0, 0]);
        }
    }
}

/// Raises the room step by step until an answer other than FULL comes.
fn raise_room(question: &Question) -> Comparison {
    (0..=MAX_ROOM)
        .map(|room| {
            let comparison = compare_in(question, room);
            if comparison.answer == FULL {
                assert_eq!(comparison.kept, room, "{question:?}");
                assert_eq!(comparison.length, 0, "{question:?}");
            }
            comparison
        })
        .find(|comparison| comparison.answer != FULL)
        .unwrap_or_else(|| compare_all(question))
}

/// Catches a room that changes an answer once given, FULL with kept other than
/// the room, and records of FULL that are not the first ones of the whole walk.
#[test]
fn raising_the_room_never_changes_an_answer_once_given() {
    let mut random = Random::new(12);
    let mut full = 0;
    for _ in 0..600 {
        let (states, letters) = (random.between(2, 9), random.between(1, 3));
        let question = question(&mut random, states, letters);
        let answered = raise_room(&question);
        assert!([SAME, DIFFERENT].contains(&answered.answer), "{question:?}");
        for room in answered.kept..answered.kept + 4 {
            assert_eq!(compare_in(&question, room), answered, "{question:?} {room}");
        }
        for room in 0..answered.kept {
            let stopped = compare_in(&question, room);
            assert_eq!(stopped.answer, FULL, "{question:?} {room}");
            assert_eq!(stopped.records, answered.records[..room as usize]);
            full += 1;
        }
    }
    assert!(full > 300, "only {full} rooms were too small");
}

/// Catches a copy that is not one, and a walk that misses sameness under renaming.
#[test]
fn a_renamed_copy_is_the_same() {
    let mut random = Random::new(13);
    let mut kept = 0;
    for _ in 0..600 {
        let (states, letters) = (random.between(1, 8), random.between(1, 3));
        let Question { pattern, x, .. } = question(&mut random, states, letters);
        let copy = renamed_copy(&mut random, &pattern, x);
        let comparison = compare_all(&copy);
        assert_eq!(comparison.answer, SAME, "{copy:?}");
        kept += comparison.kept;
    }
    assert!(kept > 1200, "only {kept} records were kept");
}

/// Catches a congruence without unions or transitivity: such a walk keeps
/// exponentially many pairs here and ends FULL.
#[test]
fn figure_five_keeps_2n_plus_1_pairs() {
    for n in 1..=20 {
        let comparison = compare_all(&figure_five(n));
        assert_eq!((comparison.answer, comparison.kept), (SAME, 2 * n + 1));
        assert_eq!(comparison.examined, 1 + 2 * comparison.kept);
    }
}

/// Catches a family whose determinised form is not the exponential one of 000.
#[test]
fn figure_five_reaches_exponentially_many_sets() {
    for n in 1..=8 {
        let Question { pattern, x, y } = figure_five(n);
        let exponential = (1usize << (n + 1)) - 1;
        let reached = exponential + n as usize + 1;
        assert_eq!(sets_reached(&pattern, x, y, CAP), Some(reached));
        assert_eq!(
            equivalence(&pattern, x, y, exponential),
            Verdict::Equivalent
        );
        assert_eq!(
            equivalence(&pattern, x, y, exponential - 1),
            Verdict::TooBig
        );
    }
}

/// Catches a greatest room that is not fully used: 2^10 pairs fill it exactly.
#[test]
fn ten_switches_fill_the_greatest_room() {
    let comparison = compare_all(&switches(10));
    assert_eq!((comparison.answer, comparison.kept), (SAME, 1024));
    let short = compare_in(&switches(10), 1023);
    assert_eq!((short.answer, short.kept), (FULL, 1023));
    let more = compare_all(&switches(11));
    assert_eq!((more.answer, more.kept), (FULL, 1024));
}

/// Catches a walk that skips a pair which no law gives: here every pair is kept.
#[test]
fn switches_keep_every_pair_that_is_reached() {
    for count in 1..=9 {
        let question = switches(count);
        let comparison = compare_all(&question);
        let Question { pattern, x, y } = question;
        assert_eq!((comparison.answer, comparison.kept), (SAME, 1 << count));
        let reached = (1 << count) + 1;
        assert_eq!(sets_reached(&pattern, x, y, CAP), Some(reached));
    }
}

/// Catches a subset construction that counts a set twice or leaves out a start.
#[test]
fn the_sets_reached_are_counted_once_each() {
    let table = [
        (a(), 1, 4, 3),
        (a(), 0, 0, 1),
        (b(), 1, 8, 10),
        (c(), 1, 8, 4),
        (d(), 1, 0, 3),
    ];
    for (pattern, x, y, wanted) in table {
        assert_eq!(sets_reached(&pattern, x, y, wanted), Some(wanted));
        assert_eq!(sets_reached(&pattern, x, y, wanted - 1), None);
    }
}

/// Catches a walk that answers anything at 64 states, where masks use every bit.
#[test]
fn sixty_four_states_agree_with_the_subset_construction() {
    let mut random = Random::new(14);
    let mut counts = [0; 3];
    for _ in 0..200 {
        let letters = random.between(1, 3);
        let question = question(&mut random, 64, letters);
        let Question { pattern, x, y } = &question;
        let judged = equivalence(pattern, *x, *y, 3000);
        let wanted = match judged {
            Verdict::Equivalent => SAME,
            Verdict::Different(_) => DIFFERENT,
            Verdict::TooBig => continue,
        };
        let answer = compare_all(&question).answer;
        counts[answer as usize] += 1;
        assert!(answer == wanted || answer == FULL, "{question:?}");
    }
    assert!(counts[0] > 10 && counts[1] > 10, "{counts:?}");
}
