//! The check of evidence: start, order and sides (the scope, §8), records of the walk, and random lists.

use crate::cases::{a, all_of_two_states, b, compare_all, pattern, sides};
use reference::answers::*;
use reference::evidence::{check, Check};
use reference::pattern::Pattern;
use reference::questions::{question, Question};
use reference::random::Random;
use reference::subsets::{equivalence, Verdict};

/// The scope, §8.4: catches a failing pair reported where the starting pair does not follow from the list.
#[test]
fn the_starting_pair_is_looked_at_first() {
    let table: [(&[u64], &[u64], u64, u64); 7] = [
        (&[], &[], NOT_PROVED, 0),
        (&[1], &[2], NOT_PROVED, 1),
        (&[1, 2], &[2, 4], NOT_PROVED, 0),
        (&[3], &[4], PROVED, 0),
        (&[3, 1], &[4, 2], NOT_PROVED, 1),
        (&[1, 3, 2], &[2, 4, 1], NOT_PROVED, 0),
        (&[0, 3, 2], &[0, 4, 1], NOT_PROVED, 2),
    ];
    for (lefts, rights, answer, place) in table {
        let found = check(&a(), 3, 4, lefts, rights);
        assert_eq!(found, Check { answer, place }, "{lefts:?} {rights:?}");
    }
}

/// The scope, §8.3: catches a starting pair that has to be listed, or to be listed in its order.
#[test]
fn the_starting_pair_need_only_be_congruent_by_the_list() {
    let all = pattern(4, 1, 15, &[1, 2, 4, 8]);
    let table: [(&Pattern, u64, u64, &[u64], &[u64]); 6] = [
        (&a(), 3, 4, &[3], &[4]),
        (&a(), 4, 3, &[3], &[4]),
        (&a(), 3, 3, &[], &[]),
        (&a(), 3, 3, &[3], &[4]),
        (&all, 5, 10, &[1, 4], &[2, 8]),
        (&all, 1, 4, &[1, 2], &[2, 4]),
    ];
    for (pattern, x, y, lefts, rights) in table {
        let found = check(pattern, x, y, lefts, rights);
        assert_eq!(
            (found.answer, found.place),
            (PROVED, 0),
            "{x} {y} {lefts:?} {rights:?}"
        );
    }
    // by one pair alone neither the union nor the chain follows
    for (x, y) in [(5, 10), (1, 4)] {
        let found = check(&all, x, y, &[1], &[2]);
        assert_eq!((found.answer, found.place), (NOT_PROVED, 1), "{x} {y}");
    }
}

/// The scope, §8.3: catches an empty list that proves more than a set against itself, or less.
#[test]
fn an_empty_list_is_evidence_for_equal_sets_alone() {
    for Question { pattern, x, y } in all_of_two_states(1) {
        let wanted = if x == y { PROVED } else { NOT_PROVED };
        let found = check(&pattern, x, y, &[], &[]);
        assert_eq!((found.answer, found.place), (wanted, 0), "{x} {y}");
    }
}

/// The scope, §7.13: catches sides of different length that are taken as far as both go.
#[test]
fn two_sides_of_different_length_are_a_bad_list() {
    assert_eq!(check(&a(), 3, 4, &[3, 3], &[4]).answer, BAD_LIST);
    assert_eq!(check(&a(), 3, 4, &[3], &[4, 4]).answer, BAD_LIST);
    assert_eq!(check(&a(), 3, 4, &[8, 3], &[4]).answer, BAD_LIST);
}

/// Catches successors looked for in the list itself, without congruence: the
/// successors of B's last pair are only congruent, not listed.
#[test]
fn successors_need_only_be_congruent_by_the_list() {
    assert_eq!(check(&b(), 1, 8, &[1, 2, 4], &[8, 48, 40]).answer, PROVED);
    let shorter = check(&b(), 1, 8, &[1, 2], &[8, 48]);
    assert_eq!((shorter.answer, shorter.place), (NOT_PROVED, 1));
}

/// Catches a check that wants more of a list than what the walk leaves on SAME.
#[test]
fn records_of_same_are_evidence() {
    let mut random = Random::new(41);
    let drawn = (0..3000).map(|_| {
        let states = random.between(1, 10);
        let letters = random.between(1, 3);
        question(&mut random, states, letters)
    });
    let mut seen = [0; 2];
    for Question { pattern, x, y } in drawn.chain(all_of_two_states(1)) {
        let question = Question { pattern, x, y };
        let comparison = compare_all(&question);
        if comparison.answer == SAME {
            let (lefts, rights) = sides(&comparison);
            let found = check(&question.pattern, x, y, &lefts, &rights);
            assert_eq!((found.answer, found.place), (PROVED, 0), "{question:?}");
            seen[usize::from(comparison.kept > 0)] += 1;
        }
    }
    assert!(
        seen[0] > 100 && seen[1] > 1000,
        "only {seen:?} lists were checked"
    );
}

/// Catches a check that lets a wrong list pass: PROVED means that the languages are equal.
#[test]
fn a_proved_list_means_equal_languages() {
    let mut random = Random::new(42);
    let (mut proved, mut not_proved) = (0, 0);
    for question in all_of_two_states(1) {
        let Question { pattern, x, y } = &question;
        for _ in 0..8 {
            let extra = random.below(3);
            let listed = random.chance(1, 2);
            let mut side = |first| {
                let others = (0..extra).map(|_| random.below(4));
                let start = listed.then_some(first).into_iter();
                start.chain(others).collect::<Vec<u64>>()
            };
            let (lefts, rights) = (side(*x), side(*y));
            if check(pattern, *x, *y, &lefts, &rights).answer == PROVED {
                let judged = equivalence(pattern, *x, *y, 100);
                assert_eq!(
                    judged,
                    Verdict::Equivalent,
                    "{question:?} {lefts:?} {rights:?}"
                );
                proved += 1;
            } else {
                not_proved += 1;
            }
        }
    }
    assert!(proved > 1000 && not_proved > 1000, "{proved} {not_proved}");
}
