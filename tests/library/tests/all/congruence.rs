//! Closing a set by a list of pairs, and congruence by a list of pairs.

use crate::draw::all_lists;
use library::{calls, cases, rounds::rounds};
use reference::answers::BAD_LIST;
use reference::congruence::{close, congruent, Pair};
use reference::random::Random;

/// The two sides of a list.
fn sides(pairs: &[Pair]) -> (Vec<u64>, Vec<u64>) {
    pairs.iter().copied().unzip()
}

fn assert_close(pairs: &[Pair], set: u64) -> u64 {
    let (lefts, rights) = sides(pairs);
    let wanted = close(set, pairs);
    let found = calls::close(&lefts, &rights, set);
    assert_eq!(found, Ok(wanted), "{set} by {pairs:?}");
    wanted
}

fn assert_congruent(pairs: &[Pair], a: u64, b: u64) -> bool {
    let (lefts, rights) = sides(pairs);
    let wanted = congruent(a, b, pairs);
    let found = calls::congruent(&lefts, &rights, a, b);
    assert_eq!(found, Ok(wanted), "{a} {b} by {pairs:?}");
    wanted
}

/// Catches what the scope, §12.1 and §12.2, warns of: one pass over
/// the pairs, and adding from left to right only.
#[test]
fn the_named_closings_end_as_they_should() {
    for case in cases::load("close.txt", &["pairs", "set", "closed"], &[]) {
        let found = assert_close(&case.pairs("pairs"), case.number("set"));
        assert_eq!(found, case.number("closed"), "{}", case.name);
    }
}

/// Catches what the named pairs of sets are about: symmetry, chains and unions.
#[test]
fn the_named_sets_are_congruent_or_not_as_they_should() {
    for case in cases::load("congruent.txt", &["pairs", "sets", "congruent"], &[]) {
        let [a, b] = case.numbers("sets")[..] else {
            panic!("{}: two sets", case.name);
        };
        let found = assert_congruent(&case.pairs("pairs"), a, b);
        assert_eq!(u64::from(found), case.number("congruent"), "{}", case.name);
        assert_eq!(assert_congruent(&case.pairs("pairs"), b, a), found);
    }
}

fn assert_all_sets(pairs: &[Pair], sets: u64) {
    for a in 0..sets {
        assert_close(pairs, a);
        for b in 0..sets {
            assert_congruent(pairs, a, b);
        }
    }
}

/// Catches anything wrong that two pairs can show: all lists, all sets of three states.
#[test]
fn every_list_of_up_to_two_pairs_over_three_states() {
    for pairs in 0..=2 {
        for masks in all_lists(8, 2 * pairs) {
            let list: Vec<Pair> = masks.chunks(2).map(|pair| (pair[0], pair[1])).collect();
            assert_all_sets(&list, 8);
        }
    }
}

/// Catches a pass too few: a third pair can wait for the second, and that for the first.
#[test]
fn every_list_of_three_pairs_over_two_states() {
    for masks in all_lists(4, 6) {
        let list: Vec<Pair> = masks.chunks(2).map(|pair| (pair[0], pair[1])).collect();
        assert_all_sets(&list, 4);
    }
}

/// Catches a fixed number of passes, and bit 63 lost: each pass adds one state only.
#[test]
fn closing_goes_on_for_as_many_passes_as_it_takes() {
    let up = |state: u32| (1 << state, 1 << (state + 1));
    let down = |state: u32| (1 << (state + 1), 1 << state);
    let rising: Vec<Pair> = (0..63).map(up).collect();
    let falling: Vec<Pair> = (0..63).rev().map(up).collect();
    let turned: Vec<Pair> = (0..63).rev().map(down).collect();
    for list in [rising, falling, turned] {
        for state in [0, 1, 31, 62, 63] {
            assert_eq!(assert_close(&list, 1 << state), u64::MAX);
        }
        assert!(assert_congruent(&list, 1, 1 << 63));
        assert!(!assert_congruent(&list, 1, 0));
    }
}

/// A list of pairs of few states each, so that closing takes several passes.
fn sparse_list(random: &mut Random, most: u64) -> Vec<Pair> {
    let states = random.between(1, 64);
    let side = |random: &mut Random| {
        let count = random.below(4);
        (0..count).fold(0, |set, _| set | 1 << random.below(states))
    };
    let length = random.below(most + 1);
    (0..length).map(|_| (side(random), side(random))).collect()
}

/// Catches what only long lists and large sets show. A set and what lies between
/// it and its closing are congruent; another set mostly is not.
#[test]
fn random_lists_close_as_the_reference_does() {
    let mut random = Random::new(104);
    let (mut grown, mut related, mut unrelated) = (0, 0, 0);
    for round in 0..rounds(10_000) {
        let most = if round % 50 == 0 { 1024 } else { 40 };
        let pairs = sparse_list(&mut random, most);
        for _ in 0..6 {
            let set = 1 << random.below(64) | random.set(64, 1, 30);
            let closed = assert_close(&pairs, set);
            grown += usize::from(closed != set);
            let between = set | closed & random.number();
            let other = closed ^ 1 << random.below(64);
            for b in [between, other] {
                let found = assert_congruent(&pairs, set, b);
                *(if found { &mut related } else { &mut unrelated }) += 1;
            }
        }
    }
    let counts = [grown, related, unrelated];
    assert!(counts.iter().all(|count| *count > 3000), "{counts:?}");
}

/// Catches lists that are taken as far as both sides go.
#[test]
fn sides_of_different_length_are_refused() {
    let some = [1, 2, 4, u64::MAX];
    for left in 0..some.len() {
        for right in 0..some.len() {
            let (lefts, rights) = (&some[..left], &some[..right]);
            let wanted = if left == right { None } else { Some(BAD_LIST) };
            assert_eq!(calls::close(lefts, rights, 1).err(), wanted);
            assert_eq!(calls::congruent(lefts, rights, 1, 2).err(), wanted);
        }
    }
}
