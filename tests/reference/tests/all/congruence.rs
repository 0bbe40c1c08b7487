//! Closing against the definition of congruence (the scope, §4.1): the least relation with its five laws.

use reference::congruence::{close, congruent, Pair};
use reference::random::Random;

const STATES: u64 = 3;
const SETS: usize = 1 << STATES;

type Relation = [[bool; SETS]; SETS];

/// The least relation, found by adding what the laws ask for until nothing is added.
fn least_relation(pairs: &[Pair]) -> Relation {
    let mut relation = [[false; SETS]; SETS];
    for (set, row) in relation.iter_mut().enumerate() {
        row[set] = true;
    }
    for &(left, right) in pairs {
        relation[left as usize][right as usize] = true;
    }
    loop {
        let wider = one_more_step(&relation);
        if wider == relation {
            return relation;
        }
        relation = wider;
    }
}

/// Symmetry, transitivity and unions, each taken once.
fn one_more_step(relation: &Relation) -> Relation {
    let mut wider = *relation;
    let related: Vec<(usize, usize)> = (0..SETS)
        .flat_map(|left| (0..SETS).map(move |right| (left, right)))
        .filter(|&(left, right)| relation[left][right])
        .collect();
    for &(a, b) in &related {
        wider[b][a] = true;
        for &(c, d) in &related {
            wider[a | c][b | d] = true;
            wider[a][d] |= b == c;
        }
    }
    wider
}

fn assert_closing_decides(pairs: &[Pair]) {
    let relation = least_relation(pairs);
    for (left, row) in relation.iter().enumerate() {
        for (right, &related) in row.iter().enumerate() {
            let found = congruent(left as u64, right as u64, pairs);
            assert_eq!(found, related, "{left} {right} by {pairs:?}");
        }
    }
}

/// Catches a closing that stops early, adds one way only, or adds what no law gives.
#[test]
fn closing_decides_the_least_relation_for_every_list_of_two_pairs() {
    let sides = 0..1u64 << (4 * STATES);
    for bits in sides {
        let [a, b, c, d] = [0, 3, 6, 9].map(|shift| bits >> shift & 7);
        assert_closing_decides(&[(a, b), (c, d)]);
    }
}

/// Catches what only shows with a longer chain of pairs, each needing the one before.
#[test]
fn closing_decides_the_least_relation_for_random_lists() {
    let mut random = Random::new(31);
    for _ in 0..2000 {
        let length = random.below(6);
        let mut side = || random.below(SETS as u64);
        let pairs: Vec<Pair> = (0..length).map(|_| (side(), side())).collect();
        assert_closing_decides(&pairs);
    }
}

/// Catches a fixed number of passes: each pass over this list adds one state only.
#[test]
fn closing_goes_on_for_as_many_passes_as_it_takes() {
    let pairs: Vec<Pair> = (0..63).rev().map(|s| (1 << s, 1 << (s + 1))).collect();
    assert_eq!(close(1, &pairs), u64::MAX);
    let turned: Vec<Pair> = (0..63).map(|s| (1 << s, 1 << (s + 1))).collect();
    assert_eq!(close(1 << 63, &turned), u64::MAX);
}
