//! No call breaks, whatever numbers come in.

use crate::cases::pattern;
use reference::answers::*;
use reference::pattern::Pattern;
use reference::questions::{figure_five, renamed_copy, switches};
use reference::random::Random;
use reference::subsets::{equivalence, sets_reached, Verdict};
use reference::{events, evidence, file, inclusion, judge, numbers, pattern as rules, walk};

const EDGES: [u64; 9] = [0, 1, 2, 32, 33, 64, 65, 1 << 63, u64::MAX];

/// Patterns of every mixture of edge sizes, with few rows.
fn edge_patterns() -> impl Iterator<Item = Pattern> {
    EDGES.into_iter().flat_map(|states| {
        EDGES.into_iter().flat_map(move |letters| {
            [&[][..], &[u64::MAX], &[0, 1]].map(|rows| pattern(states, letters, u64::MAX, rows))
        })
    })
}

/// Catches a product or a shift that leaves its range before the size is judged.
#[test]
fn every_call_answers_at_the_edges_of_the_numbers() {
    for pattern in edge_patterns() {
        for set in EDGES {
            let refused = rules::check_shape(&pattern).is_err();
            let answers = [
                judge::judge(&pattern, set, &[0, 255]),
                walk::compare(&pattern, set, 1, set, &[set], set).answer,
                inclusion::within(&pattern, set, 1, set, &[set], set).answer,
                evidence::check(&pattern, set, 1, &[set], &[1]).answer,
                file::write(&pattern, set, 1, set).answer,
            ];
            for answer in answers {
                assert!(name(answer).is_some());
                assert!(!refused || [BAD_SIZE, BAD_TABLE].contains(&answer));
            }
        }
    }
}

/// Catches a successor, a subset construction or a copy that trusts the pattern's numbers.
#[test]
fn unchecked_patterns_break_nothing() {
    let mut random = Random::new(61);
    for pattern in edge_patterns() {
        assert_eq!(rules::next(&pattern, u64::MAX, u64::MAX), 0);
        assert_eq!(rules::next(&pattern, 0, 0), 0);
        assert_ne!(equivalence(&pattern, u64::MAX, 0, 9), Verdict::Equivalent);
        assert!(sets_reached(&pattern, u64::MAX, 0, 9).is_some_and(|sets| sets >= 2));
        let copy = renamed_copy(&mut random, &pattern, u64::MAX);
        assert!((2..=64).contains(&copy.pattern.states));
    }
    assert_eq!(figure_five(u64::MAX), figure_five(20));
    assert_eq!(figure_five(0), figure_five(1));
    assert_eq!(switches(u64::MAX), switches(31));
    assert_eq!(switches(0), switches(1));
}

/// Catches a place beyond the data that is looked at.
#[test]
fn a_place_beyond_the_data_is_cut() {
    for place in [3, 4, usize::MAX] {
        assert_eq!(numbers::read(&[1, 2, 3], place), Err(CUT));
    }
    assert_eq!(events::name(u64::MAX), None);
}

/// Catches a reader that breaks on any short data at all.
#[test]
fn every_data_of_up_to_six_bytes_gets_an_answer() {
    const BYTES: [u8; 7] = [0, 1, 2, 3, 0x7f, 0x80, 0xff];
    let mut done = 0;
    for length in 0..=6 {
        for number in 0..BYTES.len().pow(length) {
            let byte = |place| BYTES[number / BYTES.len().pow(place) % BYTES.len()];
            let bytes: Vec<u8> = (0..length).map(byte).collect();
            let reading = file::read(&bytes, 4);
            assert!(reading.answer == DONE || is_refusal(reading.answer));
            assert!(reading.place <= u64::from(length));
            done += u64::from(reading.answer == DONE);
        }
    }
    // n 1, k 1: four masks of 0 or 1 are all that fits into six bytes.
    assert_eq!(done, 16);
}
