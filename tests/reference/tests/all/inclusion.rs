//! The one-way question: the walk of X+Y and Y against the subset construction of X and Y, and that against all short words.

use crate::cases::all_of_two_states;
use reference::answers::*;
use reference::inclusion::within;
use reference::judge::judge;
use reference::questions::{question, Question};
use reference::random::Random;
use reference::subsets::{inclusion, Inclusion};
use reference::walk::MAX_ROOM;

const CAP: usize = 20_000;

/// All questions over two states with one letter and with two, then random ones.
fn small_questions() -> impl Iterator<Item = Question> {
    let mut random = Random::new(138);
    let drawn = (0..4000).map(move |round| {
        let (states, letters) = (random.between(1, 9), random.between(1, 4));
        let mut drawn = question(&mut random, states, letters);
        if round % 4 == 0 {
            drawn.pattern.finals |= drawn.y;
        }
        drawn
    });
    all_of_two_states(1)
        .chain(all_of_two_states(2))
        .chain(drawn)
}

/// Whether a sequence is accepted from X and not from Y.
fn escapes(question: &Question, sequence: &[u8]) -> bool {
    let Question { pattern, x, y } = question;
    [*x, *y].map(|set| judge(pattern, set, sequence)) == [ACCEPT, REJECT]
}

/// Catches a walk of the union that says another thing than X and Y do, and a sequence that does not show it.
#[test]
fn the_walk_of_both_together_agrees_with_the_subset_construction_of_each() {
    let mut counts = [0; 2];
    for question in small_questions() {
        let Question { pattern, x, y } = &question;
        let found = within(pattern, *x, *y, MAX_ROOM, &[MAX_ROOM], MAX_ROOM);
        match inclusion(pattern, *x, *y, CAP) {
            Inclusion::Within => assert_eq!(found.answer, WITHIN, "{question:?}"),
            Inclusion::Escapes(shortest) => {
                assert_eq!(found.answer, NOT_WITHIN, "{question:?}");
                assert_eq!(found.sequence.len(), shortest.len(), "{question:?}");
                assert!(escapes(&question, &found.sequence), "{question:?}");
                assert!(escapes(&question, &shortest), "{question:?}");
            }
            Inclusion::TooBig => panic!("{question:?}"),
        }
        counts[(found.answer - WITHIN) as usize] += 1;
    }
    assert!(counts.iter().all(|&count| count > 1000), "{counts:?}");
}

/// Every word of so many letters below a bound.
fn words(letters: u64, length: u32) -> impl Iterator<Item = Vec<u8>> {
    (0..letters.pow(length)).map(move |number| {
        (0..length)
            .map(|place| (number / letters.pow(place) % letters) as u8)
            .collect()
    })
}

/// Catches a subset construction that stops too early, or that asks the wrong way. Two states have 16 pairs of sets,
/// so that a word of 15 letters shows it if any does; with two letters only the short ones are tried.
#[test]
fn the_subset_construction_of_inclusion_agrees_with_all_short_words() {
    for (letters, longest) in [(1, 15), (2, 4)] {
        for question in all_of_two_states(letters) {
            let Question { pattern, x, y } = &question;
            let shown = (0..=longest)
                .flat_map(|length| words(letters, length))
                .any(|word| escapes(&question, &word));
            let found = inclusion(pattern, *x, *y, CAP);
            if shown || letters == 1 {
                assert_eq!(found != Inclusion::Within, shown, "{question:?}");
            }
        }
    }
}

/// Catches a refusal of the one-way question that is not the comparison's, or that judges X+Y alone.
#[test]
fn the_one_way_question_is_refused_as_the_comparison_is() {
    let question = all_of_two_states(1).next().expect("some");
    let pattern = question.pattern;
    let answer = |x, y, room, length| within(&pattern, x, y, room, &[length], length).answer;
    assert_eq!(answer(4, 1, 1, 1), BAD_SET);
    assert_eq!(answer(1, 4, 1, 1), BAD_SET);
    assert_eq!(answer(4, 4, 1, 1), BAD_SET);
    assert_eq!(answer(4, 4, 2, 1), BAD_ROOM);
    assert_eq!(answer(0, 0, 0, 0), WITHIN);
}
