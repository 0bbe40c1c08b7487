//! Random automata of every size: 106,496 of them, a quarter for each share of final states.

use crate::comparison::compared;
use library::{calls, rounds::rounds};
use reference::answers::*;
use reference::pattern::{MAX_LETTERS, MAX_STATES};
use reference::questions::{pattern, Finals, Question, DENSITIES};
use reference::random::Random;
use reference::subsets::{equivalence, sets_reached, Verdict};
use reference::walk::{Comparison, MAX_ROOM};

/// How often each number of states goes with each number of letters.
const EACH_SIZE: usize = 13;

/// How many pairs or sets the subset construction may reach.
const CAP: usize = 60;

/// How often each answer came, and how often the subset construction could judge it.
#[derive(Debug, Default)]
struct Counts {
    answers: [usize; 3],
    judged: [usize; 3],
    rooms: [usize; 3],
}

fn compare_every_size(seed: u64, finals: Finals) -> Counts {
    let mut random = Random::new(seed);
    let mut counts = Counts::default();
    for _ in 0..rounds(EACH_SIZE) {
        for states in 1..=MAX_STATES {
            for letters in 1..=MAX_LETTERS {
                let question = draw(&mut random, states, letters, finals);
                let room = draw_room(&mut random);
                let found = compared(&question, room);
                counts.answers[found.answer as usize] += 1;
                counts.judged[found.answer as usize] += usize::from(judge(&question, &found));
                counts.rooms[(room > 30) as usize + (room > 500) as usize] += 1;
            }
        }
    }
    counts
}

/// Densities around 1.25 states per state and letter; starts of one state or of any number.
fn draw(random: &mut Random, states: u64, letters: u64, finals: Finals) -> Question {
    let density = *random.pick(&DENSITIES).expect("some");
    let pattern = pattern(random, states, letters, density, finals);
    let mut start = || match random.chance(1, 2) {
        true => 1 << random.below(states),
        false => random.set(states, 1, 3),
    };
    let (x, y) = (start(), start());
    Question { pattern, x, y }
}

/// Rooms from 0 to 1024, the small ones more often.
fn draw_room(random: &mut Random) -> u64 {
    match random.below(32) {
        0 => 0,
        1 => MAX_ROOM,
        2..=6 => random.between(0, MAX_ROOM),
        7..=14 => random.between(1, 100),
        _ => random.between(1, 30),
    }
}

/// Holds an answer to the subset construction, where that is small enough, and to
/// what the scope, §6.6, says of the numbers. Says whether the construction was.
fn judge(question: &Question, found: &Comparison) -> bool {
    let Question { pattern, x, y } = question;
    let whole = 1 + pattern.letters * found.kept;
    match found.answer {
        SAME => assert_eq!(found.examined, whole, "{question:?}"),
        _ => assert!(found.examined <= whole, "{question:?}"),
    }
    assert!(found.length <= found.kept, "{question:?}");
    if found.answer == DIFFERENT {
        let mut judged = [*x, *y].map(|set| calls::judge(pattern, set, &found.sequence));
        judged.sort_unstable();
        assert_eq!(judged, [ACCEPT, REJECT], "{question:?} {found:?}");
    }
    if let Some(reached) = sets_reached(pattern, *x, *y, CAP) {
        assert!(found.kept < reached as u64, "{question:?}");
    }
    match equivalence(pattern, *x, *y, CAP) {
        Verdict::Equivalent => assert_ne!(found.answer, DIFFERENT, "{question:?}"),
        Verdict::Different(shortest) => {
            assert_ne!(found.answer, SAME, "{question:?}");
            let length = (found.answer == DIFFERENT).then_some(found.sequence.len());
            assert!(
                length.is_none_or(|length| length == shortest.len()),
                "{question:?}"
            );
        }
        Verdict::TooBig => return false,
    }
    true
}

/// Catches a walk that keeps too much or too little where nothing ends it but SAME and FULL.
#[test]
fn automata_without_final_states_are_the_same_or_full() {
    let counts = compare_every_size(124, Finals::None);
    assert_eq!(counts.answers[1], 0, "{counts:?}");
    assert!(
        counts.answers[0] > 1000 && counts.answers[2] > 1000,
        "{counts:?}"
    );
    assert!(counts.judged[0] > 500, "{counts:?}");
}

/// Catches what shows only after a long walk: few states are final, so differences come late.
#[test]
fn automata_with_few_final_states_are_compared_as_the_reference_does() {
    let counts = compare_every_size(125, Finals::Few);
    assert!(
        counts.answers.iter().all(|count| *count > 300),
        "{counts:?}"
    );
    assert!(counts.judged[1] > 300, "{counts:?}");
}

/// Catches a difference that is overlooked: half of the states are final.
#[test]
fn automata_with_half_their_states_final_are_compared_as_the_reference_does() {
    let counts = compare_every_size(126, Finals::Half);
    assert!(
        counts.answers[0] > 300 && counts.answers[1] > 3000,
        "{counts:?}"
    );
    assert!(counts.judged[1] > 300, "{counts:?}");
}

/// Catches the empty set taken for one that accepts: it alone does not, here.
#[test]
fn automata_with_all_states_final_are_compared_as_the_reference_does() {
    let counts = compare_every_size(127, Finals::All);
    assert!(
        counts.answers.iter().all(|count| *count > 300),
        "{counts:?}"
    );
    assert!(counts.rooms.iter().all(|count| *count > 300), "{counts:?}");
}
