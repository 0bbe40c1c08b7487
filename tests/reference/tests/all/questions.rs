//! The sources of random questions: what they promise about what they draw.

use reference::answers::DIFFERENT;
use reference::pattern::check;
use reference::questions::{long_way, pattern, question, renamed_copy, Finals, Question, FINALS};
use reference::random::Random;
use reference::walk::{compare, Comparison};

/// Catches a source that draws a pattern which the calls refuse, at any size.
#[test]
fn every_drawn_question_is_valid() {
    let mut random = Random::new(51);
    for states in 1..=64 {
        for letters in [1, 2, 32] {
            let drawn = question(&mut random, states, letters);
            let copy = renamed_copy(&mut random, &drawn.pattern, drawn.x);
            assert_eq!(
                (drawn.pattern.states, drawn.pattern.letters),
                (states, letters)
            );
            for Question { pattern, x, y } in [drawn, copy] {
                assert_eq!(check(&pattern), Ok(()), "{states} {letters}");
                let sets = reference::pattern::check_sets(&pattern, [x, y]);
                assert_eq!(sets, Ok(()), "{states} {letters}");
            }
        }
    }
}

/// Catches a density that is not the mean number of states reached.
#[test]
fn the_density_is_the_mean_number_of_states_reached() {
    let mut random = Random::new(52);
    for density in [50, 125, 400] {
        let rows = (0..200).flat_map(|_| pattern(&mut random, 10, 2, density, Finals::Half).rows);
        let reached: u64 = rows.map(|row| u64::from(row.count_ones())).sum();
        let wanted = density * 4000 / 100;
        assert!(reached.abs_diff(wanted) < wanted / 10, "{reached} {wanted}");
    }
}

/// Catches finals drawn otherwise than their name says.
#[test]
fn finals_are_none_few_half_or_all() {
    let mut random = Random::new(53);
    let counts = FINALS.map(|finals| {
        let drawn = (0..100).map(|_| pattern(&mut random, 64, 1, 125, finals).finals);
        drawn
            .map(|finals| u64::from(finals.count_ones()))
            .sum::<u64>()
    });
    let [none, few, half, all] = counts;
    assert_eq!((none, all), (0, 6400));
    assert!(
        (480..800).contains(&few) && (3000..3400).contains(&half),
        "{counts:?}"
    );
}

/// Catches a source that differs between runs or machines.
#[test]
fn a_seed_always_gives_the_same_numbers() {
    let mut random = Random::new(0);
    let numbers: Vec<u64> = (0..3).map(|_| random.number()).collect();
    let wanted = [
        0xe220_a839_7b1d_cdaf,
        0x6e78_9e6a_a1b9_65f4,
        0x06c4_5d18_8009_454f,
    ];
    assert_eq!(numbers, wanted);
}

/// Catches an order that loses or repeats a state.
#[test]
fn a_random_order_has_every_state_once() {
    let mut random = Random::new(54);
    let mut moved = 0;
    for states in 1..=64 {
        let mut order = random.order(states);
        moved += order
            .iter()
            .zip(0..)
            .filter(|(&state, place)| state != *place)
            .count();
        order.sort_unstable();
        assert!(order.into_iter().eq(0..states));
    }
    assert!(moved > 1000, "only {moved} states were moved");
}

/// Catches a long way that differs sooner or later than it says, or keeps fewer records.
#[test]
fn a_long_way_differs_after_as_many_letters_as_it_says() {
    for letters in [1, 2, 3, 14, 64, 127, 1024] {
        let Question { pattern, x, y } = long_way(letters);
        let Comparison {
            answer,
            kept,
            length,
            ..
        } = compare(&pattern, x, y, letters, &[letters], letters);
        assert_eq!([answer, kept, length], [DIFFERENT, letters, letters]);
    }
}
