//! Questions for the comparison: random patterns, renamed copies and two families.

use crate::pattern::{all_states, letters, next, Pattern, MAX_LETTERS, MAX_STATES};
use crate::random::Random;

/// A pattern and the two sets to compare.
#[derive(Clone, Debug, Default, PartialEq, Eq)]
pub struct Question {
    /// The pattern.
    pub pattern: Pattern,
    /// X.
    pub x: u64,
    /// Y.
    pub y: u64,
}

/// How many states are final.
#[derive(Clone, Copy, Debug, PartialEq, Eq)]
pub enum Finals {
    /// No state.
    None,
    /// About one state in ten.
    Few,
    /// About every second state.
    Half,
    /// Every state.
    All,
}

/// Every choice of finals.
pub const FINALS: [Finals; 4] = [Finals::None, Finals::Few, Finals::Half, Finals::All];

/// Densities to draw patterns with, in hundredths; walks are longest around 1.25.
pub const DENSITIES: [u64; 6] = [50, 100, 125, 150, 200, 400];

/// A random pattern; sizes outside their ranges are brought to the nearest one.
///
/// `density` is the mean number of states reached from a state by a letter, in
/// hundredths: 125 is 1.25.
pub fn pattern(
    random: &mut Random,
    states: u64,
    letters: u64,
    density: u64,
    finals: Finals,
) -> Pattern {
    let states = states.clamp(1, MAX_STATES);
    let letters = letters.clamp(1, MAX_LETTERS);
    let finals = match finals {
        Finals::None => 0,
        Finals::Few => random.set(states, 1, 10),
        Finals::Half => random.set(states, 1, 2),
        Finals::All => all_states(states),
    };
    let rows = (0..states * letters)
        .map(|_| random.set(states, density, 100 * states))
        .collect();
    Pattern {
        states,
        letters,
        finals,
        rows,
    }
}

/// A random question: density and finals drawn from the lists above, starts of any size.
pub fn question(random: &mut Random, states: u64, letters: u64) -> Question {
    let density = DENSITIES[random.below(DENSITIES.len() as u64) as usize];
    let finals = FINALS[random.below(FINALS.len() as u64) as usize];
    let pattern = pattern(random, states, letters, density, finals);
    let x = start(random, pattern.states);
    let y = start(random, pattern.states);
    Question { pattern, x, y }
}

/// One state, or a random set that may be empty.
fn start(random: &mut Random, states: u64) -> u64 {
    if random.chance(1, 2) {
        1 << random.below(states)
    } else {
        random.set(states, 1, 3)
    }
}

/// The set with every state renamed: state s becomes `names[s]`, or is left out
/// where that is no state.
fn renamed(set: u64, names: &[u64]) -> u64 {
    names
        .iter()
        .enumerate()
        .filter(|(state, name)| set >> state & 1 == 1 && **name < MAX_STATES)
        .fold(0, |renamed, (_, name)| renamed | 1 << name)
}

/// A pattern beside a copy of itself with states in another order; X is the set
/// and Y its image, so the two accept the same sequences. Of a pattern with
/// over 32 states only the first 32 are used.
pub fn renamed_copy(random: &mut Random, pattern: &Pattern, set: u64) -> Question {
    let states = pattern.states.clamp(1, MAX_STATES / 2);
    let inside = all_states(states);
    let names: Vec<u64> = random
        .order(states)
        .iter()
        .map(|name| states + name)
        .collect();
    let row = |state: u64, letter| next(pattern, 1 << state, letter) & inside;
    let mut rows = vec![0; (2 * states * letters(pattern).end) as usize];
    for state in 0..states {
        for letter in letters(pattern) {
            let place = |state: u64| (state * letters(pattern).end + letter) as usize;
            rows[place(state)] = row(state, letter);
            rows[place(names[state as usize])] = renamed(row(state, letter), &names);
        }
    }
    let finals = pattern.finals & inside;
    Question {
        pattern: Pattern {
            states: 2 * states,
            letters: letters(pattern).end,
            finals: finals | renamed(finals, &names),
            rows,
        },
        x: set & inside,
        y: renamed(set & inside, &names),
    }
}

/// The greatest n of the family below: 3*(n+1) states are at most 64.
pub const FIGURE_FIVE_MOST: u64 = 20;

/// The family of 000's Figure 5 for n from 1 to 20: x+y against z, where the
/// subset construction reaches 2^(n+1)-1 pairs and the walk keeps 2n+1.
///
/// Letters a, b are 0, 1. Each of x, y, z goes to itself by both letters; x goes
/// to x1 by a, y to y1 by b, z to z1 by both; from x1 on a chain goes to xn by
/// both letters, and so for y and z. Final are xn, yn and zn.
pub fn figure_five(n: u64) -> Question {
    let n = n.clamp(1, FIGURE_FIVE_MOST);
    let chain = n + 1;
    let starts = [
        (0, [true, false]),
        (chain, [false, true]),
        (2 * chain, [true, true]),
    ];
    let mut rows = Vec::new();
    for (first, enters) in starts {
        rows.extend(enters.map(|enters| 1 << first | u64::from(enters) << (first + 1)));
        rows.extend((first + 1..first + n).flat_map(|state| [1 << (state + 1); 2]));
        rows.extend([0, 0]);
    }
    let [x, y, z] = starts.map(|(first, _)| 1 << first);
    Question {
        pattern: Pattern {
            states: 3 * chain,
            letters: 2,
            finals: (x | y | z) << n,
            rows,
        },
        x: x | y,
        y: z,
    }
}

/// The most switches of the family below: 2*s+1 states are at most 64.
pub const SWITCHES_MOST: u64 = 31;

/// A family where the walk keeps all 2^s pairs that are reached, for s from 1 to 31.
///
/// Each switch has the states off (2i) and on (2i+1), and letter i turns it on; one
/// more state goes to itself by every letter. X is all switches off, Y the lone
/// state, and no state is final. No set of s positions lies within another, so no
/// record helps to skip any pair but its own.
pub fn switches(count: u64) -> Question {
    let count = count.clamp(1, SWITCHES_MOST);
    let lone = 2 * count;
    let row = |state: u64, letter: u64| match state / 2 == letter {
        true => 1 << (2 * letter + 1),
        false => 1 << state,
    };
    Question {
        pattern: Pattern {
            states: lone + 1,
            letters: count,
            finals: 0,
            rows: (0..=lone)
                .flat_map(|state| (0..count).map(move |letter| row(state, letter)))
                .collect(),
        },
        x: (0..count).fold(0, |set, switch| set | 1 << (2 * switch)),
        y: 1 << lone,
    }
}

/// The most letters of the family below: X is back where it was only after 1386 steps.
pub const LONG_WAY_MOST: u64 = 1024;

/// A question that is DIFFERENT only after so many letters, 1 to 1024, where the walk
/// has kept as many records.
///
/// By letter 9 X goes into three rings of 14, 18 and 22 states at once, and Y into
/// one of two states. From there even steps are by letter 5 and odd ones by letter
/// 17, and X is back where it was after 1386 of them; every other letter leads
/// nowhere from both. All states are final but the three that X is in after the
/// last letter. No set that X is in lies within another, so every pair is kept.
pub fn long_way(letters: u64) -> Question {
    let steps = letters.clamp(1, LONG_WAY_MOST) - 1;
    let mut way = Question {
        pattern: Pattern {
            letters: 32,
            ..Pattern::default()
        },
        ..Question::default()
    };
    for (ring, of_x) in [(14, true), (18, true), (22, true), (2, false)] {
        let start = way.pattern.states;
        let first = start + 1;
        let mut add = |letter: usize, to: u64, is_final: bool| {
            let mut rows = [0; 32];
            rows[letter] = 1 << to;
            way.pattern.rows.extend(rows);
            way.pattern.finals |= u64::from(is_final) << way.pattern.states;
            way.pattern.states += 1;
        };
        add(9, first, true);
        for step in 0..ring {
            let letter = if step % 2 == 0 { 5 } else { 17 };
            let is_final = !of_x || step != steps % ring;
            add(letter, first + (step + 1) % ring, is_final);
        }
        *(if of_x { &mut way.x } else { &mut way.y }) |= 1 << start;
    }
    way
}
