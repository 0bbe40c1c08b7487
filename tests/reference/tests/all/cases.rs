//! Patterns and small helpers that several tests use.

use reference::pattern::Pattern;
use reference::questions::Question;
use reference::walk::{compare, Comparison, MAX_ROOM};

/// A pattern from its numbers.
pub fn pattern(states: u64, letters: u64, finals: u64, rows: &[u64]) -> Pattern {
    Pattern {
        states,
        letters,
        finals,
        rows: rows.to_vec(),
    }
}

/// Pattern A of the scope, §11.1.
pub fn a() -> Pattern {
    pattern(3, 1, 5, &[2, 1, 4])
}

/// Pattern B of the scope, §11.1.
pub fn b() -> Pattern {
    pattern(6, 1, 18, &[2, 4, 3, 48, 32, 8])
}

/// Pattern C of the scope, §11.1.
pub fn c() -> Pattern {
    pattern(4, 1, 9, &[3, 4, 0, 8])
}

/// Pattern D of the scope, §11.1.
pub fn d() -> Pattern {
    pattern(2, 2, 2, &[0, 2, 0, 0])
}

/// A pattern whose rows and finals are all empty.
pub fn blank(states: u64, letters: u64) -> Pattern {
    pattern(states, letters, 0, &vec![0; (states * letters) as usize])
}

/// A comparison with buffers as long as the room.
pub fn compare_in(question: &Question, room: u64) -> Comparison {
    let Question { pattern, x, y } = question;
    compare(pattern, *x, *y, room, &[room], room)
}

/// A comparison with the greatest room.
pub fn compare_all(question: &Question) -> Comparison {
    compare_in(question, MAX_ROOM)
}

/// The two sides of a comparison's records.
pub fn sides(comparison: &Comparison) -> (Vec<u64>, Vec<u64>) {
    comparison
        .records
        .iter()
        .map(|record| (record.left, record.right))
        .unzip()
}

/// The pairs of a comparison's records.
pub fn pairs(comparison: &Comparison) -> Vec<(u64, u64)> {
    let (lefts, rights) = sides(comparison);
    lefts.into_iter().zip(rights).collect()
}

/// Every question over two states and the given number of letters.
pub fn all_of_two_states(letters: u64) -> impl Iterator<Item = Question> {
    let rows = 2 * letters;
    (0..1u64 << (2 * rows + 6)).map(move |bits| Question {
        pattern: pattern(
            2,
            letters,
            bits & 3,
            &(0..rows)
                .map(|row| bits >> (6 + 2 * row) & 3)
                .collect::<Vec<_>>(),
        ),
        x: bits >> 2 & 3,
        y: bits >> 4 & 3,
    })
}
