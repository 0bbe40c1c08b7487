//! Two texts made into one pattern.

use crate::answers::{DONE, NO_ROOM, TOO_MANY};
use crate::pattern::{Pattern, MAX_LETTERS, MAX_STATES};
use crate::positions::{construct, Construction};
use crate::texts::{read, Fault, Step};

/// What two texts become, with the rows that are left in the row buffer.
#[derive(Clone, Debug, Default, PartialEq, Eq)]
pub struct Expressing {
    /// DONE or a refusal; all else but place and text is 0 and empty on a refusal.
    pub answer: u64,
    /// The place of the fault in its text, 0 on DONE and NO-ROOM.
    pub place: u64,
    /// The text of the fault, 1 or 2; 0 on DONE and NO-ROOM.
    pub text: u64,
    /// n, 32 letters, the finals and the rows 0 to 32*n-1.
    pub pattern: Pattern,
    /// The set of the first text's start.
    pub x: u64,
    /// The set of the second text's start.
    pub y: u64,
}

impl Expressing {
    fn refused(answer: u64, place: usize, text: u64) -> Expressing {
        Expressing {
            answer,
            place: place as u64,
            text,
            ..Expressing::default()
        }
    }
}

/// The construction for a text that is read where so many states are taken: one for its start, if it
/// is left, and one for each name.
fn read_one(text: &[u8], taken: u64) -> Result<Construction, Fault> {
    let no_start = Fault {
        place: 0,
        answer: TOO_MANY,
    };
    let start = (taken < MAX_STATES).then_some(()).ok_or(no_start);
    let steps: Result<Vec<Step>, Fault> = read(text, taken + 1);
    match (start, steps) {
        (Ok(()), steps) => steps.map(|steps| construct(&steps)),
        (Err(no_start), Ok(_)) => Err(no_start),
        (Err(no_start), Err(fault)) => Err(no_start.min(fault)),
    }
}

/// Puts a construction into a pattern, its start at a state and its names at those after it.
fn put(pattern: &mut Pattern, made: &Construction, start: usize) {
    let state = |position: &usize| start + 1 + position;
    let mut step = |from: usize, position: &usize| {
        let row = from * MAX_LETTERS as usize + made.letters[*position] as usize;
        pattern.rows[row] |= 1 << state(position);
    };
    for position in &made.first {
        step(start, position);
    }
    for (before, after) in &made.follow {
        step(state(before), after);
    }
    let last = made.last.iter().map(|position| 1 << state(position));
    pattern.finals |= last.fold(0, |finals, state: u64| finals | state);
    pattern.finals |= u64::from(made.nullable) << start;
}

/// The pattern of two texts, with a row buffer of the given length.
pub fn express(one: &[u8], two: &[u8], row_buffer_length: u64) -> Expressing {
    let first = match read_one(one, 0) {
        Ok(first) => first,
        Err(Fault { place, answer }) => return Expressing::refused(answer, place, 1),
    };
    let start = 1 + first.letters.len();
    let second = match read_one(two, start as u64) {
        Ok(second) => second,
        Err(Fault { place, answer }) => return Expressing::refused(answer, place, 2),
    };
    let states = (start + 1 + second.letters.len()) as u64;
    let rows = states * MAX_LETTERS;
    if row_buffer_length < rows {
        return Expressing::refused(NO_ROOM, 0, 0);
    }
    let mut pattern = Pattern {
        states,
        letters: MAX_LETTERS,
        finals: 0,
        rows: vec![0; rows as usize],
    };
    put(&mut pattern, &first, 0);
    put(&mut pattern, &second, start);
    Expressing {
        answer: DONE,
        pattern,
        x: 1,
        y: 1 << start,
        ..Expressing::default()
    }
}
