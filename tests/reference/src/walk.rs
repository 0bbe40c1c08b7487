//! The comparison of two sets of one pattern: the walk over its candidates.

use crate::answers::{BAD_ROOM, DIFFERENT, FULL, SAME};
use crate::congruence::{congruent, Pair};
use crate::pattern::{accepts, check_sets, check_shape, next, Pattern};

/// The greatest room that may be asked for.
pub const MAX_ROOM: u64 = 1024;

/// The room of the short form.
pub const DEFAULT_ROOM: u64 = 1024;

/// A candidate, and a record once it is kept.
#[derive(Clone, Copy, Debug, Default, PartialEq, Eq)]
pub struct Record {
    /// The left set.
    pub left: u64,
    /// The right set.
    pub right: u64,
    /// The number of the record it came from.
    pub parent: u64,
    /// The letter taken from there.
    pub letter: u64,
}

/// What a comparison returns, and what it leaves in the lent memory.
#[derive(Clone, Debug, Default, PartialEq, Eq)]
pub struct Comparison {
    /// SAME, DIFFERENT, FULL or a refusal; all else is 0 and empty on a refusal.
    pub answer: u64,
    /// The number of records kept.
    pub kept: u64,
    /// The number of candidates dealt with, the stopping one included.
    pub examined: u64,
    /// The number of sequence bytes.
    pub length: u64,
    /// The records 0 to kept-1.
    pub records: Vec<Record>,
    /// The letters from the start to the candidate that differs.
    pub sequence: Vec<u8>,
}

/// The comparison; refusals come in the order 10, 11, 13, 12.
///
/// `list_lengths` has the length of every list lent for the kept records: one
/// for a list of records, four where left, right, parent and letter are apart.
pub fn compare(
    pattern: &Pattern,
    x: u64,
    y: u64,
    room: u64,
    list_lengths: &[u64],
    sequence_length: u64,
) -> Comparison {
    match refusal(pattern, x, y, room, list_lengths, sequence_length) {
        Ok(()) => walk(pattern, x, y, room),
        Err(answer) => refused(answer),
    }
}

/// The first refusal of a comparison, if it is refused.
pub(crate) fn refusal(
    pattern: &Pattern,
    x: u64,
    y: u64,
    room: u64,
    list_lengths: &[u64],
    sequence_length: u64,
) -> Result<(), u64> {
    check_shape(pattern)
        .and_then(|()| check_room(room, list_lengths, sequence_length))
        .and_then(|()| check_sets(pattern, [x, y]))
}

/// What is returned with a refusal.
pub(crate) fn refused(answer: u64) -> Comparison {
    Comparison {
        answer,
        ..Comparison::default()
    }
}

/// The short form of the comparison: it takes the default room.
pub fn compare_default(
    pattern: &Pattern,
    x: u64,
    y: u64,
    list_lengths: &[u64],
    sequence_length: u64,
) -> Comparison {
    compare(pattern, x, y, DEFAULT_ROOM, list_lengths, sequence_length)
}

fn check_room(room: u64, list_lengths: &[u64], sequence_length: u64) -> Result<(), u64> {
    let fits = room <= MAX_ROOM
        && sequence_length >= room
        && list_lengths.iter().all(|&length| length >= room);
    fits.then_some(()).ok_or(BAD_ROOM)
}

/// What is done with one candidate.
enum Step {
    Skip,
    Stop(u64),
    Keep,
}

/// The walk of a question that is not refused.
pub(crate) fn walk(pattern: &Pattern, x: u64, y: u64, room: u64) -> Comparison {
    let mut records: Vec<Record> = Vec::new();
    let mut pairs: Vec<Pair> = Vec::new();
    let mut examined = 0;
    while let Some(candidate) = candidate(pattern, x, y, &records, examined) {
        examined += 1;
        match step(pattern, &pairs, room, candidate) {
            Step::Skip => {}
            Step::Keep => {
                records.push(candidate);
                pairs.push((candidate.left, candidate.right));
            }
            Step::Stop(DIFFERENT) => {
                let sequence = sequence(&records, candidate, examined - 1);
                return finish(DIFFERENT, examined, records, sequence);
            }
            Step::Stop(answer) => return finish(answer, examined, records, Vec::new()),
        }
    }
    finish(SAME, examined, records, Vec::new())
}

/// Candidate number c: the starting pair, then the successors of record (c-1)/k by letter (c-1)%k.
fn candidate(pattern: &Pattern, x: u64, y: u64, records: &[Record], number: u64) -> Option<Record> {
    let Some(successor) = number.checked_sub(1) else {
        return Some(Record {
            left: x,
            right: y,
            parent: 0,
            letter: 0,
        });
    };
    let (parent, letter) = (successor / pattern.letters, successor % pattern.letters);
    let from = records.get(parent as usize)?;
    Some(Record {
        left: next(pattern, from.left, letter),
        right: next(pattern, from.right, letter),
        parent,
        letter,
    })
}

/// The four rules for a candidate, in their order.
fn step(pattern: &Pattern, pairs: &[Pair], room: u64, candidate: Record) -> Step {
    if congruent(candidate.left, candidate.right, pairs) {
        Step::Skip
    } else if accepts(pattern, candidate.left) != accepts(pattern, candidate.right) {
        Step::Stop(DIFFERENT)
    } else if pairs.len() as u64 >= room {
        Step::Stop(FULL)
    } else {
        Step::Keep
    }
}

/// The letters from the start to a candidate. The path ends on reaching record
/// number 0, not on meeting a parent 0: record 1 has parent 0 and its letter counts.
fn sequence(records: &[Record], candidate: Record, number: u64) -> Vec<u8> {
    if number == 0 {
        return Vec::new();
    }
    let mut letters = vec![candidate.letter as u8];
    let mut at = candidate.parent;
    while at != 0 {
        let record = records[at as usize];
        letters.push(record.letter as u8);
        at = record.parent;
    }
    letters.reverse();
    letters
}

fn finish(answer: u64, examined: u64, records: Vec<Record>, sequence: Vec<u8>) -> Comparison {
    Comparison {
        answer,
        kept: records.len() as u64,
        examined,
        length: sequence.len() as u64,
        records,
        sequence,
    }
}
