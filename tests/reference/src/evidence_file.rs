//! Evidence files: a pattern file's numbers, then the count of pairs, then left and right of each.

use crate::answers::{BAD_LIST, BAD_SET, DONE, NO_ROOM};
use crate::evidence::{check_list, MAX_PAIRS};
use crate::file::{self, end, read_number, read_part, Fault, Writing};
use crate::numbers;
use crate::pattern::{all_states, check_sets, check_shape, Pattern};
use crate::questions::Question;

/// The length of the longest evidence file.
pub const LONGEST_EVIDENCE: usize = 40_994;

/// How many places are lent to the reader.
#[derive(Clone, Copy, Debug, PartialEq, Eq)]
pub struct Rooms {
    /// For the rows.
    pub rows: u64,
    /// For the left sides.
    pub lefts: u64,
    /// For the right sides.
    pub rights: u64,
}

/// Buffers that are long enough for every file.
pub const MOST_ROOMS: Rooms = Rooms {
    rows: 2048,
    lefts: MAX_PAIRS as u64,
    rights: MAX_PAIRS as u64,
};

/// What the reader returns, and what it leaves in the buffers.
#[derive(Clone, Debug, Default, PartialEq, Eq)]
pub struct EvidenceReading {
    /// DONE or a refusal; all else but the place is 0 and empty on a refusal.
    pub answer: u64,
    /// The place of the fault, 0 on DONE.
    pub place: u64,
    /// n, k, finals and the rows 0 to n*k-1.
    pub pattern: Pattern,
    /// X.
    pub x: u64,
    /// Y.
    pub y: u64,
    /// The left sides; the count of pairs is their number.
    pub lefts: Vec<u64>,
    /// The right sides.
    pub rights: Vec<u64>,
}

/// Reads an evidence file with buffers of the given lengths.
pub fn read(bytes: &[u8], rooms: Rooms) -> EvidenceReading {
    read_all(bytes, rooms).unwrap_or_else(|fault| EvidenceReading {
        answer: fault.answer,
        place: fault.place as u64,
        ..EvidenceReading::default()
    })
}

fn read_all(bytes: &[u8], rooms: Rooms) -> Result<EvidenceReading, Fault> {
    let (reading, mut place) = read_part(bytes, rooms.rows)?;
    let pairs = read_number(bytes, &mut place, 0..=MAX_PAIRS as u64, BAD_LIST)?;
    if rooms.lefts < pairs || rooms.rights < pairs {
        let answer = NO_ROOM;
        return Err(Fault { answer, place });
    }
    let sets = 0..=all_states(reading.pattern.states);
    let (mut lefts, mut rights) = (Vec::new(), Vec::new());
    for _ in 0..pairs {
        lefts.push(read_number(bytes, &mut place, sets.clone(), BAD_SET)?);
        rights.push(read_number(bytes, &mut place, sets.clone(), BAD_SET)?);
    }
    end(bytes, place)?;
    Ok(EvidenceReading {
        answer: DONE,
        place: 0,
        pattern: reading.pattern,
        x: reading.x,
        y: reading.y,
        lefts,
        rights,
    })
}

/// Writes an evidence file into a byte buffer of the given length; refusals come in the order 10,
/// 11, 16, 12, 14.
pub fn write(question: &Question, lefts: &[u64], rights: &[u64], length: u64) -> Writing {
    match write_all(question, lefts, rights, length) {
        Ok(bytes) => Writing {
            answer: DONE,
            bytes,
        },
        Err(answer) => Writing {
            answer,
            bytes: Vec::new(),
        },
    }
}

fn write_all(
    question: &Question,
    lefts: &[u64],
    rights: &[u64],
    length: u64,
) -> Result<Vec<u8>, u64> {
    let Question { pattern, x, y } = question;
    check_shape(pattern)?;
    check_list(lefts, rights)?;
    let sides = lefts.iter().chain(rights).copied();
    check_sets(pattern, [*x, *y].into_iter().chain(sides))?;
    let bytes: Vec<u8> = values(question, lefts, rights)
        .into_iter()
        .flat_map(numbers::encode)
        .collect();
    let fits = bytes.len() as u64 <= length;
    fits.then_some(bytes).ok_or(NO_ROOM)
}

/// The numbers of an evidence file in their order: the pattern file's, the count, and left and right
/// of each pair.
pub fn values(question: &Question, lefts: &[u64], rights: &[u64]) -> Vec<u64> {
    let Question { pattern, x, y } = question;
    let mut values = file::values(pattern, *x, *y);
    values.push(lefts.len() as u64);
    for (left, right) in lefts.iter().zip(rights) {
        values.extend([left, right]);
    }
    values
}
