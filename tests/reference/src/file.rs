//! Pattern files: the reader, where the first fault by place decides, and the writer.

use crate::answers::{BAD_SET, BAD_SIZE, DONE, NO_ROOM, TAIL};
use crate::numbers;
use crate::pattern::{all_states, check_sets, check_shape, Pattern, MAX_LETTERS, MAX_STATES};
use std::ops::RangeInclusive;

/// The length of the longest pattern file.
pub const LONGEST_FILE: usize = 20_512;

/// What the reader returns, and what it leaves in the row buffer.
#[derive(Clone, Debug, Default, PartialEq, Eq)]
pub struct Reading {
    /// DONE or a refusal; all else but the place is 0 and empty on a refusal.
    pub answer: u64,
    /// The place of the fault, 0 on DONE.
    pub place: u64,
    /// n, k, finals and the rows 0 to n*k-1.
    pub pattern: Pattern,
    /// X.
    pub x: u64,
    /// Y.
    pub y: u64,
}

/// What the writer leaves in the byte buffer; the byte count is its length.
#[derive(Clone, Debug, Default, PartialEq, Eq)]
pub struct Writing {
    /// DONE or a refusal.
    pub answer: u64,
    /// The bytes written, none on a refusal.
    pub bytes: Vec<u8>,
}

/// A refusal and its place.
pub(crate) struct Fault {
    pub(crate) answer: u64,
    pub(crate) place: usize,
}

/// Reads a pattern file with a row buffer of the given length.
pub fn read(bytes: &[u8], row_buffer_length: u64) -> Reading {
    read_all(bytes, row_buffer_length).unwrap_or_else(|fault| Reading {
        answer: fault.answer,
        place: fault.place as u64,
        ..Reading::default()
    })
}

fn read_all(bytes: &[u8], row_buffer_length: u64) -> Result<Reading, Fault> {
    let (reading, place) = read_part(bytes, row_buffer_length)?;
    end(bytes, place)?;
    Ok(reading)
}

/// TAIL where bytes follow the last number.
pub(crate) fn end(bytes: &[u8], place: usize) -> Result<(), Fault> {
    match place < bytes.len() {
        true => Err(Fault {
            answer: TAIL,
            place,
        }),
        false => Ok(()),
    }
}

/// The pattern's numbers and the place after them; bytes there are not looked at.
pub(crate) fn read_part(bytes: &[u8], row_buffer_length: u64) -> Result<(Reading, usize), Fault> {
    let mut place = 0;
    let mut number =
        |range: RangeInclusive<u64>, answer| read_number(bytes, &mut place, range, answer);
    let states = number(1..=MAX_STATES, BAD_SIZE)?;
    let letters = number(1..=MAX_LETTERS, BAD_SIZE)?;
    if row_buffer_length < states * letters {
        let answer = NO_ROOM;
        return Err(Fault { answer, place });
    }
    let mut set = || read_number(bytes, &mut place, 0..=all_states(states), BAD_SET);
    let finals = set()?;
    let rows = (0..states * letters)
        .map(|_| set())
        .collect::<Result<Vec<_>, _>>()?;
    let (x, y) = (set()?, set()?);
    let pattern = Pattern {
        states,
        letters,
        finals,
        rows,
    };
    let reading = Reading {
        answer: DONE,
        place: 0,
        pattern,
        x,
        y,
    };
    Ok((reading, place))
}

/// One number, judged by form and then by range; a fault has the place of its first byte.
pub(crate) fn read_number(
    bytes: &[u8],
    place: &mut usize,
    range: RangeInclusive<u64>,
    out_of_range: u64,
) -> Result<u64, Fault> {
    let fault = |answer| Fault {
        answer,
        place: *place,
    };
    let (value, took) = numbers::read(bytes, *place).map_err(fault)?;
    if !range.contains(&value) {
        return Err(fault(out_of_range));
    }
    *place += took;
    Ok(value)
}

/// Writes a pattern file into a byte buffer of the given length; refusals come
/// in the order 10, 11, 12, 14.
pub fn write(pattern: &Pattern, x: u64, y: u64, byte_buffer_length: u64) -> Writing {
    match write_all(pattern, x, y, byte_buffer_length) {
        Ok(bytes) => Writing {
            answer: DONE,
            bytes,
        },
        Err(answer) => Writing {
            answer,
            bytes: Vec::new(),
        },
    }
}

fn write_all(pattern: &Pattern, x: u64, y: u64, byte_buffer_length: u64) -> Result<Vec<u8>, u64> {
    check_shape(pattern)?;
    check_sets(pattern, [x, y])?;
    let bytes: Vec<u8> = values(pattern, x, y)
        .into_iter()
        .flat_map(numbers::encode)
        .collect();
    let fits = bytes.len() as u64 <= byte_buffer_length;
    fits.then_some(bytes).ok_or(NO_ROOM)
}

/// The numbers of a pattern file in their order: n, k, finals, the rows, X, Y.
pub fn values(pattern: &Pattern, x: u64, y: u64) -> Vec<u64> {
    [pattern.states, pattern.letters, pattern.finals]
        .into_iter()
        .chain(pattern.rows.iter().copied())
        .chain([x, y])
        .collect()
}
