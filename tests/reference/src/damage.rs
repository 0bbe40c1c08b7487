//! Damaged files, of patterns and of evidence, each with one kind of fault put in.

use crate::evidence_file;
use crate::file::values;
use crate::numbers::{encode, FOLLOWS, MAX_BYTES};
use crate::pattern::{all_states, MAX_LETTERS, MAX_STATES};
use crate::questions::Question;
use crate::random::Random;

/// What is done to a file.
#[derive(Clone, Copy, Debug, PartialEq, Eq)]
pub enum Damage {
    /// One byte gets another value.
    ByteChange,
    /// The end is cut off.
    Cut,
    /// A number gets needless groups, within ten bytes.
    Padded,
    /// A number gets so many needless groups that it has more than ten bytes.
    Longer,
    /// A number is replaced by one of ten bytes.
    TenBytes,
    /// Bytes are put after the last number.
    Tail,
    /// A number gets a value at an end of its range, or one beyond it.
    OneOff,
}

/// Every kind of damage.
pub const DAMAGES: [Damage; 7] = [
    Damage::ByteChange,
    Damage::Cut,
    Damage::Padded,
    Damage::Longer,
    Damage::TenBytes,
    Damage::Tail,
    Damage::OneOff,
];

/// The question's pattern file with one damage done to it.
pub fn damaged(random: &mut Random, question: &Question, damage: Damage) -> Vec<u8> {
    let numbers = values(&question.pattern, question.x, question.y);
    let at = random.below(numbers.len() as u64) as usize;
    done(random, question, &numbers, at, damage)
}

/// The evidence file of the question and some pairs, with one damage done to it: as often as not to
/// a number behind the pattern's, and then as often as not to the count.
pub fn damaged_evidence(
    random: &mut Random,
    question: &Question,
    lefts: &[u64],
    rights: &[u64],
    damage: Damage,
) -> Vec<u8> {
    let numbers = evidence_file::values(question, lefts, rights);
    let count = numbers.len() - 1 - 2 * lefts.len();
    let at = match random.below(4) {
        0 => count,
        1 => random.between(count as u64, numbers.len() as u64 - 1) as usize,
        _ => random.below(numbers.len() as u64) as usize,
    };
    if damage == Damage::OneOff && at == count {
        let pairs = lefts.len() as u64;
        let choices = [0, pairs + 1, pairs.saturating_sub(1), 1024, 1025, u64::MAX];
        let value = choices[random.below(choices.len() as u64) as usize];
        return with_number(&numbers, at, &encode(value));
    }
    done(random, question, &numbers, at, damage)
}

fn done(
    random: &mut Random,
    question: &Question,
    numbers: &[u64],
    at: usize,
    damage: Damage,
) -> Vec<u8> {
    match damage {
        Damage::ByteChange => byte_change(random, file(numbers)),
        Damage::Cut => cut(random, file(numbers)),
        Damage::Padded => with_number(numbers, at, &padded(random, numbers[at])),
        Damage::Longer => with_number(numbers, at, &longer(random, numbers[at])),
        Damage::TenBytes => with_number(numbers, at, &ten_bytes(random)),
        Damage::Tail => tail(random, file(numbers)),
        Damage::OneOff => {
            let value = one_off(random, question, numbers, at);
            with_number(numbers, at, &encode(value))
        }
    }
}

/// Files of one state and one letter whose finals are written in every length with every last byte: after 0 to 9 bytes that
/// say that another follows, each byte, so that each tenth byte is among them.
pub fn every_last_byte() -> impl Iterator<Item = Vec<u8>> {
    (0..10).flat_map(|groups| {
        (0..=255).map(move |last| {
            let finals = [&vec![FOLLOWS; groups][..], &[last]].concat();
            [&[1, 1][..], &finals, &[0, 0, 0]].concat()
        })
    })
}

fn file(numbers: &[u64]) -> Vec<u8> {
    numbers.iter().copied().flat_map(encode).collect()
}

/// The file with one number written as the given bytes.
fn with_number(numbers: &[u64], at: usize, written: &[u8]) -> Vec<u8> {
    let (before, after) = (&numbers[..at], &numbers[at + 1..]);
    [&file(before)[..], written, &file(after)].concat()
}

fn byte_change(random: &mut Random, mut bytes: Vec<u8>) -> Vec<u8> {
    let at = random.below(bytes.len() as u64) as usize;
    bytes[at] ^= random.between(1, 255) as u8;
    bytes
}

fn cut(random: &mut Random, mut bytes: Vec<u8>) -> Vec<u8> {
    bytes.truncate(random.below(bytes.len() as u64) as usize);
    bytes
}

fn padded(random: &mut Random, value: u64) -> Vec<u8> {
    let mut bytes = encode(value);
    bytes.extend(vec![FOLLOWS; random.below(3) as usize]);
    bytes.truncate(MAX_BYTES - 1);
    ended(bytes)
}

fn longer(random: &mut Random, value: u64) -> Vec<u8> {
    let mut bytes = encode(value);
    bytes.resize(MAX_BYTES + random.below(3) as usize, FOLLOWS);
    ended(bytes)
}

/// The bytes, each made to say that another follows, and a group of 0 behind them.
fn ended(mut bytes: Vec<u8>) -> Vec<u8> {
    for byte in &mut bytes {
        *byte |= FOLLOWS;
    }
    bytes.push(0);
    bytes
}

fn ten_bytes(random: &mut Random) -> Vec<u8> {
    const TENTH: [u8; 7] = [0x00, 0x01, 0x02, 0x7f, 0x80, 0x81, 0xff];
    let mut bytes: Vec<u8> = (0..9).map(|_| random.number() as u8 | FOLLOWS).collect();
    bytes.push(TENTH[random.below(TENTH.len() as u64) as usize]);
    bytes
}

fn tail(random: &mut Random, mut bytes: Vec<u8>) -> Vec<u8> {
    let extra = random.between(1, 12);
    bytes.extend((0..extra).map(|_| random.number() as u8));
    bytes
}

fn one_off(random: &mut Random, question: &Question, numbers: &[u64], at: usize) -> u64 {
    let states = question.pattern.states;
    let all = all_states(states);
    let choices = match at {
        0 => [0, 1, MAX_STATES, MAX_STATES + 1],
        1 => [0, 1, MAX_LETTERS, MAX_LETTERS + 1],
        _ => [0, all, all.saturating_add(1), numbers[at] ^ 1],
    };
    choices[random.below(choices.len() as u64) as usize]
}
