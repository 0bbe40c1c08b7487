//! The exact bytes that the program `compare` prints for its standard input.

use crate::answers::{is_refusal, name, DIFFERENT, SAME};
use crate::events;
use crate::file::read;
use crate::pattern::{MAX_LETTERS, MAX_STATES};
use crate::walk::{compare_default, Comparison, DEFAULT_ROOM};

/// The most bytes that the program takes in.
pub const INPUT_LIMIT: usize = 20_513;

/// What the program prints for the given standard input.
pub fn report(input: &[u8]) -> Vec<u8> {
    let taken = &input[..input.len().min(INPUT_LIMIT)];
    let reading = read(taken, MAX_STATES * MAX_LETTERS);
    if is_refusal(reading.answer) {
        return refused(reading.answer, reading.place).into_bytes();
    }
    let comparison = compare_default(
        &reading.pattern,
        reading.x,
        reading.y,
        &[DEFAULT_ROOM],
        DEFAULT_ROOM,
    );
    answered(&comparison).into_bytes()
}

fn refused(answer: u64, place: u64) -> String {
    format!("REFUSED {answer} {place}\n")
}

fn answered(comparison: &Comparison) -> String {
    let (kept, examined) = (comparison.kept, comparison.examined);
    let first = format!(
        "{} {kept} {examined}",
        name(comparison.answer).unwrap_or_default()
    );
    match comparison.answer {
        SAME => format!("{first}\n{}", record_lines(comparison)),
        DIFFERENT => format!(
            "{first} {}\n{}\n",
            comparison.length,
            event_line(comparison)
        ),
        _ => format!("{first}\n"),
    }
}

fn record_lines(comparison: &Comparison) -> String {
    comparison
        .records
        .iter()
        .map(|record| format!("{} {}\n", record.left, record.right))
        .collect()
}

fn event_line(comparison: &Comparison) -> String {
    let names: Vec<String> = comparison
        .sequence
        .iter()
        .filter_map(|&letter| events::name(u64::from(letter)))
        .collect();
    names.join(" ")
}
