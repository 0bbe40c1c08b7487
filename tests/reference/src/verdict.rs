//! The exact bytes that the program `check` prints for its standard input.

use crate::answers::{is_refusal, name, NOT_PROVED};
use crate::evidence::check;
use crate::evidence_file::{read, MOST_ROOMS};

/// The most bytes that the program takes in.
pub const INPUT_LIMIT: usize = 40_995;

/// What the program prints for the given standard input.
pub fn verdict(input: &[u8]) -> Vec<u8> {
    let taken = &input[..input.len().min(INPUT_LIMIT)];
    let file = read(taken, MOST_ROOMS);
    if is_refusal(file.answer) {
        return format!("REFUSED {} {}\n", file.answer, file.place).into_bytes();
    }
    let found = check(&file.pattern, file.x, file.y, &file.lefts, &file.rights);
    let word = name(found.answer).unwrap_or_default();
    let line = match found.answer {
        NOT_PROVED => format!("{word} {}\n", found.place),
        _ => format!("{word}\n"),
    };
    line.into_bytes()
}
