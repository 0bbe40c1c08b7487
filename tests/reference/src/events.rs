//! Event names by letter.

use crate::pattern::MAX_LETTERS;

/// The names of the letters 0 to 11.
pub const NAMES: [&str; 12] = [
    "READ",
    "STABLE",
    "DROP",
    "DRYHOP",
    "CRASH",
    "WARM",
    "CAP",
    "VENT",
    "TRANSFER",
    "SAMPLE",
    "CLOCKBACK",
    "CLOCKON",
];

/// The name of a letter, or nothing for a letter that no pattern has.
pub fn name(letter: u64) -> Option<String> {
    let listed = NAMES.iter().zip(0..).find(|(_, number)| *number == letter);
    match listed {
        Some((name, _)) => Some(name.to_string()),
        None if letter < MAX_LETTERS => Some(format!("E{letter}")),
        None => None,
    }
}
