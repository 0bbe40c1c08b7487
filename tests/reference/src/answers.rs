//! The answer numbers of the scope, §7, each with its name.

macro_rules! answers {
    ($($constant:ident = $number:literal, $name:literal, $when:literal;)*) => {
        $(#[doc = $when] pub const $constant: u64 = $number;)*

        /// Every answer number with the name that the scope gives it.
        pub const NAMES: &[(u64, &str)] = &[$(($constant, $name)),*];
    };
}

answers! {
    SAME = 0, "SAME", "No candidate is left.";
    DIFFERENT = 1, "DIFFERENT", "A candidate has exactly one side that accepts the empty sequence.";
    FULL = 2, "FULL", "A candidate has to be kept and the room is used up.";
    ACCEPT = 3, "ACCEPT", "The judged sequence is accepted.";
    REJECT = 4, "REJECT", "The judged sequence is not accepted.";
    PROVED = 5, "PROVED", "The evidence holds.";
    NOT_PROVED = 6, "NOT-PROVED", "The evidence does not hold.";
    DONE = 7, "DONE", "The file has been read or written, or the pattern made.";
    WITHIN = 8, "WITHIN", "Every sequence that X accepts is accepted from Y.";
    NOT_WITHIN = 9, "NOT-WITHIN", "A sequence is accepted from X and not from Y.";
    BAD_SIZE = 10, "BAD-SIZE", "n or k is outside its range.";
    BAD_TABLE = 11, "BAD-TABLE", "The rows lent are not n*k in number.";
    BAD_SET = 12, "BAD-SET", "A mask has a bit n or above.";
    BAD_ROOM = 13, "BAD-ROOM", "The room is over 1024, or a lent buffer is shorter than the room.";
    NO_ROOM = 14, "NO-ROOM", "The row buffer (reader, expressions) or byte buffer (writer) is too short.";
    BAD_LETTER = 15, "BAD-LETTER", "A sequence has a letter k or above.";
    BAD_LIST = 16, "BAD-LIST", "The evidence has over 1024 pairs, or sides of different length.";
    CUT = 20, "CUT", "The file ends before or within a number.";
    PADDED = 21, "PADDED", "A number's last group is 0 and another came before it.";
    TAIL = 22, "TAIL", "There are bytes after the last number.";
    TOO_BIG = 23, "TOO-BIG", "A number has a tenth byte other than 00 or 01.";
    SYNTAX = 30, "SYNTAX", "No right text has that name or byte there.";
    TOO_MANY = 31, "TOO-MANY", "No state is left for a name or a start.";
    TOO_DEEP = 32, "TOO-DEEP", "32 parentheses are open, and one more opens.";
}

/// The lowest refusal: refusals are 10 and up.
pub const FIRST_REFUSAL: u64 = 10;

/// Whether the answer is a refusal.
pub fn is_refusal(answer: u64) -> bool {
    answer >= FIRST_REFUSAL
}

/// The name of an answer number, or nothing for a number that is no answer.
pub fn name(answer: u64) -> Option<&'static str> {
    NAMES
        .iter()
        .find(|(number, _)| *number == answer)
        .map(|(_, name)| *name)
}
