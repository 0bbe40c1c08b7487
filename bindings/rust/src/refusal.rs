//! Why a call is refused.

use core::error::Error;
use core::fmt;

/// Why a call is refused.
///
/// Where several apply, the order is the scope's: 10, 11, 13, 16, 12, 14, 15. The file reader goes
/// by place instead, and texts by text, place and number.
#[derive(Clone, Copy, Debug, PartialEq, Eq, Hash)]
#[non_exhaustive]
#[repr(u8)]
pub enum Refusal {
    /// The number of states or of letters is outside its range.
    BadSize = 10,
    /// The rows lent are not states times letters in number.
    BadTable = 11,
    /// A mask has a bit that is no state.
    BadSet = 12,
    /// The room is over 1024, or the list or the sequence buffer is shorter than the room.
    BadRoom = 13,
    /// The row buffer of the reader or of two texts, or the writer's byte buffer is too short.
    NoRoom = 14,
    /// A sequence has a letter that the pattern does not have.
    BadLetter = 15,
    /// The evidence has over 1024 pairs, or its two sides differ in length.
    BadList = 16,
    /// The file ends before or within a number.
    Cut = 20,
    /// A number of the file ends with a needless group of zero: what wrote the file pads its numbers.
    Padded = 21,
    /// There are bytes after the file's last number.
    Tail = 22,
    /// A number of the file has a tenth byte other than 00 or 01: it is 2^64 or more, or has no end in ten bytes.
    TooBig = 23,
    /// No right text has that name or byte there, or the text is unfinished.
    Syntax = 30,
    /// No state is left for an event name, or for the second text's start.
    TooMany = 31,
    /// A parenthesis opens where as many are open as may be.
    TooDeep = 32,
}

impl Refusal {
    /// Every refusal, by rising number.
    pub const ALL: &'static [Refusal] = &[
        Refusal::BadSize,
        Refusal::BadTable,
        Refusal::BadSet,
        Refusal::BadRoom,
        Refusal::NoRoom,
        Refusal::BadLetter,
        Refusal::BadList,
        Refusal::Cut,
        Refusal::Padded,
        Refusal::Tail,
        Refusal::TooBig,
        Refusal::Syntax,
        Refusal::TooMany,
        Refusal::TooDeep,
    ];

    /// The scope's number for it.
    pub const fn number(self) -> u8 {
        self as u8
    }

    /// The scope's name for it.
    pub const fn name(self) -> &'static str {
        match self {
            Refusal::BadSize => "BAD-SIZE",
            Refusal::BadTable => "BAD-TABLE",
            Refusal::BadSet => "BAD-SET",
            Refusal::BadRoom => "BAD-ROOM",
            Refusal::NoRoom => "NO-ROOM",
            Refusal::BadLetter => "BAD-LETTER",
            Refusal::BadList => "BAD-LIST",
            Refusal::Cut => "CUT",
            Refusal::Padded => "PADDED",
            Refusal::Tail => "TAIL",
            Refusal::TooBig => "TOO-BIG",
            Refusal::Syntax => "SYNTAX",
            Refusal::TooMany => "TOO-MANY",
            Refusal::TooDeep => "TOO-DEEP",
        }
    }

    /// What is wrong, in words.
    const fn words(self) -> &'static str {
        match self {
            Refusal::BadSize => "states are 1 to 64, and letters 1 to 32",
            Refusal::BadTable => "the rows are not states times letters in number",
            Refusal::BadSet => "a mask has a bit that is no state of the pattern",
            Refusal::BadRoom => {
                "the room is over 1024, or more than was lent for records or sequence"
            }
            Refusal::NoRoom => "the buffer is too short for what is to be written into it",
            Refusal::BadLetter => "the sequence has a letter that the pattern does not have",
            Refusal::BadList => "the evidence has over 1024 pairs, or sides of different length",
            Refusal::Cut => "the file ends before or within a number",
            Refusal::Padded => {
                "a number of the file is written with needless zero groups: the exporter pads"
            }
            Refusal::Tail => "there are bytes after the file's last number",
            Refusal::TooBig => "a number of the file is 2^64 or more: no mask has so many bits",
            Refusal::Syntax => "no right text goes on so",
            Refusal::TooMany => "no state is left, of the 64 for both texts",
            Refusal::TooDeep => "more than 32 parentheses are open",
        }
    }
}

impl fmt::Display for Refusal {
    fn fmt(&self, formatter: &mut fmt::Formatter<'_>) -> fmt::Result {
        write!(
            formatter,
            "{} ({}): {}",
            self.name(),
            self.number(),
            self.words()
        )
    }
}

/// The error of a call: it was refused, and has changed nothing that it was lent.
#[derive(Clone, Copy, Debug, PartialEq, Eq, Hash)]
pub struct Refused {
    refusal: Refusal,
    place: Option<usize>,
}

impl Refused {
    /// Why.
    pub const fn refusal(self) -> Refusal {
        self.refusal
    }

    /// The scope's number for it.
    pub const fn number(self) -> u8 {
        self.refusal.number()
    }

    /// The scope's name for it.
    pub const fn name(self) -> &'static str {
        self.refusal.name()
    }

    /// Where the fault is in the file or in the text that was read; nothing for the other calls.
    ///
    /// It is the first byte of the number at fault. For CUT likewise, or the data's length if no
    /// byte of it came; for NO-ROOM the byte after the number of letters; for TAIL the first extra
    /// byte. Of a text it is what [`TextRefused::place`](crate::TextRefused::place) says.
    pub const fn place(self) -> Option<usize> {
        self.place
    }

    /// What an export's answer stands for, where it is none of those that the call gives.
    ///
    /// The proved library gives no other number than a refusal's; one that does is not the library
    /// that this wrapper was written for.
    pub(crate) fn from_answer(answer: u8, place: Option<usize>) -> Refused {
        let found = Refusal::ALL
            .iter()
            .find(|refusal| refusal.number() == answer);
        match found {
            Some(&refusal) => Refused { refusal, place },
            None => panic!("answer {answer}: libpressbadger.a and this wrapper do not go together"),
        }
    }
}

impl fmt::Display for Refused {
    fn fmt(&self, formatter: &mut fmt::Formatter<'_>) -> fmt::Result {
        self.refusal.fmt(formatter)?;
        match self.place {
            Some(place) => write!(formatter, ", at byte {place}"),
            None => Ok(()),
        }
    }
}

impl Error for Refused {}
