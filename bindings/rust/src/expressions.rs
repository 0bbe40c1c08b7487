//! Texts made into patterns.

use crate::{exports, version};
use crate::{Pattern, Refusal, Refused};
use core::error::Error;
use core::fmt;

/// The most parentheses that may be open at once in a text.
pub const MAX_OPEN: usize = 32;

/// What two texts become.
#[derive(Clone, Copy, Debug, PartialEq, Eq)]
#[non_exhaustive]
pub struct Expressed<'rows> {
    /// The pattern of both, with 32 letters; its rows are the first ones of the buffer lent.
    pub pattern: Pattern<'rows>,
    /// The set of the first text's start, state 0.
    pub x: u64,
    /// The set of the second text's start.
    pub y: u64,
}

/// Makes one pattern of two texts such as `READ (STABLE | CLOCKBACK READ)* CAP`. From X it accepts
/// exactly the event sequences that the first text takes, from Y those of the second.
///
/// A text is made of event names, `1` for the empty sequence and `0` for no sequence, with `|`
/// between alternatives, the marks `*`, `+` and `?` after what they mark, parentheses, and spaces.
/// State 0 starts the first text, and after it stands one state for each event name in it; then come
/// the second text's start and its names. The rows are written into `rows`, which may be longer than
/// the pattern needs: [`MAX_ROWS`](crate::MAX_ROWS) are always enough. What is not written, and all
/// of it on a refusal, keeps its content.
///
/// The refusals are SYNTAX, TOO-MANY and TOO-DEEP, and NO-ROOM after them. The first text goes first,
/// and in one text the first fault by place. The error shows it.
pub fn expressions<'texts, 'rows>(
    one: &'texts [u8],
    two: &'texts [u8],
    rows: &'rows mut [u64],
) -> Result<Expressed<'rows>, TextRefused<'texts>> {
    version::hold();
    // SAFETY: the texts are valid for reads and the rows for writes of their counts, and a shared
    // and a unique slice do not overlap.
    let found = unsafe {
        exports::pb_expressions(
            one.as_ptr(),
            one.len(),
            two.as_ptr(),
            two.len(),
            rows.as_mut_ptr(),
            rows.len(),
        )
    };
    match found.answer {
        7 => Ok(Expressed {
            pattern: Pattern {
                states: found.states,
                letters: found.letters,
                finals: found.finals,
                rows: &rows[..found.states * found.letters],
            },
            x: found.x,
            y: found.y,
        }),
        refusal => {
            let wrong = match found.text {
                1 => Some((1, one)),
                2 => Some((2, two)),
                _ => None,
            };
            let refused = Refused::from_answer(refusal, wrong.map(|_| found.place));
            Err(TextRefused { refused, wrong })
        }
    }
}

/// The error of [`expressions`]: why, and in which text at which byte. It shows the text, with a
/// caret under the byte:
///
/// ```text
/// SYNTAX (30): no right text goes on so, at byte 6 of text 2
///   READ (| CAP)
///         ^
/// ```
///
/// Of a long text the part around the byte is shown, and for a byte that is no printable ASCII `�`.
#[derive(Clone, Copy, Debug, PartialEq, Eq, Hash)]
pub struct TextRefused<'texts> {
    refused: Refused,
    wrong: Option<(u8, &'texts [u8])>,
}

impl TextRefused<'_> {
    /// Why.
    pub const fn refusal(self) -> Refusal {
        self.refused.refusal()
    }

    /// The scope's number for it.
    pub const fn number(self) -> u8 {
        self.refused.number()
    }

    /// The scope's name for it.
    pub const fn name(self) -> &'static str {
        self.refused.name()
    }

    /// Which text has the fault, 1 or 2; nothing for NO-ROOM, where neither has.
    pub const fn text(self) -> Option<u8> {
        match self.wrong {
            Some((text, _)) => Some(text),
            None => None,
        }
    }

    /// Where in that text: the first byte of the name, or the sign, or the text's length where it is
    /// unfinished; for TOO-MANY 0 where the second text has no state for its start.
    pub const fn place(self) -> Option<usize> {
        self.refused.place()
    }
}

/// How many bytes of a text are shown before the one with the caret, and from it on.
const BEFORE: usize = 40;
const AFTER: usize = 30;

impl fmt::Display for TextRefused<'_> {
    fn fmt(&self, formatter: &mut fmt::Formatter<'_>) -> fmt::Result {
        self.refused.fmt(formatter)?;
        let (Some((number, text)), Some(place)) = (self.wrong, self.place()) else {
            return Ok(());
        };
        let from = place.saturating_sub(BEFORE);
        let to = text.len().min(place.saturating_add(AFTER));
        let (left, right) = (dots(from > 0), dots(to < text.len()));
        write!(formatter, " of text {number}\n  {left}")?;
        for byte in &text[from..to] {
            let shown = match byte {
                b' '..=b'~' => char::from(*byte),
                _ => char::REPLACEMENT_CHARACTER,
            };
            write!(formatter, "{shown}")?;
        }
        let column = left.len() + place - from;
        write!(formatter, "{right}\n  {:column$}^", "")
    }
}

/// What stands for a part that is not shown.
fn dots(cut: bool) -> &'static str {
    match cut {
        true => "..",
        false => "",
    }
}

impl Error for TextRefused<'_> {}

/// The refusal and its place, without the texts.
impl From<TextRefused<'_>> for Refused {
    fn from(refused: TextRefused<'_>) -> Refused {
        refused.refused
    }
}
