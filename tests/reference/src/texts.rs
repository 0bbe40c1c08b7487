//! Texts of expressions, read by a machine with a stack of signs that wait. No function here calls itself.

use crate::answers::{SYNTAX, TOO_DEEP, TOO_MANY};
use crate::events;
use crate::pattern::{MAX_LETTERS, MAX_STATES};

/// The most parentheses that may be open at once.
pub const MAX_OPEN: usize = 32;

/// A step in making an expression: a name is put on a pile, a mark takes the upper part of the pile
/// and puts it back marked, and the last two take two parts and put back one.
#[derive(Clone, Copy, Debug, PartialEq, Eq)]
pub enum Step {
    /// An event, by its letter.
    Event(u64),
    /// `1`.
    One,
    /// `0`.
    Nought,
    /// `*`.
    Many,
    /// `+`.
    Some,
    /// `?`.
    Maybe,
    /// The lower part and then the upper.
    Then,
    /// The lower part or the upper.
    Or,
}

/// What is wrong with a text, and where. Of two faults the lesser goes first: by place, then by number.
#[derive(Clone, Copy, Debug, PartialEq, Eq, PartialOrd, Ord)]
pub struct Fault {
    /// A byte of the text, or its length.
    pub place: usize,
    /// SYNTAX, TOO-MANY or TOO-DEEP.
    pub answer: u64,
}

/// What stands in a text: a name, a mark, a bar, a parenthesis, or neither name nor sign.
#[derive(Clone, Copy, Debug, PartialEq, Eq)]
enum Item {
    Name(Step),
    Mark(Step),
    Bar,
    Open,
    Close,
    Unknown,
}

/// What waits until its second part has been read.
#[derive(Clone, Copy, Debug, PartialEq, Eq)]
enum Waiting {
    Open,
    Or,
    Then,
}

fn in_name(byte: u8) -> bool {
    byte.is_ascii_uppercase() || byte.is_ascii_digit()
}

/// A whole run of capitals and digits.
fn name(run: &[u8]) -> Item {
    let letter = (0..MAX_LETTERS).find(|letter| {
        let name = events::name(*letter).expect("it has a name");
        name.as_bytes() == run
    });
    match (run, letter) {
        (b"1", _) => Item::Name(Step::One),
        (b"0", _) => Item::Name(Step::Nought),
        (_, Some(letter)) => Item::Name(Step::Event(letter)),
        _ => Item::Unknown,
    }
}

fn sign(byte: u8) -> Item {
    match byte {
        b'*' => Item::Mark(Step::Many),
        b'+' => Item::Mark(Step::Some),
        b'?' => Item::Mark(Step::Maybe),
        b'|' => Item::Bar,
        b'(' => Item::Open,
        b')' => Item::Close,
        _ => Item::Unknown,
    }
}

/// The names and signs of a text with their places; spaces are none.
fn items(text: &[u8]) -> Vec<(usize, Item)> {
    let mut items = Vec::new();
    let mut place = 0;
    while place < text.len() {
        let run = text[place..]
            .iter()
            .take_while(|byte| in_name(**byte))
            .count();
        match text[place] {
            b' ' => {}
            _ if run > 0 => items.push((place, name(&text[place..place + run]))),
            byte => items.push((place, sign(byte))),
        }
        place += run.max(1);
    }
    items
}

/// The machine: the steps so far, what waits, and what the limits count.
struct Machine {
    steps: Vec<Step>,
    waiting: Vec<Waiting>,
    /// Whether nothing but a factor can come next.
    factor_due: bool,
    open: usize,
    states: u64,
}

impl Machine {
    /// Ends what waits and binds at least so much, up to an open parenthesis.
    fn end(&mut self, least: Waiting) {
        while let Some(last) = self.waiting.last() {
            match last {
                Waiting::Then => self.steps.push(Step::Then),
                Waiting::Or if least == Waiting::Or => self.steps.push(Step::Or),
                _ => return,
            }
            self.waiting.pop();
        }
    }

    /// A factor begins: where one stands before it, the two are a sequence.
    fn begin_factor(&mut self) {
        if !self.factor_due {
            self.end(Waiting::Then);
            self.waiting.push(Waiting::Then);
        }
    }

    /// Takes the next name or sign, or says why it cannot stand there.
    fn take(&mut self, item: Item) -> Result<(), u64> {
        match item {
            Item::Name(Step::Event(_)) if self.states >= MAX_STATES => return Err(TOO_MANY),
            Item::Name(step) => {
                self.begin_factor();
                self.steps.push(step);
                self.states += u64::from(matches!(step, Step::Event(_)));
                self.factor_due = false;
            }
            Item::Open if self.open == MAX_OPEN => return Err(TOO_DEEP),
            Item::Open => {
                self.begin_factor();
                self.waiting.push(Waiting::Open);
                self.open += 1;
                self.factor_due = true;
            }
            Item::Unknown => return Err(SYNTAX),
            _ if self.factor_due => return Err(SYNTAX),
            Item::Mark(step) => self.steps.push(step),
            Item::Bar => {
                self.end(Waiting::Or);
                self.waiting.push(Waiting::Or);
                self.factor_due = true;
            }
            Item::Close if self.open == 0 => return Err(SYNTAX),
            Item::Close => {
                self.end(Waiting::Or);
                self.waiting.pop();
                self.open -= 1;
            }
        }
        Ok(())
    }
}

/// The steps that make the text's expression, or its first fault, where so many states are taken
/// before its first name.
pub fn read(text: &[u8], taken: u64) -> Result<Vec<Step>, Fault> {
    let mut machine = Machine {
        steps: Vec::new(),
        waiting: Vec::new(),
        factor_due: true,
        open: 0,
        states: taken,
    };
    for (place, item) in items(text) {
        machine
            .take(item)
            .map_err(|answer| Fault { place, answer })?;
    }
    if machine.factor_due || machine.open > 0 {
        let (place, answer) = (text.len(), SYNTAX);
        return Err(Fault { place, answer });
    }
    machine.end(Waiting::Or);
    Ok(machine.steps)
}
