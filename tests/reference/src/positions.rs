//! The position construction, as sets of positions and pairs of them: each event name of an expression
//! is a position, numbered in the order of the text.

use crate::texts::Step;
use std::collections::BTreeSet;

/// Some positions.
pub type Positions = BTreeSet<usize>;

/// What the construction says of an expression.
#[derive(Clone, Debug, Default, PartialEq, Eq)]
pub struct Construction {
    /// The letter of each position.
    pub letters: Vec<u64>,
    /// Whether the empty sequence is taken.
    pub nullable: bool,
    /// The positions that a sequence can begin with.
    pub first: Positions,
    /// The positions that a sequence can end with.
    pub last: Positions,
    /// Which position can come right after which.
    pub follow: BTreeSet<(usize, usize)>,
}

/// What it says of a part; of what follows what there is one set for all parts.
struct Part {
    nullable: bool,
    first: Positions,
    last: Positions,
}

impl Part {
    fn name(nullable: bool, positions: &[usize]) -> Part {
        let positions: Positions = positions.iter().copied().collect();
        Part {
            nullable,
            first: positions.clone(),
            last: positions,
        }
    }
}

/// All of the one and all of the other, if that is wanted.
fn joined(one: &Positions, other: &Positions, wanted: bool) -> Positions {
    let other = other.iter().filter(|_| wanted);
    one.iter().chain(other).copied().collect()
}

/// Each of the first may be followed by each of the second.
fn link(follow: &mut BTreeSet<(usize, usize)>, from: &Positions, to: &Positions) {
    for before in from {
        follow.extend(to.iter().map(|after| (*before, *after)));
    }
}

/// The construction for the expression that the steps make. Steps that make none are a mistake of the caller.
pub fn construct(steps: &[Step]) -> Construction {
    let mut made = Construction::default();
    let mut pile: Vec<Part> = Vec::new();
    for step in steps {
        let mut part = || pile.pop().expect("the steps make an expression");
        let made_of = match step {
            Step::Event(letter) => {
                made.letters.push(*letter);
                Part::name(false, &[made.letters.len() - 1])
            }
            Step::One => Part::name(true, &[]),
            Step::Nought => Part::name(false, &[]),
            Step::Many | Step::Some => {
                let inner = part();
                link(&mut made.follow, &inner.last, &inner.first);
                let nullable = inner.nullable || *step == Step::Many;
                Part { nullable, ..inner }
            }
            Step::Maybe => Part {
                nullable: true,
                ..part()
            },
            Step::Then => {
                let (right, left) = (part(), part());
                link(&mut made.follow, &left.last, &right.first);
                Part {
                    nullable: left.nullable && right.nullable,
                    first: joined(&left.first, &right.first, left.nullable),
                    last: joined(&right.last, &left.last, right.nullable),
                }
            }
            Step::Or => {
                let (right, left) = (part(), part());
                Part {
                    nullable: left.nullable || right.nullable,
                    first: joined(&left.first, &right.first, true),
                    last: joined(&left.last, &right.last, true),
                }
            }
        };
        pile.push(made_of);
    }
    let whole = pile.pop().expect("the steps make an expression");
    assert!(pile.is_empty(), "the steps make one expression");
    made.nullable = whole.nullable;
    made.first = whole.first;
    made.last = whole.last;
    made
}
