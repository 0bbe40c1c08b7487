//! An independent judge of what an expression takes: its tree, and what is left of it after an event
//! (Brzozowski's derivatives). Positions are not known here.

use crate::pattern::{accepts, next, Pattern};
use crate::texts::Step;
use std::rc::Rc;

/// An expression.
#[derive(Clone, Debug, PartialEq, Eq)]
pub enum Tree {
    /// An event, by its letter.
    Event(u64),
    /// The empty sequence.
    One,
    /// No sequence.
    Nought,
    /// What the first takes, and what the second takes.
    Or(Rc<Tree>, Rc<Tree>),
    /// What the first takes, and after it what the second takes.
    Then(Rc<Tree>, Rc<Tree>),
    /// So often as one likes.
    Many(Rc<Tree>),
    /// Once at least.
    Some(Rc<Tree>),
    /// Once or not.
    Maybe(Rc<Tree>),
}

/// The tree that the steps make, or nothing where they make none.
pub fn tree(steps: &[Step]) -> Option<Tree> {
    let mut pile: Vec<Tree> = Vec::new();
    for step in steps {
        let made = match step {
            Step::Event(letter) => Tree::Event(*letter),
            Step::One => Tree::One,
            Step::Nought => Tree::Nought,
            Step::Many => Tree::Many(pile.pop()?.into()),
            Step::Some => Tree::Some(pile.pop()?.into()),
            Step::Maybe => Tree::Maybe(pile.pop()?.into()),
            Step::Then => {
                let right = pile.pop()?;
                Tree::Then(pile.pop()?.into(), right.into())
            }
            Step::Or => {
                let right = pile.pop()?;
                Tree::Or(pile.pop()?.into(), right.into())
            }
        };
        pile.push(made);
    }
    let whole = pile.pop()?;
    pile.is_empty().then_some(whole)
}

/// One or the other; what takes nothing is left out.
fn or(one: Tree, other: Tree) -> Tree {
    match (one, other) {
        (Tree::Nought, left) | (left, Tree::Nought) => left,
        (one, other) if one == other => one,
        (one, other) => Tree::Or(one.into(), other.into()),
    }
}

/// One after the other; what takes nothing, and what takes the empty sequence alone, is left out.
fn then(one: Tree, other: Rc<Tree>) -> Tree {
    match (one, &*other) {
        (Tree::Nought, _) | (_, Tree::Nought) => Tree::Nought,
        (Tree::One, _) => (*other).clone(),
        (one, _) => Tree::Then(one.into(), other),
    }
}

impl Tree {
    /// Whether the empty sequence is taken.
    pub fn takes_the_empty_sequence(&self) -> bool {
        match self {
            Tree::Event(_) | Tree::Nought => false,
            Tree::One | Tree::Many(_) | Tree::Maybe(_) => true,
            Tree::Or(one, other) => {
                one.takes_the_empty_sequence() || other.takes_the_empty_sequence()
            }
            Tree::Then(one, other) => {
                one.takes_the_empty_sequence() && other.takes_the_empty_sequence()
            }
            Tree::Some(inner) => inner.takes_the_empty_sequence(),
        }
    }

    /// What may still come after an event.
    pub fn after(&self, letter: u64) -> Tree {
        match self {
            Tree::Event(own) if *own == letter => Tree::One,
            Tree::Event(_) | Tree::One | Tree::Nought => Tree::Nought,
            Tree::Or(one, other) => or(one.after(letter), other.after(letter)),
            Tree::Then(one, other) => {
                let within = then(one.after(letter), other.clone());
                match one.takes_the_empty_sequence() {
                    true => or(within, other.after(letter)),
                    false => within,
                }
            }
            Tree::Many(inner) | Tree::Some(inner) => {
                then(inner.after(letter), Tree::Many(inner.clone()).into())
            }
            Tree::Maybe(inner) => inner.after(letter),
        }
    }

    /// Whether a sequence is taken.
    pub fn takes(&self, sequence: &[u8]) -> bool {
        let left = sequence
            .iter()
            .fold(self.clone(), |tree, letter| tree.after(u64::from(*letter)));
        left.takes_the_empty_sequence()
    }

    /// The letters that occur, each as often as it does.
    pub fn letters(&self) -> Vec<u64> {
        match self {
            Tree::Event(letter) => vec![*letter],
            Tree::One | Tree::Nought => Vec::new(),
            Tree::Or(one, other) | Tree::Then(one, other) => {
                [one.letters(), other.letters()].concat()
            }
            Tree::Many(inner) | Tree::Some(inner) | Tree::Maybe(inner) => inner.letters(),
        }
    }
}

/// A sequence of at most so many of these letters that the set accepts and the tree does not take, or
/// the other way round; nothing where they agree on all of them.
pub fn disagreement(
    pattern: &Pattern,
    set: u64,
    tree: &Tree,
    letters: &[u64],
    most: usize,
) -> Option<Vec<u64>> {
    if accepts(pattern, set) != tree.takes_the_empty_sequence() {
        return Some(Vec::new());
    }
    if most == 0 {
        return None;
    }
    letters.iter().find_map(|letter| {
        let set = next(pattern, set, *letter);
        let rest = disagreement(pattern, set, &tree.after(*letter), letters, most - 1)?;
        Some([&[*letter], &rest[..]].concat())
    })
}
