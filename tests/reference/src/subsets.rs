//! An independent judge of equivalence and of inclusion: plain subset construction, breadth first.

use crate::pattern::{accepts, letters, next, Pattern};
use std::collections::{HashSet, VecDeque};

/// What the subset construction finds.
#[derive(Clone, Debug, PartialEq, Eq)]
pub enum Verdict {
    /// Both sets accept the same sequences.
    Equivalent,
    /// A shortest sequence that exactly one of them accepts.
    Different(Vec<u8>),
    /// More pairs were reached than the cap allows.
    TooBig,
}

/// What the subset construction finds of the one-way question.
#[derive(Clone, Debug, PartialEq, Eq)]
pub enum Inclusion {
    /// The second set accepts all that the first does.
    Within,
    /// A shortest sequence that the first accepts and the second does not.
    Escapes(Vec<u8>),
    /// More pairs were reached than the cap allows.
    TooBig,
}

/// Whether two sets accept the same sequences.
pub fn equivalence(pattern: &Pattern, x: u64, y: u64, cap: usize) -> Verdict {
    search(pattern, x, y, cap, |left, right| left != right)
}

/// Whether the first set accepts nothing that the second does not: both by themselves, side by side.
pub fn inclusion(pattern: &Pattern, x: u64, y: u64, cap: usize) -> Inclusion {
    match search(pattern, x, y, cap, |left, right| left && !right) {
        Verdict::Equivalent => Inclusion::Within,
        Verdict::Different(sequence) => Inclusion::Escapes(sequence),
        Verdict::TooBig => Inclusion::TooBig,
    }
}

/// Goes through all pairs of sets reached by one sequence, at most `cap` of them, until what the two accept of the
/// empty sequence stops it.
fn search(pattern: &Pattern, x: u64, y: u64, cap: usize, stops: fn(bool, bool) -> bool) -> Verdict {
    let mut seen = HashSet::from([(x, y)]);
    let mut waiting = VecDeque::from([(x, y, Vec::new())]);
    while let Some((left, right, sequence)) = waiting.pop_front() {
        if stops(accepts(pattern, left), accepts(pattern, right)) {
            return Verdict::Different(sequence);
        }
        for letter in letters(pattern) {
            let reached = (next(pattern, left, letter), next(pattern, right, letter));
            if seen.insert(reached) {
                let longer = [&sequence[..], &[letter as u8]].concat();
                waiting.push_back((reached.0, reached.1, longer));
            }
        }
        if seen.len() > cap {
            return Verdict::TooBig;
        }
    }
    Verdict::Equivalent
}

/// The number of distinct sets reached from either start by any sequence, the
/// empty one included; nothing if there are more than `cap`.
pub fn sets_reached(pattern: &Pattern, x: u64, y: u64, cap: usize) -> Option<usize> {
    let mut seen = HashSet::from([x, y]);
    let mut waiting: Vec<u64> = seen.iter().copied().collect();
    while let Some(set) = waiting.pop() {
        let successors = letters(pattern).map(|letter| next(pattern, set, letter));
        waiting.extend(successors.filter(|&successor| seen.insert(successor)));
        if seen.len() > cap {
            return None;
        }
    }
    Some(seen.len())
}
