//! Closing a set by a list of pairs, and congruence by closing.

/// A pair of sets: left and right.
pub type Pair = (u64, u64);

/// Whether the inner set lies within the outer one.
fn lies_within(inner: u64, outer: u64) -> bool {
    inner & !outer == 0
}

/// One pass over the pairs: each adds its other side where one side lies within the set.
fn pass(set: u64, pairs: &[Pair]) -> u64 {
    let mut set = set;
    for &(left, right) in pairs {
        if lies_within(left, set) {
            set |= right;
        }
        if lies_within(right, set) {
            set |= left;
        }
    }
    set
}

/// The set closed by the pairs: passes go on until one adds nothing.
pub fn close(set: u64, pairs: &[Pair]) -> u64 {
    let mut closed = set;
    loop {
        let wider = pass(closed, pairs);
        if wider == closed {
            return closed;
        }
        closed = wider;
    }
}

/// Whether two sets are congruent by the pairs: they close to the same set.
pub fn congruent(left: u64, right: u64, pairs: &[Pair]) -> bool {
    close(left, pairs) == close(right, pairs)
}
