//! Patterns, as the caller lends them.

/// The most states that a pattern may have.
pub const MAX_STATES: usize = 64;

/// The most letters that a pattern may have.
pub const MAX_LETTERS: usize = 32;

/// A pattern as it is lent to a call; each call judges it anew.
///
/// A set of states is a mask with bit s for state s. Bits `states` and above are 0 in every mask,
/// or the call refuses with [`BadSet`](crate::Refusal::BadSet).
#[derive(Clone, Copy, Debug, PartialEq, Eq)]
pub struct Pattern<'a> {
    /// The number of states, 1 to [`MAX_STATES`].
    pub states: usize,
    /// The number of letters, 1 to [`MAX_LETTERS`].
    pub letters: usize,
    /// The set of the final states.
    pub finals: u64,
    /// As many sets as states times letters: row `s * letters + a` is the set reached from state
    /// `s` by letter `a`.
    pub rows: &'a [u64],
}
