//! Faults put into a right call, for every refusal and for the order where several apply.

use reference::pattern::{Pattern, MAX_LETTERS, MAX_STATES};
use std::fmt::Debug;

/// A fault: what it does to a call, and the refusal that it deserves.
pub struct Fault<C> {
    name: &'static str,
    refusal: u64,
    put: Box<dyn Fn(&mut C)>,
}

impl<C> Fault<C> {
    /// A fault.
    pub fn new(name: &'static str, refusal: u64, put: impl Fn(&mut C) + 'static) -> Fault<C> {
        let put = Box::new(put);
        Fault { name, refusal, put }
    }

    /// The refusal that it deserves.
    pub fn refusal(&self) -> u64 {
        self.refusal
    }
}

/// Puts a fault into a pattern.
type Spoil = fn(&mut Pattern);

/// The faults that a pattern can have, in a call that it is lent to.
pub fn of_pattern<C: 'static>(pattern: fn(&mut C) -> &mut Pattern) -> Vec<Fault<C>> {
    let table: [(&'static str, u64, Spoil); 15] = [
        ("no states", 10, |p| p.states = 0),
        ("65 states", 10, |p| p.states = MAX_STATES + 1),
        ("2^32 states", 10, |p| p.states = 1 << 32),
        ("2^64-1 states", 10, |p| p.states = u64::MAX),
        ("no letters", 10, |p| p.letters = 0),
        ("33 letters", 10, |p| p.letters = MAX_LETTERS + 1),
        ("2^64-1 letters", 10, |p| p.letters = u64::MAX),
        ("one row less", 11, |p| {
            p.rows.truncate(p.rows.len().saturating_sub(1))
        }),
        ("one row more", 11, |p| p.rows.push(0)),
        ("no rows", 11, |p| p.rows.clear()),
        ("finals with bit n", 12, |p| p.finals |= beyond(p)),
        ("finals with bit 63", 12, |p| p.finals |= 1 << 63),
        ("bit n in the first row", 12, |p| {
            spoil(beyond(p), p.rows.first_mut())
        }),
        ("bit n in the last row", 12, |p| {
            spoil(beyond(p), p.rows.last_mut())
        }),
        ("bit 63 in the last row", 12, |p| {
            spoil(1 << 63, p.rows.last_mut())
        }),
    ];
    let fault = |(name, refusal, spoil): (_, _, Spoil)| {
        Fault::new(name, refusal, move |call: &mut C| spoil(pattern(call)))
    };
    table.into_iter().map(fault).collect()
}

/// Bit n, or bit 63 where a mask has no bit n.
pub fn beyond(pattern: &Pattern) -> u64 {
    1 << pattern.states.min(63)
}

/// Adds a bit to a mask, if there is one.
fn spoil(bit: u64, mask: Option<&mut u64>) {
    if let Some(mask) = mask {
        *mask |= bit;
    }
}

/// Fails unless each fault alone gets its refusal, and of two faults the one that
/// comes first in the order, whichever was put in first.
#[track_caller]
pub fn assert_refused_in_order<C: Clone + Debug>(
    right: &C,
    faults: &[Fault<C>],
    order: &[u64],
    answer: impl Fn(&C) -> u64,
) {
    let place = |refusal| {
        let found = order.iter().position(|other| *other == refusal);
        found.expect("the order has every refusal")
    };
    for refusal in order {
        let some = faults.iter().any(|fault| fault.refusal == *refusal);
        assert!(some, "no fault gives {refusal}");
    }
    assert!(answer(right) < 10, "{right:?}");
    for first in faults {
        let mut call = right.clone();
        (first.put)(&mut call);
        assert_eq!(answer(&call), first.refusal, "{}: {call:?}", first.name);
        for second in faults.iter().filter(|other| other.refusal != first.refusal) {
            let mut call = call.clone();
            (second.put)(&mut call);
            let wanted = order[place(first.refusal).min(place(second.refusal))];
            let names = (first.name, second.name);
            assert_eq!(answer(&call), wanted, "{names:?}: {call:?}");
        }
    }
}
