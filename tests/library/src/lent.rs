//! Memory to lend: a slice in the middle of a larger one that is full of sentinels.

use crate::host::RecordBytes;
use std::fmt::Debug;
use std::hint::black_box;
use std::ops::Range;

/// How many sentinels stand on each side. An odd number, so that a slice begins
/// at no rounder address than its type asks for.
const MARGIN: usize = 13;

/// What a lent slice is made of.
pub trait Unit: Copy + Debug + PartialEq {
    /// The sentinel of a place: places differ, and no call has reason to write it.
    fn sentinel(place: usize) -> Self;
}

/// A number that is different at every place.
fn mixed(place: usize) -> u64 {
    (place as u64 + 1).wrapping_mul(0x9e37_79b9_7f4a_7c15)
}

impl Unit for u64 {
    fn sentinel(place: usize) -> u64 {
        mixed(place)
    }
}

impl Unit for u16 {
    fn sentinel(place: usize) -> u16 {
        // No parent is so large.
        0x8000 | (mixed(place) >> 48) as u16
    }
}

impl Unit for u8 {
    fn sentinel(place: usize) -> u8 {
        // No letter is so large.
        0x80 | (mixed(place) >> 56) as u8
    }
}

impl Unit for RecordBytes {
    fn sentinel(place: usize) -> RecordBytes {
        [0, 1, 2].map(|word| mixed(3 * place + word))
    }
}

/// A slice to lend, with sentinels on both sides.
pub struct Lent<T> {
    memory: Vec<T>,
    as_lent: Vec<T>,
}

impl<T: Unit> Lent<T> {
    /// A slice with the given content.
    pub fn holding(content: &[T]) -> Lent<T> {
        let mut memory = sentinels(content.len() + 2 * MARGIN);
        memory[MARGIN..MARGIN + content.len()].copy_from_slice(content);
        let as_lent = memory.clone();
        Lent { memory, as_lent }
    }

    /// A slice of the given length to be written, full of sentinels itself.
    pub fn blank(length: usize) -> Lent<T> {
        let memory = sentinels(length + 2 * MARGIN);
        let as_lent = memory.clone();
        Lent { memory, as_lent }
    }

    /// The slice, to be read.
    pub fn get(&self) -> &[T] {
        &self.memory[MARGIN..self.memory.len() - MARGIN]
    }

    /// The slice, to be written.
    pub fn get_mut(&mut self) -> &mut [T] {
        let end = self.memory.len() - MARGIN;
        &mut self.memory[MARGIN..end]
    }

    /// Fails unless the slice and all around it is as it was lent.
    #[track_caller]
    pub fn assert_unchanged(&self) {
        self.written(0..0);
    }

    /// The places that may have been written; fails unless all others are as they were lent.
    #[track_caller]
    pub fn written(&self, places: Range<usize>) -> &[T] {
        // The compiler may not take it from the lending by `&` that nothing was written.
        let memory = black_box(&self.memory[..]);
        let (before, after) = (..MARGIN + places.start, MARGIN + places.end..);
        let unchanged =
            memory[before] == self.as_lent[before] && memory[after.clone()] == self.as_lent[after];
        assert!(
            unchanged,
            "of {} places only {places:?} may be written, but {} is",
            self.get().len(),
            self.first_change(&places)
        );
        &self.get()[places]
    }

    /// The first place that was written and may not be; below 0 it stands before the slice.
    fn first_change(&self, places: &Range<usize>) -> isize {
        let place = |at: usize| at as isize - MARGIN as isize;
        let may_change = |at: usize| at >= MARGIN && places.contains(&(at - MARGIN));
        (0..self.memory.len())
            .find(|&at| self.memory[at] != self.as_lent[at] && !may_change(at))
            .map_or(isize::MAX, place)
    }
}

fn sentinels<T: Unit>(count: usize) -> Vec<T> {
    (0..count).map(T::sentinel).collect()
}

#[cfg(test)]
mod tests {
    use super::{Lent, Unit, MARGIN};
    use std::panic::{catch_unwind, AssertUnwindSafe};

    fn fails(check: impl FnOnce()) -> bool {
        catch_unwind(AssertUnwindSafe(check)).is_err()
    }

    /// Changes one place after another, and says for each whether the check fails.
    fn noticed<T: Unit>(lent: &mut Lent<T>, other: T, check: fn(&Lent<T>)) -> Vec<bool> {
        (0..lent.memory.len())
            .map(|place| {
                let old = std::mem::replace(&mut lent.memory[place], other);
                let fails = fails(|| check(lent));
                lent.memory[place] = old;
                fails
            })
            .collect()
    }

    /// Catches a place that no check looks at.
    #[test]
    fn a_change_of_any_place_is_noticed() {
        let all = noticed(&mut Lent::holding(&[7u64, 8, 9]), 0, Lent::assert_unchanged);
        assert_eq!(all, [true; 3 + 2 * MARGIN]);
        let all = noticed(&mut Lent::<u16>::blank(4), 0, Lent::assert_unchanged);
        assert_eq!(all, [true; 4 + 2 * MARGIN]);
    }

    /// Catches a check that lets more be written than was named, or less.
    #[test]
    fn only_the_places_named_as_written_may_change() {
        let check = |lent: &Lent<u8>| {
            lent.written(1..3);
        };
        let found = noticed(&mut Lent::blank(5), 0, check);
        let wanted = [
            vec![true; MARGIN + 1],
            vec![false; 2],
            vec![true; 2 + MARGIN],
        ]
        .concat();
        assert_eq!(found, wanted);
    }

    /// Catches an empty slice without sentinels.
    #[test]
    fn an_empty_slice_has_sentinels_too() {
        let lent = Lent::<u64>::blank(0);
        lent.assert_unchanged();
        assert_eq!((lent.get().len(), lent.memory.len()), (0, 2 * MARGIN));
    }
}
