//! Random numbers that are the same in every run: splitmix64 from a fixed seed.

/// A source of random numbers.
#[derive(Clone, Debug)]
pub struct Random {
    state: u64,
}

impl Random {
    /// A source with a fixed seed.
    pub fn new(seed: u64) -> Random {
        Random { state: seed }
    }

    /// Any number of 64 bits.
    pub fn number(&mut self) -> u64 {
        self.state = self.state.wrapping_add(0x9e37_79b9_7f4a_7c15);
        let mixed = (self.state ^ (self.state >> 30)).wrapping_mul(0xbf58_476d_1ce4_e5b9);
        let mixed = (mixed ^ (mixed >> 27)).wrapping_mul(0x94d0_49bb_1331_11eb);
        mixed ^ (mixed >> 31)
    }

    /// A number below the bound; 0 for bound 0.
    pub fn below(&mut self, bound: u64) -> u64 {
        self.number().checked_rem(bound).unwrap_or(0)
    }

    /// A number from the lowest to the highest, both included; the lowest if there is none.
    pub fn between(&mut self, lowest: u64, highest: u64) -> u64 {
        match highest.checked_sub(lowest) {
            None => lowest,
            Some(u64::MAX) => self.number(),
            Some(width) => lowest + self.below(width + 1),
        }
    }

    /// True in so many of so many cases.
    pub fn chance(&mut self, hits: u64, of: u64) -> bool {
        self.below(of) < hits
    }

    /// One of the choices, or nothing where there are none.
    pub fn pick<'a, T>(&mut self, choices: &'a [T]) -> Option<&'a T> {
        choices.get(self.below(choices.len() as u64) as usize)
    }

    /// A set that has each of the states in so many of so many cases.
    pub fn set(&mut self, states: u64, hits: u64, of: u64) -> u64 {
        (0..states.min(64))
            .filter(|_| self.chance(hits, of))
            .fold(0, |set, state| set | 1 << state)
    }

    /// The states 0 to n-1 in random order.
    pub fn order(&mut self, states: u64) -> Vec<u64> {
        let mut order: Vec<u64> = (0..states.min(64)).collect();
        for last in (1..order.len()).rev() {
            order.swap(last, self.below(last as u64 + 1) as usize);
        }
        order
    }
}
