//! What a run of comparisons has done.

use crate::case::{Call, Case};
use crate::lending::Keeping;
use crate::ours::Way;
use std::fmt;

/// Numbers that come back: 0 to 19.
pub const NUMBERS: usize = 20;

/// Counts of calls, all of them compared and alike.
#[derive(Clone, Debug, Default, PartialEq, Eq)]
pub struct Tally {
    pub seed: u64,
    pub calls: u64,
    pub kinds: [u64; Call::NAMES.len()],
    pub numbers: [u64; NUMBERS],
    pub other_lengths: u64,
    pub behind: u64,
    pub bare: u64,
}

impl Tally {
    pub fn count(&mut self, case: &Case, number: u8, keeping: Keeping, way: Way) {
        self.calls += 1;
        self.kinds[case.call.kind()] += 1;
        let other_lengths = case.call != Call::Open && !case.memory.state.has_session_lengths();
        self.other_lengths += u64::from(other_lengths);
        self.numbers[usize::from(number)] += 1;
        self.behind += u64::from(keeping == Keeping::Behind);
        self.bare += u64::from(way == Way::Bare);
    }

    /// The numbers that never came.
    pub fn missing(&self) -> Vec<usize> {
        (0..NUMBERS).filter(|&number| self.numbers[number] == 0).collect()
    }
}

impl fmt::Display for Tally {
    fn fmt(&self, to: &mut fmt::Formatter) -> fmt::Result {
        writeln!(to, "seed {}, {} calls agree", self.seed, self.calls)?;
        for (name, count) in Call::NAMES.iter().zip(self.kinds) {
            writeln!(to, "{name}: {count}")?;
        }
        writeln!(to, "over a state of other lengths: {}", self.other_lengths)?;
        writeln!(to, "before a guard page: {}, behind one: {}", self.calls - self.behind, self.behind)?;
        writeln!(to, "declared in examples: {}, bare: {}", self.calls - self.bare, self.bare)?;
        for (number, count) in self.numbers.iter().enumerate() {
            writeln!(to, "number {number}: {count}")?;
        }
        Ok(())
    }
}
