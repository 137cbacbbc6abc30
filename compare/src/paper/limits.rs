//! Which counts and degrees are admitted.

use std::ops::RangeInclusive;

pub const LEAST_VARIABLES: usize = 2;
pub const LEAST_CHECKS: usize = 1;
pub const CHECK_DEGREES: RangeInclusive<usize> = 2..=64;
pub const VARIABLE_DEGREES: RangeInclusive<u32> = 1..=32;

/// The largest counts of a graph that a call admits.
#[derive(Clone, Copy, Debug, PartialEq, Eq)]
pub struct Limits {
    pub variables: usize,
    pub checks: usize,
    pub entries: usize,
}

impl Limits {
    /// Those of lent graphs and of sheets.
    pub const LENT: Limits = Limits { variables: 1_000_000, checks: 1_000_000, entries: 4_000_000 };

    /// Those of the program: "the program keeps its file sizes and the old limits".
    pub const PROGRAM: Limits = Limits { variables: 8_192, checks: 8_192, entries: 32_768 };

    /// Those of the writing side, which "serves graphs of at most 2,048 variables and 512
    /// checks".
    pub const WRITING: Limits = Limits { variables: 2_048, checks: 512, ..Limits::LENT };

    pub fn admit_variables(&self, n: usize) -> bool {
        (LEAST_VARIABLES..=self.variables).contains(&n)
    }

    pub fn admit_checks(&self, m: usize) -> bool {
        (LEAST_CHECKS..=self.checks).contains(&m)
    }

    pub fn admit_entries(&self, entries: usize) -> bool {
        entries <= self.entries
    }
}
