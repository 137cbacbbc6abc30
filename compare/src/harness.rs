//! The comparison of a decoder with the paper: series of inputs, and what went wrong.

mod arena;
mod blocks;
pub mod check;
mod encode;
mod heads;
mod pair;
mod pause;
mod programs;
mod report;
mod series;
mod shrink;
mod threads;
mod twins;

use check::check;
#[cfg(test)]
pub use encode::is_decoded;
#[cfg(test)]
pub use heads::{Promise, is_broken};
pub use programs::{refusal_number, run_programs};
pub use series::{Budget, Failure, Series};
use threads::ask_all;

use crate::generate::blank_cases::{self, BLANK_STRIPS};
use crate::generate::block_strips::{self, BLOCK_STRIPS};
use crate::generate::cases::{self, Case};
use crate::generate::encode_limits::{self, ENCODE_STRIPS};
use crate::generate::pair_cases::{self, PAIR_STRIPS};
use crate::generate::pause_cases::{self, PAUSE_STRIPS};
use crate::generate::strips::{STRIPS, strip};
use crate::interface::Decoder;
use crate::random::Random;
use std::sync::OnceLock;

/// Random inputs that come before those at the smaller limits, so that a plain fault shows
/// on a small one.
const INPUTS_BEFORE_LIMITS: u64 = 1_000;

/// Inputs that come before the strips.
const INPUTS_BEFORE_STRIPS: u64 = 14_000;

/// All inputs of a seed, by number and without end.
struct Inputs {
    seed: u64,
    at_limits: OnceLock<Vec<Case>>,
}

impl Inputs {
    fn of(seed: u64) -> Inputs {
        Inputs { seed, at_limits: OnceLock::new() }
    }

    fn input(&self, number: u64) -> Case {
        self.at_limits(number)
            .or_else(|| self.strip(number))
            .unwrap_or_else(|| cases::any(&mut Random::for_input(self.seed, number)))
    }

    fn at_limits(&self, number: u64) -> Option<Case> {
        let index = number.checked_sub(INPUTS_BEFORE_LIMITS)? as usize;
        let made = || cases::at_small_limits(&mut Random::new(self.seed));
        self.at_limits.get_or_init(made).get(index).cloned()
    }

    fn strip(&self, number: u64) -> Option<Case> {
        let mut index = number.checked_sub(INPUTS_BEFORE_STRIPS)? as usize;
        if index < STRIPS {
            return Some(strip(self.seed, index));
        }
        index -= STRIPS;
        if index < BLOCK_STRIPS {
            return Some(block_strips::strip(self.seed, index));
        }
        index -= BLOCK_STRIPS;
        if index < ENCODE_STRIPS {
            return Some(encode_limits::strip(index));
        }
        index -= ENCODE_STRIPS;
        if index < BLANK_STRIPS {
            return Some(blank_cases::strip(index));
        }
        index -= BLANK_STRIPS;
        if index < PAUSE_STRIPS {
            return Some(pause_cases::strip(self.seed, index));
        }
        index -= PAUSE_STRIPS;
        (index < PAIR_STRIPS).then(|| pair_cases::strip(self.seed, index))
    }
}

pub fn run(decoder: &dyn Decoder, seed: u64, budget: Budget) -> Series {
    run_on(decoder, seed, budget, |_| true)
}

/// Of the inputs of a seed those that are wanted; the others are only counted.
pub fn run_on(
    decoder: &dyn Decoder,
    seed: u64,
    budget: Budget,
    wanted: impl Fn(&Case) -> bool + Sync,
) -> Series {
    let inputs = Inputs::of(seed);
    let said = ask_all(budget, |input| {
        let case = inputs.input(input);
        match wanted(&case) {
            true => check(&case, decoder, input).map(Some).map_err(|_| Box::new(case)),
            false => Ok(None),
        }
    });
    let mut series = Series { inputs: said.before.len() as u64, ..Series::default() };
    said.before.into_iter().flatten().for_each(|seen| series.note(seen));
    series.failure = said.failure.map(|(input, case)| {
        series.inputs += 1;
        shrunk(*case, decoder, input)
    });
    series
}

/// One input of a seed again.
pub fn run_one(decoder: &dyn Decoder, seed: u64, input: u64) -> Option<Failure> {
    let case = Inputs::of(seed).input(input);
    check(&case, decoder, input).err()?;
    Some(shrunk(case, decoder, input))
}

fn shrunk(case: Case, decoder: &dyn Decoder, input: u64) -> Failure {
    let case = shrink::shrink(case, |candidate| check(candidate, decoder, input).is_err());
    let message = check(&case, decoder, input).err().unwrap_or_default();
    Failure { input, case, message }
}

#[cfg(test)]
mod tests {
    use super::*;
    use crate::fast::Fast;

    #[test]
    fn the_strips_come_after_the_other_limits() {
        let at_limits = cases::at_small_limits(&mut Random::new(1)).len() as u64;
        assert!(INPUTS_BEFORE_LIMITS + at_limits <= INPUTS_BEFORE_STRIPS, "{at_limits}");
        println!("{at_limits} inputs at the smaller limits");
    }

    /// The call and the refusal's number of each strip, by its number.
    #[test]
    fn strips_are_what_they_are_for() {
        // At the limits, then n, m and E one past them, then the fullest.
        let by_counts = [0, 0, 0, 0, 2, 2, 2, 0];
        let calls = ["decode", "write", "read"];
        let mut expected: Vec<(&str, u8)> =
            calls.iter().flat_map(|&call| by_counts.map(|number| (call, number))).collect();
        // A 4,000,001st entry, CR LF, no last LF, a 4,000,001st entry without LF.
        expected.extend([2, 1, 1, 2].map(|number| ("read", number)));
        // Degrees outside their limits; then lists of degrees too short: alone, before 5,
        // after 4.
        expected.extend([("decode", 5), ("write", 5), ("read", 5), ("decode", 5)]);
        expected.extend([("write", 6), ("read", 6), ("decode", 4)]);
        expected.extend([("decode", 0), ("twin", 0)]);
        assert_eq!(expected.len(), STRIPS);
        for (number, expected) in expected.into_iter().enumerate() {
            let seen = check(&strip(3, number), &Fast, number as u64).unwrap();
            assert_eq!((seen.call, seen.refusal), expected, "strip {number}");
            if number == STRIPS - 2 {
                // The codeword is found, and not at once.
                assert!(seen.iterations.is_some_and(|count| (2..30).contains(&count)));
            }
        }
    }
    /// The same of block sheets.
    #[test]
    fn block_strips_are_what_they_are_for() {
        let expected = [
            ("read blocks", 0),
            ("write blocks", 0),
            ("read blocks", 6),
            ("read blocks", 5),
            ("read blocks", 0),
            ("write blocks", 0),
            ("read blocks", 5),
            ("read blocks", 0),
            ("read blocks", 2),
        ];
        assert_eq!(expected.len(), BLOCK_STRIPS);
        for (number, expected) in expected.into_iter().enumerate() {
            let seen = check(&block_strips::strip(3, number), &Fast, number as u64).unwrap();
            assert_eq!((seen.call, seen.refusal), expected, "block strip {number}");
        }
    }
    /// And of the writing side: as many columns as there can be, and one more.
    #[test]
    fn encode_strips_are_what_they_are_for() {
        let first = INPUTS_BEFORE_STRIPS + (STRIPS + BLOCK_STRIPS) as u64;
        let inputs = Inputs::of(3);
        for (number, expected) in (first..).zip([4, 2]) {
            let seen = check(&inputs.input(number), &Fast, number).unwrap();
            assert_eq!((seen.call, seen.refusal), ("encode", expected), "input {number}");
        }
    }

    /// And of blank frames: nothing exposed, the last value, a NaN there, a short buffer.
    #[test]
    fn blank_strips_are_what_they_are_for() {
        let first = INPUTS_BEFORE_STRIPS + (STRIPS + BLOCK_STRIPS + ENCODE_STRIPS) as u64;
        let inputs = Inputs::of(3);
        let expected = [20, 0, 12, 20];
        assert_eq!(expected.len(), BLANK_STRIPS);
        for (number, expected) in (first..).zip(expected) {
            let seen = check(&inputs.input(number), &Fast, number).unwrap();
            assert_eq!((seen.call, seen.refusal), ("decode", expected), "input {number}");
        }
    }

    /// And of paused runs: one by parts, a state that is carried on, and levels and messages beyond
    /// their precision at the far end.
    #[test]
    fn pause_strips_are_what_they_are_for() {
        let blank = STRIPS + BLOCK_STRIPS + ENCODE_STRIPS;
        let first = INPUTS_BEFORE_STRIPS + (blank + BLANK_STRIPS) as u64;
        let inputs = Inputs::of(3);
        let expected = [("begin", 0), ("advance", 0), ("advance", 21), ("advance", 21)];
        assert_eq!(expected.len(), PAUSE_STRIPS);
        for (number, expected) in (first..).zip(expected) {
            let seen = check(&inputs.input(number), &Fast, number).unwrap();
            assert_eq!((seen.call, seen.refusal), expected, "input {number}");
        }
    }

    /// And of pairs: one that is accepted, of which one head comes to a codeword and the other goes
    /// on past its half; an infinity and a short list at the far end of the second head.
    #[test]
    fn pair_strips_are_what_they_are_for() {
        let blank = STRIPS + BLOCK_STRIPS + ENCODE_STRIPS + BLANK_STRIPS;
        let first = INPUTS_BEFORE_STRIPS + (blank + PAUSE_STRIPS) as u64;
        let inputs = Inputs::of(3);
        let expected = [("pair", 0), ("pair, second head", 12), ("pair, second head", 6)];
        assert_eq!(expected.len(), PAIR_STRIPS);
        for (number, expected) in (first..).zip(expected) {
            let case = inputs.input(number);
            let seen = check(&case, &Fast, number).unwrap();
            assert_eq!((seen.call, seen.refusal), expected, "input {number}");
            if let (Case::Pair(case), 0) = (case, seen.refusal) {
                let outcomes = case.outcome(&mut vec![0; case.first.n]).unwrap();
                let iterations = outcomes.map(|outcome| outcome.iterations);
                assert_eq!(iterations, [1, 3]);
            }
        }
    }
}
