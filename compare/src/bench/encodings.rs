//! The graphs and bits that encode is timed on, and its times.

use super::times::{Named, SHORTEST, Times, in_turns};
use crate::generate::codewords::Codewords;
use crate::generate::encoding::{EncodeCase, encode_case, some_of};
use crate::generate::graphs::covering;
use crate::interface::{Answer, Decoder, EncodeInput, GraphBytes, NUMBER_BYTES};
use crate::random::Random;
use std::hint::black_box;
use std::time::Instant;

/// Messages of a row on a large and on a small graph: of the latter more than a processor's branch
/// prediction can learn.
pub const MESSAGES: usize = 6;
pub const SMALL_MESSAGES: usize = 2_000;

/// Messages on one graph, each with bits of a codeword at as many variables.
pub struct Encodings {
    cases: Vec<EncodeCase>,
}

impl Encodings {
    /// On a graph of random checks of one degree.
    pub fn new(
        random: &mut Random,
        [n, checks, degree]: [usize; 3],
        given: usize,
        count: usize,
    ) -> Encodings {
        let lists = covering(random, n, checks, degree);
        let codewords = Codewords::new(&lists);
        let message = |_| {
            let word = codewords.random(random);
            encode_case(&lists, &some_of(random, &word, given))
        };
        Encodings { cases: (0..count).map(message).collect() }
    }

    /// n, m, E and how many bits are given.
    pub fn counts(&self) -> [usize; 4] {
        let EncodeCase { n, starts, columns, given, .. } = &self.cases[0];
        let [starts, columns] = [starts, columns].map(|list| list.len() / NUMBER_BYTES);
        [*n, starts - 1, columns, given.len()]
    }

    /// Nanoseconds of a call, with as many calls a measurement as make it long enough.
    pub fn times(&self, decoders: &[Named], rounds: usize) -> Vec<Times> {
        let [mut degrees, mut codeword, mut work] =
            [self.cases[0].degrees, self.cases[0].codeword, self.cases[0].work]
                .map(|length| vec![0; length]);
        let mut measure = |decoder: &dyn Decoder, first: usize, calls: usize| {
            let begun = Instant::now();
            for call in first..first + calls {
                let EncodeCase { n, starts, columns, positions, given, .. } =
                    &self.cases[call % self.cases.len()];
                let graph = GraphBytes { n: *n, starts, columns };
                let input = EncodeInput { graph, positions, given };
                let input = black_box(&input);
                let answer =
                    black_box(decoder.encode(input, &mut degrees, &mut codeword, &mut work));
                assert_eq!(answer, Answer::Accepted(()), "a message of the benchmark");
            }
            begun.elapsed()
        };
        let mut calls = 1;
        while decoders.iter().any(|(_, decoder)| measure(*decoder, 0, calls) < SHORTEST) {
            calls *= 2;
        }
        in_turns(decoders, rounds, |decoder, round| {
            measure(decoder, round * calls, calls).as_nanos() as f64 / calls as f64
        })
    }
}
