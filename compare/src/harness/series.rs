//! What a comparison has seen: on one input, and over a series of them.

use crate::generate::cases::Case;
use std::collections::BTreeMap;
use std::time::{Duration, Instant};

/// How long a series goes on.
#[derive(Clone, Copy, Debug)]
pub enum Budget {
    Inputs(u64),
    Time(Duration),
}

impl Budget {
    pub fn is_spent(&self, inputs: u64, begun: Instant) -> bool {
        match *self {
            Budget::Inputs(count) => inputs >= count,
            Budget::Time(time) => begun.elapsed() >= time,
        }
    }
}

/// What the paper said of an input on which the decoder agrees.
pub struct Seen {
    pub call: &'static str,
    pub refusal: u8,
    pub iterations: Option<usize>,
}

/// The first input of a series on which the decoder differs, shrunk.
pub struct Failure {
    pub input: u64,
    pub case: Case,
    pub message: String,
}

/// What a series has shown. The tally counts the inputs of each call by refusal number,
/// 0 where nothing was refused, and the accepted decodes by iteration count.
#[derive(Default)]
pub struct Series {
    pub inputs: u64,
    pub tally: BTreeMap<(&'static str, u8), u64>,
    pub iterations: BTreeMap<usize, u64>,
    pub failure: Option<Failure>,
}

impl Series {
    pub fn note(&mut self, seen: Seen) {
        *self.tally.entry((seen.call, seen.refusal)).or_default() += 1;
        if let Some(iterations) = seen.iterations {
            *self.iterations.entry(iterations).or_default() += 1;
        }
    }
}
