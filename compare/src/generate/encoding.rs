//! Whole inputs of the writing side: graphs whose checks are independent and others, and bits
//! that a codeword holds, or none.

use super::cases::{damages, degrees_length, lent_length};
use super::codewords::Codewords;
use super::graphs::{covering, repeat_checks, sum_of_checks};
use super::{Lists, damage, graphs};
use crate::interface::{
    NUMBER_BYTES, number_bytes, numbers, position_bytes, positions, work_length,
};
use crate::paper::encode::{Held, encode};
use crate::paper::{Graph, Limits, Refusal};
use crate::random::Random;

/// An input of encode.
#[derive(Clone, Debug)]
pub struct EncodeCase {
    pub n: usize,
    pub starts: Vec<u8>,
    pub columns: Vec<u8>,
    pub positions: Vec<u8>,
    pub given: Vec<u8>,
    pub degrees: usize,
    pub codeword: usize,
    pub work: usize,
}

impl EncodeCase {
    /// What the paper says of it, on a list of degrees.
    pub fn outcome(&self, degrees: &mut [u32]) -> Result<Vec<u8>, Refusal> {
        let (starts, columns) = (numbers(&self.starts), numbers(&self.columns));
        let graph = Graph { n: self.n, starts: &starts, columns: &columns };
        let positions = positions(&self.positions);
        let held = Held { positions: &positions, bits: &self.given };
        encode(&graph, &held, degrees, self.codeword, self.work)
    }

    /// The bytes that a solved or contradictory input leaves 0.
    pub fn work_used(&self) -> usize {
        work_length(self.n, (self.starts.len() / NUMBER_BYTES).saturating_sub(1))
    }
}

/// Variables and their bits.
pub type Bits = Vec<(u16, u8)>;

/// The case with lent bytes of just the lengths that it needs.
pub fn encode_case(lists: &Lists, held: &[(u16, u8)]) -> EncodeCase {
    let (positions, given): (Vec<u16>, Vec<u8>) = held.iter().copied().unzip();
    EncodeCase {
        n: lists.n,
        starts: number_bytes(&lists.starts),
        columns: number_bytes(&lists.columns),
        positions: position_bytes(&positions),
        given,
        degrees: NUMBER_BYTES * lists.n.min(Limits::LENT.variables + 1),
        codeword: lists.n.min(Limits::LENT.variables + 1),
        work: work_length(lists.n, lists.starts.len() - 1).min(1 << 20),
    }
}

/// So many of the variables, with their bits in a word.
pub fn some_of(random: &mut Random, word: &[u8], count: usize) -> Bits {
    let mut chosen: Vec<usize> = (0..word.len()).collect();
    random.shuffle(&mut chosen);
    chosen.truncate(count);
    chosen.sort_unstable();
    chosen.into_iter().map(|variable| (variable as u16, word[variable])).collect()
}

/// Bits that no codeword holds: those of a codeword at all variables of a sum of checks, and at
/// some others, with one of the sum's turned. None where the checks cancel.
pub fn contradiction(random: &mut Random, lists: &Lists, word: &[u8], others: usize) -> Bits {
    let sum = sum_of_checks(random, &lists.rows());
    let mut held = some_of(random, word, others);
    held.retain(|&(variable, _)| !sum.contains(&variable.into()));
    held.extend(sum.iter().map(|&variable| (variable as u16, word[variable as usize])));
    held.sort_unstable();
    if !sum.is_empty() {
        let turned = random.pick(&sum);
        held.iter_mut().filter(|(at, _)| u32::from(*at) == turned).for_each(|(_, bit)| *bit ^= 1);
    }
    held
}

/// Mostly small, sometimes with a number of variables around a whole number of bytes, rarely as
/// large as is admitted; half of them with checks that say nothing new.
fn graph(random: &mut Random) -> Lists {
    let mut lists = match random.below(400) {
        0 => {
            let (n, checks) = (random.between(2_000, 2_048), random.between(400, 512));
            let degree = random.pick(&[4, 7, 30, 60]);
            return covering(random, n, checks, degree);
        }
        1..=80 => {
            let n = random.pick(&[7, 8, 9, 15, 16, 17, 23, 24, 25, 63, 64, 65]);
            let checks = random.between(1.max(n / 16), n);
            let degree = random.between(2, 6);
            covering(random, n, checks, degree)
        }
        _ => graphs::any(random),
    };
    if random.one_in(2) {
        (0..random.between(1, 4)).for_each(|_| repeat_checks(random, &mut lists));
    }
    lists
}

/// From none to all of the variables, with the bits of a codeword, or those with one turned, or
/// any, or such as contradict the checks.
fn held(random: &mut Random, lists: &Lists) -> Bits {
    let n = lists.n;
    let count = match random.below(8) {
        0 => 0,
        1 => n,
        2 => n - 1,
        3 => 1,
        _ => random.between(0, n),
    };
    let codeword = Codewords::new(lists).random(random);
    match random.below(8) {
        0 => {
            let word: Vec<u8> = (0..n).map(|_| random.below(2) as u8).collect();
            some_of(random, &word, count)
        }
        1 => {
            let mut held = some_of(random, &codeword, count);
            if !held.is_empty() {
                let turned = random.below(held.len());
                held[turned].1 ^= 1;
            }
            held
        }
        2 => contradiction(random, lists, &codeword, count),
        _ => some_of(random, &codeword, count),
    }
}

/// Positions or bits as they should not be, mostly.
fn damage_held(random: &mut Random, n: usize, positions: &mut Vec<u16>, given: &mut Vec<u8>) {
    let last = positions.len().saturating_sub(1);
    match random.below(8) {
        0 => drop(given.pop()),
        1 => given.push(random.below(3) as u8),
        2 => positions.push(random.pick(&[0, n as u16 - 1, n as u16, u16::MAX])),
        3 if last > 0 => {
            let at = random.between(1, last);
            positions[at] = positions[at - 1];
        }
        4 if last > 0 => {
            let at = random.between(1, last);
            positions.swap(at, at - 1);
        }
        5 if !positions.is_empty() => {
            let past = [n as u16, n as u16 + 1, 2_048, u16::MAX, positions[last] | 1 << 15];
            positions[last] = random.pick(&past);
        }
        6 if !positions.is_empty() => {
            let at = random.below(positions.len());
            positions[at] ^= random.pick(&[1 << 8, 1 << 15, 1]);
        }
        _ if !given.is_empty() => {
            for _ in 0..random.between(1, 3) {
                let at = random.below(given.len());
                given[at] = random.pick(&[2, 3, 48, 49, 128, 129, 254, 255]);
            }
        }
        _ => {}
    }
}

pub fn any(random: &mut Random) -> EncodeCase {
    let mut lists = graph(random);
    let (mut positions, mut given): (Vec<u16>, Vec<u8>) = held(random, &lists).into_iter().unzip();
    if random.one_in(5) {
        for _ in 0..random.between(1, 2) {
            damage_held(random, lists.n, &mut positions, &mut given);
        }
    }
    let good = encode_case(&lists, &[]);
    let (codeword, work) = (lent_length(random, good.codeword), lent_length(random, good.work));
    let limits = random.pick(&[Limits::WRITING, Limits::LENT]);
    (0..damages(random)).for_each(|_| damage::damage(limits, random, &mut lists));
    EncodeCase {
        n: lists.n,
        starts: damage::ragged(random, number_bytes(&lists.starts)),
        columns: damage::ragged(random, number_bytes(&lists.columns)),
        positions: damage::ragged(random, position_bytes(&positions)),
        given,
        degrees: degrees_length(random, lists.n),
        codeword,
        work,
    }
}

#[cfg(test)]
mod tests {
    use super::*;
    use crate::paper::check_graph;

    #[test]
    fn graphs_are_admitted_and_of_every_rank() {
        let random = &mut Random::new(41);
        let mut deficient = 0;
        for _ in 0..600 {
            let lists = graph(random);
            let degrees = &mut vec![0; lists.n];
            assert_eq!(check_graph(Limits::WRITING, &lists.graph(), degrees), Ok(()));
            deficient += usize::from(Codewords::new(&lists).rank() < lists.starts.len() - 1);
        }
        assert!((150..450).contains(&deficient), "{deficient} graphs have superfluous checks");
    }

    /// Unless the checks that were chosen cancel. Most cannot be seen in a single check.
    #[test]
    fn contradictions_contradict() {
        let random = &mut Random::new(42);
        let (mut refused, mut in_one_check) = (0, 0);
        for _ in 0..300 {
            let lists = graph(random);
            let word = Codewords::new(&lists).random(random);
            let held = contradiction(random, &lists, &word, 0);
            let outcome = encode_case(&lists, &held).outcome(&mut vec![0; lists.n]);
            match outcome.map_err(|refusal| refusal.number) {
                Ok(_) => assert!(held.is_empty()),
                Err(number) => {
                    assert_eq!(number, 19);
                    refused += 1;
                    let given: Vec<u32> = held.iter().map(|&(at, _)| at.into()).collect();
                    in_one_check += usize::from(lists.rows().contains(&given));
                }
            }
        }
        assert!(refused > 270 && in_one_check < 150, "{refused} {in_one_check}");
    }
}
