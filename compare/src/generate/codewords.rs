//! Codewords by elimination over GF(2).

use super::Lists;
use crate::random::Random;

/// A basis-free description of all codewords: for each pivot variable, the free variables
/// whose sum it is.
pub struct Codewords {
    n: usize,
    rows: Vec<(usize, Vec<u64>)>,
    free: Vec<usize>,
}

fn has(row: &[u64], variable: usize) -> bool {
    (row[variable / 64] >> (variable % 64)) & 1 == 1
}

impl Codewords {
    pub fn new(lists: &Lists) -> Codewords {
        let words = lists.n.div_ceil(64);
        let mut open: Vec<Vec<u64>> = Vec::new();
        for row in lists.rows() {
            let mut bits = vec![0; words];
            row.iter().for_each(|&v| bits[v as usize / 64] |= 1 << (v % 64));
            open.push(bits);
        }
        let mut rows: Vec<(usize, Vec<u64>)> = Vec::new();
        let mut free = Vec::new();
        for variable in 0..lists.n {
            let Some(index) = open.iter().position(|row| has(row, variable)) else {
                free.push(variable);
                continue;
            };
            let pivot = open.swap_remove(index);
            let reduced = rows.iter_mut().map(|(_, row)| row);
            for row in reduced.chain(&mut open).filter(|row| has(row, variable)) {
                row.iter_mut().zip(&pivot).for_each(|(word, &other)| *word ^= other);
            }
            rows.push((variable, pivot));
        }
        Codewords { n: lists.n, rows, free }
    }

    /// How many checks say something new.
    pub fn rank(&self) -> usize {
        self.rows.len()
    }

    /// A codeword with random bits at the free variables.
    pub fn random(&self, random: &mut Random) -> Vec<u8> {
        let mut word = vec![0; self.n];
        for &variable in &self.free {
            word[variable] = random.below(2) as u8;
        }
        for (pivot, row) in &self.rows {
            let others = self.free.iter().filter(|&&variable| has(row, variable));
            word[*pivot] = others.fold(0, |sum, &variable| sum ^ word[variable]);
        }
        word
    }
}
