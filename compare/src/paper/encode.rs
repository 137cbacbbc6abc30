//! The writing side: the codeword that holds given bits, and "of several [..] the one with 0 at
//! the first place where they differ". Small graphs are searched, word after word; larger ones
//! are solved by equations.

use super::graph::{Graph, check_graph, odd_checks};
use super::{Limits, Refusal, refuse};
use crate::interface::work_length;

/// Graphs of more variables are not searched.
pub const MOST_SEARCHED: usize = 16;

/// Variables "strictly rising, and a bit for each".
#[derive(Clone, Copy, Debug)]
pub struct Held<'a> {
    pub positions: &'a [u16],
    pub bits: &'a [u8],
}

impl Held<'_> {
    fn pairs(&self) -> impl Iterator<Item = (usize, u8)> {
        self.positions.iter().map(|&position| position.into()).zip(self.bits.iter().copied())
    }
}

/// The codeword, where codeword and work have so many bytes.
pub fn encode(
    graph: &Graph,
    held: &Held,
    degrees: &mut [u32],
    codeword_lent: usize,
    work_lent: usize,
) -> Result<Vec<u8>, Refusal> {
    check_graph(Limits::WRITING, graph, degrees)?;
    check_positions(graph.n, held)?;
    check_bits(held)?;
    if codeword_lent < graph.n || work_lent < work_length(graph.n, graph.m()) {
        return refuse(6, 0);
    }
    let word = match graph.n <= MOST_SEARCHED {
        true => searched(graph, held),
        false => solved(graph, held),
    };
    word.map_or(refuse(19, 0), Ok)
}

/// "Positions out of order or range or unequal lists."
fn check_positions(n: usize, held: &Held) -> Result<(), Refusal> {
    let positions = held.positions;
    let in_range = positions.iter().all(|&position| usize::from(position) < n);
    let rising = positions.windows(2).all(|pair| pair[0] < pair[1]);
    match positions.len() == held.bits.len() && in_range && rising {
        true => Ok(()),
        false => refuse(18, 0),
    }
}

/// "Given bits outside 0 and 1 get 15 (first index)."
fn check_bits(held: &Held) -> Result<(), Refusal> {
    match held.bits.iter().position(|&bit| bit > 1) {
        Some(index) => refuse(15, index),
        None => Ok(()),
    }
}

/// Every word that holds the bits, in order, until one is a codeword. Of two words, the one with 0
/// at the first place where they differ comes first.
pub fn searched(graph: &Graph, held: &Held) -> Option<Vec<u8>> {
    let mut word = vec![0; graph.n];
    held.pairs().for_each(|(variable, bit)| word[variable] = bit);
    let is_open = |&variable: &usize| held.pairs().all(|(other, _)| other != variable);
    let open: Vec<usize> = (0..graph.n).filter(is_open).collect();
    for number in 0..1_u64 << open.len() {
        // The number's highest digit is the first open variable's bit.
        for (place, &variable) in open.iter().rev().enumerate() {
            word[variable] = (number >> place & 1) as u8;
        }
        if odd_checks(graph, &word) == 0 {
            return Some(word);
        }
    }
    None
}

/// A set of variables, bit by bit in words, and what their sum is.
#[derive(Clone)]
struct Equation {
    variables: Vec<u64>,
    sum: u8,
}

impl Equation {
    fn new(n: usize, variables: impl Iterator<Item = usize>, sum: u8) -> Equation {
        let mut words = vec![0; n.div_ceil(64)];
        variables.for_each(|variable| words[variable / 64] |= 1 << (variable % 64));
        Equation { variables: words, sum }
    }

    fn highest(&self) -> Option<usize> {
        let word = self.variables.iter().rposition(|&word| word != 0)?;
        Some(64 * word + self.variables[word].ilog2() as usize)
    }

    /// A variable that both have falls out.
    fn add(&mut self, other: &Equation) {
        self.variables.iter_mut().zip(&other.variables).for_each(|(word, other)| *word ^= other);
        self.sum ^= other.sum;
    }

    /// The sum that a word has at the variables.
    fn sum_in(&self, word: &[u8]) -> u8 {
        let has = |variable: usize| (self.variables[variable / 64] >> (variable % 64) & 1) as u8;
        word.iter().enumerate().fold(0, |sum, (variable, bit)| sum ^ (has(variable) & bit))
    }
}

/// By equations, at most one for each highest variable: the given bits, then the checks. What one
/// says that is not yet said is kept under its highest variable.
///
/// The bits of variables 0 to v - 1 can be those of a codeword that holds the given bits just where
/// they fulfil all kept equations of highest variables below v. So bit v is what the equation under
/// v makes it and, where there is none, it can be 0.
pub fn solved(graph: &Graph, held: &Held) -> Option<Vec<u8>> {
    let n = graph.n;
    let given = held.pairs().map(|(variable, bit)| Equation::new(n, [variable].into_iter(), bit));
    let checks = graph.rows().map(|row| {
        let variables = graph.columns[row].iter().map(|&variable| variable as usize);
        Equation::new(n, variables, 0)
    });
    let mut kept: Vec<Option<Equation>> = vec![None; n];
    for mut equation in given.chain(checks) {
        while let Some(highest) = equation.highest() {
            match &kept[highest] {
                Some(other) => equation.add(other),
                None => {
                    kept[highest] = Some(equation.clone());
                    break;
                }
            }
        }
        // Nothing is left of it, and the sum of nothing is 0.
        if equation.highest().is_none() && equation.sum == 1 {
            return None;
        }
    }
    let mut word = vec![0; n];
    for (variable, equation) in kept.iter().enumerate() {
        if let Some(equation) = equation {
            // Its other variables are lower, and decided.
            word[variable] = equation.sum ^ equation.sum_in(&word);
        }
    }
    Some(word)
}
