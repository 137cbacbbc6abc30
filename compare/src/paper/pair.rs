//! Two heads on one graph, with one allowance of iterations.

use super::graph::Graph;
use super::limits::Limits;
use super::quantiser::Level;
use super::run::{Outcome, Rules, accept, run};
use super::{PairRefusal, Refusal};
use crate::interface::{LentLengths, REPORTS_BYTES, Settings};
use std::ops::RangeInclusive;

/// "It refuses T outside 2 to 510 with 22."
const ALLOWANCES: RangeInclusive<u32> = 2..=510;

/// A head's frame, and the lengths of what is lent for it.
#[derive(Clone, Copy)]
pub struct Head<'a> {
    pub values: &'a [f32],
    pub settings: &'a Settings,
    pub lent: &'a LentLengths,
}

/// The outcome of each head. Of the reports only the length in bytes counts here.
pub fn decode_pair(
    graph: &Graph,
    heads: [Head; 2],
    allowance: u32,
    degrees: &mut [u32],
    reports: usize,
) -> Result<[Outcome; 2], PairRefusal> {
    // "After both frames' own refusals, the first head's before the second's."
    let first = accept_head(graph, 1, &heads[0], degrees)?;
    let second = accept_head(graph, 2, &heads[1], degrees)?;
    if !ALLOWANCES.contains(&allowance) {
        return refuse_pair(22);
    }
    if reports < REPORTS_BYTES {
        return refuse_pair(6);
    }
    // "Let a and b be what each would take alone under its limit."
    let alone =
        |(levels, rules): &(Vec<Level>, Rules)| run(graph, levels.clone(), rules).iterations;
    let [of_first, of_second] = grants(allowance as usize, alone(&first), alone(&second));
    Ok([run_granted(graph, first, of_first), run_granted(graph, second, of_second)])
}

/// What decode turns down of a head. The graph's refusals are the first head's.
fn accept_head(
    graph: &Graph,
    number: u8,
    head: &Head,
    degrees: &mut [u32],
) -> Result<(Vec<Level>, Rules), PairRefusal> {
    let accepted = accept(Limits::LENT, graph, head.values, head.settings, degrees, head.lent);
    accepted.map_err(|refusal| PairRefusal { head: number, refusal })
}

/// A refusal of neither head.
fn refuse_pair<T>(number: u8) -> Result<T, PairRefusal> {
    Err(PairRefusal { head: 0, refusal: Refusal { number, place: 0 } })
}

/// "The first gets the smaller of a and the larger of T/2 rounded up and T - b. The second gets
/// the smaller of b and the larger of T/2 rounded down and T - a."
pub fn grants(allowance: usize, a: usize, b: usize) -> [usize; 2] {
    let rest = |of_other: usize| allowance.saturating_sub(of_other);
    [a.min(allowance.div_ceil(2).max(rest(b))), b.min((allowance / 2).max(rest(a)))]
}

/// "That grant serves as its limit in the rules."
fn run_granted(graph: &Graph, (levels, rules): (Vec<Level>, Rules), grant: usize) -> Outcome {
    run(graph, levels, &Rules { limit: grant, ..rules })
}
