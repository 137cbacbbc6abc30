//! Chosen pairs: heads that take any few iterations under every allowance around them, long runs
//! at the ends of what is admitted, on large graphs and on strips.

use super::Lists;
use super::cases::Case;
use super::graphs::{regular, regular_with_codeword};
use super::pair::{Frame, PairCase, pair_case};
use super::settings::{PRECISIONS, plain};
use crate::interface::{LARGEST_LIFT, Settings, f32_bytes};
use crate::paper::Limits;
use crate::random::Random;

/// The most iterations of a head that comes to a codeword.
const SLOWEST: usize = 6;

/// Check i has the variables i and i + 1 of a chain; three further ones have a variable in common.
fn lists() -> Lists {
    let center = SLOWEST as u32 + 1;
    let chain = (0..center - 1).map(|check| vec![check, check + 1]);
    let star = (1..4).map(|other| vec![center, center + other]);
    Lists::from_rows(SLOWEST + 5, &chain.chain(star).collect::<Vec<_>>())
}

/// Ones along the chain.
fn word() -> Vec<u8> {
    [vec![1; SLOWEST + 1], vec![0; 4]].concat()
}

/// The first variables of the chain are unexposed: the sign of the others comes one variable
/// further in each iteration.
fn slow(count: usize) -> Vec<f32> {
    let chain = (0..=SLOWEST).map(|variable| if variable < count { 0.0 } else { -1.5 });
    chain.chain([2.0, 9.0, 9.0, 1.5]).collect()
}

/// Some check of the three is odd in every iteration.
fn endless() -> Vec<f32> {
    [vec![0.0; SLOWEST], vec![-1.5, -9.0, 9.0, 9.0, -9.0]].concat()
}

/// What makes a head take so many iterations.
#[derive(Clone, Copy)]
enum Kind {
    Codeword,
    Limit,
}

/// A head that takes so many iterations alone, with lifting from the second on.
fn head(kind: Kind, count: usize, precisions: (u32, u32)) -> Frame {
    let lifted = Settings { lift_from: 2, ..plain(precisions) };
    match kind {
        Kind::Codeword => (slow(count), Settings { limit: 200, ..lifted }),
        Kind::Limit => (endless(), Settings { limit: count as u32, ..lifted }),
    }
}

fn case(heads: [Frame; 2], allowance: usize) -> PairCase {
    PairCase {
        word: word(),
        other: f32_bytes(&endless()),
        ..pair_case(&lists(), heads, allowance as u32)
    }
}

/// Every two counts up to the slowest, with every allowance up to one past their sum. Kinds and
/// precisions take turns.
fn short_pairs() -> Vec<PairCase> {
    use Kind::{Codeword, Limit};
    let kinds = [[Codeword, Limit], [Limit, Codeword], [Limit, Limit], [Codeword, Codeword]];
    let mut pairs = Vec::new();
    for a in 0..=SLOWEST {
        for b in 0..=SLOWEST {
            for allowance in 2..=2 * SLOWEST + 1 {
                let turn = pairs.len();
                let [first, second] = kinds[turn % 4];
                let heads = [
                    head(first, a, PRECISIONS[turn / 4 % 4]),
                    head(second, b, PRECISIONS[turn / 3 % 4]),
                ];
                pairs.push(case(heads, allowance));
            }
        }
    }
    pairs
}

/// Limits up to the largest with allowances at the ends of what is admitted, around the limits and
/// around their sums.
fn long_pairs() -> Vec<PairCase> {
    let mut pairs = Vec::new();
    let ends = [2, 3, 4, 5, 254, 255, 256, 257, 382, 383, 384, 508, 509, 510];
    let limits = [(255, 255), (255, 0), (0, 255), (254, 255), (255, 254), (127, 255), (255, 128)];
    for (a, b) in limits {
        for allowance in ends {
            let turn = pairs.len();
            let heads = [a, b].map(|limit| head(Kind::Limit, limit, PRECISIONS[turn % 4]));
            pairs.push(case(heads, allowance));
        }
    }
    // A head that takes a few iterations and one that takes all it gets, in either order.
    for allowance in ends {
        let quick = head(Kind::Codeword, 3, PRECISIONS[allowance % 4]);
        let endless = head(Kind::Limit, 255, PRECISIONS[1]);
        pairs.push(case([quick.clone(), endless.clone()], allowance));
        pairs.push(case([endless, quick], allowance));
    }
    pairs
}

/// The same frame for both heads; the same values with other settings.
fn equal_pairs() -> Vec<PairCase> {
    let mut pairs = Vec::new();
    for precisions in PRECISIONS {
        for allowance in [2, 3, 5, 8, 9, 510] {
            for kind in [Kind::Codeword, Kind::Limit] {
                let frame = head(kind, 5, precisions);
                let other = Settings { phi_s: 1, lift_from: 4, limit: 7, ..frame.1 };
                pairs.push(case([frame.clone(), frame.clone()], allowance));
                pairs.push(case([frame.clone(), (frame.0, other)], allowance));
            }
        }
    }
    pairs
}

/// As many variables as the program admits: two frames of which one or none comes to a codeword.
fn large_pair(noise: [f32; 2], allowance: u32) -> PairCase {
    let random = &mut Random::new(83);
    let lists = regular(random, Limits::PROGRAM.variables, 3, 6);
    let settings = Settings { limit: 9, lift_from: 2, lift_to: 12, ..plain(PRECISIONS[2]) };
    let heads = noise.map(|noise| {
        let values = (0..lists.n).map(|_| 2.0 + noise * random.normal()).collect();
        (values, settings)
    });
    pair_case(&lists, heads, allowance)
}

pub fn cases() -> Vec<Case> {
    let mut pairs = short_pairs();
    pairs.extend(long_pairs());
    pairs.extend(equal_pairs());
    pairs.extend([large_pair([1.0, 1.9], 8), large_pair([1.9, 1.9], 5)]);
    pairs.into_iter().map(Case::Pair).collect()
}

/// How many strips there are.
pub const PAIR_STRIPS: usize = 3;

/// Strips of as many variables as there can be, around a codeword: the first head comes to it and
/// the second goes on past its half; the same with an infinity at the far end of the second head's
/// values, and with its bits one byte short.
pub fn strip(seed: u64, number: usize) -> Case {
    let random = &mut Random::for_input(!seed, 100);
    let (lists, word) = regular_with_codeword(random, Limits::LENT.variables, 3, 6);
    let settings = Settings { limit: 4, lift_to: LARGEST_LIFT, ..plain(PRECISIONS[2]) };
    let heads = [0.7, 2.6].map(|noise| {
        let value = |&bit: &u8| 3.0 - 6.0 * f32::from(bit) + noise * random.normal();
        (word.iter().map(value).collect(), settings)
    });
    let mut case = pair_case(&lists, heads, 4);
    let last = case.second.values.len() - 4;
    match number {
        0 => {}
        1 => case.second.values[last..].copy_from_slice(&f32::INFINITY.to_le_bytes()),
        _ => case.second.lent.bits -= 1,
    }
    Case::Pair(case)
}

#[cfg(test)]
mod tests {
    use super::*;
    use crate::interface::Verdict;
    use crate::paper::count_odd_checks;

    #[test]
    fn heads_take_so_many_iterations() {
        let lists = lists();
        let degrees = &mut vec![0; lists.n];
        assert_eq!(count_odd_checks(Limits::LENT, &lists.graph(), &word(), degrees), Ok(0));
        for precisions in PRECISIONS {
            let alone = |kind, count| {
                let frame = head(kind, count, precisions);
                let [first, _] = case([frame.clone(), frame], 2).heads();
                let outcome = first.outcome().unwrap();
                (outcome.verdict, outcome.iterations)
            };
            for count in 0..=SLOWEST {
                assert_eq!(alone(Kind::Codeword, count), (Verdict::Codeword, count));
            }
            for count in (0..=SLOWEST).chain([127, 128, 254, 255]) {
                assert_eq!(alone(Kind::Limit, count), (Verdict::Stopped, count));
            }
        }
    }

    /// One goes on past its half where the other has come to a codeword; both are cut short.
    #[test]
    fn large_pairs_are_what_they_are_for() {
        let told = |case: PairCase| {
            let outcomes = case.outcome(&mut vec![0; case.first.n]).unwrap();
            outcomes.map(|outcome| (outcome.verdict, outcome.iterations))
        };
        let [first, second] = told(large_pair([1.0, 1.9], 8));
        assert!(first.0 == Verdict::Codeword && (1..4).contains(&first.1), "{first:?}");
        assert_eq!(second, (Verdict::Stopped, 8 - first.1));
        let [first, second] = told(large_pair([1.9, 1.9], 5));
        assert_eq!((first, second), ((Verdict::Stopped, 3), (Verdict::Stopped, 2)));
    }
}
