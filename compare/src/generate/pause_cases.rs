//! Chosen runs that are begun and advanced: by every split of small limits, one by one, with
//! nothing, too much and further counts among them, on large graphs and on strips.

use super::Lists;
use super::cases::{Case, decode_case};
use super::graphs::{fullest, regular, regular_with_codeword};
use super::pause::{AdvanceCase, MINUS, RunCase, saturated};
use super::settings::{PRECISIONS, plain};
use crate::interface::{LARGEST_LIFT, Settings};
use crate::paper::Limits;
use crate::random::Random;

/// The largest limit that is split in every way.
const LARGEST_SPLIT: u32 = 6;

/// Every list of counts from 1 on with this sum.
fn splits(total: u32) -> Vec<Vec<u32>> {
    let split = |ends: u32| {
        let mut counts = vec![1];
        for place in 0..total - 1 {
            match ends >> place & 1 {
                1 => counts.push(1),
                _ => *counts.last_mut().expect("a count") += 1,
            }
        }
        counts
    };
    (0..1 << (total - 1)).map(split).collect()
}

/// The counts with others before each: nothing, or more than the limit.
fn with_each(counts: &[u32], others: &[u32]) -> Vec<u32> {
    counts.iter().flat_map(|&count| [others, &[count]].concat()).collect()
}

/// Checks {0, 1}, {0, 2} and {0, 3}, of which one or more are odd in every iteration.
fn never_a_codeword() -> (Lists, Vec<f32>) {
    let lists = Lists::from_rows(4, &[vec![0, 1], vec![0, 2], vec![0, 3]]);
    (lists, vec![-9.0, 9.0, 9.0, -9.0])
}

/// Check i has the variables i and i + 1, and the last variable alone is exposed: its sign comes
/// one variable further in each iteration.
fn slowly_a_codeword() -> (Lists, Vec<f32>) {
    let rows: Vec<Vec<u32>> = (0..4).map(|check| vec![check, check + 1]).collect();
    (Lists::from_rows(5, &rows), vec![0.0, 0.0, 0.0, 0.0, -1.5])
}

fn run_case((lists, values): &(Lists, Vec<f32>), settings: Settings, counts: Vec<u32>) -> RunCase {
    RunCase { decode: decode_case(lists, values, settings), counts }
}

/// Every split of every limit up to 6, at every precision, with lifting from the middle on, and
/// counts after the end. The splits take turns to have nothing, too much or both before each
/// count.
fn split_runs() -> Vec<RunCase> {
    let mut runs = Vec::new();
    let frames = [never_a_codeword(), slowly_a_codeword()];
    for precisions in PRECISIONS {
        for limit in 1..=LARGEST_SPLIT {
            let settings = Settings { limit, lift_from: limit.div_ceil(2), ..plain(precisions) };
            for (index, split) in splits(limit).into_iter().enumerate() {
                let others = [vec![], vec![0], vec![limit + 1], vec![0, u32::MAX, 256]];
                let counts = with_each(&split, &others[index % 4]);
                let counts = [counts, vec![0, 1, limit]].concat();
                runs.extend(frames.iter().map(|frame| run_case(frame, settings, counts.clone())));
            }
        }
    }
    runs
}

/// One by one up to the largest limit, lifted from the first iterations, at the last and never;
/// the whole limit from an iteration on; limits of 0, and a frame that is a codeword.
fn other_runs() -> Vec<RunCase> {
    let mut runs = Vec::new();
    for settings in PRECISIONS.map(plain) {
        for lift_from in [1, 2, 254, 255, 256] {
            let settings = Settings { limit: 255, lift_from, ..settings };
            runs.push(run_case(&never_a_codeword(), settings, vec![1; 256]));
            runs.push(run_case(&never_a_codeword(), settings, vec![254, 255, 1]));
        }
        let settings = Settings { limit: 5, lift_from: 2, ..settings };
        runs.extend((1..5).map(|first| run_case(&never_a_codeword(), settings, vec![first, 5])));
        for limit in [0, 5] {
            let settings = Settings { limit, ..settings };
            for frame in [never_a_codeword(), at_once_a_codeword()] {
                runs.push(run_case(&frame, settings, vec![0, 1, 5]));
            }
        }
    }
    runs
}

fn at_once_a_codeword() -> (Lists, Vec<f32>) {
    (never_a_codeword().0, vec![2.0, 9.0, 0.0, 1.5])
}

/// As many variables as the program admits, around no codeword, by parts.
fn large_run(counts: Vec<u32>) -> RunCase {
    let random = &mut Random::new(73);
    let lists = regular(random, Limits::PROGRAM.variables, 3, 6);
    let values: Vec<f32> = (0..lists.n).map(|_| 1.0 + 0.9 * random.normal()).collect();
    let settings = Settings { limit: 6, lift_from: 2, lift_to: 12, ..plain(PRECISIONS[2]) };
    run_case(&(lists, values), settings, counts)
}

/// The fullest graph of the program, carried on from a state that no run made.
fn large_advance() -> AdvanceCase {
    let lists = fullest(Limits::PROGRAM, &mut Random::new(74));
    let settings = Settings { limit: 9, lift_from: 7, ..plain(PRECISIONS[3]) };
    AdvanceCase { count: 2, ..saturated(&lists, settings, 7) }
}

pub fn cases() -> Vec<Case> {
    let mut runs = split_runs();
    runs.extend(other_runs());
    runs.extend([vec![1, 2, 0, 7, 1, 2, 1], vec![6], vec![1; 6]].map(large_run));
    let mut cases: Vec<Case> = runs.into_iter().map(Case::Run).collect();
    cases.push(Case::Advance(large_advance()));
    cases
}

/// How many strips there are.
pub const PAUSE_STRIPS: usize = 4;

/// Strips of as many variables as there can be: a run around a codeword by parts; a state that no
/// run made on as many entries as there can be, carried on by one; the same with a byte beyond its
/// precision at the far end of a list.
pub fn strip(seed: u64, number: usize) -> Case {
    let random = &mut Random::for_input(!seed, number as u64);
    let lifted = Settings { limit: 4, lift_from: 2, lift_to: LARGEST_LIFT, ..plain(PRECISIONS[2]) };
    if number == 0 {
        let (lists, word) = regular_with_codeword(random, Limits::LENT.variables, 3, 6);
        let value = |&bit: &u8| 2.0 - 4.0 * f32::from(bit) + 1.4 * random.normal();
        let values: Vec<f32> = word.iter().map(value).collect();
        return Case::Run(run_case(&(lists, values), lifted, vec![1, 2, 5, 4]));
    }
    let mut case = saturated(&fullest(Limits::LENT, random), lifted, 2);
    let beyond = match number {
        1 => None,
        2 => case.levels.last_mut(),
        _ => case.check_messages.last_mut(),
    };
    if let Some(level) = beyond {
        *level = MINUS + 8;
    }
    Case::Advance(case)
}

#[cfg(test)]
mod tests {
    use super::*;
    use crate::interface::Verdict;

    #[test]
    fn every_split_once() {
        assert_eq!(splits(1), [[1]]);
        assert_eq!(splits(3), [vec![3], vec![1, 2], vec![2, 1], vec![1, 1, 1]]);
        for total in 1..=LARGEST_SPLIT {
            let mut all = splits(total);
            assert!(all.iter().all(|split| split.iter().sum::<u32>() == total));
            all.sort();
            all.dedup();
            assert_eq!(all.len(), 1 << (total - 1));
        }
        assert_eq!(with_each(&[2, 1], &[0, 9]), [0, 9, 2, 0, 9, 1]);
    }

    #[test]
    fn frames_are_what_they_are_for() {
        for precisions in PRECISIONS {
            let settings = Settings { limit: 255, ..plain(precisions) };
            let ends = |frame| {
                let outcome = run_case(&frame, settings, Vec::new()).decode.outcome().unwrap();
                (outcome.verdict, outcome.iterations)
            };
            for lift_from in [1, 2, 3, 254, 255, 256] {
                let settings = Settings { lift_from, ..settings };
                let never = run_case(&never_a_codeword(), settings, Vec::new());
                assert_eq!(never.decode.outcome().unwrap().verdict, Verdict::Stopped);
            }
            assert_eq!(ends(slowly_a_codeword()), (Verdict::Codeword, 4));
            assert_eq!(ends(at_once_a_codeword()), (Verdict::Codeword, 0));
        }
    }

    /// The large run is open after each of its parts.
    #[test]
    fn large_runs_stop_at_their_limit() {
        let outcome = large_run(Vec::new()).decode.outcome().unwrap();
        assert_eq!((outcome.verdict, outcome.iterations), (Verdict::Stopped, 6));
    }
}
