//! Every order of a pair's refusals: the graph's, those of the first head, those of the second,
//! the allowance and the reports.

use super::Lists;
use super::cases::Case;
use super::pair::{BAD_ALLOWANCES, HeadCase, PairCase, pair_case};
use super::settings::{PRECISIONS, plain};
use crate::interface::{
    LentLengths, PairRefusal, REPORTS_BYTES, Refusal, Settings, f32_bytes, number_bytes,
};

/// What is wrong with a head, by the refusal that it gets.
type HeadFault = (Refusal, fn(&mut HeadCase));

/// What is wrong with the graph or the list of degrees.
type GraphFault = (Refusal, fn(&mut PairCase));

const N: usize = 3;
const ENTRIES: usize = 4;

const fn refusal(number: u8, place: usize) -> Refusal {
    Refusal { number, place }
}

/// Checks {0, 1} and {1, 2}. Every list is longer than it must be.
fn good() -> PairCase {
    let lists = Lists::from_rows(N, &[vec![0, 1], vec![1, 2]]);
    let second = Settings { limit: 3, ..plain(PRECISIONS[1]) };
    let heads = [(vec![2.5, -0.5, 1.5], plain(PRECISIONS[0])), (vec![-2.5, 1.5, -0.0], second)];
    let mut case = pair_case(&lists, heads, 4);
    for lent in [&mut case.first.lent, &mut case.second.lent] {
        *lent = LentLengths::from_array(lent.as_array().map(|needed| needed + 1));
    }
    case.first.degrees += 5;
    case.reports += 3;
    case.word = vec![1; N];
    case.other = f32_bytes(&[1.5, -2.5, 3.5]);
    case
}

const OF_THE_GRAPH: [GraphFault; 9] = [
    (refusal(2, 0), |case| case.first.n = 1),
    (refusal(2, 0), |case| case.first.starts.truncate(4)),
    (refusal(7, 2), |case| case.first.starts = number_bytes(&[0, 2, 1])),
    (refusal(3, 3), |case| case.first.columns = number_bytes(&[0, 1, 1, 1_000_000])),
    (refusal(4, 1), |case| case.first.columns = number_bytes(&[1, 0, 1, 2])),
    (refusal(6, 0), |case| case.first.degrees = 4 * N - 1),
    (refusal(6, 0), |case| case.first.degrees = 0),
    (refusal(5, 2), |case| case.first.starts = number_bytes(&[0, 2, 4, 4])),
    // Variable 2 stands in no check.
    (refusal(5, 4), |case| case.first.columns = number_bytes(&[0, 1, 0, 1])),
];

/// Each lent list is too short by one byte, and one has none.
const OF_A_HEAD: [HeadFault; 21] = [
    (refusal(13, 2), |head| head.values.truncate(11)),
    (refusal(13, 4), |head| head.values.extend([0; 4])),
    (refusal(8, 0), |head| head.settings.channel = 5),
    (refusal(8, 0), |head| head.settings.message = 4),
    (refusal(9, 0), |head| head.settings.phi_a = 2),
    (refusal(9, 0), |head| head.settings.limit = 256),
    (refusal(16, 0), |head| head.settings.lift_from = 0),
    (refusal(16, 0), |head| head.settings.lift_to = 16),
    (refusal(10, 0), |head| head.settings.kind = 2),
    (refusal(10, 0), |head| head.settings.gain = -1.0),
    (refusal(11, 0), |head| head.settings.gain = f32::MAX),
    (refusal(12, 0), |head| head.values[..4].copy_from_slice(&f32_bytes(&[f32::NAN]))),
    (refusal(12, 2), |head| head.values[8..].copy_from_slice(&f32_bytes(&[f32::INFINITY]))),
    (refusal(20, 0), |head| head.values.fill(0)),
    (refusal(20, 0), |head| head.values = f32_bytes(&[1.0, -1.0, -0.0])),
    (refusal(6, 0), |head| head.lent.levels = N - 1),
    (refusal(6, 0), |head| head.lent.variable_messages = ENTRIES - 1),
    (refusal(6, 0), |head| head.lent.check_messages = ENTRIES - 1),
    (refusal(6, 0), |head| head.lent.sums = 4 * N - 1),
    (refusal(6, 0), |head| head.lent.bits = N - 1),
    (refusal(6, 0), |head| head.lent.sums = 0),
];

fn with_first(case: &PairCase, change: fn(&mut HeadCase)) -> PairCase {
    let mut case = case.clone();
    let [first, _] = case.heads();
    let mut head = HeadCase { values: first.values, settings: first.settings, lent: first.lent };
    change(&mut head);
    case.first.values = head.values;
    case.first.settings = head.settings;
    case.first.lent = head.lent;
    case
}

fn with_second(case: &PairCase, change: fn(&mut HeadCase)) -> PairCase {
    let mut case = case.clone();
    change(&mut case.second);
    case
}

/// The case as it is, with each bad allowance, and with reports of every length that is too short;
/// both together at the ends.
fn with_last_faults(case: &PairCase) -> Vec<PairCase> {
    let with = |allowance, reports| PairCase { allowance, reports, ..case.clone() };
    let PairCase { allowance, reports, .. } = *case;
    let mut cases = vec![case.clone()];
    cases.extend(BAD_ALLOWANCES[..4].iter().map(|&allowance| with(allowance, reports)));
    cases.extend((0..REPORTS_BYTES).map(|reports| with(allowance, reports)));
    cases.extend([(1, 15), (511, 0)].map(|(allowance, reports)| with(allowance, reports)));
    cases
}

/// Every two faults that follow each other, with the refusal that comes first.
fn numbered_cases() -> Vec<(PairRefusal, PairCase)> {
    let good = good();
    let mut cases = Vec::new();
    let mut more = |head: u8, refusal: Refusal, some: Vec<PairCase>| {
        cases.extend(some.into_iter().map(|case| (PairRefusal { head, refusal }, case)));
    };
    for (refusal, change) in OF_THE_GRAPH {
        let mut case = good.clone();
        change(&mut case);
        more(1, refusal, with_last_faults(&case));
        more(1, refusal, OF_A_HEAD.map(|(_, change)| with_first(&case, change)).to_vec());
        more(1, refusal, OF_A_HEAD.map(|(_, change)| with_second(&case, change)).to_vec());
    }
    for (refusal, change) in OF_A_HEAD {
        let case = with_first(&good, change);
        more(1, refusal, with_last_faults(&case));
        more(1, refusal, OF_A_HEAD.map(|(_, change)| with_second(&case, change)).to_vec());
        more(2, refusal, with_last_faults(&with_second(&good, change)));
    }
    for allowance in BAD_ALLOWANCES {
        let case = PairCase { allowance, ..good.clone() };
        more(0, refusal(22, 0), vec![case.clone()]);
        let short = |reports| PairCase { reports, ..case.clone() };
        more(0, refusal(22, 0), (0..REPORTS_BYTES).map(short).collect());
    }
    let short = |reports| PairCase { reports, ..good.clone() };
    more(0, refusal(6, 0), (0..REPORTS_BYTES).map(short).collect());
    cases
}

pub fn cases() -> Vec<Case> {
    let numbered = numbered_cases().into_iter().map(|(_, case)| case);
    [good()].into_iter().chain(numbered).map(Case::Pair).collect()
}

#[cfg(test)]
mod tests {
    use super::*;
    use crate::interface::NUMBER_BYTES;

    #[test]
    fn the_first_of_two_refusals_is_given() {
        let outcome =
            |case: &PairCase| case.outcome(&mut vec![0; case.first.degrees / NUMBER_BYTES]);
        assert!(outcome(&good()).is_ok());
        let cases = numbered_cases();
        for (expected, case) in &cases {
            assert_eq!(outcome(case).err(), Some(*expected), "{case:?}");
        }
        println!("{} cases", cases.len());
    }
}
