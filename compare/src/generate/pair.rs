//! Pairs of frames, read by two heads on one graph with one allowance of iterations.

use super::cases::{DecodeCase, any_values, decode_case, degrees_length, factor_of};
use super::codewords::Codewords;
use super::{Lists, blank, damage, graphs, lifting, settings};
use crate::interface::{
    LentLengths, PairRefusal, REPORTS_BYTES, Settings, f32_bytes, f32_list, number_bytes, numbers,
};
use crate::paper::{Graph, Head, Limits, Outcome, decode_pair};
use crate::random::Random;

/// The least and the largest allowance.
pub const ALLOWANCES: [usize; 2] = [2, 510];

/// Allowances outside these.
pub const BAD_ALLOWANCES: [u32; 8] = [0, 1, 511, u32::MAX, 512, 65_538, 1 << 31, 1 << 31 | 4];

/// A head's frame, and the lengths of what is lent for it.
#[derive(Clone, Debug)]
pub struct HeadCase {
    pub values: Vec<u8>,
    pub settings: Settings,
    pub lent: LentLengths,
}

/// The first head's frame stands with the graph and the list of degrees. Where the word is a
/// codeword, either head's values are also reversed by it; the other values are of a frame that
/// may take the place of either.
#[derive(Clone, Debug)]
pub struct PairCase {
    pub first: DecodeCase,
    pub second: HeadCase,
    pub allowance: u32,
    pub reports: usize,
    pub word: Vec<u8>,
    pub other: Vec<u8>,
}

impl PairCase {
    /// Each head's frame as a decode of its own.
    pub fn heads(&self) -> [DecodeCase; 2] {
        let HeadCase { values, settings, lent } = self.second.clone();
        [self.first.clone(), DecodeCase { values, settings, lent, ..self.first.clone() }]
    }

    /// What the paper says of it, on a list of degrees.
    pub fn outcome(&self, degrees: &mut [u32]) -> Result<[Outcome; 2], PairRefusal> {
        let PairCase { first, second, .. } = self;
        let (starts, columns) = (numbers(&first.starts), numbers(&first.columns));
        let graph = Graph { n: first.n, starts: &starts, columns: &columns };
        let values = [f32_list(&first.values), f32_list(&second.values)];
        let heads = [
            Head { values: &values[0], settings: &first.settings, lent: &first.lent },
            Head { values: &values[1], settings: &second.settings, lent: &second.lent },
        ];
        decode_pair(&graph, heads, self.allowance, degrees, self.reports)
    }
}

/// Values and settings of a head.
pub type Frame = (Vec<f32>, Settings);

/// A pair in lists of just the lengths that are needed, with no word and no other frame.
pub fn pair_case(lists: &Lists, heads: [Frame; 2], allowance: u32) -> PairCase {
    let [first, second] = heads.map(|(values, settings)| decode_case(lists, &values, settings));
    let DecodeCase { values, settings, lent, .. } = second;
    PairCase {
        first,
        second: HeadCase { values, settings, lent },
        allowance,
        reports: REPORTS_BYTES,
        word: Vec::new(),
        other: Vec::new(),
    }
}

/// An allowance around what two heads take that take so many iterations alone, at an end of what is
/// admitted, or any.
fn allowance(random: &mut Random, [a, b]: [usize; 2]) -> u32 {
    let beside = |random: &mut Random, count: usize| (count + random.below(3)).saturating_sub(1);
    let [least, largest] = ALLOWANCES;
    let allowance = match random.below(12) {
        0 => random.pick(&[2, 3, 4, 5, 508, 509, 510]),
        1 => random.between(least, largest),
        2 | 3 => beside(random, a + b),
        4 | 5 => beside(random, 2 * a),
        6 | 7 => beside(random, 2 * b),
        8 => beside(random, a.max(b)),
        9 => random.between(a.min(b), a + b),
        _ => random.between(2, 12),
    };
    allowance.clamp(least, largest) as u32
}

/// The iterations that each head takes alone, where it is accepted.
fn counts(case: &PairCase) -> [usize; 2] {
    case.heads().map(|head| head.outcome().map_or(0, |outcome| outcome.iterations))
}

/// Settings that are accepted, with any limit.
fn head_settings(random: &mut Random) -> Settings {
    let mut settings = settings::good(random);
    lifting::lift(random, &mut settings);
    settings
}

/// Values that are accepted for a head.
fn head_values(random: &mut Random, count: usize, settings: &Settings) -> Vec<f32> {
    let factor = factor_of(settings);
    let mut values = any_values(random, count, factor);
    blank::cure(random, &mut values, factor);
    values
}

/// Two heads with settings or values of their own, or with the same; one pair in three has
/// something wrong with it.
pub fn any_pair(random: &mut Random) -> PairCase {
    let large = random.one_in(2_000);
    let mut lists =
        if large { graphs::large(Limits::PROGRAM, random) } else { graphs::any(random) };
    let mut first = head_settings(random);
    let mut second = match random.one_in(4) {
        true => first,
        false => head_settings(random),
    };
    let most = match lists.n {
        0..=30 => 255,
        31..=1_000 => 30,
        _ => 6,
    };
    first.limit = first.limit.min(most);
    second.limit = second.limit.min(most);
    let values = head_values(random, lists.n, &first);
    let of_second = match random.one_in(6) {
        true => values.clone(),
        false => head_values(random, lists.n, &second),
    };
    let other = any_values(random, lists.n, factor_of(&first));
    let mut case = pair_case(&lists, [(values, first), (of_second, second)], 2);
    case.allowance = allowance(random, counts(&case));
    if !large {
        case.word = Codewords::new(&lists).random(random);
        case.other = f32_bytes(&other);
    }
    put_lengths(random, &mut case);
    if random.one_in(3) {
        (0..random.between(1, 3)).for_each(|_| damage_pair(random, &mut case, &mut lists));
    }
    case.first.n = lists.n;
    case.first.starts = damage::ragged(random, number_bytes(&lists.starts));
    case.first.columns = damage::ragged(random, number_bytes(&lists.columns));
    case.first.values = damage::ragged(random, case.first.values);
    case.second.values = damage::ragged(random, case.second.values);
    case
}

/// Lists that are long enough.
fn put_lengths(random: &mut Random, case: &mut PairCase) {
    for lent in [&mut case.first.lent, &mut case.second.lent] {
        let longer = lent.as_array().map(|needed| needed + random.pick(&[0, 0, 1, 7]));
        *lent = LentLengths::from_array(longer);
    }
    case.first.degrees += random.pick(&[0, 0, 1, 5]);
    case.reports += random.pick(&[0, 0, 0, 1, 8, 9]);
}

/// One of what a pair is refused for, or may be.
fn damage_pair(random: &mut Random, case: &mut PairCase, lists: &mut Lists) {
    let PairCase { first, second, .. } = case;
    match random.below(12) {
        0..=2 => damage_head(random, &mut first.values, &mut first.settings, &mut first.lent),
        3..=6 => damage_head(random, &mut second.values, &mut second.settings, &mut second.lent),
        7 => damage::damage(Limits::LENT, random, lists),
        8 => first.degrees = degrees_length(random, first.n),
        9 | 10 => case.allowance = random.pick(&BAD_ALLOWANCES),
        _ => case.reports = random.below(REPORTS_BYTES),
    }
}

fn damage_head(
    random: &mut Random,
    bytes: &mut Vec<u8>,
    settings: &mut Settings,
    lent: &mut LentLengths,
) {
    let mut values = f32_list(bytes);
    match random.below(8) {
        0 | 1 => settings::damage(random, settings),
        2 => lifting::damage(random, settings),
        3 if !values.is_empty() => settings::spoil_values(random, &mut values),
        4 => values.fill(random.pick(&[0.0, -0.0])),
        5 => values.truncate(values.len().saturating_sub(random.between(1, 2))),
        6 => values.push(2.0),
        _ => {
            let mut lengths = lent.as_array();
            let length = &mut lengths[random.below(5)];
            *length = length.saturating_sub(random.pick(&[1, 8, usize::MAX]));
            *lent = LentLengths::from_array(lengths);
        }
    }
    *bytes = f32_bytes(&values);
}

#[cfg(test)]
mod tests {
    use super::*;
    use crate::paper::pair::grants;
    use std::collections::BTreeMap;

    /// Every refusal of each head, and grants of every kind: each head alone has all that it takes
    /// or is cut short, at its half or past it.
    #[test]
    fn pairs_of_every_kind() {
        let random = &mut Random::new(81);
        let mut seen: BTreeMap<String, usize> = BTreeMap::new();
        for _ in 0..4_000 {
            let case = any_pair(random);
            let told = match case.outcome(&mut vec![0; case.first.degrees / 4]) {
                Ok(outcomes) => {
                    let (counts, allowance) = (counts(&case), case.allowance as usize);
                    let grants = grants(allowance, counts[0], counts[1]);
                    assert_eq!(outcomes.map(|outcome| outcome.iterations), grants);
                    let halves = [allowance.div_ceil(2), allowance / 2];
                    let told = |head: usize| match grants[head] {
                        grant if grant == counts[head] && grant <= halves[head] => "within",
                        grant if grant == counts[head] => "whole",
                        grant if grant == halves[head] => "half",
                        _ => "beyond",
                    };
                    format!("{} and {}", told(0), told(1))
                }
                Err(PairRefusal { head, refusal }) => format!("{} of {head}", refusal.number),
            };
            *seen.entry(told).or_insert(0) += 1;
        }
        println!("{seen:?}");
        for number in [8, 9, 10, 12, 13, 16, 20, 6] {
            for head in [1, 2] {
                let told = format!("{number} of {head}");
                assert!(seen.get(&told).is_some_and(|&count| count >= 5), "{told}: {seen:?}");
            }
        }
        for told in ["2 of 1", "3 of 1", "4 of 1", "5 of 1", "7 of 1", "22 of 0", "6 of 0"] {
            assert!(seen.get(told).is_some_and(|&count| count >= 10), "{told}: {seen:?}");
        }
        for told in [
            "within and within",
            "within and whole",
            "within and beyond",
            "whole and within",
            "beyond and within",
            "half and half",
        ] {
            assert!(seen.get(told).is_some_and(|&count| count >= 50), "{told}: {seen:?}");
        }
    }
}
