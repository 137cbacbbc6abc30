//! Chosen states that are handed in: lifting around their iteration, bytes beyond their precision at
//! every index and just past the lists, and records and counts that get 21, with their neighbours.

use super::Lists;
use super::cases::Case;
use super::pause::{AdvanceCase, MINUS, open, saturated};
use super::settings::{PRECISIONS, plain};
use crate::interface::{Record, Settings, Verdict};
use crate::paper::quantiser::largest_magnitude;

/// Checks {0, 1} and {1, 2}.
fn small() -> Lists {
    Lists::from_rows(3, &[vec![0, 1], vec![1, 2]])
}

/// Check i has the variables i and i + 1.
fn chain(n: u32) -> Lists {
    let rows: Vec<Vec<u32>> = (0..n - 1).map(|check| vec![check, check + 1]).collect();
    Lists::from_rows(n as usize, &rows)
}

/// Four variables that hear three saturated messages each, all against their level or but one, at an
/// iteration, lifted from another on.
fn lifted_from(settings: Settings, iteration: usize, lift_from: usize) -> AdvanceCase {
    let rows = [vec![0, 1, 2], vec![0, 1, 3], vec![0, 2, 3], vec![1, 2, 3]];
    let lists = Lists::from_rows(4, &rows);
    let settings = Settings { phi_s: 1, limit: 255, lift_from: lift_from as u32, ..settings };
    let mut case = saturated(&lists, settings, iteration);
    case.levels.iter_mut().for_each(|level| *level ^= MINUS);
    case
}

/// Lifted from before the iteration on, from it on, and from the next ones on, carried on by one and
/// by two.
fn around_lifting() -> Vec<AdvanceCase> {
    let mut cases = Vec::new();
    for settings in PRECISIONS.map(plain) {
        for iteration in [1_usize, 2, 3, 253] {
            for lift_from in iteration.saturating_sub(1).max(1)..=iteration + 2 {
                let case = lifted_from(settings, iteration, lift_from);
                cases.extend([1, 2].map(|count| AdvanceCase { count, ..case.clone() }));
            }
        }
    }
    cases
}

/// The lists that are judged, and how many of their bytes are.
const LISTS: [usize; 3] = [0, 1, 2];

fn list_of(case: &mut AdvanceCase, list: usize) -> &mut Vec<u8> {
    match list {
        0 => &mut case.levels,
        1 => &mut case.variable_messages,
        _ => &mut case.check_messages,
    }
}

fn largest_of(settings: &Settings, list: usize) -> u8 {
    largest_magnitude(if list == 0 { settings.channel } else { settings.message })
}

/// The case with a byte at an index, which may be just past the list.
fn with_byte(case: &AdvanceCase, list: usize, index: usize, byte: u8) -> AdvanceCase {
    let mut case = case.clone();
    let bytes = list_of(&mut case, list);
    bytes.resize(bytes.len().max(index + 1), 0);
    bytes[index] = byte;
    case
}

/// Bytes beyond their precision, and whether that is looked at: at every index of each list, and
/// one past its end, at iteration 0 and later, with nothing and with something to do.
fn beyond_precision() -> Vec<(bool, AdvanceCase)> {
    let mut cases = Vec::new();
    for settings in PRECISIONS.map(plain) {
        let settings = Settings { limit: 5, ..settings };
        for iteration in [0, 3] {
            let good = saturated(&small(), settings, iteration);
            for list in LISTS {
                let beyond = largest_of(&settings, list) + 1;
                let length = list_of(&mut good.clone(), list).len();
                for index in 0..=length {
                    let count = index as u32 % 2;
                    for byte in [beyond, beyond + MINUS, 127, 255] {
                        let case = with_byte(&good, list, index, byte);
                        cases.push((index < length, AdvanceCase { count, ..case }));
                    }
                }
            }
        }
    }
    cases
}

/// The same in long lists: at indexes around 8 and 16 bits, at the end and past it.
fn beyond_precision_far_on() -> Vec<(bool, AdvanceCase)> {
    let mut cases = Vec::new();
    let settings = Settings { limit: 2, ..plain(PRECISIONS[1]) };
    for (n, indexes) in [(8_192, [255, 256]), (70_000, [65_535, 65_536])] {
        let good = saturated(&chain(n), settings, 1);
        for list in LISTS {
            let beyond = largest_of(&settings, list) + 1;
            let length = list_of(&mut good.clone(), list).len();
            for index in [indexes[0], indexes[1], length - 1, length] {
                let case = with_byte(&good, list, index, beyond + MINUS);
                cases.push((index < length, case));
            }
        }
    }
    cases
}

/// Records by their fields, and whether they are open and can be carried on under a limit.
fn records(limit: usize) -> Vec<(bool, u64)> {
    let mut records: Vec<(bool, u64)> = Vec::new();
    let good = open(limit - 1, 2);
    // A refusal's number, and a verdict that is not open.
    records.extend([1, 2, 4, 8, 16, 21, 32, 64, 128, 255].map(|low| (false, good + low)));
    let verdicts = [0, 1, 3, 4, 6, 10, 18, 34, 66, 130, 255];
    records.extend(verdicts.map(|verdict| (false, good & !0xff00 | verdict << 8)));
    for iteration in [0, 1, limit - 1, limit, limit + 1, 254, 255, 256, 257, 0x8000, 65_535] {
        records.push((iteration < limit, open(iteration, 2)));
    }
    for unsatisfied in [0, 1, 2, 3, 999_999, 1_000_000, 1_000_001, 1 << 24 | 1, u32::MAX as usize] {
        let can_be = (1..=1_000_000).contains(&unsatisfied);
        records.push((can_be, open(limit - 1, unsatisfied)));
    }
    // Finished ones, as they are answered, and such as could be open otherwise.
    for (verdict, iterations, unsatisfied) in [
        (Verdict::Codeword, 0, 0),
        (Verdict::Codeword, limit - 1, 0),
        (Verdict::Codeword, limit, 0),
        (Verdict::Stopped, limit, 2),
        (Verdict::Stopped, limit - 1, 2),
        (Verdict::Stopped, 0, 1),
    ] {
        let record = Record { verdict: Some(verdict), iterations, unsatisfied };
        records.push((false, record.number()));
    }
    records.extend([0, 21, u64::MAX, 0x0200, 2].map(|number| (false, number)));
    records
}

/// Each with nothing and with something to do; counts around the limit; a limit of 0.
fn judged_records() -> Vec<(bool, AdvanceCase)> {
    let mut cases = Vec::new();
    for (limit, precisions) in [(5, PRECISIONS[0]), (1, PRECISIONS[1]), (255, PRECISIONS[3])] {
        let settings = Settings { limit, ..plain(precisions) };
        let good = saturated(&small(), settings, limit as usize - 1);
        for (is_open, record) in records(limit as usize) {
            for count in [0, 1, limit] {
                cases.push((is_open, AdvanceCase { record, count, ..good.clone() }));
            }
        }
        for count in [0, 1, limit, limit + 1, 256, 257, 65_536, 1 << 31 | 1, u32::MAX] {
            cases.push((count <= limit, AdvanceCase { count, ..good.clone() }));
        }
        let settings = Settings { limit: 0, ..settings };
        for (record, count) in [(open(0, 1), 0), (open(0, 1), 1), (open(1, 1), 0)] {
            cases.push((false, AdvanceCase { settings, record, count, ..good.clone() }));
        }
    }
    cases
}

/// Levels of magnitude 0 throughout are carried on: only begin turns down a blank frame.
fn blank() -> Vec<AdvanceCase> {
    let mut cases = Vec::new();
    for settings in PRECISIONS.map(plain) {
        for (iteration, level) in [(0, 0), (1, MINUS)] {
            let case = saturated(&small(), settings, iteration);
            cases.push(AdvanceCase { levels: vec![level; 3], ..case });
        }
    }
    cases
}

pub fn cases() -> Vec<Case> {
    let judged = [beyond_precision(), beyond_precision_far_on(), judged_records()].concat();
    let mut cases: Vec<AdvanceCase> = judged.into_iter().map(|(_, case)| case).collect();
    cases.extend(around_lifting());
    cases.extend(blank());
    cases.into_iter().map(Case::Advance).collect()
}

#[cfg(test)]
mod tests {
    use super::*;
    use crate::paper::Refusal;

    fn is_refused(case: &AdvanceCase) -> bool {
        let outcome = case.outcome(&mut vec![0; case.n]);
        let refusal = outcome.as_ref().err();
        assert!(refusal.is_none_or(|&refusal| refusal == Refusal { number: 21, place: 0 }));
        refusal.is_some()
    }

    #[test]
    fn bytes_beyond_precision_are_refused_where_they_are_looked_at() {
        let cases = [beyond_precision(), beyond_precision_far_on()].concat();
        for (is_looked_at, case) in &cases {
            assert_eq!(is_refused(case), *is_looked_at, "{:?}", case.levels.len());
        }
        // Lists of 3, 4 and 4 bytes and one more; of each long list three and one more.
        let looked_at = cases.iter().filter(|case| case.0).count();
        assert_eq!((looked_at, cases.len() - looked_at), (4 * 2 * 11 * 4 + 18, 4 * 2 * 3 * 4 + 6));
    }

    #[test]
    fn records_and_counts_are_refused_where_they_are_not_open() {
        for (is_open, case) in judged_records() {
            assert_eq!(is_refused(&case), !is_open, "{:#018x} {}", case.record, case.count);
        }
    }

    #[test]
    fn lifting_shows_in_the_step_that_was_left() {
        for settings in PRECISIONS.map(plain) {
            let sent = |iteration, lift_from| {
                let case = lifted_from(settings, iteration, lift_from);
                let (_, state) = case.outcome(&mut vec![0; case.n]).unwrap();
                state.unwrap().variable_messages
            };
            for iteration in [1, 2, 3, 253] {
                assert_eq!(sent(iteration, 1), sent(iteration, iteration));
                assert_ne!(sent(iteration, iteration), sent(iteration, iteration + 1));
                assert_eq!(sent(iteration, iteration + 1), sent(iteration, iteration + 2));
            }
        }
    }

    #[test]
    fn blank_levels_are_carried_on() {
        assert!(blank().iter().all(|case| !is_refused(case)));
    }
}
