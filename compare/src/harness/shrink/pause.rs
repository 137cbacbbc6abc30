//! Cuts of paused runs: counts, and of states that are handed in their bytes, numbers and lengths.

use super::{Kept, exact_degrees, kept_of, moved, without};
use crate::generate::Lists;
use crate::generate::cases::Case;
use crate::generate::pause::{AdvanceCase, open};
use crate::interface::{LentLengths, Record, number_bytes};
use crate::paper::Limits;
use std::ops::Range;

/// What paused runs have many of, beside what decode has.
#[derive(Clone, Copy)]
pub enum Dimension {
    /// Counts of a run.
    Counts,
    /// Bytes of a state that is handed in, as 0.
    Bytes,
    /// Its record and count, plainer in one way each.
    Numbers,
    /// Its lists, of just the lengths that are needed.
    Lengths,
}

/// The lists of a state, the list of degrees, sums and bits.
const LENGTHS: usize = 6;

fn counts_of(case: &Case) -> &[u32] {
    match case {
        Case::Run(case) => &case.counts,
        Case::Twin(case) => &case.counts,
        _ => &[],
    }
}

fn advance_of(case: &Case) -> Option<&AdvanceCase> {
    match case {
        Case::Advance(case) => Some(case),
        _ => None,
    }
}

fn lists_of(case: &mut AdvanceCase) -> [&mut Vec<u8>; 3] {
    [&mut case.levels, &mut case.variable_messages, &mut case.check_messages]
}

pub fn extent(case: &Case, dimension: Dimension) -> usize {
    let advance = advance_of(case);
    match dimension {
        Dimension::Counts => counts_of(case).len(),
        Dimension::Bytes => advance.map_or(0, |case| {
            case.levels.len() + case.variable_messages.len() + case.check_messages.len()
        }),
        Dimension::Numbers => advance.map_or(0, |case| plainer_numbers(case).len()),
        Dimension::Lengths => advance.map_or(0, |_| LENGTHS),
    }
}

/// The case with that part cut, unless this changes nothing.
pub fn cut(case: &Case, dimension: Dimension, part: Range<usize>) -> Option<Case> {
    match dimension {
        Dimension::Counts => Some(with_counts(case, without(counts_of(case), &part))),
        Dimension::Bytes => with_advance(case, |case| clear(case, &part)),
        Dimension::Numbers => with_advance(case, |case| {
            (case.record, case.count) = plainer_numbers(case)[part.start];
        }),
        Dimension::Lengths => with_advance(case, |case| put_exact_length(case, part.start)),
    }
}

fn with_advance(case: &Case, change: impl Fn(&mut AdvanceCase)) -> Option<Case> {
    let before = advance_of(case)?;
    let mut case = before.clone();
    change(&mut case);
    (!is_same(&case, before)).then_some(Case::Advance(case))
}

fn is_same(case: &AdvanceCase, other: &AdvanceCase) -> bool {
    let numbers =
        |case: &AdvanceCase| (case.record, case.count, case.degrees, case.sums, case.bits);
    numbers(case) == numbers(other)
        && case.levels == other.levels
        && case.variable_messages == other.variable_messages
        && case.check_messages == other.check_messages
}

fn with_counts(case: &Case, counts: Vec<u32>) -> Case {
    let mut case = case.clone();
    match &mut case {
        Case::Run(run) => run.counts = counts,
        Case::Twin(twin) => twin.counts = counts,
        _ => {}
    }
    case
}

/// The bytes are counted through the three lists.
fn clear(case: &mut AdvanceCase, part: &Range<usize>) {
    let bytes = lists_of(case).into_iter().flatten();
    bytes.skip(part.start).take(part.len()).for_each(|byte| *byte = 0);
}

/// Records and counts that are plainer: open at iteration 0, then at 1, then lower.
fn plainer_numbers(case: &AdvanceCase) -> Vec<(u64, u32)> {
    let (record, count) = (case.record, case.count);
    let plainest = [open(0, 1), open(1, 1)];
    let rank = |record: u64| match plainest.iter().position(|&plain| plain == record) {
        Some(rank) => (0, rank as u64),
        None => (1, record),
    };
    let mut records = plainest.to_vec();
    if let Some(now) = Record::of_number(record) {
        let iterations = now.iterations;
        let earlier = [iterations / 2, iterations.saturating_sub(1)];
        records.extend(earlier.map(|iterations| Record { iterations, ..now }.number()));
        records.push(Record { unsatisfied: 1, ..now }.number());
    }
    records.retain(|&other| rank(other) < rank(record));
    let mut counts = vec![0, 1, count / 2];
    counts.retain(|&other| other < count);
    let plainer = records.into_iter().map(|record| (record, count));
    plainer.chain(counts.into_iter().map(|count| (record, count))).collect()
}

fn needed(case: &AdvanceCase) -> LentLengths {
    LentLengths::needed(case.n, case.entries())
}

fn put_exact_length(case: &mut AdvanceCase, list: usize) {
    if case.n > Limits::LENT.variables {
        return;
    }
    let needed = needed(case);
    match list {
        0 => case.levels.resize(needed.levels, 0),
        1 => case.variable_messages.resize(needed.variable_messages, 0),
        2 => case.check_messages.resize(needed.check_messages, 0),
        3 => case.degrees = exact_degrees(case.n),
        4 => case.sums = needed.sums,
        _ => case.bits = needed.bits,
    }
}

/// The case on other lists, with the levels of the variables and the messages of the entries that
/// were kept, and every list as much too long or short as before.
pub fn put_on_lists(case: &mut AdvanceCase, lists: &Lists, kept: Option<&Kept>) {
    let (before, after) = (needed(case), LentLengths::needed(lists.n, lists.columns.len()));
    if let Some(Kept { variables, entries }) = kept {
        let of_lists = [(before.levels, variables), (before.check_messages, entries)];
        for (index, list) in lists_of(case).into_iter().enumerate() {
            let (needed, kept) = of_lists[index.min(1)];
            let past = list.split_off(needed.min(list.len()));
            *list = [kept_of(list, kept), past].concat();
        }
    }
    case.sums = moved(case.sums, before.sums, after.sums);
    case.bits = moved(case.bits, before.bits, after.bits);
    case.degrees = moved(case.degrees, exact_degrees(case.n), exact_degrees(lists.n));
    (case.n, case.starts) = (lists.n, number_bytes(&lists.starts));
    case.columns = number_bytes(&lists.columns);
}
