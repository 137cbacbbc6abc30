//! Cuts of pairs: the second head's settings and values, the allowance, and what else there is. The
//! first head is cut as a decode is.

use super::{Kept, kept_of, moved, needed, plainer_values, settings};
use crate::generate::cases::Case;
use crate::generate::pair::{ALLOWANCES, PairCase};
use crate::interface::{LentLengths, REPORTS_BYTES, f32_bytes, f32_list};
use crate::paper::Limits;
use std::ops::Range;

/// What pairs have many of, beside what decode has.
#[derive(Clone, Copy)]
pub enum Dimension {
    /// Word, other values, lengths and allowance, plainer in one way each.
    Numbers,
    /// Of the second head.
    Settings,
    Values,
}

fn pair_of(case: &Case) -> Option<&PairCase> {
    match case {
        Case::Pair(case) => Some(case),
        _ => None,
    }
}

pub fn extent(case: &Case, dimension: Dimension) -> usize {
    pair_of(case).map_or(0, |case| match dimension {
        Dimension::Numbers => plainer(case).len(),
        Dimension::Settings => settings::plainer(case.second.settings).len(),
        Dimension::Values => f32_list(&case.second.values).len(),
    })
}

/// The case with that part cut, unless this changes nothing.
pub fn cut(case: &Case, dimension: Dimension, part: Range<usize>) -> Option<Case> {
    let before = pair_of(case)?;
    let mut case = before.clone();
    match dimension {
        Dimension::Numbers => case = plainer(before).swap_remove(part.start),
        Dimension::Settings => {
            case.second.settings = settings::plainer(before.second.settings)[part.start];
        }
        Dimension::Values => {
            case.second.values = plainer_values(f32_list(&before.second.values), part);
            if case.second.values == before.second.values {
                return None;
            }
        }
    }
    Some(Case::Pair(case))
}

/// Without word and other values, with lists of the second head and reports of just their lengths,
/// and with a smaller allowance that is admitted.
fn plainer(case: &PairCase) -> Vec<PairCase> {
    let mut cases = Vec::new();
    let mut more = |changed: bool, change: &dyn Fn(&mut PairCase)| {
        if changed {
            let mut case = case.clone();
            change(&mut case);
            cases.push(case);
        }
    };
    more(!case.word.is_empty(), &|case| case.word = Vec::new());
    more(!case.other.is_empty(), &|case| case.other = Vec::new());
    if case.first.n <= Limits::LENT.variables {
        let lent = needed(&case.first);
        more(case.second.lent != lent, &|case| case.second.lent = lent);
    }
    more(case.reports != REPORTS_BYTES, &|case| case.reports = REPORTS_BYTES);
    let [least, largest] = ALLOWANCES.map(|end| end as u32);
    if (least + 1..=largest).contains(&case.allowance) {
        for smaller in [least, case.allowance.div_ceil(2), case.allowance - 1] {
            more(true, &|case| case.allowance = smaller);
        }
    }
    cases
}

/// What a pair has beside its first head, on the lists that this head is already on: the second
/// head's values, those past them, the word and the other values of the variables that were kept, and lists as much
/// too long or short as before.
pub fn put_on_lists(case: &mut PairCase, before: Option<LentLengths>, kept: Option<&Kept>) {
    if let Some(kept) = kept {
        let of_kept = |bytes: &[u8]| f32_bytes(&kept_of(&f32_list(bytes), &kept.variables));
        let n = before.map_or(0, |before| before.levels);
        let too_many = f32_list(&case.second.values).split_off(n.min(case.second.values.len() / 4));
        case.second.values = [of_kept(&case.second.values), f32_bytes(&too_many)].concat();
        case.other = of_kept(&case.other);
        case.word = kept_of(&case.word, &kept.variables);
    }
    if let Some(before) = before {
        let (before, after) = (before.as_array(), needed(&case.first).as_array());
        let mut lent = case.second.lent.as_array();
        for (index, length) in lent.iter_mut().enumerate() {
            *length = moved(*length, before[index], after[index]);
        }
        case.second.lent = LentLengths::from_array(lent);
    }
}
