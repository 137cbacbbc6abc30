//! A failing input made smaller for as long as it still fails.

mod blocks;
mod encode;
mod pair;
mod pause;
mod settings;

use crate::generate::Lists;
use crate::generate::cases::{Case, DecodeCase, WriteCase};
use crate::generate::encoding::EncodeCase;
use crate::generate::graphs::without_idle_variables;
use crate::generate::pause::AdvanceCase;
use crate::interface::{
    LentLengths, NUMBER_BYTES, Settings, f32_bytes, f32_list, number_bytes, numbers,
};
use crate::paper::Limits;
use std::ops::Range;
use std::time::{Duration, Instant};

/// Shrinking ends after this time with what it has.
pub const LONGEST: Duration = Duration::from_secs(20);

/// Whether an input fails, asked until the time is over.
struct Question<F> {
    begun: Instant,
    fails: F,
}

impl<F: Fn(&Case) -> bool> Question<F> {
    fn is_over(&self) -> bool {
        self.begun.elapsed() >= LONGEST
    }

    fn fails(&self, case: &Case) -> bool {
        !self.is_over() && (self.fails)(case)
    }
}

/// What an input has many of. A cut takes some of them out, or makes them plain.
#[derive(Clone, Copy)]
enum Dimension {
    Settings,
    Checks,
    Variables,
    Starts,
    Columns,
    Values,
    Buffers,
    Blocks(blocks::Dimension),
    Encode(encode::Dimension),
    Pause(pause::Dimension),
    Pair(pair::Dimension),
    Lines,
    Bytes,
}

const DIMENSIONS: [Dimension; 23] = [
    Dimension::Pair(pair::Dimension::Numbers),
    Dimension::Pair(pair::Dimension::Settings),
    Dimension::Pause(pause::Dimension::Counts),
    Dimension::Pause(pause::Dimension::Numbers),
    Dimension::Settings,
    Dimension::Checks,
    Dimension::Variables,
    Dimension::Starts,
    Dimension::Columns,
    Dimension::Values,
    Dimension::Pair(pair::Dimension::Values),
    Dimension::Buffers,
    Dimension::Blocks(blocks::Dimension::Rows),
    Dimension::Blocks(blocks::Dimension::Columns),
    Dimension::Blocks(blocks::Dimension::Entries),
    Dimension::Blocks(blocks::Dimension::Numbers),
    Dimension::Encode(encode::Dimension::Pairs),
    Dimension::Encode(encode::Dimension::Bits),
    Dimension::Encode(encode::Dimension::Lengths),
    Dimension::Pause(pause::Dimension::Bytes),
    Dimension::Pause(pause::Dimension::Lengths),
    Dimension::Lines,
    Dimension::Bytes,
];

/// Cuts in every dimension, large ones first, until no cut leaves a failing input.
pub fn shrink(mut case: Case, fails: impl Fn(&Case) -> bool) -> Case {
    let question = Question { begun: Instant::now(), fails };
    let mut changed = true;
    while changed {
        changed = false;
        for dimension in DIMENSIONS {
            changed |= sweep(&mut case, dimension, &question);
        }
    }
    case
}

fn sweep<F: Fn(&Case) -> bool>(
    case: &mut Case,
    dimension: Dimension,
    question: &Question<F>,
) -> bool {
    let mut changed = false;
    let mut all = extent(case, dimension);
    let mut size = all.div_ceil(2);
    while size > 0 && !question.is_over() {
        let mut start = 0;
        while start < all && !question.is_over() {
            let end = (start + size).min(all);
            match cut(case, dimension, start..end).filter(|smaller| question.fails(smaller)) {
                Some(smaller) => {
                    *case = smaller;
                    changed = true;
                    all = extent(case, dimension);
                }
                None => start = end,
            }
        }
        size /= 2;
    }
    changed
}

/// The same for a list alone.
pub fn cut_down<T: Clone>(mut list: Vec<T>, fails: impl Fn(&[T]) -> bool) -> Vec<T> {
    let mut size = list.len().div_ceil(2);
    while size > 0 {
        let mut start = 0;
        while start < list.len() {
            let end = (start + size).min(list.len());
            let shorter = without(&list, &(start..end));
            if fails(&shorter) {
                list = shorter;
            } else {
                start = end;
            }
        }
        size /= 2;
    }
    list
}

fn extent(case: &Case, dimension: Dimension) -> usize {
    let lists = lists_of(case);
    match dimension {
        Dimension::Lines => lines_of(case).len(),
        Dimension::Bytes => text_of(case).len(),
        Dimension::Settings => plainer_settings(case).len(),
        Dimension::Pair(dimension) => pair::extent(case, dimension),
        Dimension::Values => values_of(case).len(),
        Dimension::Buffers => 2,
        Dimension::Blocks(dimension) => blocks::extent(case, dimension),
        Dimension::Encode(dimension) => encode::extent(case, dimension),
        Dimension::Pause(dimension) => pause::extent(case, dimension),
        Dimension::Starts => lists.map_or(0, |lists| lists.starts.len()),
        Dimension::Columns => lists.map_or(0, |lists| lists.columns.len()),
        Dimension::Checks => lists.filter(has_rows).map_or(0, |lists| lists.starts.len() - 1),
        Dimension::Variables => lists.filter(has_rows).map_or(0, |lists| lists.n),
    }
}

/// The case with that part cut, unless this changes nothing.
fn cut(case: &Case, dimension: Dimension, part: Range<usize>) -> Option<Case> {
    match dimension {
        Dimension::Lines => Some(with_text(case, without(&lines_of(case), &part).concat())),
        Dimension::Bytes => Some(with_text(case, without(text_of(case), &part))),
        Dimension::Settings => Some(with_settings(case, plainer_settings(case)[part.start])),
        Dimension::Values => with_plainer_values(case, part),
        Dimension::Buffers => with_exact_buffers(case, part),
        Dimension::Blocks(dimension) => blocks::cut(case, dimension, part),
        Dimension::Encode(dimension) => encode::cut(case, dimension, part),
        Dimension::Pause(dimension) => pause::cut(case, dimension, part),
        Dimension::Pair(dimension) => pair::cut(case, dimension, part),
        Dimension::Starts => {
            let lists = lists_of(case)?;
            let starts = without(&lists.starts, &part);
            Some(on_lists(case, &Lists { starts, ..lists }, None))
        }
        Dimension::Columns => {
            let lists = lists_of(case)?;
            let columns = without(&lists.columns, &part);
            Some(on_lists(case, &Lists { columns, ..lists }, None))
        }
        Dimension::Checks => {
            let lists = lists_of(case)?;
            let rows = without(&lists.rows(), &part);
            let cut = lists.starts[part.start] as usize..lists.starts[part.end] as usize;
            let entries = (0..lists.columns.len()).filter(|entry| !cut.contains(entry)).collect();
            let (smaller, variables) = without_idle_variables(&Lists::from_rows(lists.n, &rows));
            Some(on_lists(case, &smaller, Some(&Kept { variables, entries })))
        }
        Dimension::Variables => {
            let lists = lists_of(case)?;
            let stays = |&variable: &u32| !part.contains(&(variable as usize));
            let mut rows = lists.rows();
            rows.iter_mut().for_each(|row| row.retain(stays));
            let columns = lists.columns.iter().enumerate();
            let entries = columns.filter(|(_, variable)| stays(variable)).map(|(e, _)| e).collect();
            let (smaller, variables) = without_idle_variables(&Lists::from_rows(lists.n, &rows));
            let kept = Kept { variables, entries };
            (smaller.n < lists.n).then(|| on_lists(case, &smaller, Some(&kept)))
        }
    }
}

fn without<T: Clone>(list: &[T], part: &Range<usize>) -> Vec<T> {
    [&list[..part.start], &list[part.end..]].concat()
}

/// Of a pair, the first head's.
fn decode_of(case: &Case) -> Option<&DecodeCase> {
    match case {
        Case::Decode(case) => Some(case),
        Case::Twin(case) => Some(&case.decode),
        Case::Run(case) => Some(&case.decode),
        Case::Pair(case) => Some(&case.first),
        _ => None,
    }
}

fn with_decode(case: &Case, change: impl Fn(&mut DecodeCase)) -> Case {
    let mut case = case.clone();
    match &mut case {
        Case::Decode(decode) => change(decode),
        Case::Twin(twin) => change(&mut twin.decode),
        Case::Run(run) => change(&mut run.decode),
        Case::Pair(pair) => change(&mut pair.first),
        _ => {}
    }
    case
}

fn text_of(case: &Case) -> &[u8] {
    match case {
        Case::Read(case) | Case::ReadBlocks(case) => &case.text,
        _ => &[],
    }
}

fn lines_of(case: &Case) -> Vec<Vec<u8>> {
    text_of(case).split_inclusive(|&byte| byte == b'\n').map(<[u8]>::to_vec).collect()
}

fn with_text(case: &Case, text: Vec<u8>) -> Case {
    let mut case = case.clone();
    if let Case::Read(read) | Case::ReadBlocks(read) = &mut case {
        read.text = text;
    }
    case
}

fn lists_of(case: &Case) -> Option<Lists> {
    let (n, starts, columns) = match case {
        Case::Write(WriteCase { n, starts, columns, .. })
        | Case::Encode(EncodeCase { n, starts, columns, .. })
        | Case::Advance(AdvanceCase { n, starts, columns, .. }) => (*n, starts, columns),
        _ => decode_of(case).map(|case| (case.n, &case.starts, &case.columns))?,
    };
    Some(Lists { n, starts: numbers(starts), columns: numbers(columns) })
}

/// Variables that can be listed, starts in order and columns in range, so that rows can be
/// cut out.
fn has_rows(lists: &Lists) -> bool {
    let starts = &lists.starts;
    lists.n <= 8 * Limits::LENT.variables
        && starts.first() == Some(&0)
        && starts.is_sorted()
        && starts.last().map(|&last| last as usize) == Some(lists.columns.len())
        && lists.columns.iter().all(|&column| (column as usize) < lists.n)
}

/// The variables and entries of a graph that are left of it, by their numbers before.
struct Kept {
    variables: Vec<usize>,
    entries: Vec<usize>,
}

/// The case on other lists, with the values and word of the variables that were kept, and
/// the list of degrees and decode's buffers as much too long or short as before.
fn on_lists(case: &Case, lists: &Lists, kept: Option<&Kept>) -> Case {
    let (starts, columns) = (number_bytes(&lists.starts), number_bytes(&lists.columns));
    let before = decode_of(case).map(needed);
    let mut case = with_decode(case, |decode| {
        let (before, after) = (needed(decode), LentLengths::needed(lists.n, lists.columns.len()));
        let mut lent = decode.lent.as_array();
        for (index, length) in lent.iter_mut().enumerate() {
            *length = moved(*length, before.as_array()[index], after.as_array()[index]);
        }
        decode.degrees = moved(decode.degrees, exact_degrees(decode.n), exact_degrees(lists.n));
        decode.n = lists.n;
        decode.starts = starts.clone();
        decode.columns = columns.clone();
        decode.lent = LentLengths::from_array(lent);
        if let Some(kept) = kept {
            decode.values = f32_bytes(&kept_of(&f32_list(&decode.values), &kept.variables));
        }
    });
    match &mut case {
        Case::Twin(twin) => {
            if let Some(kept) = kept {
                twin.word = kept_of(&twin.word, &kept.variables);
            }
        }
        Case::Write(write) => {
            write.degrees = moved(write.degrees, exact_degrees(write.n), exact_degrees(lists.n));
            (write.n, write.starts, write.columns) = (lists.n, starts, columns);
        }
        Case::Encode(case) => {
            encode::put_on_lists(case, lists, kept.map(|kept| &kept.variables[..]));
        }
        Case::Advance(case) => pause::put_on_lists(case, lists, kept),
        Case::Pair(case) => pair::put_on_lists(case, before, kept),
        _ => {}
    }
    case
}

/// A length that is as much too long or short as before.
fn moved(length: usize, before: usize, after: usize) -> usize {
    length.saturating_add(after).saturating_sub(before)
}

fn needed(case: &DecodeCase) -> LentLengths {
    LentLengths::needed(case.n, case.entries())
}

fn kept_of<T: Copy>(list: &[T], kept: &[usize]) -> Vec<T> {
    kept.iter().filter_map(|&index| list.get(index).copied()).collect()
}

fn exact_degrees(n: usize) -> usize {
    NUMBER_BYTES.saturating_mul(n)
}

/// Decode's buffers of just the lengths that are needed, then its list of degrees.
fn with_exact_buffers(case: &Case, part: Range<usize>) -> Option<Case> {
    let decode = decode_of(case).filter(|decode| decode.n <= Limits::LENT.variables)?;
    let exact = match part.start {
        0 => DecodeCase { lent: needed(decode), ..decode.clone() },
        _ => DecodeCase { degrees: exact_degrees(decode.n), ..decode.clone() },
    };
    let changed = (exact.lent, exact.degrees) != (decode.lent, decode.degrees);
    changed.then(|| with_decode(case, |decode| *decode = exact.clone()))
}

fn values_of(case: &Case) -> Vec<f32> {
    decode_of(case).map_or(Vec::new(), |decode| f32_list(&decode.values))
}

fn with_plainer_values(case: &Case, part: Range<usize>) -> Option<Case> {
    let bytes = plainer_values(values_of(case), part);
    let changed = decode_of(case)?.values != bytes;
    changed.then(|| with_decode(case, |decode| decode.values = bytes.clone()))
}

/// These values as +0.0 or, where that is tried one by one, as 2.0 of their sign, which a factor of
/// 1 exposes.
fn plainer_values(mut values: Vec<f32>, part: Range<usize>) -> Vec<u8> {
    let single = part.len() == 1;
    for value in &mut values[part] {
        *value = match value.abs() {
            2.0 | 0.0 => 0.0,
            _ if single => 2.0_f32.copysign(*value),
            _ => 0.0,
        };
    }
    f32_bytes(&values)
}

fn with_settings(case: &Case, settings: Settings) -> Case {
    let mut case = with_decode(case, |decode| decode.settings = settings);
    if let Case::Advance(advance) = &mut case {
        advance.settings = settings;
    }
    case
}

fn settings_of(case: &Case) -> Option<Settings> {
    match case {
        Case::Advance(case) => Some(case.settings),
        _ => decode_of(case).map(|case| case.settings),
    }
}

fn plainer_settings(case: &Case) -> Vec<Settings> {
    settings_of(case).map_or(Vec::new(), settings::plainer)
}
