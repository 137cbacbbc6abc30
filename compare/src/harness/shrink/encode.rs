//! Cuts of the writing side's inputs: given bits, plainer ones, and lengths.

use super::{moved, without};
use crate::generate::Lists;
use crate::generate::cases::Case;
use crate::generate::encoding::{EncodeCase, encode_case};
use crate::interface::{number_bytes, numbers, position_bytes, positions};
use crate::paper::Limits;
use std::ops::Range;

/// What the writing side's inputs have many of, beside the graph.
#[derive(Clone, Copy)]
pub enum Dimension {
    /// Positions with their bits.
    Pairs,
    /// Bits, as 0.
    Bits,
    /// Lent bytes, as many as are needed, and a part of a position, cut off.
    Lengths,
}

/// Lent lists and the list of positions.
const LENGTHS: usize = 4;

fn encode_of(case: &Case) -> Option<&EncodeCase> {
    match case {
        Case::Encode(case) => Some(case),
        _ => None,
    }
}

pub fn extent(case: &Case, dimension: Dimension) -> usize {
    let Some(case) = encode_of(case) else {
        return 0;
    };
    match dimension {
        Dimension::Pairs => positions(&case.positions).len().max(case.given.len()),
        Dimension::Bits => case.given.len(),
        Dimension::Lengths => LENGTHS,
    }
}

/// The case with that part cut, unless this changes nothing.
pub fn cut(case: &Case, dimension: Dimension, part: Range<usize>) -> Option<Case> {
    let before = encode_of(case)?;
    let mut case = before.clone();
    let changed = match dimension {
        Dimension::Pairs => {
            let list = positions(&case.positions);
            let odd = case.positions.split_off(2 * list.len());
            case.positions = [position_bytes(&without_part(&list, &part)), odd].concat();
            case.given = without_part(&case.given, &part);
            true
        }
        Dimension::Bits => {
            case.given[part].fill(0);
            case.given != before.given
        }
        Dimension::Lengths => {
            put_exact_length(&mut case, part.start);
            let lengths =
                |case: &EncodeCase| [case.degrees, case.codeword, case.work, case.positions.len()];
            lengths(&case) != lengths(before)
        }
    };
    changed.then_some(Case::Encode(case))
}

/// Of a list that may end before the part does.
fn without_part<T: Clone>(list: &[T], part: &Range<usize>) -> Vec<T> {
    without(list, &(part.start.min(list.len())..part.end.min(list.len())))
}

fn put_exact_length(case: &mut EncodeCase, list: usize) {
    if case.n > Limits::LENT.variables {
        return;
    }
    let exact = exact(case);
    match list {
        0 => case.degrees = exact.degrees,
        1 => case.codeword = exact.codeword,
        2 => case.work = exact.work,
        _ => case.positions.truncate(case.positions.len() / 2 * 2),
    }
}

/// What the lent lists would be, if they were of just the lengths that are needed.
fn exact(case: &EncodeCase) -> EncodeCase {
    let mut starts = numbers(&case.starts);
    if starts.is_empty() {
        starts.push(0);
    }
    encode_case(&Lists { n: case.n, starts, columns: Vec::new() }, &[])
}

/// The case on other lists, with the positions of the variables that were kept, in their new
/// numbers; positions past the variables stay past them.
pub fn put_on_lists(case: &mut EncodeCase, lists: &Lists, kept: Option<&[usize]>) {
    let before = exact(case);
    if let Some(kept) = kept {
        let list = positions(&case.positions);
        let odd = case.positions.split_off(2 * list.len());
        let renumbered = |&position: &u16| match usize::from(position).checked_sub(case.n) {
            Some(past) => Some(lists.n + past),
            None => kept.binary_search(&position.into()).ok(),
        };
        let moved: Vec<Option<usize>> = list.iter().map(renumbered).collect();
        let mut index = 0;
        case.given.retain(|_| {
            index += 1;
            moved.get(index - 1).is_none_or(Option::is_some)
        });
        let moved: Vec<u16> = moved.into_iter().flatten().map(|at| at as u16).collect();
        case.positions = [position_bytes(&moved), odd].concat();
    }
    (case.n, case.starts) = (lists.n, number_bytes(&lists.starts));
    case.columns = number_bytes(&lists.columns);
    let after = exact(case);
    case.degrees = moved(case.degrees, before.degrees, after.degrees);
    case.codeword = moved(case.codeword, before.codeword, after.codeword);
    case.work = moved(case.work, before.work, after.work);
}
