//! Whole strips: graphs of up to 1,000,000 variables and 4,000,000 entries, made by a seed,
//! and their sheets. Each has a number, so that one can be made without the others.

use super::cases::{Case, TwinCase, decode_case, read_case, short_decode, write_case};
use super::graphs::{Lists, fullest, regular, regular_with_codeword};
use super::limits::{self, BY_COUNTS};
use crate::interface::Settings;
use crate::paper::Limits;
use crate::random::Random;

const CALLS: usize = 3;
const ENDS: usize = 4;
const DAMAGES: usize = 7;
const CODEWORDS: usize = 2;

pub const STRIPS: usize = CALLS * BY_COUNTS + ENDS + DAMAGES + CODEWORDS;

const VARIABLES: usize = Limits::LENT.variables;

/// Every call on each graph that the limits of counts make, the fullest sheet with other
/// ends, damaged strips and short lists of degrees, and runs around a codeword.
pub fn strip(seed: u64, number: usize) -> Case {
    let random = &mut Random::for_input(!seed, number as u64);
    if number < CALLS * BY_COUNTS {
        let lists = limits::by_counts(Limits::LENT, random, number % BY_COUNTS);
        return called(number / BY_COUNTS, random, &lists);
    }
    let number = number - CALLS * BY_COUNTS;
    if number < ENDS {
        return sheet_with_end(random, number);
    }
    let number = number - ENDS;
    if number < DAMAGES {
        return damaged(random, number);
    }
    around_codeword(random, number - DAMAGES)
}

fn called(call: usize, random: &mut Random, lists: &Lists) -> Case {
    match call {
        0 => Case::Decode(short_decode(random, lists)),
        1 => Case::Write(write_case(lists)),
        _ => Case::Read(read_case(lists)),
    }
}

fn sheet_with_end(random: &mut Random, end: usize) -> Case {
    let mut case = read_case(&fullest(Limits::LENT, random));
    case.text = limits::with_end(&case.text, Limits::LENT, end);
    Case::Read(case)
}

/// A (3,6)-regular strip with a degree outside its limits at the far end, or with a list of
/// degrees that is one byte short, or both, or that and a 4 in its last row.
fn damaged(random: &mut Random, number: usize) -> Case {
    let mut lists = match number {
        0 | 5 => regular(random, VARIABLES - 1, 3, 6),
        _ => regular(random, VARIABLES, 3, 6),
    };
    let last = VARIABLES as u32 - 1;
    match number {
        // Degrees 0 and 33 of the last variable, 1 and 65 of the last check.
        0 | 5 => lists.n = VARIABLES,
        1 => (0..30).for_each(|variable| push_row(&mut lists, &[variable, last])),
        2 => push_row(&mut lists, &[last]),
        3 => push_row(&mut lists, &(0..65).collect::<Vec<u32>>()),
        4 => {}
        _ => push_row(&mut lists, &[last, 0]),
    }
    let mut case = called(number % CALLS, random, &lists);
    if number > 3 {
        match &mut case {
            Case::Decode(case) => case.degrees -= 1,
            Case::Write(case) => case.degrees -= 1,
            Case::Read(case) => case.degrees -= 1,
            Case::Twin(case) => case.decode.degrees -= 1,
            Case::ReadBlocks(case) => case.degrees -= 1,
            Case::WriteBlocks(case) => case.degrees -= 1,
            Case::Encode(case) => case.degrees -= 1,
            Case::Run(case) => case.decode.degrees -= 1,
            Case::Advance(case) => case.degrees -= 1,
            Case::Pair(case) => case.first.degrees -= 1,
        }
    }
    case
}

fn push_row(lists: &mut Lists, row: &[u32]) {
    lists.columns.extend(row);
    lists.starts.push(lists.columns.len() as u32);
}

/// A decode that finds the codeword after some iterations, and twin runs; both lift.
fn around_codeword(random: &mut Random, number: usize) -> Case {
    let (lists, word) = regular_with_codeword(random, VARIABLES, 3, 6);
    let values: Vec<f32> =
        word.iter().map(|&bit| 1.0 - 2.0 * f32::from(bit) + 0.6 * random.normal()).collect();
    let limit = if number == 0 { 30 } else { 4 };
    let settings = Settings {
        kind: 0,
        gain: 2.5,
        variance: 0.0,
        channel: 4,
        message: 4,
        phi_s: 1,
        phi_a: 1,
        phi_0: 0,
        limit,
        lift_from: 2,
        lift_to: 9,
    };
    let decode = decode_case(&lists, &values, settings);
    match number {
        0 => Case::Decode(decode),
        _ => Case::Twin(TwinCase { decode, word, counts: vec![1, 2] }),
    }
}
