//! Graphs and texts at the limits and one past them.

use super::graphs::{Lists, fullest, regular};
use super::texts;
use crate::interface::{LARGEST_LIFT, NEVER, Settings};
use crate::paper::Limits;
use crate::random::Random;

/// How many graphs are made by the limits of counts.
pub const BY_COUNTS: usize = 8;

/// How many other ends the fullest sheet is given.
const ENDS: usize = 7;

/// Every count and degree at its least and most, and past it.
pub fn graphs(limits: Limits, random: &mut Random) -> impl Iterator<Item = Lists> {
    let counted = (0..BY_COUNTS).map(move |index| by_counts(limits, random, index));
    by_degrees().into_iter().chain(counted)
}

/// Small graphs: three that are admitted, those with a degree past its limits, and those with
/// a count below its limits or far above the small ones.
fn by_degrees() -> Vec<Lists> {
    let pairs = |checks: usize| vec![vec![0, 1]; checks];
    let all = |degree: u32| (0..degree).collect::<Vec<u32>>();
    vec![
        Lists::from_rows(2, &pairs(1)),
        Lists::from_rows(2, &pairs(32)),
        Lists::from_rows(64, &[all(64)]),
        Lists::from_rows(2, &pairs(33)),
        Lists::from_rows(65, &[all(65)]),
        Lists::from_rows(2, &[vec![0, 1], vec![1]]),
        Lists::from_rows(3, &pairs(1)),
        Lists::from_rows(1, &[vec![0]]),
        with_more(65_536, 0),
        with_more(0, 65_536),
    ]
}

/// Four graphs with counts at their limits; n, m and E one past; the fullest graph.
pub fn by_counts(limits: Limits, random: &mut Random, index: usize) -> Lists {
    let Limits { variables, checks, entries } = limits;
    match index {
        0 => regular(random, entries / 32, 32, 64),
        1 => regular(random, variables, entries / variables, 64),
        2 => regular(random, variables, 1, 2),
        3 => regular(random, checks * 2 / 32, 32, 2),
        4 => regular(random, variables + 1, 1, 3),
        5 => regular(random, (checks + 1) * 2 / 3, 3, 2),
        6 => one_entry_more(fullest(limits, random)),
        _ => fullest(limits, random),
    }
}

/// Counts that are as a small graph's to whoever looks at 16 bits of them.
fn with_more(more_starts: usize, more_columns: usize) -> Lists {
    let mut lists = Lists::from_rows(2, &[vec![0, 1]]);
    lists.starts.extend(vec![2; more_starts]);
    lists.columns.extend(vec![0; more_columns]);
    lists
}

/// Check 0 of the fullest graph gets one variable more.
fn one_entry_more(mut fullest: Lists) -> Lists {
    let row = &fullest.columns[..fullest.starts[1] as usize];
    let absent = (0..).find(|variable| !row.contains(variable)).expect("a variable is absent");
    let place = row.partition_point(|&variable| variable < absent);
    fullest.columns.insert(place, absent);
    fullest.starts[1..].iter_mut().for_each(|start| *start += 1);
    fullest
}

/// Sheets of `graphs`, and the fullest one with other ends.
pub fn sheets(limits: Limits, random: &mut Random) -> Vec<Vec<u8>> {
    let mut sheets: Vec<Vec<u8>> =
        graphs(limits, random).map(|lists| texts::sheet(&lists)).collect();
    let fullest = sheets[sheets.len() - 1].clone();
    sheets.extend((0..ENDS).map(|end| with_end(&fullest, limits, end)));
    sheets
}

/// The fullest sheet with something after its last entry, or without its last LF.
pub fn with_end(fullest: &[u8], limits: Limits, end: usize) -> Vec<u8> {
    let cut = &fullest[..fullest.len() - 1];
    let last = format!("{} {}", limits.checks - 1, limits.variables - 1);
    match end {
        0 => [fullest, b"?\n"].concat(),
        1 => [cut, b"\r\n"].concat(),
        2 => cut.to_vec(),
        3 => [fullest, last.as_bytes()].concat(),
        4 => [fullest, b"\n"].concat(),
        5 => [fullest, b"0"].concat(),
        _ => [fullest, b"9999 9999\n"].concat(),
    }
}

/// Programs' inputs of 65,536 bytes and of one more, then with counts at the program's limits
/// and past them: the sheet, then the run text.
pub fn programs() -> Vec<(Vec<u8>, Vec<u8>)> {
    let lists = Lists::from_rows(7_273, &rows_of_one_use(7_273));
    let values = vec![1.0; lists.n];
    // The lines before the values have 79 bytes: 45, 28 and 6. 79 + 9 × 7,273 = 65,536.
    let settings = |phi_s| Settings {
        kind: 0,
        gain: 1.0,
        variance: 0.0,
        channel: 3,
        message: 3,
        phi_s,
        phi_a: 0,
        phi_0: 0,
        limit: 99_999,
        lift_from: NEVER,
        lift_to: LARGEST_LIFT,
    };
    let largest_run = texts::run_text(&settings(1_111), &values);
    let larger_run = texts::run_text(&settings(11_111), &values);
    let small = Lists::from_rows(2, &[vec![0, 1]]);
    let small_run = texts::run_text(&Settings { limit: 5, ..settings(1) }, &[1.0, -1.0]);
    let sheet = texts::sheet(&lists);
    let mut long_line = texts::sheet(&small);
    long_line.resize(65_536, b'0');
    let larger_line = [&long_line[..], b"0"].concat();
    let mut programs = vec![
        (sheet.clone(), largest_run),
        (sheet, larger_run),
        (sheet_of_65_536_bytes(), b"?".to_vec()),
        ([&sheet_of_65_536_bytes()[..], b"0"].concat(), b"?".to_vec()),
        (long_line, small_run.clone()),
        (larger_line, small_run.clone()),
    ];
    let counts = ["8192 1", "8193 1", "2 8192", "2 8193", "1000000 1", "2 1000000"];
    programs.extend(counts.map(|counts| (one_pair_of(counts), small_run.clone())));
    programs
}

/// A sheet with these counts, whose only check has variables 0 and 1.
fn one_pair_of(counts: &str) -> Vec<u8> {
    format!("variables checks\n{counts}\ncheck variable\n0 0\n0 1\n").into_bytes()
}

/// Checks of 64 variables, or what is left, each variable in one of them.
fn rows_of_one_use(n: u32) -> Vec<Vec<u32>> {
    (0..n).collect::<Vec<u32>>().chunks(64).map(<[u32]>::to_vec).collect()
}

/// An admitted graph's sheet that fills the program's room to the byte. 7,000 variables in
/// 110 checks give 54,891 bytes; 18 checks of 64 lines of 9 bytes and one of 30 such lines
/// and a line of 7 give the other 10,645.
fn sheet_of_65_536_bytes() -> Vec<u8> {
    let mut rows = rows_of_one_use(7_000);
    let mut four_digits = 1_000..;
    for _ in 0..18 {
        rows.push(four_digits.by_ref().take(64).collect());
    }
    rows.push([10].into_iter().chain(four_digits.take(30)).collect());
    texts::sheet(&Lists::from_rows(7_000, &rows))
}
