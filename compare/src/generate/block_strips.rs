//! Block sheets whose expansions are whole strips. Each has a number, so that one can be made
//! without the others.

use super::blocks::{read_case, write_case};
use super::cases::Case;
use crate::paper::{Blocks, Entry, Limits};
use crate::random::Random;

pub const BLOCK_STRIPS: usize = 9;

/// The call and the refusal's number of each are in the harness's test.
pub fn strip(seed: u64, number: usize) -> Case {
    let random = &mut Random::for_input(!seed, !(number as u64));
    match number {
        0 => Case::ReadBlocks(read_case(&full(random, 250_000))),
        // A part of an entry at the end.
        1 => {
            let mut case = write_case(&full(random, 250_000));
            case.entries.extend([0; 11]);
            Case::WriteBlocks(case)
        }
        // Accepted but for a byte of the columns.
        2 => {
            let mut case = read_case(&full(random, 500_000));
            case.columns -= 1;
            Case::ReadBlocks(case)
        }
        // Every check has one entry.
        3 => Case::ReadBlocks(read_case(&full(random, 1_000_000))),
        // 4,000,000 is no multiple of the size.
        4 => Case::ReadBlocks(read_case(&full(random, 190_000))),
        5 => Case::WriteBlocks(write_case(&full(random, 27))),
        // The variables of the last column stand in no check.
        6 => {
            let mut blocks = full(random, 250_000);
            blocks.entries.retain(|entry| entry.column < 3);
            Case::ReadBlocks(read_case(&blocks))
        }
        7 => Case::ReadBlocks(read_case(&singles(random))),
        // 4,000,000 entries of size 1, and a line more.
        _ => {
            let mut case = read_case(&full(random, 1));
            case.text.push(b'?');
            Case::ReadBlocks(case)
        }
    }
}

/// As many rows, columns and entries as there can be with a size. Row i has columns i, i + 1,
/// .. counted round the end.
fn full(random: &mut Random, size: usize) -> Blocks {
    let Limits { variables, entries, .. } = Limits::LENT;
    let side = variables / size;
    let most = (entries / size).min(side * side);
    let mut blocks = Blocks { size, rows: side, columns: side, entries: Vec::new() };
    for row in 0..side {
        let mut columns: Vec<usize> =
            (0..degree(row, side, most)).map(|step| (row + step) % side).collect();
        columns.sort();
        let entry = |column| Entry { row, column, shift: random.below(size) };
        blocks.entries.extend(columns.into_iter().map(entry));
    }
    blocks
}

/// The entries of a row, of so many in all.
fn degree(row: usize, rows: usize, entries: usize) -> usize {
    entries / rows + usize::from(row < entries % rows)
}

/// Blocks of size 1: 1,000,000 variables, each in one check of two.
fn singles(random: &mut Random) -> Blocks {
    let mut columns: Vec<usize> = (0..Limits::LENT.variables).collect();
    random.shuffle(&mut columns);
    let mut blocks =
        Blocks { size: 1, rows: columns.len() / 2, columns: columns.len(), entries: Vec::new() };
    for (row, pair) in columns.chunks_mut(2).enumerate() {
        pair.sort();
        blocks.entries.extend(pair.iter().map(|&column| Entry { row, column, shift: 0 }));
    }
    blocks
}
