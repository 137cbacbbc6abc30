//! Cuts of block sheets that keep their form: whole rows and columns of blocks, single entries,
//! and plainer numbers.

use super::{moved, without};
use crate::generate::blocks::{read_case, write_case};
use crate::generate::cases::{Case, ReadCase, WriteBlocksCase};
use crate::paper::blocks::numbers_of;
use crate::paper::{Blocks, Entry};
use std::ops::Range;

/// Rows and columns of more blocks are not cut one by one.
const MOST: usize = 10_000;

/// What a block sheet has many of.
#[derive(Clone, Copy)]
pub enum Dimension {
    Rows,
    Columns,
    Entries,
    Numbers,
}

/// The numbers, of a text where it has the form.
fn blocks_of(case: &Case) -> Option<Blocks> {
    match case {
        Case::ReadBlocks(case) => numbers_of(&case.text),
        Case::WriteBlocks(case) => Some(case.blocks()),
        _ => None,
    }
}

pub fn extent(case: &Case, dimension: Dimension) -> usize {
    let Some(blocks) = blocks_of(case) else {
        return 0;
    };
    match dimension {
        Dimension::Rows => blocks.rows.min(MOST),
        Dimension::Columns => blocks.columns.min(MOST),
        Dimension::Entries => blocks.entries.len(),
        Dimension::Numbers => plainer(&blocks).len(),
    }
}

/// The case with that part cut.
pub fn cut(case: &Case, dimension: Dimension, part: Range<usize>) -> Option<Case> {
    let blocks = blocks_of(case)?;
    let smaller = match dimension {
        Dimension::Rows => without_idle_columns(Blocks {
            rows: blocks.rows - part.len(),
            entries: renumbered(&blocks, &part, |entry| &mut entry.row),
            ..blocks
        }),
        Dimension::Columns => Blocks {
            columns: blocks.columns - part.len(),
            entries: renumbered(&blocks, &part, |entry| &mut entry.column),
            ..blocks
        },
        Dimension::Entries => Blocks { entries: without(&blocks.entries, &part), ..blocks },
        Dimension::Numbers => plainer(&blocks).swap_remove(part.start),
    };
    Some(with_blocks(case, &smaller))
}

/// Without the columns that no entry has, unless there are very many.
fn without_idle_columns(mut blocks: Blocks) -> Blocks {
    if blocks.columns > MOST {
        return blocks;
    }
    for column in (0..blocks.columns).rev() {
        if blocks.entries.iter().all(|entry| entry.column != column) {
            blocks.entries = renumbered(&blocks, &(column..column + 1), |entry| &mut entry.column);
            blocks.columns -= 1;
        }
    }
    blocks
}

/// The entries outside a part, numbered anew.
fn renumbered(
    blocks: &Blocks,
    part: &Range<usize>,
    number: impl Fn(&mut Entry) -> &mut usize,
) -> Vec<Entry> {
    let mut kept = blocks.entries.clone();
    kept.retain_mut(|entry| !part.contains(number(entry)));
    for entry in &mut kept {
        let number = number(entry);
        *number -= if *number >= part.end { part.len() } else { 0 };
    }
    kept
}

/// The numbers plainer in one way each: a smaller size, with the shifts below it, no shifts, one
/// shift of 1 or 0.
fn plainer(blocks: &Blocks) -> Vec<Blocks> {
    let with_size = |size: usize| {
        let below = |entry: &Entry| match entry.shift < blocks.size {
            true => Entry { shift: entry.shift.min(size.saturating_sub(1)), ..*entry },
            false => Entry { shift: size, ..*entry },
        };
        Blocks { size, entries: blocks.entries.iter().map(below).collect(), ..blocks.clone() }
    };
    let with_shift = |at: usize, shift: usize| {
        let mut blocks = blocks.clone();
        blocks.entries[at].shift = shift;
        blocks
    };
    let mut plainer = Vec::new();
    if blocks.size > 1 {
        plainer.extend([1, blocks.size / 2, blocks.size - 1].map(with_size));
    }
    for (at, entry) in blocks.entries.iter().enumerate().take(MOST) {
        if entry.shift > 0 {
            plainer.push(with_shift(at, 0));
        }
        if entry.shift > 1 {
            plainer.push(with_shift(at, 1));
        }
    }
    plainer
}

/// The case on other numbers, with the lent lists as much too long or short as before.
fn with_blocks(case: &Case, smaller: &Blocks) -> Case {
    match (case, blocks_of(case)) {
        (Case::ReadBlocks(case), Some(blocks)) => {
            let (before, after) = (read_case(&blocks), read_case(smaller));
            Case::ReadBlocks(ReadCase {
                degrees: moved(case.degrees, before.degrees, after.degrees),
                starts: moved(case.starts, before.starts, after.starts),
                columns: moved(case.columns, before.columns, after.columns),
                text: after.text,
            })
        }
        (Case::WriteBlocks(case), Some(blocks)) => {
            let (before, after) = (write_case(&blocks), write_case(smaller));
            let part = &case.entries[before.entries.len()..];
            Case::WriteBlocks(WriteBlocksCase {
                degrees: moved(case.degrees, before.degrees, after.degrees),
                text: moved(case.text, before.text, after.text),
                entries: [&after.entries, part].concat(),
                ..after
            })
        }
        _ => case.clone(),
    }
}
