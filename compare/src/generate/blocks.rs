//! Block sheets, good and damaged, and whole inputs of their two calls.

use super::cases::{Case, ReadCase, WriteBlocksCase, degrees_length, lent_length};
use super::{Lists, damage, graphs, texts};
use crate::interface::{NUMBER_BYTES, as_number, number_bytes};
use crate::paper::blocks::text_of;
use crate::paper::{Blocks, Entry, Limits};
use crate::random::Random;

/// The most entries that the expansion of a small sheet has.
const SMALL: usize = 1_500;

/// Sizes past every limit, some of which look small to whoever cuts them or a product short.
const FAR_SIZES: [usize; 6] = [1_000_001, 1 << 32, 1 << 32 | 2, 1 << 62 | 1, 1 << 63, usize::MAX];

/// The same for the parts of an entry.
const FAR_PARTS: [usize; 6] = [65_536, 1_000_000, 1 << 24, 1 << 31, 1 << 31 | 1, u32::MAX as usize];

/// A block sheet whose blocks stand where a graph has its entries, with random shifts, which
/// are often the least or the largest. It is admitted where the graph is and the limits of the
/// expansion are kept.
pub fn on_graph(random: &mut Random, size: usize, lists: &Lists) -> Blocks {
    let mut entries = Vec::new();
    for (row, columns) in lists.rows().iter().enumerate() {
        for &column in columns {
            let shift = match random.below(6) {
                0 => 0,
                1 => size - 1,
                _ => random.below(size),
            };
            entries.push(Entry { row, column: column as usize, shift });
        }
    }
    Blocks { size, rows: lists.starts.len() - 1, columns: lists.n, entries }
}

/// Admitted, and mostly small.
pub fn any(random: &mut Random) -> Blocks {
    if random.one_in(60) {
        return wireless(random);
    }
    let lists = match random.below(3) {
        0 => graphs::any(random),
        _ => few_blocks(random),
    };
    let most = (SMALL / lists.columns.len()).max(1);
    let size = match random.below(8) {
        0 => 1,
        1 => 2,
        2 => most,
        3 => random.between(1, most),
        _ => random.between(1, 9),
    };
    on_graph(random, size, &lists)
}

fn few_blocks(random: &mut Random) -> Lists {
    let (columns, rows) = (random.between(2, 6), random.between(1, 4));
    let most = random.between(2, columns.min(4));
    graphs::irregular(random, columns, rows, most)
}

/// A sheet of the shape that wireless networks (802.11) use: 12 rows and 24 columns of blocks of
/// 27. The last 11 columns have two neighbouring blocks each, without a shift, and the one
/// before them three; the first 12 columns have three to six blocks each.
pub fn wireless(random: &mut Random) -> Blocks {
    const ROWS: u32 = 12;
    let mut rows = vec![Vec::new(); ROWS as usize];
    for column in 0..12 {
        let mut places: Vec<usize> = (0..rows.len()).collect();
        random.shuffle(&mut places);
        let degree = random.pick(&[3, 4, 5, 6]);
        places[..degree].iter().for_each(|&row| rows[row].push(column));
    }
    [0, 6, 11].into_iter().for_each(|row: usize| rows[row].push(12));
    for step in 1..ROWS {
        let column = 12 + step;
        rows[step as usize - 1].push(column);
        rows[step as usize].push(column);
    }
    let mut blocks = on_graph(random, 27, &Lists::from_rows(24, &rows));
    for entry in blocks.entries.iter_mut().filter(|entry| entry.column >= 12) {
        entry.shift = usize::from(entry.column == 12 && entry.row != 6);
    }
    blocks
}

/// One thing wrong, mostly.
pub fn damage(random: &mut Random, blocks: &mut Blocks) {
    match random.below(9) {
        0 => damage_numbers(random, blocks),
        1 => damage_order(random, blocks),
        2 | 8 => damage_degrees(random, blocks),
        _ if blocks.entries.is_empty() => {}
        number => {
            let (size, rows, columns) = (blocks.size, blocks.rows, blocks.columns);
            let at = random.below(blocks.entries.len());
            let entry = &mut blocks.entries[at];
            let part = |random: &mut Random, bound: usize| match random.below(3) {
                0 => bound,
                1 => bound.saturating_add(1),
                _ => random.pick(&FAR_PARTS),
            };
            match number {
                3 => entry.row = part(random, rows),
                4 => entry.column = part(random, columns),
                5 | 6 => entry.shift = part(random, size),
                // Two or three at once.
                _ => {
                    entry.column = part(random, columns);
                    entry.shift = part(random, size);
                    entry.row = if random.one_in(2) { 0 } else { rows };
                }
            }
        }
    }
}

/// The size or a count as it should not be, or as another sheet's. Sizes stay small or are far
/// too large, so that the expansion does.
fn damage_numbers(random: &mut Random, blocks: &mut Blocks) {
    let other = |random: &mut Random, number: usize| match random.below(5) {
        0 => 0,
        1 => number.saturating_sub(1),
        2 => number.saturating_add(1),
        3 => random.pick(&FAR_SIZES),
        _ => random.pick(&[1, 2, 100, 1_000]),
    };
    for _ in 0..random.between(1, 2) {
        match random.below(4) {
            0 => blocks.size = other(random, blocks.size),
            1 => blocks.rows = other(random, blocks.rows),
            2 => blocks.columns = other(random, blocks.columns),
            _ => blocks.size = 0,
        }
    }
}

/// Two neighbours exchanged, or an entry of a pair that stands above.
fn damage_order(random: &mut Random, blocks: &mut Blocks) {
    if blocks.entries.len() < 2 {
        return;
    }
    let at = random.between(1, blocks.entries.len() - 1);
    match random.below(3) {
        0 => blocks.entries.swap(at - 1, at),
        1 => {
            let Entry { row, column, .. } = blocks.entries[at - 1];
            blocks.entries[at] = Entry { row, column, ..blocks.entries[at] };
        }
        _ => {
            let shift = random.below(blocks.size.max(1));
            blocks.entries.insert(at, Entry { shift, ..blocks.entries[at - 1] });
        }
    }
}

/// Entries left out, a row or a column more, or rows enough for 33 entries of column 0, or a
/// row of 65 entries.
fn damage_degrees(random: &mut Random, blocks: &mut Blocks) {
    match random.below(6) {
        0 => drop(blocks.entries.pop()),
        1 if !blocks.entries.is_empty() => {
            blocks.entries.remove(random.below(blocks.entries.len()));
        }
        2 => blocks.rows = blocks.rows.saturating_add(1),
        3 => blocks.columns = blocks.columns.saturating_add(1),
        4 => {
            let more = [0, 1].map(|column| Entry { row: 0, column, shift: 0 });
            for row in blocks.rows..blocks.rows.saturating_add(33) {
                blocks.entries.extend(more.map(|entry| Entry { row, ..entry }));
            }
            blocks.rows = blocks.rows.saturating_add(33);
        }
        _ => {
            let row = blocks.rows;
            blocks.entries.extend((0..65).map(|column| Entry { row, column, shift: 0 }));
            blocks.rows = row.saturating_add(1);
            blocks.columns = blocks.columns.max(65);
        }
    }
}

/// The list that the writer takes.
pub fn entry_bytes(blocks: &Blocks) -> Vec<u8> {
    let parts = |entry: &Entry| [entry.row, entry.column, entry.shift].map(as_number);
    number_bytes(&blocks.entries.iter().flat_map(parts).collect::<Vec<u32>>())
}

/// As many variables or checks as a list is ever lent for.
fn countable(count: usize, size: usize) -> usize {
    count.saturating_mul(size).min(Limits::LENT.variables + 1)
}

/// The block sheet, read into lists of just the lengths that it needs.
pub fn read_case(blocks: &Blocks) -> ReadCase {
    let entries = blocks.entries.len().saturating_mul(blocks.size);
    ReadCase {
        text: text_of(blocks),
        degrees: NUMBER_BYTES * countable(blocks.columns, blocks.size),
        starts: NUMBER_BYTES * (countable(blocks.rows, blocks.size) + 1),
        columns: NUMBER_BYTES * entries.min(Limits::LENT.entries),
    }
}

/// The numbers, written into a list of degrees and a text of just the lengths that they need.
pub fn write_case(blocks: &Blocks) -> WriteBlocksCase {
    WriteBlocksCase {
        size: blocks.size,
        rows: blocks.rows,
        columns: blocks.columns,
        entries: entry_bytes(blocks),
        degrees: NUMBER_BYTES * countable(blocks.columns, blocks.size),
        text: text_of(blocks).len(),
    }
}

/// Both calls on the same numbers.
pub fn both(blocks: &Blocks) -> [Case; 2] {
    [Case::ReadBlocks(read_case(blocks)), Case::WriteBlocks(write_case(blocks))]
}

/// The length of a list of degrees for the good numbers or, where it is not much longer, for the
/// damaged ones.
fn either_degrees(random: &mut Random, good: &Blocks, damaged: &Blocks) -> usize {
    let n = |blocks: &Blocks| blocks.columns.saturating_mul(blocks.size);
    match n(damaged) <= 2 * SMALL && random.one_in(2) {
        true => degrees_length(random, n(damaged)),
        false => degrees_length(random, n(good)),
    }
}

pub fn any_read(random: &mut Random) -> ReadCase {
    let undamaged = any(random);
    let good = read_case(&undamaged);
    let mut blocks = undamaged.clone();
    if random.one_in(3) {
        (0..random.between(1, 2)).for_each(|_| damage(random, &mut blocks));
    }
    let degrees = either_degrees(random, &undamaged, &blocks);
    let mut text = text_of(&blocks);
    if random.one_in(3) {
        (0..random.between(1, 2)).for_each(|_| texts::damage(Limits::LENT, random, &mut text));
    }
    ReadCase {
        text,
        degrees,
        starts: lent_length(random, good.starts),
        columns: lent_length(random, good.columns),
    }
}

pub fn any_write(random: &mut Random) -> WriteBlocksCase {
    let undamaged = any(random);
    let text = lent_length(random, text_of(&undamaged).len());
    let mut blocks = undamaged.clone();
    if random.one_in(2) {
        (0..random.between(1, 2)).for_each(|_| damage(random, &mut blocks));
    }
    let degrees = either_degrees(random, &undamaged, &blocks);
    let mut entries = damage::ragged(random, entry_bytes(&blocks));
    if random.one_in(12) {
        // A part of an entry, of up to 11 bytes.
        let more = random.between(1, 11);
        entries.extend(random.bytes(more));
    }
    let Blocks { size, rows, columns, .. } = blocks;
    WriteBlocksCase { size, rows, columns, entries, degrees, text }
}

#[cfg(test)]
mod tests {
    use super::*;
    use crate::paper::blocks;

    #[test]
    fn block_sheets_are_admitted() {
        let random = &mut Random::new(31);
        for _ in 0..1_000 {
            let blocks = any(random);
            let degrees = &mut vec![0; blocks.size * blocks.columns];
            let case = read_case(&blocks);
            let sheet = blocks::read(Limits::LENT, &case.text, degrees, case.starts, case.columns);
            assert_eq!(sheet.map(|sheet| sheet.n), Ok(degrees.len()));
            assert_eq!(
                blocks::write(Limits::LENT, &blocks, degrees, case.text.len()),
                Ok(case.text)
            );
        }
    }

    #[test]
    fn the_wireless_shape() {
        for seed in 0..20 {
            let blocks = wireless(&mut Random::new(seed));
            assert_eq!((blocks.size, blocks.rows, blocks.columns), (27, 12, 24));
            assert!((61..=97).contains(&blocks.entries.len()));
            let last = blocks.entries.iter().filter(|entry| entry.column > 12);
            assert!(last.clone().count() == 22 && last.clone().all(|entry| entry.shift == 0));
        }
    }
}
