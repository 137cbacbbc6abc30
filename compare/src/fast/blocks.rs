//! The block sheet read in one pass over its bytes, and expanded straight into the lent lists;
//! and written straight into the lent text.

use super::graph::{MOST_CHECKS, MOST_ENTRIES, MOST_VARIABLES, Word, word};
use super::sheet::{digits, put, put_number, take_number};
use crate::interface::{BlocksBytes, ENTRY_BYTES, NUMBER_BYTES, Refusal};

const TOP: &[u8] = b"size rows columns\n";
const MIDDLE: &[u8] = b"row column shift\n";

/// The line of the size and the counts, and that of the first entry.
const NUMBERS_LINE: usize = 2;
const FIRST_ENTRY_LINE: usize = 4;

#[derive(Clone, Copy)]
pub struct Entry {
    row: u32,
    column: u32,
    shift: u32,
}

/// What is known of the entries so far.
struct Judge {
    size: u32,
    rows: u32,
    columns: u32,
    most: usize,
    entries: usize,
    above: Option<(u32, u32)>,
    /// Where each row's entries begin, as far as the rows have come.
    row_starts: Vec<u32>,
    column_degrees: Vec<u32>,
}

/// A block sheet that nothing is wrong with.
pub struct Blocks {
    size: usize,
    row_starts: Vec<u32>,
    entries: Vec<Entry>,
    pub n: usize,
    pub m: usize,
}

fn refusal(number: u8, place: usize) -> Refusal {
    Refusal { number, place }
}

impl Judge {
    fn new(size: usize, rows: usize, columns: usize) -> Result<Judge, Refusal> {
        if size == 0 {
            return Err(refusal(17, NUMBERS_LINE));
        }
        let (n, m) = (size.saturating_mul(columns), size.saturating_mul(rows));
        if !(2..=MOST_VARIABLES).contains(&n) || !(1..=MOST_CHECKS).contains(&m) {
            return Err(refusal(2, NUMBERS_LINE));
        }
        Ok(Judge {
            size: size as u32,
            rows: rows as u32,
            columns: columns as u32,
            most: MOST_ENTRIES / size,
            entries: 0,
            above: None,
            row_starts: vec![0],
            column_degrees: vec![0; columns],
        })
    }

    /// The line of the next entry, where there may be one.
    fn next_line(&self) -> Result<usize, Refusal> {
        let line = FIRST_ENTRY_LINE + self.entries;
        match self.entries < self.most {
            true => Ok(line),
            false => Err(refusal(2, line)),
        }
    }

    fn take(&mut self, line: usize, entry: Entry) -> Result<(), Refusal> {
        let Entry { row, column, shift } = entry;
        if row >= self.rows || column >= self.columns {
            return Err(refusal(3, line));
        }
        if shift >= self.size {
            return Err(refusal(17, line));
        }
        if self.above >= Some((row, column)) {
            return Err(refusal(4, line));
        }
        self.above = Some((row, column));
        self.row_starts.resize(1 + row as usize, self.entries as u32);
        self.column_degrees[column as usize] += 1;
        self.entries += 1;
        Ok(())
    }

    /// 6 for the list of degrees, then 5: all variables of a block column have its degree, and
    /// all checks of a block row.
    fn count_degrees(&mut self, degrees: &mut [u8]) -> Result<(), Refusal> {
        self.row_starts.resize(1 + self.rows as usize, self.entries as u32);
        let size = self.size as usize;
        let n = size * self.columns as usize;
        let Some(degrees) = degrees.as_chunks_mut::<NUMBER_BYTES>().0.get_mut(..n) else {
            return Err(refusal(6, 0));
        };
        for (block, &degree) in degrees.chunks_exact_mut(size).zip(&self.column_degrees) {
            block.fill(degree.to_le_bytes());
        }
        let bad_row = |pair: &[u32]| !(2..=64).contains(&(pair[1] - pair[0]));
        if let Some(row) = self.row_starts.windows(2).position(bad_row) {
            return Err(refusal(5, size * row));
        }
        match self.column_degrees.iter().position(|degree| !(1..=32).contains(degree)) {
            Some(column) => Err(refusal(5, size * (self.rows as usize + column))),
            None => Ok(()),
        }
    }
}

/// The numbers of a text, where nothing is refused.
pub fn read(
    text: &[u8],
    degrees: &mut [u8],
    starts_lent: usize,
    columns_lent: usize,
) -> Result<Blocks, Refusal> {
    let mut rest = text.strip_prefix(TOP).ok_or(refusal(1, 1))?;
    let [size, rows, columns] =
        take_three(&mut rest).ok_or(refusal(1, NUMBERS_LINE))?.map(|number| number as usize);
    let mut judge = Judge::new(size, rows, columns)?;
    rest = rest.strip_prefix(MIDDLE).ok_or(refusal(1, 3))?;

    let mut entries = Vec::new();
    while !rest.is_empty() {
        let line = judge.next_line()?;
        let [row, column, shift] = take_three(&mut rest).ok_or(refusal(1, line))?;
        let entry = Entry { row, column, shift };
        judge.take(line, entry)?;
        entries.push(entry);
    }
    judge.count_degrees(degrees)?;
    let (n, m) = (size * columns, size * rows);
    if starts_lent / NUMBER_BYTES < m + 1 || columns_lent / NUMBER_BYTES < size * entries.len() {
        return Err(refusal(6, 0));
    }
    Ok(Blocks { size, row_starts: judge.row_starts, entries, n, m })
}

/// Takes a line of three numbers off the front.
fn take_three(rest: &mut &[u8]) -> Option<[u32; 3]> {
    Some([take_number(rest, b' ')?, take_number(rest, b' ')?, take_number(rest, b'\n')?])
}

/// The expansion of what was read, in lists that are long enough.
pub fn expand(blocks: &Blocks, starts: &mut [u8], columns: &mut [u8]) {
    let size = blocks.size;
    let (first, starts) = starts.as_chunks_mut().0.split_first_mut().expect("a start");
    let mut left = columns.as_chunks_mut().0;
    let mut end = 0;
    *first = word(end);
    for (row, starts) in blocks.row_starts.windows(2).zip(starts.chunks_exact_mut(size)) {
        let entries = &blocks.entries[row[0] as usize..row[1] as usize];
        for start in starts {
            end += entries.len();
            *start = word(end);
        }
        let (columns, after) = left.split_at_mut(size * entries.len());
        expand_row(size, entries, columns);
        left = after;
    }
}

/// The columns of a block row, entry by entry: the variables of its block from the shift on,
/// then those before.
fn expand_row(size: usize, entries: &[Entry], columns: &mut [Word]) {
    let degree = entries.len();
    for (place, entry) in entries.iter().enumerate() {
        let first = size as u32 * entry.column;
        let (turned, end) = (first + entry.shift, first + size as u32);
        let (before, after) = columns.split_at_mut(degree * (end - turned) as usize);
        for (check, variable) in before.chunks_exact_mut(degree).zip(turned..end) {
            check[place] = variable.to_le_bytes();
        }
        for (check, variable) in after.chunks_exact_mut(degree).zip(first..turned) {
            check[place] = variable.to_le_bytes();
        }
    }
}

fn entries_of<'a>(blocks: &BlocksBytes<'a>) -> impl Iterator<Item = Entry> + 'a {
    blocks.entries.as_chunks::<ENTRY_BYTES>().0.iter().map(|entry| {
        let part = |at: usize| {
            u32::from_le_bytes([entry[at], entry[at + 1], entry[at + 2], entry[at + 3]])
        };
        Entry { row: part(0), column: part(NUMBER_BYTES), shift: part(2 * NUMBER_BYTES) }
    })
}

/// The text's length, where nothing is refused.
pub fn measure(
    blocks: &BlocksBytes,
    degrees: &mut [u8],
    text_lent: usize,
) -> Result<usize, Refusal> {
    let mut judge = Judge::new(blocks.size, blocks.rows, blocks.columns)?;
    let numbers = [blocks.size, blocks.rows, blocks.columns];
    let mut length = TOP.len() + line_length(numbers) + MIDDLE.len();
    for entry in entries_of(blocks) {
        let line = judge.next_line()?;
        judge.take(line, entry)?;
        length += line_length(numbers_of(entry));
    }
    judge.count_degrees(degrees)?;
    if text_lent < length {
        return Err(refusal(6, 0));
    }
    Ok(length)
}

/// Writes measured numbers; gives the text's length.
pub fn write(blocks: &BlocksBytes, text: &mut [u8]) -> usize {
    let mut at = 0;
    put(text, &mut at, TOP);
    put_three(text, &mut at, [blocks.size, blocks.rows, blocks.columns]);
    put(text, &mut at, MIDDLE);
    for entry in entries_of(blocks) {
        put_three(text, &mut at, numbers_of(entry));
    }
    at
}

fn numbers_of(entry: Entry) -> [usize; 3] {
    [entry.row, entry.column, entry.shift].map(|number| number as usize)
}

fn line_length([first, second, third]: [usize; 3]) -> usize {
    digits(first) + digits(second) + digits(third) + 3
}

fn put_three(text: &mut [u8], at: &mut usize, [first, second, third]: [usize; 3]) {
    put_number(text, at, first, b' ');
    put_number(text, at, second, b' ');
    put_number(text, at, third, b'\n');
}
