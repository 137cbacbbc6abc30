//! The block sheet: a graph given by shifted blocks, read and written. Quoted words are those
//! of document 02, item 2.

use super::graph::check_graph;
use super::limits::Limits;
use super::sheet::{LINES_BEFORE_ENTRIES, Sheet, check_header, graph_of, push_line};
use super::text::{Text, decimals};
use super::{Refusal, refuse};

const NUMBERS_HEADER: &[u8] = b"size rows columns";
const ENTRIES_HEADER: &[u8] = b"row column shift";

/// The numbers of a block sheet. Nothing says that they are admitted.
#[derive(Clone, Debug, PartialEq, Eq)]
pub struct Blocks {
    pub size: usize,
    pub rows: usize,
    pub columns: usize,
    pub entries: Vec<Entry>,
}

#[derive(Clone, Copy, Debug, PartialEq, Eq)]
pub struct Entry {
    pub row: usize,
    pub column: usize,
    pub shift: usize,
}

/// Reads a block sheet into the graph that it stands for; the lent lists' lengths are in bytes.
pub fn read(
    limits: Limits,
    bytes: &[u8],
    degrees: &mut [u32],
    starts_lent: usize,
    columns_lent: usize,
) -> Result<Sheet, Refusal> {
    let sheet = admitted(limits, bytes, degrees)?;
    sheet.check_room(starts_lent, columns_lent)?;
    Ok(sheet)
}

/// "Its writer takes size, counts and entries, gives the only block sheet that has them, [...]
/// and refuses as its reader would up to 5, then 6."
pub fn write(
    limits: Limits,
    blocks: &Blocks,
    degrees: &mut [u32],
    text_lent: usize,
) -> Result<Vec<u8>, Refusal> {
    let text = text_of(blocks);
    admitted(limits, &text, degrees)?;
    if text_lent < text.len() {
        return refuse(6, 0);
    }
    Ok(text)
}

/// "The result is the ordinary graph, under the ordinary limits and refusals": line by line,
/// then what the graph's check says of the expansion, up to 5.
fn admitted(limits: Limits, bytes: &[u8], degrees: &mut [u32]) -> Result<Sheet, Refusal> {
    let sheet = expansion(&judged(limits, &Text::new(bytes))?);
    check_graph(limits, &sheet.graph(), degrees)?;
    Ok(sheet)
}

fn judged(limits: Limits, text: &Text) -> Result<Blocks, Refusal> {
    check_header(text, 1, NUMBERS_HEADER)?;
    let mut blocks = numbers(limits, text, 2)?;
    check_header(text, 3, ENTRIES_HEADER)?;
    for line in LINES_BEFORE_ENTRIES + 1..=text.begun() {
        let entry = judged_entry(limits, text, line, &blocks)?;
        blocks.entries.push(entry);
    }
    Ok(blocks)
}

/// "It refuses Z = 0 with 17 before 2": then n and m by their limits. A number or product that
/// is too long for any limit counts as the largest usize.
fn numbers(limits: Limits, text: &Text, line: usize) -> Result<Blocks, Refusal> {
    let Some([size, rows, columns]) = text.line(line).and_then(decimals) else {
        return refuse(1, line);
    };
    if size == 0 {
        return refuse(17, line);
    }
    let (n, m) = (columns.saturating_mul(size), rows.saturating_mul(size));
    if !limits.admit_variables(n) || !limits.admit_checks(m) {
        return refuse(2, line);
    }
    Ok(Blocks { size, rows, columns, entries: Vec::new() })
}

/// The entry in this line, after those above: "An entry taking E past its limit gets 2 before
/// its form"; then 1, 3, "a shift not below Z with 17 directly after 3", and 4.
fn judged_entry(
    limits: Limits,
    text: &Text,
    line: usize,
    above: &Blocks,
) -> Result<Entry, Refusal> {
    let entries = above.size * (above.entries.len() + 1);
    if !limits.admit_entries(entries) {
        return refuse(2, line);
    }
    let Some([row, column, shift]) = text.line(line).and_then(decimals) else {
        return refuse(1, line);
    };
    if row >= above.rows || column >= above.columns {
        return refuse(3, line);
    }
    if shift >= above.size {
        return refuse(17, line);
    }
    let not_after = |last: &Entry| (row, column) <= (last.row, last.column);
    if above.entries.last().is_some_and(not_after) {
        return refuse(4, line);
    }
    Ok(Entry { row, column, shift })
}

/// "Entry (i, j, k) with size Z puts a one at check iZ + r and variable jZ + ((r + k) mod Z),
/// for r from 0 to Z - 1."
pub fn expansion(blocks: &Blocks) -> Sheet {
    let size = blocks.size;
    let mut ones = Vec::new();
    for entry in &blocks.entries {
        for r in 0..size {
            let check = entry.row * size + r;
            let variable = entry.column * size + (r + entry.shift) % size;
            ones.push((check, variable));
        }
    }
    ones.sort();
    graph_of(blocks.columns * size, blocks.rows * size, &ones)
}

/// The block sheet of any numbers.
pub fn text_of(blocks: &Blocks) -> Vec<u8> {
    let mut text = Vec::new();
    let push_numbers = |text: &mut Vec<u8>, [first, second, third]: [usize; 3]| {
        push_line(text, format!("{first} {second} {third}").as_bytes());
    };
    push_line(&mut text, NUMBERS_HEADER);
    push_numbers(&mut text, [blocks.size, blocks.rows, blocks.columns]);
    push_line(&mut text, ENTRIES_HEADER);
    for entry in &blocks.entries {
        push_numbers(&mut text, [entry.row, entry.column, entry.shift]);
    }
    text
}

/// The numbers of a text that has a block sheet's form, however large they are.
pub fn numbers_of(bytes: &[u8]) -> Option<Blocks> {
    let text = Text::new(bytes);
    let line = |number: usize| text.line(number).and_then(decimals);
    let headers = (text.line(1)?, text.line(3)?);
    if headers != (NUMBERS_HEADER, ENTRIES_HEADER) {
        return None;
    }
    let [size, rows, columns] = line(2)?;
    let entry = |number| line(number).map(|[row, column, shift]| Entry { row, column, shift });
    let entries = (LINES_BEFORE_ENTRIES + 1..=text.begun()).map(entry).collect::<Option<_>>()?;
    Some(Blocks { size, rows, columns, entries })
}
