//! The sheet read in one pass over its bytes, and written straight into the lent text.

use super::graph::{self, MOST_CHECKS, MOST_ENTRIES, MOST_VARIABLES, Word, number, word};
use crate::interface::{GraphBytes, NUMBER_BYTES, Refusal};

const TOP: &[u8] = b"variables checks\n";
const MIDDLE: &[u8] = b"check variable\n";
/// What a number past every limit counts as; ten times it fits u32.
const PAST_LIMITS: u32 = 10_000_000;

pub struct Read {
    pub n: usize,
    pub starts: Vec<Word>,
    pub columns: Vec<Word>,
}

pub fn read(
    text: &[u8],
    degrees: &mut [u8],
    starts_lent: usize,
    columns_lent: usize,
) -> Result<Read, Refusal> {
    let refusal = |number, place| Refusal { number, place };
    let mut rest = text.strip_prefix(TOP).ok_or(refusal(1, 1))?;
    let (n, m) = take_pair(&mut rest).ok_or(refusal(1, 2))?;
    if !(2..=MOST_VARIABLES).contains(&(n as usize)) || !(1..=MOST_CHECKS).contains(&(m as usize)) {
        return Err(refusal(2, 2));
    }
    rest = rest.strip_prefix(MIDDLE).ok_or(refusal(1, 3))?;

    let mut starts = vec![word(0)];
    let mut columns = Vec::new();
    let mut above = None;
    while !rest.is_empty() {
        let line = 4 + columns.len();
        if columns.len() == MOST_ENTRIES {
            return Err(refusal(2, line));
        }
        let entry = take_pair(&mut rest).ok_or(refusal(1, line))?;
        if entry.0 >= m || entry.1 >= n {
            return Err(refusal(3, line));
        }
        if above >= Some(entry) {
            return Err(refusal(4, line));
        }
        above = Some(entry);
        starts.resize(1 + entry.0 as usize, word(columns.len()));
        columns.push(word(entry.1 as usize));
    }
    starts.resize(1 + m as usize, word(columns.len()));
    graph::count_degrees(n as usize, &starts, &columns, degrees)?;
    if starts_lent / NUMBER_BYTES < starts.len() || columns_lent / NUMBER_BYTES < columns.len() {
        return Err(refusal(6, 0));
    }
    Ok(Read { n: n as usize, starts, columns })
}

/// Takes a line of two numbers off the front.
fn take_pair(rest: &mut &[u8]) -> Option<(u32, u32)> {
    Some((take_number(rest, b' ')?, take_number(rest, b'\n')?))
}

/// Takes a number and the byte that ends it.
pub fn take_number(rest: &mut &[u8], ending: u8) -> Option<u32> {
    let mut number = 0;
    for (index, &byte) in rest.iter().enumerate() {
        if byte == ending {
            let leading_zero = index > 1 && rest[0] == b'0';
            *rest = &rest[index + 1..];
            return (index > 0 && !leading_zero).then_some(number);
        }
        let digit = u32::from(byte.wrapping_sub(b'0'));
        if digit > 9 {
            return None;
        }
        number = (number * 10 + digit).min(PAST_LIMITS);
    }
    None
}

/// How many digits a number below 10,000,000 has.
pub fn digits(number: usize) -> usize {
    1 + usize::from(number > 9)
        + usize::from(number > 99)
        + usize::from(number > 999)
        + usize::from(number > 9_999)
        + usize::from(number > 99_999)
        + usize::from(number > 999_999)
}

/// The text's length, where nothing is refused.
pub fn measure(graph: &GraphBytes, degrees: &mut [u8], text_lent: usize) -> Result<usize, Refusal> {
    let (starts, columns) = graph::lists(graph);
    graph::check(graph.n, starts, columns, degrees)?;
    let m = starts.len() - 1;
    let mut length = TOP.len() + digits(graph.n) + digits(m) + 2 + MIDDLE.len();
    for (check, (start, end)) in graph::rows(starts).enumerate() {
        length += (digits(check) + 2) * (end - start);
    }
    for &column in columns {
        length += digits(number(column));
    }
    if text_lent < length {
        return Err(Refusal { number: 6, place: 0 });
    }
    Ok(length)
}

/// Writes a measured graph; gives the text's length.
pub fn write(graph: &GraphBytes, text: &mut [u8]) -> usize {
    let (starts, columns) = graph::lists(graph);
    let mut at = 0;
    put(text, &mut at, TOP);
    put_pair(text, &mut at, graph.n, starts.len() - 1);
    put(text, &mut at, MIDDLE);
    for (check, (start, end)) in graph::rows(starts).enumerate() {
        for &column in &columns[start..end] {
            put_pair(text, &mut at, check, number(column));
        }
    }
    at
}

pub fn put(text: &mut [u8], at: &mut usize, bytes: &[u8]) {
    text[*at..*at + bytes.len()].copy_from_slice(bytes);
    *at += bytes.len();
}

fn put_pair(text: &mut [u8], at: &mut usize, first: usize, second: usize) {
    put_number(text, at, first, b' ');
    put_number(text, at, second, b'\n');
}

pub fn put_number(text: &mut [u8], at: &mut usize, number: usize, ending: u8) {
    let end = *at + digits(number);
    let mut left = number;
    for out in text[*at..end].iter_mut().rev() {
        *out = b'0' + (left % 10) as u8;
        left /= 10;
    }
    text[end] = ending;
    *at = end + 1;
}
