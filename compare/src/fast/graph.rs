//! The graph's lists where they stand, and its check in few passes over them.

use crate::interface::{GraphBytes, NUMBER_BYTES, Refusal};

pub const MOST_VARIABLES: usize = 1_000_000;
pub const MOST_CHECKS: usize = 1_000_000;
pub const MOST_ENTRIES: usize = 4_000_000;

/// A number of a list, lowest byte first.
pub type Word = [u8; NUMBER_BYTES];

pub fn number(word: Word) -> usize {
    u32::from_le_bytes(word) as usize
}

pub fn word(number: usize) -> Word {
    (number as u32).to_le_bytes()
}

/// The starts and the columns.
pub fn lists<'a>(graph: &GraphBytes<'a>) -> (&'a [Word], &'a [Word]) {
    (graph.starts.as_chunks().0, graph.columns.as_chunks().0)
}

/// Where each row begins and ends.
pub fn rows(starts: &[Word]) -> impl Iterator<Item = (usize, usize)> {
    starts.windows(2).map(|pair| (number(pair[0]), number(pair[1])))
}

fn refusal(number: u8, place: usize) -> Refusal {
    Refusal { number, place }
}

/// The variables' degrees, counted in the lent list, where nothing is refused.
pub fn check<'a>(
    n: usize,
    starts: &[Word],
    columns: &[Word],
    degrees: &'a mut [u8],
) -> Result<&'a [Word], Refusal> {
    let counts_fit = (2..=MOST_VARIABLES).contains(&n)
        && (2..=MOST_CHECKS + 1).contains(&starts.len())
        && columns.len() <= MOST_ENTRIES;
    if !counts_fit {
        return Err(refusal(2, 0));
    }
    check_starts(starts, columns.len())?;
    // Where a row rises, its last column is its largest.
    let fits = |(start, end): (usize, usize)| {
        let row = &columns[start..end];
        row.last().is_none_or(|&last| number(last) < n) && first_fall(row).is_none()
    };
    if !rows(starts).all(fits) {
        return Err(bad_column(n, starts, columns));
    }
    count_degrees(n, starts, columns, degrees)
}

fn check_starts(starts: &[Word], entries: usize) -> Result<(), Refusal> {
    if number(starts[0]) != 0 {
        return Err(refusal(7, 0));
    }
    if let Some(index) = rows(starts).position(|(start, end)| end < start) {
        return Err(refusal(7, index + 1));
    }
    let last = starts.len() - 1;
    if number(starts[last]) != entries {
        return Err(refusal(7, last));
    }
    Ok(())
}

/// The place in a row of the first column that is not above its predecessor.
fn first_fall(row: &[Word]) -> Option<usize> {
    let falls = |pair: &[Word]| number(pair[1]) <= number(pair[0]);
    row.windows(2).position(falls).map(|index| index + 1)
}

/// 3 where a column is not below n, else 4, for lists that have one or the other.
fn bad_column(n: usize, starts: &[Word], columns: &[Word]) -> Refusal {
    if let Some(index) = columns.iter().position(|&column| number(column) >= n) {
        return refusal(3, index);
    }
    let fall = |(start, end)| Some(start + first_fall(&columns[start..end])?);
    refusal(4, rows(starts).find_map(fall).expect("a column is out of order"))
}

/// 6 for the list of degrees, then 5, of lists with nothing else wrong.
pub fn count_degrees<'a>(
    n: usize,
    starts: &[Word],
    columns: &[Word],
    degrees: &'a mut [u8],
) -> Result<&'a [Word], Refusal> {
    let Some(degrees) = degrees.as_chunks_mut().0.get_mut(..n) else {
        return Err(refusal(6, 0));
    };
    degrees.fill(word(0));
    for &column in columns {
        let degree = &mut degrees[number(column)];
        *degree = word(number(*degree) + 1);
    }
    if let Some(check) = rows(starts).position(|(start, end)| !(2..=64).contains(&(end - start))) {
        return Err(refusal(5, check));
    }
    match degrees.iter().position(|&degree| !(1..=32).contains(&number(degree))) {
        Some(variable) => Err(refusal(5, starts.len() - 1 + variable)),
        None => Ok(degrees),
    }
}
