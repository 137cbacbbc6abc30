//! Calls on block sheets, each by the paper's reading and by the fast one.

use super::lines;
use compare::fast::Fast;
use compare::interface::{
    Answer, BlocksBytes, Decoder, NUMBER_BYTES, SheetCounts, number_bytes, numbers,
};
use compare::paper::blocks;
use compare::paper::{Blocks, Entry, Limits, Refusal, Sheet};

/// What the numbers of the lists are before a call.
pub const BEFORE: u32 = 0x0a0b_0c0d;

pub const TOP: [&str; 3] = ["size rows columns", "3 2 3", "row column shift"];
pub const ENTRIES: [&str; 5] = ["0 0 1", "0 1 0", "1 0 0", "1 1 2", "1 2 1"];

pub type Answered<T> = (Result<T, Refusal>, Vec<u32>);

/// A text read with so many numbers lent for each list: the graph or the refusal, and the
/// degrees afterwards.
pub fn read_into(text: &[u8], degrees: usize, starts: usize, columns: usize) -> Answered<Sheet> {
    let before = [degrees, starts, columns].map(|count| vec![BEFORE; count]);
    let [mut left, _, _] = before.clone();
    let room = |count: usize| NUMBER_BYTES * count;
    let answer = blocks::read(Limits::LENT, text, &mut left, room(starts), room(columns));

    let [mut degrees, mut starts, mut columns] = before.each_ref().map(|list| number_bytes(list));
    let place = Fast.read_blocks_place(text, &mut degrees, starts.len(), columns.len());
    assert_eq!(numbers(&degrees), left);
    degrees = number_bytes(&before[0]);
    let fast = Fast.read_blocks(text, &mut degrees, &mut starts, &mut columns);
    assert_eq!(numbers(&degrees), left);
    let (starts, columns) = (numbers(&starts), numbers(&columns));
    match &answer {
        Ok(sheet) => {
            let counts = SheetCounts { n: sheet.n, m: sheet.starts.len() - 1 };
            assert_eq!((fast, place), (Answer::Accepted(counts), 0));
            assert!(starts.starts_with(&sheet.starts) && columns.starts_with(&sheet.columns));
            let past = [&starts[sheet.starts.len()..], &columns[sheet.columns.len()..]].concat();
            assert!(past.iter().all(|&number| number == BEFORE));
        }
        Err(refusal) => {
            assert_eq!((fast, place), (Answer::Refused(refusal.number), refusal.place));
            assert!(starts == before[1] && columns == before[2]);
        }
    }
    (answer, left)
}

/// Read with lists that are long enough for a small sheet.
pub fn read(text: &[u8]) -> Result<Sheet, Refusal> {
    read_into(text, 1_000, 1_000, 1_000).0
}

pub fn read_entries(entries: &[&str]) -> Result<Sheet, Refusal> {
    read(&lines(&[&TOP[..], entries].concat()))
}

pub fn read_numbers(numbers: &str) -> Result<Sheet, Refusal> {
    read(&lines(&[&[TOP[0], numbers, TOP[2]], &ENTRIES[..]].concat()))
}

/// Numbers written with so many numbers of degrees and so many bytes of text lent.
pub fn write_into(
    (size, rows, columns): (usize, usize, usize),
    entries: &[[u32; 3]],
    degrees: usize,
    text: usize,
) -> Answered<Vec<u8>> {
    let numbers_given = blocks_of((size, rows, columns), entries);
    let mut left = vec![BEFORE; degrees];
    let answer = blocks::write(Limits::LENT, &numbers_given, &mut left, text);

    let entries = number_bytes(entries.as_flattened());
    let given = BlocksBytes { size, rows, columns, entries: &entries };
    let before = number_bytes(&vec![BEFORE; degrees]);
    let (mut degrees, mut written) = (before.clone(), vec![b'#'; text]);
    let place = Fast.write_blocks_place(&given, &mut degrees, text);
    assert_eq!(numbers(&degrees), left);
    degrees = before;
    let fast = Fast.write_blocks(&given, &mut degrees, &mut written);
    assert_eq!(numbers(&degrees), left);
    let (expected, length) = match &answer {
        Ok(text) => ((Answer::Accepted(text.len()), 0), text.len()),
        Err(refusal) => ((Answer::Refused(refusal.number), refusal.place), 0),
    };
    assert_eq!((fast, place), expected);
    assert_eq!(written[..length], answer.as_ref().map_or(&b""[..], |text| text)[..]);
    assert!(written[length..].iter().all(|&byte| byte == b'#'));
    (answer, left)
}

pub fn write(numbers: (usize, usize, usize), entries: &[[u32; 3]]) -> Result<Vec<u8>, Refusal> {
    write_into(numbers, entries, 1_000, 1_000).0
}

pub fn blocks_of((size, rows, columns): (usize, usize, usize), entries: &[[u32; 3]]) -> Blocks {
    let entry = |parts: &[u32; 3]| {
        let [row, column, shift] = parts.map(|part| part as usize);
        Entry { row, column, shift }
    };
    Blocks { size, rows, columns, entries: entries.iter().map(entry).collect() }
}
