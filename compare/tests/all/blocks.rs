//! Block sheets read and written: small ones with their whole expansions, and as many entries as
//! there can be. Every answer is the paper's reading and the fast one's.

use crate::common::blocks::*;
use crate::common::*;
use compare::fast::Fast;
use compare::interface::{Answer, BlocksBytes, Decoder, number_bytes};
use compare::paper::blocks::{self, text_of};
use compare::paper::{Limits, Sheet};

/// A graph by its rows.
fn graph(n: usize, rows: &[&[u32]]) -> Sheet {
    let mut sheet = Sheet { n, starts: vec![0], columns: Vec::new() };
    for row in rows {
        sheet.columns.extend_from_slice(row);
        sheet.starts.push(sheet.columns.len() as u32);
    }
    sheet
}

/// The numbers, their text, expansion and degrees, both ways.
fn both_ways(
    numbers: (usize, usize, usize),
    entries: &[[u32; 3]],
    text: &[&str],
    sheet: &Sheet,
    degrees: &[u32],
) {
    let text = lines(&[&TOP[..1], &text[..1], &TOP[2..], &text[1..]].concat());
    let (starts, columns) = (sheet.starts.len(), sheet.columns.len());
    let read = read_into(&text, degrees.len(), starts, columns);
    assert_eq!(read, (Ok(sheet.clone()), degrees.to_vec()));
    let longer = [degrees, &[BEFORE; 2]].concat();
    assert_eq!(
        read_into(&text, longer.len(), starts + 1, columns + 3),
        (Ok(sheet.clone()), longer)
    );
    let written = write_into(numbers, entries, degrees.len(), text.len());
    assert_eq!(written, (Ok(text.clone()), degrees.to_vec()));
    assert_eq!(write_into(numbers, entries, degrees.len(), text.len() + 5).0, Ok(text));
}

#[test]
fn one_row_of_blocks() {
    // Check r has 0 + (r + 1 mod 3) and 3 + (r + 2 mod 3).
    let sheet = graph(6, &[&[1, 5], &[2, 3], &[0, 4]]);
    assert_eq!(
        (&sheet.starts[..], &sheet.columns[..]),
        (&[0, 2, 4, 6][..], &[1, 5, 2, 3, 0, 4][..])
    );
    let entries = [[0, 0, 1], [0, 1, 2]];
    both_ways((3, 1, 2), &entries, &["3 1 2", "0 0 1", "0 1 2"], &sheet, &[1; 6]);
}

#[test]
fn two_rows_of_blocks() {
    let sheet = graph(6, &[&[0, 3], &[1, 2], &[2, 5], &[3, 4]]);
    let entries = [[0, 0, 0], [0, 1, 1], [1, 1, 0], [1, 2, 1]];
    let text = ["2 2 3", "0 0 0", "0 1 1", "1 1 0", "1 2 1"];
    both_ways((2, 2, 3), &entries, &text, &sheet, &[1, 1, 2, 2, 1, 1]);
}

#[test]
fn rows_of_unlike_degrees() {
    let rows: [&[u32]; 10] = [
        &[4, 5, 13],
        &[0, 6, 14],
        &[1, 7, 10],
        &[2, 8, 11],
        &[3, 9, 12],
        &[0, 11],
        &[1, 12],
        &[2, 13],
        &[3, 14],
        &[4, 10],
    ];
    let entries = [[0, 0, 4], [0, 1, 0], [0, 2, 3], [1, 0, 0], [1, 2, 1]];
    let text = ["5 2 3", "0 0 4", "0 1 0", "0 2 3", "1 0 0", "1 2 1"];
    let degrees = [[2; 5], [1; 5], [2; 5]].concat();
    both_ways((5, 2, 3), &entries, &text, &graph(15, &rows), &degrees);
}

#[test]
fn blocks_of_one() {
    // The ordinary example.
    let sheet = graph(3, &[&[0, 1], &[1, 2]]);
    let entries = [[0, 0, 0], [0, 1, 0], [1, 1, 0], [1, 2, 0]];
    let text = ["1 2 3", "0 0 0", "0 1 0", "1 1 0", "1 2 0"];
    both_ways((1, 2, 3), &entries, &text, &sheet, &[1, 2, 1]);
}

#[test]
fn the_most_blocks() {
    // 4,000,000 entries: entry (i, j) is shifted by 4i + j.
    let entries: Vec<[u32; 3]> = (0..16).map(|at| [at / 4, at % 4, at]).collect();
    let numbers = (250_000, 4, 4);
    let (written, degrees) = write_into(numbers, &entries, 1_000_001, 1_000);
    let text = written.unwrap();
    assert!(degrees[..1_000_000] == vec![4; 1_000_000] && degrees[1_000_000] == BEFORE);
    let (sheet, left) = read_into(&text, 1_000_000, 1_000_001, 4_000_000);
    let sheet = sheet.unwrap();
    assert!(left == degrees[..1_000_000]);
    assert_eq!(
        (sheet.n, sheet.starts.len(), sheet.columns.len()),
        (1_000_000, 1_000_001, 4_000_000)
    );
    assert!((0..=1_000_000).all(|check| sheet.starts[check] == 4 * check as u32));
    assert_eq!(sheet.columns[..4], [0, 250_001, 500_002, 750_003]);
    // Check 249,999 has r = 249,999, and check 250,000 r = 0 in row 1.
    assert_eq!(
        sheet.columns[999_996..][..8],
        [249_999, 250_000, 500_001, 750_002, 4, 250_005, 500_006, 750_007]
    );
    assert_eq!(sheet.columns[3_999_996..], [11, 250_012, 500_013, 750_014]);
    // Line 20 is too many before its form, with or without LF.
    for extra in ["3 3 0\n", "?", "\n", "9 9 9\n", "0", "3 3 250000\n"] {
        assert_eq!(read(&[&text[..], extra.as_bytes()].concat()), refused(2, 20), "{extra:?}");
    }
    for extra in [[3, 3, 0], [0, 0, 0], [9, 9, 9], [u32::MAX; 3]] {
        let more = [&entries[..], &[extra]].concat();
        assert_eq!(write(numbers, &more), refused(2, 20), "{extra:?}");
    }
    // But the line above it is judged for itself.
    let lacking = lines(&["size rows columns", "250000 4 4", "row column shift"]);
    let above: Vec<u8> = text_of(&blocks_of(numbers, &entries[..15]));
    assert!(above.starts_with(&lacking));
    for (last, number) in [("?\n", 1), ("4 3 0\n", 3), ("3 3 250000\n", 17), ("3 2 0\n", 4)] {
        assert_eq!(read(&[&above[..], last.as_bytes(), b"?"].concat()), refused(number, 19));
    }
}

#[test]
fn entries_that_reach_their_limit_or_not() {
    let entries = ["0 0 0", "0 1 1", "0 2 2", "1 0 2", "1 1 1", "1 2 0"];
    let answer = |most: usize, count: usize, more: &[u8]| {
        let limits = Limits { variables: 9, checks: 6, entries: most };
        let text = [&lines(&[&TOP[..], &entries[..count]].concat()), more].concat();
        blocks::read(limits, &text, &mut [0; 9], 1_000, 1_000).map(|sheet| sheet.columns.len())
    };
    assert_eq!(answer(18, 6, b""), Ok(18));
    assert_eq!(answer(20, 6, b""), Ok(18));
    assert_eq!(answer(20, 6, b"?"), refused(2, 10));
    assert_eq!(answer(18, 6, b"?"), refused(2, 10));
    assert_eq!(answer(21, 6, b"?"), refused(1, 10));
    // The sixth entry takes E from 15 past 17.
    assert_eq!(answer(17, 6, b""), refused(2, 9));
    assert_eq!(answer(17, 5, b"?\n?"), refused(2, 9));
    assert_eq!(answer(2, 1, b""), refused(2, 4));
    assert_eq!(answer(2, 0, b""), refused(5, 0));
}

#[test]
fn a_part_of_an_entry_is_none() {
    let mut entries = number_bytes([[0, 0, 1], [0, 1, 2]].as_flattened());
    let expected = lines(&["size rows columns", "3 1 2", "row column shift", "0 0 1", "0 1 2"]);
    for more in 0..12 {
        let given = BlocksBytes { size: 3, rows: 1, columns: 2, entries: &entries };
        let mut text = vec![0; expected.len()];
        let answer = Fast.write_blocks(&given, &mut [0; 24], &mut text);
        assert_eq!((answer, &text), (Answer::Accepted(expected.len()), &expected), "{more}");
        entries.push(255);
    }
    // The twelfth byte makes it an entry, out of range.
    let given = BlocksBytes { size: 3, rows: 1, columns: 2, entries: &entries };
    assert_eq!(Fast.write_blocks(&given, &mut [0; 24], &mut [0; 99]), Answer::Refused(3));
    assert_eq!(Fast.write_blocks_place(&given, &mut [0; 24], 99), 6);
}
