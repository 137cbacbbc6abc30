//! Sheets read and written: the example's, and each refusal with its line.

use crate::common::*;
use compare::interface::NUMBER_BYTES;
use compare::paper::{Graph, Limits, Refusal, Sheet, read_sheet, write_sheet};

const TOP: [&str; 3] = ["variables checks", "3 2", "check variable"];
const ENTRIES: [&str; 4] = ["0 0", "0 1", "1 1", "1 2"];

fn example() -> Vec<u8> {
    lines(&[&TOP[..], &ENTRIES].concat())
}

/// The sheet with these lines, read with long enough lists.
fn read(text: &[u8]) -> Result<Sheet, Refusal> {
    read_within(Limits::LENT, text)
}

fn read_within(limits: Limits, text: &[u8]) -> Result<Sheet, Refusal> {
    let (starts, columns) = (NUMBER_BYTES * 1_000_001, NUMBER_BYTES * 4_000_000);
    read_sheet(limits, text, &mut vec![0; 1_000_000], starts, columns)
}

/// A graph written with a long enough list of degrees.
fn write(graph: &Graph, text: usize) -> Result<Vec<u8>, Refusal> {
    write_sheet(Limits::LENT, graph, &mut degrees_of(graph.n), text)
}

fn read_entries(entries: &[&str]) -> Result<Sheet, Refusal> {
    read(&lines(&[&TOP[..], entries].concat()))
}

fn read_counts(counts: &str) -> Result<Sheet, Refusal> {
    read(&lines(&[&[TOP[0], counts, TOP[2]], &ENTRIES[..]].concat()))
}

#[test]
fn example_both_ways() {
    let sheet = Sheet { n: 3, starts: vec![0, 2, 4], columns: vec![0, 1, 1, 2] };
    assert_eq!(read(&example()), Ok(sheet));
    assert_eq!(write(&example_graph(), 1_000), Ok(example()));
}

#[test]
fn other_forms() {
    assert_eq!(read(b""), refused(1, 1));
    assert_eq!(read(b"\n"), refused(1, 1));
    assert_eq!(read(b"variables checks"), refused(1, 1));
    assert_eq!(read(b"variables checks\r\n3 2\n"), refused(1, 1));
    assert_eq!(read(b"Variables checks\n"), refused(1, 1));
    assert_eq!(read(b"variables checks \n"), refused(1, 1));
    assert_eq!(read(b"variables checks\n"), refused(1, 2));
    assert_eq!(read(b"variables checks\n3 2"), refused(1, 2));
    assert_eq!(read(b"variables checks\n3 2\n"), refused(1, 3));
    assert_eq!(read(b"variables checks\n3 2\ncheck variable"), refused(1, 3));
    assert_eq!(read(b"variables checks\n3 2\ncheck  variable\n"), refused(1, 3));
    let forms = ["", "3", "3 ", " 3 2", "3  2", "3 2 ", "3 2 1", "03 2", "3 02", "00 2", "+3 2"];
    let more = ["3\t2", "-3 2", "3 2\r", "3,2", "3 x", "0x3 2", "3.0 2", "３ 2", "9999 01"];
    for counts in forms.into_iter().chain(more) {
        assert_eq!(read_counts(counts), refused(1, 2), "{counts:?}");
    }
    for entry in forms.into_iter().chain(more) {
        let entries = ["0 0", "0 1", entry, "1 2"];
        assert_eq!(read_entries(&entries), refused(1, 6), "{entry:?}");
    }
}

#[test]
fn text_ending_inside_a_line() {
    let text = example();
    // The last line without LF, and cut at each byte before.
    for length in text.len() - 3..text.len() {
        assert_eq!(read(&text[..length]), refused(1, 7));
    }
    // Ending with line 6: variable 2 stands in no check and check 1 has one entry.
    assert_eq!(read(&text[..text.len() - 4]), refused(5, 1));
    // Out of range or order, but without LF.
    assert_eq!(read(&[&text[..], b"9 9"].concat()), refused(1, 8));
    assert_eq!(read(&[&text[..], b"0 0"].concat()), refused(1, 8));
    assert_eq!(read(&[&text[..], b"\n"].concat()), refused(1, 8));
}

#[test]
fn counts_outside_limits() {
    let zeros = "0".repeat(40);
    let long = [format!("1{zeros} 2"), format!("3 1{zeros}")];
    let wrapped = ["4294967299 2", "3 4294967298", "18446744073709551619 2"];
    let near = ["0 2", "1 2", "1000001 2", "3 0", "3 1000001", "0 0"];
    let counts = near.into_iter().chain(wrapped);
    for counts in counts.chain(long.iter().map(String::as_str)) {
        assert_eq!(read_counts(counts), refused(2, 2), "{counts:?}");
    }
    // At the limits the entries are judged: 3 variables, 1,000,000 checks leave check 2 empty.
    assert_eq!(read_counts("3 1000000"), refused(5, 2));
    assert_eq!(read_counts("1000000 2"), refused(5, 2 + 3));
    // As 3 and 2 to whoever looks at 16 bits.
    assert_eq!(read_counts("65539 2"), refused(5, 2 + 3));
    assert_eq!(read_counts("3 65538"), refused(5, 2));
    assert_eq!(read_counts("2 2"), refused(3, 7));
    assert_eq!(read_counts("3 1"), refused(3, 6));
    // Line 2 is judged before line 3.
    assert_eq!(read(b"variables checks\n1 2\n?"), refused(2, 2));
}

#[test]
fn entries_out_of_range_or_order() {
    assert_eq!(read_entries(&["0 0", "0 3"]), refused(3, 5));
    assert_eq!(read_entries(&["0 0", "2 0"]), refused(3, 5));
    assert_eq!(read_entries(&["0 0", "65536 1"]), refused(3, 5));
    assert_eq!(read_entries(&["0 0", "0 4294967297"]), refused(3, 5));
    assert_eq!(read_entries(&["0 0", &format!("0 {}", "1".repeat(500))]), refused(3, 5));
    assert_eq!(read_entries(&["0 0", "0 0"]), refused(4, 5));
    assert_eq!(read_entries(&["0 1", "0 0"]), refused(4, 5));
    assert_eq!(read_entries(&["1 1", "0 2"]), refused(4, 5));
    // 3 before 4 on one line, but the top line first.
    assert_eq!(read_entries(&["1 1", "0 3"]), refused(3, 5));
    assert_eq!(read_entries(&["1 1", "0 0", "9 9"]), refused(4, 5));
    // Lines before degrees.
    assert_eq!(read_entries(&["0 0", "1 0", "?"]), refused(1, 6));
}

#[test]
fn degrees_after_the_last_line() {
    assert_eq!(read_entries(&[]), refused(5, 0));
    assert_eq!(read_entries(&["0 0", "0 1"]), refused(5, 1));
    assert_eq!(read_entries(&["1 0", "1 1"]), refused(5, 0));
    assert_eq!(read_entries(&["0 0", "0 1", "1 0", "1 1"]), refused(5, 2 + 2));
    // Before 6.
    assert_eq!(read_sheet(Limits::LENT, &lines(&TOP), &mut [0; 3], 0, 0), refused(5, 0));
}

#[test]
fn lists_too_short() {
    let lent = |starts, columns| {
        read_sheet(Limits::LENT, &example(), &mut [0; 3], starts, columns).map(|_| ())
    };
    let (starts, columns) = (3 * NUMBER_BYTES, 4 * NUMBER_BYTES);
    assert_eq!(lent(starts, columns), Ok(()));
    assert_eq!(lent(starts - 1, columns), refused(6, 0));
    assert_eq!(lent(starts, columns - 1), refused(6, 0));
    assert_eq!(lent(0, 0), refused(6, 0));
}

/// So many checks of degree 4 on as many variables: check c has c, c + 1, c + 2, c + 3, taken
/// round.
fn round_sheet(count: usize) -> Vec<u8> {
    let mut text = format!("variables checks\n{count} {count}\ncheck variable\n");
    for check in 0..count {
        let mut row: Vec<usize> = (0..4).map(|step| (check + step) % count).collect();
        row.sort();
        for variable in row {
            text += &format!("{check} {variable}\n");
        }
    }
    text.into_bytes()
}

/// The fullest sheet with its last LF a space, and then a line more.
fn damaged_at_its_end(full: &[u8]) -> Vec<u8> {
    [&full[..full.len() - 1], b" 0 0\n"].concat()
}

#[test]
fn one_entry_too_many() {
    let full = round_sheet(1_000_000);
    // The lines at the top have 48 bytes. The numbers below 1,000,000 have 10 + 2 × 90 +
    // 3 × 900 + 4 × 9,000 + 5 × 90,000 + 6 × 900,000 = 5,888,890 digits; each stands in 8
    // places, and a line has a space and an LF.
    assert_eq!(full.len(), 48 + 8 * 5_888_890 + 2 * 4_000_000);
    let sheet = read(&full).unwrap();
    assert_eq!((sheet.starts.len(), sheet.columns.len()), (1_000_001, 4_000_000));
    assert!(write(&sheet.graph(), full.len()) == Ok(full.clone()));
    assert_eq!(write(&sheet.graph(), full.len() - 1), refused(6, 0));
    // Line 4,000,004 is too many before its form, with or without LF.
    for extra in ["9 9\n", "?", "999999 999999"] {
        assert_eq!(read(&[&full[..], extra.as_bytes()].concat()), refused(2, 4_000_004));
    }
    // But an earlier line is judged first.
    assert_eq!(read(&damaged_at_its_end(&full)), refused(1, 4_000_003));
}

#[test]
fn one_entry_too_many_for_the_program() {
    let within = |text: &[u8]| read_within(Limits::PROGRAM, text);
    let full = round_sheet(8_192);
    let sheet = within(&full).unwrap();
    assert_eq!((sheet.starts.len(), sheet.columns.len()), (8_193, 32_768));
    // Line 32,772 is too many before its form, with or without LF.
    for extra in ["9 9\n", "\n", "?", "8191 8191", "\r", "0"] {
        assert_eq!(within(&[&full[..], extra.as_bytes()].concat()), refused(2, 32_772));
    }
    assert_eq!(within(&damaged_at_its_end(&full)), refused(1, 32_771));
    // A lent list takes that line for what it is: not after "8191 8191", or of another form.
    assert_eq!(read(&[&full[..], b"9 9\n"].concat()), refused(4, 32_772));
    assert_eq!(read(&[&full[..], b"?\n"].concat()), refused(1, 32_772));
    let counts = |n: usize| {
        let entries = "0 0\n0 1\n";
        within(format!("variables checks\n{n} 1\ncheck variable\n{entries}").as_bytes())
    };
    assert_eq!(counts(8_192), refused(5, 1 + 2));
    assert_eq!(counts(8_193), refused(2, 2));
}

#[test]
fn writing() {
    let text = example();
    assert_eq!(write(&example_graph(), text.len()), Ok(text.clone()));
    assert_eq!(write(&example_graph(), text.len() - 1), refused(6, 0));
    assert_eq!(write(&example_graph(), 0), refused(6, 0));
    // The graph's refusals come first.
    let refused_graph =
        |n, starts: &[u32], columns: &[u32]| write(&Graph { n, starts, columns }, 0);
    assert_eq!(refused_graph(3, &[], &[0, 1, 1, 2]), refused(2, 0));
    assert_eq!(refused_graph(3, &[0, 2, 3], &[0, 1, 1, 2]), refused(7, 2));
    assert_eq!(refused_graph(2, &[0, 2, 4], &[0, 1, 1, 2]), refused(3, 3));
    assert_eq!(refused_graph(3, &[0, 2, 4], &[1, 0, 1, 2]), refused(4, 1));
    assert_eq!(refused_graph(4, &[0, 2, 4], &[0, 1, 1, 2]), refused(5, 2 + 3));
    // Numbers of one to three digits: 100 checks, each of two neighbours.
    let n = 101;
    let starts: Vec<u32> = (0..=100).map(|check| 2 * check).collect();
    let columns: Vec<u32> = (0..100).flat_map(|check| [check, check + 1]).collect();
    let written = write(&Graph { n, starts: &starts, columns: &columns }, 10_000).unwrap();
    assert!(written.starts_with(b"variables checks\n101 100\ncheck variable\n0 0\n0 1\n1 1\n"));
    assert!(written.ends_with(b"98 98\n98 99\n99 99\n99 100\n"));
}

#[test]
fn limits_of_the_call() {
    let read = |variables, checks, entries| {
        let limits = Limits { variables, checks, entries };
        read_within(limits, &example()).map(|_| ())
    };
    assert_eq!(read(3, 2, 4), Ok(()));
    assert_eq!(read(2, 2, 4), refused(2, 2));
    assert_eq!(read(3, 1, 4), refused(2, 2));
    assert_eq!(read(3, 2, 3), refused(2, 7));
    let written = |variables, checks, entries| {
        let limits = Limits { variables, checks, entries };
        write_sheet(limits, &example_graph(), &mut [0; 3], 1_000).map(|_| ())
    };
    assert_eq!(written(3, 2, 4), Ok(()));
    assert_eq!(written(2, 2, 4), refused(2, 0));
    assert_eq!(written(3, 1, 4), refused(2, 0));
    assert_eq!(written(3, 2, 3), refused(2, 0));
}

/// 70,000 checks on 70,001 variables, each of two neighbours: no number of it is cut short.
#[test]
fn numbers_past_16_bits() {
    let starts: Vec<u32> = (0..=70_000).map(|check| 2 * check).collect();
    let columns: Vec<u32> = (0..70_000).flat_map(|check| [check, check + 1]).collect();
    let graph = Graph { n: 70_001, starts: &starts, columns: &columns };
    let text = write(&graph, usize::MAX).unwrap();
    assert!(text.ends_with(b"\n69999 69999\n69999 70000\n"));
    let sheet = read(&text).unwrap();
    assert_eq!((sheet.n, &sheet.starts, &sheet.columns), (70_001, &starts, &columns));
    let limits = Limits { variables: 70_001, checks: 70_000, entries: 140_000 };
    let more = [&text[..], b"?"].concat();
    assert_eq!(read_within(limits, &text), Ok(sheet));
    assert_eq!(read_within(limits, &more), refused(2, 140_004));
    let degrees = &mut degrees_of(70_001);
    assert_eq!(write_sheet(Limits::PROGRAM, &graph, degrees, usize::MAX), refused(2, 0));
    assert_eq!(read_within(Limits::PROGRAM, &text), refused(2, 2));
}
