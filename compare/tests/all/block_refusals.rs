//! What the calls on block sheets turn down: numbers, places and their order. Every answer is the
//! paper's reading and the fast one's.

use crate::common::blocks::*;
use crate::common::*;
use compare::paper::Limits;
use compare::paper::blocks;

#[test]
fn other_forms() {
    assert_eq!(read(b""), refused(1, 1));
    assert_eq!(read(b"\n"), refused(1, 1));
    assert_eq!(read(b"size rows columns"), refused(1, 1));
    assert_eq!(read(b"size rows columns \n"), refused(1, 1));
    assert_eq!(read(b"Size rows columns\n"), refused(1, 1));
    assert_eq!(read(b"size rows columns\r\n"), refused(1, 1));
    // An ordinary sheet.
    assert_eq!(read(b"variables checks\n3 2\ncheck variable\n0 0\n0 1\n"), refused(1, 1));
    assert_eq!(read(b"size rows columns\n"), refused(1, 2));
    assert_eq!(read(b"size rows columns\n3 2 3"), refused(1, 2));
    assert_eq!(read(b"size rows columns\n0 2 3"), refused(1, 2));
    assert_eq!(read(b"size rows columns\n3 2 3\n"), refused(1, 3));
    assert_eq!(read(b"size rows columns\n3 2 3\nrow column shift"), refused(1, 3));
    assert_eq!(read(b"size rows columns\n3 2 3\nrow  column shift\n"), refused(1, 3));
    let forms = ["", "3 2", "3 2 3 ", " 3 2 3", "3  2 3", "3 2  3", "3 2 3 1", "03 2 3", "3 2 03"];
    let more = ["00 2 3", "+3 2 3", "3\t2 3", "-3 2 3", "3 2 3\r", "3 2 x", "0x3 2 3", "０ 2 3"];
    for form in forms.into_iter().chain(more) {
        assert_eq!(read_numbers(form), refused(1, 2), "{form:?}");
        let entries = ["0 0 1", "0 1 0", form, "1 1 2"];
        assert_eq!(read_entries(&entries), refused(1, 6), "{form:?}");
    }
    // The last line cut at each byte; a line that begins.
    let text = lines(&[&TOP[..], &ENTRIES].concat());
    for length in text.len() - 5..text.len() {
        assert_eq!(read(&text[..length]), refused(1, 8));
    }
    for more in ["\n", "1 2 1", "9 9 9", "\0"] {
        assert_eq!(read(&[&text[..], more.as_bytes()].concat()), refused(1, 9), "{more:?}");
    }
}

#[test]
fn size_and_counts() {
    let long = format!("1{}", "0".repeat(60));
    // A size of 0 before n and m, whatever they are.
    for counts in ["2 3", "0 0", "1000001 3", "2 18446744073709551616"] {
        assert_eq!(read_numbers(&format!("0 {counts}")), refused(17, 2), "{counts}");
    }
    assert_eq!(read_numbers(&format!("0 {long} {long}")), refused(17, 2));
    let past = ["3 0 3", "3 2 0", "1 2 1", "1000001 1 1", "1000000 1 2", "1000000 2 1"];
    let products = ["500000 2 3", "500000 3 2", "333334 1 3", "3 333334 3", "3 2 333334"];
    let wrapped = [
        "4294967299 2 3",
        "3 4294967298 3",
        "4611686018427387905 4 4",
        "4294967296 4294967296 4294967296",
    ];
    let huge = [format!("{long} 2 3"), format!("3 {long} 3"), format!("3 2 {long}")];
    let none = [format!("{long} 0 3"), format!("{long} 2 0"), format!("{long} 0 0")];
    let listed = past.into_iter().chain(products).chain(wrapped);
    for numbers in listed.chain(huge.iter().chain(&none).map(String::as_str)) {
        assert_eq!(read_numbers(numbers), refused(2, 2), "{numbers:?}");
    }
    // Line 2 is judged before line 3, and at the limits line 3 is looked at.
    assert_eq!(read(b"size rows columns\n0 2 3\n?"), refused(17, 2));
    assert_eq!(read(b"size rows columns\n1 2 1\n?"), refused(2, 2));
    for numbers in ["1000000 1 1", "500000 2 2", "1 1000000 1000000", "2 1 1", "1 1 2"] {
        let text = format!("size rows columns\n{numbers}\n?\n");
        assert_eq!(read(text.as_bytes()), refused(1, 3), "{numbers}");
    }
    // The same of the writer.
    assert_eq!(write((0, 2, 3), &[]), refused(17, 2));
    assert_eq!(write((0, 0, usize::MAX), &[[9, 9, 9]]), refused(17, 2));
    let most = usize::MAX;
    for numbers in [(3, 0, 3), (3, 2, 0), (1, 2, 1), (1_000_001, 1, 1), (1_000_000, 1, 2)] {
        assert_eq!(write(numbers, &[[9, 9, 9]]), refused(2, 2), "{numbers:?}");
    }
    for numbers in [(most, 0, 0), (most, 1, 1), (1 << 62 | 1, 4, 4), (1 << 63, 2, 2), (3, 1, most)]
    {
        assert_eq!(write(numbers, &[]), refused(2, 2), "{numbers:?}");
    }
}

#[test]
fn entries_in_order_of_their_refusals() {
    let read = |entry: &str| read_entries(&["0 0 1", "0 1 0", "1 0 0", entry, "?"]);
    assert_eq!(read("1 1 2"), refused(1, 8));
    assert_eq!(read("2 1 0"), refused(3, 7));
    assert_eq!(read("1 3 0"), refused(3, 7));
    assert_eq!(read("1 1 3"), refused(17, 7));
    assert_eq!(read("1 0 0"), refused(4, 7));
    assert_eq!(read("0 2 0"), refused(4, 7));
    // 3 before 17 before 4.
    assert_eq!(read("0 3 3"), refused(3, 7));
    assert_eq!(read("0 3 0"), refused(3, 7));
    assert_eq!(read("2 0 9"), refused(3, 7));
    assert_eq!(read("1 0 3"), refused(17, 7));
    assert_eq!(read("0 0 99"), refused(17, 7));
    // A pair a second time, with its shift or another.
    assert_eq!(read("1 0 2"), refused(4, 7));
    // Numbers too long for any limit have form.
    let long = "18446744073709551616";
    assert_eq!(read(&format!("{long} 1 0")), refused(3, 7));
    assert_eq!(read(&format!("1 {long} 0")), refused(3, 7));
    assert_eq!(read(&format!("1 1 {long}")), refused(17, 7));
    assert_eq!(read(&format!("0 0 {long}")), refused(17, 7));
    assert_eq!(read(&format!("{long} {long} 0{long}")), refused(1, 7));
    assert_eq!(read("1 1 4294967296"), refused(17, 7));
    // The top line first.
    assert_eq!(read_entries(&["0 0 1", "0 0 1", "9 9 9"]), refused(4, 5));

    let above = [[0, 0, 1], [0, 1, 0], [1, 0, 0]];
    let write = |entry: [u32; 3]| write((3, 2, 3), &[&above[..], &[entry, [9, 9, 9]]].concat());
    assert_eq!(write([1, 1, 2]), refused(3, 8));
    assert_eq!(write([2, 1, 0]), refused(3, 7));
    assert_eq!(write([1, 3, 0]), refused(3, 7));
    assert_eq!(write([1, 1, 3]), refused(17, 7));
    assert_eq!(write([1, 0, 2]), refused(4, 7));
    assert_eq!(write([0, 3, 3]), refused(3, 7));
    assert_eq!(write([0, 0, 3]), refused(17, 7));
    assert_eq!(write([u32::MAX, 0, u32::MAX]), refused(3, 7));
    assert_eq!(write([1, 1, u32::MAX]), refused(17, 7));
}

/// The text and both calls' numbers without some of the entries: n is 9, m is 6.
fn of_entries(kept: &[usize]) -> (Vec<u8>, Vec<[u32; 3]>) {
    let parsed = |entry: &str| {
        let parts: Vec<u32> = entry.split(' ').map(|part| part.parse().unwrap()).collect();
        [parts[0], parts[1], parts[2]]
    };
    let entries: Vec<&str> = kept.iter().map(|&at| ENTRIES[at]).collect();
    let text = lines(&[&TOP[..], &entries].concat());
    (text, entries.into_iter().map(parsed).collect())
}

#[test]
fn degrees_after_the_last_line() {
    let (two, one, none) = ([2; 3], [1; 3], [0; 3]);
    let cases = [
        // Nothing; row 1 is empty; row 0 has one entry; column 2 has none.
        (&[][..], (5, 0), [none, none, none]),
        (&[0, 1], (5, 3), [one, one, none]),
        (&[0, 2, 3, 4], (5, 0), [two, one, one]),
        (&[0, 1, 2, 3], (5, 6 + 6), [two, two, none]),
        // Nothing is wrong with the degrees.
        (&[0, 1, 3, 4], (6, 0), [one, two, one]),
    ];
    for (kept, (number, place), degrees) in cases {
        let (text, entries) = of_entries(kept);
        let degrees = [&degrees.concat()[..], &[BEFORE]].concat();
        // 5 before the 6 of the other lists, the 6 of the degrees before 5.
        let read = read_into(&text, 10, 0, 0);
        assert_eq!(read, (refused(number, place), degrees.clone()), "{kept:?}");
        let written = write_into((3, 2, 3), &entries, 10, 0);
        assert_eq!(written, (refused(number, place), degrees), "{kept:?}");
        for short in [0, 3, 8] {
            let unchanged = vec![BEFORE; short];
            assert_eq!(read_into(&text, short, 100, 100), (refused(6, 0), unchanged.clone()));
            let written = write_into((3, 2, 3), &entries, short, 1_000);
            assert_eq!(written, (refused(6, 0), unchanged));
        }
    }
}

#[test]
fn degrees_past_their_limits() {
    // 64 and 65 columns of blocks in a row; 32 and 33 rows of blocks in a column.
    let row = |columns: u32| (0..columns).map(|column| [0, column, 1]).collect::<Vec<[u32; 3]>>();
    let pairs =
        |rows: u32| (0..rows).flat_map(|row| [[row, 0, 0], [row, 1, 1]]).collect::<Vec<_>>();
    assert!(write((2, 1, 64), &row(64)).is_ok());
    assert_eq!(write((2, 1, 65), &row(65)), refused(5, 0));
    let (text, degrees) = write_into((2, 32, 2), &pairs(32), 4, 1_000);
    assert_eq!((text.map(|text| text.len()), degrees), (Ok(35 + 7 + 20 * 6 + 44 * 7), vec![32; 4]));
    assert_eq!(write_into((2, 33, 2), &pairs(33), 4, 0), (refused(5, 66), vec![33; 4]));
    // The lowest check before the lowest variable: row 33 has no entry.
    assert_eq!(write_into((2, 34, 2), &pairs(33), 4, 0), (refused(5, 66), vec![33; 4]));
    assert_eq!(write_into((3, 34, 2), &pairs(33), 6, 0), (refused(5, 99), vec![33; 6]));
}

#[test]
fn lists_too_short() {
    let (text, entries) = of_entries(&[0, 1, 2, 3, 4]);
    let degrees = [2, 2, 2, 2, 2, 2, 1, 1, 1].to_vec();
    // n = 9, m + 1 = 7, E = 15.
    assert!(read_into(&text, 9, 7, 15).0.is_ok());
    assert_eq!(read_into(&text, 9, 6, 15), (refused(6, 0), degrees.clone()));
    assert_eq!(read_into(&text, 9, 7, 14), (refused(6, 0), degrees.clone()));
    assert_eq!(read_into(&text, 9, 0, 0), (refused(6, 0), degrees.clone()));
    assert_eq!(read_into(&text, 8, 7, 15), (refused(6, 0), vec![BEFORE; 8]));
    let numbers = (3, 2, 3);
    assert_eq!(write_into(numbers, &entries, 9, text.len()), (Ok(text.clone()), degrees.clone()));
    assert_eq!(write_into(numbers, &entries, 9, text.len() - 1), (refused(6, 0), degrees.clone()));
    assert_eq!(write_into(numbers, &entries, 9, 0), (refused(6, 0), degrees));
    assert_eq!(write_into(numbers, &entries, 8, text.len()), (refused(6, 0), vec![BEFORE; 8]));
    // A byte less is a number less.
    let lent = |degrees: &mut [u32], starts, columns| {
        blocks::read(Limits::LENT, &text, degrees, starts, columns).map(|_| ())
    };
    assert_eq!(lent(&mut [0; 9], 28, 60), Ok(()));
    assert_eq!(lent(&mut [0; 9], 27, 60), refused(6, 0));
    assert_eq!(lent(&mut [0; 9], 28, 59), refused(6, 0));
}
