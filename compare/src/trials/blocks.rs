//! The standard input of the program `block_trials`, and what it must print: block sheets picked
//! by hand, seeded ones of each answer, and one of the wireless shape.

use crate::generate::blocks as sheets;
use crate::harness::refusal_number;
use crate::interface::NUMBER_BYTES;
use crate::paper::blocks::{numbers_of, read, text_of, write};
use crate::paper::{Blocks, Entry, Limits, Refusal, write_sheet};
use crate::random::Random;

const LIMITS: Limits = Limits::LENT;

/// The bytes of the lists and of the text that the program lends.
const DEGREES: usize = 8_000;
const STARTS: usize = 8_000;
const COLUMNS: usize = 16_000;
const TEXT: usize = 40_000;

/// Numbers from here on are not given to the writer.
const TOO_LARGE: usize = 1_000_000_000;

const SEED: u64 = 12;
const LONGEST: usize = 200;
const LONGEST_ANSWER: usize = 600;
const OF_EACH: usize = 2;
/// The numbers that reading can give, 0 standing for no refusal.
const NUMBERS: [u8; 8] = [0, 1, 2, 3, 4, 5, 6, 17];

/// Line 2 and the entries of those that have a block sheet's form, line for line.
const OF_FORM: [(&str, &[&str]); 25] = [
    ("3 1 2", &["0 0 1", "0 1 2"]),
    ("2 2 3", &["0 0 0", "0 1 1", "1 1 0", "1 2 1"]),
    ("5 2 3", &["0 0 4", "0 1 0", "0 2 3", "1 0 0", "1 2 1"]),
    ("1 2 3", &["0 0 0", "0 1 0", "1 1 0", "1 2 0"]),
    // A size of 0, then counts outside their limits.
    ("0 1 2", &["0 0 0", "0 1 0"]),
    ("0 1000001 0", &[]),
    ("1000000 1 2", &["0 0 0", "0 1 0"]),
    ("500000 3 2", &["0 0 0", "0 1 0"]),
    ("999999999 0 0", &[]),
    ("1 1 1", &["0 0 0"]),
    // 3 before 17 before 4.
    ("3 1 2", &["0 0 3", "0 0 0"]),
    ("3 1 2", &["0 0 1", "0 2 3"]),
    ("3 1 2", &["0 1 1", "0 0 3"]),
    ("3 1 2", &["0 1 1", "0 1 2"]),
    ("3 1 2", &["1 0 999999999", "?"]),
    ("3 1 2", &["0 0 999999999"]),
    ("3 1 2", &["0 0 1000000000"]),
    ("3 1 2", &["18446744073709551616 0 0"]),
    ("3 1 2", &["0 0 18446744073709551616"]),
    ("0 18446744073709551616 1", &[]),
    ("18446744073709551616 0 1", &[]),
    // Degrees: no entry, a row of one, a column of none.
    ("3 1 2", &[]),
    ("3 2 2", &["0 0 1", "0 1 2", "1 1 0"]),
    ("3 1 3", &["0 0 1", "0 1 2"]),
    // n of 1,000,000: the list of degrees is too short before 5.
    ("1000000 1 1", &["0 0 999999"]),
];

/// For each trial a line with the length of its text, then the text.
pub fn input() -> Vec<u8> {
    let with_length = |text: Vec<u8>| [format!("{}\n", text.len()).as_bytes(), &text].concat();
    trials().into_iter().flat_map(with_length).collect()
}

/// For each trial what reading its text gives and, where it has the form, what writing its
/// numbers gives.
pub fn answers() -> Vec<u8> {
    trials().iter().flat_map(|text| [printed_read(text), printed_write(text)].concat()).collect()
}

fn printed(answer: Result<Vec<u8>, Refusal>) -> Vec<u8> {
    let refusal = |Refusal { number, place }| format!("refusal place\n{number} {place}\n");
    answer.unwrap_or_else(|answer| refusal(answer).into_bytes())
}

/// The ordinary sheet of the graph, or the refusal.
fn printed_read(text: &[u8]) -> Vec<u8> {
    let degrees = &mut vec![0; DEGREES / NUMBER_BYTES];
    let sheet = read(LIMITS, text, degrees, STARTS, COLUMNS);
    printed(sheet.and_then(|sheet| write_sheet(LIMITS, &sheet.graph(), degrees, usize::MAX)))
}

/// The block sheet or the refusal; nothing where the text has another form or a number that is
/// too large.
fn printed_write(text: &[u8]) -> Vec<u8> {
    let degrees = &mut vec![0; DEGREES / NUMBER_BYTES];
    match numbers_of(text).filter(writable) {
        Some(blocks) => printed(write(LIMITS, &blocks, degrees, TEXT)),
        None => Vec::new(),
    }
}

fn writable(blocks: &Blocks) -> bool {
    let entries = blocks.entries.iter().flat_map(|entry| [entry.row, entry.column, entry.shift]);
    let numbers = [blocks.size, blocks.rows, blocks.columns];
    numbers.into_iter().chain(entries).all(|number| number < TOO_LARGE)
}

fn trials() -> Vec<Vec<u8>> {
    let mut trials: Vec<Vec<u8>> =
        OF_FORM.map(|(numbers, entries)| sheet(numbers, entries).into_bytes()).to_vec();
    trials.extend(of_other_forms());
    trials.extend(of_full_lists());
    trials.extend(of_each_answer());
    trials.push(text_of(&sheets::wireless(&mut Random::new(SEED))));
    trials
}

fn sheet(numbers: &str, entries: &[&str]) -> String {
    let entries: String = entries.iter().map(|entry| format!("{entry}\n")).collect();
    format!("size rows columns\n{numbers}\nrow column shift\n{entries}")
}

fn of_other_forms() -> Vec<Vec<u8>> {
    let good = sheet("3 1 2", &["0 0 1", "0 1 2"]);
    let sheets = [
        String::new(),
        "variables checks\n3 2\ncheck variable\n0 0\n0 1\n1 1\n1 2\n".to_string(),
        good[..good.len() - 1].to_string(),
        good.replace("3 1 2", "3 1 02"),
        good.replace("row column", "check column"),
        good.replace("0 1 2\n", "0 1 2\r\n"),
    ];
    sheets.map(String::into_bytes).to_vec()
}

/// What the limits and the lent lists just hold, and what they do not: 16 entries and one more
/// where there may be 16; n of 2,001; n of 2,000 and E of 4,000; E of 4,500; m + 1 of 2,001.
fn of_full_lists() -> Vec<Vec<u8>> {
    let full = sheet("250000 4 4", &[]) + &pairs(4, 16);
    let mut texts = [
        format!("{full}?"),
        format!("{full}3 3 1\n"),
        sheet("667 1 3", &[]) + &pairs(3, 3),
        sheet("500 2 4", &[]) + &pairs(4, 8),
        sheet("500 3 3", &[]) + &pairs(3, 9),
    ]
    .map(String::into_bytes)
    .to_vec();
    texts.push(text_of(&longer_than_the_text()));
    texts
}

/// So many entries in rows of so many columns.
fn pairs(columns: usize, count: usize) -> String {
    (0..count).map(|at| format!("{} {} {at}\n", at / columns, at % columns)).collect()
}

/// 2,000 rows and columns of blocks of 1, each with two entries: more starts than are lent, and
/// a text of more than 40,000 bytes.
fn longer_than_the_text() -> Blocks {
    let row = |row: usize| {
        let columns = [row.min((row + 1) % 2_000), row.max((row + 1) % 2_000)];
        columns.map(|column| Entry { row, column, shift: 0 })
    };
    Blocks { size: 1, rows: 2_000, columns: 2_000, entries: (0..2_000).flat_map(row).collect() }
}

/// Random texts, in the order in which they come, until there are enough of each answer.
fn of_each_answer() -> Vec<Vec<u8>> {
    let mut open: Vec<(u8, usize)> = NUMBERS.map(|number| (number, OF_EACH)).to_vec();
    let mut trials = Vec::new();
    for input in 0.. {
        if open.iter().all(|&(_, left)| left == 0) {
            break;
        }
        let text = sheets::any_read(&mut Random::for_input(SEED, input)).text;
        if text.len() > LONGEST {
            continue;
        }
        let answer = printed_read(&text);
        let number = refusal_number(&answer);
        let left = open.iter_mut().find(|(open, left)| *open == number && *left > 0);
        if let Some((_, left)) = left.filter(|_| answer.len() <= LONGEST_ANSWER) {
            *left -= 1;
            trials.push(text);
        }
    }
    trials
}

#[cfg(test)]
mod tests {
    use super::*;

    #[test]
    fn the_input_is_short() {
        assert!(input().len() < 60_000);
        assert!(trials().iter().any(|text| text.len() > TEXT));
        let wireless = trials().pop().unwrap();
        let entries = wireless.iter().filter(|&&byte| byte == b'\n').count() - 3;
        assert!((75..=85).contains(&entries), "{entries}");
        println!("{} trials, {} bytes", trials().len(), input().len());
    }

    /// The refusals of the first trials, worked out from the paper, of reading and of writing.
    #[test]
    fn the_picked_ones() {
        let read = [
            (17, 2),
            (17, 2),
            (2, 2),
            (2, 2),
            (2, 2),
            (2, 2),
            (17, 4),
            (3, 5),
            (17, 5),
            (4, 5),
            (3, 4),
            (17, 4),
            (17, 4),
            (3, 4),
            (17, 4),
            (17, 2),
            (2, 2),
            (5, 0),
            (5, 3),
            (5, 9),
            (6, 0),
            (1, 1),
            (1, 1),
            (1, 5),
            (1, 2),
            (1, 3),
            (1, 5),
            (2, 20),
            (2, 20),
            (6, 0),
        ];
        let of = |(number, place): (u8, usize)| format!("refusal place\n{number} {place}\n");
        let trials = trials();
        for (text, refusal) in trials[4..].iter().zip(read) {
            let shown = String::from_utf8_lossy(text);
            assert_eq!(printed_read(text), of(refusal).as_bytes(), "{shown}");
            let written = printed_write(text);
            assert!(written.is_empty() || written == of(refusal).as_bytes(), "{shown}");
        }
        // Which of them have another form or a number that is too large.
        let unwritten: Vec<usize> =
            (0..34).filter(|&at| printed_write(&trials[at]).is_empty()).collect();
        assert_eq!(unwritten, [14, 16, 17, 18, 19, 20, 25, 26, 27, 28, 29, 30, 31]);
        // What the lists just hold; then too many columns; then too many starts, and too long a
        // text.
        assert_eq!(printed_write(&trials[34]), trials[34]);
        assert!(printed_read(&trials[34]).starts_with(b"variables checks\n2000 1000\n"));
        assert_eq!(printed_read(&trials[35]), of((6, 0)).as_bytes());
        assert_eq!(printed_write(&trials[35]), trials[35]);
        assert_eq!(printed_read(&trials[36]), of((6, 0)).as_bytes());
        assert_eq!(printed_write(&trials[36]), of((6, 0)).as_bytes());
    }
}
