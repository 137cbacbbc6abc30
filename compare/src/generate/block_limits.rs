//! Block sheets around the limits, such as need no expansion: each has something wrong in its
//! lines. What is accepted there is among the strips.

use super::blocks::entry_bytes;
use super::cases::{Case, ReadCase, WriteBlocksCase};
use crate::paper::blocks::text_of;
use crate::paper::{Blocks, Entry, Limits};

const LIMITS: Limits = Limits::LENT;

/// Size, rows and columns, admitted or not.
const NUMBERS: [(usize, usize, usize); 56] = [
    // A size of 0, whatever the counts.
    (0, 0, 0),
    (0, 1, 2),
    (0, 1_000_001, 2),
    (0, 1, usize::MAX),
    (0, usize::MAX, usize::MAX),
    // n of 0 and 1, m of 0.
    (1, 1, 0),
    (1, 1, 1),
    (1, 1, 2),
    (2, 1, 1),
    (1, 0, 2),
    (2, 0, 0),
    (1_000_000, 0, 1),
    (1_000_000, 1, 0),
    (usize::MAX, 0, 0),
    (usize::MAX, 0, 1),
    (usize::MAX, 1, 0),
    // n and m of 1,000,000 and one past it.
    (1_000_000, 1, 1),
    (1_000_000, 1, 2),
    (1_000_000, 1, 3),
    (1_000_000, 2, 1),
    (1_000_000, 2, 2),
    (1_000_001, 1, 1),
    (999_999, 1, 1),
    (500_000, 2, 2),
    (500_000, 1, 2),
    (500_000, 2, 3),
    (500_000, 3, 2),
    (500_001, 2, 1),
    (500_001, 1, 2),
    (3, 333_333, 333_333),
    (3, 333_334, 1),
    (3, 1, 333_334),
    (1, 1_000_000, 1_000_000),
    (1, 1_000_001, 2),
    (1, 1, 1_000_001),
    (1_000, 1_000, 1_000),
    (1_000, 1_001, 1_000),
    (1_000, 1_000, 1_001),
    (101, 9_901, 9_900),
    (101, 9_900, 9_901),
    (10_000, 1, 101),
    // Numbers and products that look small to whoever looks at 16, 32 or 64 bits of them.
    (65_537, 1, 2),
    (65_538, 65_537, 2),
    (1 << 31 | 1, 2, 2),
    (1 << 32, 1, 2),
    (1 << 32 | 2, 1, 2),
    (2, 1 << 32 | 1, 2),
    (2, 1, 1 << 32 | 1),
    (1 << 32, 1 << 32, 1 << 32),
    (1 << 16, 1 << 16, 1 << 16),
    (1 << 62 | 1, 4, 4),
    (1 << 63, 2, 2),
    (2, 1 << 63 | 1, 2),
    (2, 1, 1 << 63 | 1),
    (4, usize::MAX, 1),
    (usize::MAX, usize::MAX, usize::MAX),
];

/// Sizes with which the entries can reach their limit. It is a multiple of some of them.
const SIZES: [usize; 9] =
    [250_000, 249_999, 200_000, 190_000, 166_666, 100_000, 99_999, 60_000, 12_345];

/// Numbers that only a text can have.
const LONG: [&str; 5] = [
    "10000000",
    "4294967298",
    "18446744073709551616",
    "18446744073709551618",
    "1000000000000000000000000000000000000000000000000000000000000000000000000000000000",
];

pub fn cases() -> Vec<Case> {
    let mut cases: Vec<Case> = NUMBERS.into_iter().flat_map(with_numbers).collect();
    cases.extend(LONG.into_iter().flat_map(with_long).map(read));
    cases.extend(SIZES.into_iter().flat_map(one_past));
    cases
}

/// No list is lent: nothing comes as far.
fn read(text: Vec<u8>) -> Case {
    Case::ReadBlocks(ReadCase { text, degrees: 0, starts: 0, columns: 0 })
}

fn write(blocks: &Blocks, more: &[u8]) -> Case {
    let entries = [&entry_bytes(blocks), more].concat();
    let Blocks { size, rows, columns, .. } = *blocks;
    Case::WriteBlocks(WriteBlocksCase { size, rows, columns, entries, degrees: 0, text: 0 })
}

/// Where the numbers are admitted, the only entry's shift is not.
fn with_numbers((size, rows, columns): (usize, usize, usize)) -> [Case; 2] {
    let entries = vec![Entry { row: 0, column: 0, shift: size.min(u32::MAX as usize) }];
    let blocks = Blocks { size, rows, columns, entries };
    [read(text_of(&blocks)), write(&blocks, b"")]
}

/// A number past every limit in every place of lines 2 and 5.
fn with_long(long: &str) -> Vec<Vec<u8>> {
    let text = |numbers: &str, entry: &str| {
        format!("size rows columns\n{numbers}\nrow column shift\n0 0 1\n{entry}\n?\n").into_bytes()
    };
    let numbers = ["# 1 2", "2 # 2", "2 1 #", "# # #", "# 0 2", "# 1 0", "0 # 2", "0 1 #", "0 # #"];
    let entries = ["# 1 0", "0 # 0", "0 1 #", "# # #", "0 # #", "0 0 #", "# 0 #", "0# 1 0", "#0 1"];
    let with_numbers = numbers.map(|numbers| text(&numbers.replace('#', long), "0 1 0"));
    let with_entry = entries.map(|entry| text("2 1 2", &entry.replace('#', long)));
    with_numbers.into_iter().chain(with_entry).collect()
}

/// As many entries as the limit admits, and then something; or one less, then one that is
/// turned down for itself, and then something.
fn one_past(size: usize) -> Vec<Case> {
    let side = LIMITS.variables / size;
    let most = LIMITS.entries / size;
    let pairs = (0..side * side).map(|pair| Entry {
        row: pair / side,
        column: pair % side,
        shift: pair * 7 % size,
    });
    let of = |entries: Vec<Entry>| Blocks { size, rows: side, columns: side, entries };
    let full = of(pairs.clone().take(most).collect());
    let lacking = of(pairs.clone().take(most - 1).collect());
    let last = full.entries[most - 1];
    let next = pairs.clone().nth(most).unwrap_or(last);
    let other = [
        last,
        Entry { row: 0, column: 0, shift: 0 },
        Entry { row: side, ..last },
        Entry { shift: size, ..last },
    ];

    let mut cases = Vec::new();
    let junk = ["?\n", "\n", "0", " ", "\r\n", "0 0\n", "0 0 18446744073709551616\n", "\0\n"];
    let full_text = text_of(&full);
    cases.extend(junk.map(|junk| read([&full_text, junk.as_bytes()].concat())));
    for entry in [next].into_iter().chain(other) {
        let blocks = with_entry(&full, entry);
        cases.extend([read(text_of(&blocks)), write(&blocks, b""), write(&blocks, b"more")]);
    }
    let lacking_text = text_of(&lacking);
    cases.extend(junk.map(|junk| read([&lacking_text, junk.as_bytes(), b"?\n"].concat())));
    for entry in [&other[1..], &lacking.entries[most - 2..]].concat() {
        let blocks = with_entry(&lacking, entry);
        cases.extend([read([&text_of(&blocks)[..], b"?\n"].concat()), write(&blocks, &[0; 12])]);
    }
    cases
}

fn with_entry(blocks: &Blocks, entry: Entry) -> Blocks {
    let mut blocks = blocks.clone();
    blocks.entries.push(entry);
    blocks
}

#[cfg(test)]
mod tests {
    use super::*;
    use crate::paper::{Refusal, blocks};
    use std::collections::BTreeMap;

    fn refusal(case: &Case) -> Refusal {
        let answer = match case {
            Case::ReadBlocks(case) => blocks::read(LIMITS, &case.text, &mut [], 0, 0).map(|_| ()),
            Case::WriteBlocks(case) => {
                blocks::write(LIMITS, &case.blocks(), &mut [], 0).map(|_| ())
            }
            other => panic!("{other:?} is no call on a block sheet"),
        };
        answer.expect_err("every one is refused")
    }

    /// Both calls answer alike; the numbers that are admitted get 17 for the shift in line 4.
    #[test]
    fn numbers_around_the_limits() {
        let mut by_answer = BTreeMap::new();
        for numbers in NUMBERS {
            let [read, written] = with_numbers(numbers).map(|case| refusal(&case));
            assert_eq!(read, written, "{numbers:?}");
            let (size, rows, columns) = numbers;
            let [size, rows, columns] = [size, rows, columns].map(|number| number as u128);
            let admitted = (2..=1_000_000).contains(&(size * columns))
                && (1..=1_000_000).contains(&(size * rows));
            let expected = match (size, admitted) {
                (0, _) => (17, 2),
                (_, false) => (2, 2),
                (_, true) => (17, 4),
            };
            assert_eq!((read.number, read.place), expected, "{numbers:?}");
            *by_answer.entry(expected).or_insert(0) += 1;
        }
        assert_eq!(by_answer, BTreeMap::from([((17, 2), 5), ((2, 2), 41), ((17, 4), 10)]));
    }

    #[test]
    fn entries_around_their_limit() {
        for size in SIZES {
            let most = 4_000_000 / size;
            let refusals: Vec<Refusal> = one_past(size).iter().map(refusal).collect();
            // 8 ends and 5 entries, each in a text and twice in a list, in the line after the
            // last that is admitted; then in that line itself.
            let (past, last) = refusals.split_at(8 + 3 * 5);
            assert!(past.iter().all(|r| (r.number, r.place) == (2, 4 + most)), "{size}: {past:?}");
            assert!(last.iter().all(|r| r.number != 2 && r.place == 3 + most), "{size}: {last:?}");
            let numbers: Vec<u8> = last.iter().map(|refusal| refusal.number).collect();
            let of_junk = [1, 1, 1, 1, 1, 1, 17, 1];
            assert_eq!(numbers, [of_junk, [4, 4, 3, 3, 17, 17, 4, 4]].concat());
        }
    }

    #[test]
    fn long_numbers() {
        for long in LONG {
            let refusals = with_long(long).into_iter().map(|text| refusal(&read(text)));
            let answers: Vec<(u8, usize)> = refusals.map(|r| (r.number, r.place)).collect();
            // A leading zero, then two numbers in place of three.
            let of_numbers = [(2, 2), (2, 2), (2, 2), (2, 2), (2, 2), (2, 2), (17, 2), (17, 2)];
            let of_entries = [(3, 5), (3, 5), (17, 5), (3, 5), (3, 5), (17, 5), (3, 5), (1, 5)];
            let expected = [&of_numbers[..], &[(17, 2)], &of_entries, &[(1, 5)]].concat();
            assert_eq!(answers, expected, "{long}");
        }
    }
}
