//! The writing side at its limits and past them, and on every number of variables around a whole
//! number of bytes.

use super::Lists;
use super::cases::Case;
use super::codewords::Codewords;
use super::encoding::{Bits, EncodeCase, contradiction, encode_case, some_of};
use super::graphs::{covering, regular, repeat_checks};
use crate::interface::{NUMBER_BYTES, position_bytes};
use crate::paper::Limits;
use crate::random::Random;

const VARIABLES: usize = Limits::WRITING.variables;
const CHECKS: usize = Limits::WRITING.checks;
const ENTRIES: usize = Limits::WRITING.entries;

/// How many inputs have as many columns as a call admits, or more.
pub const ENCODE_STRIPS: usize = 2;

/// Numbers of variables beside all small ones.
const SIZES: [usize; 16] =
    [63, 64, 65, 127, 128, 129, 255, 256, 257, 1_023, 1_024, 1_025, 2_040, 2_041, 2_046, 2_047];

pub fn cases(random: &mut Random) -> Vec<Case> {
    let mut cases = Vec::new();
    for n in (2..=40).chain(SIZES) {
        let lists = sized(random, n);
        cases.extend(of_every_kind(random, &lists, n / 2));
        let case = encode_case(&lists, &[]);
        cases.push(EncodeCase { work: case.work - 1, ..case.clone() });
        cases.push(EncodeCase { work: case.work + 1, codeword: n + 1, ..case });
    }
    cases.extend(largest(random));
    cases.extend(other_counts(random));
    cases.extend(past_limits(random));
    cases.into_iter().map(Case::Encode).collect()
}

/// A graph of so many variables, with a check or more that says nothing new.
fn sized(random: &mut Random, n: usize) -> Lists {
    let checks = random.between(n.div_ceil(16), n.div_ceil(2));
    let mut lists = covering(random, n, checks, 4);
    (0..3).for_each(|_| repeat_checks(random, &mut lists));
    lists
}

/// None, all and some of the variables given, as a codeword has them; all but one right; such as
/// contradict the checks.
fn of_every_kind(random: &mut Random, lists: &Lists, some: usize) -> Vec<EncodeCase> {
    let word = Codewords::new(lists).random(random);
    let mut turned: Bits = some_of(random, &word, lists.n);
    turned[random.below(lists.n)].1 ^= 1;
    let held = [
        Vec::new(),
        some_of(random, &word, lists.n),
        some_of(random, &word, some),
        contradiction(random, lists, &word, some),
        turned,
    ];
    held.iter().map(|held| encode_case(lists, held)).collect()
}

/// As many variables and checks as there can be, of degrees of about 60, with lengths around those
/// that are needed.
fn largest(random: &mut Random) -> Vec<EncodeCase> {
    let lists = covering(random, VARIABLES, CHECKS, 60);
    let mut cases = of_every_kind(random, &lists, 1_300);
    let case = cases[2].clone();
    cases.push(EncodeCase { degrees: case.degrees - 1, ..case.clone() });
    cases.push(EncodeCase { codeword: case.codeword - 1, ..case.clone() });
    cases.push(EncodeCase { work: case.work - 1, ..case.clone() });
    cases.push(EncodeCase { codeword: case.codeword + 9, work: case.work + 300, ..case });
    cases
}

/// The most checks on few variables, few checks on the most variables, and checks in a chain,
/// each of which has a variable of the one before.
fn other_counts(random: &mut Random) -> Vec<EncodeCase> {
    let chain = |check: u32| (4 * check..(4 * check + 5).min(VARIABLES as u32)).collect();
    let chained: Vec<Vec<u32>> = (0..CHECKS as u32).map(chain).collect();
    let graphs = [
        regular(random, 32, 32, 2),
        regular(random, VARIABLES, 1, 64),
        regular(random, VARIABLES, 1, 4),
        Lists::from_rows(VARIABLES, &chained),
        Lists::from_rows(2, &[vec![0, 1]]),
        Lists::from_rows(2, &vec![vec![0, 1]; 32]),
    ];
    graphs.iter().flat_map(|lists| of_every_kind(random, lists, lists.n / 3)).collect()
}

/// Graphs that other calls admit; numbers that look small to whoever cuts them short; columns past
/// other limits; lists of very many positions or bits.
fn past_limits(random: &mut Random) -> Vec<EncodeCase> {
    let mut cases = Vec::new();
    for (n, checks) in [(2_049, 512), (2_048, 513), (2_049, 513), (2_056, 40), (40, 520)] {
        let lists = covering(random, n, checks, 2);
        cases.push(encode_case(&lists, &some_of(random, &vec![0; n], 30)));
    }
    cases.push(encode_case(&regular(random, 8_192, 1, 32), &[]));
    let small = encode_case(&Lists::from_rows(2, &[vec![0, 1]]), &[(1, 1)]);
    for n in [65_538, 1 << 32 | 2, (1 << 61) + 2, usize::MAX - 6, usize::MAX] {
        cases.push(EncodeCase { n, ..small.clone() });
    }
    // 65,537 checks, all but one without entries; 32,769 and 65,538 columns of one check.
    let no_entries = [2, 0, 0, 0].repeat(65_536);
    cases.push(EncodeCase { starts: [small.starts.clone(), no_entries].concat(), ..small.clone() });
    cases.extend([32_769, 65_538].map(|count| with_columns(&small, count)));
    // 65,537 and 65,536 positions to one or no bit, and the other way.
    let all: Vec<u16> = [1].into_iter().chain(0..=u16::MAX).collect();
    let many = position_bytes(&all);
    cases.push(EncodeCase { positions: many.clone(), ..small.clone() });
    cases.push(EncodeCase { positions: many[2..].to_vec(), given: Vec::new(), ..small.clone() });
    cases.push(EncodeCase { given: vec![1; 65_537], ..small.clone() });
    cases.push(EncodeCase { positions: Vec::new(), given: vec![0; 65_536], ..small.clone() });
    cases.push(EncodeCase { positions: many, given: vec![0; 65_537], ..small });
    cases
}

/// So many columns, and starts that end elsewhere.
fn with_columns(case: &EncodeCase, count: usize) -> EncodeCase {
    EncodeCase { columns: [1, 0, 0, 0].repeat(count), ..case.clone() }
}

/// As many columns as there can be, or one more: 4 for the second, or 2.
pub fn strip(number: usize) -> Case {
    let small = encode_case(&Lists::from_rows(2, &[vec![0, 1]]), &[]);
    let mut case = with_columns(&small, ENTRIES + number);
    case.starts[NUMBER_BYTES..].copy_from_slice(&((ENTRIES + number) as u32).to_le_bytes());
    Case::Encode(case)
}

#[cfg(test)]
mod tests {
    use super::*;

    /// The number of each refusal, 0 where nothing is refused, and its place.
    fn answers(cases: &[EncodeCase]) -> Vec<(u8, usize)> {
        let outcome = |case: &EncodeCase| case.outcome(&mut vec![0; case.degrees / NUMBER_BYTES]);
        let answer = |case| outcome(case).err().map_or((0, 0), |r| (r.number, r.place));
        cases.iter().map(answer).collect()
    }

    #[test]
    fn limits_are_met_and_passed() {
        let random = &mut Random::new(43);
        let largest = largest(random);
        assert_eq!((largest[0].n, largest[0].work), (2_048, 131_584));
        assert!((30_000..32_000).contains(&(largest[0].columns.len() / NUMBER_BYTES)));
        let numbers = answers(&largest).into_iter().map(|(number, _)| number);
        assert_eq!(numbers.collect::<Vec<u8>>(), [0, 0, 0, 19, 19, 6, 6, 6, 0]);
        let past = answers(&past_limits(random));
        // Graphs, counts, starts; columns that the starts do not end at, then lists.
        let expected = [&[(2, 0); 12][..], &[(7, 1); 2], &[(18, 0); 5]].concat();
        assert_eq!(past, expected);
        // None, all and some given, then a contradiction unless the checks cancel, then all but
        // one right.
        for kinds in other_counts(random).chunks(5) {
            let numbers: Vec<u8> = answers(kinds).into_iter().map(|(number, _)| number).collect();
            assert_eq!((&numbers[..3], numbers[4]), (&[0; 3][..], 19));
        }
    }

    #[test]
    fn columns_at_their_limit() {
        for (number, expected) in [(0, (4, 1)), (1, (2, 0))] {
            let Case::Encode(case) = strip(number) else {
                panic!("no call of the writing side");
            };
            assert_eq!(answers(&[case]), [expected]);
        }
    }
}
