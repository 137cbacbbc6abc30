//! Every pair of what the writing side turns down.

use super::Lists;
use super::cases::Case;
use super::encoding::{EncodeCase, encode_case};
use crate::interface::{Refusal, number_bytes, numbers, position_bytes, positions};

/// What is changed: two faults that change the same do not go together.
#[derive(Clone, Copy, PartialEq, Eq)]
enum Changed {
    Variables,
    Checks,
    Start(usize),
    Column(usize),
    Row,
    Position(usize),
    Counts,
    Given(usize),
    Degrees,
    Codeword,
    Work,
}

/// A refusal with what brings it about. Those that come first stand first.
struct Fault {
    refusal: Refusal,
    changed: Changed,
    change: Box<dyn Fn(&mut EncodeCase)>,
}

fn fault(
    number: u8,
    place: usize,
    changed: Changed,
    change: impl Fn(&mut EncodeCase) + 'static,
) -> Fault {
    Fault { refusal: Refusal { number, place }, changed, change: Box::new(change) }
}

const N: usize = 10;
const M: usize = 5;

/// Five checks with 15 entries; the third has both its variables given. Every lent list is longer
/// than it must be.
fn good() -> EncodeCase {
    let rows: [&[u32]; M] = [&[0, 1, 2], &[2, 3, 4, 5], &[5, 6], &[6, 7, 8, 9], &[0, 9]];
    let lists = Lists::from_rows(N, &rows.map(<[u32]>::to_vec));
    let case = encode_case(&lists, &[(1, 1), (3, 0), (5, 1), (6, 1)]);
    EncodeCase {
        degrees: case.degrees + 5,
        codeword: case.codeword + 1,
        work: case.work + 3,
        ..case
    }
}

fn with_variables(n: usize) -> Fault {
    fault(2, 0, Changed::Variables, move |case| case.n = n)
}

/// Further checks without entries, or no check.
fn with_starts(count: usize) -> Fault {
    fault(2, 0, Changed::Checks, move |case| {
        let mut starts = numbers(&case.starts);
        starts.resize(count, 15);
        case.starts = number_bytes(&starts);
    })
}

fn bad_start(place: usize, index: usize, start: u32) -> Fault {
    fault(7, place, Changed::Start(index), move |case| put(&mut case.starts, index, start))
}

fn bad_column(number: u8, index: usize, column: u32) -> Fault {
    fault(number, index, Changed::Column(index), move |case| {
        put(&mut case.columns, index, column);
    })
}

/// A number of a list, where the list has so many.
fn put(list: &mut [u8], index: usize, number: u32) {
    if let Some(place) = list.as_chunks_mut().0.get_mut(index) {
        *place = number.to_le_bytes();
    }
}

fn bad_positions(changed: Changed, change: impl Fn(&mut Vec<u16>) + 'static) -> Fault {
    fault(18, 0, changed, move |case| {
        let mut list = positions(&case.positions);
        change(&mut list);
        case.positions = position_bytes(&list);
    })
}

fn bad_bit(number: u8, place: usize, index: usize, bit: u8) -> Fault {
    fault(number, place, Changed::Given(index), move |case| {
        if let Some(given) = case.given.get_mut(index) {
            *given = bit;
        }
    })
}

/// In the order in which they are looked for.
fn faults() -> Vec<Fault> {
    let mut faults = Vec::new();
    faults.extend([2_049, 0, 1, 65_546, usize::MAX].map(with_variables));
    faults.extend([514, 0, 1].map(with_starts));
    faults.extend([bad_start(0, 0, 1), bad_start(3, 3, 0)]);
    // The starts do not end at E.
    faults.push(fault(7, M, Changed::Row, |case| case.columns.extend([9, 0, 0, 0])));
    faults.extend([bad_column(3, 6, 2_000), bad_column(3, 14, 1 << 16 | 9)]);
    faults.extend([bad_column(4, 4, 2), bad_column(4, 11, 6)]);
    faults.push(fault(6, 0, Changed::Degrees, |case| case.degrees = 4 * N - 1));
    faults.push(fault(6, 0, Changed::Degrees, |case| case.degrees = 0));
    // A check of variable 9 alone; a variable that stands in no check.
    faults.push(fault(5, M, Changed::Row, |case| {
        case.columns.extend([9, 0, 0, 0]);
        // Not in the place of the first check.
        if case.starts.len() > 4 {
            case.starts.extend([16, 0, 0, 0]);
        }
    }));
    faults.push(fault(5, M + N, Changed::Variables, |case| case.n = N + 1));
    faults.extend(position_faults());
    faults.extend([bad_bit(15, 0, 0, 255), bad_bit(15, 1, 1, 2)]);
    for length in [0, N - 1] {
        faults.push(fault(6, 0, Changed::Codeword, move |case| case.codeword = length));
    }
    // Two bytes for each check.
    for length in [0, M * 2 - 1] {
        faults.push(fault(6, 0, Changed::Work, move |case| case.work = length));
    }
    // The third check is odd.
    faults.push(bad_bit(19, 0, 3, 0));
    faults
}

/// Equal, falling, not below n, and unequal lists.
fn position_faults() -> Vec<Fault> {
    vec![
        bad_positions(Changed::Position(1), |list| list[1] = list[0]),
        bad_positions(Changed::Position(1), |list| list[1] = 0),
        bad_positions(Changed::Position(3), |list| list[3] = N as u16),
        bad_positions(Changed::Position(3), |list| list[3] = u16::MAX),
        bad_positions(Changed::Counts, |list| list.push(8)),
        bad_positions(Changed::Counts, |list| list.truncate(3)),
        fault(18, 0, Changed::Counts, |case| case.given.push(0)),
        fault(18, 0, Changed::Counts, |case| case.given.truncate(3)),
        // A part of a position in the place of the last one.
        fault(18, 0, Changed::Counts, |case| case.positions.truncate(7)),
    ]
}

/// Each fault alone and each two that go together, with the refusal that comes first.
fn numbered_cases() -> Vec<(Refusal, EncodeCase)> {
    let faults = faults();
    let mut cases = Vec::new();
    for (index, first) in faults.iter().enumerate() {
        let mut case = good();
        (first.change)(&mut case);
        for second in faults[index + 1..].iter().filter(|fault| fault.changed != first.changed) {
            let mut case = case.clone();
            (second.change)(&mut case);
            cases.push((first.refusal, case));
        }
        cases.push((first.refusal, case));
    }
    cases
}

/// The same input with a part of a position after the last, which is none.
fn with_part(case: &EncodeCase) -> EncodeCase {
    EncodeCase { positions: [&case.positions[..], &[7]].concat(), ..case.clone() }
}

pub fn cases() -> Vec<Case> {
    let mut cases = vec![good(), with_part(&good())];
    for (_, case) in numbered_cases() {
        let parted = (case.positions.len() % 2 == 0).then(|| with_part(&case));
        cases.extend(parted.into_iter().chain([case]));
    }
    cases.into_iter().map(Case::Encode).collect()
}

#[cfg(test)]
mod tests {
    use super::*;

    fn outcome(case: &EncodeCase) -> Result<Vec<u8>, Refusal> {
        case.outcome(&mut vec![0; case.degrees / 4])
    }

    #[test]
    fn the_first_of_two_refusals_is_given() {
        // Variables 1, 3, 5 and 6 are given. 0 may be 0; then 2 is 1 and 4 is 0; 7 may be 0; 9 is
        // 0, so 8 is 1.
        let expected = Ok(vec![0, 1, 1, 0, 0, 1, 1, 0, 1, 0]);
        assert_eq!(outcome(&good()), expected);
        assert_eq!(outcome(&with_part(&good())), expected);
        let cases = numbered_cases();
        for (expected, case) in &cases {
            assert_eq!(outcome(case), Err(*expected), "{case:?}");
            if case.positions.len() % 2 == 0 {
                assert_eq!(outcome(&with_part(case)), Err(*expected), "{case:?}");
            }
        }
        println!("{} cases", cases.len());
    }
}
