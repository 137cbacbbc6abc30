//! What the writing side turns down: numbers, places, their order, and the list of degrees. Every
//! answer is the paper's reading and the fast one's.

use crate::common::encode::*;
use crate::common::*;
use compare::generate::Lists;
use compare::generate::encoding::{EncodeCase, encode_case};
use compare::generate::graphs::covering;
use compare::interface::number_bytes;
use compare::random::Random;

/// Checks {0, 1}, {1, 2} and {1, 3}: all four are equal. Three bytes are worked in.
fn good() -> EncodeCase {
    let case = encode_case(&rows(4, &[&[0, 1], &[1, 2], &[1, 3]]), &[(1, 1), (3, 1)]);
    assert_eq!((case.degrees, case.codeword, case.work), (16, 4, 3));
    case
}

const DEGREES: [u32; 4] = [1, 3, 1, 1];

/// The good case changed: its answer comes after 5, so that the degrees are counted.
fn later(change: impl Fn(&mut EncodeCase)) -> Result<Vec<u8>, compare::paper::Refusal> {
    let mut case = good();
    change(&mut case);
    let (answer, degrees) = answered(&case);
    assert_eq!(degrees, DEGREES);
    answer
}

/// The good case changed: its answer comes before 5, so that the list of degrees is as it was.
fn earlier(change: impl Fn(&mut EncodeCase)) -> Result<Vec<u8>, compare::paper::Refusal> {
    let mut case = good();
    change(&mut case);
    let (answer, degrees) = answered(&case);
    assert!(degrees.iter().all(|&degree| degree == BEFORE));
    answer
}

#[test]
fn nothing() {
    assert_eq!(later(|_| ()), word("1111"));
    assert_eq!(later(|case| case.positions.push(9)), word("1111"));
    assert_eq!(later(|case| (case.positions, case.given) = (vec![9], vec![])), word("0000"));
}

#[test]
fn counts_outside_limits() {
    for n in [0, 1, 2_049, 65_540, 1_000_000, 1_000_001, 1 << 32 | 4, usize::MAX] {
        assert_eq!(earlier(|case| case.n = n), refused(2, 0), "{n}");
    }
    for starts in [vec![], vec![0], vec![6; 514], vec![0; 65_540]] {
        assert_eq!(earlier(|case| case.starts = number_bytes(&starts)), refused(2, 0));
    }
    assert_eq!(earlier(|case| case.columns = vec![9; 4 * 4_000_001]), refused(2, 0));
    // Within the limits the next refusals are looked for.
    assert_eq!(earlier(|case| case.starts = number_bytes(&[6; 513])), refused(7, 0));
    assert_eq!(earlier(|case| case.columns = vec![9; 4 * 4_000_000]), refused(7, 3));
    // The list of degrees is too short for so many variables.
    assert_eq!(earlier(|case| case.n = 2_048), refused(6, 0));
}

#[test]
fn graphs_at_the_limits() {
    let random = &mut Random::new(46);
    let answer = |lists: &Lists| encoded(lists, &[]);
    let mut graph = |n, checks| covering(random, n, checks, 3);
    assert_eq!(answer(&graph(2_048, 512)), Ok(vec![0; 2_048]));
    assert_eq!(answer(&graph(2_049, 512)), refused(2, 0));
    assert_eq!(answer(&graph(2_048, 513)), refused(2, 0));
    assert_eq!(answer(&graph(2_049, 33)), refused(2, 0));
    assert_eq!(answer(&graph(60, 513)), refused(2, 0));
    assert_eq!(answer(&graph(60, 512)), Ok(vec![0; 60]));
    assert_eq!(answer(&graph(2_048, 32)), Ok(vec![0; 2_048]));
}

#[test]
fn the_graphs_own() {
    let starts = |starts: &[u32]| earlier(|case| case.starts = number_bytes(starts));
    assert_eq!(starts(&[1, 2, 4, 6]), refused(7, 0));
    assert_eq!(starts(&[0, 4, 2, 6]), refused(7, 2));
    assert_eq!(starts(&[0, 2, 4, 5]), refused(7, 3));
    let columns = |columns: &[u32]| earlier(|case| case.columns = number_bytes(columns));
    assert_eq!(columns(&[0, 1, 1, 2, 1, 4]), refused(3, 5));
    assert_eq!(columns(&[0, 1, 1, 1, 1, 3]), refused(4, 3));
    // 3 over the whole list before 4.
    assert_eq!(columns(&[1, 0, 1, 2, 1, 65_537]), refused(3, 5));
    for length in [0, 4, 15] {
        assert_eq!(earlier(|case| case.degrees = length), refused(6, 0), "{length}");
    }
    // 5 leaves the degrees: a check of one variable, a variable of no check.
    let mut case = good();
    case.columns = number_bytes(&[0, 1, 2, 1, 3]);
    case.starts = number_bytes(&[0, 2, 3, 5]);
    assert_eq!(answered(&case), (refused(5, 1), vec![1, 2, 1, 1]));
    let case = EncodeCase { n: 5, degrees: 20, ..good() };
    assert_eq!(answered(&case), (refused(5, 3 + 4), vec![1, 3, 1, 1, 0]));
    // Its 6 comes before 5.
    assert_eq!(answered(&EncodeCase { n: 5, ..good() }), (refused(6, 0), vec![BEFORE; 4]));
}

/// Positions with as many bits.
fn at(positions: &[u16]) -> Result<Vec<u8>, compare::paper::Refusal> {
    later(|case| {
        let held: Vec<(u16, u8)> = positions.iter().map(|&position| (position, 0)).collect();
        let lists = rows(4, &[&[0, 1], &[1, 2], &[1, 3]]);
        *case = encode_case(&lists, &held);
    })
}

#[test]
fn positions_out_of_order_or_range() {
    assert_eq!(at(&[]), word("0000"));
    assert_eq!(at(&[0, 1, 2, 3]), word("0000"));
    for positions in [
        &[1, 1][..],
        &[0, 0],
        &[3, 3],
        &[2, 1],
        &[0, 3, 2],
        &[0, 1, 2, 3, 3],
        &[4],
        &[0, 1, 2, 3, 4],
        &[256],
        &[65_535],
        &[65_535, 0],
        &[4, 1],
    ] {
        assert_eq!(at(positions), refused(18, 0), "{positions:?}");
    }
}

#[test]
fn unequal_lists() {
    assert_eq!(later(|case| case.given.push(1)), refused(18, 0));
    assert_eq!(later(|case| case.given.truncate(1)), refused(18, 0));
    assert_eq!(later(|case| case.given.clear()), refused(18, 0));
    assert_eq!(later(|case| case.positions.clear()), refused(18, 0));
    assert_eq!(later(|case| case.positions.extend([9, 0])), refused(18, 0));
    // A part of a position is none.
    assert_eq!(later(|case| case.positions.truncate(3)), refused(18, 0));
    assert_eq!(later(|case| (case.positions, case.given) = (vec![1], vec![1])), refused(18, 0));
    let one = |case: &mut EncodeCase| (case.positions, case.given) = (vec![1, 0, 3], vec![1]);
    assert_eq!(later(one), word("1111"));
}

#[test]
fn bits_that_are_none() {
    assert_eq!(later(|case| case.given = vec![2, 1]), refused(15, 0));
    assert_eq!(later(|case| case.given = vec![1, 255]), refused(15, 1));
    assert_eq!(later(|case| case.given = vec![3, 128]), refused(15, 0));
    assert_eq!(later(|case| case.given = vec![b'0', b'1']), refused(15, 0));
}

#[test]
fn bytes_too_few() {
    for length in [0, 3] {
        assert_eq!(later(|case| case.codeword = length), refused(6, 0));
    }
    for length in [0, 2] {
        assert_eq!(later(|case| case.work = length), refused(6, 0));
    }
    // Two bytes for each check from 8 variables on, three from 16 on.
    for (n, bytes) in [(7, 1), (8, 2), (9, 2), (15, 2), (16, 3), (17, 3), (64, 9)] {
        let pairs: Vec<Vec<u32>> = (1..n as u32).map(|v| vec![v - 1, v]).collect();
        let case = encode_case(&Lists::from_rows(n, &pairs), &[]);
        let with = |work| answered(&EncodeCase { work, ..case.clone() }).0;
        assert_eq!(with(bytes * (n - 1)), Ok(vec![0; n]));
        assert_eq!(with(bytes * (n - 1) - 1), refused(6, 0));
    }
}

/// Each of these, and those after it, at once.
#[test]
fn in_this_order() {
    let mut case = good();
    case.given = vec![1, 0];
    assert_eq!(answered(&case), (refused(19, 0), DEGREES.to_vec()));
    case.work -= 1;
    assert_eq!(answered(&case), (refused(6, 0), DEGREES.to_vec()));
    case.codeword -= 1;
    assert_eq!(answered(&case), (refused(6, 0), DEGREES.to_vec()));
    case.given = vec![0, 2];
    assert_eq!(answered(&case), (refused(15, 1), DEGREES.to_vec()));
    case.positions = vec![1, 0, 1, 0];
    assert_eq!(answered(&case), (refused(18, 0), DEGREES.to_vec()));
    case.n = 5;
    case.degrees = 20;
    assert_eq!(answered(&case), (refused(5, 7), vec![1, 3, 1, 1, 0]));
    case.degrees = 19;
    assert_eq!(answered(&case), (refused(6, 0), vec![BEFORE; 4]));
    case.columns[4] = 0;
    assert_eq!(answered(&case), (refused(4, 1), vec![BEFORE; 4]));
    case.columns[20] = 9;
    assert_eq!(answered(&case), (refused(3, 5), vec![BEFORE; 4]));
    case.starts[0] = 1;
    assert_eq!(answered(&case), (refused(7, 0), vec![BEFORE; 4]));
    for n in [2_049, 1] {
        case.n = n;
        assert_eq!(answered(&case), (refused(2, 0), vec![BEFORE; 4]));
    }
}
