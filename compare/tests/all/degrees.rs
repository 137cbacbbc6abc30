//! The list of degrees: its place in the order of refusals, and what is in it afterwards.

use crate::common::*;
use compare::interface::{LentLengths, NUMBER_BYTES, Verdict};
use compare::paper::{
    Graph, Limits, Refusal, check_graph, count_odd_checks, decode, read_sheet, row_of_check,
    write_sheet,
};

/// What the numbers of the list are before a call.
const BEFORE: u32 = 0x0a0b_0c0d;

type Answer = (Result<(), Refusal>, Vec<u32>);

/// A call on a list of so many numbers, and the list afterwards.
fn on_list<T>(length: usize, call: impl Fn(&mut [u32]) -> Result<T, Refusal>) -> Answer {
    let mut degrees = vec![BEFORE; length];
    let answer = call(&mut degrees).map(|_| ());
    (answer, degrees)
}

fn unchanged(answer: Result<(), Refusal>, length: usize) -> Answer {
    (answer, vec![BEFORE; length])
}

fn checked(length: usize, n: usize, starts: &[u32], columns: &[u32]) -> Answer {
    let graph = Graph { n, starts, columns };
    on_list(length, |degrees| check_graph(Limits::LENT, &graph, degrees))
}

const STARTS: [u32; 3] = [0, 2, 4];
const COLUMNS: [u32; 4] = [0, 1, 1, 2];

#[test]
fn degrees_of_an_accepted_graph() {
    // Variable 1 stands in both checks.
    assert_eq!(checked(3, 3, &STARTS, &COLUMNS), (Ok(()), vec![1, 2, 1]));
    // Numbers past n stay.
    let longer = vec![1, 2, 1, BEFORE, BEFORE];
    assert_eq!(checked(5, 3, &STARTS, &COLUMNS), (Ok(()), longer));
    // 32 checks {0, 1}.
    let starts: Vec<u32> = (0..=32).map(|check| 2 * check).collect();
    assert_eq!(checked(2, 2, &starts, &[0, 1].repeat(32)), (Ok(()), vec![32, 32]));
}

#[test]
fn too_short_a_list() {
    for length in 0..3 {
        assert_eq!(checked(length, 3, &STARTS, &COLUMNS), unchanged(refused(6, 0), length));
        // Before 5, of a check and of a variable.
        let (starts, n) = ([0, 2, 4, 4], 4);
        assert_eq!(checked(length, 3, &starts, &COLUMNS), unchanged(refused(6, 0), length));
        assert_eq!(checked(length, n, &STARTS, &COLUMNS), unchanged(refused(6, 0), length));
        // After 4, 3, 7 and 2.
        let fall = [1, 0, 1, 2];
        assert_eq!(checked(length, 3, &STARTS, &fall), unchanged(refused(4, 1), length));
        let past_n = [0, 1, 1, 3];
        assert_eq!(checked(length, 3, &STARTS, &past_n), unchanged(refused(3, 3), length));
        let starts = [0, 2, 3];
        assert_eq!(checked(length, 3, &starts, &COLUMNS), unchanged(refused(7, 2), length));
        assert_eq!(checked(length, 1, &STARTS, &COLUMNS), unchanged(refused(2, 0), length));
    }
}

#[test]
fn a_refusal_before_5_changes_nothing() {
    assert_eq!(checked(9, 3, &STARTS, &[1, 0, 1, 2]), unchanged(refused(4, 1), 9));
    assert_eq!(checked(9, 3, &STARTS, &[0, 1, 1, 3]), unchanged(refused(3, 3), 9));
    assert_eq!(checked(9, 3, &[0, 2, 3], &COLUMNS), unchanged(refused(7, 2), 9));
    assert_eq!(checked(9, 1, &STARTS, &COLUMNS), unchanged(refused(2, 0), 9));
}

#[test]
fn a_5_leaves_the_degrees() {
    // Check 2 has no entry; variable 3 has no check; check 1 has one entry.
    assert_eq!(checked(3, 3, &[0, 2, 4, 4], &COLUMNS), (refused(5, 2), vec![1, 2, 1]));
    let longer = vec![1, 2, 1, 0, BEFORE];
    assert_eq!(checked(5, 4, &STARTS, &COLUMNS), (refused(5, 2 + 3), longer));
    assert_eq!(checked(3, 3, &[0, 3, 4], &[0, 1, 2, 2]), (refused(5, 1), vec![1, 1, 2]));
    // 33 checks {0, 1}; a check without entries comes first, and all is counted.
    let starts: Vec<u32> = (0..=33).map(|check| 2 * check).collect();
    let columns = [0, 1].repeat(33);
    assert_eq!(checked(2, 2, &starts, &columns), (refused(5, 33), vec![33, 33]));
    let starts = [&[0], &starts[..]].concat();
    assert_eq!(checked(2, 2, &starts, &columns), (refused(5, 0), vec![33, 33]));
}

/// A call of the example, by its number, on a graph that is like the example's or not.
fn called(call: usize, length: usize, graph: &Graph) -> Answer {
    let (limits, settings) = (Limits::LENT, example_settings());
    let nothing = LentLengths::needed(0, 0);
    on_list(length, |degrees| match call {
        // Each has something wrong with it that is looked for after 5.
        0 => row_of_check(limits, graph, 9, degrees).map(|_| ()),
        1 => count_odd_checks(limits, graph, &[2, 2], degrees).map(|_| ()),
        2 => count_odd_checks(limits, graph, &[2, 2, 2], degrees).map(|_| ()),
        3 => decode(limits, graph, &[], &settings, degrees, &nothing).map(|_| ()),
        4 => decode(limits, graph, &[f32::NAN; 3], &settings, degrees, &nothing).map(|_| ()),
        5 => decode(limits, graph, &[2.0; 3], &settings, degrees, &nothing).map(|_| ()),
        6 => decode(limits, graph, &[1.0; 3], &settings, degrees, &nothing).map(|_| ()),
        _ => write_sheet(limits, graph, degrees, 0).map(|_| ()),
    })
}

#[test]
fn refusals_after_5_leave_the_degrees() {
    let later = [(3, 9), (13, 0), (15, 0), (13, 0), (12, 0), (6, 0), (20, 0), (6, 0)];
    for (call, (number, place)) in later.into_iter().enumerate() {
        let graph = example_graph();
        let left = vec![1, 2, 1, BEFORE];
        assert_eq!(called(call, 4, &graph), (refused(number, place), left), "call {call}");
        assert_eq!(called(call, 2, &graph), unchanged(refused(6, 0), 2), "call {call}");
        // 5 before what the call itself looks for, and the list before 5.
        let bad = Graph { starts: &[0, 2, 4, 4], ..graph };
        assert_eq!(called(call, 3, &bad), (refused(5, 2), vec![1, 2, 1]), "call {call}");
        assert_eq!(called(call, 2, &bad), unchanged(refused(6, 0), 2), "call {call}");
        // 4 before the list, long or short.
        let bad = Graph { columns: &[1, 0, 1, 2], ..graph };
        assert_eq!(called(call, 3, &bad), unchanged(refused(4, 1), 3), "call {call}");
        assert_eq!(called(call, 0, &bad), unchanged(refused(4, 1), 0), "call {call}");
    }
}

const TOP: [&str; 3] = ["variables checks", "3 2", "check variable"];

/// A sheet of these entries, read with so many numbers lent for each list.
fn read(entries: &[&str], length: usize, starts: usize, columns: usize) -> Answer {
    let text = lines(&[&TOP[..], entries].concat());
    let (starts, columns) = (NUMBER_BYTES * starts, NUMBER_BYTES * columns);
    on_list(length, |degrees| read_sheet(Limits::LENT, &text, degrees, starts, columns))
}

#[test]
fn the_list_after_a_sheets_last_line() {
    let good = ["0 0", "0 1", "1 1", "1 2"];
    assert_eq!(read(&good, 3, 3, 4), (Ok(()), vec![1, 2, 1]));
    assert_eq!(read(&good, 4, 3, 4), (Ok(()), vec![1, 2, 1, BEFORE]));
    assert_eq!(read(&good, 2, 3, 4), unchanged(refused(6, 0), 2));
    // The 6 for starts and columns comes after 5, with the degrees counted.
    assert_eq!(read(&good, 3, 2, 4), (refused(6, 0), vec![1, 2, 1]));
    assert_eq!(read(&good, 3, 3, 3), (refused(6, 0), vec![1, 2, 1]));
    assert_eq!(read(&good[..3], 3, 0, 0), (refused(5, 1), vec![1, 2, 0]));
    assert_eq!(read(&good[..3], 3, 3, 4), (refused(5, 1), vec![1, 2, 0]));
    // The list before 5, whether the others are long or short.
    assert_eq!(read(&good[..3], 2, 3, 4), unchanged(refused(6, 0), 2));
    assert_eq!(read(&good[..3], 2, 0, 0), unchanged(refused(6, 0), 2));
    // Every line before the list.
    for length in [0, 2, 9] {
        assert_eq!(read(&["0 1", "0 0"], length, 3, 4), unchanged(refused(4, 5), length));
        assert_eq!(read(&["0 0", "0 3"], length, 3, 4), unchanged(refused(3, 5), length));
        let form = [&good[..], &["?"]].concat();
        assert_eq!(read(&form, length, 3, 4), unchanged(refused(1, 8), length));
    }
}

/// The list is measured against the sheet's n, not against its entries.
#[test]
fn a_sheets_n() {
    let text = lines(&["variables checks", "70000 1", "check variable", "0 0", "0 69999"]);
    let read = |length| {
        on_list(length, |degrees| read_sheet(Limits::LENT, &text, degrees, usize::MAX, usize::MAX))
    };
    assert_eq!(read(69_999), unchanged(refused(6, 0), 69_999));
    let (answer, degrees) = read(70_001);
    // Variable 1 stands in no check.
    assert_eq!(answer, refused(5, 1 + 1));
    assert_eq!((degrees[0], degrees[69_999], degrees[70_000]), (1, 1, BEFORE));
    assert!(degrees[1..69_999].iter().all(|&degree| degree == 0));
}

/// 70,000 checks, each of two neighbours; the last variable is -0, all others +2.
#[test]
fn decode_past_16_bits() {
    let starts: Vec<u32> = (0..=70_000).map(|check| 2 * check).collect();
    let columns: Vec<u32> = (0..70_000).flat_map(|check| [check, check + 1]).collect();
    let graph = Graph { n: 70_001, starts: &starts, columns: &columns };
    let mut values = vec![2.5; 70_001];
    values[70_000] = -0.5;
    let degrees = &mut vec![BEFORE; 70_002];
    let lent = LentLengths::needed(70_001, 140_000);
    let (limits, settings) = (Limits::LENT, example_settings());
    let outcome = decode(limits, &graph, &values, &settings, degrees, &lent).unwrap();
    // Iteration 0: the last bit is 1 and the last check odd. Iteration 1: the last variable
    // hears +2: -1 + 5; its neighbour +2 and -0: 4 + 5 - 1; the first, of degree 1, +2: 5 + 5.
    assert_eq!(outcome.verdict, Verdict::Codeword);
    assert_eq!((outcome.iterations, outcome.unsatisfied), (1, 0));
    assert_eq!((outcome.sums[0], outcome.sums[69_999], outcome.sums[70_000]), (10, 8, 4));
    assert!(outcome.bits == vec![0; 70_001]);
    assert_eq!((degrees[0], degrees[70_000], degrees[70_001]), (1, 1, BEFORE));
    assert!(degrees[1..70_000].iter().all(|&degree| degree == 2));
    let program = decode(Limits::PROGRAM, &graph, &values, &settings, degrees, &lent);
    assert_eq!(program, refused(2, 0));
}
