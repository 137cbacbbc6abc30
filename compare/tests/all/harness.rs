//! The inputs that the harness makes, and the comparison of whole programs.

use crate::common::{degrees_of, lines};
use compare::generate::codewords::Codewords;
use compare::generate::{graphs, limits, programs};
use compare::paper::{
    Limits, Refusal, check_graph, count_odd_checks, frame, read_sheet, write_sheet,
};
use compare::random::Random;
use std::process::Command;

#[test]
fn graphs_are_admitted_and_come_back_from_their_sheets() {
    let random = &mut Random::new(11);
    for _ in 0..2_000 {
        let lists = graphs::any(random);
        let degrees = &mut degrees_of(lists.n);
        assert_eq!(check_graph(Limits::LENT, &lists.graph(), degrees), Ok(()));
        let text = write_sheet(Limits::LENT, &lists.graph(), degrees, usize::MAX).unwrap();
        let sheet = read_sheet(Limits::LENT, &text, degrees, usize::MAX, usize::MAX).unwrap();
        assert_eq!((sheet.n, sheet.starts, sheet.columns), (lists.n, lists.starts, lists.columns));
    }
}

#[test]
fn codewords_have_no_odd_check_and_their_neighbours_have() {
    let random = &mut Random::new(12);
    for _ in 0..500 {
        let lists = graphs::any(random);
        let degrees = &mut degrees_of(lists.n);
        let mut word = Codewords::new(&lists).random(random);
        assert_eq!(count_odd_checks(Limits::LENT, &lists.graph(), &word, degrees), Ok(0));
        // Every variable stands in a check.
        word[random.below(lists.n)] ^= 1;
        assert_ne!(count_odd_checks(Limits::LENT, &lists.graph(), &word, degrees), Ok(0));
    }
}

#[test]
fn strips_come_with_a_codeword() {
    for n in [12, 120, 10_000] {
        let (lists, mut word) = graphs::regular_with_codeword(&mut Random::new(15), n, 3, 6);
        let degrees = &mut degrees_of(n);
        assert_eq!(count_odd_checks(Limits::LENT, &lists.graph(), &word, degrees), Ok(0));
        assert_eq!((lists.starts.len() - 1, lists.columns.len()), (n / 2, 3 * n));
        assert_eq!(*degrees, vec![3; n]);
        assert!(word.contains(&0) && word.contains(&1));
        word[n - 1] ^= 1;
        assert_eq!(count_odd_checks(Limits::LENT, &lists.graph(), &word, degrees), Ok(3));
    }
}

#[test]
fn limits_are_met_and_passed() {
    // What a graph at some limits gets from a call with the same or others.
    let answers = |made: Limits, judged: Limits| -> Vec<Option<(u8, usize)>> {
        let answer = |r: Refusal| (r.number, r.place);
        limits::graphs(made, &mut Random::new(13))
            .map(|lists| check_graph(judged, &lists.graph(), &mut degrees_of(lists.n)))
            .map(|checked| checked.err().map(answer))
            .collect()
    };
    // Three that are admitted; variable 0 of degree 33 after 33 checks; a check of degree 65
    // and one of degree 1; variable 2 of degree 0 after 1 check; n of 1.
    let small = [None, None, None, Some((5, 33)), Some((5, 0)), Some((5, 1)), Some((5, 3))];
    let small = [&small[..], &[Some((2, 0))]].concat();
    // m of 65,537 and E of 65,538: past the smaller limits, else a check without entries and
    // starts that do not end at E.
    let (past_16_bits, wide) = ([Some((2, 0)); 2], [Some((5, 1)), Some((7, 1))]);
    // Four that are admitted; n, m and E one past; the fullest.
    let (met, passed) = ([None; 4], [Some((2, 0)); 3]);
    let by_counts = [&met[..], &passed, &[None]].concat();

    let program = [&small[..], &past_16_bits, &by_counts].concat();
    assert_eq!(answers(Limits::PROGRAM, Limits::PROGRAM), program);
    // Other limits, one past which no degree of a check divides.
    let others = Limits { variables: 10_000, checks: 10_000, entries: 40_000 };
    assert_eq!(answers(others, others), program);
    let lent = [&small[..], &wide, &by_counts].concat();
    assert_eq!(answers(Limits::LENT, Limits::LENT), lent);
    // Everything at the program's counts or one past them is admitted in lent graphs.
    let at_programs_limits = [&small[..], &wide, &[None; 8]].concat();
    assert_eq!(answers(Limits::PROGRAM, Limits::LENT), at_programs_limits);
}

#[test]
fn fullest_graphs_are_full() {
    let others = Limits { variables: 1_000, checks: 500, entries: 3_000 };
    for limits in [Limits::LENT, Limits::PROGRAM, others] {
        let lists = graphs::fullest(limits, &mut Random::new(14));
        let counts = (lists.n, lists.starts.len() - 1, lists.columns.len());
        assert_eq!(counts, (limits.variables, limits.checks, limits.entries));
        assert_eq!(check_graph(limits, &lists.graph(), &mut degrees_of(lists.n)), Ok(()));
    }
}

#[test]
fn programs_of_65_536_bytes_and_one_more() {
    let refusal =
        |number: u8, place: usize| lines(&["refusal place", &format!("{number} {place}")]);
    let cases = programs::at_limits();
    let sizes: Vec<(usize, usize)> = cases
        .iter()
        .map(|case| (case.code.as_ref().map_or(0, Vec::len), case.run_text.len()))
        .collect();
    assert_eq!((sizes[0].1, sizes[1].1), (65_536, 65_537));
    assert_eq!((sizes[2].0, sizes[3].0), (65_536, 65_537));
    assert_eq!((sizes[4].0, sizes[5].0), (65_536, 65_537));
    let printed: Vec<Vec<u8>> =
        cases.iter().map(|case| frame(case.code.as_deref(), &case.run_text)).collect();
    // A limit of 99,999 is of form; one more byte is too large. The full sheet leaves the
    // run text to judge; one more byte is too large. A long last line without LF is of
    // another form, line 6 after two entries; one more byte is too large.
    let at_sizes = [(9, 0), (14, 0), (14, 1), (2, 0), (1, 6), (2, 0)];
    // n of 8,192: variable 2 has no check after 1 check; m of 8,192: check 1 has no entry.
    // One more of either, and 1,000,000, are past the program's limits.
    let at_counts = [(5, 3), (2, 2), (5, 1), (2, 2), (2, 2), (2, 2)];
    let expected = at_sizes.into_iter().chain(at_counts);
    let expected: Vec<Vec<u8>> = expected.map(|(number, place)| refusal(number, place)).collect();
    assert_eq!(printed, expected);
}

#[test]
fn programs_read_no_block_sheet() {
    let cases = programs::of_blocks(&mut Random::new(16));
    let printed = cases.iter().map(|case| frame(case.code.as_deref(), &case.run_text));
    // The last four have an ordinary sheet's first, second or third line, or too many bytes.
    let of_parts = [(1, 2), (1, 3), (1, 4), (2, 0)];
    let answers = std::iter::repeat_n((1, 1), cases.len() - 4).chain(of_parts);
    for (printed, (number, place)) in printed.zip(answers) {
        assert_eq!(printed, lines(&["refusal place", &format!("{number} {place}")]));
    }
}

/// A program with the limits of lent graphs would not pass.
#[test]
fn programs_tell_the_limits_apart() {
    let answer = |limits, code: &[u8]| {
        read_sheet(limits, code, &mut degrees_of(1_000_000), usize::MAX, usize::MAX).err()
    };
    let cases = programs::at_limits();
    let differs = cases
        .iter()
        .filter_map(|case| case.code.as_ref())
        .filter(|code| answer(Limits::PROGRAM, code) != answer(Limits::LENT, code));
    assert_eq!(differs.count(), 4);
}

fn compare(arguments: &[&str]) -> (bool, String) {
    let output = Command::new(env!("CARGO_BIN_EXE_compare")).args(arguments).output().unwrap();
    (output.status.success(), String::from_utf8(output.stdout).unwrap())
}

#[test]
fn the_papers_program_passes_as_a_program() {
    let (passed, output) =
        compare(&["program", "150", "5", env!("CARGO_BIN_EXE_compare"), "frame"]);
    assert!(passed, "{output}");
    assert!(output.ends_with("compare: 150 inputs, 0 failures\n"), "{output}");
}

#[test]
fn another_program_does_not() {
    let (passed, output) = compare(&["program", "150", "5", env!("CARGO_BIN_EXE_compare")]);
    assert!(!passed);
    assert!(output.ends_with("compare: 1 inputs, 1 failures\n"), "{output}");
}

#[test]
fn the_default_subject_passes() {
    let (passed, output) = compare(&["test", "3000", "9"]);
    assert!(passed, "{output}");
    assert!(output.ends_with("compare: 3000 inputs, 0 failures\n"), "{output}");
}
