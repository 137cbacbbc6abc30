//! Runs that are begun and advanced: document 01's example and longer runs by hand, and states that
//! are handed in. Every answer and byte is the paper's reading and the fast one's.

use crate::common::pause::{
    BYTE, Run, codeword, example_lists, example_run, handed_in, open, stopped,
};
use crate::common::*;
use compare::generate::Lists;
use compare::interface::{NEVER, Record, Settings};
use compare::paper::Level;

const BITS: [u8; 3] = [0, 1, 0];

fn example_levels() -> [Level; 3] {
    [plus(2), minus(0), plus(1)]
}

fn example_messages() -> [Level; 4] {
    [plus(2), minus(0), minus(0), plus(1)]
}

/// 2.5, -0.5 and 1.5 are +2, -0 and +1; both checks are odd in 010.
#[test]
fn the_example_begun() {
    let mut run = example_run(example_settings());
    let record = run.begin(&EXAMPLE_VALUES);
    assert_eq!(record, open(0, 2));
    assert_eq!(record.unwrap().number(), 2 << 32 | 0x0200);
    let [levels, variable_messages, check_messages] = run.messages();
    assert_eq!(levels, example_levels());
    assert_eq!(variable_messages, example_messages());
    assert_eq!(check_messages, [plus(0); 4]);
    assert_eq!((run.sums(), run.bits()), (vec![0; 3], &BITS[..]));
    assert_eq!(run.levels, [2, 128, 1, BYTE, BYTE, BYTE]);
}

/// Each variable hears of the other one of its check: -0, +2, +1 and -0. The sums are 5 - 1,
/// 0 + 5 + 3 and 3 - 1.
fn is_the_example_decoded(run: &Run) {
    let [levels, variable_messages, check_messages] = run.messages();
    assert_eq!(levels, example_levels());
    // Those sent in iteration 0.
    assert_eq!(variable_messages, example_messages());
    assert_eq!(check_messages, [minus(0), plus(2), plus(1), minus(0)]);
    assert_eq!((run.sums(), run.bits()), (vec![4, 8, 2], &[0; 3][..]));
}

#[test]
fn the_example_advanced() {
    let mut run = example_run(example_settings());
    let begun = run.begin(&EXAMPLE_VALUES);
    // By nothing.
    assert_eq!(run.go_on(begun, 0), open(0, 2));
    assert_eq!((run.sums(), run.bits()), (vec![0; 3], &BITS[..]));
    let mut others = vec![run.clone(); 3];
    assert_eq!(run.go_on(begun, 1), codeword(1));
    is_the_example_decoded(&run);
    // Any further count ends there too.
    for (count, other) in (2..).step_by(2).zip(&mut others) {
        let answer = other.go_on(begun, count);
        assert_eq!(answer, if count > 5 { refused(21, 0) } else { codeword(1) });
    }
    is_the_example_decoded(&others[0]);
    is_the_example_decoded(&others[1]);
    // Finished.
    for count in [0, 1, 5, 6] {
        run.is_not_open(codeword(1).unwrap().number(), count);
    }
}

#[test]
fn begun_and_finished_at_once() {
    let mut run = example_run(Settings { limit: 0, ..example_settings() });
    assert_eq!(run.begin(&EXAMPLE_VALUES), stopped(0, 2));
    for record in [stopped(0, 2), open(0, 2)] {
        run.is_not_open(record.unwrap().number(), 0);
    }
    // A codeword comes before the limit of 0.
    assert_eq!(run.begin(&[2.5, 0.5, 1.5]), codeword(0));
    run.is_not_open(codeword(0).unwrap().number(), 0);
    let mut run = example_run(example_settings());
    assert_eq!(run.begin(&[-2.5, -0.5, -1.5]), codeword(0));
    assert_eq!(run.bits(), [1; 3]);
    run.is_not_open(codeword(0).unwrap().number(), 1);
    // The example negated.
    assert_eq!(run.begin(&[-2.5, 0.5, -1.5]), open(0, 2));
    assert_eq!(run.go_on(open(0, 2), 1), codeword(1));
    assert_eq!((run.sums(), run.bits()), (vec![-4, -8, -2], &[1; 3][..]));
}

/// Checks {0, 1}, {0, 2} and {0, 3} at Nch = 3, Nq = 1, φs = 1, W = 2, with levels -3, +3, +3 and
/// -1, as in the tests of lifting, where the sums of its iterations are worked out.
fn star(limit: u32, lift_from: u32) -> Run {
    let lists = Lists::from_rows(4, &[vec![0, 1], vec![0, 2], vec![0, 3]]);
    let settings =
        Settings { message: 2, phi_a: 0, limit, lift_from, lift_to: 2, ..example_settings() };
    let mut run = Run::new(lists, settings);
    assert_eq!(run.begin(&[-3.5, 3.5, 3.5, -1.5]), open(0, 2));
    run
}

/// The iteration with what was sent in the one before, by variable 0 to check 2 and by variable 3;
/// and what these two hear then.
fn is_star(run: &Run, sent: [Level; 2], heard: [Level; 2], sums: [i32; 4], bits: [u8; 4]) {
    let [_, variable_messages, check_messages] = run.messages();
    let of_others = [minus(1), plus(1), minus(1), plus(1)];
    assert_eq!(variable_messages, [&of_others[..], &sent].concat());
    let of_others = [plus(1), minus(1), plus(1), minus(1)];
    assert_eq!(check_messages, [&of_others[..], &heard].concat());
    assert_eq!((&run.sums()[..], run.bits()), (&sums[..], &bits[..]));
}

/// The last step of iteration 1 is done by the next advance, with its messages as they count in
/// iteration 1.
#[test]
fn the_step_that_was_left() {
    // Never lifted. -7 + 3 + 3 - 3; 7 - 3 twice; -3 - 3. Then variable 0 sends check 2
    // -7 + 3 + 3 = -1, and variable 3 sends -3, F = 1: -7 + 3 + 3 - 1; 7 - 3 twice; -3 - 1.
    let mut run = star(9, NEVER);
    assert_eq!(run.go_on(open(0, 2), 1), open(1, 2));
    is_star(&run, [minus(1), minus(1)], [minus(1), minus(1)], [-4, 4, 4, -6], [1, 0, 0, 1]);
    let mut at_once = star(9, NEVER);
    assert_eq!(run.go_on(open(1, 2), 1), open(2, 2));
    assert_eq!(at_once.go_on(open(0, 2), 2), open(2, 2));
    for run in [&run, &at_once] {
        is_star(run, [minus(0), minus(0)], [minus(0), minus(0)], [-2, 4, 4, -4], [1, 0, 0, 1]);
    }

    // From 2 on. Iteration 1 sends as it was: -7 + 5 + 5 - 1; 7 - 5 twice; -3 - 1.
    let mut run = star(9, 2);
    assert_eq!(run.go_on(open(0, 2), 1), open(1, 2));
    is_star(&run, [minus(1), minus(1)], [minus(1), minus(1)], [-4, 4, 4, -6], [1, 0, 0, 1]);
    assert_eq!(run.go_on(open(1, 2), 1), open(2, 1));
    is_star(&run, [minus(0), minus(0)], [minus(0), minus(0)], [2, 2, 2, -4], [0, 0, 0, 1]);

    // From 1 on. -7 + 5 + 5 - 5; 7 - 5 twice; -3 - 5. Variable 0 sends -7 + 5 + 5 = 3, F = 1:
    // the same but for variable 3, -3 + 1.
    let mut run = star(9, 1);
    assert_eq!(run.go_on(open(0, 2), 1), open(1, 2));
    is_star(&run, [minus(1), minus(1)], [minus(1), minus(1)], [-2, 2, 2, -8], [1, 0, 0, 1]);
    assert_eq!(run.go_on(open(1, 2), 1), open(2, 1));
    is_star(&run, [plus(0), minus(0)], [minus(0), plus(0)], [2, 2, 2, -2], [0, 0, 0, 1]);
}

#[test]
fn halted_at_the_limit() {
    let mut run = star(2, NEVER);
    assert_eq!(run.go_on(open(0, 2), 1), open(1, 2));
    // Two more would be one too many.
    assert_eq!(run.go_on(open(1, 2), 2), stopped(2, 2));
    is_star(&run, [minus(0), minus(0)], [minus(0), minus(0)], [-2, 4, 4, -4], [1, 0, 0, 1]);
    run.is_not_open(stopped(2, 2).unwrap().number(), 1);
    let mut run = star(1, NEVER);
    assert_eq!(run.go_on(open(0, 2), 1), stopped(1, 2));
}

/// A run of 255 iterations by many lists of counts: what it comes to is what decode comes to.
#[test]
fn by_parts_as_at_once() {
    let graph = example_graph();
    let values = [3.5, -3.5, -3.5];
    for (limit, lift_from) in [(255, NEVER), (5, 3), (5, 5), (5, 6), (254, 254)] {
        let settings = Settings { limit, lift_from, lift_to: 4, ..example_settings() };
        let outcome = decode_freely(&graph, &values, &settings).unwrap();
        let record = Record {
            verdict: Some(outcome.verdict),
            iterations: outcome.iterations,
            unsatisfied: outcome.unsatisfied,
        };
        for count in [1, 2, 3, limit - 1, limit] {
            let mut run = Run::new(example_lists(), settings);
            let mut answer = run.begin(&values);
            while answer.unwrap().verdict.is_none() {
                answer = run.go_on(answer, count);
            }
            assert_eq!(answer, Ok(record));
            let lists = [
                outcome.levels.clone(),
                outcome.variable_messages.clone(),
                outcome.check_messages.clone(),
            ];
            assert_eq!(run.messages(), lists);
            assert_eq!((run.sums(), run.bits()), (outcome.sums.clone(), &outcome.bits[..]));
        }
    }
}

/// At iteration 3 with levels +1, -2, +0 and check messages +3, -1, +2, -3 the last step sends
/// 3, F = 1: +1; -4 + 5 = 1: +0; -4 - 3 = -7, F = 3: -2; 1: +0. Then variables hear +0, +1, +0 and
/// -2: 3 + 1; -4 + 3 + 1, a tie; 1 - 5. What was sent before does not count.
#[test]
fn a_state_that_no_run_made() {
    let levels = [plus(1), minus(2), plus(0)];
    let heard = [plus(3), minus(1), plus(2), minus(3)];
    for sent in [[plus(3); 4], [minus(0); 4], [minus(3), plus(1), minus(2), plus(0)]] {
        for record in [open(3, 1), open(3, 2), open(3, 1_000_000)] {
            let mut run = handed_in(levels, sent, heard);
            assert_eq!(run.go_on(record, 1), open(4, 1));
            let sent = vec![plus(1), plus(0), minus(2), plus(0)];
            let heard = vec![plus(0), plus(1), plus(0), minus(2)];
            assert_eq!(run.messages(), [levels.to_vec(), sent, heard]);
            assert_eq!((run.sums(), run.bits()), (vec![4, 0, -4], &[0, 1, 1][..]));
        }
    }
    // The limit is 6; under one of 4 the run is stopped there.
    let mut run = handed_in(levels, [plus(0); 4], heard);
    run.settings.limit = 4;
    assert_eq!(run.go_on(open(3, 2), 4), stopped(4, 1));
}

/// At iteration 0 the variable messages are what counts, and there is no step left: -3, +1, +0 and
/// -2 are heard as +1, -3, -2 and +0. 5 + 3; 0 - 7 - 5; 3 + 1.
#[test]
fn first_messages_that_no_variable_sent() {
    let sent = [minus(3), plus(1), plus(0), minus(2)];
    for heard in [[plus(0); 4], [minus(3); 4]] {
        let mut run = handed_in(example_levels(), sent, heard);
        assert_eq!(run.go_on(open(0, 1), 1), open(1, 2));
        let heard = vec![plus(1), minus(3), minus(2), plus(0)];
        assert_eq!(run.messages(), [example_levels().to_vec(), sent.to_vec(), heard]);
        assert_eq!((run.sums(), run.bits()), (vec![8, -12, 4], &BITS[..]));
    }
}

/// Levels of magnitude 0 alone are carried on: they are no frame.
#[test]
fn blank_levels() {
    let mut run = handed_in([minus(0); 3], [minus(0); 4], [plus(0); 4]);
    // Each hears -0: -1 - 1; 0 - 1 - 1; -1 - 1.
    assert_eq!(run.go_on(open(0, 1), 1), codeword(1));
    assert_eq!((run.sums(), run.bits()), (vec![-2; 3], &[1; 3][..]));
}

/// Neither values nor scaling are looked at: there are none, or such as decode turns down.
#[test]
fn no_scaling() {
    let mut run = example_run(example_settings());
    let begun = run.begin(&EXAMPLE_VALUES);
    run.settings = Settings { kind: 9, gain: f32::NAN, variance: -1.0, ..run.settings };
    assert_eq!(run.go_on(begun, 1), codeword(1));
    is_the_example_decoded(&run);
}
