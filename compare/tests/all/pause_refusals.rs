//! What begin and advance turn down: records, counts and bytes that get 21, and the order of all
//! refusals. Every answer and byte is the paper's reading and the fast one's.

use crate::common::pause::{BYTE, codeword, example_run, handed_in, open};
use crate::common::*;
use compare::interface::{Record, Verdict};
use compare::paper::Level;

#[test]
fn begin_refuses_as_decode() {
    let mut run = example_run(example_settings());
    assert_eq!(run.begin(&[2.5, -0.5]), refused(13, 2));
    assert_eq!(run.begin(&[2.5, f32::NAN, 1.5]), refused(12, 1));
    assert_eq!(run.begin(&[1.0, -1.0, 0.5]), refused(20, 0));
    run.sums.truncate(11);
    assert_eq!(run.begin(&EXAMPLE_VALUES), refused(6, 0));
    run.settings.gain = 0.0;
    assert_eq!(run.begin(&EXAMPLE_VALUES), refused(10, 0));
    run.settings.limit = 256;
    assert_eq!(run.begin(&EXAMPLE_VALUES), refused(9, 0));
    run.lists.columns[3] = 1;
    assert_eq!(run.begin(&EXAMPLE_VALUES), refused(4, 3));
    assert!(run.levels.iter().all(|&byte| byte == BYTE));
}

/// "A finished record, one at or past its limit" and numbers that no call answers as open.
#[test]
fn records_that_are_not_open() {
    let run = handed_in([plus(1); 3], [plus(1); 4], [plus(1); 4]);
    let good = open(5, 2).unwrap().number();
    for count in [0, 1, 6] {
        assert!(run.clone().advance(good, count).is_ok());
        for (verdict, iterations) in [(Verdict::Codeword, 5), (Verdict::Stopped, 6)] {
            let record = Record { verdict: Some(verdict), iterations, unsatisfied: 0 };
            run.is_not_open(record.number(), count);
            run.is_not_open(Record { unsatisfied: 2, ..record }.number(), count);
        }
        for iterations in [6, 7, 254, 255, 256, 65_535] {
            run.is_not_open(open(iterations, 2).unwrap().number(), count);
        }
        for unsatisfied in [0, 1_000_001, 1 << 31, u32::MAX as usize] {
            run.is_not_open(open(5, unsatisfied).unwrap().number(), count);
        }
        // A refusal's number, other verdicts, and answers of other calls.
        for number in [good | 1, good | 21, good | 128, good | 0x100, good + 0x200, good ^ 0x200] {
            run.is_not_open(number, count);
        }
        for number in [0, 6, 21, 0x0200, u64::MAX] {
            run.is_not_open(number, count);
        }
    }
    // More checks than the graph has.
    for unsatisfied in [1, 3, 1_000_000] {
        assert!(run.clone().go_on(open(5, unsatisfied), 1).is_ok());
    }
    // At the largest limit.
    let mut run = run.clone();
    run.settings.limit = 255;
    assert!(run.clone().go_on(open(254, 1), 1).is_ok());
    run.is_not_open(open(255, 1).unwrap().number(), 1);
}

#[test]
fn counts_above_the_limit() {
    let run = handed_in([plus(1); 3], [plus(1); 4], [plus(1); 4]);
    for count in [7, 255, 256, 257, 65_537, u32::MAX] {
        run.is_not_open(open(1, 2).unwrap().number(), count);
    }
    for count in 0..=6 {
        assert!(run.clone().go_on(open(1, 2), count).is_ok());
    }
}

/// Nch 7 and Nq 3: levels to 7, messages to 3, in every byte that the graph needs and none past
/// them, at any iteration, also where they are not used.
#[test]
fn bytes_beyond_their_precision() {
    let mut run = handed_in([plus(3); 3], [minus(3); 4], [plus(3); 4]);
    run.settings.channel = 4;
    for record in [open(0, 1), open(2, 1)].map(|record| record.unwrap().number()) {
        for count in [0, 1] {
            for index in 0..3 {
                let with = |level: Level| {
                    let mut run = run.clone();
                    run.levels[index] = level.byte();
                    run
                };
                assert!(with(plus(7)).advance(record, count).is_ok());
                assert!(with(minus(7)).advance(record, count).is_ok());
                for level in [plus(8), minus(8), plus(127), minus(127)] {
                    with(level).is_not_open(record, count);
                }
            }
            for index in 0..4 {
                for level in [plus(4), minus(4), plus(7), minus(127)] {
                    let mut other = run.clone();
                    other.variable_messages[index] = level.byte();
                    other.is_not_open(record, count);
                    let mut other = run.clone();
                    other.check_messages[index] = level.byte();
                    other.is_not_open(record, count);
                }
            }
            // The bytes past the lists are beyond every precision.
            assert!(run.clone().advance(record, count).is_ok());
        }
    }
}

/// The graph's, 8, 9, 16, 6 and 21, each with everything that comes after it.
#[test]
fn the_order_of_refusals() {
    let finished = codeword(1).unwrap().number();
    let mut run = handed_in([plus(9); 3], [plus(9); 4], [plus(9); 4]);
    run.is_not_open(finished, 7);
    run.bits.truncate(2);
    assert_eq!(run.advance(finished, 7), refused(6, 0));
    run.settings.lift_to = 3;
    assert_eq!(run.advance(finished, 7), refused(16, 0));
    run.settings.phi_0 = 2;
    assert_eq!(run.advance(finished, 7), refused(9, 0));
    run.settings.message = 5;
    assert_eq!(run.advance(finished, 7), refused(8, 0));
    // The degrees are counted up to here.
    assert!(run.degrees.starts_with(&[1, 0, 0, 0, 2, 0, 0, 0, 1, 0, 0, 0, BYTE]));
    run.lists.starts.push(4);
    assert_eq!(run.advance(finished, 7), refused(5, 2));
    run.degrees = vec![BYTE; 11];
    assert_eq!(run.advance(finished, 7), refused(6, 0));
    run.lists.columns[1] = 0;
    assert_eq!(run.advance(finished, 7), refused(4, 1));
    run.lists.columns[3] = 3;
    assert_eq!(run.advance(finished, 7), refused(3, 3));
    run.lists.starts[1] = 5;
    assert_eq!(run.advance(finished, 7), refused(7, 2));
    run.lists.n = 1;
    assert_eq!(run.advance(finished, 7), refused(2, 0));
    assert_eq!(run.degrees, [BYTE; 11]);
}

/// Each list one byte short.
#[test]
fn lists_that_are_too_short() {
    let mut run = example_run(example_settings());
    let begun = run.begin(&EXAMPLE_VALUES);
    for (list, needed) in [(0, 3), (1, 4), (2, 4), (3, 12), (4, 3)] {
        for length in [needed - 1, 0] {
            let mut run = run.clone();
            let lists = [
                &mut run.levels,
                &mut run.variable_messages,
                &mut run.check_messages,
                &mut run.sums,
                &mut run.bits,
            ];
            lists.into_iter().nth(list).unwrap().truncate(length);
            assert_eq!(run.go_on(begun, 0), refused(6, 0));
            assert_eq!(run.go_on(begun, 1), refused(6, 0));
        }
    }
}
