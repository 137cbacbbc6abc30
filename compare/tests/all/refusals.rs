//! What the graph's calls and decode turn down: numbers, places and their order.

use crate::common::*;
use compare::interface::{LentLengths, Settings};
use compare::paper::{Graph, Limits, check_graph, count_odd_checks, decode, row_of_check};

fn checked(n: usize, starts: &[u32], columns: &[u32]) -> Result<(), compare::paper::Refusal> {
    check_graph(Limits::LENT, &Graph { n, starts, columns }, &mut degrees_of(n))
}

/// Starts of `m` checks that have `degree` entries each.
fn even_starts(m: u32, degree: u32) -> Vec<u32> {
    (0..=m).map(|check| check * degree).collect()
}

#[test]
fn counts_outside_limits() {
    let good: (&[u32], &[u32]) = (&[0, 2], &[0, 1]);
    assert_eq!(checked(2, good.0, good.1), Ok(()));
    for n in [0, 1, 1_000_001, (1 << 32) + 2, usize::MAX] {
        assert_eq!(checked(n, good.0, good.1), refused(2, 0));
    }
    assert_eq!(checked(2, &[], &[]), refused(2, 0));
    assert_eq!(checked(2, &[0], &[]), refused(2, 0));
    assert_eq!(checked(2, &vec![1; 1_000_002], good.1), refused(2, 0));
    assert_eq!(checked(2, good.0, &vec![9; 4_000_001]), refused(2, 0));
    // At the limits the next refusals are looked for: 7 for the starts, 4 for the columns, 5
    // for the degree.
    assert_eq!(checked(1_000_000, &[1, 2], good.1), refused(7, 0));
    assert_eq!(checked(2, &vec![1; 1_000_001], good.1), refused(7, 0));
    assert_eq!(checked(1_000_000, &[0, 4_000_000], &vec![9; 4_000_000]), refused(4, 1));
    assert_eq!(checked(1_000_000, good.0, good.1), refused(5, 1 + 2));
    assert_eq!(checked(2, &[0, 0], &[]), refused(5, 0));
}

#[test]
fn counts_outside_the_programs_limits() {
    let answer = |n, starts: &[u32], columns: &[u32]| {
        check_graph(Limits::PROGRAM, &Graph { n, starts, columns }, &mut degrees_of(n))
    };
    let good: (&[u32], &[u32]) = (&[0, 2], &[0, 1]);
    assert_eq!(answer(2, good.0, good.1), Ok(()));
    assert_eq!(answer(8_193, good.0, good.1), refused(2, 0));
    assert_eq!(answer(2, &vec![1; 8_194], good.1), refused(2, 0));
    assert_eq!(answer(2, good.0, &vec![9; 32_769]), refused(2, 0));
    assert_eq!(answer(8_192, &[1, 2], good.1), refused(7, 0));
    assert_eq!(answer(2, &vec![1; 8_193], good.1), refused(7, 0));
    assert_eq!(answer(8_192, &[0, 32_768], &vec![9; 32_768]), refused(4, 1));
}

#[test]
fn limits_of_the_call() {
    // 3 variables, 2 checks, 4 entries.
    let graph = example_graph();
    let answers = |variables, checks, entries| {
        let limits = Limits { variables, checks, entries };
        let (settings, lent) = (example_settings(), LentLengths::needed(3, 4));
        let degrees = &mut [0; 3];
        let decoded = decode(limits, &graph, &EXAMPLE_VALUES, &settings, degrees, &lent);
        [
            check_graph(limits, &graph, degrees),
            row_of_check(limits, &graph, 1, degrees).map(|_| ()),
            count_odd_checks(limits, &graph, &[0; 3], degrees).map(|_| ()),
            decoded.map(|_| ()),
        ]
    };
    assert_eq!(answers(3, 2, 4), [Ok(()); 4]);
    assert_eq!(answers(2, 2, 4), [refused(2, 0); 4]);
    assert_eq!(answers(3, 1, 4), [refused(2, 0); 4]);
    assert_eq!(answers(3, 2, 3), [refused(2, 0); 4]);
}

#[test]
fn starts_out_of_order() {
    let columns: &[u32] = &[0, 1, 1, 2];
    assert_eq!(checked(3, &[1, 2, 4], columns), refused(7, 0));
    assert_eq!(checked(3, &[0, 2, 3], columns), refused(7, 2));
    assert_eq!(checked(3, &[0, 2, 5], columns), refused(7, 2));
    assert_eq!(checked(3, &[0, 3, 2, 4], columns), refused(7, 2));
    // Past E in the middle: the first index below its predecessor.
    assert_eq!(checked(3, &[0, 9, 9, 4], columns), refused(7, 3));
    assert_eq!(checked(3, &[0, 9, 9, 9], columns), refused(7, 3));
    // Before 3: these columns are not below n.
    assert_eq!(checked(3, &[0, 2, 3], &[7, 7, 7, 7]), refused(7, 2));
}

#[test]
fn columns_out_of_range_or_order() {
    let starts: &[u32] = &[0, 2, 4];
    assert_eq!(checked(3, starts, &[0, 1, 1, 3]), refused(3, 3));
    assert_eq!(checked(3, starts, &[0, u32::MAX, 1, 3]), refused(3, 1));
    // As 0 and 1 to whoever looks at 16 bits, and as a start of 2.
    assert_eq!(checked(3, starts, &[65_536, 1, 1, 2]), refused(3, 0));
    assert_eq!(checked(3, starts, &[0, 1, 1 << 24 | 1, 2]), refused(3, 2));
    assert_eq!(checked(3, &[0, 65_538, 4], &[0, 1, 1, 2]), refused(7, 2));
    assert_eq!(checked(3, starts, &[0, 1, 2, 1]), refused(4, 3));
    assert_eq!(checked(3, starts, &[1, 1, 1, 2]), refused(4, 1));
    // A row's first column has no predecessor in the row.
    assert_eq!(checked(3, starts, &[1, 2, 0, 1]), Ok(()));
    // 3 anywhere comes before 4 anywhere.
    assert_eq!(checked(3, starts, &[1, 0, 1, 3]), refused(3, 3));
    // 4 comes before 5.
    assert_eq!(checked(3, &[0, 1, 3], &[0, 2, 1]), refused(4, 2));
}

#[test]
fn degrees_outside_limits() {
    assert_eq!(checked(3, &[0, 3, 4], &[0, 1, 2, 2]), refused(5, 1));
    assert_eq!(checked(3, &[0, 3, 3], &[0, 1, 2]), refused(5, 1));
    // Variable 1 has degree 0: 2 checks + 1.
    assert_eq!(checked(3, &[0, 2, 4], &[0, 2, 0, 2]), refused(5, 3));
    // A check comes before a variable, however low.
    assert_eq!(checked(3, &[0, 2, 3], &[1, 2, 2]), refused(5, 1));
    let all: Vec<u32> = (0..65).collect();
    assert_eq!(checked(64, &[0, 64], &all[..64]), Ok(()));
    assert_eq!(checked(65, &[0, 65], &all), refused(5, 0));
    let pairs: Vec<u32> = [0, 1].repeat(33);
    assert_eq!(checked(2, &even_starts(32, 2), &pairs[..64]), Ok(()));
    assert_eq!(checked(2, &even_starts(33, 2), &pairs), refused(5, 33));
}

#[test]
fn rows() {
    let graph = example_graph();
    let row = |graph: &Graph<'static>, check| {
        row_of_check(Limits::LENT, graph, check, &mut degrees_of(graph.n))
    };
    assert_eq!(row(&graph, 0), Ok(&[0, 1][..]));
    assert_eq!(row(&graph, 1), Ok(&[1, 2][..]));
    assert_eq!(row(&graph, 2), refused(3, 2));
    assert_eq!(row(&graph, usize::MAX), refused(3, usize::MAX));
    assert_eq!(row(&Graph { n: 2, ..graph }, 9), refused(3, 3));
    assert_eq!(row(&Graph { starts: &[], ..graph }, 9), refused(2, 0));
    // The row is a part of the caller's list, not a copy.
    assert_eq!(row(&graph, 1).unwrap().as_ptr(), graph.columns[2..].as_ptr());
}

#[test]
fn odd_checks() {
    let graph = example_graph();
    let odd = |graph: &Graph, bits: &[u8]| {
        count_odd_checks(Limits::LENT, graph, bits, &mut degrees_of(graph.n))
    };
    assert_eq!(odd(&graph, &[0, 0, 0]), Ok(0));
    assert_eq!(odd(&graph, &[1, 1, 1]), Ok(0));
    assert_eq!(odd(&graph, &[1, 0, 0]), Ok(1));
    assert_eq!(odd(&graph, &[0, 1, 0]), Ok(2));
    assert_eq!(odd(&graph, &[0, 1]), refused(13, 0));
    assert_eq!(odd(&graph, &[0, 1, 0, 0]), refused(13, 0));
    assert_eq!(odd(&graph, &[0, 2, 3]), refused(15, 1));
    // 13 before 15, the graph's before both.
    assert_eq!(odd(&graph, &[9, 9]), refused(13, 0));
    assert_eq!(odd(&Graph { n: 4, ..graph }, &[9, 9]), refused(5, 2 + 3));
}

fn decode_with(change: impl Fn(&mut Settings)) -> Result<usize, compare::paper::Refusal> {
    let mut settings = example_settings();
    change(&mut settings);
    let outcome = decode_freely(&example_graph(), &EXAMPLE_VALUES, &settings);
    outcome.map(|outcome| outcome.iterations)
}

#[test]
fn value_counts() {
    let settings = Settings { channel: 9, ..example_settings() };
    for count in [0, 2, 4, 7] {
        let values = vec![f32::NAN; count];
        // Before 8 and 12.
        assert_eq!(decode_freely(&example_graph(), &values, &settings), refused(13, count));
    }
    let bad = Graph { n: 2, ..example_graph() };
    assert_eq!(decode_freely(&bad, &[], &settings), refused(3, 3));
}

#[test]
fn precisions_not_admitted() {
    for (channel, message) in [(3, 3), (3, 2), (4, 4), (4, 3)] {
        let set = |s: &mut Settings| (s.channel, s.message) = (channel, message);
        assert!(decode_with(set).is_ok());
    }
    let bad = [(3, 4), (3, 1), (4, 2), (4, 5), (2, 2), (5, 5), (5, 4), (2, 1), (0, 0)];
    let wrapped = [(0, u32::MAX), (259, 3), (3, 259), (u32::MAX, u32::MAX), (1 << 31 | 3, 3)];
    for (channel, message) in bad.into_iter().chain(wrapped) {
        let set = |s: &mut Settings| {
            (s.channel, s.message) = (channel, message);
            // 9 and 10 come later.
            (s.phi_a, s.gain) = (2, 0.0);
        };
        assert_eq!(decode_with(set), refused(8, 0), "{channel} {message}");
    }
}

#[test]
fn offsets_and_limits() {
    for bad in [2, 256, 65_536, u32::MAX] {
        assert_eq!(decode_with(|s| s.phi_s = bad), refused(9, 0));
        assert_eq!(decode_with(|s| s.phi_a = bad), refused(9, 0));
        assert_eq!(decode_with(|s| s.phi_0 = bad), refused(9, 0));
    }
    for bad in [256, 257, 65_536, u32::MAX] {
        // Before 10.
        assert_eq!(decode_with(|s| (s.limit, s.gain) = (bad, 0.0)), refused(9, 0));
    }
    assert_eq!(decode_with(|s| (s.limit, s.phi_0) = (255, 1)), Ok(1));
}

/// Sets L and W.
fn lift(from: u32, to: u32) -> impl Fn(&mut Settings) {
    move |settings| (settings.lift_from, settings.lift_to) = (from, to)
}

#[test]
fn liftings_at_their_bounds() {
    // Nq is that of the message precision: W is Nq + 1 to 15.
    for (channel, message, nq) in [(3, 2, 1), (3, 3, 3), (4, 3, 3), (4, 4, 7)] {
        let answer = |from, to| {
            decode_with(|s| {
                (s.channel, s.message) = (channel, message);
                lift(from, to)(s);
            })
        };
        for from in [1, 2, 255, 256] {
            assert!((nq + 1..=15).all(|to| answer(from, to).is_ok()));
            for to in [0, nq - 1, nq, 16, 17, 255, 256, nq + 257, 65_545, u32::MAX] {
                assert_eq!(answer(from, to), refused(16, 0), "{from} {to}");
            }
        }
        for from in [0, 257, 258, 511, 512, 65_536, 65_537, 1 << 31, u32::MAX] {
            for to in [0, nq, nq + 1, 15, 16] {
                assert_eq!(answer(from, to), refused(16, 0), "{from} {to}");
            }
        }
    }
}

#[test]
fn liftings_in_the_order() {
    for (from, to) in [(0, 15), (257, 15), (u32::MAX, 15), (1, 3), (256, 3), (256, 16), (0, 0)] {
        let lifted = |change: &dyn Fn(&mut Settings)| {
            decode_with(|s| {
                lift(from, to)(s);
                change(s);
            })
        };
        assert_eq!(lifted(&|_| ()), refused(16, 0));
        // 8 and 9 come before.
        assert_eq!(lifted(&|s| s.channel = 5), refused(8, 0));
        assert_eq!(lifted(&|s| s.message = 4), refused(8, 0));
        assert_eq!(lifted(&|s| s.phi_s = 2), refused(9, 0));
        assert_eq!(lifted(&|s| s.phi_a = 2), refused(9, 0));
        assert_eq!(lifted(&|s| s.phi_0 = 2), refused(9, 0));
        assert_eq!(lifted(&|s| s.limit = 256), refused(9, 0));
        // 10 and 11 after: gain, variance, kind, and twice the largest f32.
        assert_eq!(lifted(&|s| s.gain = 0.0), refused(16, 0));
        assert_eq!(lifted(&|s| (s.kind, s.variance) = (1, f32::NAN)), refused(16, 0));
        assert_eq!(lifted(&|s| s.kind = 2), refused(16, 0));
        let doubled = |s: &mut Settings| (s.kind, s.gain, s.variance) = (1, f32::MAX, 1.0);
        assert_eq!(lifted(&doubled), refused(16, 0));
        // So do 12 and 6; 13 and the graph's come before.
        let mut settings = example_settings();
        lift(from, to)(&mut settings);
        let nothing = LentLengths::needed(0, 0);
        let answer = |graph: &Graph, values: &[f32]| {
            decode(Limits::LENT, graph, values, &settings, &mut [0; 4], &nothing)
        };
        assert_eq!(answer(&example_graph(), &[f32::NAN; 3]), refused(16, 0));
        assert_eq!(answer(&example_graph(), &[f32::NAN; 2]), refused(13, 2));
        assert_eq!(answer(&Graph { n: 4, ..example_graph() }, &[1.0; 4]), refused(5, 2 + 3));
    }
}

const NOT_ABOVE_ZERO: [f32; 7] =
    [0.0, -0.0, -1.0, f32::INFINITY, f32::NEG_INFINITY, f32::NAN, -f32::NAN];

#[test]
fn gains_variances_and_kinds() {
    for bad in NOT_ABOVE_ZERO {
        assert_eq!(decode_with(|s| s.gain = bad), refused(10, 0));
        assert_eq!(decode_with(|s| (s.kind, s.variance, s.gain) = (1, 1.0, bad)), refused(10, 0));
        assert_eq!(decode_with(|s| (s.kind, s.variance) = (1, bad)), refused(10, 0));
        // The variance of a plain gain is unread.
        assert_eq!(decode_with(|s| s.variance = bad), Ok(1));
    }
    for kind in [2, 3, 256, 65_536, u32::MAX] {
        assert_eq!(decode_with(|s| (s.kind, s.variance) = (kind, 1.0)), refused(10, 0));
        // In 10's place of the order: after 9.
        assert_eq!(decode_with(|s| (s.kind, s.limit) = (kind, 256)), refused(9, 0));
    }
    // The smallest positive f32 is above zero, and exposes nothing.
    assert_eq!(decode_with(|s| s.gain = f32::from_bits(1)), refused(20, 0));
}

#[test]
fn factors_infinite_or_zero() {
    let noise = |gain: f32, variance: f32| {
        decode_with(move |s| (s.kind, s.gain, s.variance) = (1, gain, variance))
    };
    // 2 × MAX is infinite.
    assert_eq!(noise(f32::MAX, 1.0), refused(11, 0));
    assert_eq!(noise(f32::MAX, f32::MAX), refused(11, 0));
    // 2 / 2^-149 is past the largest f32.
    assert_eq!(noise(1.0, f32::from_bits(1)), refused(11, 0));
    // 2^-148 / 2^127 is far below half the smallest f32.
    assert_eq!(noise(f32::from_bits(1), f32::from_bits(0x7f000000)), refused(11, 0));
    // 2^-148 / 4 = 2^-150 is half of it, and the even neighbour is 0.
    assert_eq!(noise(f32::from_bits(1), 4.0), refused(11, 0));
    // 2^-148 / 2 = 2^-149 is the smallest f32 itself; the frame is then blank.
    assert_eq!(noise(f32::from_bits(1), 2.0), refused(20, 0));
    // Half the largest f32 can be doubled.
    assert!(noise(f32::MAX / 2.0, 1.0).is_ok());
    assert!(decode_with(|s| s.gain = f32::MAX).is_ok());
}

#[test]
fn values_infinite_or_nan() {
    let settings = example_settings();
    for bad in [f32::INFINITY, f32::NEG_INFINITY, f32::NAN, f32::from_bits(0xff800001)] {
        let at_1 = decode_freely(&example_graph(), &[1.0, bad, bad], &settings);
        assert_eq!(at_1, refused(12, 1));
        // 11 and 10 come before, 6 after.
        let noise = Settings { kind: 1, gain: f32::MAX, variance: 1.0, ..settings };
        assert_eq!(decode_freely(&example_graph(), &[bad; 3], &noise), refused(11, 0));
        let nothing = LentLengths::needed(0, 0);
        let (graph, values, degrees) = (example_graph(), [1.0, 1.0, bad], &mut [0; 3]);
        let short = decode(Limits::LENT, &graph, &values, &settings, degrees, &nothing);
        assert_eq!(short, refused(12, 2));
    }
    let largest = decode_freely(&example_graph(), &[f32::MAX; 3], &settings).unwrap();
    assert_eq!(largest.levels, [plus(3); 3]);
}

#[test]
fn buffers_too_short() {
    // The example has 3 variables and 4 entries.
    let needed = [3, 4, 4, 12, 3];
    let lent = |lengths| {
        let (lengths, degrees) = (LentLengths::from_array(lengths), &mut [0; 3]);
        let (graph, settings) = (example_graph(), example_settings());
        decode(Limits::LENT, &graph, &EXAMPLE_VALUES, &settings, degrees, &lengths).map(|_| ())
    };
    assert_eq!(lent(needed), Ok(()));
    for buffer in 0..needed.len() {
        let mut short = needed;
        short[buffer] -= 1;
        assert_eq!(lent(short), refused(6, 0));
        let mut long = needed;
        long[buffer] += 1;
        assert_eq!(lent(long), Ok(()));
    }
    assert_eq!(lent([0; 5]), refused(6, 0));
}
