//! Pairs of heads: what each is granted and what it comes to with that, worked out by hand on
//! document 01's example and on a larger graph. Every answer and byte is the paper's reading and the
//! fast one's.

use crate::common::pair::{BYTE, Pair, codeword, stopped};
use crate::common::{EXAMPLE_VALUES, example_settings};
use compare::generate::Lists;
use compare::interface::{NEVER, Settings};
use compare::paper::pair::grants;

/// A codeword at iteration 0: 000.
fn at_once() -> Vec<f32> {
    vec![2.5, 0.5, 1.5]
}

/// Document 01's example: 010, then 000 at iteration 1.
fn example() -> Vec<f32> {
    EXAMPLE_VALUES.to_vec()
}

/// Levels +0, +0 and -1. Iteration 0: 001, check 1 is odd. Iteration 1: 1 + 1, 0 + 1 - 3 and -3 + 1,
/// 011, check 0 is odd. Then variable 1 sends check 0 -1: 1 - 3, 0 + 1 - 3 and -3 + 1, 111.
fn slow() -> Vec<f32> {
    vec![0.0, 0.0, -f32::from_bits(0x3f80_0001)]
}

/// Levels +3, -3 and -3: 011 in every iteration, check 0 is odd.
/// Iteration 1: 7 - 7, a tie; -6 + 7 - 7; -7 - 7. Variable 0 sends 7, F = 3: +2; variable 1 sends
/// check 0 -13: -3, and check 1 -6 + 7 = 1: +0; variable 2 sends -7: -2.
/// Iteration 2: 7 - 7; -6 + 5 - 5; -7 + 1. Variable 1 sends -11: -3, and -6 + 5 = -1: -0.
/// Iteration 3: 7 - 7; -6 + 5 - 5; -7 - 1. It goes on like this.
fn endless() -> Vec<f32> {
    vec![3.5, -3.5, -3.5]
}

fn endless_sums(iteration: usize) -> Vec<i32> {
    match iteration {
        0 => vec![0; 3],
        1 => vec![0, -6, -14],
        2 => vec![0, -6, -6],
        _ => vec![0, -6, -8],
    }
}

/// With an allowance that is enough for both.
#[test]
fn each_has_what_it_takes() {
    for allowance in [3, 4, 5, 6, 509, 510] {
        let mut pair = Pair::on_example([(example(), 5), (slow(), 5)], allowance);
        assert_eq!(pair.decode(), Ok([codeword(1), codeword(2)]));
        assert_eq!(pair.heads[0].left(), (vec![4, 8, 2], &[0; 3][..]));
        assert_eq!(pair.heads[1].left(), (vec![-2; 3], &[1; 3][..]));
        assert_eq!(pair.heads[0].levels, [2, 128, 1, BYTE, BYTE, BYTE]);
        assert_eq!(pair.heads[1].levels, [0, 0, 129, BYTE, BYTE, BYTE]);
        // A codeword, iteration 1, no odd check; the same of iteration 2.
        let reports = [[0, 0, 1, 0, 0, 0, 0, 0], [0, 0, 2, 0, 0, 0, 0, 0]].concat();
        assert_eq!(pair.reports, [&reports[..], &[BYTE; 3]].concat());
        assert!(pair.degrees.starts_with(&[1, 0, 0, 0, 2, 0, 0, 0, 1, 0, 0, 0, BYTE]));
    }
}

/// T = 2: each may do 1. The example does it; the other is cut short before its codeword, and says
/// `stopped` with what iteration 1 is.
#[test]
fn cut_short_before_a_codeword() {
    let cut_short = (vec![2, -2, -2], &[0, 1, 1][..]);
    let mut pair = Pair::on_example([(example(), 5), (slow(), 5)], 2);
    assert_eq!(pair.decode(), Ok([codeword(1), stopped(1, 1)]));
    assert_eq!(pair.heads[1].left(), cut_short);
    // The first messages, which are those sent in the iteration before.
    assert_eq!(pair.heads[1].variable_messages[..4], [0, 0, 0, 129]);
    assert_eq!(pair.heads[1].check_messages[..4], [0, 0, 129, 0]);
    // `stopped`, iteration 1, one odd check.
    assert_eq!(pair.reports[8..16], [0, 1, 1, 0, 1, 0, 0, 0]);

    let mut pair = Pair::on_example([(slow(), 5), (example(), 5)], 2);
    assert_eq!(pair.decode(), Ok([stopped(1, 1), codeword(1)]));
    assert_eq!(pair.heads[0].left(), cut_short);

    // T = 3: the half of the first is rounded up, that of the second down.
    let mut pair = Pair::on_example([(slow(), 5), (slow(), 5)], 3);
    assert_eq!(pair.decode(), Ok([codeword(2), stopped(1, 1)]));
    assert_eq!(pair.heads[0].left(), (vec![-2; 3], &[1; 3][..]));
    assert_eq!(pair.heads[1].left(), cut_short);
}

/// Heads that take all they may: their limits alone.
fn endless_pair(limits: [u32; 2], allowance: u32) -> [usize; 2] {
    let mut pair = Pair::on_example(limits.map(|limit| (endless(), limit)), allowance);
    let reports = pair.decode().unwrap();
    for (head, report) in pair.heads.iter().zip(reports) {
        assert_eq!(report, stopped(report.iterations, 1));
        assert_eq!(head.left(), (endless_sums(report.iterations), &[0, 1, 1][..]));
    }
    reports.map(|report| report.iterations)
}

#[test]
fn both_cut_short() {
    assert_eq!(endless_pair([5, 5], 2), [1, 1]);
    assert_eq!(endless_pair([5, 5], 3), [2, 1]);
    assert_eq!(endless_pair([5, 5], 5), [3, 2]);
    assert_eq!(endless_pair([5, 5], 8), [4, 4]);
    assert_eq!(endless_pair([5, 5], 9), [5, 4]);
    assert_eq!(endless_pair([5, 5], 10), [5, 5]);
    assert_eq!(endless_pair([255, 9], 7), [4, 3]);
    assert_eq!(endless_pair([9, 255], 7), [4, 3]);
}

#[test]
fn what_the_other_leaves() {
    // The first takes 3 of 4, and leaves 5 of 8.
    assert_eq!(endless_pair([3, 9], 8), [3, 5]);
    assert_eq!(endless_pair([9, 3], 8), [5, 3]);
    // One short of both, enough for both, and more.
    assert_eq!(endless_pair([3, 9], 11), [3, 8]);
    assert_eq!(endless_pair([3, 9], 12), [3, 9]);
    assert_eq!(endless_pair([3, 9], 13), [3, 9]);
    assert_eq!(endless_pair([9, 3], 11), [8, 3]);
    // Just its half: nothing is left.
    assert_eq!(endless_pair([9, 3], 7), [4, 3]);
    assert_eq!(endless_pair([9, 3], 6), [3, 3]);
    assert_eq!(endless_pair([4, 9], 7), [4, 3]);
    assert_eq!(endless_pair([3, 9], 7), [3, 4]);
}

#[test]
fn limits_of_0() {
    assert_eq!(endless_pair([0, 0], 2), [0, 0]);
    assert_eq!(endless_pair([0, 9], 2), [0, 2]);
    assert_eq!(endless_pair([9, 0], 3), [3, 0]);
    assert_eq!(endless_pair([9, 0], 8), [8, 0]);
    // A codeword at once takes nothing either, whatever its limit.
    for limit in [0, 5, 255] {
        let mut pair = Pair::on_example([(at_once(), limit), (endless(), 9)], 4);
        assert_eq!(pair.decode(), Ok([codeword(0), stopped(4, 1)]));
        assert_eq!(pair.heads[0].left(), (vec![0; 3], &[0; 3][..]));
        assert_eq!(pair.heads[1].left(), (endless_sums(4), &[0, 1, 1][..]));
    }
}

#[test]
fn the_largest_limits() {
    assert_eq!(endless_pair([255, 255], 510), [255, 255]);
    assert_eq!(endless_pair([255, 255], 509), [255, 254]);
    assert_eq!(endless_pair([255, 255], 508), [254, 254]);
    assert_eq!(endless_pair([255, 255], 2), [1, 1]);
    assert_eq!(endless_pair([1, 255], 255), [1, 254]);
    assert_eq!(endless_pair([1, 255], 256), [1, 255]);
    assert_eq!(endless_pair([255, 0], 254), [254, 0]);
    assert_eq!(endless_pair([255, 0], 256), [255, 0]);
}

/// Checks {0, 1}, {0, 2} and {0, 3} at Nch = 3, Nq = 1, φs = 1, W = 2, with levels -3, +3, +3 and
/// -1; the sums are worked out in the tests of lifting and of paused runs.
fn star(limit: u32, lift_from: u32) -> (Vec<f32>, Settings) {
    let settings =
        Settings { message: 2, phi_a: 0, limit, lift_from, lift_to: 2, ..example_settings() };
    (vec![-3.5, 3.5, 3.5, -1.5], settings)
}

fn star_lists() -> Lists {
    Lists::from_rows(4, &[vec![0, 1], vec![0, 2], vec![0, 3]])
}

/// The same values, each by its own settings: never lifted, and from 2 on.
#[test]
fn each_by_its_own_settings() {
    let bits = ([1, 0, 0, 1], [0, 0, 0, 1]);
    let mut pair = Pair::new(star_lists(), [star(9, NEVER), star(9, 2)], 4);
    assert_eq!(pair.decode(), Ok([stopped(2, 2), stopped(2, 1)]));
    assert_eq!(pair.heads[0].left(), (vec![-2, 4, 4, -4], &bits.0[..]));
    assert_eq!(pair.heads[1].left(), (vec![2, 2, 2, -4], &bits.1[..]));
    let mut pair = Pair::new(star_lists(), [star(9, 1), star(9, NEVER)], 3);
    assert_eq!(pair.decode(), Ok([stopped(2, 1), stopped(1, 2)]));
    assert_eq!(pair.heads[0].left(), (vec![2, 2, 2, -2], &bits.1[..]));
    assert_eq!(pair.heads[1].left(), (vec![-4, 4, 4, -6], &bits.0[..]));
}

/// The first takes nothing, and the second goes on past its half of 1: the last step of iteration 1
/// is done with its messages as they count in iteration 1.
#[test]
fn on_from_the_half() {
    let nothing = (vec![3.5; 4], star(9, NEVER).1);
    for (lift_from, sums, sent) in [
        (NEVER, [-2, 4, 4, -4], [128, 128]),
        (2, [2, 2, 2, -4], [128, 128]),
        (1, [2, 2, 2, -2], [0, 128]),
    ] {
        for limit in [2, 9] {
            let mut pair = Pair::new(star_lists(), [nothing.clone(), star(limit, lift_from)], 2);
            let odd = if lift_from == NEVER { 2 } else { 1 };
            assert_eq!(pair.decode(), Ok([codeword(0), stopped(2, odd)]));
            assert_eq!(pair.heads[1].left().0, sums);
            // By variable 0 to check 2, and by variable 3.
            assert_eq!(pair.heads[1].variable_messages[4..6], sent);
            let mut pair = Pair::new(star_lists(), [star(limit, lift_from), nothing.clone()], 2);
            assert_eq!(pair.decode(), Ok([stopped(2, odd), codeword(0)]));
            assert_eq!(pair.heads[0].left().0, sums);
        }
    }
}

/// "Reversing one head's values by a codeword changes nothing of the other's."
#[test]
fn reversed_by_a_codeword() {
    let negated = |values: Vec<f32>| values.into_iter().map(|value| -value).collect::<Vec<f32>>();
    for allowance in [2, 3, 4, 5] {
        let heads = [(slow(), 5), (endless(), 3)];
        let mut pair = Pair::on_example(heads.clone(), allowance);
        let reports = pair.decode();
        for head in 0..2 {
            let mut heads = heads.clone();
            heads[head].0 = negated(heads[head].0.clone());
            let mut other = Pair::on_example(heads, allowance);
            assert_eq!(other.decode(), reports);
            assert_eq!(other.reports, pair.reports);
            assert_eq!(other.heads[1 - head].lists(), pair.heads[1 - head].lists());
            let ((sums, bits), (of_other, mirrored)) =
                (pair.heads[head].left(), other.heads[head].left());
            assert!(sums.iter().zip(of_other).all(|(&sum, other)| sum == -other));
            assert!(bits.iter().zip(mirrored).all(|(bit, other)| bit + other == 1));
        }
    }
}

/// Another head with the same count alone: by a codeword at 2, or by a limit of 2.
#[test]
fn only_the_count_of_the_other() {
    for allowance in 2..=8 {
        let mut pair = Pair::on_example([(endless(), 5), (slow(), 9)], allowance);
        let mut other = Pair::on_example([(endless(), 5), (endless(), 2)], allowance);
        assert_eq!(pair.decode().unwrap()[0], other.decode().unwrap()[0]);
        assert_eq!(pair.heads[0].lists(), other.heads[0].lists());
    }
}

/// Of all counts and allowances: nobody has more than it takes, together they never exceed T, and
/// take all of it that they can; each has its half if it takes so much. What is granted is also what
/// a head has that goes on from its half by what the other has not taken of its own, and it makes no
/// difference whether the other's count or its grant is taken from T.
#[test]
fn every_grant() {
    for allowance in 2..=510 {
        let halves = [allowance - allowance / 2, allowance / 2];
        for a in 0..=255 {
            for b in 0..=255 {
                let [first, second] = grants(allowance, a, b);
                assert!(first <= a && second <= b);
                assert_eq!(first + second, allowance.min(a + b));
                assert!(first >= a.min(halves[0]) && second >= b.min(halves[1]));
                let left = [halves[0] - a.min(halves[0]), halves[1] - b.min(halves[1])];
                assert_eq!(first, a.min(halves[0] + left[1]));
                assert_eq!(second, b.min(halves[1] + left[0]));
                assert_eq!(first, a.min(halves[0].max(allowance - second)));
                assert_eq!(second, b.min(halves[1].max(allowance - first)));
            }
        }
    }
}
