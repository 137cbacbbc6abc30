//! The paper's whole example and its trial values.

use crate::common::*;
use compare::interface::{Settings, Verdict};
use compare::paper::quantiser::{largest_magnitude, quantise};
use compare::paper::rules::{
    Offsets, bit, channel_extra, check_message, outgoing_magnitude, outgoing_sum, posterior_sum,
    variable_message,
};
use compare::paper::{Graph, Scaling};

const ALL_OFF: Offsets = Offsets { phi_s: 0, phi_a: 0, phi_0: 0 };
const ONE_ONE_ZERO: Offsets = Offsets { phi_s: 1, phi_a: 1, phi_0: 0 };

#[test]
fn whole_example() {
    let outcome = decode_freely(&example_graph(), &EXAMPLE_VALUES, &example_settings()).unwrap();
    assert_eq!(outcome.verdict, Verdict::Codeword);
    assert_eq!((outcome.iterations, outcome.unsatisfied), (1, 0));
    // 1 and 2 lie below 2.5, none below 0.5, 1 below 1.5.
    assert_eq!(outcome.levels, [plus(2), minus(0), plus(1)]);
    // Those sent in iteration 0, by check.
    assert_eq!(outcome.variable_messages, [plus(2), minus(0), minus(0), plus(1)]);
    // Of two senders each hears the other.
    assert_eq!(outcome.check_messages, [minus(0), plus(2), plus(1), minus(0)]);
    // Degrees 1, 2, 1: 5 - 1, -0 + 5 + 3, 3 - 1.
    assert_eq!(outcome.sums, [4, 8, 2]);
    assert_eq!(outcome.bits, [0, 0, 0]);
}

#[test]
fn example_negated_throughout() {
    let values = EXAMPLE_VALUES.map(|value| -value);
    let outcome = decode_freely(&example_graph(), &values, &example_settings()).unwrap();
    assert_eq!(outcome.verdict, Verdict::Codeword);
    assert_eq!((outcome.iterations, outcome.unsatisfied), (1, 0));
    assert_eq!(outcome.levels, [minus(2), plus(0), minus(1)]);
    assert_eq!(outcome.variable_messages, [minus(2), plus(0), plus(0), minus(1)]);
    assert_eq!(outcome.check_messages, [plus(0), minus(2), minus(1), plus(0)]);
    assert_eq!(outcome.sums, [-4, -8, -2]);
    assert_eq!(outcome.bits, [1, 1, 1]);
}

#[test]
fn example_with_limit_0() {
    let settings = Settings { limit: 0, ..example_settings() };
    let outcome = decode_freely(&example_graph(), &EXAMPLE_VALUES, &settings).unwrap();
    assert_eq!(outcome.verdict, Verdict::Stopped);
    assert_eq!((outcome.iterations, outcome.unsatisfied), (0, 2));
    assert_eq!(outcome.bits, [0, 1, 0]);
    // At iteration 0 the variable messages are its own, check messages and sums all 0.
    assert_eq!(outcome.variable_messages, [plus(2), minus(0), minus(0), plus(1)]);
    assert_eq!(outcome.check_messages, [plus(0); 4]);
    assert_eq!(outcome.sums, [0; 3]);
}

#[test]
fn example_all_plus_zero() {
    let outcome = decode_freely(&example_graph(), &[0.0; 3], &example_settings());
    assert_eq!(outcome, refused(20, 0));
}

#[test]
fn limits_255_and_256() {
    let at = |limit| {
        let settings = Settings { limit, ..example_settings() };
        decode_freely(&example_graph(), &EXAMPLE_VALUES, &settings)
    };
    assert_eq!(at(255).unwrap().iterations, 1);
    assert_eq!(at(256), refused(9, 0));
}

#[test]
fn a_check_of_degree_1() {
    let graph = Graph { n: 3, starts: &[0, 3, 4], columns: &[0, 1, 2, 2] };
    assert_eq!(decode_freely(&graph, &EXAMPLE_VALUES, &example_settings()), refused(5, 1));
}

#[test]
fn quantiser_at_gain_1() {
    let level = |bits: u32| quantise(1.0, 3, f32::from_bits(bits));
    assert_eq!(level(0x3f800000), plus(0));
    assert_eq!(level(0x3f800001), plus(1));
    assert_eq!(level(0x40400000), plus(2));
    assert_eq!(level(0x40400001), plus(3));
    assert_eq!(level(0x80000000), minus(0));
    // The same below zero, and nothing above Nch.
    assert_eq!(level(0xbf800001), minus(1));
    assert_eq!(level(0x7f7fffff), plus(3));
    assert_eq!(quantise(1.0, 7, 7.0), plus(6));
    assert_eq!(quantise(1.0, 7, -7.5), minus(7));
}

#[test]
fn factor_of_each_scaling() {
    assert_eq!(Scaling::Plain(0.75).factor(), 0.75);
    // (2 × 3) / 4
    assert_eq!(Scaling::Noise(3.0, 4.0).factor(), 1.5);
    // 2 × gain is rounded on its own: past the largest f32 it is infinite, whatever the
    // variance, though (gain / variance) × 2 would be 2.
    assert!(Scaling::Noise(f32::MAX, f32::MAX).factor().is_infinite());
}

#[test]
fn precisions() {
    assert_eq!([2, 3, 4].map(largest_magnitude), [1, 3, 7]);
    assert_eq!(plus(5).byte(), 5);
    assert_eq!(minus(0).byte(), 128);
    assert_eq!(minus(7).byte(), 135);
}

#[test]
fn channel_extras() {
    // e by degree, from d = 1
    assert_eq!([1, 2, 3, 4, 5, 6, 31, 32].map(channel_extra), [1, 0, 1, 2, 1, 2, 1, 2]);
}

/// The outgoing sum towards a check whose own message would be far off.
fn towards_last(channel: compare::paper::Level, others: &[compare::paper::Level]) -> i32 {
    let mut incoming = others.to_vec();
    incoming.push(minus(7));
    outgoing_sum(channel, &incoming, others.len())
}

#[test]
fn starred_sums() {
    // d = 3, level +3, others -1, -2: 7 - 3 - 5
    let u = towards_last(plus(3), &[minus(1), minus(2)]);
    assert_eq!(u, -1);
    assert_eq!(variable_message(u, 3, ALL_OFF), minus(0));
    // d = 2, +1, other -1: 2 - 3
    let u = towards_last(plus(1), &[minus(1)]);
    assert_eq!(u, -1);
    assert_eq!(variable_message(u, 3, ALL_OFF), minus(0));
    // d = 4, -0, others +0, +0, -0: -2 + 1 + 1 - 1
    assert_eq!(towards_last(minus(0), &[plus(0), plus(0), minus(0)]), -1);
}

#[test]
fn starred_offsets() {
    let sends =
        |channel, others: &[_]| variable_message(towards_last(channel, others), 3, ONE_ONE_ZERO);
    // U = 9, F = 4 > Nq
    assert_eq!(sends(plus(3), &[plus(0), plus(0)]), plus(3));
    // U = 7, F = 3 = Nq
    assert_eq!(sends(plus(3), &[plus(0), minus(0)]), plus(2));
    // U = 3, F = 1
    assert_eq!(sends(plus(1), &[plus(0), minus(0)]), plus(1));
}

#[test]
fn outgoing_magnitudes_by_hand() {
    let row = |nq, phi_s, phi_a, phi_0| {
        let offsets = Offsets { phi_s, phi_a, phi_0 };
        [0, 1, 2, 3, 4, 5, 6, 7, 8, 9].map(|f| outgoing_magnitude(f, nq, offsets))
    };
    assert_eq!(row(1, 0, 0, 0), [0, 1, 1, 1, 1, 1, 1, 1, 1, 1]);
    assert_eq!(row(1, 1, 0, 0), [0, 0, 1, 1, 1, 1, 1, 1, 1, 1]);
    assert_eq!(row(1, 0, 1, 1), [0, 1, 1, 1, 1, 1, 1, 1, 1, 1]);
    assert_eq!(row(3, 0, 0, 0), [0, 1, 2, 3, 3, 3, 3, 3, 3, 3]);
    assert_eq!(row(3, 1, 0, 0), [0, 1, 2, 2, 3, 3, 3, 3, 3, 3]);
    assert_eq!(row(3, 0, 1, 0), [0, 1, 1, 3, 3, 3, 3, 3, 3, 3]);
    assert_eq!(row(3, 0, 0, 1), [0, 0, 2, 3, 3, 3, 3, 3, 3, 3]);
    assert_eq!(row(7, 1, 1, 1), [0, 0, 1, 2, 3, 4, 5, 6, 7, 7]);
    assert_eq!(row(7, 0, 1, 0), [0, 1, 1, 2, 3, 4, 5, 7, 7, 7]);
}

// Where decoders of this kind go astray.

#[test]
fn negative_zero_is_minus() {
    assert_eq!(quantise(2.5, 7, -0.0), minus(0));
    assert_eq!(quantise(2.5, 7, 0.0), plus(0));
    // Its bit at iteration 0 is 1.
    let settings = Settings { limit: 0, ..example_settings() };
    let outcome = decode_freely(&example_graph(), &[2.0, -0.0, 0.0], &settings).unwrap();
    assert_eq!(outcome.levels, [plus(1), minus(0), plus(0)]);
    assert_eq!(outcome.bits, [0, 1, 0]);
    assert_eq!(outcome.unsatisfied, 2);
}

#[test]
fn a_product_at_a_threshold_is_not_above_it() {
    assert_eq!(quantise(1.0, 3, 1.0), plus(0));
    assert_eq!(quantise(0.5, 3, 4.0), plus(1));
    assert_eq!(quantise(2.0, 7, -3.5), minus(6));
}

#[test]
fn own_message_left_out_of_a_check() {
    let incoming = [plus(1), minus(3), minus(2)];
    assert_eq!(check_message(&incoming, 0), plus(2));
    assert_eq!(check_message(&incoming, 1), minus(1));
    assert_eq!(check_message(&incoming, 2), minus(1));
    // A tie for the least leaves it the least for everyone.
    let tied = [minus(1), plus(1), plus(3)];
    assert_eq!(check_message(&tied, 0), plus(1));
    assert_eq!(check_message(&tied, 2), minus(1));
}

#[test]
fn tied_sum_takes_the_channel_sign() {
    // d = 1: 5 - 5
    assert_eq!(posterior_sum(plus(2), &[minus(2)]), 0);
    assert_eq!(bit(0, plus(2)), 0);
    assert_eq!(bit(0, minus(2)), 1);
    assert_eq!(bit(-1, plus(3)), 1);
    assert_eq!(bit(1, minus(3)), 0);
    // Checks {0, 1} and {1, 2}, values -2.5, +2.5, +2.5, limit 1. Variable 0 hears +2:
    // -5 + 5. Variable 1 hears -2 and +2: 4 - 5 + 5. Variable 2 hears +2: 5 + 5.
    let settings = Settings { limit: 1, ..example_settings() };
    let outcome = decode_freely(&example_graph(), &[-2.5, 2.5, 2.5], &settings).unwrap();
    assert_eq!(outcome.sums, [0, 4, 10]);
    assert_eq!(outcome.bits, [1, 0, 0]);
    assert_eq!(outcome.verdict, Verdict::Stopped);
    assert_eq!((outcome.iterations, outcome.unsatisfied), (1, 1));
}

#[test]
fn phi_s_applies_at_f_1_when_nq_is_1() {
    let only_0 = Offsets { phi_s: 0, phi_a: 0, phi_0: 1 };
    let only_s = Offsets { phi_s: 1, phi_a: 0, phi_0: 0 };
    assert_eq!(outgoing_magnitude(1, 1, only_0), 1);
    assert_eq!(outgoing_magnitude(1, 1, only_s), 0);
    assert_eq!(outgoing_magnitude(1, 3, only_0), 0);
    assert_eq!(outgoing_magnitude(1, 3, only_s), 1);
}

#[test]
fn no_offset_past_nq() {
    let all_on = Offsets { phi_s: 1, phi_a: 1, phi_0: 1 };
    for nq in [1u8, 3, 7] {
        assert_eq!(outgoing_magnitude(i32::from(nq) + 1, nq, all_on), nq);
    }
}

/// Two iterations by hand, so that a variable's second message is seen too.
#[test]
fn two_iterations() {
    // Checks {0, 1} and {0, 1, 2}. Values -2.5, +1.5, +0.5, offsets off, limit 2.
    let graph = Graph { n: 3, starts: &[0, 2, 5], columns: &[0, 1, 0, 1, 2] };
    let settings = Settings { phi_s: 0, phi_a: 0, limit: 2, ..example_settings() };
    let outcome = decode_freely(&graph, &[-2.5, 1.5, 0.5], &settings).unwrap();
    // Levels -2, +1, +0. Iteration 0: bits 100, both checks odd.
    // Iteration 1: check 0 sends +1, -2; check 1 sends +0, -0, -1.
    // Sums: -4 + 3 + 1 = 0; 2 - 5 - 1 = -4; 1 - 3 = -2. Bits 1 (tie), 1, 1: check 1 is odd.
    // Messages: 0 to check 0: -4 + 1 = -3, F = 1: -1. 0 to check 1: -4 + 3 = -1: -0.
    // 1 to check 0: 2 - 1 = 1: +0. 1 to check 1: 2 - 5 = -3: -1. 2 to check 1: 1: +0.
    assert_eq!(outcome.variable_messages, [minus(1), plus(0), minus(0), minus(1), plus(0)]);
    // Iteration 2: check 0 sends +0, -1; check 1 sends -0, -0, +0.
    assert_eq!(outcome.check_messages, [plus(0), minus(1), minus(0), minus(0), plus(0)]);
    // Sums: -4 + 1 - 1 = -4; 2 - 3 - 1 = -2; 1 + 1 = 2. Bits 110: both checks even.
    assert_eq!(outcome.sums, [-4, -2, 2]);
    assert_eq!(outcome.bits, [1, 1, 0]);
    assert_eq!(outcome.verdict, Verdict::Codeword);
    assert_eq!((outcome.iterations, outcome.unsatisfied), (2, 0));
}
