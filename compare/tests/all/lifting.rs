//! Saturated messages that are lifted: rules and whole runs by hand, and how often it shows.

use crate::common::*;
use compare::generate::cases::{self, Case, DecodeCase, TwinCase};
use compare::generate::lifting::admitted;
use compare::interface::{NEVER, Settings, Verdict};
use compare::paper::quantiser::largest_magnitude;
use compare::paper::rules::{Lifting, Offsets, counted, outgoing_sum, variable_message};
use compare::paper::{Graph, Level, Outcome};
use compare::random::Random;

const FROM_3_TO_9: Lifting = Lifting { from: Some(3), to: 9 };

#[test]
fn the_trial() {
    // Nq = 1, φs = 1, W = 2, d = 3, level -3, others +1, +1.
    let offsets = Offsets { phi_s: 1, phi_a: 0, phi_0: 0 };
    let sends = |from| {
        let lifting = Lifting { from, to: 2 };
        // The message of the recipient does not count.
        let incoming = [plus(1), plus(1), minus(1)].map(|m| counted(m, 4, 1, lifting));
        let u = outgoing_sum(minus(3), &incoming, 2);
        (u, variable_message(u, 1, offsets))
    };
    // -7 + 5 + 5, F = 1 = Nq
    assert_eq!(sends(Some(4)), (3, plus(0)));
    assert_eq!(sends(Some(1)), (3, plus(0)));
    // -7 + 3 + 3
    assert_eq!(sends(Some(5)), (-1, minus(0)));
    assert_eq!(sends(None), (-1, minus(0)));
}

#[test]
fn how_messages_count() {
    // From iteration 3 on, and at no iteration where it is never.
    for iteration in [1, 2, 3, 4, 255, 256, 257, 1_000] {
        let lifted = if iteration < 3 { 7 } else { 9 };
        assert_eq!(counted(plus(7), iteration, 7, FROM_3_TO_9), plus(lifted));
        assert_eq!(counted(minus(7), iteration, 7, FROM_3_TO_9), minus(lifted));
        assert_eq!(counted(plus(7), iteration, 7, Lifting { from: None, to: 9 }), plus(7));
    }
    // Magnitude Nq alone.
    for nq in [1, 3, 7] {
        for magnitude in 0..nq {
            assert_eq!(counted(plus(magnitude), 3, nq, FROM_3_TO_9), plus(magnitude));
            assert_eq!(counted(minus(magnitude), 3, nq, FROM_3_TO_9), minus(magnitude));
        }
        assert_eq!(counted(plus(nq), 3, nq, FROM_3_TO_9), plus(9));
    }
}

/// Checks {0, 1}, {0, 2} and {0, 3} at Nch = 3, Nq = 1, φs = 1, W = 2, with the values -3.5,
/// +3.5, +3.5, -1.5: levels -3, +3, +3, -1. Variable 0 is the trial's.
fn star(limit: u32, lift_from: u32) -> Outcome {
    let graph = Graph { n: 4, starts: &[0, 2, 4, 6], columns: &[0, 1, 0, 2, 0, 3] };
    let settings =
        Settings { message: 2, phi_a: 0, limit, lift_from, lift_to: 2, ..example_settings() };
    decode_freely(&graph, &[-3.5, 3.5, 3.5, -1.5], &settings).unwrap()
}

/// Stopped at its limit with these sums and bits, and so many odd checks.
fn stopped(outcome: &Outcome, sums: [i32; 4], bits: [u8; 4], unsatisfied: usize) {
    assert_eq!(outcome.verdict, Verdict::Stopped);
    assert_eq!((&outcome.sums[..], &outcome.bits[..]), (&sums[..], &bits[..]));
    assert_eq!(outcome.unsatisfied, unsatisfied);
}

#[test]
fn first_messages_and_levels_are_never_lifted() {
    let outcome = star(0, 1);
    assert_eq!(outcome.levels, [minus(3), plus(3), plus(3), minus(1)]);
    let sent = [minus(1), plus(1), minus(1), plus(1), minus(1), minus(1)];
    assert_eq!(outcome.variable_messages, sent);
    stopped(&outcome, [0; 4], [1, 0, 0, 1], 2);
}

#[test]
fn lifted_in_the_posterior_sum() {
    // Every check sends each of its two the other's message, lifted or not.
    let heard = [plus(1), minus(1), plus(1), minus(1), minus(1), minus(1)];
    // -7 + 3 + 3 - 3; 7 - 3 twice; -3 - 3
    let without = star(1, 2);
    assert_eq!(without.check_messages, heard);
    stopped(&without, [-4, 4, 4, -6], [1, 0, 0, 1], 2);
    // -7 + 5 + 5 - 5; 7 - 5 twice; -3 - 5
    let lifted = star(1, 1);
    assert_eq!(lifted.check_messages, heard);
    stopped(&lifted, [-2, 2, 2, -8], [1, 0, 0, 1], 2);
}

#[test]
fn lifted_in_the_outgoing_sum() {
    let (always, sent_by_1_and_2, sent_by_3) = (minus(1), plus(1), minus(0));
    let sent = |last| [always, sent_by_1_and_2, always, sent_by_1_and_2, last, sent_by_3];
    // Variable 0 in iteration 1, to checks 0 and 1: -7 + 3 - 3 = -7 or -7 + 5 - 5 = -7, F = 3.
    // To check 2, the trial: -7 + 3 + 3 = -1 or -7 + 5 + 5 = 3. Variables 1 and 2: 7, F = 3.
    // Variable 3: -3, F = 1.
    let heard = |last| [plus(1), minus(1), plus(1), minus(1), minus(0), last];

    // Iteration 2 without: -7 + 3 + 3 - 1; 7 - 3 twice; -3 - 1
    let without = star(2, NEVER);
    assert_eq!(without.variable_messages, sent(minus(0)));
    assert_eq!(without.check_messages, heard(minus(0)));
    stopped(&without, [-2, 4, 4, -4], [1, 0, 0, 1], 2);

    // From 2 on, what iteration 1 sent is as it was: -7 + 5 + 5 - 1; 7 - 5 twice; -3 - 1
    let from_2 = star(2, 2);
    assert_eq!(from_2.variable_messages, sent(minus(0)));
    assert_eq!(from_2.check_messages, heard(minus(0)));
    stopped(&from_2, [2, 2, 2, -4], [0, 0, 0, 1], 1);

    // From 1 on: the same but for variable 3, -3 + 1
    let from_1 = star(2, 1);
    assert_eq!(from_1.variable_messages, sent(plus(0)));
    assert_eq!(from_1.check_messages, heard(plus(0)));
    stopped(&from_1, [2, 2, 2, -2], [0, 0, 0, 1], 1);
}

/// The example's graph with levels +3, -3, -3. Without lifting variable 0 is in a tie from
/// iteration 1 on: 7 - 7, and it keeps its sign. Variable 1 hears +3 and -3, then +2 and -2:
/// -6. Variable 2 hears -3: -14; then +0, as -6 + 7 = 1: -6; then -0, as -6 + 5 = -1: -8.
#[test]
fn a_run_that_stalls() {
    let decoded = |lift_from, lift_to| {
        let settings = Settings { lift_from, lift_to, ..example_settings() };
        let outcome = decode_freely(&example_graph(), &[3.5, -3.5, -3.5], &settings).unwrap();
        (outcome.verdict, outcome.iterations, outcome.unsatisfied, outcome.sums, outcome.bits)
    };
    let stalled = (Verdict::Stopped, 5, 1, vec![0, -6, -8], vec![0, 1, 1]);
    assert_eq!(decoded(NEVER, 15), stalled);
    assert_eq!(decoded(NEVER, 4), stalled);
    assert_eq!(decoded(6, 4), stalled);
    // From any iteration before, variable 0 turns there: 7 - (2W + 1).
    for (lift_from, lift_to) in (1..=5).flat_map(|from| (4..=15).map(move |to| (from, to))) {
        let (verdict, iterations, _, sums, _) = decoded(lift_from, lift_to);
        assert_eq!((verdict, iterations), (Verdict::Codeword, lift_from as usize));
        assert_eq!(sums[0], 6 - 2 * lift_to as i32);
    }
    // 7 - 9 at iteration 3
    assert_eq!(decoded(3, 4), (Verdict::Codeword, 3, 0, vec![-2, -6, -8], vec![1, 1, 1]));
    // 7 - 11, -6 + 11 - 11 and -7 - 11 at iteration 1
    assert_eq!(decoded(1, 5), (Verdict::Codeword, 1, 0, vec![-4, -6, -18], vec![1, 1, 1]));
}

/// Check {0, 1}, levels +3 and -3, offsets off: each hears the other's 3 in every iteration.
#[test]
fn the_last_iteration() {
    let graph = Graph { n: 2, starts: &[0, 2], columns: &[0, 1] };
    let sums = |limit, lift_from| {
        let settings = Settings { phi_s: 0, limit, lift_from, lift_to: 4, ..example_settings() };
        let outcome = decode_freely(&graph, &[9.0, -9.0], &settings).unwrap();
        assert_eq!((outcome.verdict, outcome.iterations), (Verdict::Stopped, limit as usize));
        assert_eq!(outcome.check_messages, [minus(3), plus(3)]);
        outcome.sums
    };
    // 7 - 9
    assert_eq!(sums(255, 255), [-2, 2]);
    assert_eq!(sums(255, 256), [0, 0]);
    assert_eq!(sums(254, 255), [0, 0]);
    assert_eq!(sums(254, 254), [-2, 2]);
    assert_eq!(sums(255, 1), [-2, 2]);
}

/// "The posterior bound then uses W in place of Nq": 2Nch + e + d(2W + 1), and it is reached.
#[test]
fn the_largest_sums() {
    let mut starts: Vec<u32> = (0..=33).map(|check| 2 * check).collect();
    let columns = [[0, 1].repeat(32), vec![2, 3]].concat();
    let sums = |values: &[f32; 4], lift_from| {
        let graph = Graph { n: 4, starts: &starts, columns: &columns };
        let precise = Settings { channel: 4, message: 4, phi_s: 0, phi_a: 0, ..example_settings() };
        let settings = Settings { limit: 2, lift_from, ..precise };
        decode_freely(&graph, values, &settings).unwrap().sums
    };
    // 14 + 2 + 32 × 31, where nothing is lifted 14 + 2 + 32 × 15; 15 - 31, else 15 - 15
    assert_eq!(sums(&[9.0, 9.0, 9.0, -9.0], 1), [1008, 1008, -16, 16]);
    assert_eq!(sums(&[-9.0, -9.0, 9.0, -9.0], 2), [-1008, -1008, -16, 16]);
    assert_eq!(sums(&[9.0, 9.0, 9.0, -9.0], 3), [496, 496, 0, 0]);
    // A 33rd check is one too many.
    starts.push(68);
    let graph = Graph { n: 4, starts: &starts, columns: &[&columns[..], &[0, 1]].concat() };
    assert_eq!(decode_freely(&graph, &[9.0; 4], &example_settings()), refused(5, 34));
}

/// The accepted decodes among the inputs of a seed, with their outcomes.
fn accepted_decodes(inputs: u64) -> impl Iterator<Item = (DecodeCase, Outcome)> {
    let cases = (0..inputs).map(|input| cases::any(&mut Random::for_input(17, input)));
    cases.filter_map(|case| match case {
        Case::Decode(case) => case.outcome().ok().map(|outcome| (case, outcome)),
        Case::Twin(TwinCase { decode, .. }) => {
            decode.outcome().ok().map(|outcome| (decode, outcome))
        }
        _ => None,
    })
}

fn outcome_with(case: &DecodeCase, lift_from: u32, lift_to: u32) -> Outcome {
    let settings = Settings { lift_from, lift_to, ..case.settings };
    DecodeCase { settings, ..case.clone() }.outcome().unwrap()
}

#[test]
fn never_is_the_same_for_every_w() {
    for (case, _) in accepted_decodes(600) {
        let plain = case.unlifted().outcome().unwrap();
        for lift_to in admitted(case.settings.message) {
            assert_eq!(outcome_with(&case, NEVER, lift_to), plain);
        }
    }
}

/// Of 3,369 accepted runs 797 never lift; 783 others come out otherwise by lifting, 346 of them
/// with other bits.
#[test]
fn lifting_shows_often_enough() {
    let [mut accepted, mut never, mut bits] = [0; 3];
    let mut changed = Vec::new();
    for (case, outcome) in accepted_decodes(18_200) {
        let plain = case.unlifted().outcome().unwrap();
        accepted += 1;
        never += usize::from(case.settings.lift_from == NEVER);
        bits += usize::from(plain.bits != outcome.bits);
        if plain != outcome {
            changed.push(case.settings);
        }
    }
    let of = |wanted: &dyn Fn(&Settings) -> bool| changed.iter().filter(|s| wanted(s)).count();
    assert!(accepted > 3_300, "{accepted} accepted");
    assert!(4 * never > accepted - 200 && 2 * never < accepted, "{never} never lift");
    assert!(changed.len() > 700 && bits > 300, "{} changed, {bits} bits", changed.len());
    for message in [2, 3, 4] {
        assert!(of(&|settings| settings.message == message) > 100, "message precision {message}");
    }
    for lift_from in [1, 2] {
        assert!(of(&|settings| settings.lift_from == lift_from) > 100, "from {lift_from} on");
    }
    assert!(of(&|settings| settings.lift_from > 9) > 100, "from late on");
}

/// From one after the stop on it never shows, from the stop or one before it often.
#[test]
fn lifting_around_the_stop() {
    let mut shown = [0; 3];
    for (case, _) in accepted_decodes(6_000) {
        let plain = case.unlifted().outcome().unwrap();
        for (before, shown) in shown.iter_mut().enumerate() {
            let lift_from = (plain.iterations + 1).saturating_sub(before) as u32;
            if lift_from > 0 {
                let lifted = outcome_with(&case, lift_from, case.settings.lift_to);
                *shown += usize::from(lifted != plain);
            }
        }
    }
    assert_eq!(shown[0], 0);
    assert!(shown[1] > 400 && shown[2] > 300, "{shown:?}");
}

/// The lists keep what was sent.
#[test]
fn messages_stay_within_their_precision() {
    for (case, outcome) in accepted_decodes(3_000) {
        let nq = largest_magnitude(case.settings.message);
        let within = |message: &Level| message.magnitude <= nq;
        assert!(outcome.check_messages.iter().all(within));
        assert!(outcome.variable_messages.iter().all(within));
    }
}
