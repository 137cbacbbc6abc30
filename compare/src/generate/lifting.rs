//! From which iteration on saturated messages are lifted, and to what: admitted and not.

use super::Lists;
use super::cases::{Case, DecodeCase, decode_case};
use super::settings::{PRECISIONS, plain};
use crate::interface::{LARGEST_LIFT, NEVER, Settings};
use crate::paper::quantiser::largest_magnitude;
use crate::random::Random;

/// L outside its bounds.
pub const BAD_FROM: [u32; 8] = [0, 257, u32::MAX, 258, 512, 65_536, 65_537, 1 << 31 | 1];

/// W outside its bounds, whatever the message precision.
pub const BAD_TO: [u32; 9] = [0, 16, u32::MAX, 1, 17, 255, 265, 65_545, 1 << 31 | 9];

/// Every W that a message precision admits.
pub fn admitted(message: u32) -> impl Iterator<Item = u32> {
    u32::from(largest_magnitude(message)) + 1..=LARGEST_LIFT
}

/// L and W that decode accepts: never in a third of the runs, early in most others.
pub fn lift(random: &mut Random, settings: &mut Settings) {
    let every: Vec<u32> = admitted(settings.message).collect();
    settings.lift_to = random.pick(&every);
    settings.lift_from = match random.below(12) {
        0..=3 => NEVER,
        4..=6 => 1,
        7 | 8 => 2,
        9 => random.between(3, 9) as u32,
        10 => random.between(1, 256) as u32,
        _ => random.pick(&[254, 255, settings.limit.max(1), settings.limit + 1]),
    };
}

/// L where the run stops without lifting, or one before or after it.
pub fn lift_around_stop(random: &mut Random, case: &mut DecodeCase) {
    if let Ok(outcome) = case.unlifted().outcome() {
        let around = (outcome.iterations + random.below(3)).saturating_sub(1);
        case.settings.lift_from = around.max(1) as u32;
    }
}

/// Changes L or W to one that decode may turn down.
pub fn damage(random: &mut Random, settings: &mut Settings) {
    match random.below(3) {
        0 => settings.lift_from = random.pick(&BAD_FROM),
        1 => settings.lift_to = random.pick(&BAD_TO),
        // Nq of each message precision.
        _ => settings.lift_to = random.pick(&[1, 3, 7]),
    }
}

/// Every admitted W with L at its ends and around the limit, and the largest sums.
pub fn admitted_cases() -> Vec<Case> {
    let mut cases = Vec::new();
    for settings in PRECISIONS.map(plain) {
        for lift_to in admitted(settings.message) {
            let around = [(1, 6), (2, 6), (5, 6), (6, 6), (7, 6), (254, 255), (255, 255)];
            for (lift_from, limit) in around.into_iter().chain([(NEVER, 255)]) {
                cases.push(stalled(Settings { limit, lift_from, lift_to, ..settings }));
            }
        }
        cases.extend([9.0, -9.0].map(|value| largest_sums(value, settings)));
    }
    cases
}

/// Checks {0, 1}, {0, 2} and {0, 3}. Variables 0 and 3 are -Nch, the others +Nch: in every
/// iteration from 1 on variable 0 hears +Nq, +Nq and a message of magnitude Nq or less from
/// check {0, 3}, and there is no codeword.
fn stalled(settings: Settings) -> Case {
    let lists = Lists::from_rows(4, &[vec![0, 1], vec![0, 2], vec![0, 3]]);
    Case::Decode(decode_case(&lists, &[-9.0, 9.0, 9.0, -9.0], settings))
}

/// All 32 checks of variables 0 and 1 agree with both, and their messages count as 15, so that
/// no sum is larger. Check {2, 3} is always odd.
fn largest_sums(value: f32, settings: Settings) -> Case {
    let mut rows = vec![vec![0, 1]; 32];
    rows.push(vec![2, 3]);
    let values = [value, value, value, -value];
    let settings = Settings { lift_from: 1, ..settings };
    Case::Decode(decode_case(&Lists::from_rows(4, &rows), &values, settings))
}

#[cfg(test)]
mod tests {
    use super::*;

    #[test]
    fn every_admitted_lift_is_accepted_and_shows() {
        let cases = admitted_cases();
        // W from 4, 2, 8 and 4 to 15; the largest sums of each precision.
        assert_eq!(cases.len(), 8 * (12 + 14 + 8 + 12) + 4 * 2);
        for case in cases {
            let Case::Decode(case) = case else {
                panic!("{case:?} is no decode");
            };
            let plain = case.unlifted().outcome().unwrap();
            assert_eq!(plain.iterations, case.settings.limit as usize);
            let lifts = case.settings.lift_from <= case.settings.limit;
            assert_eq!(plain != case.outcome().unwrap(), lifts, "{:?}", case.settings);
        }
    }
}
