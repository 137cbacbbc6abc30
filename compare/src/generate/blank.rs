//! Blank frames, and frames with as little exposed as there can be: zeros of either sign,
//! subnormal values, and values around the first threshold.

use crate::paper::quantise;
use crate::random::Random;

/// The least subnormal value and the largest.
pub const SUBNORMAL: [u32; 2] = [1, 0x7f_ffff];

/// Whether a value's magnitude is above 0, whatever the precision.
fn is_exposed(factor: f32, value: f32) -> bool {
    quantise(factor, 1, value).magnitude > 0
}

/// The largest value of magnitude 0, as halving the f32 above zero finds it. Where no value is
/// exposed it is the largest f32.
pub fn edge(factor: f32) -> f32 {
    let (mut unexposed, mut exposed) = (0, f32::INFINITY.to_bits());
    while unexposed + 1 < exposed {
        let middle = unexposed + (exposed - unexposed) / 2;
        match is_exposed(factor, f32::from_bits(middle)) {
            true => exposed = middle,
            false => unexposed = middle,
        }
    }
    f32::from_bits(unexposed)
}

fn with_any_sign(random: &mut Random, size: f32) -> f32 {
    if random.one_in(2) { -size } else { size }
}

/// A value of magnitude 0, which the edge is the largest of.
fn unexposed(random: &mut Random, edge: f32) -> f32 {
    let size = match random.below(6) {
        0 => edge,
        1 => f32::from_bits(edge.to_bits() - random.between(1, 3) as u32),
        2 => f32::from_bits(random.pick(&SUBNORMAL)).min(edge),
        3 => f32::from_bits(random.below(edge.to_bits() as usize + 1) as u32),
        _ => 0.0,
    };
    with_any_sign(random, size)
}

/// A value of magnitude above 0, mostly the least, if there is one.
fn exposed(random: &mut Random, edge: f32) -> Option<f32> {
    let least = edge.next_up();
    let size = match random.below(4) {
        0 => (2.0 * least).min(f32::MAX),
        1 => f32::MAX,
        _ => least,
    };
    least.is_finite().then(|| with_any_sign(random, size))
}

/// Finite values for a factor, all of magnitude 0; of one frame in four a single value is exposed.
pub fn values(random: &mut Random, count: usize, factor: f32) -> Vec<f32> {
    let edge = edge(factor);
    let mut values = match random.below(5) {
        0 => vec![0.0; count],
        1 => vec![-0.0; count],
        2 => vec![with_any_sign(random, edge); count],
        3 => (0..count).map(|_| with_any_sign(random, edge)).collect(),
        _ => (0..count).map(|_| unexposed(random, edge)).collect(),
    };
    if random.one_in(4) {
        expose(random, &mut values, factor);
    }
    values
}

/// Exposes one value, where the factor can: the first, the last or any.
pub fn expose(random: &mut Random, values: &mut [f32], factor: f32) {
    let last = values.len() - 1;
    let index = match random.below(3) {
        0 => 0,
        1 => last,
        _ => random.between(0, last),
    };
    if let Some(value) = exposed(random, edge(factor)) {
        values[index] = value;
    }
}

/// Exposes one value of a blank frame, where the factor can.
pub fn cure(random: &mut Random, values: &mut [f32], factor: f32) {
    if !values.iter().any(|&value| is_exposed(factor, value)) {
        expose(random, values, factor);
    }
}

#[cfg(test)]
mod tests {
    use super::*;
    use crate::generate::settings;
    use crate::paper::run::check_settings;

    #[test]
    fn edges_by_hand() {
        assert_eq!(edge(1.0), 1.0);
        assert_eq!(edge(0.5), 2.0);
        // 1/3 is between 3eaaaaaa and 3eaaaaab; three of the latter are 1 + 2^-25.
        assert_eq!(edge(3.0).to_bits(), 0x3eaa_aaab);
        // 2^127 × 2^-127; the largest f32 has too many bits for its inverse.
        assert_eq!(edge(f32::from_bits(0x7f00_0000)).to_bits(), 0x0040_0000);
        // Nothing is exposed by 2^-149 × 2^128.
        assert_eq!(edge(f32::from_bits(1)), f32::MAX);
    }

    #[test]
    fn frames_are_blank_or_have_one_exposed_value() {
        let random = &mut Random::new(61);
        let mut seen = [0; 2];
        for _ in 0..2_000 {
            let settings = settings::good(random);
            let factor = check_settings(&settings).unwrap().factor;
            let count = random.between(2, 9);
            let values = values(random, count, factor);
            assert!(values.iter().all(|value| value.is_finite()));
            seen[values.iter().filter(|&&value| is_exposed(factor, value)).count()] += 1;
        }
        assert!(seen[0] > 1_300 && seen[1] > 400, "{seen:?}");
    }

    #[test]
    fn blank_frames_are_cured() {
        let random = &mut Random::new(62);
        for _ in 0..500 {
            let factor = check_settings(&settings::good(random)).unwrap().factor;
            let mut values = values(random, 3, factor);
            cure(random, &mut values, factor);
            assert!(values.iter().any(|&value| is_exposed(factor, value)));
        }
    }
}
