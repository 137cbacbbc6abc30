//! Settings and channel values.

use crate::interface::{LARGEST_LIFT, NEVER, Settings};
use crate::random::Random;

/// The admitted pairs of channel and message precision.
pub const PRECISIONS: [(u32, u32); 4] = [(3, 3), (3, 2), (4, 4), (4, 3)];

/// Settings that decode accepts, with a factor of 1, offsets of 0 and nothing lifted.
pub fn plain((channel, message): (u32, u32)) -> Settings {
    Settings {
        kind: 1,
        gain: 1.0,
        variance: 2.0,
        channel,
        message,
        phi_s: 0,
        phi_a: 0,
        phi_0: 0,
        limit: 2,
        lift_from: NEVER,
        lift_to: LARGEST_LIFT,
    }
}

/// Settings that decode accepts and a run text can say: nothing is lifted.
pub fn good(random: &mut Random) -> Settings {
    let (channel, message) = random.pick(&PRECISIONS);
    let limit = match random.below(8) {
        0 => 0,
        1 => 1,
        2 => 255,
        3 => random.below(256),
        _ => random.between(2, 20),
    };
    let mut settings = Settings {
        kind: random.below(2) as u32,
        gain: plausible(random),
        variance: plausible(random),
        channel,
        message,
        phi_s: random.below(2) as u32,
        phi_a: random.below(2) as u32,
        phi_0: random.below(2) as u32,
        limit: limit as u32,
        lift_from: NEVER,
        lift_to: LARGEST_LIFT,
    };
    if settings.kind == 0 && random.one_in(2) {
        settings.variance = odd_float(random);
    }
    settings
}

/// A positive number near 1, sometimes a whole power of two.
fn plausible(random: &mut Random) -> f32 {
    match random.below(4) {
        0 => random.pick(&[0.25, 0.5, 1.0, 2.0, 4.0]),
        _ => 0.2 + random.below(4_000) as f32 / 1_000.0,
    }
}

/// Any f32, with the odd ones often.
pub fn odd_float(random: &mut Random) -> f32 {
    let sign = (random.below(2) as u32) << 31;
    let bits = match random.below(9) {
        0 => 0,
        1 => random.between(1, 0x7f_ffff) as u32,
        2 => random.pick(&[1, 0x7f_ffff, 0x80_0000]),
        3 => random.pick(&[0x7f7f_ffff, 0x7f00_0000, 0x7eff_ffff]),
        4 => 0x7f80_0000,
        5 => random.pick(&[0x7fc0_0000, 0x7f80_0001, 0x7fff_ffff]),
        _ => random.word() as u32 & 0x7fff_ffff,
    };
    f32::from_bits(sign | bits)
}

/// Changes one setting to one that decode may turn down; lifting stays as it is.
pub fn damage(random: &mut Random, settings: &mut Settings) {
    let precisions = [0, 1, 2, 3, 4, 5, 259, 1 << 31 | 3, u32::MAX];
    let past_1 = [2, 3, 255, 256, 257, 65_536, 65_537, 1 << 31, u32::MAX];
    match random.below(12) {
        0 => settings.channel = random.pick(&precisions),
        1 => settings.message = random.pick(&precisions),
        2 => settings.phi_s = random.pick(&past_1),
        3 => settings.phi_a = random.pick(&past_1),
        4 => settings.phi_0 = random.pick(&past_1),
        5 => settings.limit = random.pick(&[256, 257, 511, 65_536, 65_541, 1 << 31, u32::MAX]),
        6 => settings.kind = random.pick(&past_1),
        7 => settings.gain = odd_float(random),
        8 => settings.variance = odd_float(random),
        _ => {
            settings.kind = 1;
            settings.gain = odd_float(random).abs();
            settings.variance = odd_float(random).abs();
        }
    }
}

/// Finite channel values for a factor: a noisy frame, or values that the quantiser may
/// trip over, or both. Some frames are blank.
pub fn values(random: &mut Random, count: usize, factor: f32) -> Vec<f32> {
    let style = random.below(6);
    let noise = random.pick(&[0.3, 0.6, 0.8, 1.0, 1.5]);
    let one = |random: &mut Random| match style {
        0 => at_threshold(random, factor),
        1 => finite(odd_float(random)),
        2 => random.pick(&[0.0, -0.0]),
        3 if random.one_in(3) => at_threshold(random, factor),
        4 if random.one_in(3) => finite(odd_float(random)),
        _ => 1.0 + noise * random.normal(),
    };
    (0..count).map(|_| one(random)).collect()
}

fn finite(value: f32) -> f32 {
    if value.is_finite() { value } else { f32::MAX.copysign(value) }
}

/// k / factor or one of its near neighbours, of either sign.
fn at_threshold(random: &mut Random, factor: f32) -> f32 {
    let threshold = random.between(1, 8) as f32;
    let value = finite(threshold / factor).to_bits();
    let near = value.saturating_add(random.below(5) as u32).saturating_sub(2);
    let sign = if random.one_in(2) { -1.0 } else { 1.0 };
    finite(f32::from_bits(near)).copysign(sign)
}

/// Puts an infinity or NaN here and there.
pub fn spoil_values(random: &mut Random, values: &mut [f32]) {
    for _ in 0..random.between(1, 3) {
        let index = random.below(values.len());
        let bits = random.pick(&[0x7f80_0000, 0xff80_0000, 0x7fc0_0000, 0xffc0_0000, 0x7f80_0001]);
        values[index] = f32::from_bits(bits);
    }
}
