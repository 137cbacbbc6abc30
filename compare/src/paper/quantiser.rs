//! Levels and scaling: from a channel value to a sign and a magnitude.

/// "A level is a sign and a magnitude; +0 and -0 are different."
#[derive(Clone, Copy, Debug, PartialEq, Eq)]
pub struct Level {
    pub minus: bool,
    pub magnitude: u8,
}

impl Level {
    /// "Its byte is the magnitude, plus 128 when the sign is minus."
    pub fn byte(self) -> u8 {
        self.magnitude + if self.minus { 128 } else { 0 }
    }

    /// The level of a byte.
    pub fn of_byte(byte: u8) -> Level {
        Level { minus: byte >= 128, magnitude: byte % 128 }
    }
}

/// "A scaling is a plain gain, or a gain with a noise variance."
#[derive(Clone, Copy, Debug)]
pub enum Scaling {
    Plain(f32),
    Noise(f32, f32),
}

impl Scaling {
    /// "The factor is the gain, or (2 × gain) / variance, as f32, each operation rounded
    /// once."
    pub fn factor(self) -> f32 {
        match self {
            Scaling::Plain(gain) => gain,
            Scaling::Noise(gain, variance) => {
                let doubled: f32 = 2.0 * gain;
                doubled / variance
            }
        }
    }
}

/// "b bits allow magnitudes 0 to N = 2^(b-1) - 1."
pub fn largest_magnitude(bits: u32) -> u8 {
    (1 << (bits - 1)) - 1
}

/// "For a channel value y let p = factor × |y|, rounded once. The magnitude is how many
/// of 1, 2, .., Nch lie strictly below p. The sign is the sign bit of y."
pub fn quantise(factor: f32, largest: u8, y: f32) -> Level {
    let p: f32 = factor * y.abs();
    let below = (1..=largest).filter(|&threshold| f32::from(threshold) < p);
    Level { minus: y.is_sign_negative(), magnitude: below.count() as u8 }
}
