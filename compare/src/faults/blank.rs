//! What faults do to blank frames: which frames are taken to be blank, and when that is asked.

use super::{Fault, Faulty};
use crate::interface::{LentLengths, Settings};
use crate::paper::run::check_settings;
use crate::paper::{Graph, Refusal, Scaling, quantise};

/// A frame whose graph nothing is wrong with.
pub struct Frame<'a> {
    pub graph: &'a Graph<'a>,
    pub values: &'a [f32],
    pub settings: &'a Settings,
    pub lent: &'a LentLengths,
}

/// Whether the magnitude of a value is 0 whose p is this.
fn is_zero(p: f32) -> bool {
    quantise(1.0, 1, p).magnitude == 0
}

impl Frame<'_> {
    /// The factor, whether it is admitted or not.
    fn factor(&self) -> f32 {
        let Settings { kind, gain, variance, .. } = *self.settings;
        match kind {
            0 => Scaling::Plain(gain).factor(),
            _ => Scaling::Noise(gain, variance).factor(),
        }
    }

    fn is_covered(&self) -> bool {
        self.lent.covers(&LentLengths::needed(self.graph.n, self.graph.entries()))
    }
}

impl Faulty {
    /// Whether a value counts as unexposed.
    fn is_unexposed(&self, frame: &Frame, value: f32) -> bool {
        let p = frame.factor() * value.abs();
        match self.0 {
            Fault::ThresholdExposed => is_zero(p) && p != 1.0,
            Fault::PlusZeroAloneUnexposed => value.to_bits() == 0,
            Fault::ZeroAloneUnexposed => value == 0.0,
            Fault::UnscaledUnexposed => is_zero(value.abs()),
            Fault::UnexposedByGainAlone => is_zero(frame.settings.gain * value.abs()),
            Fault::UnexposedByExactProduct => {
                let product = f64::from(frame.factor()) * f64::from(value.abs());
                product <= 1.0
            }
            Fault::SubnormalUnexposed => value.is_subnormal() || is_zero(p),
            Fault::MinusUnexposed => value.is_sign_negative() || is_zero(p),
            _ => is_zero(p),
        }
    }

    /// Whether a frame counts as blank.
    fn is_blank(&self, frame: &Frame) -> bool {
        let mut unexposed = frame.values.iter().map(|&value| self.is_unexposed(frame, value));
        match self.0 {
            Fault::BlankByFirst => unexposed.next() == Some(true),
            Fault::BlankByLast => unexposed.next_back() == Some(true),
            Fault::BlankWithoutLast => unexposed.rev().skip(1).all(|unexposed| unexposed),
            Fault::BlankBy16Bits => unexposed.take(1 << 16).all(|unexposed| unexposed),
            Fault::BlankBySome => unexposed.any(|unexposed| unexposed),
            Fault::BlankDecoded => false,
            _ => unexposed.all(|unexposed| unexposed),
        }
    }

    /// What is answered in place of what the paper says of a frame.
    pub fn near_20(&self, said: Result<(), Refusal>, frame: &Frame) -> Result<(), Refusal> {
        let refuse = |number| Err(Refusal { number, place: 0 });
        let number = said.err().map_or(0, |refusal| refusal.number);
        let asks = match number {
            11 => self.has(Fault::TwentyBeforeEleven),
            12 => self.has(Fault::TwentyBeforeTwelve),
            13 => self.has(Fault::TwentyBeforeThirteen) && check_settings(frame.settings).is_ok(),
            0 | 6 | 20 => true,
            _ => false,
        };
        if !asks {
            return said;
        }
        let is_short_first = self.has(Fault::TwentyAfterSix) && !frame.is_covered();
        match number {
            _ if self.is_blank(frame) && !is_short_first => refuse(20),
            11..=13 => said,
            _ if frame.is_covered() => Ok(()),
            _ => refuse(6),
        }
    }
}
