//! Plainer settings.

use crate::interface::{LARGEST_LIFT, NEVER, Settings};

/// Settings that are plainer in one way each. Nothing lifted is plainest, then lifting from
/// early on, so that the limit may come down.
pub fn plainer(s: Settings) -> Vec<Settings> {
    let lifts_late = (2..NEVER).contains(&s.lift_from);
    let candidates = [
        (s.lift_from != NEVER, Settings { lift_from: NEVER, ..s }),
        (s.lift_to != LARGEST_LIFT, Settings { lift_to: LARGEST_LIFT, ..s }),
        (s.lift_from > NEVER + 1, Settings { lift_from: NEVER + 1, ..s }),
        (lifts_late, Settings { lift_from: 1, ..s }),
        (lifts_late, Settings { lift_from: s.lift_from.saturating_sub(1), ..s }),
        (s.limit > 0, Settings { limit: s.limit / 2, ..s }),
        (s.limit > 0, Settings { limit: s.limit.saturating_sub(1), ..s }),
        (s.kind != 0, Settings { kind: 0, ..s }),
        (s.gain.to_bits() != 1.0_f32.to_bits(), Settings { gain: 1.0, ..s }),
        (s.variance.to_bits() != 0, Settings { variance: 0.0, ..s }),
        ((s.channel, s.message) != (3, 3), Settings { channel: 3, message: 3, ..s }),
        (s.phi_s != 0, Settings { phi_s: 0, ..s }),
        (s.phi_a != 0, Settings { phi_a: 0, ..s }),
        (s.phi_0 != 0, Settings { phi_0: 0, ..s }),
    ];
    candidates.into_iter().filter(|candidate| candidate.0).map(|candidate| candidate.1).collect()
}
