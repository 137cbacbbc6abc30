//! Two heads on one graph.

use super::entries::*;
use crate::interface::{GraphBytes, Lent, PairInput};

pub fn decode_pair(
    input: &PairInput,
    degrees: &mut [u8],
    lent: &mut [Lent; 2],
    reports: &mut [u8],
) -> u64 {
    let PairInput { graph, allowance, heads: [first, second] } = input;
    let [first_lent, second_lent] = lent;
    // SAFETY: every pointer comes from a slice and stands with that slice's length.
    unsafe {
        frame_decode_pair(
            graph.n,
            graph.starts.as_ptr(),
            graph.starts.len(),
            graph.columns.as_ptr(),
            graph.columns.len(),
            *allowance,
            first.values.as_ptr(),
            first.values.len(),
            first.settings.kind,
            first.settings.gain,
            first.settings.variance,
            first.settings.channel,
            first.settings.message,
            first.settings.phi_s,
            first.settings.phi_a,
            first.settings.phi_0,
            first.settings.limit,
            first.settings.lift_from,
            first.settings.lift_to,
            second.values.as_ptr(),
            second.values.len(),
            second.settings.kind,
            second.settings.gain,
            second.settings.variance,
            second.settings.channel,
            second.settings.message,
            second.settings.phi_s,
            second.settings.phi_a,
            second.settings.phi_0,
            second.settings.limit,
            second.settings.lift_from,
            second.settings.lift_to,
            degrees.as_mut_ptr(),
            degrees.len(),
            first_lent.levels.as_mut_ptr(),
            first_lent.levels.len(),
            first_lent.variable_messages.as_mut_ptr(),
            first_lent.variable_messages.len(),
            first_lent.check_messages.as_mut_ptr(),
            first_lent.check_messages.len(),
            first_lent.sums.as_mut_ptr(),
            first_lent.sums.len(),
            first_lent.bits.as_mut_ptr(),
            first_lent.bits.len(),
            second_lent.levels.as_mut_ptr(),
            second_lent.levels.len(),
            second_lent.variable_messages.as_mut_ptr(),
            second_lent.variable_messages.len(),
            second_lent.check_messages.as_mut_ptr(),
            second_lent.check_messages.len(),
            second_lent.sums.as_mut_ptr(),
            second_lent.sums.len(),
            second_lent.bits.as_mut_ptr(),
            second_lent.bits.len(),
            reports.as_mut_ptr(),
            reports.len(),
        )
    }
}

pub fn decode_pair_place(
    graph: &GraphBytes,
    values: [&[u8]; 2],
    answer: u64,
    degrees: &mut [u8],
) -> usize {
    // SAFETY: as above.
    unsafe {
        frame_decode_pair_place(
            graph.n,
            graph.starts.as_ptr(),
            graph.starts.len(),
            graph.columns.as_ptr(),
            graph.columns.len(),
            values[0].as_ptr(),
            values[0].len(),
            values[1].as_ptr(),
            values[1].len(),
            answer,
            degrees.as_mut_ptr(),
            degrees.len(),
        )
    }
}
