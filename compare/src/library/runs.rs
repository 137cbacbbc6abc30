//! Decode, and runs that are begun and advanced.

use super::entries::*;
use super::unpacked;
use crate::interface::{AdvanceInput, Answer, DecodeInput, Decoded, GraphBytes, Lent, Record};

/// An entry on a frame: `frame_begin` takes what `frame_decode` takes.
macro_rules! on_frame {
    ($entry:ident, $input:expr, $degrees:expr, $lent:expr) => {{
        let DecodeInput { graph, values, settings } = $input;
        // SAFETY: every pointer comes from a slice and stands with that slice's length.
        unsafe {
            $entry(
                graph.n,
                graph.starts.as_ptr(),
                graph.starts.len(),
                graph.columns.as_ptr(),
                graph.columns.len(),
                values.as_ptr(),
                values.len(),
                settings.kind,
                settings.gain,
                settings.variance,
                settings.channel,
                settings.message,
                settings.phi_s,
                settings.phi_a,
                settings.phi_0,
                settings.limit,
                settings.lift_from,
                settings.lift_to,
                $degrees.as_mut_ptr(),
                $degrees.len(),
                $lent.levels.as_mut_ptr(),
                $lent.levels.len(),
                $lent.variable_messages.as_mut_ptr(),
                $lent.variable_messages.len(),
                $lent.check_messages.as_mut_ptr(),
                $lent.check_messages.len(),
                $lent.sums.as_mut_ptr(),
                $lent.sums.len(),
                $lent.bits.as_mut_ptr(),
                $lent.bits.len(),
            )
        }
    }};
}

/// The same of their companions.
macro_rules! place_on_frame {
    ($entry:ident, $graph:expr, $values:expr, $number:expr, $degrees:expr) => {
        // SAFETY: as above.
        unsafe {
            $entry(
                $graph.n,
                $graph.starts.as_ptr(),
                $graph.starts.len(),
                $graph.columns.as_ptr(),
                $graph.columns.len(),
                $values.as_ptr(),
                $values.len(),
                $number.into(),
                $degrees.as_mut_ptr(),
                $degrees.len(),
            )
        }
    };
}

/// Decode never leaves a run open.
pub fn decode(input: &DecodeInput, degrees: &mut [u8], lent: &mut Lent) -> Answer<Decoded> {
    unpacked(on_frame!(frame_decode, input, degrees, lent), |answer| {
        let Record { verdict, iterations, unsatisfied } = Record::of_number(answer)?;
        Some(Decoded { verdict: verdict?, iterations, unsatisfied })
    })
}

pub fn decode_place(graph: &GraphBytes, values: &[u8], number: u8, degrees: &mut [u8]) -> usize {
    place_on_frame!(frame_decode_place, graph, values, number, degrees)
}

pub fn begin(input: &DecodeInput, degrees: &mut [u8], lent: &mut Lent) -> Answer<Record> {
    unpacked(on_frame!(frame_begin, input, degrees, lent), Record::of_number)
}

pub fn begin_place(graph: &GraphBytes, values: &[u8], number: u8, degrees: &mut [u8]) -> usize {
    place_on_frame!(frame_begin_place, graph, values, number, degrees)
}

pub fn advance(input: &AdvanceInput, degrees: &mut [u8], lent: &mut Lent) -> Answer<Record> {
    let AdvanceInput { record, graph, settings, count } = input;
    // SAFETY: as above.
    let answer = unsafe {
        frame_advance(
            *record,
            graph.n,
            graph.starts.as_ptr(),
            graph.starts.len(),
            graph.columns.as_ptr(),
            graph.columns.len(),
            settings.channel,
            settings.message,
            settings.phi_s,
            settings.phi_a,
            settings.phi_0,
            settings.limit,
            settings.lift_from,
            settings.lift_to,
            *count,
            degrees.as_mut_ptr(),
            degrees.len(),
            lent.levels.as_ptr(),
            lent.levels.len(),
            lent.variable_messages.as_mut_ptr(),
            lent.variable_messages.len(),
            lent.check_messages.as_mut_ptr(),
            lent.check_messages.len(),
            lent.sums.as_mut_ptr(),
            lent.sums.len(),
            lent.bits.as_mut_ptr(),
            lent.bits.len(),
        )
    };
    unpacked(answer, Record::of_number)
}

pub fn advance_place(graph: &GraphBytes, degrees: &mut [u8]) -> usize {
    // SAFETY: as above.
    unsafe {
        frame_advance_place(
            graph.n,
            graph.starts.as_ptr(),
            graph.starts.len(),
            graph.columns.as_ptr(),
            graph.columns.len(),
            degrees.as_mut_ptr(),
            degrees.len(),
        )
    }
}
