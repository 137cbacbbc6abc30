//! The proved library's C interface and safe wrappers: the only module that knows how slices are
//! passed and answers packed, but for a run's record and a pair's answer, which are given back to the
//! library as they are, and for a pair's reports. It is built when the archive is linked.

mod entries;
mod pairs;
mod runs;

use crate::interface::{
    AdvanceInput, Answer, BlocksBytes, DecodeInput, Decoded, Decoder, EncodeInput, GraphBytes,
    Lent, PairInput, Record, SheetCounts,
};
use entries::*;

pub struct Library;

impl Decoder for Library {
    fn decode(&self, input: &DecodeInput, degrees: &mut [u8], lent: &mut Lent) -> Answer<Decoded> {
        runs::decode(input, degrees, lent)
    }

    fn decode_place(
        &self,
        graph: &GraphBytes,
        values: &[u8],
        number: u8,
        degrees: &mut [u8],
    ) -> usize {
        runs::decode_place(graph, values, number, degrees)
    }

    fn begin(&self, input: &DecodeInput, degrees: &mut [u8], lent: &mut Lent) -> Answer<Record> {
        runs::begin(input, degrees, lent)
    }

    fn begin_place(
        &self,
        graph: &GraphBytes,
        values: &[u8],
        number: u8,
        degrees: &mut [u8],
    ) -> usize {
        runs::begin_place(graph, values, number, degrees)
    }

    fn advance(&self, input: &AdvanceInput, degrees: &mut [u8], lent: &mut Lent) -> Answer<Record> {
        runs::advance(input, degrees, lent)
    }

    fn advance_place(&self, graph: &GraphBytes, degrees: &mut [u8]) -> usize {
        runs::advance_place(graph, degrees)
    }

    fn decode_pair(
        &self,
        input: &PairInput,
        degrees: &mut [u8],
        lent: &mut [Lent; 2],
        reports: &mut [u8],
    ) -> u64 {
        pairs::decode_pair(input, degrees, lent, reports)
    }

    fn decode_pair_place(
        &self,
        graph: &GraphBytes,
        values: [&[u8]; 2],
        answer: u64,
        degrees: &mut [u8],
    ) -> usize {
        pairs::decode_pair_place(graph, values, answer, degrees)
    }

    fn read_sheet(
        &self,
        text: &[u8],
        degrees: &mut [u8],
        starts: &mut [u8],
        columns: &mut [u8],
    ) -> Answer<SheetCounts> {
        // SAFETY: every pointer comes from a slice and stands with that slice's length.
        let answer = unsafe {
            frame_read_sheet(
                text.as_ptr(),
                text.len(),
                degrees.as_mut_ptr(),
                degrees.len(),
                starts.as_mut_ptr(),
                starts.len(),
                columns.as_mut_ptr(),
                columns.len(),
            )
        };
        unpacked(answer, sheet_counts)
    }

    fn read_sheet_place(
        &self,
        text: &[u8],
        degrees: &mut [u8],
        starts: usize,
        columns: usize,
    ) -> usize {
        // SAFETY: as above.
        unsafe {
            frame_read_sheet_place(
                text.as_ptr(),
                text.len(),
                degrees.as_mut_ptr(),
                degrees.len(),
                starts,
                columns,
            )
        }
    }

    fn write_sheet(
        &self,
        graph: &GraphBytes,
        degrees: &mut [u8],
        text: &mut [u8],
    ) -> Answer<usize> {
        // SAFETY: as above.
        let answer = unsafe {
            frame_write_sheet(
                graph.n,
                graph.starts.as_ptr(),
                graph.starts.len(),
                graph.columns.as_ptr(),
                graph.columns.len(),
                degrees.as_mut_ptr(),
                degrees.len(),
                text.as_mut_ptr(),
                text.len(),
            )
        };
        unpacked(answer, |answer| Some(field(answer, 8, 56)))
    }

    fn write_sheet_place(&self, graph: &GraphBytes, degrees: &mut [u8], text: usize) -> usize {
        // SAFETY: as above.
        unsafe {
            frame_write_sheet_place(
                graph.n,
                graph.starts.as_ptr(),
                graph.starts.len(),
                graph.columns.as_ptr(),
                graph.columns.len(),
                degrees.as_mut_ptr(),
                degrees.len(),
                text,
            )
        }
    }

    fn read_blocks(
        &self,
        text: &[u8],
        degrees: &mut [u8],
        starts: &mut [u8],
        columns: &mut [u8],
    ) -> Answer<SheetCounts> {
        // SAFETY: as above.
        let answer = unsafe {
            frame_read_blocks(
                text.as_ptr(),
                text.len(),
                degrees.as_mut_ptr(),
                degrees.len(),
                starts.as_mut_ptr(),
                starts.len(),
                columns.as_mut_ptr(),
                columns.len(),
            )
        };
        unpacked(answer, sheet_counts)
    }

    fn read_blocks_place(
        &self,
        text: &[u8],
        degrees: &mut [u8],
        starts: usize,
        columns: usize,
    ) -> usize {
        // SAFETY: as above.
        unsafe {
            frame_read_blocks_place(
                text.as_ptr(),
                text.len(),
                degrees.as_mut_ptr(),
                degrees.len(),
                starts,
                columns,
            )
        }
    }

    fn write_blocks(
        &self,
        blocks: &BlocksBytes,
        degrees: &mut [u8],
        text: &mut [u8],
    ) -> Answer<usize> {
        // SAFETY: as above.
        let answer = unsafe {
            frame_write_blocks(
                blocks.size,
                blocks.rows,
                blocks.columns,
                blocks.entries.as_ptr(),
                blocks.entries.len(),
                degrees.as_mut_ptr(),
                degrees.len(),
                text.as_mut_ptr(),
                text.len(),
            )
        };
        unpacked(answer, |answer| Some(field(answer, 8, 56)))
    }

    fn write_blocks_place(&self, blocks: &BlocksBytes, degrees: &mut [u8], text: usize) -> usize {
        // SAFETY: as above.
        unsafe {
            frame_write_blocks_place(
                blocks.size,
                blocks.rows,
                blocks.columns,
                blocks.entries.as_ptr(),
                blocks.entries.len(),
                degrees.as_mut_ptr(),
                degrees.len(),
                text,
            )
        }
    }

    fn encode(
        &self,
        input: &EncodeInput,
        degrees: &mut [u8],
        codeword: &mut [u8],
        work: &mut [u8],
    ) -> Answer<()> {
        let EncodeInput { graph, positions, given } = input;
        // SAFETY: as above.
        let answer = unsafe {
            frame_encode(
                graph.n,
                graph.starts.as_ptr(),
                graph.starts.len(),
                graph.columns.as_ptr(),
                graph.columns.len(),
                positions.as_ptr(),
                positions.len(),
                given.as_ptr(),
                given.len(),
                degrees.as_mut_ptr(),
                degrees.len(),
                codeword.as_mut_ptr(),
                codeword.len(),
                work.as_mut_ptr(),
                work.len(),
            )
        };
        unpacked(answer, |answer| (answer == 0).then_some(()))
    }

    fn encode_place(&self, input: &EncodeInput, degrees: &mut [u8]) -> usize {
        let EncodeInput { graph, positions, given } = input;
        // SAFETY: as above.
        unsafe {
            frame_encode_place(
                graph.n,
                graph.starts.as_ptr(),
                graph.starts.len(),
                graph.columns.as_ptr(),
                graph.columns.len(),
                positions.as_ptr(),
                positions.len(),
                given.as_ptr(),
                given.len(),
                degrees.as_mut_ptr(),
                degrees.len(),
            )
        }
    }
}

/// n and m of a sheet of either kind.
fn sheet_counts(answer: u64) -> Option<SheetCounts> {
    let counts = SheetCounts { n: field(answer, 8, 24), m: field(answer, 32, 24) };
    (field(answer, 56, 8) == 0).then_some(counts)
}

/// The low 8 bits are the refusal's number, 0 where nothing is refused; for a refusal the
/// other bits are 0.
fn unpacked<T>(answer: u64, accepted: impl Fn(u64) -> Option<T>) -> Answer<T> {
    match (answer as u8, answer >> 8) {
        (0, _) => accepted(answer).map_or(Answer::Malformed(answer), Answer::Accepted),
        (number, 0) => Answer::Refused(number),
        _ => Answer::Malformed(answer),
    }
}

fn field(answer: u64, low: u32, width: u32) -> usize {
    ((answer >> low) & ((1 << width) - 1)) as usize
}
