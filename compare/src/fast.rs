//! The same calls written for speed: the baseline of the benchmark, and the stand-in for
//! the library where none is linked.

pub mod blocks;
pub mod decode;
pub mod encode;
pub mod graph;
pub mod pair;
pub mod pause;
pub mod sheet;
mod tables;

use crate::interface::{
    AdvanceInput, Answer, BlocksBytes, DecodeInput, Decoded, Decoder, EncodeInput, GraphBytes,
    Lent, NUMBER_BYTES, PairInput, Record, Refusal, SheetCounts,
};

pub struct Fast;

fn place<T>(result: Result<T, Refusal>) -> usize {
    result.map_or_else(|refusal| refusal.place, |_| 0)
}

impl Decoder for Fast {
    fn decode(&self, input: &DecodeInput, degrees: &mut [u8], lent: &mut Lent) -> Answer<Decoded> {
        match decode::prepare(input, degrees, &lent.lengths()) {
            Ok(frame) => Answer::Accepted(decode::run(&frame, lent)),
            Err(refusal) => Answer::Refused(refusal.number),
        }
    }

    fn decode_place(
        &self,
        graph: &GraphBytes,
        values: &[u8],
        number: u8,
        degrees: &mut [u8],
    ) -> usize {
        let (starts, columns) = graph::lists(graph);
        let values = values.as_chunks().0;
        match graph::check(graph.n, starts, columns, degrees) {
            Err(refusal) => refusal.place,
            Ok(_) if number == 13 => values.len(),
            Ok(_) if number == 12 => decode::first_bad_value(values).unwrap_or(0),
            Ok(_) => 0,
        }
    }

    fn begin(&self, input: &DecodeInput, degrees: &mut [u8], lent: &mut Lent) -> Answer<Record> {
        match decode::prepare(input, degrees, &lent.lengths()) {
            Ok(frame) => Answer::Accepted(pause::begin(&frame, lent)),
            Err(refusal) => Answer::Refused(refusal.number),
        }
    }

    fn begin_place(
        &self,
        graph: &GraphBytes,
        values: &[u8],
        number: u8,
        degrees: &mut [u8],
    ) -> usize {
        self.decode_place(graph, values, number, degrees)
    }

    fn advance(&self, input: &AdvanceInput, degrees: &mut [u8], lent: &mut Lent) -> Answer<Record> {
        let prepared = pause::prepare(input, degrees, &lent.lengths());
        match prepared.and_then(|code| pause::advance(&code, input, lent)) {
            Ok(record) => Answer::Accepted(record),
            Err(refusal) => Answer::Refused(refusal.number),
        }
    }

    fn advance_place(&self, graph: &GraphBytes, degrees: &mut [u8]) -> usize {
        let (starts, columns) = graph::lists(graph);
        place(graph::check(graph.n, starts, columns, degrees))
    }

    fn decode_pair(
        &self,
        input: &PairInput,
        degrees: &mut [u8],
        lent: &mut [Lent; 2],
        reports: &mut [u8],
    ) -> u64 {
        let lengths = [lent[0].lengths(), lent[1].lengths()];
        match pair::prepare(input, degrees, lengths, reports.len()) {
            Ok(frames) => {
                pair::run(&frames, input.allowance, lent, reports);
                0
            }
            Err(refusal) => refusal.answer(),
        }
    }

    fn decode_pair_place(
        &self,
        graph: &GraphBytes,
        values: [&[u8]; 2],
        answer: u64,
        degrees: &mut [u8],
    ) -> usize {
        let (number, head) = (answer as u8, (answer >> 8) as usize);
        let (values, number) = match head {
            0 => (values[0], 0),
            head => (values[head - 1], number),
        };
        self.decode_place(graph, values, number, degrees)
    }

    fn read_sheet(
        &self,
        text: &[u8],
        degrees: &mut [u8],
        starts: &mut [u8],
        columns: &mut [u8],
    ) -> Answer<SheetCounts> {
        match sheet::read(text, degrees, starts.len(), columns.len()) {
            Ok(read) => {
                starts[..NUMBER_BYTES * read.starts.len()]
                    .copy_from_slice(read.starts.as_flattened());
                columns[..NUMBER_BYTES * read.columns.len()]
                    .copy_from_slice(read.columns.as_flattened());
                Answer::Accepted(SheetCounts { n: read.n, m: read.starts.len() - 1 })
            }
            Err(refusal) => Answer::Refused(refusal.number),
        }
    }

    fn read_sheet_place(
        &self,
        text: &[u8],
        degrees: &mut [u8],
        starts: usize,
        columns: usize,
    ) -> usize {
        place(sheet::read(text, degrees, starts, columns))
    }

    fn write_sheet(
        &self,
        graph: &GraphBytes,
        degrees: &mut [u8],
        text: &mut [u8],
    ) -> Answer<usize> {
        match sheet::measure(graph, degrees, text.len()) {
            Ok(_) => Answer::Accepted(sheet::write(graph, text)),
            Err(refusal) => Answer::Refused(refusal.number),
        }
    }

    fn write_sheet_place(&self, graph: &GraphBytes, degrees: &mut [u8], text: usize) -> usize {
        place(sheet::measure(graph, degrees, text))
    }
    fn read_blocks(
        &self,
        text: &[u8],
        degrees: &mut [u8],
        starts: &mut [u8],
        columns: &mut [u8],
    ) -> Answer<SheetCounts> {
        match blocks::read(text, degrees, starts.len(), columns.len()) {
            Ok(read) => {
                blocks::expand(&read, starts, columns);
                Answer::Accepted(SheetCounts { n: read.n, m: read.m })
            }
            Err(refusal) => Answer::Refused(refusal.number),
        }
    }

    fn read_blocks_place(
        &self,
        text: &[u8],
        degrees: &mut [u8],
        starts: usize,
        columns: usize,
    ) -> usize {
        place(blocks::read(text, degrees, starts, columns))
    }

    fn write_blocks(
        &self,
        blocks: &BlocksBytes,
        degrees: &mut [u8],
        text: &mut [u8],
    ) -> Answer<usize> {
        match blocks::measure(blocks, degrees, text.len()) {
            Ok(_) => Answer::Accepted(blocks::write(blocks, text)),
            Err(refusal) => Answer::Refused(refusal.number),
        }
    }

    fn write_blocks_place(&self, blocks: &BlocksBytes, degrees: &mut [u8], text: usize) -> usize {
        place(blocks::measure(blocks, degrees, text))
    }

    fn encode(
        &self,
        input: &EncodeInput,
        degrees: &mut [u8],
        codeword: &mut [u8],
        work: &mut [u8],
    ) -> Answer<()> {
        let checked = encode::check(input, degrees);
        match checked.and_then(|message| encode::run(&message, codeword, work)) {
            Ok(()) => Answer::Accepted(()),
            Err(refusal) => Answer::Refused(refusal.number),
        }
    }

    fn encode_place(&self, input: &EncodeInput, degrees: &mut [u8]) -> usize {
        place(encode::check(input, degrees))
    }
}
