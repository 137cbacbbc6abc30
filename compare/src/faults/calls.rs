//! The calls of a decoder with a fault, made of the paper's.

use super::{Fault, Faulty, last_bad_value};
use crate::generate::Lists;
use crate::harness::check::level_bytes;
use crate::interface::{
    AdvanceInput, Answer, BlocksBytes, DecodeInput, Decoded, Decoder, EncodeInput, GraphBytes,
    Lent, PairInput, Record, SheetCounts, f32_list, i32_bytes, number_bytes, numbers,
};
use crate::paper::{self, Limits, Outcome, Refusal, Sheet};

impl Faulty {
    pub fn lists(&self, graph: &GraphBytes) -> Lists {
        let cut = |list: Vec<u32>, of_16_bits: bool| match of_16_bits {
            true => list.into_iter().map(|number| number & 0xffff).collect(),
            false => list,
        };
        Lists {
            n: graph.n,
            starts: cut(numbers(graph.starts), self.has(Fault::StartsOf16Bits)),
            columns: cut(numbers(graph.columns), self.has(Fault::ColumnsOf16Bits)),
        }
    }

    /// A call of the paper on the list of degrees, and what is then wrong with its answer or
    /// the list. The number of variables is left out where only the call knows it.
    pub fn on_degrees<T>(
        &self,
        bytes: &mut [u8],
        n: Option<usize>,
        call: impl Fn(&mut [u32]) -> Result<T, Refusal>,
    ) -> Result<T, Refusal> {
        let mut degrees = numbers(bytes);
        let mut answer = call(&mut degrees);
        let number = answer.as_ref().err().map_or(0, |refusal| refusal.number);
        let too_short = n.is_some_and(|n| degrees.len() < n);
        match (self.0, number) {
            (Fault::DegreesAfterFive, 6) => {
                let of_long_enough = call(&mut vec![0; Limits::LENT.variables]);
                if of_long_enough.as_ref().is_err_and(|refusal| refusal.number == 5) {
                    answer = of_long_enough;
                }
            }
            (Fault::DegreesBeforeFour, 4) if too_short => {
                answer = Err(Refusal { number: 6, place: 0 });
            }
            (Fault::DegreesChangedByFour, 4) => degrees.fill(0),
            (Fault::DegreesChangedBySix, 6) if too_short => degrees.fill(0),
            (Fault::DegreesLeftAfterFive, 5) => degrees = numbers(bytes),
            (Fault::DegreesLeftByLaterRefusals, 6 | 8..=13 | 16 | 20) => degrees = numbers(bytes),
            (Fault::DegreesCountedPastN, 0 | 5 | 6) => {
                if let Some(past) = n.and_then(|n| degrees.get_mut(n)) {
                    *past = 0;
                }
            }
            _ => {}
        }
        put(bytes, &number_bytes(&degrees));
        answer
    }

    /// The list as a companion changes it.
    pub fn companion_list<'a>(&self, list: &'a mut [u8], spare: &'a mut Vec<u8>) -> &'a mut [u8] {
        match self.has(Fault::DegreesLeftByCompanion) {
            true => {
                spare.extend_from_slice(list);
                spare
            }
            false => list,
        }
    }

    /// Decodes in what is lent.
    pub fn decode_in(
        &self,
        input: &DecodeInput,
        degrees: &mut [u8],
        lent: &mut Lent,
    ) -> Result<Outcome, Refusal> {
        let (n, lengths) = (Some(input.graph.n), lent.lengths());
        let call = |degrees: &mut [u32]| self.outcome(input, degrees, &lengths);
        let outcome = match self.on_degrees(degrees, n, call) {
            Ok(outcome) => outcome,
            Err(refusal) => {
                if self.has(Fault::WrittenWhenRefused) && refusal.number == 12 {
                    lent.levels.fill(0);
                }
                if self.has(Fault::LevelBeforeTwenty) && refusal.number == 20 {
                    lent.levels.iter_mut().take(1).for_each(|level| *level ^= 128);
                }
                return Err(refusal);
            }
        };
        let lists = [
            (&mut *lent.levels, level_bytes(&outcome.levels)),
            (&mut *lent.variable_messages, level_bytes(&outcome.variable_messages)),
            (&mut *lent.check_messages, level_bytes(&outcome.check_messages)),
            (&mut *lent.sums, i32_bytes(&outcome.sums)),
            (&mut *lent.bits, outcome.bits.clone()),
        ];
        for (buffer, list) in lists {
            put(buffer, &list);
            if let (true, Some(past)) =
                (self.has(Fault::BytePastTheLength), buffer.get_mut(list.len()))
            {
                *past = 0;
            }
        }
        Ok(outcome)
    }

    fn read(
        &self,
        text: &[u8],
        degrees: &mut [u8],
        starts: usize,
        columns: usize,
    ) -> Result<Sheet, Refusal> {
        let limits = match self.has(Fault::OldLimitInReader) {
            true => Limits { entries: 32_768, ..Limits::LENT },
            false => Limits::LENT,
        };
        let text = self.careless(text);
        self.on_degrees(degrees, None, |degrees| {
            paper::read_sheet(limits, &text, degrees, starts, columns)
        })
    }

    fn write(
        &self,
        graph: &GraphBytes,
        degrees: &mut [u8],
        text: usize,
    ) -> Result<Vec<u8>, Refusal> {
        let lists = self.lists(graph);
        self.on_degrees(degrees, Some(graph.n), |degrees| {
            paper::write_sheet(Limits::LENT, &lists.graph(), degrees, text)
        })
    }
}

pub fn put(lent: &mut [u8], bytes: &[u8]) {
    lent[..bytes.len()].copy_from_slice(bytes);
}

pub fn place<T>(answer: Result<T, Refusal>) -> usize {
    answer.err().map_or(0, |refusal| refusal.place)
}

impl Decoder for Faulty {
    fn decode(&self, input: &DecodeInput, degrees: &mut [u8], lent: &mut Lent) -> Answer<Decoded> {
        match self.decode_in(input, degrees, lent) {
            Ok(Outcome { verdict, iterations, unsatisfied, .. }) => {
                Answer::Accepted(Decoded { verdict, iterations, unsatisfied })
            }
            Err(refusal) => Answer::Refused(refusal.number),
        }
    }

    fn decode_place(
        &self,
        graph: &GraphBytes,
        values: &[u8],
        number: u8,
        degrees: &mut [u8],
    ) -> usize {
        let lists = self.lists(graph);
        let values = f32_list(values);
        let spare = &mut Vec::new();
        let degrees = self.companion_list(degrees, spare);
        let checked = self.on_degrees(degrees, Some(graph.n), |degrees| {
            paper::check_graph(Limits::LENT, &lists.graph(), degrees)
        });
        match checked {
            Err(refusal) => refusal.place,
            Ok(()) if number == 13 => values.len(),
            Ok(()) if number == 12 && self.has(Fault::LastBadValue) => last_bad_value(&values),
            Ok(()) if number == 16 && self.has(Fault::SixteenWithPlace) => 1,
            Ok(()) if number == 20 && self.has(Fault::TwentyWithPlace) => 1,
            Ok(()) if number == 12 => values.iter().position(|v| !v.is_finite()).unwrap_or(0),
            Ok(()) => 0,
        }
    }

    fn begin(&self, input: &DecodeInput, degrees: &mut [u8], lent: &mut Lent) -> Answer<Record> {
        self.begin_faulty(input, degrees, lent)
    }

    fn begin_place(
        &self,
        graph: &GraphBytes,
        values: &[u8],
        number: u8,
        degrees: &mut [u8],
    ) -> usize {
        self.decode_place(graph, values, number, degrees)
    }

    fn advance(&self, input: &AdvanceInput, degrees: &mut [u8], lent: &mut Lent) -> Answer<Record> {
        self.advance_faulty(input, degrees, lent)
    }

    fn advance_place(&self, graph: &GraphBytes, degrees: &mut [u8]) -> usize {
        self.advance_place_faulty(graph, degrees)
    }

    fn decode_pair(
        &self,
        input: &PairInput,
        degrees: &mut [u8],
        lent: &mut [Lent; 2],
        reports: &mut [u8],
    ) -> u64 {
        self.decode_pair_faulty(input, degrees, lent, reports)
    }

    fn decode_pair_place(
        &self,
        graph: &GraphBytes,
        values: [&[u8]; 2],
        answer: u64,
        degrees: &mut [u8],
    ) -> usize {
        self.decode_pair_place_faulty(graph, values, answer, degrees)
    }

    fn read_sheet(
        &self,
        text: &[u8],
        degrees: &mut [u8],
        starts: &mut [u8],
        columns: &mut [u8],
    ) -> Answer<SheetCounts> {
        match self.read(text, degrees, starts.len(), columns.len()) {
            Ok(sheet) => {
                put(starts, &number_bytes(&sheet.starts));
                put(columns, &number_bytes(&sheet.columns));
                Answer::Accepted(SheetCounts { n: sheet.n, m: sheet.starts.len() - 1 })
            }
            Err(refusal) => Answer::Refused(refusal.number),
        }
    }

    fn read_sheet_place(
        &self,
        text: &[u8],
        degrees: &mut [u8],
        starts: usize,
        columns: usize,
    ) -> usize {
        let spare = &mut Vec::new();
        let degrees = self.companion_list(degrees, spare);
        place(self.read(text, degrees, starts, columns))
    }

    fn write_sheet(
        &self,
        graph: &GraphBytes,
        degrees: &mut [u8],
        text: &mut [u8],
    ) -> Answer<usize> {
        match self.write(graph, degrees, text.len()) {
            Ok(written) => {
                put(text, &written);
                let more = usize::from(self.has(Fault::TextLengthOneMore) && graph.n == 7);
                Answer::Accepted(written.len() + more)
            }
            Err(refusal) => Answer::Refused(refusal.number),
        }
    }

    fn write_sheet_place(&self, graph: &GraphBytes, degrees: &mut [u8], text: usize) -> usize {
        let spare = &mut Vec::new();
        let degrees = self.companion_list(degrees, spare);
        place(self.write(graph, degrees, text))
    }
    fn read_blocks(
        &self,
        text: &[u8],
        degrees: &mut [u8],
        starts: &mut [u8],
        columns: &mut [u8],
    ) -> Answer<SheetCounts> {
        self.read_blocks_faulty(text, degrees, starts, columns)
    }

    fn read_blocks_place(
        &self,
        text: &[u8],
        degrees: &mut [u8],
        starts: usize,
        columns: usize,
    ) -> usize {
        self.read_blocks_place_faulty(text, degrees, starts, columns)
    }

    fn write_blocks(
        &self,
        blocks: &BlocksBytes,
        degrees: &mut [u8],
        text: &mut [u8],
    ) -> Answer<usize> {
        self.write_blocks_faulty(blocks, degrees, text)
    }

    fn write_blocks_place(&self, blocks: &BlocksBytes, degrees: &mut [u8], text: usize) -> usize {
        self.write_blocks_place_faulty(blocks, degrees, text)
    }

    fn encode(
        &self,
        input: &EncodeInput,
        degrees: &mut [u8],
        codeword: &mut [u8],
        work: &mut [u8],
    ) -> Answer<()> {
        self.encode_faulty(input, degrees, codeword, work)
    }

    fn encode_place(&self, input: &EncodeInput, degrees: &mut [u8]) -> usize {
        self.encode_place_faulty(input, degrees)
    }
}
