//! What the calls take and give, shared by every implementation in this package.
//!
//! Lists are byte slices, lowest byte first. A list's count is its length divided by the
//! width, rounded down; bytes past the last whole element are never read or written.

mod bytes;
mod pair;

pub use bytes::*;
pub use pair::*;

/// The bytes of a start, a column or a degree.
pub const NUMBER_BYTES: usize = 4;

/// The bytes of an encoder's position.
pub const POSITION_BYTES: usize = 2;

/// The bytes of a block sheet's entry: row, column and shift.
pub const ENTRY_BYTES: usize = 3 * NUMBER_BYTES;

/// L of a run in which nothing is lifted: "256 means never".
pub const NEVER: u32 = 256;

/// The largest W that is admitted.
pub const LARGEST_LIFT: u32 = 15;

/// A refusal's number and place.
#[derive(Clone, Copy, Debug, PartialEq, Eq)]
pub struct Refusal {
    pub number: u8,
    pub place: usize,
}

#[derive(Clone, Copy, Debug, PartialEq, Eq)]
pub enum Verdict {
    Codeword,
    Stopped,
}

/// The numbers that an accepted decode reports.
#[derive(Clone, Copy, Debug, PartialEq, Eq)]
pub struct Decoded {
    pub verdict: Verdict,
    pub iterations: usize,
    pub unsatisfied: usize,
}

/// A run's record: its verdict, which it has not while it is open, the iteration where it halted,
/// and how many checks are unsatisfied there.
#[derive(Clone, Copy, Debug, PartialEq, Eq)]
pub struct Record {
    pub verdict: Option<Verdict>,
    pub iterations: usize,
    pub unsatisfied: usize,
}

impl Record {
    /// "The record is the packed answer itself": its lowest byte is 0, the next is 0 for a
    /// codeword, 1 for stopped and 2 for open, two bytes are the iteration, four the unsatisfied
    /// checks.
    pub fn number(&self) -> u64 {
        let verdict = match self.verdict {
            Some(Verdict::Codeword) => 0,
            Some(Verdict::Stopped) => 1,
            None => 2,
        };
        verdict << 8 | (self.iterations as u64) << 16 | (self.unsatisfied as u64) << 32
    }

    /// The record of a number, where it has this form.
    pub fn of_number(number: u64) -> Option<Record> {
        let verdict = match number & 0xffff {
            0x0000 => Some(Verdict::Codeword),
            0x0100 => Some(Verdict::Stopped),
            0x0200 => None,
            _ => return None,
        };
        let iterations = (number >> 16 & 0xffff) as usize;
        Some(Record { verdict, iterations, unsatisfied: (number >> 32) as usize })
    }
}

impl From<Decoded> for Record {
    fn from(decoded: Decoded) -> Record {
        let Decoded { verdict, iterations, unsatisfied } = decoded;
        Record { verdict: Some(verdict), iterations, unsatisfied }
    }
}

/// The numbers that an accepted read of a sheet reports. E is the last start that was read.
#[derive(Clone, Copy, Debug, PartialEq, Eq)]
pub struct SheetCounts {
    pub n: usize,
    pub m: usize,
}

/// What a call answers. `Malformed` is an answer outside the agreed packing.
#[derive(Clone, Copy, Debug, PartialEq, Eq)]
pub enum Answer<T> {
    Accepted(T),
    Refused(u8),
    Malformed(u64),
}

impl<T> Answer<T> {
    pub fn map<U>(self, change: impl FnOnce(T) -> U) -> Answer<U> {
        match self {
            Answer::Accepted(accepted) => Answer::Accepted(change(accepted)),
            Answer::Refused(number) => Answer::Refused(number),
            Answer::Malformed(answer) => Answer::Malformed(answer),
        }
    }
}

/// A decode's settings, as the host gives them: nothing is checked yet. The last two are the
/// paper's L and W.
#[derive(Clone, Copy, Debug)]
pub struct Settings {
    pub kind: u32,
    pub gain: f32,
    pub variance: f32,
    pub channel: u32,
    pub message: u32,
    pub phi_s: u32,
    pub phi_a: u32,
    pub phi_0: u32,
    pub limit: u32,
    pub lift_from: u32,
    pub lift_to: u32,
}

#[derive(Clone, Copy)]
pub struct GraphBytes<'a> {
    pub n: usize,
    pub starts: &'a [u8],
    pub columns: &'a [u8],
}

/// A block sheet's numbers, as the host gives them to be written: nothing is checked yet. A part
/// of an entry at the end of the list is no entry.
#[derive(Clone, Copy)]
pub struct BlocksBytes<'a> {
    pub size: usize,
    pub rows: usize,
    pub columns: usize,
    pub entries: &'a [u8],
}

#[derive(Clone, Copy)]
pub struct DecodeInput<'a> {
    pub graph: GraphBytes<'a>,
    pub values: &'a [u8],
    pub settings: Settings,
}

/// What an advance is given beside the run's lists: nothing is checked yet. The scaling in the
/// settings is not given.
#[derive(Clone, Copy)]
pub struct AdvanceInput<'a> {
    pub record: u64,
    pub graph: GraphBytes<'a>,
    pub settings: Settings,
    pub count: u32,
}

/// A graph, variables of it, and a bit for each, as the host gives them to be encoded: nothing is
/// checked yet. A part of a position at the end of the list is no position.
#[derive(Clone, Copy)]
pub struct EncodeInput<'a> {
    pub graph: GraphBytes<'a>,
    pub positions: &'a [u8],
    pub given: &'a [u8],
}

/// How many bytes an encoder works in.
pub fn work_length(n: usize, m: usize) -> usize {
    m.saturating_mul(n / 8 + 1)
}

/// The five buffers lent to decode, begin and advance beside the list of degrees.
pub struct Lent<'a> {
    pub levels: &'a mut [u8],
    pub variable_messages: &'a mut [u8],
    pub check_messages: &'a mut [u8],
    pub sums: &'a mut [u8],
    pub bits: &'a mut [u8],
}

impl Lent<'_> {
    pub fn lengths(&self) -> LentLengths {
        LentLengths {
            levels: self.levels.len(),
            variable_messages: self.variable_messages.len(),
            check_messages: self.check_messages.len(),
            sums: self.sums.len(),
            bits: self.bits.len(),
        }
    }
}

/// Their lengths in bytes.
#[derive(Clone, Copy, Debug, PartialEq, Eq)]
pub struct LentLengths {
    pub levels: usize,
    pub variable_messages: usize,
    pub check_messages: usize,
    pub sums: usize,
    pub bits: usize,
}

impl LentLengths {
    /// What a run on `n` variables and `entries` graph entries needs.
    pub fn needed(n: usize, entries: usize) -> LentLengths {
        LentLengths {
            levels: n,
            variable_messages: entries,
            check_messages: entries,
            sums: n.saturating_mul(4),
            bits: n,
        }
    }

    pub fn as_array(&self) -> [usize; 5] {
        [self.levels, self.variable_messages, self.check_messages, self.sums, self.bits]
    }

    pub fn from_array(lengths: [usize; 5]) -> LentLengths {
        let [levels, variable_messages, check_messages, sums, bits] = lengths;
        LentLengths { levels, variable_messages, check_messages, sums, bits }
    }

    pub fn covers(&self, needed: &LentLengths) -> bool {
        let mut pairs = self.as_array().into_iter().zip(needed.as_array());
        pairs.all(|(lent, needed)| lent >= needed)
    }
}

/// The host's calls, each lent a list of degrees. Every `_place` is the companion that tells
/// where a refusal is, and 0 where nothing is refused; decode's and begin's are asked with the
/// number of the refusal, a pair's with the answer. It leaves the list of degrees as its call does.
/// Calls may be made from several threads at once.
pub trait Decoder: Sync {
    fn decode(&self, input: &DecodeInput, degrees: &mut [u8], lent: &mut Lent) -> Answer<Decoded>;
    fn decode_place(
        &self,
        graph: &GraphBytes,
        values: &[u8],
        number: u8,
        degrees: &mut [u8],
    ) -> usize;

    fn begin(&self, input: &DecodeInput, degrees: &mut [u8], lent: &mut Lent) -> Answer<Record>;
    fn begin_place(
        &self,
        graph: &GraphBytes,
        values: &[u8],
        number: u8,
        degrees: &mut [u8],
    ) -> usize;

    fn advance(&self, input: &AdvanceInput, degrees: &mut [u8], lent: &mut Lent) -> Answer<Record>;
    fn advance_place(&self, graph: &GraphBytes, degrees: &mut [u8]) -> usize;

    /// The answer is 0 or that of a refusal; the reports are stored.
    fn decode_pair(
        &self,
        input: &PairInput,
        degrees: &mut [u8],
        lent: &mut [Lent; 2],
        reports: &mut [u8],
    ) -> u64;
    fn decode_pair_place(
        &self,
        graph: &GraphBytes,
        values: [&[u8]; 2],
        answer: u64,
        degrees: &mut [u8],
    ) -> usize;

    fn read_sheet(
        &self,
        text: &[u8],
        degrees: &mut [u8],
        starts: &mut [u8],
        columns: &mut [u8],
    ) -> Answer<SheetCounts>;
    fn read_sheet_place(
        &self,
        text: &[u8],
        degrees: &mut [u8],
        starts: usize,
        columns: usize,
    ) -> usize;

    fn write_sheet(&self, graph: &GraphBytes, degrees: &mut [u8], text: &mut [u8])
    -> Answer<usize>;
    fn write_sheet_place(&self, graph: &GraphBytes, degrees: &mut [u8], text: usize) -> usize;

    fn read_blocks(
        &self,
        text: &[u8],
        degrees: &mut [u8],
        starts: &mut [u8],
        columns: &mut [u8],
    ) -> Answer<SheetCounts>;
    fn read_blocks_place(
        &self,
        text: &[u8],
        degrees: &mut [u8],
        starts: usize,
        columns: usize,
    ) -> usize;

    fn write_blocks(
        &self,
        blocks: &BlocksBytes,
        degrees: &mut [u8],
        text: &mut [u8],
    ) -> Answer<usize>;
    fn write_blocks_place(&self, blocks: &BlocksBytes, degrees: &mut [u8], text: usize) -> usize;

    fn encode(
        &self,
        input: &EncodeInput,
        degrees: &mut [u8],
        codeword: &mut [u8],
        work: &mut [u8],
    ) -> Answer<()>;
    fn encode_place(&self, input: &EncodeInput, degrees: &mut [u8]) -> usize;
}

#[cfg(test)]
mod tests {
    use super::*;

    #[test]
    fn records_and_their_numbers() {
        let open = Record { verdict: None, iterations: 0x0102, unsatisfied: 0x0304_0506 };
        assert_eq!(open.number(), 0x0304_0506_0102_0200);
        let stopped = Record { verdict: Some(Verdict::Stopped), iterations: 255, unsatisfied: 1 };
        assert_eq!(stopped.number(), 0x0000_0001_00ff_0100);
        let codeword = Record { verdict: Some(Verdict::Codeword), iterations: 3, unsatisfied: 0 };
        assert_eq!(codeword.number(), 0x0000_0000_0003_0000);
        for record in [open, stopped, codeword] {
            assert_eq!(Record::of_number(record.number()), Some(record));
        }
        // A refusal's number, and a byte that is no verdict.
        for number in [21, open.number() + 1, open.number() + 0x100, 0x8000, 0xff00] {
            assert_eq!(Record::of_number(number), None);
        }
    }

    #[test]
    fn bytes_to_work_in() {
        // A bit for each variable and one more.
        assert_eq!([6, 7, 8, 9].map(|n| work_length(n, 1)), [1, 1, 2, 2]);
        assert_eq!(work_length(2_048, 512), 131_584);
    }
}
