//! What faults do to block sheets: how they are judged, expanded, read and written.

use super::calls::{place, put};
use super::{Fault, Faulty};
use crate::generate::cases::WriteBlocksCase;
use crate::interface::{Answer, BlocksBytes, ENTRY_BYTES, SheetCounts, as_number, number_bytes};
use crate::paper::blocks::text_of;
use crate::paper::sheet::{check_header, graph_of};
use crate::paper::text::{Text, decimals};
use crate::paper::{Blocks, Entry, Limits, Refusal, Sheet, check_graph};

const LIMITS: Limits = Limits::LENT;

fn refuse<T>(number: u8, place: usize) -> Result<T, Refusal> {
    Err(Refusal { number, place })
}

impl Faulty {
    fn judged_blocks(&self, bytes: &[u8]) -> Result<Blocks, Refusal> {
        let text = Text::new(bytes);
        check_header(&text, 1, b"size rows columns")?;
        let Some(numbers) = text.line(2).and_then(decimals) else {
            return refuse(1, 2);
        };
        let [size, rows, columns] = numbers.map(|number| self.cut(number));
        let mut blocks = Blocks { size, rows, columns, entries: Vec::new() };
        self.check_numbers(&blocks)?;
        check_header(&text, 3, b"row column shift")?;
        for line in 4..=text.begun() {
            let entry = self.judged_entry(&text, line, &blocks).map_err(|refusal| Refusal {
                place: match refusal.number {
                    17 if self.has(Fault::SeventeenWithoutPlace) => 0,
                    _ if self.has(Fault::BlockPlaceWithoutTop) => line - 3,
                    _ => refusal.place,
                },
                ..refusal
            })?;
            blocks.entries.push(entry);
        }
        Ok(blocks)
    }

    /// What is left of a number of the text.
    fn cut(&self, number: usize) -> usize {
        match self.has(Fault::BlockNumbersOf32Bits) {
            true => as_number(number) as usize,
            false => number,
        }
    }

    fn check_numbers(&self, blocks: &Blocks) -> Result<(), Refusal> {
        if blocks.size == 0 {
            return refuse(if self.has(Fault::SizeZeroAsTwo) { 2 } else { 17 }, 2);
        }
        let times_size = |count: usize| match self.has(Fault::BlockProductWrapped) {
            true => count.wrapping_mul(blocks.size),
            false => count.saturating_mul(blocks.size),
        };
        let [n, m] = self.counts(blocks).map(times_size);
        if !LIMITS.admit_variables(n) || !LIMITS.admit_checks(m) {
            return refuse(2, 2);
        }
        // Nothing can be made of a size that only a wrapped product lets through.
        if blocks.size > LIMITS.variables { refuse(5, 0) } else { Ok(()) }
    }

    /// How many blocks of variables and of checks there are.
    fn counts(&self, blocks: &Blocks) -> [usize; 2] {
        match self.has(Fault::BlockCountsExchanged) {
            true => [blocks.rows, blocks.columns],
            false => [blocks.columns, blocks.rows],
        }
    }

    fn judged_entry(&self, text: &Text, line: usize, above: &Blocks) -> Result<Entry, Refusal> {
        let before = above.size * above.entries.len();
        let past_limit = match self.has(Fault::BlockLimitRoundedUp) {
            true => before >= LIMITS.entries,
            false => before + above.size > LIMITS.entries,
        };
        let parts = text.line(line).and_then(decimals);
        let form_first = parts.is_none() && self.has(Fault::FormBeforeBlockLimit);
        if past_limit && !form_first {
            return refuse(2, line);
        }
        let Some(parts) = parts else {
            return refuse(1, line);
        };
        let [row, column, shift] = parts.map(|number| self.cut(number));
        let entry = Entry { row, column, shift };
        let out_of_range = row >= above.rows || column >= above.columns;
        let too_far = match self.has(Fault::ShiftOfSizeAdmitted) {
            true => shift > above.size,
            false => shift >= above.size,
        };
        let not_after = above.entries.last().is_some_and(|last| !self.comes_after(last, &entry));
        let mut order = vec![(3, out_of_range), (17, too_far), (4, not_after)];
        match self.0 {
            Fault::SeventeenAfterFour => order.swap(1, 2),
            Fault::SeventeenBeforeThree => order.swap(0, 1),
            _ => {}
        }
        match order.into_iter().find(|(_, applies)| *applies) {
            Some((number, _)) => refuse(number, line),
            None => Ok(entry),
        }
    }

    fn comes_after(&self, last: &Entry, entry: &Entry) -> bool {
        let by_row = |entry: &Entry| (entry.row, entry.column);
        match self.0 {
            Fault::BlockPairTwice => by_row(entry) >= by_row(last),
            Fault::BlocksByColumn => (entry.column, entry.row) > (last.column, last.row),
            _ => by_row(entry) > by_row(last),
        }
    }

    fn expansion(&self, blocks: &Blocks) -> Sheet {
        let size = blocks.size;
        let turned = |r: usize, shift: usize| match self.0 {
            Fault::BlocksShiftedBack => (r + size - shift) % size,
            Fault::ShiftNotReduced => r + shift,
            _ => (r + shift) % size,
        };
        let mut ones = Vec::new();
        for entry in &blocks.entries {
            let one = |r| (entry.row * size + r, entry.column * size + turned(r, entry.shift));
            ones.extend((0..size).map(one));
        }
        ones.sort();
        let [n, m] = self.counts(blocks).map(|count| count * size);
        graph_of(n, m, &ones)
    }

    fn admitted_blocks(&self, text: &[u8], degrees: &mut [u32]) -> Result<Sheet, Refusal> {
        let blocks = self.judged_blocks(text)?;
        let sheet = self.expansion(&blocks);
        let before = degrees.to_vec();
        let mut checked = check_graph(LIMITS, &sheet.graph(), degrees);
        if self.has(Fault::BlockDegreesLeftOut) {
            degrees.copy_from_slice(&before);
        }
        if let (Fault::BlockDegreesAfterFive, Err(Refusal { number: 6, .. })) = (self.0, checked) {
            let five = check_graph(LIMITS, &sheet.graph(), &mut vec![0; sheet.n]);
            checked = five.and(checked);
        }
        match checked {
            Err(Refusal { number: 5, place }) if self.has(Fault::BlockPlaceByRow) => {
                refuse(5, place / blocks.size)
            }
            other => other.map(|()| sheet),
        }
    }

    fn blocks_in(
        &self,
        text: &[u8],
        degrees: &mut [u8],
        starts: usize,
        columns: usize,
    ) -> Result<Sheet, Refusal> {
        self.on_degrees(degrees, None, |degrees| {
            let sheet = self.admitted_blocks(text, degrees)?;
            sheet.check_room(starts, columns)?;
            Ok(sheet)
        })
    }

    pub fn read_blocks_faulty(
        &self,
        text: &[u8],
        degrees: &mut [u8],
        starts: &mut [u8],
        columns: &mut [u8],
    ) -> Answer<SheetCounts> {
        let refusal = match self.blocks_in(text, degrees, starts.len(), columns.len()) {
            Ok(sheet) => {
                put(starts, &number_bytes(&sheet.starts));
                put(columns, &number_bytes(&sheet.columns));
                return Answer::Accepted(SheetCounts { n: sheet.n, m: sheet.starts.len() - 1 });
            }
            Err(refusal) => refusal,
        };
        if let (Fault::BlockListStoredBeforeFive, 5, Ok(blocks)) =
            (self.0, refusal.number, self.judged_blocks(text))
        {
            let list = number_bytes(&self.expansion(&blocks).starts);
            let stored = list.len().min(starts.len());
            put(starts, &list[..stored]);
        }
        Answer::Refused(refusal.number)
    }

    pub fn read_blocks_place_faulty(
        &self,
        text: &[u8],
        degrees: &mut [u8],
        starts: usize,
        columns: usize,
    ) -> usize {
        let spare = &mut Vec::new();
        place(self.blocks_in(text, self.companion_list(degrees, spare), starts, columns))
    }

    fn blocks_out(
        &self,
        blocks: &BlocksBytes,
        degrees: &mut [u8],
        text: usize,
    ) -> Result<Vec<u8>, Refusal> {
        let BlocksBytes { size, rows, columns, .. } = *blocks;
        let mut entries = blocks.entries.to_vec();
        if self.has(Fault::BlockPartRead) {
            entries.resize(entries.len().next_multiple_of(ENTRY_BYTES), 0);
        }
        let case = WriteBlocksCase { size, rows, columns, entries, degrees: 0, text: 0 };
        let written = text_of(&case.blocks());
        let too_short = text < written.len();
        self.on_degrees(degrees, Some(columns.saturating_mul(size)), |degrees| {
            match self.admitted_blocks(&written, degrees) {
                Err(Refusal { number: 5, .. })
                    if too_short && self.has(Fault::BlockTextBeforeFive) =>
                {
                    refuse(6, 0)
                }
                Err(refusal) => Err(refusal),
                Ok(_) if too_short => refuse(6, 0),
                Ok(_) => Ok(written.clone()),
            }
        })
    }

    pub fn write_blocks_faulty(
        &self,
        blocks: &BlocksBytes,
        degrees: &mut [u8],
        text: &mut [u8],
    ) -> Answer<usize> {
        match self.blocks_out(blocks, degrees, text.len()) {
            Ok(written) => {
                put(text, &written);
                if let (Fault::BlockTextWrittenPast, Some(past)) =
                    (self.0, text.get_mut(written.len()))
                {
                    *past = 0;
                }
                Answer::Accepted(written.len())
            }
            Err(refusal) => Answer::Refused(refusal.number),
        }
    }

    pub fn write_blocks_place_faulty(
        &self,
        blocks: &BlocksBytes,
        degrees: &mut [u8],
        text: usize,
    ) -> usize {
        let spare = &mut Vec::new();
        let place = place(self.blocks_out(blocks, self.companion_list(degrees, spare), text));
        if self.has(Fault::BlockWriterWithoutPlace) { 0 } else { place }
    }
}
