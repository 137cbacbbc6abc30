//! Block sheets written, and what the calls say of each other's answers.

use super::arena::{Arena, Part};
use super::check::{Both, compare_answers, number_of};
use super::series::Seen;
use crate::generate::cases::WriteBlocksCase;
use crate::interface::{
    Answer, BlocksBytes, Decoder, GraphBytes, NUMBER_BYTES, number_bytes, numbers,
};
use crate::paper::blocks::{expansion, write};
use crate::paper::{Limits, Sheet};
use crate::random::Random;

/// Expansions of more entries are not given to further calls.
const MOST_ENTRIES: usize = 100_000;

/// What an ordinary sheet needs for an entry, and before the entries.
const LINE: usize = 16;
const TOP: usize = 64;

pub fn check_write_blocks(
    case: &WriteBlocksCase,
    decoder: &dyn Decoder,
    random: &mut Random,
) -> Result<Seen, String> {
    let blocks = case.blocks();
    let arena = Arena::new(
        random,
        &[
            Part::Lent("text", case.text),
            Part::Given("entries", &case.entries),
            Part::Lent("degrees", case.degrees),
        ],
    );
    let degrees = &mut numbers(arena.part("degrees"));
    let expected = write(Limits::LENT, &blocks, degrees, case.text);
    let length = expected.as_ref().map(Vec::len).map_err(|refusal| *refusal);
    let left = expected.map_or(Vec::new(), |text| vec![("text", text)]);
    let mut both = Both::new(arena, degrees, left);

    let [text, entries, degrees] = both.entry.slices();
    let answer = decoder.write_blocks(&given(case, entries), degrees, text);
    let [_, entries, degrees] = both.companion.slices();
    let place = decoder.write_blocks_place(&given(case, entries), degrees, case.text);

    compare_answers(&length, &answer, place)?;
    both.compare()?;
    if let Ok(length) = length
        && blocks.size * blocks.entries.len() <= MOST_ENTRIES
    {
        let [text] = both.entry.slices();
        reads_to(&text[..length], &expansion(&blocks), decoder)?;
    }
    Ok(Seen { call: "write blocks", refusal: number_of(&length), iterations: None })
}

fn given<'a>(case: &WriteBlocksCase, entries: &'a [u8]) -> BlocksBytes<'a> {
    BlocksBytes { size: case.size, rows: case.rows, columns: case.columns, entries }
}

/// Lists as long as a graph needs them.
struct Lists {
    degrees: Vec<u8>,
    starts: Vec<u8>,
    columns: Vec<u8>,
}

impl Lists {
    fn new(sheet: &Sheet) -> Lists {
        Lists {
            degrees: vec![0; NUMBER_BYTES * sheet.n],
            starts: vec![0; NUMBER_BYTES * sheet.starts.len()],
            columns: vec![0; NUMBER_BYTES * sheet.columns.len()],
        }
    }

    fn hold(&self, sheet: &Sheet) -> bool {
        self.starts == number_bytes(&sheet.starts) && self.columns == number_bytes(&sheet.columns)
    }
}

/// What the writer wrote reads to the expansion of its numbers.
fn reads_to(text: &[u8], sheet: &Sheet, decoder: &dyn Decoder) -> Result<(), String> {
    let mut lists = Lists::new(sheet);
    let Lists { degrees, starts, columns } = &mut lists;
    let answer = decoder.read_blocks(text, degrees, starts, columns);
    match lists.hold(sheet) {
        true => Ok(()),
        false => Err(format!("the sheet that was written reads to another graph: {answer:?}")),
    }
}

/// The ordinary sheet of an expansion, written and read by the decoder, gives the same lists.
pub fn read_as_ordinary(sheet: &Sheet, decoder: &dyn Decoder) -> Result<(), String> {
    if sheet.columns.len() > MOST_ENTRIES {
        return Ok(());
    }
    let (starts, columns) = (number_bytes(&sheet.starts), number_bytes(&sheet.columns));
    let graph = GraphBytes { n: sheet.n, starts: &starts, columns: &columns };
    let mut lists = Lists::new(sheet);
    let mut text = vec![0; TOP + LINE * sheet.columns.len()];
    let answer = decoder.write_sheet(&graph, &mut lists.degrees, &mut text);
    let Answer::Accepted(length) = answer else {
        return Err(format!("the ordinary sheet of the expansion is answered {answer:?}"));
    };
    let Lists { degrees, starts, columns } = &mut lists;
    let answer = decoder.read_sheet(&text[..length.min(text.len())], degrees, starts, columns);
    match lists.hold(sheet) {
        true => Ok(()),
        false => Err(format!("the ordinary sheet reads to another graph: {answer:?}")),
    }
}
