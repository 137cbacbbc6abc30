//! One input given to a decoder and to the paper.

use super::arena::{Arena, Part};
use super::blocks::{check_write_blocks, read_as_ordinary};
use super::encode::check_encode;
use super::pair::check_pair;
use super::pause::{check_advance, check_run};
use super::series::Seen;
use super::twins::check_twin;
use crate::generate::cases::{Case, DecodeCase, ReadCase, WriteCase};
use crate::interface::{
    Answer, DecodeInput, Decoded, Decoder, GraphBytes, Lent, SheetCounts, f32_list, i32_bytes,
    number_bytes, numbers,
};
use crate::paper::{self, Graph, Level, Limits, Outcome, Refusal, Sheet, blocks};
use crate::random::Random;
use std::fmt::Debug;

/// Compares the answer, the place and every byte. `fill` seeds the bytes around.
pub fn check(case: &Case, decoder: &dyn Decoder, fill: u64) -> Result<Seen, String> {
    let random = &mut Random::new(fill);
    match case {
        Case::Decode(case) => check_decode(case, decoder, random),
        Case::Read(case) => check_read(Kind::Ordinary, case, decoder, random),
        Case::Write(case) => check_write(case, decoder, random),
        Case::Twin(case) => check_twin(case, decoder),
        Case::ReadBlocks(case) => check_read(Kind::Blocks, case, decoder, random),
        Case::WriteBlocks(case) => check_write_blocks(case, decoder, random),
        Case::Encode(case) => check_encode(case, decoder, random),
        Case::Run(case) => check_run(case, decoder, random),
        Case::Advance(case) => check_advance(case, decoder, random),
        Case::Pair(case) => check_pair(case, decoder, random),
    }
}

/// What a call and its companion are given and lent, each in an allocation of its own, and
/// what they must leave there.
pub struct Both {
    pub entry: Arena,
    pub companion: Arena,
    entry_left: Vec<u8>,
    companion_left: Vec<u8>,
}

impl Both {
    /// Both leave the list of degrees alike; the other lists are the call's.
    pub fn new(arena: Arena, degrees: &[u32], lists: Vec<(&str, Vec<u8>)>) -> Both {
        let degrees = vec![("degrees", number_bytes(degrees))];
        Both {
            companion_left: arena.with(&degrees),
            entry_left: arena.with(&[degrees, lists].concat()),
            companion: arena.clone(),
            entry: arena,
        }
    }

    pub fn compare(&self) -> Result<(), String> {
        self.entry.compare(&self.entry_left)?;
        let after_companion = |difference| format!("after the companion, {difference}");
        self.companion.compare(&self.companion_left).map_err(after_companion)
    }
}

fn check_decode(
    case: &DecodeCase,
    decoder: &dyn Decoder,
    random: &mut Random,
) -> Result<Seen, String> {
    let (starts, columns) = (numbers(&case.starts), numbers(&case.columns));
    let graph = Graph { n: case.n, starts: &starts, columns: &columns };
    let values = f32_list(&case.values);
    let arena = Arena::new(
        random,
        &[
            Part::Given("starts", &case.starts),
            Part::Lent("levels", case.lent.levels),
            Part::Given("columns", &case.columns),
            Part::Lent("variable messages", case.lent.variable_messages),
            Part::Lent("degrees", case.degrees),
            Part::Lent("check messages", case.lent.check_messages),
            Part::Given("values", &case.values),
            Part::Lent("sums", case.lent.sums),
            Part::Lent("bits", case.lent.bits),
        ],
    );
    let degrees = &mut numbers(arena.part("degrees"));
    let (settings, lent) = (&case.settings, &case.lent);
    let expected = paper::decode(Limits::LENT, &graph, &values, settings, degrees, lent);
    let left = expected.as_ref().map_or(Vec::new(), lists_of);
    let mut both = Both::new(arena, degrees, left);

    let answer = decode_in(&mut both.entry, case, decoder);
    let number = match &answer {
        Answer::Refused(number) => *number,
        Answer::Accepted(_) | Answer::Malformed(_) => 0,
    };
    let [starts, _, columns, _, degrees, _, values] = both.companion.slices();
    let graph = GraphBytes { n: case.n, starts, columns };
    let place = decoder.decode_place(&graph, values, number, degrees);

    let numbers = expected.map(|outcome| Decoded {
        verdict: outcome.verdict,
        iterations: outcome.iterations,
        unsatisfied: outcome.unsatisfied,
    });
    compare_answers(&numbers, &answer, place)?;
    both.compare()?;
    let iterations = numbers.ok().map(|numbers| numbers.iterations);
    Ok(Seen { call: "decode", refusal: number_of(&numbers), iterations })
}

/// What an accepted decode leaves beside the degrees.
fn lists_of(outcome: &Outcome) -> Vec<(&'static str, Vec<u8>)> {
    vec![
        ("levels", level_bytes(&outcome.levels)),
        ("variable messages", level_bytes(&outcome.variable_messages)),
        ("check messages", level_bytes(&outcome.check_messages)),
        ("sums", i32_bytes(&outcome.sums)),
        ("bits", outcome.bits.clone()),
    ]
}

fn decode_in(arena: &mut Arena, case: &DecodeCase, decoder: &dyn Decoder) -> Answer<Decoded> {
    let [starts, levels, columns, variable_messages, degrees, check_messages, values, sums, bits] =
        arena.slices();
    let graph = GraphBytes { n: case.n, starts, columns };
    let input = DecodeInput { graph, values, settings: case.settings };
    let mut lent = Lent { levels, variable_messages, check_messages, sums, bits };
    decoder.decode(&input, degrees, &mut lent)
}

/// The kinds of sheets.
#[derive(Clone, Copy)]
enum Kind {
    Ordinary,
    Blocks,
}

fn check_read(
    kind: Kind,
    case: &ReadCase,
    decoder: &dyn Decoder,
    random: &mut Random,
) -> Result<Seen, String> {
    let arena = Arena::new(
        random,
        &[
            Part::Lent("starts", case.starts),
            Part::Given("text", &case.text),
            Part::Lent("degrees", case.degrees),
            Part::Lent("columns", case.columns),
        ],
    );
    let degrees = &mut numbers(arena.part("degrees"));
    let ReadCase { text, starts, columns, .. } = case;
    let expected = match kind {
        Kind::Ordinary => paper::read_sheet(Limits::LENT, text, degrees, *starts, *columns),
        Kind::Blocks => blocks::read(Limits::LENT, text, degrees, *starts, *columns),
    };
    let left = match &expected {
        Ok(sheet) => {
            vec![("starts", number_bytes(&sheet.starts)), ("columns", number_bytes(&sheet.columns))]
        }
        Err(_) => Vec::new(),
    };
    let mut both = Both::new(arena, degrees, left);

    let [starts, text, degrees, columns] = both.entry.slices();
    let answer = match kind {
        Kind::Ordinary => decoder.read_sheet(text, degrees, starts, columns),
        Kind::Blocks => decoder.read_blocks(text, degrees, starts, columns),
    };
    let [_, text, degrees] = both.companion.slices();
    let place = match kind {
        Kind::Ordinary => decoder.read_sheet_place(text, degrees, case.starts, case.columns),
        Kind::Blocks => decoder.read_blocks_place(text, degrees, case.starts, case.columns),
    };

    let counts = |sheet: &Sheet| SheetCounts { n: sheet.n, m: sheet.starts.len() - 1 };
    let numbers = expected.as_ref().map(counts).map_err(|refusal| *refusal);
    compare_answers(&numbers, &answer, place)?;
    both.compare()?;
    let call = match kind {
        Kind::Ordinary => "read",
        Kind::Blocks => "read blocks",
    };
    if let (Kind::Blocks, Ok(sheet)) = (kind, &expected) {
        read_as_ordinary(sheet, decoder)?;
    }
    Ok(Seen { call, refusal: number_of(&numbers), iterations: None })
}

fn check_write(
    case: &WriteCase,
    decoder: &dyn Decoder,
    random: &mut Random,
) -> Result<Seen, String> {
    let (starts, columns) = (numbers(&case.starts), numbers(&case.columns));
    let graph = Graph { n: case.n, starts: &starts, columns: &columns };
    let arena = Arena::new(
        random,
        &[
            Part::Given("starts", &case.starts),
            Part::Lent("text", case.text),
            Part::Given("columns", &case.columns),
            Part::Lent("degrees", case.degrees),
        ],
    );
    let degrees = &mut numbers(arena.part("degrees"));
    let expected = paper::write_sheet(Limits::LENT, &graph, degrees, case.text);
    let numbers = expected.as_ref().map(Vec::len).map_err(|refusal| *refusal);
    let left = expected.map_or(Vec::new(), |text| vec![("text", text)]);
    let mut both = Both::new(arena, degrees, left);

    let [starts, text, columns, degrees] = both.entry.slices();
    let answer = decoder.write_sheet(&GraphBytes { n: case.n, starts, columns }, degrees, text);
    let [starts, _, columns, degrees] = both.companion.slices();
    let graph = GraphBytes { n: case.n, starts, columns };
    let place = decoder.write_sheet_place(&graph, degrees, case.text);

    compare_answers(&numbers, &answer, place)?;
    both.compare()?;
    Ok(Seen { call: "write", refusal: number_of(&numbers), iterations: None })
}

pub fn level_bytes(levels: &[Level]) -> Vec<u8> {
    levels.iter().map(|level| level.byte()).collect()
}

pub fn number_of<T>(expected: &Result<T, Refusal>) -> u8 {
    expected.as_ref().err().map_or(0, |refusal| refusal.number)
}

pub fn compare_answers<T: Copy + Debug + PartialEq>(
    expected: &Result<T, Refusal>,
    answer: &Answer<T>,
    place: usize,
) -> Result<(), String> {
    let (expected_answer, expected_place) = match expected {
        Ok(numbers) => (Answer::Accepted(*numbers), 0),
        Err(refusal) => (Answer::Refused(refusal.number), refusal.place),
    };
    if *answer != expected_answer {
        return Err(format!("the answer is {answer:?}, not {expected_answer:?}"));
    }
    if place != expected_place {
        return Err(format!("the place of {answer:?} is {place}, not {expected_place}"));
    }
    Ok(())
}
