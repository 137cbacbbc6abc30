//! Whole inputs of a call, made from the parts.

use super::codewords::Codewords;
use super::encoding::{self, EncodeCase};
use super::pair::{self, PairCase};
use super::pause::{self, AdvanceCase, RunCase};
use super::{
    Lists, advance_cases, advance_orders, blank, blank_cases, blank_orders, block_limits,
    block_orders, blocks, damage, encode_limits, encode_orders, graphs, lifting, limits, orders,
    pair_cases, pair_orders, pause_cases, refusals, settings, texts,
};
use crate::interface::{
    LentLengths, NEVER, NUMBER_BYTES, Settings, f32_bytes, f32_list, number_bytes, numbers,
};
use crate::paper::run::check_settings;
use crate::paper::{self, Blocks, Entry, Graph, Limits, Outcome, Refusal};
use crate::random::Random;

/// An input of decode.
#[derive(Clone, Debug)]
pub struct DecodeCase {
    pub n: usize,
    pub starts: Vec<u8>,
    pub columns: Vec<u8>,
    pub values: Vec<u8>,
    pub settings: Settings,
    pub degrees: usize,
    pub lent: LentLengths,
}

impl DecodeCase {
    /// How many columns it has.
    pub fn entries(&self) -> usize {
        self.columns.len() / NUMBER_BYTES
    }

    /// What the paper says of it.
    pub fn outcome(&self) -> Result<Outcome, Refusal> {
        let (starts, columns) = (numbers(&self.starts), numbers(&self.columns));
        let graph = Graph { n: self.n, starts: &starts, columns: &columns };
        let values = f32_list(&self.values);
        let degrees = &mut vec![0; self.degrees / NUMBER_BYTES];
        paper::decode(Limits::LENT, &graph, &values, &self.settings, degrees, &self.lent)
    }

    /// The same with nothing lifted.
    pub fn unlifted(&self) -> DecodeCase {
        let settings = Settings { lift_from: NEVER, ..self.settings };
        DecodeCase { settings, ..self.clone() }
    }
}

/// A sheet of either kind to read and the lengths of the lists lent for it.
#[derive(Clone, Debug)]
pub struct ReadCase {
    pub text: Vec<u8>,
    pub degrees: usize,
    pub starts: usize,
    pub columns: usize,
}

/// A graph to write and the lengths of the list and the text lent for it.
#[derive(Clone, Debug)]
pub struct WriteCase {
    pub n: usize,
    pub starts: Vec<u8>,
    pub columns: Vec<u8>,
    pub degrees: usize,
    pub text: usize,
}

/// The numbers of a block sheet to write and the lengths of the list and the text lent for it.
#[derive(Clone, Debug)]
pub struct WriteBlocksCase {
    pub size: usize,
    pub rows: usize,
    pub columns: usize,
    pub entries: Vec<u8>,
    pub degrees: usize,
    pub text: usize,
}

impl WriteBlocksCase {
    /// The numbers, without a part of an entry at the end.
    pub fn blocks(&self) -> Blocks {
        let entry = |parts: &[u32]| Entry {
            row: parts[0] as usize,
            column: parts[1] as usize,
            shift: parts[2] as usize,
        };
        let entries = numbers(&self.entries).chunks_exact(3).map(entry).collect();
        Blocks { size: self.size, rows: self.rows, columns: self.columns, entries }
    }
}

/// A decode that is accepted, or whose frame is blank, and a word whose ones say which values are
/// negated in its twin. Both runs are also begun, and advanced by these counts.
#[derive(Clone, Debug)]
pub struct TwinCase {
    pub decode: DecodeCase,
    pub word: Vec<u8>,
    pub counts: Vec<u32>,
}

#[derive(Clone, Debug)]
pub enum Case {
    Decode(DecodeCase),
    Read(ReadCase),
    Write(WriteCase),
    Twin(TwinCase),
    ReadBlocks(ReadCase),
    WriteBlocks(WriteBlocksCase),
    Encode(EncodeCase),
    Run(RunCase),
    Advance(AdvanceCase),
    Pair(PairCase),
}

/// The inputs at the program's limits and one past them, every order of refusals around the
/// list of degrees and of decode's others, every admitted W, block sheets and the writing side by
/// every pair of refusals and around every limit, blank frames at every precision and scaling
/// and in every order, runs that are paused, with every split and every pair of refusals, and pairs
/// of heads with every allowance around what they take and every order of refusals; they are in
/// every series.
pub fn at_small_limits(random: &mut Random) -> Vec<Case> {
    let mut cases = orders::cases();
    cases.extend(refusals::cases());
    cases.extend(lifting::admitted_cases());
    let graphs: Vec<Lists> = limits::graphs(Limits::PROGRAM, random).collect();
    for lists in &graphs {
        cases.push(Case::Write(write_case(lists)));
        cases.push(Case::Decode(short_decode(random, lists)));
    }
    // 65,536 values too many.
    let lists = graphs::any(random);
    let values = vec![1.0; lists.n + 65_536];
    cases.push(Case::Decode(decode_case(&lists, &values, settings::good(random))));
    for text in limits::sheets(Limits::PROGRAM, random) {
        let room = |count: usize| NUMBER_BYTES * (count + 2);
        let Limits { variables, checks, entries } = Limits::PROGRAM;
        let (degrees, starts, columns) = (room(variables), room(checks + 1), room(entries));
        cases.push(Case::Read(ReadCase { text, degrees, starts, columns }));
    }
    let lists = graphs::regular(random, 1_200, 3, 6);
    cases.push(Case::Twin(any_twin_of(random, &lists)));
    cases.extend(block_orders::cases());
    cases.extend(block_limits::cases());
    cases.extend(encode_orders::cases());
    cases.extend(encode_limits::cases(random));
    cases.extend(blank_cases::cases());
    cases.extend(blank_orders::cases());
    cases.extend(pause_cases::cases());
    cases.extend(advance_cases::cases());
    cases.extend(advance_orders::cases());
    cases.extend(pair_cases::cases());
    cases.extend(pair_orders::cases());
    cases
}

/// The writing side, paused runs and pairs of heads are chosen beside the other calls, whose inputs
/// stay what they were without them.
pub fn any(random: &mut Random) -> Case {
    let chosen = &mut random.clone();
    if chosen.one_in(13) {
        return Case::Encode(encoding::any(random));
    }
    match chosen.below(24) {
        0 | 1 => return Case::Run(pause::any_run(random)),
        2..=4 => return Case::Advance(pause::any_advance(random)),
        5..=7 => return Case::Pair(pair::any_pair(random)),
        _ => {}
    }
    match random.below(24) {
        0..=10 => Case::Decode(any_decode(random)),
        11..=13 => Case::Twin(any_twin(random)),
        14..=17 => Case::Read(any_read(random)),
        18..=19 => Case::Write(any_write(random)),
        20..=21 => Case::ReadBlocks(blocks::any_read(random)),
        _ => Case::WriteBlocks(blocks::any_write(random)),
    }
}

pub fn decode_case(lists: &Lists, values: &[f32], settings: Settings) -> DecodeCase {
    DecodeCase {
        n: lists.n,
        starts: number_bytes(&lists.starts),
        columns: number_bytes(&lists.columns),
        values: f32_bytes(values),
        settings,
        degrees: NUMBER_BYTES * countable(lists.n),
        lent: LentLengths::needed(lists.n, lists.columns.len()),
    }
}

/// The factor, or 1 where the settings are turned down.
pub fn factor_of(settings: &Settings) -> f32 {
    check_settings(settings).map_or(1.0, |checked| checked.factor)
}

/// A decode of few iterations, with something exposed.
pub fn short_decode(random: &mut Random, lists: &Lists) -> DecodeCase {
    let mut values = settings::values(random, lists.n, 1.0);
    let mut settings = Settings { limit: 3, ..settings::good(random) };
    lifting::lift(random, &mut settings);
    blank::cure(&mut random.clone(), &mut values, factor_of(&settings));
    decode_case(lists, &values, settings)
}

pub fn write_case(lists: &Lists) -> WriteCase {
    WriteCase {
        n: lists.n,
        starts: number_bytes(&lists.starts),
        columns: number_bytes(&lists.columns),
        degrees: NUMBER_BYTES * countable(lists.n),
        text: texts::sheet(lists).len(),
    }
}

/// The graph's sheet, read into lists of just its lengths.
pub fn read_case(lists: &Lists) -> ReadCase {
    ReadCase {
        text: texts::sheet(lists),
        degrees: NUMBER_BYTES * countable(lists.n),
        starts: NUMBER_BYTES * lists.starts.len(),
        columns: NUMBER_BYTES * lists.columns.len(),
    }
}

/// As many variables as a list of degrees is ever lent for.
fn countable(n: usize) -> usize {
    n.min(Limits::LENT.variables + 1)
}

/// A length that is mostly enough: exact or longer, rarely one byte short or nothing.
pub fn lent_length(random: &mut Random, needed: usize) -> usize {
    match random.below(100) {
        0 => needed.saturating_sub(1),
        1 => random.below(needed + 1),
        2..=40 => needed + random.between(1, 9),
        _ => needed,
    }
}

/// The same for the list of degrees: exact, longer by parts of a number or by some, now and
/// then one byte short, shorter or nothing. For very many variables it is too short.
pub fn degrees_length(random: &mut Random, n: usize) -> usize {
    let needed = NUMBER_BYTES * n.min(70_000);
    match random.below(40) {
        0 => needed.saturating_sub(1),
        1 => random.below(needed + 1),
        2 => 0,
        3..=10 => needed + random.between(1, 3),
        11..=20 => needed + random.between(4, 40),
        _ => needed,
    }
}

/// Mostly no damage, else one to three.
pub fn damages(random: &mut Random) -> usize {
    match random.below(10) {
        0 => random.between(2, 3),
        1 => 1,
        _ => 0,
    }
}

pub fn any_decode(random: &mut Random) -> DecodeCase {
    let large = random.one_in(2_000);
    let mut lists =
        if large { graphs::large(Limits::PROGRAM, random) } else { graphs::any(random) };
    let mut settings = settings::good(random);
    if large {
        settings.limit = settings.limit.min(10);
    }
    lifting::lift(random, &mut settings);
    if random.one_in(12) {
        lifting::damage(random, &mut settings);
    }
    if random.one_in(5) {
        (0..random.between(1, 2)).for_each(|_| settings::damage(random, &mut settings));
    }
    let factor = factor_of(&settings);
    let mut values = any_values(random, lists.n, factor);
    if random.one_in(16) {
        settings::spoil_values(random, &mut values);
    }
    let lent = LentLengths::needed(lists.n, lists.columns.len());
    let lent = LentLengths::from_array(lent.as_array().map(|needed| lent_length(random, needed)));
    (0..damages(random)).for_each(|_| damage::damage(Limits::LENT, random, &mut lists));
    let mut case = decode_case(&lists, &values, settings);
    case.starts = damage::ragged(random, case.starts);
    case.columns = damage::ragged(random, case.columns);
    case.values = damage::ragged(random, case.values);
    case = DecodeCase { degrees: degrees_length(random, lists.n), lent, ..case };
    if random.one_in(4) {
        lifting::lift_around_stop(random, &mut case);
    }
    case
}

/// Values for a factor. One frame in sixteen is blank or nearly so; of the others most that come
/// out blank are cured. This is chosen beside the values, so that it changes no other frame.
pub fn any_values(random: &mut Random, count: usize, factor: f32) -> Vec<f32> {
    let chosen = &mut random.clone();
    let mut values = settings::values(random, count, factor);
    match chosen.below(16) {
        0 => return blank::values(chosen, count, factor),
        1 | 2 => {}
        _ => blank::cure(chosen, &mut values, factor),
    }
    values
}

fn any_write(random: &mut Random) -> WriteCase {
    let mut lists = graphs::any(random);
    let text = texts::sheet(&lists).len();
    (0..damages(random)).for_each(|_| damage::damage(Limits::LENT, random, &mut lists));
    let starts = damage::ragged(random, number_bytes(&lists.starts));
    let columns = damage::ragged(random, number_bytes(&lists.columns));
    let degrees = degrees_length(random, lists.n);
    WriteCase { n: lists.n, starts, columns, degrees, text: lent_length(random, text) }
}

fn any_read(random: &mut Random) -> ReadCase {
    let large = random.one_in(1_000);
    let lists = if large { graphs::large(Limits::PROGRAM, random) } else { graphs::any(random) };
    let mut text = texts::sheet(&lists);
    if random.one_in(2) {
        (0..random.between(1, 2)).for_each(|_| texts::damage(Limits::LENT, random, &mut text));
    }
    ReadCase {
        text,
        degrees: degrees_length(random, lists.n),
        starts: lent_length(random, NUMBER_BYTES * lists.starts.len()),
        columns: lent_length(random, NUMBER_BYTES * lists.columns.len()),
    }
}

fn any_twin(random: &mut Random) -> TwinCase {
    let lists = graphs::any(random);
    let mut case = any_twin_of(random, &lists);
    if random.one_in(3) {
        case.word[random.below(lists.n)] ^= 1;
    } else if random.one_in(6) {
        case.word.fill_with(|| random.below(2) as u8);
    }
    case
}

/// A decode that is accepted, mostly with lifting on, or blank, and a codeword.
fn any_twin_of(random: &mut Random, lists: &Lists) -> TwinCase {
    let mut settings = settings::good(random);
    lifting::lift(random, &mut settings);
    let factor = factor_of(&settings);
    let values = any_values(random, lists.n, factor);
    let word = Codewords::new(lists).random(random);
    let mut decode = decode_case(lists, &values, settings);
    if random.one_in(4) {
        lifting::lift_around_stop(random, &mut decode);
    }
    let counts = pause::counts(&mut random.clone(), decode.settings.limit);
    TwinCase { decode, word, counts }
}
