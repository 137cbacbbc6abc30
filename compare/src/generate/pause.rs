//! Runs that are begun and advanced, and states that are handed in to be carried on.

use super::cases::{
    DecodeCase, any_decode, any_values, damages, decode_case, degrees_length, factor_of,
    lent_length,
};
use super::{Lists, blank, damage, graphs, lifting, settings};
use crate::interface::{LentLengths, NUMBER_BYTES, Record, Settings, number_bytes, numbers};
use crate::paper::quantiser::largest_magnitude;
use crate::paper::{Graph, Handed, Limits, Refusal, State, advance};
use crate::random::Random;

/// The byte of a minus sign.
pub const MINUS: u8 = 128;

/// A frame whose run is begun, and the counts by which it is then advanced in turn.
#[derive(Clone, Debug)]
pub struct RunCase {
    pub decode: DecodeCase,
    pub counts: Vec<u32>,
}

/// An advance of a run that is handed in. Of the sums and the bits there are only the lengths.
#[derive(Clone, Debug)]
pub struct AdvanceCase {
    pub n: usize,
    pub starts: Vec<u8>,
    pub columns: Vec<u8>,
    pub settings: Settings,
    pub record: u64,
    pub count: u32,
    pub degrees: usize,
    pub levels: Vec<u8>,
    pub variable_messages: Vec<u8>,
    pub check_messages: Vec<u8>,
    pub sums: usize,
    pub bits: usize,
}

impl AdvanceCase {
    /// How many columns it has.
    pub fn entries(&self) -> usize {
        self.columns.len() / NUMBER_BYTES
    }

    /// What the paper says of it, on a list of degrees.
    pub fn outcome(&self, degrees: &mut [u32]) -> Result<(Record, Option<State>), Refusal> {
        let (starts, columns) = (numbers(&self.starts), numbers(&self.columns));
        let graph = Graph { n: self.n, starts: &starts, columns: &columns };
        let handed = Handed {
            record: self.record,
            settings: &self.settings,
            count: self.count,
            levels: &self.levels,
            variable_messages: &self.variable_messages,
            check_messages: &self.check_messages,
            sums: self.sums,
            bits: self.bits,
        };
        advance(&graph, &handed, degrees)
    }
}

/// The number of an open record.
pub fn open(iterations: usize, unsatisfied: usize) -> u64 {
    Record { verdict: None, iterations, unsatisfied }.number()
}

/// An advance by one of a run at an iteration, with every level and message at its largest, of
/// either sign, in lists of just the lengths that are needed.
pub fn saturated(lists: &Lists, settings: Settings, iteration: usize) -> AdvanceCase {
    let (n, entries) = (lists.n, lists.columns.len());
    let signs = |minus: [bool; 3], magnitude: u8, count: usize| -> Vec<u8> {
        let bytes = minus.map(|minus| magnitude + if minus { MINUS } else { 0 });
        bytes.into_iter().cycle().take(count).collect()
    };
    let [nch, nq] = [settings.channel, settings.message].map(largest_magnitude);
    AdvanceCase {
        n,
        starts: number_bytes(&lists.starts),
        columns: number_bytes(&lists.columns),
        settings,
        record: open(iteration, 1),
        count: 1,
        degrees: NUMBER_BYTES * n,
        levels: signs([false, true, true], nch, n),
        variable_messages: signs([true, false, false], nq, entries),
        check_messages: signs([false, true, false], nq, entries),
        sums: 4 * n,
        bits: n,
    }
}

/// Counts for a run of this limit: by the whole limit at once, one by one, or by any counts until
/// their sum mostly comes to the limit, with nothing and with counts that are refused among them.
/// Some come after the end.
pub fn counts(random: &mut Random, limit: u32) -> Vec<u32> {
    let mut counts = match random.below(8) {
        0 => vec![limit],
        1 => vec![1; limit as usize],
        2 => Vec::new(),
        _ => parts(random, limit),
    };
    for _ in 0..random.below(3) {
        counts.push(random.pick(&[0, 1, limit, limit.saturating_add(1)]));
    }
    counts
}

fn parts(random: &mut Random, limit: u32) -> Vec<u32> {
    let mut counts = Vec::new();
    let mut open = limit;
    while open > 0 && counts.len() < 20 && !random.one_in(12) {
        let count = match random.below(8) {
            0 => 0,
            1 => random.pick(&[limit + 1, 256, 65_536, 1 << 31, u32::MAX]),
            2 => random.between(1, limit as usize) as u32,
            3 | 4 => 1,
            _ => random.between(1, (limit as usize).min(4)) as u32,
        };
        counts.push(count);
        open = if count <= limit { open.saturating_sub(count) } else { open };
    }
    counts
}

/// Any decode's input, refused ones among them, or one that is accepted and seldom ends at once.
pub fn any_run(random: &mut Random) -> RunCase {
    let decode = match random.one_in(3) {
        true => any_decode(random),
        false => accepted(random),
    };
    let counts = counts(random, decode.settings.limit.min(255));
    RunCase { decode, counts }
}

fn accepted(random: &mut Random) -> DecodeCase {
    let lists = graphs::any(random);
    let mut settings = settings::good(random);
    if settings.limit < 2 {
        settings.limit = random.between(1, 9) as u32;
    }
    lifting::lift(random, &mut settings);
    let factor = factor_of(&settings);
    let mut values = any_values(random, lists.n, factor);
    blank::cure(random, &mut values, factor);
    let mut case = decode_case(&lists, &values, settings);
    let longer = case.lent.as_array().map(|needed| needed + random.pick(&[0, 0, 1, 7]));
    case.lent = LentLengths::from_array(longer);
    case.degrees += random.pick(&[0, 0, 1, 5]);
    if random.one_in(4) {
        lifting::lift_around_stop(random, &mut case);
    }
    case
}

/// Bytes of any levels up to a magnitude: of the largest or of 0, or of both, or of all.
fn any_levels(random: &mut Random, count: usize, largest: u8) -> Vec<u8> {
    let style = random.below(6);
    let one = |random: &mut Random| {
        let magnitude = match style {
            0 => largest,
            1 => 0,
            2 => random.pick(&[0, largest]),
            _ => random.between(0, largest.into()) as u8,
        };
        magnitude + random.pick(&[0, MINUS])
    };
    (0..count).map(|_| one(random)).collect()
}

/// A state made by chance, open at any iteration below the limit, with lifting before, at or after
/// it; one in three has something wrong with it.
pub fn any_advance(random: &mut Random) -> AdvanceCase {
    let large = random.one_in(2_000);
    let mut lists =
        if large { graphs::large(Limits::PROGRAM, random) } else { graphs::any(random) };
    let mut settings = any_settings(random);
    let iteration = match random.below(5) {
        0 | 1 => 0,
        2 => settings.limit as usize - 1,
        _ => random.below(settings.limit as usize),
    };
    if random.one_in(2) {
        settings.lift_from = (iteration + random.below(4)).saturating_sub(1).max(1) as u32;
    }
    let [nch, nq] = [settings.channel, settings.message].map(largest_magnitude);
    let (n, checks, entries) = (lists.n, lists.starts.len() - 1, lists.columns.len());
    let unsatisfied = match random.below(4) {
        0 => random.pick(&[1, checks, checks + 1, Limits::LENT.checks]),
        1 => random.between(1, Limits::LENT.checks),
        _ => random.between(1, checks),
    };
    let mut case = AdvanceCase {
        levels: any_levels(random, n, nch),
        variable_messages: any_levels(random, entries, nq),
        check_messages: any_levels(random, entries, nq),
        record: open(iteration, unsatisfied),
        count: any_count(random, if large { settings.limit.min(2) } else { settings.limit }),
        degrees: degrees_length(random, n),
        ..saturated(&lists, settings, iteration)
    };
    if random.one_in(3) {
        (0..random.between(1, 2)).for_each(|_| damage_state(random, &mut case));
    }
    put_lengths(random, &mut case);
    (0..damages(random)).for_each(|_| damage::damage(Limits::LENT, random, &mut lists));
    AdvanceCase {
        n: lists.n,
        starts: damage::ragged(random, number_bytes(&lists.starts)),
        columns: damage::ragged(random, number_bytes(&lists.columns)),
        ..case
    }
}

/// Settings of a limit from 1 on whose scaling decode would mostly turn down.
fn any_settings(random: &mut Random) -> Settings {
    let mut settings = settings::good(random);
    settings.limit = match settings.limit {
        0 => random.between(1, 9) as u32,
        limit => limit,
    };
    lifting::lift(random, &mut settings);
    Settings {
        kind: random.word() as u32,
        gain: settings::odd_float(random),
        variance: settings::odd_float(random),
        ..settings
    }
}

fn any_count(random: &mut Random, limit: u32) -> u32 {
    match random.below(8) {
        0 => 0,
        1 => limit,
        2 => random.between(0, limit as usize) as u32,
        3 => limit.min(2),
        _ => 1,
    }
}

/// One of what gets 21, 8, 9 or 16, or may.
fn damage_state(random: &mut Random, case: &mut AdvanceCase) {
    let limit = case.settings.limit;
    match random.below(8) {
        0 | 1 => case.record = damaged_record(random, case.record, limit),
        2 => {
            let past = limit.saturating_add(1);
            case.count = random.pick(&[past, 255, 256, 257, 65_536, 1 << 31, u32::MAX]);
        }
        3..=5 => damage_level(random, case),
        6 => settings::damage(random, &mut case.settings),
        _ => lifting::damage(random, &mut case.settings),
    }
}

/// A number that is finished, at or past the limit, or answered by no call, mostly.
fn damaged_record(random: &mut Random, record: u64, limit: u32) -> u64 {
    let with = |low: u32, width: u32, field: u64| {
        let mask = ((1_u64 << width) - 1) << low;
        record & !mask | field << low & mask
    };
    let (limit, any) = (u64::from(limit), random.word());
    match random.below(7) {
        0 => with(0, 8, random.between(1, 255) as u64),
        1 => with(8, 8, random.pick(&[0, 1, 3, 4, 0x82, 255])),
        2 => with(16, 16, random.pick(&[limit, limit + 1, 255, 256, 257, u64::MAX])),
        3 => with(32, 32, random.pick(&[0, 1_000_001, 1 << 24 | 1, 1 << 31 | 1, u64::MAX])),
        // As they are answered: a codeword, a stopped run and a refusal.
        4 => record >> 16 << 16 & 0xffff_ffff,
        5 => 1 << 32 | limit << 16 | 1 << 8,
        _ => random.pick(&[0, 6, 21, any]),
    }
}

/// A byte that is beyond its precision, or beyond the other's, at the front, at the end, or
/// anywhere.
fn damage_level(random: &mut Random, case: &mut AdvanceCase) {
    let [nch, nq] = [case.settings.channel, case.settings.message].map(|bits| match bits {
        2..=4 => largest_magnitude(bits),
        _ => 0,
    });
    let list = match random.below(3) {
        0 => &mut case.levels,
        1 => &mut case.variable_messages,
        _ => &mut case.check_messages,
    };
    let index = match random.below(4) {
        0 => 0,
        1 => list.len() - 1,
        _ => random.below(list.len()),
    };
    list[index] = random.pick(&[nch + 1, nq + 1, nch, 15, 64, 127]) + random.pick(&[0, MINUS]);
}

/// Lists that are mostly long enough, with any bytes past what is needed.
fn put_lengths(random: &mut Random, case: &mut AdvanceCase) {
    for list in [&mut case.levels, &mut case.variable_messages, &mut case.check_messages] {
        let length = lent_length(random, list.len());
        let more = random.bytes(length.saturating_sub(list.len()));
        list.truncate(length);
        list.extend(more);
    }
    case.sums = lent_length(random, case.sums);
    case.bits = lent_length(random, case.bits);
}

#[cfg(test)]
mod tests {
    use super::*;

    /// Most runs halt while they are open; some end as codewords, some stopped.
    #[test]
    fn advances_of_every_answer() {
        let random = &mut Random::new(71);
        let mut seen = std::collections::BTreeMap::new();
        for _ in 0..4_000 {
            let case = any_advance(random);
            let answer = match case.outcome(&mut vec![0; case.degrees / NUMBER_BYTES]) {
                Ok((record, None)) => format!("by nothing, {:?}", record.verdict),
                Ok((record, Some(_))) => format!("{:?}", record.verdict),
                Err(refusal) => format!("{}", refusal.number),
            };
            *seen.entry(answer).or_insert(0) += 1;
        }
        println!("{seen:?}");
        for answer in ["2", "3", "4", "5", "6", "7", "8", "9", "16", "21"] {
            assert!(seen.get(answer).is_some_and(|&count| count >= 15), "{answer}: {seen:?}");
        }
        for answer in ["by nothing, None", "None", "Some(Codeword)", "Some(Stopped)"] {
            assert!(seen.get(answer).is_some_and(|&count| count >= 150), "{answer}: {seen:?}");
        }
    }

    #[test]
    fn counts_come_to_the_limit_and_do_not() {
        let random = &mut Random::new(72);
        let [mut reached, mut short] = [0; 2];
        for _ in 0..500 {
            let limit = random.between(1, 9) as u32;
            let counts = counts(random, limit);
            let total: u32 = counts.iter().filter(|&&count| count <= limit).sum();
            *(if total >= limit { &mut reached } else { &mut short }) += 1;
        }
        assert!(reached > 250 && short > 60, "{reached} {short}");
    }
}
