//! Tables of each decoder's times: decode on large and on small graphs, with lifting off and
//! on, runs that are advanced one by one, pairs of heads, sheets, block sheets, and encode.

mod encodings;
mod frames;
mod pairs;
mod times;

use crate::generate::{Lists, blocks, graphs, texts};
use crate::interface::Verdict;
use crate::paper::blocks::text_of;
use crate::random::Random;
use encodings::{Encodings, MESSAGES, SMALL_MESSAGES};
use frames::{Batch, FRAMES, SMALL_FRAMES, STRIP_FRAMES};
use pairs::PairTimes;
use times::{DecodeTimes, Named, PauseTimes, SHORTEST, Times};

const SEED: u64 = 36;
const SIZES: [usize; 3] = [2_046, 4_092, 8_190];
const SMALL_SIZES: [usize; 2] = [24, 96];
const STRIP_SIZE: usize = 1_000_000;

/// Size and columns of the block sheets: expansions of 29,970 and 3,000,000 entries.
const BLOCKS: [(usize, usize); 2] = [(27, 370), (2_000, 500)];

/// Variables, checks and their degree, and the bits that are given: with as many variables and
/// checks as there can be, and on small graphs.
const ENCODINGS: [([usize; 3], usize); 2] = [([2_048, 512, 61], 1_300), ([2_048, 512, 61], 0)];
const SMALL_ENCODINGS: [([usize; 3], usize); 2] = [([24, 12, 6], 10), ([96, 48, 6], 40)];

/// Batches of each graph: frames that decode, and frames that do not.
const ENDINGS: usize = 2;

const ROUNDS: usize = 101;
const STRIP_ROUNDS: usize = 11;

/// L of the rows with lifting on: once a run has begun on large graphs, at once on small ones,
/// where runs are short.
const LIFT_FROM: u32 = 3;
const SMALL_LIFT_FROM: u32 = 1;

/// Of pairs: enough for both frames, a part for each of two that do not decode, and the same where
/// one leaves some of its half to the other.
const WHOLE_ALLOWANCE: u32 = 510;
const ALLOWANCE: u32 = 50;
const STRIP_ALLOWANCE: u32 = 24;

pub fn run(decoders: &[Named]) {
    let largest = large_graphs(decoders);
    small_graphs(decoders);
    if let Some(lists) = largest {
        println!("nanoseconds for a sheet of the largest graph:");
        sheets(decoders, &lists, ROUNDS);
    }
    let strip = strip(decoders);
    println!("nanoseconds for the strip's sheet:");
    sheets(decoders, &strip, STRIP_ROUNDS);
    block_sheets(decoders);
    encodings(decoders);
}

/// Gives the largest graph.
fn large_graphs(decoders: &[Named]) -> Option<Lists> {
    println!("decode on (3,6)-regular graphs with {FRAMES} frames each, one call a measurement;");
    println!("nanoseconds per graph entry and iteration, median and least of {ROUNDS} rounds:");
    heading(&["n", "entries", "frames", "iterations"], decoders, &[]);
    let random = &mut Random::new(SEED);
    let batches: Vec<Batch> = SIZES.iter().flat_map(|&n| frames::noisy(random, n)).collect();
    batches.iter().for_each(|batch| decode_row(decoders, batch, ROUNDS));
    println!("the same frames, saturated messages lifted by 2 from iteration {LIFT_FROM} on:");
    batches.iter().for_each(|batch| decode_row(decoders, &batch.lifted(LIFT_FROM), ROUNDS));
    pause_heading(decoders);
    batches[..ENDINGS].iter().for_each(|batch| pause_row(decoders, batch, ROUNDS));
    let [decoded, stopped] = [&batches[0], &batches[1]];
    pair_heading(decoders);
    pair_row(decoders, "decoded", [decoded, decoded], WHOLE_ALLOWANCE, ROUNDS);
    pair_row(decoders, "stopped", [stopped, stopped], ALLOWANCE, ROUNDS);
    pair_row(decoders, "goes on", [decoded, stopped], ALLOWANCE, ROUNDS);
    batches.into_iter().next_back().map(|batch| batch.lists)
}

/// Gives the strip's graph.
fn strip(decoders: &[Named]) -> Lists {
    println!("decode on a (3,6)-regular strip with {STRIP_FRAMES} frames, one call a measurement;");
    println!(
        "nanoseconds per graph entry and iteration, median and least of {STRIP_ROUNDS} rounds:"
    );
    heading(&["n", "entries", "frames", "iterations"], decoders, &[]);
    let random = &mut Random::for_input(SEED, STRIP_SIZE as u64);
    let [decoded, stopped] = frames::strip(random, STRIP_SIZE);
    decode_row(decoders, &decoded, STRIP_ROUNDS);
    decode_row(decoders, &stopped, STRIP_ROUNDS);
    pause_heading(decoders);
    pause_row(decoders, &decoded, STRIP_ROUNDS);
    pause_row(decoders, &stopped, STRIP_ROUNDS);
    pair_heading(decoders);
    let stopped = stopped.limited(decoded.settings.limit);
    pair_row(decoders, "goes on", [&decoded, &stopped], STRIP_ALLOWANCE, STRIP_ROUNDS);
    stopped.lists
}

fn decode_row(decoders: &[Named], batch: &Batch, rounds: usize) {
    let DecodeTimes { iterations, times } = times::decode_once(decoders, batch, rounds);
    row(&described(batch, iterations), &times, 2, None);
}

fn pause_heading(decoders: &[Named]) {
    println!("the same frames, begun and advanced one by one; the time over that of one decode:");
    heading(&["n", "entries", "frames", "iterations"], decoders, &["of decode"]);
}

fn pause_row(decoders: &[Named], batch: &Batch, rounds: usize) {
    let PauseTimes { iterations, by_decode, one_by_one } = times::paused(decoders, batch, rounds);
    let mut line = described(batch, iterations);
    for (decode, Times { median, least }) in by_decode.iter().zip(&one_by_one) {
        line += &format!("{median:>11.2}{least:>11.2}{:>11.2}", median / decode.median);
    }
    println!("{line}{}", ratio(&one_by_one));
}

fn pair_heading(decoders: &[Named]) {
    println!(
        "pairs of these frames that decode, are stopped, or of which the second goes on past its"
    );
    println!("half, with an allowance for both; the time over that of two decodes of the grants:");
    heading(&["n", "allowance", "pairs", "iterations"], decoders, &["of two"]);
}

fn pair_row(decoders: &[Named], pairs: &str, batches: [&Batch; 2], allowance: u32, rounds: usize) {
    let PairTimes { iterations, by_decodes, by_pair } =
        pairs::paired(decoders, batches, allowance, rounds);
    let n = batches[0].lists.n;
    let mut line = format!("{n:>11}{allowance:>11}{pairs:>11}{iterations:>11.1}");
    for (decodes, Times { median, least }) in by_decodes.iter().zip(&by_pair) {
        line += &format!("{median:>11.2}{least:>11.2}{:>11.2}", median / decodes.median);
    }
    println!("{line}{}", ratio(&by_pair));
}

/// Each graph has a generator of its own, so that no frame depends on other rows.
fn small_graphs(decoders: &[Named]) {
    let (frames, shortest) = (SMALL_FRAMES, SHORTEST.as_micros());
    println!("decode on the paper's example, and on small (3,6)-regular graphs with {frames}");
    println!("frames each, one after the other for {shortest} microseconds or more a measurement;");
    println!("nanoseconds per graph entry and iteration, and for a call:");
    heading(&["n", "entries", "frames", "iterations"], decoders, &["a call"]);
    let chosen = SMALL_SIZES.map(|n| frames::chosen(&mut Random::for_input(SEED, n as u64), n));
    let batches: Vec<Batch> =
        [frames::example()].into_iter().chain(chosen.into_iter().flatten()).collect();
    batches.iter().for_each(|batch| small_row(decoders, batch));
    println!(
        "the same frames, saturated messages lifted by 2 from iteration {SMALL_LIFT_FROM} on:"
    );
    batches.iter().for_each(|batch| small_row(decoders, &batch.lifted(SMALL_LIFT_FROM)));
}

fn small_row(decoders: &[Named], batch: &Batch) {
    let DecodeTimes { iterations, times } = times::decode_repeatedly(decoders, batch, ROUNDS);
    let steps = iterations * batch.lists.columns.len() as f64;
    row(&described(batch, iterations), &times, 2, Some(steps));
}

fn sheets(decoders: &[Named], lists: &Lists, rounds: usize) {
    let bytes = texts::sheet(lists).len();
    heading(&["call", "bytes"], decoders, &[]);
    let calls = [
        ("read", times::read_times(decoders, lists, rounds)),
        ("write", times::write_times(decoders, lists, rounds)),
    ];
    for (call, times) in &calls {
        row(&format!("{call:>11}{bytes:>11}"), times, 0, None);
    }
    for (index, (name, _)) in decoders.iter().enumerate() {
        let [read, written] = [0, 1].map(|call: usize| 1e9 / calls[call].1[index].median);
        println!("sheets per second by {name}: {read:.0} read, {written:.0} written");
    }
}

/// Blocks where a (3,6)-regular graph has its entries.
fn block_sheets(decoders: &[Named]) {
    println!("nanoseconds for a block sheet of a (3,6)-regular graph of blocks, by their size;");
    println!("entries are the expansion's, median and least of {ROUNDS} rounds:");
    heading(&["call", "size", "entries", "bytes"], decoders, &[]);
    for (size, columns) in BLOCKS {
        let random = &mut Random::for_input(SEED, size as u64);
        let lists = graphs::regular(random, columns, 3, 6);
        let sheet = blocks::on_graph(random, size, &lists);
        let (entries, bytes) = (size * sheet.entries.len(), text_of(&sheet).len());
        let calls = [
            ("read", times::read_blocks_times(decoders, &sheet, ROUNDS)),
            ("write", times::write_blocks_times(decoders, &sheet, ROUNDS)),
        ];
        for (call, times) in &calls {
            row(&format!("{call:>11}{size:>11}{entries:>11}{bytes:>11}"), times, 0, None);
        }
    }
}

fn encodings(decoders: &[Named]) {
    println!("nanoseconds for a codeword that holds given bits, on graphs of random checks, with");
    println!("{MESSAGES} messages on large ones and {SMALL_MESSAGES} on small ones;");
    println!("median and least of {ROUNDS} rounds:");
    heading(&["n", "checks", "entries", "given"], decoders, &[]);
    let large = ENCODINGS.map(|row| (row, MESSAGES));
    for ((counts, given), messages) in
        large.into_iter().chain(SMALL_ENCODINGS.map(|row| (row, SMALL_MESSAGES)))
    {
        let random = &mut Random::for_input(SEED, counts[0] as u64);
        let encodings = Encodings::new(random, counts, given, messages);
        let cells = encodings.counts().map(|count| format!("{count:>11}")).concat();
        row(&cells, &encodings.times(decoders, ROUNDS), 0, None);
    }
}

/// A line of these cells, then for each decoder the median, the least and what more there is.
fn heading(cells: &[&str], decoders: &[Named], more: &[&str]) {
    let times = decoders.iter().flat_map(|decoder| [&[decoder.0, "least"], more].concat());
    let ratio = (decoders.len() > 1).then_some("ratio");
    let cells = cells.iter().copied().chain(times).chain(ratio);
    println!("{}", cells.map(|cell| format!("{cell:>11}")).collect::<String>());
}

/// A line of the table, with the time of so many steps where that is wanted.
fn row(cells: &str, times: &[Times], digits: usize, steps: Option<f64>) {
    let mut line = cells.to_string();
    for Times { median, least } in times {
        line += &format!("{median:>11.digits$}{least:>11.digits$}");
        if let Some(steps) = steps {
            line += &format!("{:>11.0}", median * steps);
        }
    }
    println!("{line}{}", ratio(times));
}

/// The last decoder's median over the first one's.
fn ratio(times: &[Times]) -> String {
    match times {
        [first, .., last] => format!("{:>11.2}", last.median / first.median),
        _ => String::new(),
    }
}

fn described(batch: &Batch, iterations: f64) -> String {
    let (n, entries) = (batch.lists.n, batch.lists.columns.len());
    let ending = match batch.ending {
        Verdict::Codeword => "decoded",
        Verdict::Stopped => "stopped",
    };
    format!("{n:>11}{entries:>11}{ending:>11}{iterations:>11.1}")
}
