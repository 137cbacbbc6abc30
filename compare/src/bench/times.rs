//! Times of each decoder on the same inputs, taken in turns. The median is what counts; the
//! least shows what other work on the machine has added.

use super::frames::Batch;
use crate::generate::cases::{ReadCase, WriteBlocksCase};
use crate::generate::{Lists, blocks, texts};
use crate::interface::{
    AdvanceInput, Answer, BlocksBytes, DecodeInput, Decoder, GraphBytes, Lent, LentLengths,
    NUMBER_BYTES, Record, number_bytes,
};
use crate::paper::Blocks;
use std::fmt::Debug;
use std::hint::black_box;
use std::time::{Duration, Instant};

pub type Named<'a> = (&'a str, &'a dyn Decoder);

/// What a measurement of repeated calls takes at least.
pub const SHORTEST: Duration = Duration::from_micros(100);

/// Of one decoder's measurements, in nanoseconds.
#[derive(Clone, Copy)]
pub struct Times {
    pub median: f64,
    pub least: f64,
}

/// Of a batch: the mean iteration count of a call, and each decoder's times per graph entry
/// and iteration.
pub struct DecodeTimes {
    pub iterations: f64,
    pub times: Vec<Times>,
}

/// How a frame is run.
#[derive(Clone, Copy)]
enum Manner {
    ByDecode,
    OneByOne,
}

/// Of a batch: the mean iteration count of a frame, and for each decoder the times by decode and
/// the times of runs that are begun and advanced one by one, both per graph entry and iteration.
pub struct PauseTimes {
    pub iterations: f64,
    pub by_decode: Vec<Times>,
    pub one_by_one: Vec<Times>,
}

/// One frame a measurement.
pub fn paused(decoders: &[Named], batch: &Batch, rounds: usize) -> PauseTimes {
    let subjects = |manner| decoders.iter().map(move |&decoder| (decoder, manner));
    let subjects: Vec<(Named, Manner)> =
        subjects(Manner::ByDecode).chain(subjects(Manner::OneByOne)).collect();
    let DecodeTimes { iterations, mut times } = Prepared::new(batch).times(&subjects, 1, rounds);
    let one_by_one = times.split_off(decoders.len());
    PauseTimes { iterations, by_decode: times, one_by_one }
}

/// One call a measurement.
pub fn decode_once(decoders: &[Named], batch: &Batch, rounds: usize) -> DecodeTimes {
    Prepared::new(batch).times(&by_decode(decoders), 1, rounds)
}

fn by_decode<'a>(decoders: &[Named<'a>]) -> Vec<(Named<'a>, Manner)> {
    decoders.iter().map(|&decoder| (decoder, Manner::ByDecode)).collect()
}

/// As many calls a measurement as make it long enough.
pub fn decode_repeatedly(decoders: &[Named], batch: &Batch, rounds: usize) -> DecodeTimes {
    let mut prepared = Prepared::new(batch);
    let calls = prepared.calls_that_are_long_enough(decoders);
    prepared.times(&by_decode(decoders), calls, rounds)
}

fn accepted<T: Debug>(answer: Answer<T>) -> T {
    match answer {
        Answer::Accepted(accepted) => accepted,
        _ => panic!("a frame of the benchmark is answered {answer:?}"),
    }
}

/// Begins a run and advances it by one until it is finished.
fn one_by_one(
    decoder: &dyn Decoder,
    frame: &DecodeInput,
    degrees: &mut [u8],
    lent: &mut Lent,
) -> Answer<Record> {
    let mut answer = decoder.begin(frame, degrees, lent);
    while let Answer::Accepted(record @ Record { verdict: None, .. }) = answer {
        let DecodeInput { graph, settings, .. } = *frame;
        let input = AdvanceInput { record: record.number(), graph, settings, count: 1 };
        answer = black_box(decoder.advance(black_box(&input), degrees, lent));
    }
    answer
}

/// A batch with its lists in bytes, and the buffers lent for it.
struct Prepared<'a> {
    batch: &'a Batch,
    starts: Vec<u8>,
    columns: Vec<u8>,
    degrees: Vec<u8>,
    lent: [Vec<u8>; 5],
}

impl Prepared<'_> {
    fn new(batch: &Batch) -> Prepared<'_> {
        let lists = &batch.lists;
        let lengths = LentLengths::needed(lists.n, lists.columns.len()).as_array();
        Prepared {
            batch,
            starts: number_bytes(&lists.starts),
            columns: number_bytes(&lists.columns),
            degrees: vec![0; NUMBER_BYTES * lists.n],
            lent: lengths.map(|length| vec![0; length]),
        }
    }

    /// The time and the iterations of so many calls, on the frames in turn from the one of
    /// that number on. The lent buffers are cleared before the first call; each later one
    /// overwrites what the one before has left.
    fn measure(
        &mut self,
        decoder: &dyn Decoder,
        manner: Manner,
        first: usize,
        calls: usize,
    ) -> (Duration, usize) {
        self.degrees.fill(0);
        self.lent.iter_mut().for_each(|buffer| buffer.fill(0));
        let Batch { lists, settings, frames, .. } = self.batch;
        let graph = GraphBytes { n: lists.n, starts: &self.starts, columns: &self.columns };
        let [levels, variable_messages, check_messages, sums, bits] = &mut self.lent;
        let mut lent = Lent { levels, variable_messages, check_messages, sums, bits };
        let mut iterations = 0;
        let begun = Instant::now();
        for call in first..first + calls {
            let values = &frames[call % frames.len()];
            let input = DecodeInput { graph, values, settings: *settings };
            let (input, degrees) = (black_box(&input), &mut self.degrees);
            iterations += match manner {
                Manner::ByDecode => {
                    let answer = black_box(decoder.decode(input, degrees, &mut lent));
                    accepted(answer).iterations
                }
                Manner::OneByOne => {
                    accepted(one_by_one(decoder, input, degrees, &mut lent)).iterations
                }
            };
        }
        (begun.elapsed(), iterations)
    }

    fn calls_that_are_long_enough(&mut self, decoders: &[Named]) -> usize {
        let mut calls = 1;
        loop {
            let tries = decoders.iter().cycle().take(5 * decoders.len());
            let times =
                tries.map(|(_, decoder)| self.measure(*decoder, Manner::ByDecode, 0, calls).0);
            if times.min() >= Some(SHORTEST) {
                return calls;
            }
            calls *= 2;
        }
    }

    /// Each round goes on with the frames where the one before has stopped.
    fn times(&mut self, subjects: &[(Named, Manner)], calls: usize, rounds: usize) -> DecodeTimes {
        let entries = self.batch.lists.columns.len();
        let mut total = 0;
        let times = turns(subjects, rounds, |((_, decoder), manner), round| {
            let (time, iterations) = self.measure(*decoder, *manner, round * calls, calls);
            total += iterations;
            time.as_nanos() as f64 / (iterations * entries) as f64
        });
        let iterations = total as f64 / (subjects.len() * rounds * calls) as f64;
        DecodeTimes { iterations, times }
    }
}

pub fn read_times(decoders: &[Named], lists: &Lists, rounds: usize) -> Vec<Times> {
    let text = texts::sheet(lists);
    let mut degrees = vec![0; NUMBER_BYTES * lists.n];
    let mut starts = vec![0; NUMBER_BYTES * lists.starts.len()];
    let mut columns = vec![0; NUMBER_BYTES * lists.columns.len()];
    in_turns(decoders, rounds, |decoder, _| {
        degrees.fill(0);
        starts.fill(0);
        columns.fill(0);
        let begun = Instant::now();
        let text = black_box(&text);
        let answer = black_box(decoder.read_sheet(text, &mut degrees, &mut starts, &mut columns));
        accepted_time(begun.elapsed(), &answer)
    })
}

pub fn write_times(decoders: &[Named], lists: &Lists, rounds: usize) -> Vec<Times> {
    let (starts, columns) = (number_bytes(&lists.starts), number_bytes(&lists.columns));
    let graph = GraphBytes { n: lists.n, starts: &starts, columns: &columns };
    let mut degrees = vec![0; NUMBER_BYTES * lists.n];
    let mut text = vec![0; texts::sheet(lists).len()];
    in_turns(decoders, rounds, |decoder, _| {
        degrees.fill(0);
        text.fill(0);
        let begun = Instant::now();
        let answer = black_box(decoder.write_sheet(black_box(&graph), &mut degrees, &mut text));
        accepted_time(begun.elapsed(), &answer)
    })
}

pub fn read_blocks_times(decoders: &[Named], blocks: &Blocks, rounds: usize) -> Vec<Times> {
    let case = blocks::read_case(blocks);
    let ReadCase { text, .. } = &case;
    let [mut degrees, mut starts, mut columns] =
        [case.degrees, case.starts, case.columns].map(|length| vec![0; length]);
    in_turns(decoders, rounds, |decoder, _| {
        degrees.fill(0);
        starts.fill(0);
        columns.fill(0);
        let begun = Instant::now();
        let text = black_box(text);
        let answer = black_box(decoder.read_blocks(text, &mut degrees, &mut starts, &mut columns));
        accepted_time(begun.elapsed(), &answer)
    })
}

pub fn write_blocks_times(decoders: &[Named], blocks: &Blocks, rounds: usize) -> Vec<Times> {
    let case = blocks::write_case(blocks);
    let WriteBlocksCase { size, rows, columns, entries, .. } = &case;
    let numbers = BlocksBytes { size: *size, rows: *rows, columns: *columns, entries };
    let [mut degrees, mut text] = [case.degrees, case.text].map(|length| vec![0; length]);
    in_turns(decoders, rounds, |decoder, _| {
        degrees.fill(0);
        text.fill(0);
        let begun = Instant::now();
        let answer = black_box(decoder.write_blocks(black_box(&numbers), &mut degrees, &mut text));
        accepted_time(begun.elapsed(), &answer)
    })
}

fn accepted_time<T>(time: Duration, answer: &Answer<T>) -> f64 {
    assert!(matches!(answer, Answer::Accepted(_)), "a sheet of the benchmark is refused");
    time.as_nanos() as f64
}

/// Each decoder once a round, round after round.
pub fn in_turns(
    decoders: &[Named],
    rounds: usize,
    mut measure: impl FnMut(&dyn Decoder, usize) -> f64,
) -> Vec<Times> {
    turns(decoders, rounds, |(_, decoder), round| measure(*decoder, round))
}

pub fn turns<T>(
    subjects: &[T],
    rounds: usize,
    mut measure: impl FnMut(&T, usize) -> f64,
) -> Vec<Times> {
    let mut times = vec![Vec::new(); subjects.len()];
    for round in 0..rounds {
        for (index, subject) in subjects.iter().enumerate() {
            times[index].push(measure(subject, round));
        }
    }
    times.into_iter().map(summed_up).collect()
}

fn summed_up(mut times: Vec<f64>) -> Times {
    times.sort_by(f64::total_cmp);
    Times { median: times[times.len() / 2], least: times[0] }
}
