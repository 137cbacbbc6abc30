//! Times of pairs of frames, read by two heads with one allowance, and of two decodes that come to
//! the same.

use super::frames::Batch;
use super::times::{Named, Times, turns};
use crate::generate::Lists;
use crate::interface::{
    Answer, DecodeInput, Decoder, GraphBytes, HeadInput, Lent, LentLengths, NUMBER_BYTES,
    PairInput, REPORTS_BYTES, Record, Settings, number_bytes, reports_in,
};
use std::hint::black_box;
use std::time::{Duration, Instant};

/// Of two batches on one graph: the mean iteration count of a pair, and for each decoder the times
/// by two decodes and those of a pair, both per graph entry and iteration.
pub struct PairTimes {
    pub iterations: f64,
    pub by_decodes: Vec<Times>,
    pub by_pair: Vec<Times>,
}

/// How two frames are run.
#[derive(Clone, Copy)]
enum Manner {
    ByDecodes,
    ByPair,
}

/// The buffers lent for a head.
struct Buffers([Vec<u8>; 5]);

impl Buffers {
    fn new(lists: &Lists) -> Buffers {
        let lengths = LentLengths::needed(lists.n, lists.columns.len()).as_array();
        Buffers(lengths.map(|length| vec![0; length]))
    }

    fn clear(&mut self) {
        self.0.iter_mut().for_each(|buffer| buffer.fill(0));
    }

    fn lent(&mut self) -> Lent<'_> {
        let [levels, variable_messages, check_messages, sums, bits] = &mut self.0;
        Lent { levels, variable_messages, check_messages, sums, bits }
    }
}

/// The memory that is lent for a pair.
struct Memory {
    degrees: Vec<u8>,
    buffers: [Buffers; 2],
    reports: Vec<u8>,
}

impl Memory {
    fn clear(&mut self) {
        self.degrees.fill(0);
        self.reports.fill(0);
        self.buffers.iter_mut().for_each(Buffers::clear);
    }
}

/// A graph in bytes, and two batches of frames on it.
struct Prepared<'a> {
    batches: [&'a Batch; 2],
    allowance: u32,
    starts: Vec<u8>,
    columns: Vec<u8>,
}

/// One pair a measurement.
pub fn paired(
    decoders: &[Named],
    batches: [&Batch; 2],
    allowance: u32,
    rounds: usize,
) -> PairTimes {
    let lists = &batches[0].lists;
    let (starts, columns) = (number_bytes(&lists.starts), number_bytes(&lists.columns));
    let prepared = Prepared { batches, allowance, starts, columns };
    let memory = &mut Memory {
        degrees: vec![0; NUMBER_BYTES * lists.n],
        buffers: [Buffers::new(lists), Buffers::new(lists)],
        reports: vec![0; REPORTS_BYTES],
    };
    let subjects = |manner| decoders.iter().map(move |&decoder| (decoder, manner));
    let subjects: Vec<(Named, Manner)> =
        subjects(Manner::ByDecodes).chain(subjects(Manner::ByPair)).collect();
    // What each head is granted in every round, as the first decoder says.
    let turns_of_frames = batches[0].frames.len();
    let grants: Vec<[usize; 2]> = (0..turns_of_frames)
        .map(|round| prepared.by_pair(decoders[0].1, round, memory).1)
        .collect();
    let mut total = 0;
    let mut by_decodes = turns(&subjects, rounds, |((_, decoder), manner), round| {
        let granted = grants[round % turns_of_frames];
        let (time, taken) = match manner {
            Manner::ByDecodes => prepared.by_decodes(*decoder, round, granted, memory),
            Manner::ByPair => prepared.by_pair(*decoder, round, memory),
        };
        assert_eq!(taken, granted, "other iterations than were granted");
        let iterations = taken[0] + taken[1];
        total += iterations;
        time.as_nanos() as f64 / (iterations * lists.columns.len()) as f64
    });
    let by_pair = by_decodes.split_off(decoders.len());
    PairTimes { iterations: total as f64 / (subjects.len() * rounds) as f64, by_decodes, by_pair }
}

impl Prepared<'_> {
    fn graph(&self) -> GraphBytes<'_> {
        let n = self.batches[0].lists.n;
        GraphBytes { n, starts: &self.starts, columns: &self.columns }
    }

    /// The frame of each head in a round: of one batch for both, not the same.
    fn heads(&self, round: usize) -> [HeadInput<'_>; 2] {
        [0, 1].map(|head: usize| {
            let Batch { frames, settings, .. } = self.batches[head];
            HeadInput { values: &frames[(round + head) % frames.len()], settings: *settings }
        })
    }

    /// The time, and the iterations of each head.
    fn by_pair(
        &self,
        decoder: &dyn Decoder,
        round: usize,
        memory: &mut Memory,
    ) -> (Duration, [usize; 2]) {
        memory.clear();
        let Memory { degrees, buffers: [first, second], reports } = memory;
        let (graph, heads) = (self.graph(), self.heads(round));
        let input = PairInput { graph, allowance: self.allowance, heads };
        let lent = &mut [first.lent(), second.lent()];
        let begun = Instant::now();
        let answer = black_box(decoder.decode_pair(black_box(&input), degrees, lent, reports));
        let time = begun.elapsed();
        assert_eq!(answer, 0, "a pair of the benchmark is refused");
        let iterations = |report| Record::of_number(report).expect("a report").iterations;
        (time, reports_in(reports).map(iterations))
    }

    /// The same by one decode after the other, each with its grant as the limit.
    fn by_decodes(
        &self,
        decoder: &dyn Decoder,
        round: usize,
        grants: [usize; 2],
        memory: &mut Memory,
    ) -> (Duration, [usize; 2]) {
        memory.clear();
        let (graph, heads) = (self.graph(), self.heads(round));
        let mut taken = [0; 2];
        let begun = Instant::now();
        for head in 0..2 {
            let HeadInput { values, settings } = heads[head];
            let settings = Settings { limit: grants[head] as u32, ..settings };
            let input = DecodeInput { graph, values, settings };
            let lent = &mut memory.buffers[head].lent();
            match black_box(decoder.decode(black_box(&input), &mut memory.degrees, lent)) {
                Answer::Accepted(decoded) => taken[head] = decoded.iterations,
                answer => panic!("a frame of the benchmark is answered {answer:?}"),
            }
        }
        (begun.elapsed(), taken)
    }
}
