//! A flooding decoder: the two least magnitudes of each row, sums scattered along the
//! rows, outgoing messages from a constant table.

use super::graph::{self, Word, number};
use super::tables::{HALVES, Halves, MINUS, Outgoing, lifted};
use crate::interface::{
    DecodeInput, Decoded, GraphBytes, LARGEST_LIFT, Lent, LentLengths, NEVER, Refusal, Settings,
    Verdict,
};

/// A graph and the settings of a run on it, which nothing is wrong with.
pub struct Code<'a> {
    pub starts: &'a [Word],
    pub columns: &'a [Word],
    pub degrees: &'a [Word],
    pub nch: u8,
    pub nq: u8,
    pub limit: usize,
    outgoing: &'static Outgoing,
    lift_from: usize,
    lifted: &'static Halves,
}

/// A frame that nothing is wrong with.
pub struct Frame<'a> {
    pub code: Code<'a>,
    values: &'a [[u8; 4]],
    factor: f32,
}

fn refuse<T>(number: u8, place: usize) -> Result<T, Refusal> {
    Err(Refusal { number, place })
}

impl<'a> Code<'a> {
    /// 8, 9 and 16, on a graph whose degrees are counted.
    pub fn new(
        graph: &GraphBytes<'a>,
        degrees: &'a [Word],
        settings: &Settings,
    ) -> Result<Code<'a>, Refusal> {
        let (nch, nq) = match (settings.channel, settings.message) {
            (3, 2) => (3, 1),
            (3, 3) => (3, 3),
            (4, 3) => (7, 3),
            (4, 4) => (7, 7),
            _ => return refuse(8, 0),
        };
        if settings.phi_s.max(settings.phi_a).max(settings.phi_0) > 1 || settings.limit > 255 {
            return refuse(9, 0);
        }
        let lifts = (1..=NEVER).contains(&settings.lift_from)
            && (u32::from(nq) + 1..=LARGEST_LIFT).contains(&settings.lift_to);
        if !lifts {
            return refuse(16, 0);
        }
        let (starts, columns) = graph::lists(graph);
        Ok(Code {
            starts,
            columns,
            degrees,
            nch,
            nq,
            limit: settings.limit as usize,
            outgoing: Outgoing::of(settings),
            lift_from: settings.lift_from as usize,
            lifted: lifted(settings),
        })
    }

    /// 6 for any list but that of the degrees.
    pub fn check_lengths(&self, lent: &LentLengths) -> Result<(), Refusal> {
        let n = self.degrees.len();
        let long_enough = lent.levels.min(lent.bits).min(lent.sums / 4) >= n
            && lent.variable_messages.min(lent.check_messages) >= self.columns.len();
        if long_enough { Ok(()) } else { refuse(6, 0) }
    }

    /// What messages add to sums in an iteration. No run comes to the one that means never.
    pub fn halves_in(&self, iteration: usize) -> &'static Halves {
        if iteration < self.lift_from { &HALVES } else { self.lifted }
    }

    pub fn odd_checks(&self, bits: &[u8]) -> impl Iterator<Item = bool> {
        graph::rows(self.starts).map(|(start, end)| {
            let columns = self.columns[start..end].iter();
            let parity = columns.fold(0, |parity, &column| parity ^ bits[number(column)]);
            parity == 1
        })
    }
}

pub fn first_bad_value(values: &[[u8; 4]]) -> Option<usize> {
    values.iter().position(|&value| !f32::from_le_bytes(value).is_finite())
}

/// Whether every magnitude is 0: no product is above the first threshold. The first value that
/// is exposed ends the search.
fn is_blank(values: &[[u8; 4]], factor: f32) -> bool {
    values.iter().all(|&value| factor * f32::from_le_bytes(value).abs() <= 1.0)
}

/// Begin calls it too; decode is as fast as if it did not.
#[inline(always)]
pub fn prepare<'a>(
    input: &DecodeInput<'a>,
    degrees: &'a mut [u8],
    lent: &LentLengths,
) -> Result<Frame<'a>, Refusal> {
    let (starts, columns) = graph::lists(&input.graph);
    let degrees = graph::check(input.graph.n, starts, columns, degrees)?;
    prepare_frame(&input.graph, degrees, input.values, &input.settings, lent)
}

/// What is refused after the graph's refusals.
#[inline(always)]
pub fn prepare_frame<'a>(
    graph: &GraphBytes<'a>,
    degrees: &'a [Word],
    values: &'a [u8],
    settings: &Settings,
    lent: &LentLengths,
) -> Result<Frame<'a>, Refusal> {
    let values = values.as_chunks().0;
    if values.len() != graph.n {
        return refuse(13, values.len());
    }
    let code = Code::new(graph, degrees, settings)?;
    let Some(factor) = factor(settings) else {
        return refuse(10, 0);
    };
    if !(factor > 0.0 && factor <= f32::MAX) {
        return refuse(11, 0);
    }
    if let Some(index) = first_bad_value(values) {
        return refuse(12, index);
    }
    if is_blank(values, factor) {
        return refuse(20, 0);
    }
    code.check_lengths(lent)?;
    Ok(Frame { code, values, factor })
}

fn factor(settings: &Settings) -> Option<f32> {
    let usable = |number: f32| number > 0.0 && number <= f32::MAX;
    let (gain, variance) = (settings.gain, settings.variance);
    match settings.kind {
        0 => usable(gain).then_some(gain),
        1 => (usable(gain) && usable(variance)).then_some((2.0 * gain) / variance),
        _ => None,
    }
}

/// An iteration of a run, in lists of just the lengths that it needs.
pub struct State<'a> {
    pub levels: &'a [u8],
    pub variable_messages: &'a mut [u8],
    pub check_messages: &'a mut [u8],
    pub bits: &'a mut [u8],
    pub iteration: usize,
    /// The channel level's part of each sum.
    pub own: Vec<i32>,
    pub sums: Vec<i32>,
    pub halves: &'static Halves,
}

/// Iteration 0 in the lent lists, but for the sums. As above.
#[inline(always)]
pub fn first<'a>(frame: &Frame, lent: &'a mut Lent) -> State<'a> {
    let Frame { code, values, .. } = frame;
    let (n, entries) = (values.len(), code.columns.len());
    let levels = &mut lent.levels[..n];
    let variable_messages = &mut lent.variable_messages[..entries];
    let check_messages = &mut lent.check_messages[..entries];
    let bits = &mut lent.bits[..n];

    quantise(frame, levels);
    for (message, &column) in variable_messages.iter_mut().zip(code.columns) {
        let level = levels[number(column)];
        *message = (level & MINUS) | (level & 0x7f).min(code.nq);
    }
    for (bit, &level) in bits.iter_mut().zip(levels.iter()) {
        *bit = level >> 7;
    }
    check_messages.fill(0);
    let own = channel_halves(levels, code.degrees);
    State {
        levels,
        variable_messages,
        check_messages,
        bits,
        iteration: 0,
        own,
        sums: vec![0; n],
        halves: &HALVES,
    }
}

impl State<'_> {
    /// The last step of this iteration, if it has one, and the next up to its bits.
    pub fn advance(&mut self, code: &Code) {
        if self.iteration > 0 {
            send_from_variables(
                code,
                self.halves,
                &self.sums,
                self.check_messages,
                self.variable_messages,
            );
        }
        self.iteration += 1;
        self.halves = code.halves_in(self.iteration);
        self.sums.copy_from_slice(&self.own);
        let (from, to) = (&*self.variable_messages, &mut *self.check_messages);
        send_from_checks(code, self.halves, from, to, &mut self.sums);
        for ((bit, &sum), &level) in self.bits.iter_mut().zip(&self.sums).zip(self.levels) {
            *bit = u8::from(sum < 0) | (u8::from(sum == 0) & (level >> 7));
        }
    }

    /// Goes to an iteration, or to the verdict where that is earlier. Whether it is open there.
    pub fn run_to(&mut self, code: &Code, last: usize) -> bool {
        let last = last.min(code.limit);
        while self.iteration < last && self.is_no_codeword(code) {
            self.advance(code);
        }
        self.iteration == last && last < code.limit && self.is_no_codeword(code)
    }

    /// The same from where it is open, if it is not there yet.
    pub fn go_on_to(&mut self, code: &Code, last: usize) {
        if self.iteration < last {
            self.advance(code);
            self.run_to(code, last);
        }
    }

    /// Whether some check is odd.
    pub fn is_no_codeword(&self, code: &Code) -> bool {
        code.odd_checks(self.bits).any(|odd| odd)
    }

    /// The iteration and its unsatisfied checks, and the sums to be stored.
    pub fn ended(self, code: &Code) -> (usize, usize, Vec<i32>) {
        let unsatisfied = code.odd_checks(self.bits).filter(|&odd| odd).count();
        (self.iteration, unsatisfied, self.sums)
    }
}

pub fn store_sums(sums: &[i32], lent: &mut [u8]) {
    for (sum, out) in sums.iter().zip(lent.chunks_exact_mut(4)) {
        out.copy_from_slice(&sum.to_le_bytes());
    }
}

pub fn run(frame: &Frame, lent: &mut Lent) -> Decoded {
    let code = &frame.code;
    let mut state = first(frame, lent);
    while state.iteration < code.limit && state.is_no_codeword(code) {
        state.advance(code);
    }
    let (iterations, unsatisfied, sums) = state.ended(code);
    store_sums(&sums, lent.sums);
    Decoded {
        verdict: match unsatisfied {
            0 => Verdict::Codeword,
            _ => Verdict::Stopped,
        },
        iterations,
        unsatisfied,
    }
}

fn quantise(frame: &Frame, levels: &mut [u8]) {
    for (level, &value) in levels.iter_mut().zip(frame.values) {
        let value = f32::from_le_bytes(value);
        let p = frame.factor * value.abs();
        let mut magnitude = 0;
        for threshold in 1..=frame.code.nch {
            magnitude += u8::from(f32::from(threshold) < p);
        }
        *level = magnitude | ((value.to_bits() >> 24) as u8 & MINUS);
    }
}

/// The channel level's part of each sum.
pub fn channel_halves(levels: &[u8], degrees: &[Word]) -> Vec<i32> {
    let halves = |(&level, &degree): (&u8, &Word)| {
        let extra = match number(degree) {
            2 => 0,
            degree => 2 - (degree & 1) as i32,
        };
        let size = i32::from(level & 0x7f) * 2 + extra;
        if level & MINUS != 0 { -size } else { size }
    };
    levels.iter().zip(degrees).map(halves).collect()
}

/// By itself this pass has registers enough for the table of contributions.
#[inline(never)]
fn send_from_checks(code: &Code, halves: &Halves, from: &[u8], to: &mut [u8], sums: &mut [i32]) {
    for (start, end) in graph::rows(code.starts) {
        let (mut least, mut second, mut signs) = (u8::MAX, u8::MAX, 0);
        for &message in &from[start..end] {
            let magnitude = message & 0x7f;
            second = second.min(magnitude.max(least));
            least = least.min(magnitude);
            signs ^= message;
        }
        // Where the least is tied the second equals it, so the value names the place.
        let row = from[start..end].iter().zip(&mut to[start..end]);
        for ((&own, out), &column) in row.zip(&code.columns[start..end]) {
            let magnitude = if own & 0x7f == least { second } else { least };
            let message = magnitude | ((signs ^ own) & MINUS);
            *out = message;
            sums[number(column)] += halves[usize::from(message)];
        }
    }
}

/// As above.
#[inline(never)]
fn send_from_variables(code: &Code, halves: &Halves, sums: &[i32], from: &[u8], to: &mut [u8]) {
    for ((&message, out), &column) in from.iter().zip(to).zip(code.columns) {
        let sum = sums[number(column)] - halves[usize::from(message)];
        *out = code.outgoing.message(sum);
    }
}
