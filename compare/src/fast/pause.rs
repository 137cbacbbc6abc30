//! Runs that are begun and advanced.

use super::decode::{Code, Frame, State, channel_halves, first, store_sums};
use super::graph::{self, number};
use crate::interface::{AdvanceInput, Lent, LentLengths, Record, Refusal, Verdict};

const MOST_CHECKS: u64 = graph::MOST_CHECKS as u64;

pub fn begin(frame: &Frame, lent: &mut Lent) -> Record {
    let state = first(frame, lent);
    let (iteration, unsatisfied, sums) = state.ended(&frame.code);
    store_sums(&sums, lent.sums);
    record(iteration, unsatisfied, frame.code.limit)
}

fn record(iterations: usize, unsatisfied: usize, limit: usize) -> Record {
    let verdict = match unsatisfied {
        0 => Some(Verdict::Codeword),
        _ if iterations == limit => Some(Verdict::Stopped),
        _ => None,
    };
    Record { verdict, iterations, unsatisfied }
}

/// The graph's refusals, 8, 9, 16 and 6.
pub fn prepare<'a>(
    input: &AdvanceInput<'a>,
    degrees: &'a mut [u8],
    lent: &LentLengths,
) -> Result<Code<'a>, Refusal> {
    let (starts, columns) = graph::lists(&input.graph);
    let degrees = graph::check(input.graph.n, starts, columns, degrees)?;
    let code = Code::new(&input.graph, degrees, &input.settings)?;
    code.check_lengths(lent)?;
    Ok(code)
}

/// Whether record, count and lists are such as can be carried on.
fn is_open(code: &Code, input: &AdvanceInput, lent: &Lent) -> bool {
    let (n, entries) = (code.degrees.len(), code.columns.len());
    let within = |bytes: &[u8], largest: u8| bytes.iter().all(|&byte| byte & 0x7f <= largest);
    input.record & 0xffff == 0x0200
        && (input.record >> 16 & 0xffff) < code.limit as u64
        && (1..=MOST_CHECKS).contains(&(input.record >> 32))
        && input.count as usize <= code.limit
        && within(&lent.levels[..n], code.nch)
        && within(&lent.variable_messages[..entries], code.nq)
        && within(&lent.check_messages[..entries], code.nq)
}

/// 21, or the record that holds after the advance.
pub fn advance(code: &Code, input: &AdvanceInput, lent: &mut Lent) -> Result<Record, Refusal> {
    let given = Record::of_number(input.record).filter(|_| is_open(code, input, lent));
    let Some(given) = given else {
        return Err(Refusal { number: 21, place: 0 });
    };
    if input.count == 0 {
        return Ok(given);
    }
    let last = code.limit.min(given.iterations + input.count as usize);
    let mut state = resumed(code, given.iterations, lent);
    state.advance(code);
    while state.iteration < last && state.is_no_codeword(code) {
        state.advance(code);
    }
    let (iteration, unsatisfied, sums) = state.ended(code);
    store_sums(&sums, lent.sums);
    Ok(record(iteration, unsatisfied, code.limit))
}

/// The iteration in the lent lists. Its sums are those of its check messages, from 1 on; at 0
/// they are not read.
fn resumed<'a>(code: &Code, iteration: usize, lent: &'a mut Lent) -> State<'a> {
    let (n, entries) = (code.degrees.len(), code.columns.len());
    let levels = &lent.levels[..n];
    let check_messages = &mut lent.check_messages[..entries];
    let halves = code.halves_in(iteration);
    let own = channel_halves(levels, code.degrees);
    let mut sums = own.clone();
    if iteration > 0 {
        for (&message, &column) in check_messages.iter().zip(code.columns) {
            sums[number(column)] += halves[usize::from(message)];
        }
    }
    State {
        levels,
        variable_messages: &mut lent.variable_messages[..entries],
        check_messages,
        bits: &mut lent.bits[..n],
        iteration,
        own,
        sums,
        halves,
    }
}
