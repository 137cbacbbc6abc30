//! Two heads on one graph: each goes to its half, and one that is open there goes on by what the
//! other has left.

use super::decode::{Frame, State, first, prepare_frame, store_sums};
use super::graph::{self, Word};
use crate::interface::{
    HeadInput, Lent, LentLengths, PairInput, PairRefusal, REPORTS_BYTES, Record, Refusal, Verdict,
    report_bytes,
};

fn of_head<T>(head: u8, result: Result<T, Refusal>) -> Result<T, PairRefusal> {
    result.map_err(|refusal| PairRefusal { head, refusal })
}

fn of_neither<T>(number: u8) -> Result<T, PairRefusal> {
    of_head(0, Err(Refusal { number, place: 0 }))
}

/// Everything that is refused. The graph is checked once.
pub fn prepare<'a>(
    input: &PairInput<'a>,
    degrees: &'a mut [u8],
    lent: [LentLengths; 2],
    reports: usize,
) -> Result<[Frame<'a>; 2], PairRefusal> {
    let PairInput { graph, allowance, heads } = input;
    let (starts, columns) = graph::lists(graph);
    let degrees: &[Word] = of_head(1, graph::check(graph.n, starts, columns, degrees))?;
    let frame = |head: &HeadInput<'a>, lent: &LentLengths| {
        prepare_frame(graph, degrees, head.values, &head.settings, lent)
    };
    let first = of_head(1, frame(&heads[0], &lent[0]))?;
    let second = of_head(2, frame(&heads[1], &lent[1]))?;
    if !(2..=510).contains(allowance) {
        return of_neither(22);
    }
    if reports < REPORTS_BYTES {
        return of_neither(6);
    }
    Ok([first, second])
}

/// No iteration is done twice.
pub fn run(frames: &[Frame; 2], allowance: u32, lent: &mut [Lent; 2], reports: &mut [u8]) {
    let allowance = allowance as usize;
    let [first_code, second_code] = [&frames[0].code, &frames[1].code];
    let [first_lent, second_lent] = lent;
    let halves = [allowance.div_ceil(2), allowance / 2];
    let mut first_state = first(&frames[0], first_lent);
    let first_is_open = first_state.run_to(first_code, halves[0]);
    let mut second_state = first(&frames[1], second_lent);
    let second_is_open = second_state.run_to(second_code, halves[1]);
    if first_is_open && !second_is_open {
        first_state.go_on_to(first_code, allowance - second_state.iteration);
    } else if second_is_open && !first_is_open {
        second_state.go_on_to(second_code, allowance - first_state.iteration);
    }
    let ended = |frame: &Frame, state: State| {
        let (iterations, unsatisfied, sums) = state.ended(&frame.code);
        let verdict = match unsatisfied {
            0 => Verdict::Codeword,
            _ => Verdict::Stopped,
        };
        (Record { verdict: Some(verdict), iterations, unsatisfied }.number(), sums)
    };
    let (first_report, first_sums) = ended(&frames[0], first_state);
    let (second_report, second_sums) = ended(&frames[1], second_state);
    store_sums(&first_sums, first_lent.sums);
    store_sums(&second_sums, second_lent.sums);
    reports[..REPORTS_BYTES].copy_from_slice(&report_bytes([first_report, second_report]));
}
