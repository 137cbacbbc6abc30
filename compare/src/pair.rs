//! Two heads on a chain of six variables by the paper's rules, with a few allowances, and two pairs
//! that are refused: what `examples/pair.c` must print.

use crate::interface::{LARGEST_LIFT, LentLengths, NEVER, REPORTS_BYTES, Settings, Verdict};
use crate::paper::{Graph, Head, Outcome, PairRefusal, decode_pair};

/// Check i has the variables i and i + 1.
const GRAPH: Graph =
    Graph { n: 6, starts: &[0, 2, 4, 6, 8, 10], columns: &[0, 1, 1, 2, 2, 3, 3, 4, 4, 5] };

const FIRST: [f32; 6] = [0.0, 0.0, -1.5, -1.5, 0.0, 0.0];
const SECOND: [f32; 6] = [0.0, 0.0, 0.0, 0.0, 0.0, -1.5];
const DAMAGED: [f32; 6] = [0.0, 0.0, 0.0, f32::NAN, 0.0, -1.5];

const ALLOWANCES: [u32; 5] = [2, 3, 4, 6, 7];

const SETTINGS: Settings = Settings {
    kind: 0,
    gain: 1.0,
    variance: 0.0,
    channel: 3,
    message: 3,
    phi_s: 1,
    phi_a: 1,
    phi_0: 0,
    limit: 20,
    lift_from: NEVER,
    lift_to: LARGEST_LIFT,
};

pub fn text() -> String {
    let mut text = "allowance  head  verdict   iterations  unsatisfied  bits\n".to_string();
    for allowance in ALLOWANCES {
        text += &pair(allowance, &SECOND);
    }
    text += "\nan allowance of 511:\n";
    text += &pair(511, &SECOND);
    text += "\na value that is no number, in the second frame:\n";
    text + &pair(7, &DAMAGED)
}

/// A line for each head, or the refusal.
fn pair(allowance: u32, second: &[f32]) -> String {
    let lent = &LentLengths::needed(GRAPH.n, GRAPH.columns.len());
    let heads = [&FIRST[..], second].map(|values| Head { values, settings: &SETTINGS, lent });
    match decode_pair(&GRAPH, heads, allowance, &mut [0; GRAPH.n], REPORTS_BYTES) {
        Ok([first, second]) => line(allowance, 1, &first) + &line(allowance, 2, &second),
        Err(PairRefusal { head, refusal }) => {
            format!("refusal head place\n{} {head} {}\n", refusal.number, refusal.place)
        }
    }
}

fn line(allowance: u32, head: u32, outcome: &Outcome) -> String {
    let verdict = match outcome.verdict {
        Verdict::Codeword => "codeword",
        Verdict::Stopped => "stopped",
    };
    let Outcome { iterations, unsatisfied, .. } = outcome;
    let bits: String = outcome.bits.iter().map(u8::to_string).collect();
    format!("{allowance:>9}{head:>6}  {verdict:<8}{iterations:>12}{unsatisfied:>13}  {bits}\n")
}
