//! Small functions for the tests that are worked out from the paper by hand.

pub mod blocks;
pub mod encode;
pub mod pair;
pub mod pause;

use compare::interface::{LARGEST_LIFT, LentLengths, NEVER, Settings};
use compare::paper::{Graph, Level, Limits, Outcome, Refusal, decode};

pub fn plus(magnitude: u8) -> Level {
    Level { minus: false, magnitude }
}

pub fn minus(magnitude: u8) -> Level {
    Level { minus: true, magnitude }
}

pub fn refused<T>(number: u8, place: usize) -> Result<T, Refusal> {
    Err(Refusal { number, place })
}

/// The graph of the whole example: 3 variables, checks {0, 1} and {1, 2}.
pub fn example_graph() -> Graph<'static> {
    Graph { n: 3, starts: &[0, 2, 4], columns: &[0, 1, 1, 2] }
}

pub const EXAMPLE_VALUES: [f32; 3] = [2.5, -0.5, 1.5];

pub fn example_settings() -> Settings {
    Settings {
        kind: 0,
        gain: 1.0,
        variance: 0.0,
        channel: 3,
        message: 3,
        phi_s: 1,
        phi_a: 1,
        phi_0: 0,
        limit: 5,
        lift_from: NEVER,
        lift_to: LARGEST_LIFT,
    }
}

/// A list of degrees that is long enough for a graph of so many variables, if any is.
pub fn degrees_of(n: usize) -> Vec<u32> {
    vec![0; n.min(Limits::LENT.variables)]
}

/// Decode with buffers long enough for any admitted graph.
pub fn decode_freely(
    graph: &Graph,
    values: &[f32],
    settings: &Settings,
) -> Result<Outcome, Refusal> {
    let limits = Limits::LENT;
    let lent = LentLengths::needed(limits.variables, limits.entries);
    decode(limits, graph, values, settings, &mut degrees_of(graph.n), &lent)
}

pub fn lines(lines: &[&str]) -> Vec<u8> {
    lines.iter().flat_map(|line| [line.as_bytes(), b"\n"].concat()).collect()
}
