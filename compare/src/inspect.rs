//! Document 01's example advanced one by one by the paper's rules, a table for each iteration: what
//! `examples/inspect.c` must print.

use crate::interface::{LARGEST_LIFT, LentLengths, NEVER, Record, Settings, Verdict};
use crate::paper::{Graph, Handed, Level, State, advance, begin};

/// Checks {0, 1} and {1, 2}.
const GRAPH: Graph = Graph { n: 3, starts: &[0, 2, 4], columns: &[0, 1, 1, 2] };

const VALUES: [f32; 3] = [2.5, -0.5, 1.5];

const SETTINGS: Settings = Settings {
    kind: 0,
    gain: 1.0,
    variance: 0.0,
    channel: 3,
    message: 3,
    phi_s: 1,
    phi_a: 1,
    phi_0: 0,
    limit: 5,
    lift_from: NEVER,
    lift_to: LARGEST_LIFT,
};

pub fn text() -> String {
    let degrees = &mut [0; GRAPH.n];
    let lent = LentLengths::needed(GRAPH.n, GRAPH.columns.len());
    let begun = begin(&GRAPH, &VALUES, &SETTINGS, degrees, &lent);
    let (mut record, mut state) = begun.expect("the example is accepted");
    let mut text = table(record, &state);
    while record.verdict.is_none() {
        (record, state) = advanced_by_one(record, &state, degrees);
        text += "\n";
        text += &table(record, &state);
    }
    text
}

fn advanced_by_one(record: Record, state: &State, degrees: &mut [u32]) -> (Record, State) {
    let bytes = |levels: &[Level]| -> Vec<u8> { levels.iter().map(|level| level.byte()).collect() };
    let handed = Handed {
        record: record.number(),
        settings: &SETTINGS,
        count: 1,
        levels: &bytes(&state.levels),
        variable_messages: &bytes(&state.variable_messages),
        check_messages: &bytes(&state.check_messages),
        sums: 4 * GRAPH.n,
        bits: GRAPH.n,
    };
    match advance(&GRAPH, &handed, degrees) {
        Ok((record, Some(state))) => (record, state),
        other => panic!("an open run is answered {other:?}"),
    }
}

/// +0, -0, +2 and so on.
fn signed(level: Level) -> String {
    format!("{}{}", if level.minus { '-' } else { '+' }, level.magnitude)
}

fn table(record: Record, state: &State) -> String {
    let said = match record.verdict {
        Some(Verdict::Codeword) => "codeword",
        Some(Verdict::Stopped) => "stopped",
        None => "open",
    };
    let Record { iterations, unsatisfied, .. } = record;
    let mut text = format!("iteration {iterations}: {said}, {unsatisfied} unsatisfied\n");
    text += "variable  level   sum  bit\n";
    for variable in 0..GRAPH.n {
        let level = signed(state.levels[variable]);
        let (sum, bit) = (state.sums[variable], state.bits[variable]);
        text += &format!("{variable:>8}{level:>7}{sum:>6}{bit:>5}\n");
    }
    text += "check  variable  variable message  check message\n";
    for (check, row) in GRAPH.rows().enumerate() {
        for entry in row {
            let variable = GRAPH.columns[entry];
            let sent = signed(state.variable_messages[entry]);
            let heard = signed(state.check_messages[entry]);
            text += &format!("{check:>5}{variable:>10}{sent:>18}{heard:>15}\n");
        }
    }
    text
}
