//! A run that is paused: "begun, advanced by a number of iterations, looked at and advanced
//! again".

use super::graph::{Graph, check_graph, odd_checks};
use super::limits::Limits;
use super::quantiser::Level;
use super::run::{Rules, accept, check_rules};
use super::state::State;
use super::{Refusal, refuse};
use crate::interface::{LentLengths, Record, Settings, Verdict};

/// The largest iteration at which a run can be open: one before the largest limit.
const LAST_OPEN: usize = 254;

/// "Begin refuses as decode" and leaves iteration 0.
pub fn begin(
    graph: &Graph,
    values: &[f32],
    settings: &Settings,
    degrees: &mut [u32],
    lent: &LentLengths,
) -> Result<(Record, State), Refusal> {
    let (levels, rules) = accept(Limits::LENT, graph, values, settings, degrees, lent)?;
    let state = State::first(graph, levels, rules.nq);
    Ok((record(graph, &state, rules.limit), state))
}

/// What an advance is given beside the graph. Of the settings the scaling is not looked at; of
/// the sums and the bits only the length in bytes is.
#[derive(Clone, Copy)]
pub struct Handed<'a> {
    pub record: u64,
    pub settings: &'a Settings,
    pub count: u32,
    pub levels: &'a [u8],
    pub variable_messages: &'a [u8],
    pub check_messages: &'a [u8],
    pub sums: usize,
    pub bits: usize,
}

impl Handed<'_> {
    fn lengths(&self) -> LentLengths {
        LentLengths {
            levels: self.levels.len(),
            variable_messages: self.variable_messages.len(),
            check_messages: self.check_messages.len(),
            sums: self.sums,
            bits: self.bits,
        }
    }

    /// The record and the iteration that is carried on. None for what gets 21: "a finished record,
    /// one at or past its limit, a count above the limit, or a level or message byte beyond its
    /// precision". Sums and bits are worked out before they are read.
    fn open_run(&self, graph: &Graph, rules: &Rules) -> Option<(Record, State)> {
        let record = open_record(self.record)?;
        if record.iterations >= rules.limit || self.count as usize > rules.limit {
            return None;
        }
        let entries = graph.entries();
        let state = State {
            iteration: record.iterations,
            levels: levels_in(&self.levels[..graph.n], rules.nch)?,
            variable_messages: levels_in(&self.variable_messages[..entries], rules.nq)?,
            check_messages: levels_in(&self.check_messages[..entries], rules.nq)?,
            sums: vec![0; graph.n],
            bits: vec![0; graph.n],
        };
        Some((record, state))
    }
}

/// The graph's refusals, 8, 9, 16, 6 and 21; else the record that holds then, and the lists that
/// are left, unless nothing changes.
pub fn advance(
    graph: &Graph,
    handed: &Handed,
    degrees: &mut [u32],
) -> Result<(Record, Option<State>), Refusal> {
    check_graph(Limits::LENT, graph, degrees)?;
    let rules = check_rules(handed.settings)?;
    if !handed.lengths().covers(&LentLengths::needed(graph.n, graph.entries())) {
        return refuse(6, 0);
    }
    let Some((mut now, mut state)) = handed.open_run(graph, &rules) else {
        return refuse(21, 0);
    };
    // "An advance of 0 and a refused one change nothing."
    if handed.count == 0 {
        return Ok((now, None));
    }
    let entries_of_variables = graph.entries_of_variables();
    for _ in 0..handed.count {
        // "The last step of that iteration, from 1 on, is still to be done."
        if state.iteration > 0 {
            state.send_from_variables(&entries_of_variables, &rules);
        }
        state.iterate(graph, &entries_of_variables, &rules);
        now = record(graph, &state, rules.limit);
        if now.verdict.is_some() {
            break;
        }
    }
    Ok((now, Some(state)))
}

/// "Halted before a verdict, the record says `open`."
fn record(graph: &Graph, state: &State, limit: usize) -> Record {
    let unsatisfied = odd_checks(graph, &state.bits);
    let verdict = if unsatisfied == 0 {
        Some(Verdict::Codeword)
    } else if state.iteration == limit {
        Some(Verdict::Stopped)
    } else {
        None
    };
    Record { verdict, iterations: state.iteration, unsatisfied }
}

/// The record in a number, where some begin or advance answers it as open: below the largest
/// limit, with some check unsatisfied and at most as many as there can be.
fn open_record(number: u64) -> Option<Record> {
    let record = Record::of_number(number)?;
    let is_answered = record.verdict.is_none()
        && record.iterations <= LAST_OPEN
        && (1..=Limits::LENT.checks).contains(&record.unsatisfied);
    is_answered.then_some(record)
}

/// The levels in these bytes, where none is beyond the largest magnitude.
fn levels_in(bytes: &[u8], largest: u8) -> Option<Vec<Level>> {
    let levels: Vec<Level> = bytes.iter().map(|&byte| Level::of_byte(byte)).collect();
    levels.iter().all(|level| level.magnitude <= largest).then_some(levels)
}

/// One run, told as the paper tells it: "the rules go on without end", and every iteration does
/// all its steps.
pub struct OneRun<'a> {
    graph: &'a Graph<'a>,
    entries_of_variables: Vec<Vec<usize>>,
    rules: Rules,
    /// With the variable messages that this iteration sends.
    state: State,
    sent_before: Vec<Level>,
}

impl<'a> OneRun<'a> {
    /// On a graph and settings that begin accepted, from the levels that it left.
    pub fn new(graph: &'a Graph<'a>, settings: &Settings, levels: Vec<Level>) -> OneRun<'a> {
        let rules = check_rules(settings).expect("begin accepted the settings");
        let state = State::first(graph, levels, rules.nq);
        OneRun {
            graph,
            entries_of_variables: graph.entries_of_variables(),
            rules,
            sent_before: state.variable_messages.clone(),
            state,
        }
    }

    /// Goes on to an iteration, or to the verdict where that is earlier, and halts.
    pub fn halted_at(&mut self, iteration: usize) -> (Record, State) {
        let mut now = record(self.graph, &self.state, self.rules.limit);
        while now.verdict.is_none() && now.iterations < iteration {
            self.sent_before = self.state.variable_messages.clone();
            self.state.iterate(self.graph, &self.entries_of_variables, &self.rules);
            self.state.send_from_variables(&self.entries_of_variables, &self.rules);
            now = record(self.graph, &self.state, self.rules.limit);
        }
        // "The variable messages there are those sent in the iteration before; at iteration 0
        // they are its own."
        let variable_messages = self.sent_before.clone();
        (now, State { variable_messages, ..self.state.clone() })
    }
}
