//! The lists of one iteration, and the steps that lead to the next.

use super::graph::Graph;
use super::quantiser::Level;
use super::rules::{
    bit, check_message, counted, first_message, outgoing_sum, posterior_sum, variable_message,
};
use super::run::Rules;

/// An iteration and what the lent memory holds in it.
#[derive(Clone, Debug, PartialEq, Eq)]
pub struct State {
    pub iteration: usize,
    pub levels: Vec<Level>,
    pub variable_messages: Vec<Level>,
    pub check_messages: Vec<Level>,
    pub sums: Vec<i32>,
    pub bits: Vec<u8>,
}

impl State {
    /// Iteration 0: "the bits are the channel signs", "check messages and sums are all 0".
    pub fn first(graph: &Graph, levels: Vec<Level>, nq: u8) -> State {
        let nothing = Level { minus: false, magnitude: 0 };
        let sent = |&variable: &u32| first_message(levels[variable as usize], nq);
        State {
            iteration: 0,
            variable_messages: graph.columns.iter().map(sent).collect(),
            check_messages: vec![nothing; graph.entries()],
            sums: vec![0; graph.n],
            bits: levels.iter().map(|level| u8::from(level.minus)).collect(),
            levels,
        }
    }

    /// The last step of an iteration from 1 on: variable to check.
    pub fn send_from_variables(&mut self, entries_of_variables: &[Vec<usize>], rules: &Rules) {
        let mut incoming = Vec::new();
        for (variable, entries) in entries_of_variables.iter().enumerate() {
            self.counted_at(entries, rules, &mut incoming);
            for (recipient, &entry) in entries.iter().enumerate() {
                let u = outgoing_sum(self.levels[variable], &incoming, recipient);
                self.variable_messages[entry] = variable_message(u, rules.nq, rules.offsets);
            }
        }
    }

    /// The next iteration up to its bits, from the variable messages that were sent.
    pub fn iterate(&mut self, graph: &Graph, entries_of_variables: &[Vec<usize>], rules: &Rules) {
        self.iteration += 1;
        for row in graph.rows() {
            let incoming = &self.variable_messages[row.clone()];
            for (recipient, entry) in row.enumerate() {
                self.check_messages[entry] = check_message(incoming, recipient);
            }
        }
        let mut incoming = Vec::new();
        for (variable, entries) in entries_of_variables.iter().enumerate() {
            self.counted_at(entries, rules, &mut incoming);
            let level = self.levels[variable];
            self.sums[variable] = posterior_sum(level, &incoming);
            self.bits[variable] = bit(self.sums[variable], level);
        }
    }

    /// The check messages at these entries as they count in this iteration's sums, in place of what
    /// the list had.
    fn counted_at(&self, entries: &[usize], rules: &Rules, list: &mut Vec<Level>) {
        let messages = entries.iter().map(|&entry| self.check_messages[entry]);
        let counted =
            messages.map(|message| counted(message, self.iteration, rules.nq, rules.lifting));
        list.clear();
        list.extend(counted);
    }
}
