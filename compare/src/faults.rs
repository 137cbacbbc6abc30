//! Decoders with one fault each. The harness must find every one, and none where there is
//! none.

mod blank;
mod blocks;
mod calls;
mod encode;
mod fault;
mod found;
mod found_blank;
mod found_blocks;
mod found_encode;
mod found_pair;
mod found_pause;
mod lifting;
mod pair;
mod pause;

use crate::interface::{DecodeInput, LentLengths, Verdict, as_number, f32_list};
use crate::paper::graph::odd_checks;
use crate::paper::rules::{self, Offsets};
use crate::paper::run::{Checked, Rules, check_settings};
use crate::paper::{self, Graph, Level, Limits, Outcome, Refusal};
use blank::Frame;
use fault::Fault;
use lifting::Sum;

struct Faulty(Fault);

fn last_bad_value(values: &[f32]) -> usize {
    values.iter().rposition(|value| !value.is_finite()).unwrap_or(0)
}

impl Faulty {
    fn has(&self, fault: Fault) -> bool {
        self.0 == fault
    }

    fn outcome(
        &self,
        input: &DecodeInput,
        degrees: &mut [u32],
        lent: &LentLengths,
    ) -> Result<Outcome, Refusal> {
        let lists = self.lists(&input.graph);
        let graph = lists.graph();
        let values = f32_list(input.values);
        let mut settings = input.settings;
        if self.has(Fault::RefusedThroughout) {
            settings.channel = 0;
        }
        if self.has(Fault::VarianceRead) && settings.kind == 0 && settings.variance.is_nan() {
            settings.gain = settings.variance;
        }
        self.admit_lifting(&mut settings);
        let decoded = paper::decode(Limits::LENT, &graph, &values, &settings, degrees, lent);
        let mut said = decoded.map(|_| ());
        if degrees.len() >= graph.n {
            let (values, settings) = (&values[..], &settings);
            said = self.near_20(said, &Frame { graph: &graph, values, settings, lent });
        }
        let refusal = match said {
            Ok(()) => return Ok(self.run(&graph, &values, &check_settings(&settings)?, input)),
            Err(refusal) => refusal,
        };
        let needed = LentLengths::needed(graph.n, graph.entries());
        match refusal.number {
            12 if self.has(Fault::BuffersBeforeValues) && !lent.covers(&needed) => {
                Err(Refusal { number: 6, place: 0 })
            }
            12 if self.has(Fault::LastBadValue) => {
                Err(Refusal { number: 12, place: last_bad_value(&values) })
            }
            9 | 16 => Err(Refusal { number: self.near_16(&settings, refusal.number), place: 0 }),
            _ => Err(refusal),
        }
    }

    fn quantise(&self, settings: &Checked, input: &DecodeInput, value: f32) -> Level {
        let nch = settings.rules.nch;
        let mut level = paper::quantise(settings.factor, nch, value);
        if self.has(Fault::VarianceDividedLast) && input.settings.kind == 1 {
            let p = 2.0 * input.settings.gain * value.abs() / input.settings.variance;
            level.magnitude = paper::quantise(1.0, nch, p).magnitude;
        }
        if self.has(Fault::NegativeZeroAsPlus) {
            level.minus = value < 0.0;
        }
        if self.has(Fault::RoundedUp) {
            level.magnitude = ((settings.factor * value.abs()) as u32).min(nch.into()) as u8;
        }
        level
    }

    fn check_message(&self, incoming: &[Level], recipient: usize) -> Level {
        let mut message = rules::check_message(incoming, recipient);
        if self.has(Fault::OwnMessageCounted) {
            message.magnitude = message.magnitude.min(incoming[recipient].magnitude);
        }
        message
    }

    fn variable_message(&self, u: i32, nq: u8, offsets: Offsets) -> Level {
        let mut message = rules::variable_message(u, nq, offsets);
        let f = (u.abs() - 1) / 2;
        if self.has(Fault::Phi0WhereNqIs1) && nq == 1 && f == 1 {
            message.magnitude = 1 - offsets.phi_0;
        }
        if self.has(Fault::OffsetPastNq) && f == i32::from(nq) + 1 {
            message.magnitude = nq - offsets.phi_s;
        }
        message
    }

    /// Of messages as they count.
    fn posterior_sum(&self, channel: Level, incoming: &[Level]) -> i32 {
        let sum = rules::posterior_sum(channel, incoming);
        match self.has(Fault::DegreeOneAsEven) && incoming.len() == 1 {
            true => sum + if channel.minus { -1 } else { 1 },
            false => sum,
        }
    }

    fn run(
        &self,
        graph: &Graph,
        values: &[f32],
        settings: &Checked,
        input: &DecodeInput,
    ) -> Outcome {
        let levels: Vec<Level> =
            values.iter().map(|&value| self.quantise(settings, input, value)).collect();
        let rules = &settings.rules;
        let sent = |&variable: &u32| self.first_message(levels[variable as usize], rules);
        let mut outcome = Outcome {
            verdict: Verdict::Stopped,
            iterations: 0,
            unsatisfied: 0,
            variable_messages: graph.columns.iter().map(sent).collect(),
            check_messages: vec![Level { minus: false, magnitude: 0 }; graph.entries()],
            sums: vec![0; graph.n],
            bits: levels.iter().map(|level| u8::from(level.minus)).collect(),
            levels,
        };
        let early = u8::from(self.has(Fault::StoppedBeforeTheLimit));
        let limit = match self.has(Fault::NoIterations) {
            true => 0,
            false => rules.limit.saturating_sub(early.into()),
        };
        let entries = graph.entries_of_variables();
        loop {
            outcome.unsatisfied = odd_checks(graph, &outcome.bits);
            let stops = outcome.unsatisfied == 0 || outcome.iterations == limit;
            if outcome.iterations > 0 && (!stops || self.has(Fault::LastStepDoneToo)) {
                self.send_from_variables(&entries, rules, &mut outcome);
            }
            if stops {
                break;
            }
            outcome.iterations += 1;
            if outcome.iterations < 2 || !self.has(Fault::IterationRepeated) {
                self.iterate(graph, &entries, rules, &mut outcome);
            }
        }
        if outcome.unsatisfied == 0 {
            outcome.verdict = Verdict::Codeword;
        }
        if self.has(Fault::AllZeroBits) {
            outcome.bits.fill(0);
        }
        if self.has(Fault::CountNotItsOwn) && outcome.iterations == rules.limit {
            outcome.unsatisfied += usize::from(outcome.unsatisfied > 0);
        }
        outcome
    }

    fn send_from_variables(&self, entries: &[Vec<usize>], rules: &Rules, to: &mut Outcome) {
        for (variable, entries) in entries.iter().enumerate() {
            let incoming = self.counted(entries, Sum::Outgoing, rules, to);
            let channel = self.counted_level(to.levels[variable], rules, to.iterations);
            for (recipient, &entry) in entries.iter().enumerate() {
                let u = rules::outgoing_sum(channel, &incoming, recipient);
                to.variable_messages[entry] = self.variable_message(u, rules.nq, rules.offsets);
            }
        }
    }

    fn iterate(&self, graph: &Graph, entries: &[Vec<usize>], rules: &Rules, to: &mut Outcome) {
        for row in graph.rows() {
            for (recipient, entry) in row.clone().enumerate() {
                let incoming = &to.variable_messages[row.clone()];
                to.check_messages[entry] = self.check_message(incoming, recipient);
            }
        }
        self.store_as_counted(rules, to);
        for (variable, entries) in entries.iter().enumerate() {
            let incoming = self.counted(entries, Sum::Posterior, rules, to);
            let channel = self.counted_level(to.levels[variable], rules, to.iterations);
            to.sums[variable] = self.posterior_sum(channel, &incoming);
            to.bits[variable] = match self.has(Fault::TieToBit0) {
                true => u8::from(to.sums[variable] < 0),
                false => rules::bit(to.sums[variable], channel),
            };
        }
    }

    /// The text as a careless reader would take it.
    fn careless(&self, text: &[u8]) -> Vec<u8> {
        let mut text = text.to_vec();
        if self.has(Fault::CarriageReturnsRead) {
            text.retain(|&byte| byte != b'\r');
        }
        if self.has(Fault::LastLineFeedOptional) && text.last().is_some_and(u8::is_ascii_digit) {
            text.push(b'\n');
        }
        if self.has(Fault::WideNumbersWrapped) {
            let wrapped = |word: &str| match word.parse::<u64>() {
                Ok(number) if number > u32::MAX.into() => as_number(number as usize).to_string(),
                _ => word.to_string(),
            };
            let text_words = String::from_utf8_lossy(&text).into_owned();
            let line = |line: &str| line.split(' ').map(wrapped).collect::<Vec<_>>().join(" ");
            text = text_words.split('\n').map(line).collect::<Vec<_>>().join("\n").into_bytes();
        }
        text
    }
}
