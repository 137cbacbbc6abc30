//! What faults do to paused runs: what an advance turns down, what it does of the step that was
//! left, where it halts, and what it leaves.

use super::calls::{place, put};
use super::{Fault, Faulty, Sum};
use crate::harness::check::level_bytes;
use crate::interface::{
    AdvanceInput, Answer, DecodeInput, GraphBytes, Lent, LentLengths, Record, Settings, Verdict,
    i32_bytes, number_bytes, numbers,
};
use crate::paper::graph::odd_checks;
use crate::paper::run::{Rules, check_rules};
use crate::paper::{Graph, Level, Limits, Outcome, Refusal, check_graph};

fn refuse<T>(number: u8) -> Result<T, Refusal> {
    Err(Refusal { number, place: 0 })
}

/// The iteration and the unsatisfied checks in a record's number.
fn fields(record: u64) -> (usize, usize) {
    ((record >> 16 & 0xffff) as usize, (record >> 32) as usize)
}

fn levels_in(bytes: &[u8], count: usize) -> Vec<Level> {
    bytes[..count].iter().map(|&byte| Level::of_byte(byte)).collect()
}

/// What a check message adds to a sum.
fn in_halves(message: Level) -> i32 {
    let size = 2 * i32::from(message.magnitude) + 1;
    if message.minus { -size } else { size }
}

impl Faulty {
    /// Decode with a limit of 0 comes to where begin does.
    pub fn begin_faulty(
        &self,
        input: &DecodeInput,
        degrees: &mut [u8],
        lent: &mut Lent,
    ) -> Answer<Record> {
        let limit = input.settings.limit;
        let mut first = *input;
        if limit <= 255 && !self.has(Fault::BeginRunsOn) {
            first.settings.limit = 0;
        }
        let outcome = match self.decode_in(&first, degrees, lent) {
            Ok(outcome) => outcome,
            Err(refusal) => return Answer::Refused(refusal.number),
        };
        let Outcome { verdict, iterations, unsatisfied, .. } = outcome;
        let is_open = match self.0 {
            Fault::BegunStopped => false,
            Fault::BegunOpenAtLimit0 => verdict == Verdict::Stopped,
            _ => verdict == Verdict::Stopped && iterations < limit as usize,
        };
        let verdict = (!is_open).then_some(verdict);
        Answer::Accepted(Record { verdict, iterations, unsatisfied })
    }

    fn judge(
        &self,
        input: &AdvanceInput,
        graph: &Graph,
        degrees: &mut [u32],
        lent: &Lent,
    ) -> Result<Rules, Refusal> {
        let mut settings = input.settings;
        self.admit_lifting(&mut settings);
        let rules = check_rules(&settings);
        let is_8 = rules.is_err_and(|refusal| refusal.number == 8);
        match check_graph(Limits::LENT, graph, degrees) {
            Err(Refusal { number: 5, .. }) if self.has(Fault::EightBeforeFive) && is_8 => {
                return refuse(8);
            }
            checked => checked?,
        }
        let is_short = !lent.lengths().covers(&LentLengths::needed(graph.n, graph.entries()));
        let rules = rules.map_err(|refusal| Refusal {
            number: self.near_6(&settings, refusal.number, is_short),
            place: 0,
        })?;
        let is_blank = || levels_in(lent.levels, graph.n).iter().all(|level| level.magnitude == 0);
        let gets_21 = || self.gets_21(input, graph, &rules, lent);
        match self.0 {
            Fault::TwentyOneBeforeSix if is_short && gets_21() => refuse(21),
            _ if is_short => refuse(6),
            Fault::NothingToDoAccepted if input.count == 0 => Ok(rules),
            Fault::BlankLevelsRefused if is_blank() => refuse(20),
            _ if gets_21() => refuse(21),
            _ => Ok(rules),
        }
    }

    /// The number given in place of an 8, 9 or 16 of an advance.
    fn near_6(&self, settings: &Settings, number: u8, is_short: bool) -> u8 {
        let is = |settings: Settings, number: u8| {
            check_rules(&settings).is_err_and(|refusal| refusal.number == number)
        };
        let without_8 = Settings { channel: 4, message: 4, ..*settings };
        let without_9 = Settings { phi_s: 0, phi_a: 0, phi_0: 0, limit: 0, ..*settings };
        match (self.0, number) {
            (Fault::NineBeforeEight, 8) if is(without_8, 9) => 9,
            (Fault::AdvanceSixteenBeforeNine, 9) if is(without_9, 16) => 16,
            (Fault::SixBeforeSixteen, 16) if is_short => 6,
            _ => number,
        }
    }

    fn gets_21(&self, input: &AdvanceInput, graph: &Graph, rules: &Rules, lent: &Lent) -> bool {
        let (count, limit) = (input.count as usize, rules.limit);
        let is_too_much = match self.0 {
            Fault::CountAboveLimitAdmitted => false,
            Fault::CountToLimitRefused => count >= limit,
            _ => count > limit,
        };
        is_too_much
            || !self.is_open(input.record, graph, limit)
            || self.is_beyond_precision(input, graph, rules, lent)
    }

    fn is_open(&self, record: u64, graph: &Graph, limit: usize) -> bool {
        let (iteration, unsatisfied) = fields(record);
        let verdict = record >> 8 & 0xff;
        let is_below_limit = match self.0 {
            Fault::AtLimitAdvanced => iteration <= limit,
            Fault::PastLimitAdvanced => iteration != limit,
            _ => iteration < limit,
        };
        let has_no_verdict = match self.0 {
            Fault::FinishedAdvanced => verdict <= 2,
            Fault::VerdictAbove2Admitted => verdict >= 2,
            _ => verdict == 2,
        };
        let can_be_counted = match self.0 {
            Fault::FinishedAdvanced => unsatisfied > 0 || verdict == 0,
            Fault::Unsatisfied0Admitted => unsatisfied <= Limits::LENT.checks,
            Fault::UnsatisfiedUnbounded => unsatisfied > 0,
            Fault::UnsatisfiedByGraph => (1..=graph.m()).contains(&unsatisfied),
            _ => (1..=Limits::LENT.checks).contains(&unsatisfied),
        };
        let is_no_refusal = record & 0xff == 0 || self.has(Fault::RefusalByteUnread);
        is_no_refusal && has_no_verdict && is_below_limit && can_be_counted
    }

    fn is_beyond_precision(
        &self,
        input: &AdvanceInput,
        graph: &Graph,
        rules: &Rules,
        lent: &Lent,
    ) -> bool {
        let is_beyond = |bytes: &[u8], needed: usize, largest: u8| {
            let judged = match self.0 {
                Fault::LastByteUnjudged => needed - 1,
                Fault::BytePastJudged => needed + 1,
                _ => needed,
            };
            let is_judged = |byte: u8| byte < 128 || !self.has(Fault::MinusUnjudged);
            let mut judged = bytes.iter().take(judged).filter(|&&byte| is_judged(byte));
            judged.any(|&byte| byte % 128 > largest)
        };
        let (n, entries) = (graph.n, graph.entries());
        let of_levels = match self.0 {
            Fault::LevelsByMessagePrecision => rules.nq,
            _ => rules.nch,
        };
        let of_messages = match self.0 {
            Fault::MessagesByChannelPrecision => rules.nch,
            _ => rules.nq,
        };
        let iteration = fields(input.record).0;
        let variable_messages_unjudged = match self.0 {
            Fault::VariableMessagesUnjudged => true,
            Fault::VariableMessagesUnjudgedLater => iteration > 0,
            _ => false,
        };
        let check_messages_unjudged = match self.0 {
            Fault::CheckMessagesUnjudged => true,
            Fault::CheckMessagesUnjudgedAt0 => iteration == 0,
            _ => false,
        };
        (!self.has(Fault::LevelsUnjudged) && is_beyond(lent.levels, n, of_levels))
            || (!variable_messages_unjudged
                && is_beyond(lent.variable_messages, entries, of_messages))
            || (!check_messages_unjudged && is_beyond(lent.check_messages, entries, of_messages))
    }

    pub fn advance_faulty(
        &self,
        input: &AdvanceInput,
        degrees: &mut [u8],
        lent: &mut Lent,
    ) -> Answer<Record> {
        let lists = self.lists(&input.graph);
        let graph = lists.graph();
        let before = degrees.to_vec();
        let judged = self
            .on_degrees(degrees, Some(graph.n), |degrees| self.judge(input, &graph, degrees, lent));
        let is_21 = judged.is_err_and(|refusal| refusal.number == 21);
        if self.has(Fault::DegreesLeftByAdvance) && (is_21 || input.count == 0) {
            put(degrees, &before);
        }
        if self.has(Fault::WrittenByTwentyOne) && is_21 {
            lent.sums.fill(0);
        }
        let rules = match judged {
            Ok(rules) => rules,
            Err(refusal) => return Answer::Refused(refusal.number),
        };
        let (iterations, unsatisfied) = fields(input.record);
        let given = Record { verdict: None, iterations, unsatisfied };
        let given = Record::of_number(input.record).unwrap_or(given);
        let mut run = self.handed_in(&graph, given, lent);
        if input.count == 0 {
            if self.has(Fault::NothingToDoWritten) {
                self.do_what_was_left(&graph, &graph.entries_of_variables(), &rules, &mut run);
                put(lent.variable_messages, &level_bytes(&run.variable_messages));
            }
            return Answer::Accepted(given);
        }
        if self.has(Fault::LentBitsRead) && odd_checks(&graph, &run.bits) == 0 {
            let verdict = Some(Verdict::Codeword);
            return Answer::Accepted(Record { verdict, iterations, unsatisfied: 0 });
        }
        let unsatisfied = self.go_on(&graph, &rules, input.count as usize, &mut run);
        self.leave_run(&run, &rules, lent);
        Answer::Accepted(self.record(&rules, &run, unsatisfied))
    }

    /// The run in the lent lists, with sums and bits as they are there.
    fn handed_in(&self, graph: &Graph, given: Record, lent: &Lent) -> Outcome {
        let (n, entries) = (graph.n, graph.entries());
        let sums = numbers(&lent.sums[..4 * n]);
        let within = |sum: u32| (sum as i32).clamp(-1_000_000, 1_000_000);
        Outcome {
            verdict: Verdict::Stopped,
            iterations: given.iterations,
            unsatisfied: given.unsatisfied,
            levels: levels_in(lent.levels, n),
            variable_messages: levels_in(lent.variable_messages, entries),
            check_messages: levels_in(lent.check_messages, entries),
            sums: sums.into_iter().map(within).collect(),
            bits: lent.bits[..n].to_vec(),
        }
    }

    /// Up to so many iterations; the unsatisfied checks of the one before the last.
    fn go_on(&self, graph: &Graph, rules: &Rules, count: usize, run: &mut Outcome) -> usize {
        let entries = &graph.entries_of_variables();
        let to = match self.0 {
            Fault::CountedFromZero => count,
            _ => run.iterations + count,
        };
        let limit = if self.has(Fault::LimitRunPast) { usize::MAX } else { rules.limit };
        let mut unsatisfied_before = run.unsatisfied;
        let begun = run.iterations;
        while run.iterations < to {
            if run.iterations == begun {
                self.do_what_was_left(graph, entries, rules, run);
            } else {
                self.send_from_variables(entries, rules, run);
            }
            run.iterations += 1;
            self.iterate(graph, entries, rules, run);
            if self.has(Fault::ResumedIterationTwice) && run.iterations == begun + 1 && begun > 0 {
                self.send_from_variables(entries, rules, run);
                self.iterate(graph, entries, rules, run);
            }
            unsatisfied_before = run.unsatisfied;
            run.unsatisfied = odd_checks(graph, &run.bits);
            let ends = run.unsatisfied == 0 && !self.has(Fault::CodewordRunOn);
            if ends || run.iterations == limit {
                break;
            }
        }
        let is_open = run.unsatisfied > 0 && run.iterations < rules.limit;
        if self.has(Fault::LastStepAtHalt) && is_open {
            self.send_from_variables(entries, rules, run);
        }
        unsatisfied_before
    }

    /// The last step of the iteration where the run halted.
    fn do_what_was_left(
        &self,
        graph: &Graph,
        entries: &[Vec<usize>],
        rules: &Rules,
        run: &mut Outcome,
    ) {
        let iteration = run.iterations;
        match self.0 {
            Fault::FirstMessagesMadeAnew if iteration == 0 => {
                let sent =
                    |&variable: &u32| self.first_message(run.levels[variable as usize], rules);
                run.variable_messages = graph.columns.iter().map(sent).collect();
            }
            _ if iteration == 0 => {}
            Fault::LastStepLeftOut => {}
            Fault::LastStepFromLentSums => self.send_from_sums(entries, rules, run),
            Fault::LastStepLiftedLate | Fault::LastStepLiftedEarly => {
                let early = self.has(Fault::LastStepLiftedEarly);
                run.iterations = if early { iteration + 1 } else { iteration - 1 };
                self.send_from_variables(entries, rules, run);
                run.iterations = iteration;
            }
            Fault::ZeroSentPlusOnResuming => {
                self.send_from_variables(entries, rules, run);
                let zeros = run.variable_messages.iter_mut().filter(|level| level.magnitude == 0);
                zeros.for_each(|level| level.minus = false);
            }
            _ => self.send_from_variables(entries, rules, run),
        }
    }

    /// The last step with the sums as they were lent.
    fn send_from_sums(&self, entries: &[Vec<usize>], rules: &Rules, run: &mut Outcome) {
        for (variable, entries) in entries.iter().enumerate() {
            let incoming = self.counted(entries, Sum::Outgoing, rules, run);
            for (&entry, message) in entries.iter().zip(incoming) {
                let u = run.sums[variable] - in_halves(message);
                run.variable_messages[entry] = self.variable_message(u, rules.nq, rules.offsets);
            }
        }
    }

    fn record(&self, rules: &Rules, run: &Outcome, unsatisfied_before: usize) -> Record {
        let is_limit = run.iterations == rules.limit || self.has(Fault::StoppedAtHalt);
        let verdict = match run.unsatisfied {
            0 => Some(Verdict::Codeword),
            _ => is_limit.then_some(Verdict::Stopped),
        };
        Record {
            verdict,
            iterations: run.iterations - usize::from(self.has(Fault::IterationBefore)),
            unsatisfied: match self.has(Fault::UnsatisfiedBefore) {
                true => unsatisfied_before,
                false => run.unsatisfied,
            },
        }
    }

    /// Stores the lists but for the levels.
    fn leave_run(&self, run: &Outcome, rules: &Rules, lent: &mut Lent) {
        if self.has(Fault::LevelsWritten) {
            let sent = run.levels.iter().map(|&level| self.first_message(level, rules));
            put(lent.levels, &level_bytes(&sent.collect::<Vec<Level>>()));
        }
        let lists = [
            (&mut *lent.variable_messages, level_bytes(&run.variable_messages)),
            (&mut *lent.check_messages, level_bytes(&run.check_messages)),
            (&mut *lent.sums, i32_bytes(&run.sums)),
            (&mut *lent.bits, run.bits.clone()),
        ];
        for (buffer, list) in lists {
            put(buffer, &list);
            if let (Fault::AdvanceBytePast, Some(past)) = (self.0, buffer.get_mut(list.len())) {
                *past = 0;
            }
        }
    }

    pub fn advance_place_faulty(&self, graph: &GraphBytes, degrees: &mut [u8]) -> usize {
        let lists = self.lists(graph);
        let spare = &mut Vec::new();
        let listed = self.companion_list(degrees, spare);
        let before = numbers(listed);
        let checked = self.on_degrees(listed, Some(graph.n), |degrees| {
            check_graph(Limits::LENT, &lists.graph(), degrees)
        });
        if self.has(Fault::DegreesLeftByAdvancePlace) {
            put(listed, &number_bytes(&before));
        }
        match self.0 {
            Fault::AdvancePlaceMissing => 0,
            Fault::AdvanceAlwaysWithPlace if checked.is_ok() => 1,
            _ => place(checked),
        }
    }
}
