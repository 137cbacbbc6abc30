//! What faults do to pairs of heads: what is refused, what each head is granted, how it is run with
//! that, and what is left.

use super::calls::put;
use super::{Fault, Faulty};
use crate::harness::check::level_bytes;
use crate::interface::{
    Decoder, GraphBytes, Lent, LentLengths, PairInput, PairRefusal, REPORTS_BYTES, Record, Refusal,
    Settings, Verdict, f32_list, i32_bytes, number_bytes, numbers, report_bytes,
};
use crate::paper::graph::odd_checks;
use crate::paper::run::{Rules, accept, run};
use crate::paper::{Graph, Level, Limits, Outcome, State, check_graph};

/// What is decoded of a head that nothing is wrong with.
type Accepted = (Vec<Level>, Rules);

fn of_neither<T>(number: u8) -> Result<T, PairRefusal> {
    Err(PairRefusal { head: 0, refusal: Refusal { number, place: 0 } })
}

impl Faulty {
    pub fn decode_pair_faulty(
        &self,
        input: &PairInput,
        degrees: &mut [u8],
        lent: &mut [Lent; 2],
        reports: &mut [u8],
    ) -> u64 {
        let lists = self.lists(&input.graph);
        let graph = lists.graph();
        let before = degrees.to_vec();
        let mut counted = numbers(degrees);
        let lengths = [lent[0].lengths(), lent[1].lengths()];
        let judged = self.judge_pair(input, &graph, &mut counted, lengths, reports.len());
        put(degrees, &number_bytes(&counted));
        let heads = match judged {
            Ok(heads) => heads,
            Err(refusal) => {
                let leaves_degrees = match self.0 {
                    Fault::DegreesLeftWhereSecondRefused => refusal.head == 2,
                    Fault::DegreesLeftByTwentyTwo => refusal.refusal.number == 22,
                    _ => false,
                };
                if leaves_degrees {
                    put(degrees, &before);
                }
                self.write_where_refused(&refusal, lent, reports);
                return refusal.answer();
            }
        };
        self.run_pair(&graph, input.allowance as usize, &heads, lent, reports);
        0
    }

    /// The settings and values that each head is taken to have.
    fn frames_of(&self, input: &PairInput) -> [(Vec<f32>, Settings); 2] {
        let [first, second] = input.heads.map(|head| (f32_list(head.values), head.settings));
        let second = match self.0 {
            Fault::SecondBySettingsOfFirst => (second.0, first.1),
            Fault::SecondByLimitOfFirst => {
                (second.0, Settings { limit: first.1.limit, ..second.1 })
            }
            Fault::SecondByValuesOfFirst => (first.0.clone(), second.1),
            _ => second,
        };
        [first, second]
    }

    fn judge_pair(
        &self,
        input: &PairInput,
        graph: &Graph,
        degrees: &mut [u32],
        lent: [LentLengths; 2],
        reports: usize,
    ) -> Result<[Accepted; 2], PairRefusal> {
        if let Err(refusal) = check_graph(Limits::LENT, graph, degrees) {
            let head = u8::from(!self.has(Fault::GraphOfNoHead));
            return Err(PairRefusal { head, refusal });
        }
        let frames = self.frames_of(input);
        let exchanged = self.has(Fault::HeadsExchangedInAnswer);
        let [first, second] = [0, 1].map(|head: usize| {
            let (values, settings) = &frames[head];
            let accepted = accept(Limits::LENT, graph, values, settings, degrees, &lent[head]);
            let number = if exchanged { 2 - head } else { 1 + head };
            accepted.map_err(|refusal| PairRefusal { head: number as u8, refusal })
        });
        let is_22 = self.gets_22(input.allowance);
        let is_6 = reports < REPORTS_BYTES - usize::from(self.has(Fault::ReportsOf15Admitted));
        let of_both = first.is_ok() && second.is_ok();
        match self.0 {
            Fault::SecondRefusedFirst => drop(second.clone()?),
            Fault::TwentyTwoBeforeFirst if is_22 => return of_neither(22),
            Fault::TwentyTwoBeforeSecond if is_22 && first.is_ok() => return of_neither(22),
            Fault::ReportsBeforeSecond if is_6 && first.is_ok() => return of_neither(6),
            Fault::ReportsBeforeTwentyTwo if is_6 && of_both => return of_neither(6),
            _ => {}
        }
        let heads = [first?, second?];
        match (is_22, is_6) {
            (true, _) if self.has(Fault::TwentyTwoOfSecond) => {
                Err(PairRefusal { head: 2, refusal: Refusal { number: 22, place: 0 } })
            }
            (true, _) => of_neither(22),
            (false, true) => of_neither(6),
            (false, false) => Ok(heads),
        }
    }

    fn gets_22(&self, allowance: u32) -> bool {
        let admitted = match self.0 {
            Fault::TwentyTwoOf0Alone => 1..=u32::MAX,
            Fault::Allowance511Admitted => 2..=511,
            Fault::Allowance1Admitted => 1..=510,
            Fault::Allowance2Refused => 3..=510,
            Fault::Allowance510Refused => 2..=509,
            _ => 2..=510,
        };
        match self.0 {
            Fault::AllowanceOf16Bits => !admitted.contains(&(allowance & 0xffff)),
            _ => !admitted.contains(&allowance),
        }
    }

    fn write_where_refused(&self, refusal: &PairRefusal, lent: &mut [Lent; 2], reports: &mut [u8]) {
        let writes_first = match self.0 {
            Fault::FirstWrittenWhereSecondRefused => refusal.head == 2,
            Fault::FirstWrittenByTwentyTwo => refusal.refusal.number == 22,
            _ => false,
        };
        if writes_first {
            lent[0].levels[0] ^= 128;
        }
        if self.has(Fault::ReportsWrittenWhenRefused) {
            reports.iter_mut().take(REPORTS_BYTES).for_each(|byte| *byte = 0);
        }
    }

    fn grants_of(&self, allowance: usize, counts: [usize; 2], limits: [usize; 2]) -> [usize; 2] {
        let [a, b] = counts;
        let [up, down] = halves(allowance);
        let halves = match self.0 {
            Fault::HalvesRoundedDown => [down, down],
            Fault::HalvesRoundedUp => [up, up],
            Fault::HalvesExchanged => [down, up],
            _ => [up, down],
        };
        let others = match self.0 {
            Fault::RestOfOwnByFirst => [a, a],
            Fault::RestOfOwnByBoth => [a, b],
            Fault::RestOfOthersLimit => [limits[1], limits[0]],
            _ => [b, a],
        };
        [0, 1].map(|head: usize| {
            let (count, half) = (counts[head], halves[head]);
            let rest = allowance.saturating_sub(others[head]);
            match self.0 {
                Fault::RestWrapped => count.min(half.max(allowance.wrapping_sub(others[head]))),
                Fault::RestLeftOut => count.min(half),
                Fault::MaxAndMinExchanged => count.max(half.min(rest)),
                Fault::SmallerOfHalfAndRest => count.min(half.min(rest)),
                Fault::WholeAllowanceForEach => count.min(allowance),
                _ => count.min(half.max(rest)),
            }
        })
    }

    fn run_pair(
        &self,
        graph: &Graph,
        allowance: usize,
        heads: &[Accepted; 2],
        lent: &mut [Lent; 2],
        reports: &mut [u8],
    ) {
        let limits = [heads[0].1.limit, heads[1].1.limit];
        let counts = [0, 1].map(|head: usize| {
            let (levels, rules) = &heads[head];
            run(graph, levels.clone(), rules).iterations
        });
        let mut grants = self.grants_of(allowance, counts, limits);
        for (head, grant) in grants.iter_mut().enumerate() {
            let other = 1 - head;
            let has_no_rest = match self.0 {
                Fault::RestByVerdictOfOther => counts[other] == limits[other],
                Fault::RestBySignOfOther => heads[other].0[0].minus,
                _ => false,
            };
            if has_no_rest {
                *grant = halves(allowance)[head].min(*grant);
            }
        }
        let halves = halves(allowance);
        let outcomes = [0, 1].map(|head: usize| {
            let (levels, rules) = heads[head].clone();
            let is_cut_short = grants[head] < counts[head];
            let granted = Rules { limit: grants[head], ..rules };
            self.run_by_parts(graph, levels, &granted, halves[head], is_cut_short)
        });
        let mut told = [0, 1].map(|head: usize| {
            let record = record_of(&outcomes[head]);
            match grants[head] < counts[head] {
                true => self.report_cut_short(record, limits[head], counts[head]).number(),
                false => record.number(),
            }
        });
        if self.has(Fault::ReportsExchanged) {
            told.reverse();
        }
        let of_first = usize::from(self.has(Fault::ListsExchanged));
        for (head, lent) in lent.iter_mut().enumerate() {
            store(&outcomes[head ^ of_first], lent);
        }
        if let (Fault::PairBytePast, Some(past)) = (self.0, lent[1].bits.get_mut(graph.n)) {
            *past = 0;
        }
        if let (Fault::ReportsPast, Some(past)) = (self.0, reports.get_mut(REPORTS_BYTES)) {
            *past = 0;
        }
        let stored = reports.len().min(REPORTS_BYTES);
        reports[..stored].copy_from_slice(&report_bytes(told)[..stored]);
    }

    fn report_cut_short(&self, record: Record, limit: usize, count: usize) -> Record {
        match self.0 {
            Fault::CutShortReportsLimit => Record { iterations: limit, ..record },
            Fault::CutShortReportsCountAlone => Record { iterations: count, ..record },
            Fault::CutShortReportsCodeword => Record { verdict: Some(Verdict::Codeword), ..record },
            Fault::CutShortReportsOpen => Record { verdict: None, ..record },
            _ => record,
        }
    }

    /// To the half, and on from there.
    fn run_by_parts(
        &self,
        graph: &Graph,
        levels: Vec<Level>,
        rules: &Rules,
        half: usize,
        is_cut_short: bool,
    ) -> Outcome {
        let entries = graph.entries_of_variables();
        let mut state = State::first(graph, levels, rules.nq);
        while odd_checks(graph, &state.bits) > 0 && state.iteration < rules.limit {
            let at_half = state.iteration == half;
            let has_at_half = |fault| at_half && self.has(fault);
            if state.iteration > 0 && !has_at_half(Fault::LastStepMissingAtHalf) {
                state.send_from_variables(&entries, rules);
            }
            if has_at_half(Fault::IterationMissingAtHalf) {
                state.iteration += 1;
                continue;
            }
            state.iterate(graph, &entries, rules);
            if has_at_half(Fault::IterationTwiceAtHalf) {
                state.send_from_variables(&entries, rules);
                state.iteration -= 1;
                state.iterate(graph, &entries, rules);
            }
        }
        if self.has(Fault::LastStepAtGrant) && is_cut_short && state.iteration > 0 {
            state.send_from_variables(&entries, rules);
        }
        let unsatisfied = odd_checks(graph, &state.bits);
        let verdict = if unsatisfied == 0 { Verdict::Codeword } else { Verdict::Stopped };
        Outcome::new(verdict, unsatisfied, state)
    }

    pub fn decode_pair_place_faulty(
        &self,
        graph: &GraphBytes,
        values: [&[u8]; 2],
        answer: u64,
        degrees: &mut [u8],
    ) -> usize {
        let before = degrees.to_vec();
        let (number, head) = (answer as u8, answer >> 8);
        let place = match head {
            2 if !self.has(Fault::PairPlaceOfFirst) => {
                self.decode_place(graph, values[1], number, degrees)
            }
            1 | 2 => self.decode_place(graph, values[0], number, degrees),
            _ => self.decode_place(graph, values[0], 0, degrees),
        };
        if self.has(Fault::DegreesLeftByPairPlace) {
            put(degrees, &before);
        }
        match self.0 {
            Fault::PairPlaceOfTwentyTwo if number == 22 => 1,
            _ => place,
        }
    }
}

/// Up for the first head, down for the second.
fn halves(allowance: usize) -> [usize; 2] {
    [allowance.div_ceil(2), allowance / 2]
}

fn record_of(outcome: &Outcome) -> Record {
    let Outcome { verdict, iterations, unsatisfied, .. } = *outcome;
    Record { verdict: Some(verdict), iterations, unsatisfied }
}

fn store(outcome: &Outcome, lent: &mut Lent) {
    put(lent.levels, &level_bytes(&outcome.levels));
    put(lent.variable_messages, &level_bytes(&outcome.variable_messages));
    put(lent.check_messages, &level_bytes(&outcome.check_messages));
    put(lent.sums, &i32_bytes(&outcome.sums));
    put(lent.bits, &outcome.bits);
}
