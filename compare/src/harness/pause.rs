//! Runs that are begun and advanced, and states that are handed in.

use super::arena::{Arena, Part};
use super::check::{Both, compare_answers, level_bytes, number_of};
use super::series::Seen;
use crate::generate::cases::DecodeCase;
use crate::generate::pause::{AdvanceCase, RunCase};
use crate::interface::{
    AdvanceInput, Answer, DecodeInput, Decoded, Decoder, GraphBytes, Lent, Record, Settings,
    Verdict, f32_list, i32_bytes, numbers,
};
use crate::paper::{self, Graph, Handed, OneRun, Refusal, State};
use crate::random::Random;

/// A run in the allocation that holds all its lists.
struct Run<'a> {
    graph: &'a Graph<'a>,
    settings: Settings,
    decoder: &'a dyn Decoder,
    arena: Arena,
}

/// What an iteration leaves beside the degrees.
fn lists_of(state: &State) -> Vec<(&'static str, Vec<u8>)> {
    vec![
        ("levels", level_bytes(&state.levels)),
        ("variable messages", level_bytes(&state.variable_messages)),
        ("check messages", level_bytes(&state.check_messages)),
        ("sums", i32_bytes(&state.sums)),
        ("bits", state.bits.clone()),
    ]
}

/// A call that takes a frame, in an allocation that has its values last.
fn on_frame<T>(
    arena: &mut Arena,
    n: usize,
    settings: Settings,
    call: impl Fn(&DecodeInput, &mut [u8], &mut Lent) -> Answer<T>,
) -> Answer<T> {
    let [starts, levels, columns, variable_messages, degrees, check_messages, sums, bits, values] =
        arena.slices();
    let input = DecodeInput { graph: GraphBytes { n, starts, columns }, values, settings };
    call(&input, degrees, &mut Lent { levels, variable_messages, check_messages, sums, bits })
}

impl Run<'_> {
    /// Begins and compares; the record and the lists, or the refusal.
    fn begin(&mut self, case: &DecodeCase) -> Result<Result<(Record, State), Refusal>, String> {
        let (n, decoder) = (self.graph.n, self.decoder);
        let degrees = &mut numbers(self.arena.part("degrees"));
        let values = f32_list(&case.values);
        let expected = paper::begin(self.graph, &values, &self.settings, degrees, &case.lent);
        let left = expected.as_ref().map_or(Vec::new(), |(_, state)| lists_of(state));
        let mut both = Both::new(self.arena.clone(), degrees, left);

        let begin = |input: &DecodeInput, degrees: &mut [u8], lent: &mut Lent| {
            decoder.begin(input, degrees, lent)
        };
        let answer = on_frame(&mut both.entry, n, self.settings, begin);
        let number = match &answer {
            Answer::Refused(number) => *number,
            Answer::Accepted(_) | Answer::Malformed(_) => 0,
        };
        let [starts, _, columns, _, degrees, _, _, _, values] = both.companion.slices();
        let place =
            decoder.begin_place(&GraphBytes { n, starts, columns }, values, number, degrees);

        let record = expected.as_ref().map(|(record, _)| *record).map_err(|refusal| *refusal);
        compare_answers(&record, &answer, place)?;
        both.compare()?;
        self.arena = both.entry;
        Ok(expected)
    }

    /// Advances by what the allocation holds and compares; the record that holds then, or the
    /// refusal.
    fn advance(&mut self, record: u64, count: u32) -> Result<Result<Record, Refusal>, String> {
        let (n, decoder, settings) = (self.graph.n, self.decoder, self.settings);
        let degrees = &mut numbers(self.arena.part("degrees"));
        let handed = Handed {
            record,
            settings: &settings,
            count,
            levels: self.arena.part("levels"),
            variable_messages: self.arena.part("variable messages"),
            check_messages: self.arena.part("check messages"),
            sums: self.arena.part("sums").len(),
            bits: self.arena.part("bits").len(),
        };
        let expected = paper::advance(self.graph, &handed, degrees);
        let left = match &expected {
            Ok((_, Some(state))) => lists_of(state),
            Ok((_, None)) | Err(_) => Vec::new(),
        };
        let mut both = Both::new(self.arena.clone(), degrees, left);

        let [starts, levels, columns, variable_messages, degrees, check_messages, sums, bits] =
            both.entry.slices();
        let input =
            AdvanceInput { record, graph: GraphBytes { n, starts, columns }, settings, count };
        let mut lent = Lent { levels, variable_messages, check_messages, sums, bits };
        let answer = decoder.advance(&input, degrees, &mut lent);
        let [starts, _, columns, _, degrees] = both.companion.slices();
        let place = decoder.advance_place(&GraphBytes { n, starts, columns }, degrees);

        let record = expected.map(|(record, _)| record);
        compare_answers(&record, &answer, place)?;
        both.compare()?;
        self.arena = both.entry;
        Ok(record)
    }

    /// "The state after it is that of one run halted": record and lists.
    fn is_halted_as(
        &self,
        record: Record,
        (of_one, state): &(Record, State),
    ) -> Result<(), String> {
        if record != *of_one {
            return Err(format!("the run is at {record:?}, one run halts at {of_one:?}"));
        }
        let lists = self.arena.with(&lists_of(state));
        self.arena.compare(&lists).map_err(|difference| format!("halted, {difference}"))
    }

    /// One decode comes to the same bytes; where the run is open, with the iteration where it
    /// halted as the limit.
    fn is_decoded_as(&self, record: Record, mut before: Arena) -> Result<(), String> {
        let Record { verdict, iterations, unsatisfied } = record;
        let (verdict, limit) = match verdict {
            Some(verdict) => (verdict, self.settings.limit),
            None => (Verdict::Stopped, iterations as u32),
        };
        let settings = Settings { limit, ..self.settings };
        let decode = |input: &DecodeInput, degrees: &mut [u8], lent: &mut Lent| {
            self.decoder.decode(input, degrees, lent)
        };
        let answer = on_frame(&mut before, self.graph.n, settings, decode);
        let expected = Answer::Accepted(Decoded { verdict, iterations, unsatisfied });
        if answer != expected {
            return Err(format!("one decode is answered {answer:?}, not {expected:?}"));
        }
        let after = self.arena.with(&[]);
        before.compare(&after).map_err(|difference| format!("after one decode, {difference}"))
    }
}

/// Begin, then each advance with what the one before has left, against the paper's and against one
/// run; at the end the decoder's own decode.
pub fn check_run(
    case: &RunCase,
    decoder: &dyn Decoder,
    random: &mut Random,
) -> Result<Seen, String> {
    let RunCase { decode, counts } = case;
    let (starts, columns) = (numbers(&decode.starts), numbers(&decode.columns));
    let graph = Graph { n: decode.n, starts: &starts, columns: &columns };
    let arena = Arena::new(
        random,
        &[
            Part::Given("starts", &decode.starts),
            Part::Lent("levels", decode.lent.levels),
            Part::Given("columns", &decode.columns),
            Part::Lent("variable messages", decode.lent.variable_messages),
            Part::Lent("degrees", decode.degrees),
            Part::Lent("check messages", decode.lent.check_messages),
            Part::Lent("sums", decode.lent.sums),
            Part::Lent("bits", decode.lent.bits),
            Part::Given("values", &decode.values),
        ],
    );
    let before = arena.clone();
    let mut run = Run { graph: &graph, settings: decode.settings, decoder, arena };
    let seen = |call, refusal| Ok(Seen { call, refusal, iterations: None });
    let (mut record, state) = match run.begin(decode)? {
        Ok(begun) => begun,
        Err(refusal) => return seen("begin", refusal.number),
    };
    let mut one_run = OneRun::new(&graph, &decode.settings, state.levels);
    let mut total = 0;
    for &count in counts {
        // "With record and buffers left alone between."
        if let Ok(advanced) = run.advance(record.number(), count)? {
            record = advanced;
            total += count as usize;
        }
        run.is_halted_as(record, &one_run.halted_at(total))?;
    }
    run.is_decoded_as(record, before)?;
    seen("begin", 0)
}

/// An advance of a state that was handed in. The sums and the bits hold anything.
pub fn check_advance(
    case: &AdvanceCase,
    decoder: &dyn Decoder,
    random: &mut Random,
) -> Result<Seen, String> {
    let (starts, columns) = (numbers(&case.starts), numbers(&case.columns));
    let graph = Graph { n: case.n, starts: &starts, columns: &columns };
    let arena = Arena::new(
        random,
        &[
            Part::Given("starts", &case.starts),
            Part::Given("levels", &case.levels),
            Part::Given("columns", &case.columns),
            Part::Given("variable messages", &case.variable_messages),
            Part::Lent("degrees", case.degrees),
            Part::Given("check messages", &case.check_messages),
            Part::Lent("sums", case.sums),
            Part::Lent("bits", case.bits),
        ],
    );
    let mut run = Run { graph: &graph, settings: case.settings, decoder, arena };
    let record = run.advance(case.record, case.count)?;
    Ok(Seen { call: "advance", refusal: number_of(&record), iterations: None })
}
