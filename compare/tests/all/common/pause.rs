//! Runs that are begun and advanced, each by the paper's reading and by the fast one.

use super::{example_settings, refused};
use compare::fast::Fast;
use compare::generate::Lists;
use compare::interface::{
    AdvanceInput, Answer, DecodeInput, Decoder, GraphBytes, Lent, LentLengths, Record, Settings,
    Verdict, f32_bytes, i32_bytes, number_bytes, numbers,
};
use compare::paper::{Handed, Level, Refusal, State, advance, begin};

/// What the bytes of lent lists are before a call.
pub const BYTE: u8 = b'#';

pub fn open(iterations: usize, unsatisfied: usize) -> Result<Record, Refusal> {
    Ok(Record { verdict: None, iterations, unsatisfied })
}

pub fn stopped(iterations: usize, unsatisfied: usize) -> Result<Record, Refusal> {
    Ok(Record { verdict: Some(Verdict::Stopped), iterations, unsatisfied })
}

pub fn codeword(iterations: usize) -> Result<Record, Refusal> {
    Ok(Record { verdict: Some(Verdict::Codeword), iterations, unsatisfied: 0 })
}

/// A run with its lists, each some bytes longer than it must be.
#[derive(Clone)]
pub struct Run {
    pub lists: Lists,
    pub settings: Settings,
    pub degrees: Vec<u8>,
    pub levels: Vec<u8>,
    pub variable_messages: Vec<u8>,
    pub check_messages: Vec<u8>,
    pub sums: Vec<u8>,
    pub bits: Vec<u8>,
}

/// What a call is to leave, and the answer and place that it is to give.
type Expected = (Answer<Record>, usize);

fn expected(answer: Result<Record, Refusal>) -> Expected {
    match answer {
        Ok(record) => (Answer::Accepted(record), 0),
        Err(refusal) => (Answer::Refused(refusal.number), refusal.place),
    }
}

fn put(list: &mut [u8], bytes: &[u8]) {
    list[..bytes.len()].copy_from_slice(bytes);
}

fn bytes(levels: &[Level]) -> Vec<u8> {
    levels.iter().map(|level| level.byte()).collect()
}

impl Run {
    pub fn new(lists: Lists, settings: Settings) -> Run {
        let (n, entries) = (lists.n, lists.columns.len());
        let lent = |needed: usize| vec![BYTE; needed + 3];
        Run {
            lists,
            settings,
            degrees: lent(4 * n),
            levels: lent(n),
            variable_messages: lent(entries),
            check_messages: lent(entries),
            sums: lent(4 * n),
            bits: lent(n),
        }
    }

    /// The same in lists that it shares nothing with.
    fn lent(&mut self) -> Lent<'_> {
        Lent {
            levels: &mut self.levels,
            variable_messages: &mut self.variable_messages,
            check_messages: &mut self.check_messages,
            sums: &mut self.sums,
            bits: &mut self.bits,
        }
    }

    fn lists_and_degrees(&self) -> [&Vec<u8>; 6] {
        let Run { degrees, levels, variable_messages, check_messages, sums, bits, .. } = self;
        [degrees, levels, variable_messages, check_messages, sums, bits]
    }

    /// The paper's lists in place of what was there.
    fn left(&self, degrees: &[u32], state: Option<&State>) -> Run {
        let mut left = self.clone();
        put(&mut left.degrees, &number_bytes(degrees));
        if let Some(state) = state {
            put(&mut left.levels, &bytes(&state.levels));
            put(&mut left.variable_messages, &bytes(&state.variable_messages));
            put(&mut left.check_messages, &bytes(&state.check_messages));
            put(&mut left.sums, &i32_bytes(&state.sums));
            put(&mut left.bits, &state.bits);
        }
        left
    }

    pub fn begin(&mut self, values: &[f32]) -> Result<Record, Refusal> {
        let lengths: LentLengths = self.lent().lengths();
        let mut degrees = numbers(&self.degrees);
        let begun = begin(&self.lists.graph(), values, &self.settings, &mut degrees, &lengths);
        let left = self.left(&degrees, begun.as_ref().ok().map(|(_, state)| state));
        let answer = begun.map(|(record, _)| record);

        let (starts, columns) =
            (number_bytes(&self.lists.starts), number_bytes(&self.lists.columns));
        let graph = GraphBytes { n: self.lists.n, starts: &starts, columns: &columns };
        let values = f32_bytes(values);
        let input = DecodeInput { graph, values: &values, settings: self.settings };
        let mut list = self.degrees.clone();
        let fast = Fast.begin(&input, &mut list, &mut self.lent());
        let number = answer.err().map_or(0, |refusal| refusal.number);
        let place = Fast.begin_place(&graph, &values, number, &mut self.degrees);
        self.is_left_as(&left, list, (fast, place), answer);
        answer
    }

    pub fn advance(&mut self, record: u64, count: u32) -> Result<Record, Refusal> {
        let handed = Handed {
            record,
            settings: &self.settings,
            count,
            levels: &self.levels,
            variable_messages: &self.variable_messages,
            check_messages: &self.check_messages,
            sums: self.sums.len(),
            bits: self.bits.len(),
        };
        let mut degrees = numbers(&self.degrees);
        let advanced = advance(&self.lists.graph(), &handed, &mut degrees);
        let state = advanced.as_ref().ok().and_then(|(_, state)| state.as_ref());
        let left = self.left(&degrees, state);
        let answer = advanced.map(|(record, _)| record);

        let (starts, columns) =
            (number_bytes(&self.lists.starts), number_bytes(&self.lists.columns));
        let graph = GraphBytes { n: self.lists.n, starts: &starts, columns: &columns };
        let input = AdvanceInput { record, graph, settings: self.settings, count };
        let mut list = self.degrees.clone();
        let fast = Fast.advance(&input, &mut list, &mut self.lent());
        let place = Fast.advance_place(&graph, &mut self.degrees);
        self.is_left_as(&left, list, (fast, place), answer);
        answer
    }

    /// Both calls leave the same degrees, and the first one leaves every byte as the paper does.
    fn is_left_as(
        &self,
        left: &Run,
        degrees: Vec<u8>,
        said: Expected,
        answer: Result<Record, Refusal>,
    ) {
        assert_eq!(said, expected(answer));
        assert_eq!(degrees, self.degrees);
        assert_eq!(self.lists_and_degrees(), left.lists_and_degrees());
    }

    /// By what the run answered last.
    pub fn go_on(&mut self, from: Result<Record, Refusal>, count: u32) -> Result<Record, Refusal> {
        self.advance(from.unwrap().number(), count)
    }

    /// Refused with 21, and as it was but for the degrees.
    pub fn is_not_open(&self, record: u64, count: u32) {
        let mut run = self.clone();
        assert_eq!(run.advance(record, count), refused(21, 0), "{record:#x} {count}");
        assert_eq!(run.lists_and_degrees()[1..], self.lists_and_degrees()[1..]);
    }

    pub fn sums(&self) -> Vec<i32> {
        numbers(&self.sums).into_iter().map(|sum| sum as i32).take(self.lists.n).collect()
    }

    pub fn bits(&self) -> &[u8] {
        &self.bits[..self.lists.n]
    }

    /// Levels, variable messages and check messages.
    pub fn messages(&self) -> [Vec<Level>; 3] {
        let (n, entries) = (self.lists.n, self.lists.columns.len());
        let levels = |list: &[u8]| list.iter().map(|&byte| Level::of_byte(byte)).collect();
        [
            levels(&self.levels[..n]),
            levels(&self.variable_messages[..entries]),
            levels(&self.check_messages[..entries]),
        ]
    }
}

pub fn example_lists() -> Lists {
    Lists::from_rows(3, &[vec![0, 1], vec![1, 2]])
}

pub fn example_run(settings: Settings) -> Run {
    Run::new(example_lists(), settings)
}

/// The example's graph and settings under a limit of 6, with a state that no run made, in lists whose
/// bytes past what is needed are beyond every precision.
pub fn handed_in(levels: [Level; 3], sent: [Level; 4], heard: [Level; 4]) -> Run {
    let bytes = |levels: &[Level]| -> Vec<u8> {
        let past = [255, 127, 64];
        levels.iter().map(|level| level.byte()).chain(past).collect()
    };
    let mut run = example_run(Settings { limit: 6, ..example_settings() });
    run.levels = bytes(&levels);
    run.variable_messages = bytes(&sent);
    run.check_messages = bytes(&heard);
    run
}
