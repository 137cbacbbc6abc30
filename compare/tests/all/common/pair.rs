//! Pairs of heads, each by the paper's reading and by the fast one.

use super::example_settings;
use super::pause::example_lists;
use compare::fast::Fast;
use compare::generate::Lists;
use compare::interface::{
    Decoder, GraphBytes, HeadInput, Lent, LentLengths, PairInput, PairRefusal, Record, Refusal,
    Settings, Verdict, f32_bytes, f32_list, i32_bytes, number_bytes, numbers, report_bytes,
    reports_in,
};
use compare::paper::{Head, Level, Outcome, decode_pair};

/// What the bytes of lent lists are before a call.
pub const BYTE: u8 = b'#';

/// The reports of both heads.
pub type Reports = Result<[Record; 2], PairRefusal>;

pub fn stopped(iterations: usize, unsatisfied: usize) -> Record {
    Record { verdict: Some(Verdict::Stopped), iterations, unsatisfied }
}

pub fn codeword(iterations: usize) -> Record {
    Record { verdict: Some(Verdict::Codeword), iterations, unsatisfied: 0 }
}

/// A refusal that belongs to a head, or to none.
pub fn refused_of(head: u8, number: u8, place: usize) -> Reports {
    Err(PairRefusal { head, refusal: Refusal { number, place } })
}

/// A head's values and settings, and the lists lent for it.
#[derive(Clone)]
pub struct HeadRun {
    pub values: Vec<u8>,
    pub settings: Settings,
    pub levels: Vec<u8>,
    pub variable_messages: Vec<u8>,
    pub check_messages: Vec<u8>,
    pub sums: Vec<u8>,
    pub bits: Vec<u8>,
}

/// Two heads on a graph, in lists that are some bytes longer than they must be.
#[derive(Clone)]
pub struct Pair {
    pub lists: Lists,
    pub allowance: u32,
    pub heads: [HeadRun; 2],
    pub degrees: Vec<u8>,
    pub reports: Vec<u8>,
}

fn put(list: &mut [u8], bytes: &[u8]) {
    list[..bytes.len()].copy_from_slice(bytes);
}

fn bytes(levels: &[Level]) -> Vec<u8> {
    levels.iter().map(|level| level.byte()).collect()
}

impl HeadRun {
    fn new(lists: &Lists, (values, settings): (Vec<f32>, Settings)) -> HeadRun {
        let (n, entries) = (lists.n, lists.columns.len());
        let lent = |needed: usize| vec![BYTE; needed + 3];
        HeadRun {
            values: f32_bytes(&values),
            settings,
            levels: lent(n),
            variable_messages: lent(entries),
            check_messages: lent(entries),
            sums: lent(4 * n),
            bits: lent(n),
        }
    }

    pub fn lists(&mut self) -> [&mut Vec<u8>; 5] {
        let HeadRun { levels, variable_messages, check_messages, sums, bits, .. } = self;
        [levels, variable_messages, check_messages, sums, bits]
    }

    fn lent(&mut self) -> Lent<'_> {
        let [levels, variable_messages, check_messages, sums, bits] = self.lists();
        Lent { levels, variable_messages, check_messages, sums, bits }
    }

    fn lengths(&self) -> LentLengths {
        LentLengths::from_array(self.clone().lists().map(|list| list.len()))
    }

    fn input(&self) -> HeadInput<'_> {
        HeadInput { values: &self.values, settings: self.settings }
    }

    fn leave(&mut self, outcome: &Outcome) {
        put(&mut self.levels, &bytes(&outcome.levels));
        put(&mut self.variable_messages, &bytes(&outcome.variable_messages));
        put(&mut self.check_messages, &bytes(&outcome.check_messages));
        put(&mut self.sums, &i32_bytes(&outcome.sums));
        put(&mut self.bits, &outcome.bits);
    }

    /// The sums and the bits, without the bytes past them.
    pub fn left(&self) -> (Vec<i32>, &[u8]) {
        let n = self.bits.len() - 3;
        let sums = numbers(&self.sums).into_iter().map(|sum| sum as i32).take(n).collect();
        (sums, &self.bits[..n])
    }
}

impl Pair {
    pub fn new(lists: Lists, heads: [(Vec<f32>, Settings); 2], allowance: u32) -> Pair {
        let heads = heads.map(|head| HeadRun::new(&lists, head));
        let (degrees, reports) = (vec![BYTE; 4 * lists.n + 3], vec![BYTE; 19]);
        Pair { lists, allowance, heads, degrees, reports }
    }

    /// On document 01's graph, with its settings but for the limits.
    pub fn on_example(heads: [(Vec<f32>, u32); 2], allowance: u32) -> Pair {
        let heads = heads.map(|(values, limit)| (values, Settings { limit, ..example_settings() }));
        Pair::new(example_lists(), heads, allowance)
    }

    /// Every list that was lent.
    pub fn lent(&mut self) -> Vec<Vec<u8>> {
        let Pair { heads: [first, second], degrees, reports, .. } = self;
        let lists = first.lists().into_iter().chain(second.lists()).chain([degrees, reports]);
        lists.map(|list| list.clone()).collect()
    }

    /// What the paper answers, and all that it leaves.
    fn by_paper(&self) -> (Reports, Pair) {
        let mut left = self.clone();
        let mut degrees = numbers(&self.degrees);
        let values = [0, 1].map(|head: usize| f32_list(&self.heads[head].values));
        let lengths = [self.heads[0].lengths(), self.heads[1].lengths()];
        let heads = [0, 1].map(|head: usize| Head {
            values: &values[head],
            settings: &self.heads[head].settings,
            lent: &lengths[head],
        });
        let graph = self.lists.graph();
        let answer = decode_pair(&graph, heads, self.allowance, &mut degrees, self.reports.len());
        put(&mut left.degrees, &number_bytes(&degrees));
        let answer = answer.map(|outcomes| {
            let reports = [0, 1].map(|head: usize| {
                let outcome = &outcomes[head];
                left.heads[head].leave(outcome);
                let Outcome { verdict, iterations, unsatisfied, .. } = *outcome;
                Record { verdict: Some(verdict), iterations, unsatisfied }
            });
            put(&mut left.reports, &report_bytes(reports.map(|report| report.number())));
            reports
        });
        (answer, left)
    }

    /// Both readings come to the same answer, place and bytes, and the companion to the same list
    /// of degrees.
    pub fn decode(&mut self) -> Reports {
        let (answer, mut left) = self.by_paper();
        let (starts, columns) =
            (number_bytes(&self.lists.starts), number_bytes(&self.lists.columns));
        let graph = GraphBytes { n: self.lists.n, starts: &starts, columns: &columns };
        let before = self.clone();
        let heads = [before.heads[0].input(), before.heads[1].input()];
        let input = PairInput { graph, allowance: self.allowance, heads };
        let [first, second] = &mut self.heads;
        let mut lent = [first.lent(), second.lent()];
        let fast = Fast.decode_pair(&input, &mut self.degrees, &mut lent, &mut self.reports);
        let (number, place) = match answer {
            Ok(_) => (0, 0),
            Err(refusal) => (refusal.answer(), refusal.refusal.place),
        };
        assert_eq!(fast, number);
        let mut degrees = before.degrees.clone();
        let values = heads.map(|head| head.values);
        assert_eq!(Fast.decode_pair_place(&graph, values, fast, &mut degrees), place);
        assert_eq!(degrees, self.degrees);
        assert_eq!(self.lent(), left.lent());
        if let Ok(reports) = answer {
            assert_eq!(reports_in(&self.reports), reports.map(|report| report.number()));
        }
        answer
    }
}
