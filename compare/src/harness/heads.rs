//! What is promised of two heads, by the decoder alone: a pair is two decodes with the grants as
//! limits, and with the largest allowance just two decodes; and neither head's run depends on more
//! of the other than on the count that it takes alone.

use super::pair::told;
use super::twins::{Call, Run, lent_bytes, mirrors, run};
use crate::generate::cases::DecodeCase;
use crate::generate::pair::{ALLOWANCES, PairCase};
use crate::interface::{
    Decoder, GraphBytes, HeadInput, Lent, PairInput, REPORTS_BYTES, Record, Settings, number_bytes,
    numbers, reports_in,
};
use crate::paper::pair::grants;
use crate::paper::{Graph, Limits, count_odd_checks};

/// What is said of a decode that finds a blank.
const BLANK: &str = "decode finds a blank where a pair finds none";

/// What is promised.
#[derive(Clone, Copy, Debug, PartialEq, Eq)]
pub enum Promise {
    /// Together the heads take the smaller of the allowance and of what they take alone, and each
    /// has the report and the lists of a decode with its grant as the limit.
    Grants,
    /// With the largest allowance each has those of its decode.
    LargestAllowance,
    /// A head that is reversed by a codeword mirrors its run, and the other stays as it is.
    Reversed,
    /// The other stays as it is where a head is exchanged for one that takes as many iterations.
    Exchanged,
}

const PROMISES: [Promise; 4] =
    [Promise::Grants, Promise::LargestAllowance, Promise::Reversed, Promise::Exchanged];

/// Of a pair that the paper accepts.
pub fn check(case: &PairCase, decoder: &dyn Decoder) -> Result<(), String> {
    let heads = Heads::new(case, decoder);
    let (pair, alone) = heads.as_they_are()?;
    PROMISES.iter().try_for_each(|&promise| heads.holds(promise, &pair, &alone))
}

/// Whether a decoder breaks a promise on an accepted pair, whatever else it does.
#[cfg(test)]
pub fn is_broken(promise: Promise, case: &PairCase, decoder: &dyn Decoder) -> bool {
    let heads = Heads::new(case, decoder);
    let runs = heads.as_they_are();
    runs.is_ok_and(|(pair, alone)| heads.holds(promise, &pair, &alone).is_err())
}

/// The frames of an accepted pair on its graph.
struct Heads<'a> {
    case: &'a PairCase,
    frames: [DecodeCase; 2],
    columns: Vec<u32>,
    degrees: Vec<u8>,
    decoder: &'a dyn Decoder,
}

/// Values and settings.
type Frame<'a> = (&'a [u8], Settings);

impl<'a> Heads<'a> {
    fn new(case: &'a PairCase, decoder: &'a dyn Decoder) -> Heads<'a> {
        let columns = numbers(&case.first.columns);
        let mut degrees = vec![0_u32; case.first.n];
        columns.iter().for_each(|&variable| degrees[variable as usize] += 1);
        let degrees = number_bytes(&degrees);
        Heads { case, frames: case.heads(), columns, degrees, decoder }
    }

    /// The pair, and each head alone.
    fn as_they_are(&self) -> Result<([Run; 2], [Run; 2]), String> {
        let pair = self.together(self.case.allowance as usize, [self.frame(0), self.frame(1)])?;
        Ok((pair, [self.decoded_alone(0)?, self.decoded_alone(1)?]))
    }

    fn holds(&self, promise: Promise, pair: &[Run; 2], alone: &[Run; 2]) -> Result<(), String> {
        let counts = [alone[0].record.iterations, alone[1].record.iterations];
        match promise {
            Promise::Grants => self.has_grants(pair, counts),
            Promise::LargestAllowance => {
                let own = [self.frame(0), self.frame(1)];
                let [first, second] = self.together(ALLOWANCES[1], own)?;
                let named = "of a decode, with the largest allowance,";
                same(0, &first, &alone[0], named)?;
                same(1, &second, &alone[1], named)
            }
            Promise::Reversed if self.word_is_codeword() => {
                (0..2).try_for_each(|head| self.is_mirrored(head, pair))
            }
            Promise::Reversed => Ok(()),
            Promise::Exchanged => {
                (0..2).try_for_each(|head| self.may_be_exchanged(head, counts[head], pair))
            }
        }
    }

    fn has_grants(&self, pair: &[Run; 2], counts: [usize; 2]) -> Result<(), String> {
        let allowance = self.case.allowance as usize;
        let taken: usize = pair.iter().map(|run| run.record.iterations).sum();
        if taken != allowance.min(counts[0] + counts[1]) {
            return Err(format!("the heads take {taken} of {allowance}, alone {counts:?}"));
        }
        let grants = grants(allowance, counts[0], counts[1]);
        for (head, run) in pair.iter().enumerate() {
            let (values, settings) = self.frame(head);
            let granted = Settings { limit: grants[head] as u32, ..settings };
            let decoded = self.decoded(head, (values, granted))?.ok_or(BLANK)?;
            same(head, run, &decoded, "of a decode with its grant")?;
        }
        Ok(())
    }

    fn is_mirrored(&self, head: usize, pair: &[Run; 2]) -> Result<(), String> {
        let values = self.reversed(head);
        let reversed = self.with(head, (&values, self.frame(head).1))?;
        let other = 1 - head;
        same(other, &reversed[other], &pair[other], "beside a head that was not reversed")?;
        mirrors(&pair[head], &reversed[head], &self.case.word, &self.columns)
    }

    fn may_be_exchanged(&self, head: usize, count: usize, pair: &[Run; 2]) -> Result<(), String> {
        let other = 1 - head;
        for frame in self.with_the_same_count(head, count)? {
            let exchanged = self.with(head, frame)?;
            same(other, &exchanged[other], &pair[other], "beside a head that takes as many")?;
        }
        Ok(())
    }

    fn frame(&self, head: usize) -> Frame<'_> {
        let DecodeCase { values, settings, .. } = &self.frames[head];
        (values, *settings)
    }

    /// A frame decoded in a head's lists, or nothing where it is blank.
    fn decoded(&self, head: usize, (values, settings): Frame) -> Result<Option<Run>, String> {
        let case = &self.frames[head];
        run(Call::Decode, case, values, settings, &self.degrees, self.decoder)
    }

    fn decoded_alone(&self, head: usize) -> Result<Run, String> {
        Ok(self.decoded(head, self.frame(head))?.ok_or(BLANK)?)
    }

    /// Two frames as a pair in the heads' lists.
    fn together(&self, allowance: usize, frames: [Frame; 2]) -> Result<[Run; 2], String> {
        let first = &self.case.first;
        let graph = GraphBytes { n: first.n, starts: &first.starts, columns: &first.columns };
        let heads = frames.map(|(values, settings)| HeadInput { values, settings });
        let [mut first, mut second] =
            [0, 1].map(|head| self.frames[head].lent.as_array().map(lent_bytes));
        let mut degrees = lent_bytes(self.case.first.degrees);
        let mut reports = lent_bytes(REPORTS_BYTES);
        let answer = self.decoder.decode_pair(
            &PairInput { graph, allowance: allowance as u32, heads },
            &mut degrees,
            &mut [lent(&mut first), lent(&mut second)],
            &mut reports,
        );
        if answer != 0 {
            return Err(format!("a pair that is to be accepted is {}", told(answer)));
        }
        if !degrees.starts_with(&self.degrees) {
            return Err("a pair leaves other degrees".to_string());
        }
        let [first_report, second_report] = reports_in(&reports);
        Ok([of_lists(first_report, first)?, of_lists(second_report, second)?])
    }

    /// With one head's frame exchanged.
    fn with(&self, head: usize, frame: Frame) -> Result<[Run; 2], String> {
        let mut frames = [self.frame(0), self.frame(1)];
        frames[head] = frame;
        self.together(self.case.allowance as usize, frames)
    }

    /// Values negated where the word is 1.
    fn reversed(&self, head: usize) -> Vec<u8> {
        let mut values = self.frames[head].values.clone();
        for (value, bit) in values.chunks_exact_mut(4).zip(&self.case.word) {
            value[3] ^= bit << 7;
        }
        values
    }

    fn word_is_codeword(&self) -> bool {
        let starts = numbers(&self.case.first.starts);
        let graph = Graph { n: self.case.first.n, starts: &starts, columns: &self.columns };
        let degrees = &mut vec![0; graph.n];
        count_odd_checks(Limits::LENT, &graph, &self.case.word, degrees) == Ok(0)
    }

    /// Another frame for a head that takes just as many iterations alone, if one of a few does
    /// under that limit.
    fn with_the_same_count(&self, head: usize, count: usize) -> Result<Vec<Frame<'_>>, String> {
        let other = &self.case.other[..];
        let (values, settings) = self.frame(1 - head);
        let candidates = [(values, settings), (other, settings), (other, self.frame(head).1)];
        let mut found = Vec::new();
        for (values, settings) in candidates {
            let frame = (values, Settings { limit: count as u32, ..settings });
            if values.len() / 4 != self.case.first.n {
                continue;
            }
            let run = self.decoded(head, frame)?;
            if run.is_some_and(|run| run.record.iterations == count) {
                found.push(frame);
            }
        }
        Ok(found)
    }
}

fn lent(lists: &mut [Vec<u8>; 5]) -> Lent<'_> {
    let [levels, variable_messages, check_messages, sums, bits] = lists;
    Lent { levels, variable_messages, check_messages, sums, bits }
}

fn of_lists(report: u64, lists: [Vec<u8>; 5]) -> Result<Run, String> {
    let record = Record::of_number(report).filter(|record| record.verdict.is_some());
    let Some(record) = record else {
        return Err(format!("{report:#018x} is no report"));
    };
    let [levels, variable_messages, check_messages, sums, bits] = lists;
    Ok(Run { record, levels, variable_messages, check_messages, sums, bits })
}

/// Whether a head has the same report and lists in two runs, of which the second is named.
fn same(head: usize, found: &Run, expected: &Run, named: &str) -> Result<(), String> {
    let head = ["first", "second"][head];
    if found.record != expected.record {
        let (found, expected) = (found.record, expected.record);
        return Err(format!("the {head} head reports {found:?}, {named} {expected:?}"));
    }
    match found == expected {
        true => Ok(()),
        false => Err(format!("the lists of the {head} head are not those {named}")),
    }
}
