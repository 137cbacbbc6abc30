//! Cases and series in words.

use super::series::{Failure, Series};
use crate::generate::cases::{Case, DecodeCase, ReadCase, WriteBlocksCase};
use crate::generate::encoding::EncodeCase;
use crate::generate::pair::PairCase;
use crate::generate::pause::AdvanceCase;
use crate::interface::{Settings, f32_list, numbers, positions};
use std::fmt::{self, Display, Formatter};

/// A list of at most this many elements is printed whole.
const SHOWN: usize = 300;

fn listed<T: Display>(list: &[T]) -> String {
    let shown: Vec<String> = list.iter().take(SHOWN).map(T::to_string).collect();
    let more = match list.len() > SHOWN {
        true => format!(" .. ({} in all)", list.len()),
        false => String::new(),
    };
    shown.join(" ") + &more
}

fn graph(n: usize, starts: &[u8], columns: &[u8]) -> String {
    format!(
        "  n {n}\n  starts ({} bytes) {}\n  columns ({} bytes) {}\n",
        starts.len(),
        listed(&numbers(starts)),
        columns.len(),
        listed(&numbers(columns)),
    )
}

fn digits(value: &f32) -> String {
    format!("{:08x}", value.to_bits())
}

fn decode(case: &DecodeCase) -> String {
    let mut text = graph(case.n, &case.starts, &case.columns);
    text += &frame(case);
    text += &format!("  lent bytes {}, then {}\n", case.degrees, listed(&case.lent.as_array()));
    text
}

/// Values and settings.
fn frame(case: &DecodeCase) -> String {
    let values: Vec<String> = f32_list(&case.values).iter().map(digits).collect();
    let s = &case.settings;
    let mut text = format!("  values ({} bytes) {}\n", case.values.len(), listed(&values));
    text += &format!("  kind {} gain {} variance {}", s.kind, digits(&s.gain), digits(&s.variance));
    text + &unscaled(s)
}

/// The settings but for the scaling.
fn unscaled(s: &Settings) -> String {
    let mut text = format!(" channel {} message {}", s.channel, s.message);
    text += &format!(" offsets {} {} {} limit {}", s.phi_s, s.phi_a, s.phi_0, s.limit);
    text + &format!(" lifted from {} to {}\n", s.lift_from, s.lift_to)
}

fn advance(case: &AdvanceCase) -> String {
    let mut text = graph(case.n, &case.starts, &case.columns);
    text += &format!("  record {:#018x} count {}", case.record, case.count);
    text += &unscaled(&case.settings);
    for (name, list) in [
        ("levels", &case.levels),
        ("variable messages", &case.variable_messages),
        ("check messages", &case.check_messages),
    ] {
        text += &format!("  {name} ({} bytes) {}\n", list.len(), listed(list));
    }
    text + &format!("  lent bytes {}, then {} {}\n", case.degrees, case.sums, case.bits)
}

/// The graph stands with the first head.
fn pair(case: &PairCase) -> String {
    let [first, second] = case.heads();
    let mut text = decode(&first);
    text += &frame(&second);
    text += &format!("  lent bytes {}\n", listed(&second.lent.as_array()));
    text += &format!("  allowance {} reports {}\n", case.allowance, case.reports);
    let other: Vec<String> = f32_list(&case.other).iter().map(digits).collect();
    text + &format!("  word {}\n  other values {}\n", listed(&case.word), listed(&other))
}

fn read(case: &ReadCase) -> String {
    format!(
        "  text ({} bytes) \"{}\"\n  lent bytes {}, then {} {}\n",
        case.text.len(),
        case.text[..case.text.len().min(10 * SHOWN)].escape_ascii(),
        case.degrees,
        case.starts,
        case.columns,
    )
}

fn write_blocks(case: &WriteBlocksCase) -> String {
    format!(
        "  size {} rows {} columns {}\n  entries ({} bytes) {}\n  lent bytes {}, then {}\n",
        case.size,
        case.rows,
        case.columns,
        case.entries.len(),
        listed(&numbers(&case.entries)),
        case.degrees,
        case.text,
    )
}

fn encode(case: &EncodeCase) -> String {
    let mut text = graph(case.n, &case.starts, &case.columns);
    let positions = (case.positions.len(), listed(&positions(&case.positions)));
    text += &format!("  positions ({} bytes) {}\n", positions.0, positions.1);
    text += &format!("  given ({} bytes) {}\n", case.given.len(), listed(&case.given));
    text += &format!("  lent bytes {}, then {} {}\n", case.degrees, case.codeword, case.work);
    text
}

/// The whole input, a line for each list.
pub fn described(case: &Case) -> String {
    match case {
        Case::Decode(case) => format!("decode\n{}", decode(case)),
        Case::Twin(case) => format!(
            "twin decodes\n{}  word {}\n  counts {}\n",
            decode(&case.decode),
            listed(&case.word),
            listed(&case.counts),
        ),
        Case::Read(case) => format!("read a sheet\n{}", read(case)),
        Case::ReadBlocks(case) => format!("read a block sheet\n{}", read(case)),
        Case::WriteBlocks(case) => format!("write a block sheet\n{}", write_blocks(case)),
        Case::Encode(case) => format!("encode\n{}", encode(case)),
        Case::Run(case) => {
            format!(
                "begin and advance\n{}  counts {}\n",
                decode(&case.decode),
                listed(&case.counts)
            )
        }
        Case::Advance(case) => format!("advance\n{}", advance(case)),
        Case::Pair(case) => format!("a pair of heads\n{}", pair(case)),
        Case::Write(case) => format!(
            "write a sheet\n{}  lent bytes {}, then {}\n",
            graph(case.n, &case.starts, &case.columns),
            case.degrees,
            case.text,
        ),
    }
}

impl Display for Failure {
    fn fmt(&self, out: &mut Formatter) -> fmt::Result {
        writeln!(out, "input {} fails; shrunk: {}", self.input, described(&self.case).trim_end())?;
        write!(out, "  {}", self.message)
    }
}

/// The tally by call, then the accepted decodes by iteration count.
impl Display for Series {
    fn fmt(&self, out: &mut Formatter) -> fmt::Result {
        let mut last = "";
        for (&(call, refusal), count) in &self.tally {
            match (last == call, last.is_empty()) {
                (true, _) => write!(out, ", ")?,
                (false, true) => write!(out, "{call}: ")?,
                (false, false) => write!(out, "\n{call}: ")?,
            }
            match refusal {
                0 => write!(out, "accepted {count}")?,
                _ => write!(out, "refused {refusal}: {count}")?,
            }
            last = call;
        }
        if self.iterations.is_empty() {
            return Ok(());
        }
        write!(out, "\niterations:")?;
        for (low, high) in [(0, 0), (1, 1), (2, 5), (6, 20), (21, 254), (255, 255)] {
            let count: u64 = self.iterations.range(low..=high).map(|(_, count)| count).sum();
            write!(out, " {low}-{high}: {count}")?;
        }
        Ok(())
    }
}
