//! The program `frame` as a function of the sheet and the run text.

use super::limits::Limits;
use super::run::{Outcome, decode};
use super::sheet::{Sheet, read_sheet};
use super::text::{Text, decimal, f32_of_digits, words};
use super::{Refusal, refuse};
use crate::interface::{LARGEST_LIFT, LentLengths, NEVER, Settings, Verdict};

const MOST_BYTES: usize = 65_536;
const MOST_DIGITS: usize = 5;
const PLAIN_HEADER: &[u8] = b"gain channel message phi_s phi_a phi_0 limit";
const NOISE_HEADER: &[u8] = b"gain variance channel message phi_s phi_a phi_0 limit";
const VALUES_HEADER: &[u8] = b"value";
const LINES_BEFORE_VALUES: usize = 3;

/// What the program prints for the file `code.txt`, if it can be opened, and standard
/// input.
pub fn frame(code: Option<&[u8]>, run_text: &[u8]) -> Vec<u8> {
    // "A file that can't be opened counts as empty."
    match decoded(code.unwrap_or(b""), run_text) {
        Ok(outcome) => printed_outcome(&outcome),
        Err(refusal) => format!("refusal place\n{} {}\n", refusal.number, refusal.place),
    }
    .into_bytes()
}

fn decoded(code: &[u8], run_text: &[u8]) -> Result<Outcome, Refusal> {
    if code.len() > MOST_BYTES {
        return refuse(2, 0);
    }
    let degrees = &mut vec![0; Limits::PROGRAM.variables];
    let sheet = read_sheet(Limits::PROGRAM, code, degrees, usize::MAX, usize::MAX)?;
    if run_text.len() > MOST_BYTES {
        return refuse(14, 0);
    }
    let (settings, values) = read_run_text(run_text, &sheet)?;
    let lent = LentLengths::needed(sheet.n, sheet.columns.len());
    decode(Limits::PROGRAM, &sheet.graph(), &values, &settings, degrees, &lent)
}

/// 14, "the first line that is of other form, missing, extra or without LF (its line)".
fn read_run_text(bytes: &[u8], sheet: &Sheet) -> Result<(Settings, Vec<f32>), Refusal> {
    let text = Text::new(bytes);
    let kind = match text.line(1) {
        Some(PLAIN_HEADER) => 0,
        Some(NOISE_HEADER) => 1,
        _ => return refuse(14, 1),
    };
    let Some(settings) = text.line(2).and_then(|line| settings_of_line(kind, line)) else {
        return refuse(14, 2);
    };
    if text.line(3) != Some(VALUES_HEADER) {
        return refuse(14, 3);
    }
    let mut values = Vec::new();
    let last = LINES_BEFORE_VALUES + sheet.n;
    for line in LINES_BEFORE_VALUES + 1..=last {
        match text.line(line).and_then(f32_of_digits) {
            Some(value) => values.push(value),
            None => return refuse(14, line),
        }
    }
    if text.begun() > last {
        return refuse(14, last + 1);
    }
    Ok((settings, values))
}

/// "Run text means L 256"; W then never shows.
fn settings_of_line(kind: u32, line: &[u8]) -> Option<Settings> {
    let words = words(line);
    let floats = 1 + kind as usize;
    if words.len() != floats + 6 {
        return None;
    }
    let setting = |index: usize| setting_of_word(words[floats + index]);
    Some(Settings {
        kind,
        gain: f32_of_digits(words[0])?,
        variance: match kind {
            0 => 0.0,
            _ => f32_of_digits(words[1])?,
        },
        channel: setting(0)?,
        message: setting(1)?,
        phi_s: setting(2)?,
        phi_a: setting(3)?,
        phi_0: setting(4)?,
        limit: setting(5)?,
        lift_from: NEVER,
        lift_to: LARGEST_LIFT,
    })
}

/// "The others are decimal, at most five digits."
fn setting_of_word(word: &[u8]) -> Option<u32> {
    let number = decimal(word)?;
    (word.len() <= MOST_DIGITS).then_some(number as u32)
}

fn printed_outcome(outcome: &Outcome) -> String {
    let verdict = match outcome.verdict {
        Verdict::Codeword => "codeword",
        Verdict::Stopped => "stopped",
    };
    let bits: String = outcome.bits.iter().map(u8::to_string).collect();
    format!(
        "verdict iterations unsatisfied\n{verdict} {} {}\nbits\n{bits}\n",
        outcome.iterations, outcome.unsatisfied
    )
}
