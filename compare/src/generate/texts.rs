//! Sheets and run texts, good and damaged.

use super::{Lists, settings};
use crate::interface::Settings;
use crate::paper::Limits;
use crate::random::Random;
use std::fmt::Write;

/// The sheet of any lists whose starts are in order, admitted or not.
pub fn sheet(lists: &Lists) -> Vec<u8> {
    let graph = lists.graph();
    let mut text = format!("variables checks\n{} {}\ncheck variable\n", graph.n, graph.m());
    for (check, row) in graph.rows().enumerate() {
        for variable in &graph.columns[row] {
            writeln!(text, "{check} {variable}").expect("a string takes every line");
        }
    }
    text.into_bytes()
}

pub fn run_text(settings: &Settings, values: &[f32]) -> Vec<u8> {
    let (header, variance) = match settings.kind {
        0 => ("gain", String::new()),
        _ => ("gain variance", format!(" {:08x}", settings.variance.to_bits())),
    };
    let mut text = format!("{header} channel message phi_s phi_a phi_0 limit\n");
    text += &format!("{:08x}{variance}", settings.gain.to_bits());
    let numbers = [settings.channel, settings.message, settings.phi_s, settings.phi_a];
    for number in numbers.into_iter().chain([settings.phi_0, settings.limit]) {
        text += &format!(" {number}");
    }
    text += "\nvalue\n";
    for value in values {
        text += &format!("{:08x}\n", value.to_bits());
    }
    text.into_bytes()
}

/// Settings as a run text may hold them: sometimes turned down, rarely with a number of
/// more than five digits.
pub fn run_settings(random: &mut Random) -> Settings {
    let mut settings = settings::good(random);
    if random.one_in(4) {
        settings::damage(random, &mut settings);
    }
    settings.kind %= 2;
    settings
}

/// One damage somewhere in a text, by bytes, by words or by lines.
pub fn damage(limits: Limits, random: &mut Random, text: &mut Vec<u8>) {
    match random.below(3) {
        0 => damage_bytes(random, text),
        1 => damage_words(limits, random, text),
        _ => damage_lines(random, text),
    }
}

fn damage_bytes(random: &mut Random, text: &mut Vec<u8>) {
    let at = random.below(text.len() + 1);
    let byte = match random.below(4) {
        0 => random.word() as u8,
        _ => random.pick(b"\r\n\t 0123456789abcdefgA+-./:\0\x80\xff"),
    };
    match random.below(7) {
        0 | 1 => text.insert(at, byte),
        2 | 3 if at < text.len() => text[at] = byte,
        4 if at < text.len() => drop(text.remove(at)),
        5 => text.truncate(at),
        _ => text.push(byte),
    }
}

/// Puts another word in the place of one: numbers near a limit, congruent to a good one,
/// very long, or of another form.
fn damage_words(limits: Limits, random: &mut Random, text: &mut Vec<u8>) {
    let is_end = |byte: u8| byte == b' ' || byte == b'\n';
    let at = match random.below(4) {
        0 => random.below(text.len().min(70) + 1),
        _ => random.below(text.len() + 1),
    };
    let start = text[..at].iter().rposition(|&byte| is_end(byte)).map_or(0, |end| end + 1);
    let length = text[start..].iter().position(|&byte| is_end(byte));
    let end = length.map_or(text.len(), |length| start + length);
    let old = String::from_utf8_lossy(&text[start..end]).into_owned();
    let number: u128 = old.parse().unwrap_or(0);
    let (most, largest) = (limits.variables, usize::from(u16::MAX));
    let word = match random.below(12) {
        0 => format!("0{old}"),
        1 => number.saturating_add(1).to_string(),
        2 => number.saturating_sub(1).to_string(),
        3 => number.saturating_add(1 << random.pick(&[8, 16, 32, 64])).to_string(),
        4 => format!("{old}{}", "0".repeat(random.between(1, 60))),
        5 => random.pick(&[most - 1, most, most + 1, 0, 1, 2, limits.entries, largest]).to_string(),
        6 => random.pick(&["", " ", "00", "+1", "-1", "1.", "1e1", "0x1"]).to_string(),
        7 => old.to_uppercase(),
        8 => random.pick(&["256", "99999", "100000", "3f80000", "3f8000000"]).to_string(),
        9 => random.pick(&["7f800000", "ffc00001", "80000000", "00000001"]).to_string(),
        10 => format!(" {old}"),
        _ => format!("{old} "),
    };
    text.splice(start..end, word.into_bytes());
}

fn damage_lines(random: &mut Random, text: &mut Vec<u8>) {
    let mut lines: Vec<Vec<u8>> =
        text.split_inclusive(|&b| b == b'\n').map(<[u8]>::to_vec).collect();
    if lines.is_empty() {
        return;
    }
    let at = random.below(lines.len());
    let other = random.below(lines.len());
    let next = (at + 1) % lines.len();
    match random.below(9) {
        0 | 1 => drop(lines.remove(at)),
        2 => lines.insert(at, lines[other].clone()),
        3 => lines.swap(at, other),
        4 => lines.swap(at, next),
        5 => lines.insert(at, b"\n".to_vec()),
        6 => lines.iter_mut().for_each(carriage_return),
        7 => carriage_return(&mut lines[at]),
        _ => drop(lines.last_mut().and_then(Vec::pop)),
    }
    *text = lines.concat();
}

fn carriage_return(line: &mut Vec<u8>) {
    if line.last() == Some(&b'\n') {
        line.insert(line.len() - 1, b'\r');
    }
}
