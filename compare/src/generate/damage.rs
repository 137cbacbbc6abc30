//! Graphs damaged in one of the ways that the graph's check looks for.

use super::Lists;
use crate::interface::as_number;
use crate::paper::Limits;
use crate::random::Random;

pub fn damage(limits: Limits, random: &mut Random, lists: &mut Lists) {
    match random.below(6) {
        0 => damage_counts(limits, random, lists),
        1 => damage_starts(random, lists),
        2 => damage_columns(limits, random, lists),
        3 => damage_order(random, lists),
        4 => damage_check_degrees(random, lists),
        _ => damage_variable_degrees(random, lists),
    }
}

fn damage_counts(limits: Limits, random: &mut Random, lists: &mut Lists) {
    let past = limits.variables + 1;
    match random.below(4) {
        0 => lists.n = random.pick(&[0, 1, past, 65_536, 65_538, 1 << 32, 1 << 32 | 4, usize::MAX]),
        1 => lists.starts.truncate(random.below(2)),
        2 => lists.n = lists.n.saturating_sub(1),
        _ => lists.n = lists.n.saturating_add(1),
    }
}

fn damage_starts(random: &mut Random, lists: &mut Lists) {
    if lists.starts.is_empty() {
        return;
    }
    let index = match random.below(3) {
        0 => 0,
        1 => lists.starts.len() - 1,
        _ => random.below(lists.starts.len()),
    };
    let start = &mut lists.starts[index];
    *start = match random.below(5) {
        0 => start.wrapping_add(1),
        1 => start.wrapping_sub(1),
        2 => random.pick(&[0, 1, 65_535, 65_536, 1 << 31, u32::MAX]),
        3 => alike_in_16_bits(random, *start),
        _ => random.word() as u32,
    };
}

/// Another number to all but those who look at 16 bits of it.
fn alike_in_16_bits(random: &mut Random, number: u32) -> u32 {
    number ^ random.pick(&[1 << 16, 1 << 17, 1 << 24, 1 << 31, 0xffff_0000])
}

fn damage_columns(limits: Limits, random: &mut Random, lists: &mut Lists) {
    if lists.columns.is_empty() {
        return;
    }
    for _ in 0..random.between(1, 2) {
        let index = random.below(lists.columns.len());
        let (n, most, largest) = (lists.n, limits.variables, u32::MAX as usize);
        lists.columns[index] = match random.below(3) {
            0 => alike_in_16_bits(random, lists.columns[index]),
            _ => as_number(random.pick(&[n, n.wrapping_add(1), largest, most, 0])),
        };
    }
}

fn damage_order(random: &mut Random, lists: &mut Lists) {
    if lists.columns.len() < 2 {
        return;
    }
    let index = random.between(1, lists.columns.len() - 1);
    if random.one_in(2) {
        lists.columns.swap(index, index - 1);
    } else {
        lists.columns[index] = lists.columns[index - 1];
    }
}

/// Rows joined, emptied, or left with a single entry: the starts move, the columns stay.
fn damage_check_degrees(random: &mut Random, lists: &mut Lists) {
    if lists.starts.len() < 2 {
        return;
    }
    let index = random.between(1, lists.starts.len() - 1);
    match random.below(4) {
        0 => lists.starts.insert(index, lists.starts[index]),
        1 => lists.starts[index] = lists.starts[index - 1],
        2 => lists.starts[index] = as_number((lists.starts[index - 1] as usize).wrapping_add(1)),
        _ => drop(lists.starts.remove(index)),
    }
    if random.one_in(2) {
        lists.columns.truncate(*lists.starts.last().unwrap_or(&0) as usize);
    }
}

/// A variable left out everywhere, or further checks {0, 1} until it has 33.
fn damage_variable_degrees(random: &mut Random, lists: &mut Lists) {
    if random.one_in(2) {
        lists.n = lists.n.saturating_add(random.between(1, 3));
        return;
    }
    let degree = lists.columns.iter().filter(|&&variable| variable == 0).count();
    for _ in degree..33 {
        lists.columns.extend([0, 1]);
        lists.starts.push(as_number(lists.columns.len()));
    }
}

/// A list's bytes: now and then with a few more or less.
pub fn ragged(random: &mut Random, mut bytes: Vec<u8>) -> Vec<u8> {
    match random.below(80) {
        0 => bytes.truncate(bytes.len().saturating_sub(1)),
        1 => bytes.truncate(bytes.len().saturating_sub(random.between(2, 5))),
        2..=7 => bytes.extend(random.bytes(1)),
        8 => {
            let more = random.between(2, 5);
            bytes.extend(random.bytes(more));
        }
        _ => {}
    }
    bytes
}
