//! Every order of the refusals around the list of degrees: those that come before its 6, that
//! 6 itself, 5, and those that come after.

use super::Lists;
use super::cases::{Case, DecodeCase, ReadCase, WriteCase, decode_case, read_case, write_case};
use crate::interface::{LARGEST_LIFT, LentLengths, NEVER, NUMBER_BYTES, Settings, f32_bytes};

const SETTINGS: Settings = Settings {
    kind: 0,
    gain: 1.0,
    variance: 0.0,
    channel: 3,
    message: 3,
    phi_s: 0,
    phi_a: 0,
    phi_0: 0,
    limit: 2,
    lift_from: NEVER,
    lift_to: LARGEST_LIFT,
};

pub fn cases() -> Vec<Case> {
    let mut cases = Vec::new();
    for lists in graphs() {
        for degrees in lengths(lists.n) {
            cases.extend(decodes(&lists, degrees).map(Case::Decode));
            cases.extend(writes(&lists, degrees).map(Case::Write));
            cases.extend(reads(&lists, degrees).map(Case::Read));
        }
    }
    cases
}

/// Checks {0, 1} and {1, 2}, and the same with something wrong.
fn graphs() -> Vec<Lists> {
    let lists = |n, starts: &[u32], columns: &[u32]| Lists {
        n,
        starts: starts.to_vec(),
        columns: columns.to_vec(),
    };
    let (starts, columns) = ([0, 2, 4], [0, 1, 1, 2]);
    vec![
        lists(3, &starts, &columns),
        // 5: a check without entries, a variable without.
        lists(3, &[0, 2, 4, 4], &columns),
        lists(4, &starts, &columns),
        // 4, alone and before 5; then 3, 7 and 2.
        lists(3, &starts, &[1, 0, 1, 2]),
        lists(4, &starts, &[1, 0, 1, 2]),
        lists(3, &starts, &[0, 1, 1, 3]),
        lists(3, &[0, 2, 3], &columns),
        lists(3, &[0], &columns),
    ]
}

/// Of a list of degrees: nothing, one number and one byte too short, exact, and longer.
fn lengths(n: usize) -> [usize; 6] {
    let needed = NUMBER_BYTES * n;
    [0, needed - NUMBER_BYTES, needed - 1, needed, needed + 3, needed + NUMBER_BYTES]
}

/// Nothing else wrong; 13, 9, 12, 20 and the last 6.
fn decodes(lists: &Lists, degrees: usize) -> impl Iterator<Item = DecodeCase> {
    let good = DecodeCase { degrees, ..decode_case(lists, &vec![2.0; lists.n], SETTINGS) };
    let with_values = |values: &[f32]| DecodeCase { values: f32_bytes(values), ..good.clone() };
    let too_few = with_values(&vec![2.0; lists.n - 1]);
    let blank = with_values(&vec![1.0; lists.n]);
    let not_a_number = with_values(&vec![f32::NAN; lists.n]);
    let settings = Settings { phi_s: 2, ..SETTINGS };
    let lent = LentLengths { bits: lists.n - 1, ..good.lent };
    [
        DecodeCase { settings, ..good.clone() },
        DecodeCase { lent, ..good.clone() },
        good,
        too_few,
        not_a_number,
        blank,
    ]
    .into_iter()
}

fn writes(lists: &Lists, degrees: usize) -> impl Iterator<Item = WriteCase> {
    let good = WriteCase { degrees, ..write_case(lists) };
    [WriteCase { text: good.text - 1, ..good.clone() }, good].into_iter()
}

/// Nothing else wrong; 1 in a further line; starts or columns too short.
fn reads(lists: &Lists, degrees: usize) -> impl Iterator<Item = ReadCase> {
    let good = ReadCase { degrees, ..read_case(lists) };
    let mut text = good.text.clone();
    text.extend(b"?\n");
    [
        ReadCase { text, ..good.clone() },
        ReadCase { starts: good.starts - 1, ..good.clone() },
        ReadCase { columns: good.columns - 1, ..good.clone() },
        good,
    ]
    .into_iter()
}
