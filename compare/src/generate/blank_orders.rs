//! Every order of a blank frame's refusal with those that come before it and with the one that
//! comes after, at every precision and with both kinds of scaling.

use super::Lists;
use super::cases::{Case, DecodeCase, decode_case};
use super::settings::{PRECISIONS, plain};
use crate::interface::{LentLengths, NUMBER_BYTES, Refusal, Settings, f32_bytes, number_bytes};

/// Blank frames of a factor of 1.
const FRAMES: [[f32; N]; 3] = [[0.0; N], [-0.0; N], [1.0, -1.0, f32::from_bits(1)]];

const N: usize = 3;
const M: usize = 2;
const ENTRIES: usize = 4;

const BLANK: Refusal = Refusal { number: 20, place: 0 };

/// A refusal that comes before, with what brings it about in a blank frame.
struct Earlier {
    refusal: Refusal,
    change: Box<dyn Fn(&mut DecodeCase)>,
}

fn earlier(number: u8, place: usize, change: impl Fn(&mut DecodeCase) + 'static) -> Earlier {
    Earlier { refusal: Refusal { number, place }, change: Box::new(change) }
}

fn setting(number: u8, change: impl Fn(&mut Settings) + 'static) -> Earlier {
    earlier(number, 0, move |case| change(&mut case.settings))
}

/// Checks {0, 1} and {1, 2}, at every precision and with both kinds of scaling.
fn blanks() -> Vec<DecodeCase> {
    let lists = Lists::from_rows(N, &[vec![0, 1], vec![1, 2]]);
    let both = |plain: Settings| [0, 1].map(|kind| Settings { kind, ..plain });
    let every = PRECISIONS.map(plain).into_iter().flat_map(both);
    every.map(|settings| decode_case(&lists, &FRAMES[0], settings)).collect()
}

/// The graph's refusals, and the list of degrees.
fn of_the_graph() -> Vec<Earlier> {
    vec![
        earlier(2, 0, |case| case.n = 1),
        earlier(2, 0, |case| case.starts.truncate(NUMBER_BYTES)),
        earlier(7, M, |case| case.starts = number_bytes(&[0, 2, 3])),
        earlier(3, 3, |case| case.columns = number_bytes(&[0, 1, 1, 3])),
        earlier(4, 1, |case| case.columns = number_bytes(&[1, 0, 1, 2])),
        earlier(6, 0, |case| case.degrees = 0),
        earlier(6, 0, |case| case.degrees = NUMBER_BYTES * N - 1),
        earlier(5, 1, |case| case.starts = number_bytes(&[0, 2, 2, 4])),
        earlier(5, M + N, |case| (case.n, case.degrees) = (N + 1, NUMBER_BYTES * (N + 1))),
    ]
}

/// 13 and the settings' refusals.
fn of_the_settings() -> Vec<Earlier> {
    vec![
        earlier(13, 0, |case| case.values.clear()),
        earlier(13, N - 1, |case| case.values.truncate(4 * N - 1)),
        earlier(13, N + 1, |case| case.values.extend([0, 0, 0, 0x80])),
        setting(8, |settings| settings.channel = 5),
        setting(8, |settings| settings.message = 1),
        setting(9, |settings| settings.phi_a = 2),
        setting(9, |settings| settings.limit = 256),
        setting(16, |settings| settings.lift_from = 0),
        setting(16, |settings| settings.lift_to = 16),
        setting(10, |settings| settings.gain = 0.0),
        setting(10, |settings| settings.gain = f32::NAN),
        setting(10, |settings| (settings.kind, settings.variance) = (1, -2.0)),
        setting(10, |settings| settings.kind = 2),
        // Twice the largest f32, and 2^-150, which rounds to 0.
        setting(11, |settings| (settings.kind, settings.gain) = (1, f32::MAX)),
        setting(11, |settings| {
            (settings.kind, settings.gain, settings.variance) = (1, f32::from_bits(1), 4.0);
        }),
    ]
}

/// Infinities and NaN at every index, alone and at all later ones too.
fn of_the_values() -> Vec<Earlier> {
    let mut faults = Vec::new();
    for bits in [0x7f80_0000, 0xff80_0000, 0x7fc0_0000, 0xff80_0001] {
        let bad = f32_bytes(&[f32::from_bits(bits)]);
        for index in 0..N {
            let alone = bad.clone();
            faults.push(earlier(12, index, move |case| {
                case.values[4 * index..4 * index + 4].copy_from_slice(&alone);
            }));
        }
        let later = bad.repeat(N - 1);
        faults.push(earlier(12, 1, move |case| case.values[4..].copy_from_slice(&later)));
    }
    faults
}

/// Buffers of which each in turn is one byte short, or nothing, or all are nothing.
fn short_buffers() -> Vec<LentLengths> {
    let needed = LentLengths::needed(N, ENTRIES).as_array();
    let mut short = vec![[0; 5]];
    for buffer in 0..needed.len() {
        for length in [0, needed[buffer] - 1] {
            let mut lengths = needed;
            lengths[buffer] = length;
            short.push(lengths);
        }
    }
    short.into_iter().map(LentLengths::from_array).collect()
}

/// Each with the refusal that comes first. The frames take turns.
fn numbered_cases() -> Vec<(Refusal, DecodeCase)> {
    let mut faults = of_the_graph();
    faults.extend(of_the_settings());
    faults.extend(of_the_values());
    let mut frames = FRAMES.iter().cycle().map(|values| f32_bytes(values));
    let mut cases = Vec::new();
    for good in blanks() {
        for (values, lent) in frames.by_ref().zip(short_buffers()) {
            cases.push((BLANK, DecodeCase { values, lent, ..good.clone() }));
        }
        for (values, (index, Earlier { refusal, change })) in
            frames.by_ref().zip(faults.iter().enumerate())
        {
            let mut case = DecodeCase { values, ..good.clone() };
            change(&mut case);
            // Every other one with a short buffer too.
            if index % 2 == 0 {
                case.lent.bits -= 1;
            }
            cases.push((*refusal, case));
        }
        cases.push((BLANK, good));
    }
    cases
}

pub fn cases() -> Vec<Case> {
    numbered_cases().into_iter().map(|(_, case)| Case::Decode(case)).collect()
}

#[cfg(test)]
mod tests {
    use super::*;

    #[test]
    fn the_first_of_two_refusals_is_given() {
        for (refusal, case) in numbered_cases() {
            assert_eq!(case.outcome().err(), Some(refusal), "{case:?}");
        }
    }

    /// With something exposed the same short buffers get 6.
    #[test]
    fn exposed_frames_get_6() {
        for blank in blanks() {
            let values = f32_bytes(&[0.0, -1.0, -2.0]);
            for lent in short_buffers() {
                let case = DecodeCase { lent, values: values.clone(), ..blank.clone() };
                assert_eq!(case.outcome().err(), Some(Refusal { number: 6, place: 0 }));
            }
        }
    }
}
