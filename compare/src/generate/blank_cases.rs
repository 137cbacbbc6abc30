//! Blank frames and their neighbours at every precision and scaling, on small graphs, on long
//! chains, and on strips.

use super::Lists;
use super::blank::{SUBNORMAL, edge};
use super::cases::{Case, DecodeCase, TwinCase, decode_case, factor_of};
use super::settings::{PRECISIONS, plain};
use crate::interface::{Settings, f32_bytes};
use crate::paper::Limits;

/// Gains by their bits: 1, a little more, and 3; 2^127 and the largest, which expose subnormal
/// values; 2^-126, whose products are subnormal, and 2^-149, which exposes nothing.
const GAINS: [u32; 7] =
    [0x3f80_0000, 0x3f80_0001, 0x4040_0000, 0x7f00_0000, 0x7f7f_ffff, 0x0080_0000, 0x0000_0001];

/// Gains and variances by their bits. The factors are 1, a little more, 2/3 and 1.4/0.3 rounded,
/// the largest f32, 2^-126 and 2^-149.
const NOISES: [(u32, u32); 7] = [
    (0x3f80_0000, 0x4000_0000),
    (0x3f80_0001, 0x4000_0000),
    (0x3f80_0000, 0x4040_0000),
    (0x3f33_3333, 0x3e99_999a),
    (0x7eff_ffff, 0x3f80_0000),
    (0x0080_0000, 0x4000_0000),
    (0x0000_0001, 0x4000_0000),
];

/// Every scaling with every precision.
fn every_settings() -> Vec<Settings> {
    let mut settings = Vec::new();
    for plain in PRECISIONS.map(plain) {
        for gain in GAINS.map(f32::from_bits) {
            // The variance is unread.
            settings.push(Settings { kind: 0, gain, variance: f32::NAN, ..plain });
        }
        for (gain, variance) in NOISES {
            let (gain, variance) = (f32::from_bits(gain), f32::from_bits(variance));
            settings.push(Settings { kind: 1, gain, variance, ..plain });
        }
    }
    settings
}

const VARIABLES: usize = 4;

/// One size with every sign plus, every sign minus, and both signs.
fn throughout(size: f32) -> [[f32; VARIABLES]; 3] {
    [[size; VARIABLES], [-size; VARIABLES], [size, -size, -size, size]]
}

/// Frames in which every magnitude is 0: zeros, the least subnormal value, what gives subnormal
/// products with a small factor, and what is at the edge or just below it.
fn blank_frames(factor: f32) -> Vec<[f32; VARIABLES]> {
    let edge = edge(factor);
    let below = [1, 2].map(|ulps| f32::from_bits(edge.to_bits() - ulps));
    let mixed = [f32::from_bits(SUBNORMAL[0]), 1.0, 0.5].map(|size| throughout(size.min(edge))[2]);
    let mut frames = [throughout(0.0), throughout(edge)].concat();
    frames.extend(below.map(|size| throughout(size)[2]));
    frames.extend(mixed);
    frames.push([0.0, -edge, f32::from_bits(SUBNORMAL[0]), -0.0]);
    frames
}

/// The least value that is exposed, at every index of frames that are blank elsewhere, and
/// throughout; none where nothing is exposed.
fn exposed_frames(factor: f32) -> Vec<[f32; VARIABLES]> {
    let edge = edge(factor);
    let least = edge.next_up();
    if least.is_infinite() {
        return Vec::new();
    }
    let mut frames = throughout(least).to_vec();
    for (around, exposed) in [(throughout(edge)[2], least), (throughout(-0.0)[0], -least)] {
        for index in 0..VARIABLES {
            let mut frame = around;
            frame[index] = exposed;
            frames.push(frame);
        }
    }
    frames
}

fn on_small_graph(values: &[f32], settings: Settings) -> DecodeCase {
    let rows = [vec![0, 1, 2], vec![1, 3], vec![0, 2, 3]];
    decode_case(&Lists::from_rows(VARIABLES, &rows), values, settings)
}

/// Check i has the variables i and i + 1.
fn chain(n: usize) -> Lists {
    let rows = 0..n as u32 - 1;
    Lists {
        n,
        starts: (0..n as u32).map(|check| 2 * check).collect(),
        columns: rows.flat_map(|check| [check, check + 1]).collect(),
    }
}

/// A long frame of values with p = 1, but for the one at an index.
fn long(n: usize, other: Option<(usize, f32)>) -> DecodeCase {
    let signs = [1.0, -1.0, 1.0].into_iter().cycle();
    let mut values: Vec<f32> = signs.take(n).collect();
    if let Some((index, value)) = other {
        values[index] = value;
    }
    decode_case(&chain(n), &values, Settings { limit: 1, ..plain(PRECISIONS[0]) })
}

/// Frames with as many variables as the program admits, and with more than 16 bits number: blank,
/// and exposed at one index alone.
fn long_frames() -> Vec<DecodeCase> {
    let least = 1.0_f32.next_up();
    let mut frames = Vec::new();
    for (n, indexes) in [(8_192, [0, 255, 4_096, 8_191]), (70_000, [0, 65_535, 65_536, 69_999])] {
        frames.push(long(n, None));
        frames.extend(indexes.map(|index| long(n, Some((index, -least)))));
    }
    frames
}

/// Signs reversed by every word, on checks {0, 1} and {1, 2}: blank frames, and one value exposed.
fn twins() -> Vec<TwinCase> {
    let lists = Lists::from_rows(3, &[vec![0, 1], vec![1, 2]]);
    let frames = [[0.0; 3], [-0.0; 3], [1.0, -0.0, -1.0], [-1.0, 0.0, 1.0_f32.next_up()]];
    let mut twins = Vec::new();
    for settings in [0, 1].map(|kind| Settings { kind, ..plain(PRECISIONS[3]) }) {
        for values in frames {
            let decode = decode_case(&lists, &values, settings);
            let words = (0..8).map(|word| [word & 1, word >> 1 & 1, word >> 2].to_vec());
            let twin = |word| TwinCase { decode: decode.clone(), word, counts: vec![1, 1] };
            twins.extend(words.map(twin));
        }
    }
    twins
}

pub fn cases() -> Vec<Case> {
    let mut cases: Vec<Case> = long_frames().into_iter().map(Case::Decode).collect();
    for settings in every_settings() {
        let factor = factor_of(&settings);
        let frames = blank_frames(factor).into_iter().chain(exposed_frames(factor));
        cases.extend(frames.map(|values| Case::Decode(on_small_graph(&values, settings))));
    }
    cases.extend(twins().into_iter().map(Case::Twin));
    cases
}

/// How many strips there are.
pub const BLANK_STRIPS: usize = 4;

/// Strips of as many variables as there can be: blank, exposed at the far end alone, blank but for
/// a NaN at the far end, and blank with a buffer that is too short.
pub fn strip(number: usize) -> Case {
    let last = Limits::LENT.variables - 1;
    let other = match number {
        1 => Some((last, -1.0_f32.next_up())),
        2 => Some((last, f32::NAN)),
        _ => None,
    };
    let mut case = long(last + 1, other);
    if number == 3 {
        case.lent.levels = 0;
        case.values = f32_bytes(&vec![-0.0; last + 1]);
    }
    Case::Decode(case)
}

#[cfg(test)]
mod tests {
    use super::*;
    use crate::interface::f32_list;
    use crate::paper::Refusal;

    const BLANK: Option<Refusal> = Some(Refusal { number: 20, place: 0 });

    #[test]
    fn frames_are_what_they_are_for() {
        let [mut blank, mut exposed] = [0; 2];
        for settings in every_settings() {
            let factor = factor_of(&settings);
            for values in blank_frames(factor) {
                assert_eq!(on_small_graph(&values, settings).outcome().err(), BLANK);
                blank += 1;
            }
            for values in exposed_frames(factor) {
                let levels = on_small_graph(&values, settings).outcome().unwrap().levels;
                let count = levels.iter().filter(|level| level.magnitude > 0).count();
                assert!(levels.iter().all(|level| level.magnitude <= 1));
                assert!(count == 1 || count == VARIABLES, "{values:?}");
                exposed += 1;
            }
        }
        // Twelve of each of 14 scalings; eleven of each that exposes something.
        assert_eq!((blank, exposed), (4 * 14 * 12, 4 * 12 * 11));
    }

    /// The exact products are judged in f64, which has room for them.
    #[test]
    fn products_round_to_1_from_both_sides() {
        for kind in [0, 1] {
            let [mut above, mut below, mut exact, mut subnormal] = [0; 4];
            let of_kind = |settings: &Settings| settings.kind == kind;
            for settings in every_settings().into_iter().filter(of_kind) {
                let factor = factor_of(&settings);
                for value in blank_frames(factor).concat() {
                    let product = f64::from(factor) * f64::from(value.abs());
                    let p = factor * value.abs();
                    subnormal += usize::from(p.is_subnormal());
                    above += usize::from(p == 1.0 && product > 1.0);
                    below += usize::from(p == 1.0 && product < 1.0);
                    exact += usize::from(p == 1.0 && product == 1.0);
                }
            }
            let seen = [above, below, exact, subnormal];
            assert!(seen.iter().all(|&count| count >= 8), "{kind}: {seen:?}");
        }
    }

    #[test]
    fn long_frames_are_blank_or_exposed_at_one_index() {
        for (number, case) in long_frames().into_iter().enumerate() {
            let outcome = case.outcome();
            match number % 5 {
                0 => assert_eq!(outcome.err(), BLANK),
                _ => {
                    let levels = outcome.unwrap().levels;
                    assert_eq!(levels.iter().filter(|level| level.magnitude > 0).count(), 1);
                }
            }
        }
    }

    #[test]
    fn twins_are_blank_or_not() {
        for TwinCase { decode, word, .. } in twins() {
            assert_eq!(word.len(), decode.n);
            let is_exposed = f32_list(&decode.values).contains(&1.0_f32.next_up());
            assert_eq!(decode.outcome().is_ok(), is_exposed);
        }
    }
}
