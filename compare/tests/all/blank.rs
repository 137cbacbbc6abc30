//! Blank frames: which frames are blank, worked out by hand, where their refusal stands in the
//! order, and what it leaves. Every answer is the paper's reading and the fast one's.

use crate::common::*;
use compare::fast::Fast;
use compare::generate::Lists;
use compare::generate::cases::{self, Case, DecodeCase, decode_case};
use compare::interface::{
    Answer, DecodeInput, Decoder, GraphBytes, Lent, LentLengths, Settings, Verdict, f32_bytes,
    number_bytes,
};
use compare::paper::{Outcome, Refusal};
use compare::random::Random;

/// What the bytes of lent lists are before a call.
const BYTE: u8 = b'#';

fn f32s<const COUNT: usize>(bits: [u32; COUNT]) -> [f32; COUNT] {
    bits.map(f32::from_bits)
}

fn example_case(values: &[f32], settings: Settings) -> DecodeCase {
    decode_case(&Lists::from_rows(3, &[vec![0, 1], vec![1, 2]]), values, settings)
}

/// The paper's answer, which is the fast decoder's; a refusal changes none of its buffers.
fn answered(case: &DecodeCase) -> Result<Outcome, Refusal> {
    let graph = GraphBytes { n: case.n, starts: &case.starts, columns: &case.columns };
    let input = DecodeInput { graph, values: &case.values, settings: case.settings };
    let mut lists = case.lent.as_array().map(|length| vec![BYTE; length]);
    let [levels, variable_messages, check_messages, sums, bits] = &mut lists;
    let mut lent = Lent { levels, variable_messages, check_messages, sums, bits };
    let fast = Fast.decode(&input, &mut vec![BYTE; case.degrees], &mut lent);
    let outcome = case.outcome();
    match &outcome {
        Ok(_) => assert!(matches!(fast, Answer::Accepted(_)), "{fast:?}"),
        Err(Refusal { number, place }) => {
            assert_eq!(fast, Answer::Refused(*number));
            let degrees = &mut vec![BYTE; case.degrees];
            assert_eq!(Fast.decode_place(&graph, &case.values, *number, degrees), *place);
            assert!(lists.iter().flatten().all(|&byte| byte == BYTE));
        }
    }
    outcome
}

/// The example's graph and settings with other values.
fn decoded(values: [f32; 3]) -> Result<Outcome, Refusal> {
    answered(&example_case(&values, example_settings()))
}

/// Verdict, iterations and bits.
fn told(outcome: Result<Outcome, Refusal>) -> (Verdict, usize, Vec<u8>) {
    let outcome = outcome.unwrap();
    (outcome.verdict, outcome.iterations, outcome.bits)
}

#[test]
fn zeros_of_any_sign() {
    assert_eq!(decoded([0.0; 3]), refused(20, 0));
    assert_eq!(decoded([-0.0; 3]), refused(20, 0));
    assert_eq!(decoded([0.0, -0.0, 0.0]), refused(20, 0));
    assert_eq!(decoded([-0.0, 0.0, 0.0]), refused(20, 0));
}

/// Gain 1: "1.0 → +0; 3f800001 → +1".
#[test]
fn at_the_first_threshold() {
    assert_eq!(decoded([1.0; 3]), refused(20, 0));
    assert_eq!(decoded([-1.0, 1.0, -1.0]), refused(20, 0));
    assert_eq!(decoded([0.5, -0.0, -0.999]), refused(20, 0));
    for index in 0..3 {
        for bits in [0x3f80_0001, 0xbf80_0001] {
            let mut values = [-1.0, 1.0, 0.0];
            values[index] = f32::from_bits(bits);
            let levels = decoded(values).unwrap().levels;
            let magnitudes: Vec<u8> = levels.iter().map(|level| level.magnitude).collect();
            assert_eq!(magnitudes, [0, 1, 2].map(|at| u8::from(at == index)));
        }
    }
}

#[test]
fn one_magnitude_of_1_is_decoded() {
    // Levels +1, +0, +0: a codeword at once.
    let outcome = decoded(f32s([0x3f80_0001, 0, 0]));
    assert_eq!(told(outcome), (Verdict::Codeword, 0, vec![0, 0, 0]));
    // Levels +0, -1, +0. Both checks send their other variable -1, and variable 1 hears +0 twice:
    // 1 - 3, -2 + 1 + 1 and 1 - 3, where the tie keeps its sign.
    let outcome = decoded(f32s([0, 0xbf80_0001, 0x3f80_0000]));
    assert_eq!(outcome.as_ref().unwrap().sums, [-2, 0, -2]);
    assert_eq!(told(outcome), (Verdict::Codeword, 1, vec![1, 1, 1]));
    // Levels +0, +0, -1. Iteration 1: 1 + 1, 0 + 1 - 3 and -3 + 1, bits 011. Variable 1 then sends
    // check 0 -1, as U = -3: 1 - 3, 0 + 1 - 3 and -3 + 1.
    let outcome = decoded(f32s([0, 0, 0xbf80_0001]));
    assert_eq!(outcome.as_ref().unwrap().sums, [-2, -2, -2]);
    assert_eq!(told(outcome), (Verdict::Codeword, 2, vec![1, 1, 1]));
}

/// Blank throughout by one value of either sign, and not with the other.
fn edge_between(settings: Settings, blank: u32, exposed: u32) {
    for (channel, message) in [(3, 3), (3, 2), (4, 4), (4, 3)] {
        let settings = Settings { channel, message, lift_to: 15, ..settings };
        let answer = |values: &[f32]| answered(&example_case(values, settings));
        let (blank, exposed) = (f32::from_bits(blank), f32::from_bits(exposed));
        assert_eq!(answer(&[blank; 3]), refused(20, 0), "{settings:?}");
        assert_eq!(answer(&[-blank, blank, -0.0]), refused(20, 0), "{settings:?}");
        let levels = answer(&[blank, -blank, exposed]).unwrap().levels;
        assert_eq!(levels, [plus(0), minus(0), plus(1)], "{settings:?}");
        let levels = answer(&[-exposed, blank, 0.0]).unwrap().levels;
        assert_eq!(levels, [minus(1), plus(0), plus(0)], "{settings:?}");
    }
}

fn gain(bits: u32) -> Settings {
    Settings { kind: 0, gain: f32::from_bits(bits), variance: f32::NAN, ..example_settings() }
}

fn gain_and_variance(gain: f32, variance: f32) -> Settings {
    Settings { kind: 1, gain, variance, ..example_settings() }
}

#[test]
fn plain_gains() {
    edge_between(gain(0x3f80_0000), 0x3f80_0000, 0x3f80_0001);
    // 0.5 × 2
    edge_between(gain(0x3f00_0000), 0x4000_0000, 0x4000_0001);
    // 3 × 11184811 × 2^-25 = 1 + 2^-25 rounds to 1; 3 × 11184812 × 2^-25 = 1 + 2^-23.
    edge_between(gain(0x4040_0000), 0x3eaa_aaab, 0x3eaa_aaac);
    // (1 + 2^-23) × (1 - 2^-24) = 1 + 2^-24 - 2^-47 rounds to 1, from above.
    edge_between(gain(0x3f80_0001), 0x3f7f_ffff, 0x3f80_0000);
    // (1 + 2^-23) × (1 - 2^-23) = 1 - 2^-46 rounds to 1, from below.
    edge_between(gain(0x3f80_0001), 0x3f7f_fffe, 0x3f80_0000);
}

#[test]
fn gains_with_variance() {
    // (2 × 1) / 2 and (2 × 3) / 2
    edge_between(gain_and_variance(1.0, 2.0), 0x3f80_0000, 0x3f80_0001);
    edge_between(gain_and_variance(3.0, 2.0), 0x3eaa_aaab, 0x3eaa_aaac);
    // 2/3 is 11184811 × 2^-24, times 1.5 it is 1 + 2^-25, which rounds to 1; the next value has
    // 1 + 2^-25 + 11184811 × 2^-47, which rounds to 1 + 2^-23.
    edge_between(gain_and_variance(1.0, 3.0), 0x3fc0_0000, 0x3fc0_0001);
    // The gain alone would expose this, and so would the value alone: (2 × 2) / 16.
    edge_between(gain_and_variance(2.0, 16.0), 0x4080_0000, 0x4080_0001);
}

#[test]
fn subnormal_values_and_products() {
    // 2^127 × 2^-127, and one 2^-149 more.
    edge_between(gain(0x7f00_0000), 0x0040_0000, 0x0040_0001);
    edge_between(gain(0x7f00_0000), 0x0000_0001, 0x007f_ffff);
    edge_between(gain_and_variance(f32::from_bits(0x7e80_0000), 1.0), 0x0040_0000, 0x0040_0001);
    // 2^-126 × 2^126; 2^-126 × 0.5 is subnormal.
    edge_between(gain(0x0080_0000), 0x7e80_0000, 0x7e80_0001);
    edge_between(gain(0x0080_0000), 0x3f00_0000, 0x7e80_0001);
    // 2^-149 × 2^128 is more than any product, and far below 1.
    let least = gain(1);
    assert_eq!(answered(&example_case(&[f32::MAX; 3], least)), refused(20, 0));
    let least = gain_and_variance(f32::from_bits(1), 2.0);
    assert_eq!(answered(&example_case(&[-f32::MAX; 3], least)), refused(20, 0));
}

#[test]
fn after_12() {
    for bad in f32s([0x7f80_0000, 0xff80_0000, 0x7fc0_0000, 0xff80_0001]) {
        for index in 0..3 {
            let mut values = [0.0, -0.0, 1.0];
            values[index] = bad;
            let case = example_case(&values, example_settings());
            assert_eq!(answered(&case), refused(12, index));
            let lent = LentLengths::from_array([0; 5]);
            assert_eq!(answered(&DecodeCase { lent, ..case }), refused(12, index));
        }
        assert_eq!(decoded([-0.0, bad, bad]), refused(12, 1));
    }
}

#[test]
fn before_6() {
    let needed = [3, 4, 4, 12, 3];
    for (values, number) in [([0.0; 3], 20), ([-1.0, -0.0, 1.0], 20), ([0.0, 0.0, 1.5], 6)] {
        let case = example_case(&values, example_settings());
        let lent = |lengths| {
            let lent = LentLengths::from_array(lengths);
            answered(&DecodeCase { lent, ..case.clone() })
        };
        assert_eq!(lent([0; 5]), refused(number, 0));
        for buffer in 0..needed.len() {
            for length in [0, needed[buffer] - 1] {
                let mut lengths = needed;
                lengths[buffer] = length;
                assert_eq!(lent(lengths), refused(number, 0));
            }
        }
        // The list of degrees is looked at before.
        for degrees in [0, 11] {
            let short = DecodeCase { degrees, ..case.clone() };
            assert_eq!(answered(&short), refused(6, 0));
        }
    }
}

#[test]
fn after_all_others() {
    let blank = example_case(&[0.0; 3], example_settings());
    let with = |change: &dyn Fn(&mut DecodeCase)| {
        let mut case = blank.clone();
        change(&mut case);
        answered(&case)
    };
    assert_eq!(with(&|case| case.values = f32_bytes(&[0.0; 2])), refused(13, 2));
    assert_eq!(with(&|case| case.values = f32_bytes(&[0.0; 4])), refused(13, 4));
    assert_eq!(with(&|case| case.settings.channel = 5), refused(8, 0));
    assert_eq!(with(&|case| case.settings.limit = 256), refused(9, 0));
    assert_eq!(with(&|case| case.settings.lift_to = 3), refused(16, 0));
    assert_eq!(with(&|case| case.settings.gain = 0.0), refused(10, 0));
    assert_eq!(with(&|case| case.settings.kind = 2), refused(10, 0));
    // Twice the largest f32 is infinite; 2^-148 / 4 rounds to 0.
    let infinite = gain_and_variance(f32::MAX, 1.0);
    assert_eq!(with(&|case| case.settings = infinite), refused(11, 0));
    let zero = gain_and_variance(f32::from_bits(1), 4.0);
    assert_eq!(with(&|case| case.settings = zero), refused(11, 0));
    // The graph's.
    assert_eq!(with(&|case| case.n = 1), refused(2, 0));
    assert_eq!(with(&|case| case.starts = number_bytes(&[0, 2, 3])), refused(7, 2));
    assert_eq!(with(&|case| case.n = 2), refused(3, 3));
    assert_eq!(with(&|case| case.columns = number_bytes(&[1, 0, 1, 2])), refused(4, 1));
    assert_eq!(with(&|case| case.starts = number_bytes(&[0, 2, 4, 4])), refused(5, 2));
}

/// "It holds the degrees after every call that came as far as 5, refused or not".
#[test]
fn the_degrees_are_counted() {
    let case = example_case(&[-0.0; 3], example_settings());
    let graph = GraphBytes { n: case.n, starts: &case.starts, columns: &case.columns };
    let input = DecodeInput { graph, values: &case.values, settings: case.settings };
    let mut lent = Lent {
        levels: &mut [],
        variable_messages: &mut [],
        check_messages: &mut [],
        sums: &mut [],
        bits: &mut [],
    };
    let counted = [&number_bytes(&[1, 2, 1])[..], &[BYTE; 2]].concat();
    let mut degrees = [BYTE; 14];
    assert_eq!(Fast.decode(&input, &mut degrees, &mut lent), Answer::Refused(20));
    assert_eq!(degrees[..], counted);
    let mut degrees = [BYTE; 14];
    assert_eq!(Fast.decode_place(&graph, &case.values, 20, &mut degrees), 0);
    assert_eq!(degrees[..], counted);
}

/// Signs reversed by every word, of which 000 and 111 are codewords.
#[test]
fn signs_reversed_by_any_word() {
    for (values, is_blank) in [
        ([0.0, -0.0, 0.0], true),
        ([1.0, -1.0, 0.5], true),
        ([1.0, -1.25, 0.5], false),
        ([0.0, 0.0, 1.5], false),
    ] {
        for word in 0..8 {
            let reversed = [0, 1, 2].map(|at| match word >> at & 1 {
                1 => -values[at],
                _ => values[at],
            });
            let outcome = decoded(reversed);
            assert_eq!(outcome.err(), is_blank.then_some(Refusal { number: 20, place: 0 }));
        }
    }
}

/// Of the inputs of two seeds: 6,851 decodes, of which 2,756 are accepted and 242 blank; 1,913
/// twin runs, of which 131 are blank.
#[test]
fn some_inputs_are_blank() {
    let [mut decodes, mut accepted, mut blank, mut twins, mut blank_twins] = [0; 5];
    let seeds = [17, 1].into_iter();
    for (seed, input) in seeds.flat_map(|seed| (0..12_000).map(move |input| (seed, input))) {
        let number = |case: &DecodeCase| case.outcome().err().map_or(0, |refusal| refusal.number);
        match cases::any(&mut Random::for_input(seed, input)) {
            Case::Decode(case) => {
                decodes += 1;
                accepted += usize::from(number(&case) == 0);
                blank += usize::from(number(&case) == 20);
            }
            Case::Twin(case) => {
                twins += 1;
                blank_twins += usize::from(number(&case.decode) == 20);
            }
            _ => {}
        }
    }
    assert!(100 * blank > 2 * decodes && 100 * blank < 6 * decodes, "{blank} of {decodes}");
    assert!(10 * blank < accepted, "{blank} beside {accepted}");
    assert!(100 * blank_twins > 3 * twins && 10 * blank_twins < twins, "{blank_twins} of {twins}");
}
