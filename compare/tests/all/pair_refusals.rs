//! What a pair of heads is refused for: each refusal with its head and place, and their order. Every
//! answer and byte is the paper's reading and the fast one's.

use crate::common::pair::{BYTE, Pair, codeword, refused_of};
use crate::common::{EXAMPLE_VALUES, degrees_of};
use compare::interface::{f32_bytes, number_bytes};
use compare::paper::{Limits, check_graph};

fn example_pair(allowance: u32) -> Pair {
    Pair::on_example([(EXAMPLE_VALUES.to_vec(), 5), (vec![-2.5, 0.5, -1.5], 5)], allowance)
}

/// Refused so, with nothing changed but the degrees where the graph is in order.
fn is_refused(pair: &Pair, head: u8, number: u8, place: usize) {
    let mut pair = pair.clone();
    let mut before = pair.lent();
    assert_eq!(pair.decode(), refused_of(head, number, place));
    let mut after = pair.lent();
    // The last two lists are the degrees and the reports.
    let (degrees, degrees_before) = (after.remove(10), before.remove(10));
    assert_eq!(after, before);
    let graph = pair.lists.graph();
    let is_in_order = check_graph(Limits::LENT, &graph, &mut degrees_of(graph.n)).is_ok();
    if is_in_order && degrees.len() >= 12 {
        assert_eq!(degrees[..12], number_bytes(&[1, 2, 1]));
        assert_eq!(degrees[12..], degrees_before[12..]);
    }
}

#[test]
fn allowances() {
    for allowance in [0, 1, 511, 512, 65_538, 1 << 31, u32::MAX] {
        is_refused(&example_pair(allowance), 0, 22, 0);
    }
    for allowance in [2, 3, 509, 510] {
        assert_eq!(example_pair(allowance).decode(), Ok([codeword(1), codeword(1)]));
    }
}

#[test]
fn reports() {
    for length in 0..16 {
        let mut pair = example_pair(2);
        pair.reports.truncate(length);
        is_refused(&pair, 0, 6, 0);
    }
    for length in [16, 17] {
        let mut pair = example_pair(2);
        pair.reports.truncate(length);
        assert_eq!(pair.decode(), Ok([codeword(1), codeword(1)]));
        assert!(pair.reports[16..].iter().all(|&byte| byte == BYTE));
    }
}

/// Of either head: two values, a NaN at 1, three zeros, and each list one byte short.
#[test]
fn each_head() {
    for head in 0..2 {
        let number = head as u8 + 1;
        let with = |change: &dyn Fn(&mut Pair)| {
            let mut pair = example_pair(2);
            change(&mut pair);
            pair
        };
        let values = |values: &[f32]| {
            let bytes = f32_bytes(values);
            with(&|pair| pair.heads[head].values = bytes.clone())
        };
        is_refused(&values(&[2.5, -0.5]), number, 13, 2);
        is_refused(&values(&[2.5, -0.5, 1.5, 2.0]), number, 13, 4);
        is_refused(&values(&[2.5, f32::NAN, f32::INFINITY]), number, 12, 1);
        is_refused(&values(&[1.0, -1.0, 0.5]), number, 20, 0);
        is_refused(&with(&|pair| pair.heads[head].settings.channel = 5), number, 8, 0);
        is_refused(&with(&|pair| pair.heads[head].settings.limit = 256), number, 9, 0);
        is_refused(&with(&|pair| pair.heads[head].settings.lift_to = 3), number, 16, 0);
        is_refused(&with(&|pair| pair.heads[head].settings.gain = 0.0), number, 10, 0);
        let too_much = with(&|pair| {
            let settings = &mut pair.heads[head].settings;
            (settings.kind, settings.gain, settings.variance) = (1, f32::MAX, 1.0);
        });
        is_refused(&too_much, number, 11, 0);
        for (list, needed) in [(0, 3), (1, 4), (2, 4), (3, 12), (4, 3)] {
            for length in [needed - 1, 0] {
                let short = with(&|pair| pair.heads[head].lists()[list].truncate(length));
                is_refused(&short, number, 6, 0);
            }
        }
    }
}

/// The same fault in both heads is the first one's.
#[test]
fn both_heads() {
    let mut pair = example_pair(2);
    pair.heads[0].values[8..].copy_from_slice(&f32_bytes(&[f32::INFINITY]));
    pair.heads[1].values[..4].copy_from_slice(&f32_bytes(&[f32::INFINITY]));
    is_refused(&pair, 1, 12, 2);
    pair.heads[0] = example_pair(2).heads[0].clone();
    is_refused(&pair, 2, 12, 0);
}

/// Adds to the faults of a head, from the last that is looked for to the first, and expects each.
fn add_faults(pair: &mut Pair, head: usize) {
    let number = head as u8 + 1;
    pair.heads[head].bits.truncate(2);
    is_refused(pair, number, 6, 0);
    pair.heads[head].values = f32_bytes(&[0.0, -0.0, 1.0]);
    is_refused(pair, number, 20, 0);
    pair.heads[head].values[8..].copy_from_slice(&f32_bytes(&[f32::NAN]));
    is_refused(pair, number, 12, 2);
    (pair.heads[head].settings.kind, pair.heads[head].settings.variance) = (1, f32::MIN_POSITIVE);
    pair.heads[head].settings.gain = f32::MAX;
    is_refused(pair, number, 11, 0);
    pair.heads[head].settings.kind = 2;
    is_refused(pair, number, 10, 0);
    pair.heads[head].settings.lift_from = 0;
    is_refused(pair, number, 16, 0);
    pair.heads[head].settings.phi_0 = 2;
    is_refused(pair, number, 9, 0);
    pair.heads[head].settings.message = 4;
    is_refused(pair, number, 8, 0);
    pair.heads[head].values.pop();
    is_refused(pair, number, 13, 2);
}

/// "After both frames' own refusals, the first head's before the second's": every refusal with all
/// that come after it.
#[test]
fn the_order_of_refusals() {
    let mut pair = example_pair(2);
    pair.reports.truncate(15);
    is_refused(&pair, 0, 6, 0);
    pair.allowance = 511;
    is_refused(&pair, 0, 22, 0);
    add_faults(&mut pair, 1);
    add_faults(&mut pair, 0);
    pair.lists.starts.push(4);
    is_refused(&pair, 1, 5, 2);
    // The degrees are counted by all of these, and by none of the following.
    let mut counted = pair.clone();
    assert_eq!(counted.decode(), refused_of(1, 5, 2));
    assert!(counted.degrees.starts_with(&[1, 0, 0, 0, 2, 0, 0, 0, 1, 0, 0, 0, BYTE]));
    pair.degrees = vec![BYTE; 11];
    is_refused(&pair, 1, 6, 0);
    pair.lists.columns[1] = 0;
    is_refused(&pair, 1, 4, 1);
    pair.lists.columns[3] = 3;
    is_refused(&pair, 1, 3, 3);
    pair.lists.starts[1] = 5;
    is_refused(&pair, 1, 7, 2);
    pair.lists.n = 1;
    is_refused(&pair, 1, 2, 0);
    assert_eq!(pair.decode(), refused_of(1, 2, 0));
    assert_eq!(pair.degrees, [BYTE; 11]);
}
