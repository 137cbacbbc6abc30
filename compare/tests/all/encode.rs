//! The writing side: codewords worked out by hand, and the paper's two ways held to each other.
//! Every answer is the paper's reading and the fast one's.

use crate::common::encode::*;
use crate::common::*;
use compare::generate::codewords::Codewords;
use compare::generate::encoding::some_of;
use compare::generate::graphs::{covering, repeat_checks};
use compare::generate::{Lists, graphs};
use compare::paper::encode::{Held, searched, solved};
use compare::paper::graph::odd_checks;
use compare::random::Random;

/// The whole example: 000 and 111 are its codewords.
fn example() -> Lists {
    rows(3, &[&[0, 1], &[1, 2]])
}

/// The code of 7 bits in which 4 may be chosen.
fn hamming() -> Lists {
    rows(7, &[&[0, 2, 4, 6], &[1, 2, 5, 6], &[3, 4, 5, 6]])
}

#[test]
fn the_example() {
    let lists = example();
    assert_eq!(encoded(&lists, &[]), word("000"));
    for variable in 0..3 {
        assert_eq!(encoded(&lists, &[(variable, 0)]), word("000"));
        assert_eq!(encoded(&lists, &[(variable, 1)]), word("111"));
    }
    assert_eq!(encoded(&lists, &[(0, 1), (1, 1), (2, 1)]), word("111"));
    assert_eq!(encoded(&lists, &[(0, 0), (2, 0)]), word("000"));
    // Odd in one check; odd in the sum of both alone.
    assert_eq!(encoded(&lists, &[(0, 1), (1, 0)]), refused(19, 0));
    assert_eq!(encoded(&lists, &[(0, 0), (2, 1)]), refused(19, 0));
    assert_eq!(encoded(&lists, &[(0, 0), (1, 1), (2, 0)]), refused(19, 0));
}

#[test]
fn four_bits_of_seven() {
    let lists = hamming();
    // Bits 0, 1 and 3 are what the checks make them: 1 + 0 + 1, 1 + 1 + 1 and 0 + 1 + 1.
    assert_eq!(encoded(&lists, &[(2, 1), (4, 0), (5, 1), (6, 1)]), word("0110011"));
    // One more, as it is there and as it is not.
    assert_eq!(encoded(&lists, &[(1, 1), (2, 1), (4, 0), (5, 1), (6, 1)]), word("0110011"));
    assert_eq!(encoded(&lists, &[(1, 0), (2, 1), (4, 0), (5, 1), (6, 1)]), refused(19, 0));
    assert_eq!(encoded(&lists, &[]), word("0000000"));
}

#[test]
fn the_least_of_several() {
    let lists = hamming();
    // Bit 2 is 1; 0, 1 and 3 can be 0 together. Then 4 + 6 = 1, 5 + 6 = 1 and 4 + 5 + 6 = 0, so 4
    // and 5 are 1 and 6 is 0. With the high bits 0 it would be 1110000.
    assert_eq!(encoded(&lists, &[(2, 1)]), word("0010110"));
    // Bits 0, 1 and 2 can be 0; then 4 and 5 are as 6, and 3 is their sum.
    assert_eq!(encoded(&lists, &[(6, 1)]), word("0001111"));
    // Bits 1, 2 and 3 can be 0; then 4 + 6 = 1, 5 = 6 and 4 = 5 + 6 = 0.
    assert_eq!(encoded(&lists, &[(0, 1)]), word("1000011"));
    // Bit 2 is 0 + 1 + 0; 1 can be 0, so 5 is 1, and 3 is 1 + 1 + 0.
    assert_eq!(encoded(&lists, &[(0, 0), (4, 1), (6, 0)]), word("0010110"));
}

/// Every choice of given bits on the code of 7 bits against the list of its 16 codewords, in order.
#[test]
fn every_choice_of_bits() {
    let lists = hamming();
    let bits = |number: u8| (0..7).map(|at| number >> (6 - at) & 1).collect::<Vec<u8>>();
    let words = (0..128).map(bits).filter(|word| odd_checks(&lists.graph(), word) == 0);
    let words: Vec<Vec<u8>> = words.collect();
    assert_eq!((words.len(), words.is_sorted()), (16, true));
    for (chosen, values) in (0..128).flat_map(|chosen| (0..128).map(move |other| (chosen, other))) {
        if values & !chosen != 0 {
            continue;
        }
        let (chosen, values) = (bits(chosen), bits(values));
        let held: Vec<(u16, u8)> =
            (0..7).filter(|&at| chosen[at] == 1).map(|at| (at as u16, values[at])).collect();
        let holds = |word: &&Vec<u8>| held.iter().all(|&(at, bit)| word[usize::from(at)] == bit);
        let expected = words.iter().find(holds).cloned();
        assert_eq!(encoded(&lists, &held), expected.map_or(refused(19, 0), Ok), "{held:?}");
    }
}

#[test]
fn checks_that_say_nothing_new() {
    // Two of them twice, and their sum.
    let lists = rows(3, &[&[0, 1], &[0, 1], &[1, 2], &[0, 2], &[1, 2]]);
    assert_eq!(encoded(&lists, &[]), word("000"));
    assert_eq!(encoded(&lists, &[(1, 1)]), word("111"));
    assert_eq!(encoded(&lists, &[(0, 1), (2, 0)]), refused(19, 0));
    // 0 and 3 are equal by the sum; then 1 and 2 differ.
    let lists = rows(4, &[&[0, 1, 2], &[1, 2, 3], &[0, 3]]);
    assert_eq!(encoded(&lists, &[(0, 1), (3, 1)]), word("1011"));
    assert_eq!(encoded(&lists, &[(0, 1)]), word("1011"));
    assert_eq!(encoded(&lists, &[(0, 1), (3, 0)]), refused(19, 0));
    assert_eq!(encoded(&lists, &[(1, 1), (3, 0)]), word("0110"));
    // 32 times the same check.
    let lists = Lists::from_rows(2, &vec![vec![0, 1]; 32]);
    assert_eq!(encoded(&lists, &[(1, 1)]), word("11"));
    assert_eq!(encoded(&lists, &[(0, 1), (1, 0)]), refused(19, 0));
}

/// Variables that are all equal, so that a bit at one end must come to the other. The right side's
/// bit is in the last variable's byte or in one of its own.
#[test]
fn chains_around_whole_bytes() {
    for n in (2..=70).chain([127, 128, 129, 255, 256, 257, 511, 512, 513]) {
        let pairs: Vec<Vec<u32>> = (1..n as u32).map(|v| vec![v - 1, v]).collect();
        let backwards: Vec<Vec<u32>> = pairs.iter().rev().cloned().collect();
        let last = n as u16 - 1;
        for pairs in [pairs, backwards] {
            let lists = Lists::from_rows(n, &pairs);
            assert_eq!(encoded(&lists, &[]), Ok(vec![0; n]));
            assert_eq!(encoded(&lists, &[(0, 1)]), Ok(vec![1; n]));
            assert_eq!(encoded(&lists, &[(last, 1)]), Ok(vec![1; n]));
            assert_eq!(encoded(&lists, &[(last / 2, 1)]), Ok(vec![1; n]));
            assert_eq!(encoded(&lists, &[(0, 1), (last, 0)]), refused(19, 0));
        }
    }
}

/// 2,048 variables in 512 checks: each has four of its own and the next one's first.
#[test]
fn the_most_variables_and_checks() {
    let chain = |check: u32| (4 * check..(4 * check + 5).min(2_048)).collect();
    let lists = Lists::from_rows(2_048, &(0..512).map(chain).collect::<Vec<Vec<u32>>>());
    assert_eq!(encoded(&lists, &[]), Ok(vec![0; 2_048]));
    // The last variable is 1: 2,044 and 2,045 can be 0, so 2,046 is 1.
    let mut expected = vec![0; 2_048];
    expected[2_046..].fill(1);
    assert_eq!(encoded(&lists, &[(2_047, 1)]), Ok(expected));
    // The first is 1: 1, 2 and 3 can be 0, so 4 is 1, and so on to 2,044; the last check has no
    // next one, so 2,047 is 1.
    let firsts = (0..2_048).map(|variable| u8::from(variable % 4 == 0 || variable == 2_047));
    assert_eq!(encoded(&lists, &[(0, 1)]), Ok(firsts.collect()));
    // All but the last given as 0, the last as 1.
    let held: Vec<(u16, u8)> = (0..2_048).map(|v| (v, u8::from(v == 2_047))).collect();
    assert_eq!(encoded(&lists, &held), refused(19, 0));
    assert_eq!(encoded(&lists, &held[..2_047]), Ok(vec![0; 2_048]));
}

/// A graph of up to 16 variables, half of them with checks that say nothing new, and bits at some.
fn small(random: &mut Random) -> (Lists, Vec<(u16, u8)>) {
    let (n, checks) = (random.between(2, 16), random.between(1, 12));
    let mut lists = match random.below(2) {
        0 => graphs::irregular(random, n, checks, 5.min(n)),
        _ => covering(random, n, checks, 4.min(n).max(2)),
    };
    (0..random.below(4)).for_each(|_| repeat_checks(random, &mut lists));
    let word = match random.below(3) {
        0 => (0..lists.n).map(|_| random.below(2) as u8).collect(),
        _ => Codewords::new(&lists).random(random),
    };
    let count = random.between(0, lists.n);
    let held = some_of(random, &word, count);
    (lists, held)
}

#[test]
fn both_ways_agree() {
    let random = &mut Random::new(44);
    let (mut found, mut none) = (0, 0);
    for _ in 0..3_000 {
        let (lists, held) = small(random);
        let (positions, bits): (Vec<u16>, Vec<u8>) = held.into_iter().unzip();
        let held = Held { positions: &positions, bits: &bits };
        let word = searched(&lists.graph(), &held);
        assert_eq!(solved(&lists.graph(), &held), word, "{lists:?} {held:?}");
        match word {
            Some(_) => found += 1,
            None => none += 1,
        }
    }
    assert!(found > 1_500 && none > 300, "{found} {none}");
}

/// On a graph too large to be searched: the word holds the bits and leaves no check odd, and no
/// codeword that holds them has a 0 where the word has its first, second, .. 1 that is not given.
#[test]
fn large_words_are_the_least() {
    let random = &mut Random::new(45);
    let lists = covering(random, 400, 150, 9);
    let graph = lists.graph();
    let codeword = Codewords::new(&lists).random(random);
    for count in [0, 1, 40, 150, 240, 400] {
        let held = some_of(random, &codeword, count);
        let word = encoded(&lists, &held).unwrap();
        assert_eq!(odd_checks(&graph, &word), 0);
        assert!(held.iter().all(|&(at, bit)| word[usize::from(at)] == bit));
        let is_given = |at: usize| held.iter().any(|&(other, _)| usize::from(other) == at);
        let ones = (0..400).filter(|&at| word[at] == 1 && !is_given(at));
        for at in ones.collect::<Vec<usize>>().into_iter().step_by(5) {
            let mut before: Vec<(u16, u8)> = (0..at).map(|v| (v as u16, word[v])).collect();
            before.push((at as u16, 0));
            before.extend(held.iter().filter(|&&(other, _)| usize::from(other) > at));
            assert_eq!(encoded(&lists, &before), refused(19, 0), "{at}");
        }
    }
}
