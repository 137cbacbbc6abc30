//! Two heads on one graph, against the paper's.

use super::arena::{Arena, Part};
use super::check::{Both, level_bytes};
use super::heads;
use super::series::Seen;
use crate::generate::pair::PairCase;
use crate::interface::{
    Decoder, GraphBytes, HeadInput, Lent, PairInput, PairRefusal, Record, i32_bytes, numbers,
    report_bytes,
};
use crate::paper::Outcome;
use crate::random::Random;

/// The most entries of a pair that is also held against the decoder's other calls.
const MOST_ENTRIES: usize = 100_000;

/// The lists of each head.
const LISTS: [[&str; 5]; 2] = [
    [
        "the first levels",
        "the first variable messages",
        "the first check messages",
        "the first sums",
        "the first bits",
    ],
    [
        "the second levels",
        "the second variable messages",
        "the second check messages",
        "the second sums",
        "the second bits",
    ],
];

/// What an accepted pair leaves beside the degrees.
fn lists_of(outcomes: &[Outcome; 2]) -> Vec<(&'static str, Vec<u8>)> {
    let report = |outcome: &Outcome| {
        let Outcome { verdict, iterations, unsatisfied, .. } = *outcome;
        Record { verdict: Some(verdict), iterations, unsatisfied }.number()
    };
    let of_head = |(names, outcome): ([&'static str; 5], &Outcome)| {
        let lists = [
            level_bytes(&outcome.levels),
            level_bytes(&outcome.variable_messages),
            level_bytes(&outcome.check_messages),
            i32_bytes(&outcome.sums),
            outcome.bits.clone(),
        ];
        names.into_iter().zip(lists)
    };
    let mut lists: Vec<(&str, Vec<u8>)> =
        LISTS.into_iter().zip(outcomes).flat_map(of_head).collect();
    lists.push(("reports", report_bytes([report(&outcomes[0]), report(&outcomes[1])])));
    lists
}

/// The lists of the heads stand between each other.
fn arena_of(case: &PairCase, random: &mut Random) -> Arena {
    let [first, second] = [&case.first.lent, &case.second.lent];
    let lent = |head: usize, list: usize, length| Part::Lent(LISTS[head][list], length);
    let parts = [
        Part::Given("starts", &case.first.starts),
        lent(0, 0, first.levels),
        Part::Given("the second values", &case.second.values),
        lent(0, 1, first.variable_messages),
        Part::Given("columns", &case.first.columns),
        lent(1, 0, second.levels),
        Part::Lent("degrees", case.first.degrees),
        lent(0, 2, first.check_messages),
        lent(1, 1, second.variable_messages),
        Part::Lent("reports", case.reports),
        lent(0, 3, first.sums),
        lent(1, 2, second.check_messages),
        Part::Given("the first values", &case.first.values),
        lent(1, 3, second.sums),
        lent(1, 4, second.bits),
        lent(0, 4, first.bits),
    ];
    Arena::new(random, &parts)
}

/// The call in its allocation.
fn answer_in(arena: &mut Arena, case: &PairCase, decoder: &dyn Decoder) -> u64 {
    let [
        starts,
        first_levels,
        second_values,
        first_variable_messages,
        columns,
        second_levels,
        degrees,
        first_check_messages,
        second_variable_messages,
        reports,
        first_sums,
        second_check_messages,
        first_values,
        second_sums,
        second_bits,
        first_bits,
    ] = arena.slices();
    let input = PairInput {
        graph: GraphBytes { n: case.first.n, starts, columns },
        allowance: case.allowance,
        heads: [
            HeadInput { values: first_values, settings: case.first.settings },
            HeadInput { values: second_values, settings: case.second.settings },
        ],
    };
    let first = Lent {
        levels: first_levels,
        variable_messages: first_variable_messages,
        check_messages: first_check_messages,
        sums: first_sums,
        bits: first_bits,
    };
    let second = Lent {
        levels: second_levels,
        variable_messages: second_variable_messages,
        check_messages: second_check_messages,
        sums: second_sums,
        bits: second_bits,
    };
    decoder.decode_pair(&input, degrees, &mut [first, second], reports)
}

/// The answer in words.
pub fn told(answer: u64) -> String {
    match (answer & 0xff, answer >> 8) {
        (0, 0) => "accepted".to_string(),
        (number @ 1.., head @ 0..=2) => format!("refused with {number}, head {head}"),
        _ => format!("{answer:#018x}"),
    }
}

pub fn check_pair(
    case: &PairCase,
    decoder: &dyn Decoder,
    random: &mut Random,
) -> Result<Seen, String> {
    let arena = arena_of(case, random);
    let degrees = &mut numbers(arena.part("degrees"));
    let expected = case.outcome(degrees);
    let left = expected.as_ref().map_or(Vec::new(), lists_of);
    let mut both = Both::new(arena, degrees, left);

    let answer = answer_in(&mut both.entry, case, decoder);
    let [starts, _, second, _, columns, _, degrees, _, _, _, _, _, first] = both.companion.slices();
    let graph = GraphBytes { n: case.first.n, starts, columns };
    let place = decoder.decode_pair_place(&graph, [first, second], answer, degrees);

    let (expected_answer, expected_place) = match &expected {
        Ok(_) => (0, 0),
        Err(refusal) => (refusal.answer(), refusal.refusal.place),
    };
    if answer != expected_answer {
        return Err(format!("the pair is {}, not {}", told(answer), told(expected_answer)));
    }
    if place != expected_place {
        let told = told(answer);
        return Err(format!("the place of the pair {told} is {place}, not {expected_place}"));
    }
    both.compare()?;
    match expected {
        Ok(_) => {
            if case.first.entries() <= MOST_ENTRIES {
                heads::check(case, decoder)?;
            }
            Ok(Seen { call: "pair", refusal: 0, iterations: None })
        }
        Err(PairRefusal { head, refusal }) => {
            let call = ["pair", "pair, first head", "pair, second head"][usize::from(head)];
            Ok(Seen { call, refusal: refusal.number, iterations: None })
        }
    }
}
