//! The writing side, and what decode says of the codewords that it gives.

use super::arena::{Arena, Part};
use super::check::{Both, compare_answers, number_of};
use super::series::Seen;
use crate::generate::encoding::EncodeCase;
use crate::generate::settings::{PRECISIONS, plain};
use crate::interface::{
    Answer, DecodeInput, Decoded, Decoder, EncodeInput, GraphBytes, Lent, LentLengths,
    NUMBER_BYTES, Settings, Verdict, f32_bytes, numbers,
};
use crate::paper::graph::odd_checks;
use crate::paper::{Graph, Refusal};
use crate::random::Random;

/// The size of a channel value that says a bit as surely as can be said.
const STRONG: f32 = 9.0;

pub fn check_encode(
    case: &EncodeCase,
    decoder: &dyn Decoder,
    random: &mut Random,
) -> Result<Seen, String> {
    let arena = Arena::new(
        random,
        &[
            Part::Given("starts", &case.starts),
            Part::Lent("codeword", case.codeword),
            Part::Given("positions", &case.positions),
            Part::Lent("work", case.work),
            Part::Given("columns", &case.columns),
            Part::Lent("degrees", case.degrees),
            Part::Given("given", &case.given),
        ],
    );
    let degrees = &mut numbers(arena.part("degrees"));
    let expected = case.outcome(degrees);
    let mut both = Both::new(arena, degrees, left_by(case, &expected));

    let [starts, codeword, positions, work, columns, degrees, given] = both.entry.slices();
    let input = EncodeInput { graph: GraphBytes { n: case.n, starts, columns }, positions, given };
    let answer = decoder.encode(&input, degrees, codeword, work);
    let [starts, _, positions, _, columns, degrees, given] = both.companion.slices();
    let input = EncodeInput { graph: GraphBytes { n: case.n, starts, columns }, positions, given };
    let place = decoder.encode_place(&input, degrees);

    let accepted = expected.map(|_| ());
    compare_answers(&accepted, &answer, place)?;
    both.compare()?;
    if accepted.is_ok() {
        is_decoded(case, &both.entry.part("codeword")[..case.n], decoder)?;
    }
    Ok(Seen { call: "encode", refusal: number_of(&accepted), iterations: None })
}

/// "The work bytes are all 0 after a codeword or [..] after a 19, which leaves the answer bytes
/// unchanged."
fn left_by(case: &EncodeCase, expected: &Result<Vec<u8>, Refusal>) -> Vec<(&'static str, Vec<u8>)> {
    let work = || ("work", vec![0; case.work_used()]);
    match expected {
        Ok(word) => vec![("codeword", word.clone()), work()],
        Err(Refusal { number: 19, .. }) => vec![work()],
        Err(_) => Vec::new(),
    }
}

/// Bits that were given for a codeword leave no check odd, and the decoder finds them as they are,
/// before any iteration, in the values that say them.
pub fn is_decoded(case: &EncodeCase, word: &[u8], decoder: &dyn Decoder) -> Result<(), String> {
    let (starts, columns) = (numbers(&case.starts), numbers(&case.columns));
    let graph = Graph { n: case.n, starts: &starts, columns: &columns };
    let odd = odd_checks(&graph, word);
    if odd > 0 {
        return Err(format!("{odd} checks are odd in what is given for a codeword"));
    }
    let values: Vec<f32> =
        word.iter().map(|&bit| if bit == 1 { -STRONG } else { STRONG }).collect();
    let input = DecodeInput {
        graph: GraphBytes { n: case.n, starts: &case.starts, columns: &case.columns },
        values: &f32_bytes(&values),
        settings: Settings { limit: 0, ..plain(PRECISIONS[0]) },
    };
    let lengths = LentLengths::needed(case.n, columns.len()).as_array();
    let [mut levels, mut variable_messages, mut check_messages, mut sums, mut bits] =
        lengths.map(|length| vec![0; length]);
    let mut lent = Lent {
        levels: &mut levels,
        variable_messages: &mut variable_messages,
        check_messages: &mut check_messages,
        sums: &mut sums,
        bits: &mut bits,
    };
    let answer = decoder.decode(&input, &mut vec![0; NUMBER_BYTES * case.n], &mut lent);
    let at_once = Decoded { verdict: Verdict::Codeword, iterations: 0, unsatisfied: 0 };
    match (answer == Answer::Accepted(at_once), bits == word) {
        (true, true) => Ok(()),
        (true, false) => Err("the codeword that is given is decoded to other bits".to_string()),
        (false, _) => Err(format!("the codeword that is given is decoded to {answer:?}")),
    }
}
