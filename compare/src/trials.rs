//! The standard input of the program `trials`, and what it must print: document 01's trial
//! values that are not theorems, then seeded sheets and run texts, so many of each
//! answer.

pub mod blocks;

use crate::generate::programs::{self, ProgramCase};
use crate::harness::refusal_number;
use crate::paper;
use crate::random::Random;

const SEED: u64 = 11;
const LONGEST: usize = 1_500;
const ACCEPTED: usize = 30;
const REFUSED: usize = 4;
/// The numbers that the program can give, 0 standing for no refusal.
const NUMBERS: [u8; 13] = [0, 1, 2, 3, 4, 5, 8, 9, 10, 11, 12, 14, 20];

const SHEET: &str = "variables checks\n3 2\ncheck variable\n0 0\n0 1\n1 1\n1 2\n";
const DEGREE_1: &str = "variables checks\n3 2\ncheck variable\n0 0\n0 1\n1 2\n";
const EXAMPLE: [&str; 3] = ["40200000", "bf000000", "3fc00000"];
const NEGATED: [&str; 3] = ["c0200000", "3f000000", "bfc00000"];
const ZEROS: [&str; 3] = ["00000000"; 3];
const MINUS_ZEROS: [&str; 3] = ["80000000"; 3];
/// p is 1 throughout, which is not above the first threshold; then one value alone is.
const AT_THRESHOLD: [&str; 3] = ["3f800000"; 3];
const ONE_EXPOSED: [&str; 3] = ["3f800001", "00000000", "00000000"];
const ONE_EXPOSED_MINUS: [&str; 3] = ["00000000", "bf800001", "3f800000"];

type Trial = (Vec<u8>, Vec<u8>);

/// For each trial a line with the lengths of its sheet and of its run text, then both.
pub fn input() -> Vec<u8> {
    let mut input = Vec::new();
    for (sheet, run_text) in trials() {
        input.extend(format!("{} {}\n", sheet.len(), run_text.len()).bytes());
        input.extend(sheet);
        input.extend(run_text);
    }
    input
}

/// What the paper's program prints for each trial, one after the other.
pub fn answers() -> Vec<u8> {
    trials().iter().flat_map(|(sheet, run_text)| paper::frame(Some(sheet), run_text)).collect()
}

fn trials() -> Vec<Trial> {
    let mut trials = of_the_paper();
    trials.extend(of_each_answer());
    trials
}

fn of_the_paper() -> Vec<Trial> {
    let trial = |sheet: &str, limit: u32, values: [&str; 3]| {
        let header = "gain channel message phi_s phi_a phi_0 limit";
        let [a, b, c] = values;
        let run_text = format!("{header}\n3f800000 3 3 1 1 0 {limit}\nvalue\n{a}\n{b}\n{c}\n");
        (sheet.as_bytes().to_vec(), run_text.into_bytes())
    };
    vec![
        trial(SHEET, 5, EXAMPLE),
        trial(SHEET, 5, NEGATED),
        trial(SHEET, 0, EXAMPLE),
        trial(SHEET, 5, ZEROS),
        trial(SHEET, 5, MINUS_ZEROS),
        trial(SHEET, 5, AT_THRESHOLD),
        trial(SHEET, 5, ONE_EXPOSED),
        trial(SHEET, 5, ONE_EXPOSED_MINUS),
        trial(SHEET, 255, EXAMPLE),
        trial(SHEET, 256, EXAMPLE),
        trial(DEGREE_1, 5, EXAMPLE),
    ]
}

/// Random inputs of the program, in the order in which they come, until there are enough
/// of each answer.
fn of_each_answer() -> Vec<Trial> {
    let wanted = |number: u8| if number == 0 { ACCEPTED } else { REFUSED };
    let mut open: Vec<(u8, usize)> = NUMBERS.map(|number| (number, wanted(number))).to_vec();
    let mut trials = Vec::new();
    for input in 0.. {
        if open.iter().all(|&(_, left)| left == 0) {
            break;
        }
        let case = programs::any(&mut Random::for_input(SEED, input));
        let ProgramCase { code: Some(sheet), run_text } = case else {
            continue;
        };
        let number = refusal_number(&paper::frame(Some(&sheet), &run_text));
        let left = open.iter_mut().find(|(open, left)| *open == number && *left > 0);
        if let Some((_, left)) = left.filter(|_| sheet.len() + run_text.len() <= LONGEST) {
            *left -= 1;
            trials.push((sheet, run_text));
        }
    }
    trials
}
