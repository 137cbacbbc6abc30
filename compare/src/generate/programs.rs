//! Whole inputs of the program.

use super::cases::{any_values, factor_of};
use super::{blocks, graphs, limits, settings, texts};
use crate::paper::Limits;
use crate::paper::blocks::text_of;
use crate::random::Random;

/// An input of the program: its file, if there is one, and its standard input.
pub struct ProgramCase {
    pub code: Option<Vec<u8>>,
    pub run_text: Vec<u8>,
}

/// The program's inputs at its limits.
pub fn at_limits() -> Vec<ProgramCase> {
    let case = |(code, run_text)| ProgramCase { code: Some(code), run_text };
    limits::programs().into_iter().map(case).collect()
}

/// The program's inputs with a block sheet for a sheet, whole and in parts: "never by `frame`".
pub fn of_blocks(random: &mut Random) -> Vec<ProgramCase> {
    let mut programs = Vec::new();
    for _ in 0..20 {
        let blocks = blocks::any(random);
        let settings = settings::good(random);
        let values = settings::values(random, blocks.columns * blocks.size, 1.0);
        let run_text = texts::run_text(&settings, &values);
        programs.push(ProgramCase { code: Some(text_of(&blocks)), run_text });
    }
    let run_text = texts::run_text(&settings::good(random), &[1.0, -1.0]);
    let mut more = |code: &[u8]| {
        programs.push(ProgramCase { code: Some(code.to_vec()), run_text: run_text.clone() });
    };
    more(b"size rows columns\n1 1 2\nrow column shift\n0 0 0\n0 1 0\n");
    more(b"size rows columns\n0 1 2\nrow column shift\n");
    more(b"variables checks\n1 1 2\nrow column shift\n0 0 0\n0 1 0\n");
    more(b"variables checks\n2 1\nrow column shift\n0 0 0\n0 1 0\n");
    more(b"variables checks\n2 1\ncheck variable\n0 0 0\n0 1 0\n");
    more(&[&b"size rows columns\n1 1 2\nrow column shift\n"[..], &vec![b'0'; 65_536]].concat());
    programs
}

pub fn any(random: &mut Random) -> ProgramCase {
    let lists = graphs::any(random);
    let mut code = texts::sheet(&lists);
    if random.one_in(5) {
        (0..random.between(1, 2)).for_each(|_| texts::damage(Limits::PROGRAM, random, &mut code));
    }
    let settings = texts::run_settings(random);
    let factor = factor_of(&settings);
    let mut values = any_values(random, lists.n, factor);
    if random.one_in(10) {
        settings::spoil_values(random, &mut values);
    }
    let mut run_text = texts::run_text(&settings, &values);
    if random.one_in(3) {
        (0..random.between(1, 2))
            .for_each(|_| texts::damage(Limits::PROGRAM, random, &mut run_text));
    }
    let code = (!random.one_in(50)).then_some(code);
    ProgramCase { code, run_text }
}
