//! `compare`: the proved library against the paper, and its speed. See the README.

use compare::fast::Fast;
use compare::harness::{self, Budget};
use compare::interface::Decoder;
use compare::{bench, inspect, pair, paper, trials};
use std::io::{self, Read, Write};
use std::process::ExitCode;
use std::time::Duration;
use std::{env, fs};

const USAGE: &str = "usage:
  compare test [COUNT | SECONDSs] [SEED]               the decoder against the paper
  compare one SEED INPUT                               one input of a seed again
  compare program COUNT SEED COMMAND [ARGUMENT..]      the program against the paper's
  compare frame                                        the paper's program itself
  compare trials (input | answers)                     what the program `trials` reads, and must print
  compare blocks (input | answers)                     the same of `block_trials`
  compare inspect                                      what `examples/inspect.c` must print
  compare pair                                         what `examples/pair.c` must print
  compare bench                                        times";

const DEFAULT_INPUTS: u64 = 100_000;
const DEFAULT_SEED: u64 = 1;

/// The decoder under comparison.
#[cfg(frame_library)]
fn subject() -> (&'static str, &'static dyn Decoder) {
    ("the library", &compare::library::Library)
}

#[cfg(not(frame_library))]
fn subject() -> (&'static str, &'static dyn Decoder) {
    ("the fast decoder (no library is linked)", &Fast)
}

fn main() -> ExitCode {
    let arguments: Vec<String> = env::args().skip(1).collect();
    let words: Vec<&str> = arguments.iter().map(String::as_str).collect();
    let passed = match words[..] {
        ["test"] => test(Budget::Inputs(DEFAULT_INPUTS), DEFAULT_SEED),
        ["test", budget] => budget_of(budget).and_then(|budget| test(budget, DEFAULT_SEED)),
        ["test", budget, seed] => budget_of(budget).and_then(|budget| test(budget, number(seed)?)),
        ["one", seed, input] => one(number(seed), number(input)),
        ["program", count, seed, _, ..] => program(number(count), number(seed), &arguments[3..]),
        ["frame"] => frame(),
        ["trials", "input"] => print(&trials::input()),
        ["trials", "answers"] => print(&trials::answers()),
        ["blocks", "input"] => print(&trials::blocks::input()),
        ["blocks", "answers"] => print(&trials::blocks::answers()),
        ["inspect"] => print(inspect::text().as_bytes()),
        ["pair"] => print(pair::text().as_bytes()),
        ["bench"] => times(),
        _ => None,
    };
    match passed {
        Some(true) => ExitCode::SUCCESS,
        Some(false) => ExitCode::FAILURE,
        None => {
            eprintln!("{USAGE}");
            ExitCode::from(2)
        }
    }
}

fn number(word: &str) -> Option<u64> {
    word.parse().ok()
}

fn budget_of(word: &str) -> Option<Budget> {
    match word.strip_suffix('s') {
        Some(seconds) => Some(Budget::Time(Duration::from_secs(number(seconds)?))),
        None => Some(Budget::Inputs(number(word)?)),
    }
}

fn test(budget: Budget, seed: u64) -> Option<bool> {
    let (name, decoder) = subject();
    println!("seed {seed}: {name} against the paper");
    let series = harness::run(decoder, seed, budget);
    println!("{series}");
    if let Some(failure) = &series.failure {
        println!("seed {seed}, {failure}");
    }
    Some(concluded(series.inputs, series.failure.is_none()))
}

fn one(seed: Option<u64>, input: Option<u64>) -> Option<bool> {
    let (seed, input) = (seed?, input?);
    let failure = harness::run_one(subject().1, seed, input);
    if let Some(failure) = &failure {
        println!("seed {seed}, {failure}");
    }
    Some(concluded(1, failure.is_none()))
}

fn program(count: Option<u64>, seed: Option<u64>, command: &[String]) -> Option<bool> {
    let (count, seed) = (count?, seed?);
    match harness::run_programs(command, seed, Budget::Inputs(count)) {
        Ok((series, failure)) => {
            println!("{series}");
            if let Some(failure) = &failure {
                println!("seed {seed}, input {} fails; shrunk:\n{failure}", series.inputs - 1);
            }
            Some(concluded(series.inputs, failure.is_none()))
        }
        Err(error) => {
            eprintln!("compare: {error}");
            Some(false)
        }
    }
}

/// The last line of every comparison.
fn concluded(inputs: u64, passed: bool) -> bool {
    println!("compare: {inputs} inputs, {} failures", u8::from(!passed));
    passed
}

fn frame() -> Option<bool> {
    let code = fs::read("code.txt").ok();
    let mut run_text = Vec::new();
    let read = io::stdin().read_to_end(&mut run_text);
    print(&paper::frame(code.as_deref(), &run_text)).map(|written| read.is_ok() && written)
}

fn print(bytes: &[u8]) -> Option<bool> {
    Some(io::stdout().write_all(bytes).is_ok())
}

fn times() -> Option<bool> {
    #[cfg(frame_library)]
    bench::run(&[("fast", &Fast), ("library", &compare::library::Library)]);
    #[cfg(not(frame_library))]
    bench::run(&[("fast", &Fast)]);
    Some(true)
}
