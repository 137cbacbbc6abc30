//! The program itself, run as a process, against the paper's.

use super::series::{Budget, Series};
use super::shrink::{LONGEST, cut_down};
use crate::generate::programs::{self, ProgramCase};
use crate::paper;
use crate::random::Random;
use std::io::{self, Write};
use std::path::PathBuf;
use std::process::{Command, Stdio};
use std::time::Instant;
use std::{env, fs, process};

const INPUTS_BEFORE_LIMITS: u64 = 50;

/// A command and the folder of its own in which it finds `code.txt`.
struct Program<'a> {
    path: PathBuf,
    arguments: &'a [String],
    folder: PathBuf,
}

/// Runs the command on each input. Gives the series and, for the first input whose output
/// differs, a description.
pub fn run_programs(
    command: &[String],
    seed: u64,
    budget: Budget,
) -> io::Result<(Series, Option<String>)> {
    let begun = Instant::now();
    let program = Program {
        path: fs::canonicalize(&command[0])?,
        arguments: &command[1..],
        folder: env::temp_dir().join(format!("compare-{}", process::id())),
    };
    fs::create_dir_all(&program.folder)?;
    let mut series = Series::default();
    let mut failure = None;
    for case in inputs(seed) {
        if failure.is_some() || budget.is_spent(series.inputs, begun) {
            break;
        }
        series.inputs += 1;
        let expected = expected(&case);
        *series.tally.entry(("program", refusal_number(&expected))).or_default() += 1;
        if program.run(&case)? != expected {
            failure = Some(program.described(&program.shrunk(case))?);
        }
    }
    fs::remove_dir_all(&program.folder)?;
    Ok((series, failure))
}

fn inputs(seed: u64) -> impl Iterator<Item = ProgramCase> {
    let random = move |input| programs::any(&mut Random::for_input(seed, input));
    let first = (0..INPUTS_BEFORE_LIMITS).map(random);
    let of_blocks = programs::of_blocks(&mut Random::new(seed));
    let chosen = programs::at_limits().into_iter().chain(of_blocks);
    first.chain(chosen).chain((INPUTS_BEFORE_LIMITS..).map(random))
}

fn expected(case: &ProgramCase) -> Vec<u8> {
    paper::frame(case.code.as_deref(), &case.run_text)
}

/// The number of a printed refusal, 0 where nothing was refused.
pub fn refusal_number(printed: &[u8]) -> u8 {
    let text = String::from_utf8_lossy(printed);
    let numbers = text.strip_prefix("refusal place\n");
    numbers.and_then(|numbers| numbers.split(' ').next()?.parse().ok()).unwrap_or(0)
}

impl Program<'_> {
    /// What the program prints.
    fn run(&self, case: &ProgramCase) -> io::Result<Vec<u8>> {
        let file = self.folder.join("code.txt");
        match &case.code {
            Some(code) => fs::write(&file, code)?,
            None if file.exists() => fs::remove_file(&file)?,
            None => {}
        }
        let mut child = Command::new(&self.path)
            .args(self.arguments)
            .current_dir(&self.folder)
            .stdin(Stdio::piped())
            .stdout(Stdio::piped())
            .stderr(Stdio::null())
            .spawn()?;
        // A program that refuses the sheet may end before it has read its input.
        let sent = child.stdin.take().map(|mut input| input.write_all(&case.run_text));
        match sent {
            Some(Err(error)) if error.kind() != io::ErrorKind::BrokenPipe => Err(error),
            _ => Ok(child.wait_with_output()?.stdout),
        }
    }

    /// Fewer lines of both texts, for as long as the outputs differ.
    fn shrunk(&self, mut case: ProgramCase) -> ProgramCase {
        let begun = Instant::now();
        let fails = |candidate: &ProgramCase| {
            begun.elapsed() < LONGEST
                && self.run(candidate).is_ok_and(|printed| printed != expected(candidate))
        };
        let lines = |text: &[u8]| -> Vec<Vec<u8>> {
            text.split_inclusive(|&byte| byte == b'\n').map(<[u8]>::to_vec).collect()
        };
        let with_run_text =
            |lines: &[Vec<u8>]| ProgramCase { code: case.code.clone(), run_text: lines.concat() };
        let kept = cut_down(lines(&case.run_text), |lines| fails(&with_run_text(lines)));
        case = with_run_text(&kept);
        let with_code = |lines: &[Vec<u8>]| ProgramCase {
            code: Some(lines.concat()),
            run_text: case.run_text.clone(),
        };
        match &case.code {
            Some(code) => with_code(&cut_down(lines(code), |lines| fails(&with_code(lines)))),
            None => case,
        }
    }

    fn described(&self, case: &ProgramCase) -> io::Result<String> {
        let code = match &case.code {
            Some(code) => format!("\"{}\"", code.escape_ascii()),
            None => "no file".to_string(),
        };
        Ok(format!(
            "  code.txt: {code}\n  standard input: \"{}\"\n  printed \"{}\", not \"{}\"",
            case.run_text.escape_ascii(),
            self.run(case)?.escape_ascii(),
            expected(case).escape_ascii(),
        ))
    }
}
