//! The program: the whole example, its trial values, and each refusal with its place.

use crate::common::*;
use compare::paper::frame;

const SHEET: [&str; 7] = ["variables checks", "3 2", "check variable", "0 0", "0 1", "1 1", "1 2"];
const HEADER: &str = "gain channel message phi_s phi_a phi_0 limit";
const NOISE_HEADER: &str = "gain variance channel message phi_s phi_a phi_0 limit";
const SETTINGS: &str = "3f800000 3 3 1 1 0 5";
const VALUES: [&str; 3] = ["40200000", "bf000000", "3fc00000"];

fn printed(run_lines: &[&str]) -> String {
    printed_bytes(&lines(run_lines))
}

fn printed_bytes(run_text: &[u8]) -> String {
    String::from_utf8(frame(Some(&lines(&SHEET)), run_text)).unwrap()
}

fn with_settings(settings: &str) -> String {
    printed(&[&[HEADER, settings, "value"], &VALUES[..]].concat())
}

fn with_values(values: &[&str]) -> String {
    printed(&[&[HEADER, SETTINGS, "value"], values].concat())
}

fn decoded(verdict: &str, bits: &str) -> String {
    format!("verdict iterations unsatisfied\n{verdict}\nbits\n{bits}\n")
}

fn refused_as(number: u8, place: usize) -> String {
    format!("refusal place\n{number} {place}\n")
}

#[test]
fn whole_example() {
    assert_eq!(with_values(&VALUES), decoded("codeword 1 0", "000"));
    // As the paper prints it.
    let output = "verdict iterations unsatisfied\ncodeword 1 0\nbits\n000\n";
    assert_eq!(with_values(&VALUES), output);
}

#[test]
fn trial_values() {
    let negated = ["c0200000", "3f000000", "bfc00000"];
    assert_eq!(with_values(&negated), decoded("codeword 1 0", "111"));
    assert_eq!(with_settings("3f800000 3 3 1 1 0 0"), decoded("stopped 0 2", "010"));
    assert_eq!(with_values(&["00000000"; 3]), refused_as(20, 0));
    assert_eq!(with_settings("3f800000 3 3 1 1 0 255"), decoded("codeword 1 0", "000"));
    assert_eq!(with_settings("3f800000 3 3 1 1 0 256"), refused_as(9, 0));
}

/// "Run text means L 256": with lifting from iteration 1, 2, .. or 5 on it is a codeword.
#[test]
fn nothing_is_lifted() {
    let stalls = ["40600000", "c0600000", "c0600000"];
    assert_eq!(with_values(&stalls), decoded("stopped 5 1", "011"));
}

#[test]
fn variance_form() {
    // (2 × 1) / 2 = 1: the example's factor.
    let run = [NOISE_HEADER, "3f800000 40000000 3 3 1 1 0 5", "value"];
    let text = [&run[..], &VALUES].concat();
    assert_eq!(printed(&text), decoded("codeword 1 0", "000"));
    // Line 2 has exactly the header's number of values.
    let text = [&[NOISE_HEADER, SETTINGS, "value"], &VALUES[..]].concat();
    assert_eq!(printed(&text), refused_as(14, 2));
    assert_eq!(with_settings("3f800000 40000000 3 3 1 1 0 5"), refused_as(14, 2));
}

#[test]
fn files() {
    let run = lines(&[&[HEADER, SETTINGS, "value"], &VALUES[..]].concat());
    let output = |code: Option<&[u8]>, run: &[u8]| String::from_utf8(frame(code, run)).unwrap();
    assert_eq!(output(None, &run), refused_as(1, 1));
    assert_eq!(output(Some(b""), &run), refused_as(1, 1));
    assert_eq!(output(Some(&[b'\n'; 65_536]), &run), refused_as(1, 1));
    assert_eq!(output(Some(&[b'\n'; 65_537]), &run), refused_as(2, 0));
    // The sheet's refusals come before the run text's.
    let sheet = lines(&SHEET[..6]);
    assert_eq!(output(Some(&sheet), &[b'?'; 65_537]), refused_as(5, 1));
    assert_eq!(printed_bytes(&[b'?'; 65_536]), refused_as(14, 1));
    assert_eq!(printed_bytes(&[b'?'; 65_537]), refused_as(14, 0));
    // A run text that would be right, but for its size.
    let mut long = run.clone();
    long.resize(65_537, b'\n');
    assert_eq!(printed_bytes(&long), refused_as(14, 0));
    long.truncate(65_536);
    assert_eq!(printed_bytes(&long), refused_as(14, 7));
}

#[test]
fn run_text_forms() {
    assert_eq!(printed(&[]), refused_as(14, 1));
    assert_eq!(printed(&["gain"]), refused_as(14, 1));
    assert_eq!(printed(&[&format!("{HEADER} ")]), refused_as(14, 1));
    assert_eq!(printed(&[HEADER]), refused_as(14, 2));
    assert_eq!(printed(&[HEADER, SETTINGS]), refused_as(14, 3));
    assert_eq!(printed(&[HEADER, SETTINGS, "values"]), refused_as(14, 3));
    assert_eq!(with_values(&[]), refused_as(14, 4));
    assert_eq!(with_values(&VALUES[..2]), refused_as(14, 6));
    assert_eq!(with_values(&["40200000", "bf000000", "3fc00000", "3fc00000"]), refused_as(14, 7));
    assert_eq!(with_values(&["40200000", "bf000000", "3fc00000", ""]), refused_as(14, 7));
    for value in ["BF000000", "bf00000", "bf0000000", "bf00000g", "", " bf000000", "0xbf0000"] {
        assert_eq!(with_values(&["40200000", value, "?"]), refused_as(14, 5), "{value:?}");
    }
    for settings in [
        "",
        "3f800000 3 3 1 1 0",
        "3f800000 3 3 1 1 0 5 5",
        "3f800000 3 3 1 1 0 5 ",
        "3f800000  3 3 1 1 0 5",
        "3f80000 3 3 1 1 0 5",
        "3F800000 3 3 1 1 0 5",
        "3f800000 03 3 1 1 0 5",
        "3f800000 3 3 1 1 00 5",
        "3f800000 3 3 1 1 0 05",
        "3f800000 3 3 1 1 0 100000",
        "3f800000 3 3 1 1 0 -5",
        "3f800000 3 3 1 1 0 5\r",
        "1.0 3 3 1 1 0 5",
    ] {
        assert_eq!(with_settings(settings), refused_as(14, 2), "{settings:?}");
    }
}

#[test]
fn run_text_without_lf() {
    let text = lines(&[&[HEADER, SETTINGS, "value"], &VALUES[..]].concat());
    assert_eq!(printed_bytes(&text[..text.len() - 1]), refused_as(14, 6));
    assert_eq!(printed_bytes(HEADER.as_bytes()), refused_as(14, 1));
    assert_eq!(printed_bytes(&[&text[..], b"?"].concat()), refused_as(14, 7));
    assert_eq!(printed_bytes(&[&text[..], b"\n"].concat()), refused_as(14, 7));
}

#[test]
fn decode_refusals() {
    assert_eq!(with_settings("3f800000 3 4 2 1 0 5"), refused_as(8, 0));
    assert_eq!(with_settings("3f800000 99999 3 1 1 0 5"), refused_as(8, 0));
    assert_eq!(with_settings("3f800000 3 3 1 2 0 5"), refused_as(9, 0));
    assert_eq!(with_settings("3f800000 3 3 1 1 0 99999"), refused_as(9, 0));
    assert_eq!(with_settings("80000000 3 3 1 1 0 5"), refused_as(10, 0));
    assert_eq!(with_settings("7f800000 3 3 1 1 0 5"), refused_as(10, 0));
    assert_eq!(with_settings("7fc00000 3 3 1 1 0 5"), refused_as(10, 0));
    let run = [NOISE_HEADER, "7f7fffff 3f800000 3 3 1 1 0 5", "value"];
    assert_eq!(printed(&[&run[..], &VALUES].concat()), refused_as(11, 0));
    assert_eq!(with_values(&["40200000", "bf000000", "7f800000"]), refused_as(12, 2));
    assert_eq!(with_values(&["40200000", "ffffffff", "7f800000"]), refused_as(12, 1));
    assert_eq!(with_values(&["80000000", "00000000", "3f800000"]), refused_as(20, 0));
    assert_eq!(with_values(&["80000000", "00000000", "7fc00000"]), refused_as(12, 2));
    // The run text's form comes before all of these.
    let text = [&[HEADER, "80000000 9 9 9 9 9 999", "value"], &VALUES[..2]].concat();
    assert_eq!(printed(&text), refused_as(14, 6));
}
