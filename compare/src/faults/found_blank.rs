//! The faults of blank frames that the harness finds.

use super::found::{SEED, messages};
use super::{Fault, Faulty};
use crate::generate::cases::{self, Case};
use crate::generate::{blank_cases, blank_orders};
use crate::harness::check::check;
use crate::random::Random;

#[test]
fn frames_that_are_decoded_though_blank() {
    for message in messages([
        Fault::BlankDecoded,
        Fault::ThresholdExposed,
        Fault::PlusZeroAloneUnexposed,
        Fault::ZeroAloneUnexposed,
        Fault::UnexposedByExactProduct,
    ]) {
        let decoded = message.starts_with("the answer is Accepted(");
        let by_decode = decoded && message.ends_with(", not Refused(20)");
        assert!(by_decode || message.contains(" a blank of a twin run"), "{message}");
    }
}

#[test]
fn frames_that_are_blank_though_exposed() {
    for message in messages([
        Fault::BlankByFirst,
        Fault::BlankByLast,
        Fault::BlankWithoutLast,
        Fault::BlankBySome,
        Fault::UnscaledUnexposed,
        Fault::UnexposedByGainAlone,
        Fault::SubnormalUnexposed,
        Fault::MinusUnexposed,
    ]) {
        let by_decode = message.contains("Refused(20)");
        assert!(by_decode || message.contains(" a blank of a twin run"), "{message}");
    }
}

#[test]
fn faults_in_the_order_of_20() {
    let [after_6, before_12, before_11, before_13] = messages([
        Fault::TwentyAfterSix,
        Fault::TwentyBeforeTwelve,
        Fault::TwentyBeforeEleven,
        Fault::TwentyBeforeThirteen,
    ]);
    assert_eq!(after_6, "the answer is Refused(6), not Refused(20)");
    assert_eq!(before_12, "the answer is Refused(20), not Refused(12)");
    assert_eq!(before_11, "the answer is Refused(20), not Refused(11)");
    assert_eq!(before_13, "the answer is Refused(20), not Refused(13)");
}

#[test]
fn faults_of_what_a_20_leaves() {
    let [written, place] = messages([Fault::LevelBeforeTwenty, Fault::TwentyWithPlace]);
    let of_twins = "a blank twin run changes what it was lent";
    assert!(written == of_twins || written.starts_with("byte 0 of levels is "), "{written}");
    assert_eq!(place, "the place of Refused(20) is 1, not 0");
    let decoder = Faulty(Fault::LevelBeforeTwenty);
    let orders = blank_orders::cases();
    let written = orders.iter().find_map(|case| check(case, &decoder, 1).err()).unwrap_or_default();
    assert!(written.starts_with("byte 0 of levels is "), "{written}");
}

/// Whether one of these inputs shows a fault.
fn is_shown(fault: Fault, cases: &[Case]) -> bool {
    cases.iter().any(|case| check(case, &Faulty(fault), 1).is_err())
}

/// The chosen frames show every fault, without the random ones.
#[test]
fn chosen_frames_show_every_fault() {
    let cases = [blank_cases::cases(), blank_orders::cases()].concat();
    assert!(!is_shown(Fault::None, &cases));
    for fault in [
        Fault::BlankByFirst,
        Fault::BlankByLast,
        Fault::BlankWithoutLast,
        Fault::BlankBy16Bits,
        Fault::BlankBySome,
        Fault::BlankDecoded,
        Fault::ThresholdExposed,
        Fault::PlusZeroAloneUnexposed,
        Fault::ZeroAloneUnexposed,
        Fault::UnscaledUnexposed,
        Fault::UnexposedByGainAlone,
        Fault::UnexposedByExactProduct,
        Fault::SubnormalUnexposed,
        Fault::MinusUnexposed,
        Fault::TwentyAfterSix,
        Fault::TwentyBeforeTwelve,
        Fault::TwentyBeforeEleven,
        Fault::TwentyBeforeThirteen,
        Fault::LevelBeforeTwenty,
        Fault::TwentyWithPlace,
    ] {
        assert!(is_shown(fault, &cases), "{fault:?}");
    }
}

/// Twin runs find by themselves that a sign makes or cures a blank, or that a blank leaves a trace.
#[test]
fn twins_that_make_or_cure_a_blank() {
    let inputs = (0..12_000).map(|input| cases::any(&mut Random::for_input(SEED, input)));
    let twins: Vec<Case> = inputs.filter(|case| matches!(case, Case::Twin(_))).collect();
    let said = |fault: Fault| -> Vec<String> {
        twins.iter().filter_map(|case| check(case, &Faulty(fault), 1).err()).collect()
    };
    assert_eq!(said(Fault::None), Vec::<String>::new());
    for fault in [Fault::PlusZeroAloneUnexposed, Fault::MinusUnexposed] {
        let messages = said(fault);
        for what in ["makes a blank", "cures a blank"] {
            assert!(messages.iter().any(|message| message.contains(what)), "{fault:?}: {what}");
        }
    }
    let traces = said(Fault::LevelBeforeTwenty);
    assert!(traces.iter().all(|message| message.contains("changes what it was lent")));
    assert!(traces.len() > 10, "{}", traces.len());
}
