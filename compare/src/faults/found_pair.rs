//! The faults of pairs of heads that the harness finds.

use super::found::{found, size};
use super::{Fault, Faulty};
use crate::generate::cases::Case;
use crate::generate::{pair_cases, pair_orders};
use crate::harness::check::check;
use crate::harness::{Promise, is_broken};

/// What the harness says of a fault, which is shown by so many entries at most.
fn shown_by(fault: Fault, entries: usize) -> String {
    let failure = found(fault);
    assert!(matches!(failure.case, Case::Pair(_)), "{fault:?}");
    let shown = size(&failure).0;
    assert!(shown <= entries, "{fault:?}: {shown}");
    failure.message
}

const OF_GRANTS: [Fault; 13] = [
    Fault::HalvesRoundedDown,
    Fault::HalvesRoundedUp,
    Fault::HalvesExchanged,
    Fault::RestOfOwnByFirst,
    Fault::RestOfOwnByBoth,
    Fault::RestOfOthersLimit,
    Fault::RestWrapped,
    Fault::RestLeftOut,
    Fault::RestByVerdictOfOther,
    Fault::RestBySignOfOther,
    Fault::MaxAndMinExchanged,
    Fault::SmallerOfHalfAndRest,
    Fault::WholeAllowanceForEach,
];

const OF_RUNS: [Fault; 7] = [
    Fault::IterationTwiceAtHalf,
    Fault::IterationMissingAtHalf,
    Fault::LastStepMissingAtHalf,
    Fault::LastStepAtGrant,
    Fault::SecondBySettingsOfFirst,
    Fault::SecondByLimitOfFirst,
    Fault::SecondByValuesOfFirst,
];

const OF_REPORTS: [Fault; 5] = [
    Fault::CutShortReportsLimit,
    Fault::CutShortReportsCountAlone,
    Fault::CutShortReportsCodeword,
    Fault::CutShortReportsOpen,
    Fault::ReportsExchanged,
];

#[test]
fn faults_of_what_is_granted() {
    for fault in OF_GRANTS {
        let message = shown_by(fault, 12);
        let another = message.starts_with("byte ") || message.contains(" head reports ");
        assert!(another, "{fault:?}: {message}");
    }
}

#[test]
fn faults_of_runs_that_go_on() {
    for fault in OF_RUNS {
        let message = shown_by(fault, 16);
        let another = message.starts_with("byte ") || message.starts_with("the pair is ");
        assert!(another, "{fault:?}: {message}");
    }
}

#[test]
fn faults_of_the_reports() {
    for fault in OF_REPORTS {
        let message = shown_by(fault, 8);
        let another = message.contains(" of reports is ") || message.contains(" head reports ");
        assert!(another, "{fault:?}: {message}");
    }
    let exchanged = shown_by(Fault::ListsExchanged, 4);
    assert!(exchanged.contains(" of the first "), "{exchanged}");
    let past = shown_by(Fault::PairBytePast, 4);
    assert!(past.contains(" of the second bits is 00, not "), "{past}");
    let past = shown_by(Fault::ReportsPast, 4);
    assert!(past.starts_with("byte 16 of reports is 00, not "), "{past}");
}

/// What is answered, and what is to be answered.
const OF_REFUSALS: [(Fault, &str, &str); 14] = [
    (Fault::SecondRefusedFirst, "head 2", "head 1"),
    (Fault::TwentyTwoBeforeFirst, "with 22, head 0", "head 1"),
    (Fault::TwentyTwoBeforeSecond, "with 22, head 0", "head 2"),
    (Fault::TwentyTwoOf0Alone, "accepted", "with 22, head 0"),
    (Fault::Allowance511Admitted, "accepted", "with 22, head 0"),
    (Fault::Allowance1Admitted, "accepted", "with 22, head 0"),
    (Fault::Allowance2Refused, "with 22, head 0", "accepted"),
    (Fault::AllowanceOf16Bits, "accepted", "with 22, head 0"),
    (Fault::ReportsBeforeTwentyTwo, "with 6, head 0", "with 22, head 0"),
    (Fault::ReportsBeforeSecond, "with 6, head 0", "head 2"),
    (Fault::ReportsOf15Admitted, "accepted", "with 6, head 0"),
    (Fault::HeadsExchangedInAnswer, "head ", "head "),
    (Fault::GraphOfNoHead, "head 0", "head 1"),
    (Fault::TwentyTwoOfSecond, "with 22, head 2", "with 22, head 0"),
];

#[test]
fn faults_of_what_is_refused() {
    for (fault, given, expected) in OF_REFUSALS {
        let message = shown_by(fault, 16);
        let (found, right) = message.split_once(", not ").expect("two answers");
        assert!(found.starts_with("the pair is "), "{fault:?}: {message}");
        assert!(found.contains(given) && right.contains(expected), "{fault:?}: {message}");
    }
    // Every pair is also given the largest allowance.
    let message = shown_by(Fault::Allowance510Refused, 4);
    assert!(message.contains(" refused with 22, head 0"), "{message}");
}

const OF_WHAT_IS_LEFT: [(Fault, &str); 8] = [
    (Fault::FirstWrittenWhereSecondRefused, "byte 0 of the first levels is "),
    (Fault::FirstWrittenByTwentyTwo, "byte 0 of the first levels is "),
    (Fault::ReportsWrittenWhenRefused, " of reports is 00, not "),
    (Fault::DegreesLeftWhereSecondRefused, " of degrees is "),
    (Fault::DegreesLeftByTwentyTwo, " of degrees is "),
    (Fault::DegreesLeftByPairPlace, "after the companion, byte "),
    (Fault::PairPlaceOfFirst, "the place of the pair refused with 1"),
    (Fault::PairPlaceOfTwentyTwo, "the place of the pair refused with 22, head 0 is 1, not 0"),
];

#[test]
fn faults_of_what_a_refused_pair_leaves() {
    for (fault, said) in OF_WHAT_IS_LEFT {
        let message = shown_by(fault, 16);
        assert!(message.contains(said), "{fault:?}: {message}");
    }
}

/// The chosen inputs show every one of them, without the random ones: pairs what an accepted one
/// can show, orders the rest.
#[test]
fn chosen_inputs_show_faults() {
    let is_shown = |fault: Fault, cases: &[Case]| {
        cases.iter().any(|case| check(case, &Faulty(fault), 1).is_err())
    };
    let (pairs, orders) = (pair_cases::cases(), pair_orders::cases());
    assert!(!is_shown(Fault::None, &pairs) && !is_shown(Fault::None, &orders));
    for fault in OF_GRANTS.into_iter().chain(OF_RUNS).chain(OF_REPORTS) {
        assert!(is_shown(fault, &pairs), "{fault:?} by pairs");
    }
    assert!(is_shown(Fault::ListsExchanged, &pairs));
    assert!(is_shown(Fault::Allowance510Refused, &pairs));
    let of_refusals = OF_REFUSALS.iter().map(|(fault, ..)| *fault);
    for fault in of_refusals.chain(OF_WHAT_IS_LEFT.map(|(fault, _)| fault)) {
        assert!(is_shown(fault, &[&orders[..], &pairs].concat()), "{fault:?} by orders");
    }
}

/// A decoder that breaks a promise is found by its own other calls, without the paper.
#[test]
fn promises_that_are_broken() {
    let cases = pair_cases::cases();
    let is_broken = |fault: Fault, promise: Promise| {
        let mut pairs = cases.iter().filter_map(|case| match case {
            Case::Pair(case) => Some(case),
            _ => None,
        });
        pairs.any(|case| is_broken(promise, case, &Faulty(fault)))
    };
    use Promise::{Exchanged, Grants, LargestAllowance, Reversed};
    for promise in [Grants, LargestAllowance, Reversed, Exchanged] {
        assert!(!is_broken(Fault::None, promise), "{promise:?}");
    }
    for fault in OF_GRANTS.into_iter().chain(OF_RUNS) {
        assert!(is_broken(fault, Grants), "{fault:?}");
    }
    for fault in [
        Fault::SecondBySettingsOfFirst,
        Fault::SecondByLimitOfFirst,
        Fault::SecondByValuesOfFirst,
        Fault::ListsExchanged,
        Fault::ReportsExchanged,
    ] {
        assert!(is_broken(fault, LargestAllowance), "{fault:?}");
    }
    assert!(is_broken(Fault::RestBySignOfOther, Reversed));
    assert!(is_broken(Fault::SecondByValuesOfFirst, Reversed));
    assert!(is_broken(Fault::RestByVerdictOfOther, Exchanged));
    assert!(is_broken(Fault::RestOfOthersLimit, Exchanged));
}
