//! The faults of paused runs that the harness finds.

use super::found::{SEED, found, size};
use super::{Fault, Faulty};
use crate::generate::cases::{self, Case};
use crate::generate::{advance_cases, advance_orders, pause_cases};
use crate::harness::check::check;
use crate::random::Random;

/// What the harness says of a fault of a run that is carried on, which is shown by so many entries
/// at most.
fn shown_by(fault: Fault, entries: usize) -> String {
    let failure = found(fault);
    assert!(matches!(failure.case, Case::Run(_) | Case::Advance(_) | Case::Twin(_)), "{fault:?}");
    let shown = size(&failure).0;
    assert!(shown <= entries, "{fault:?}: {shown}");
    failure.message
}

#[test]
fn faults_of_the_step_that_was_left() {
    for fault in [
        Fault::LastStepLeftOut,
        Fault::LastStepAtHalt,
        Fault::ResumedIterationTwice,
        Fault::LastStepFromLentSums,
        Fault::LastStepLiftedLate,
        Fault::LastStepLiftedEarly,
        Fault::FirstMessagesMadeAnew,
        Fault::ZeroSentPlusOnResuming,
    ] {
        let message = shown_by(fault, 12);
        let another = message.contains(" messages is ") || message.starts_with("the answer is ");
        assert!(another, "{fault:?}: {message}");
    }
}

#[test]
fn faults_of_where_a_run_halts() {
    for fault in [
        Fault::LentBitsRead,
        Fault::CodewordRunOn,
        Fault::LimitRunPast,
        Fault::CountedFromZero,
        Fault::BeginRunsOn,
        Fault::BegunOpenAtLimit0,
        Fault::BegunStopped,
        Fault::StoppedAtHalt,
        Fault::UnsatisfiedBefore,
        Fault::IterationBefore,
    ] {
        let message = shown_by(fault, 12);
        assert!(message.starts_with("the answer is Accepted(Record "), "{fault:?}: {message}");
    }
}

#[test]
fn faults_that_admit_what_gets_21() {
    for fault in [
        Fault::FinishedAdvanced,
        Fault::AtLimitAdvanced,
        Fault::PastLimitAdvanced,
        Fault::CountAboveLimitAdmitted,
        Fault::RefusalByteUnread,
        Fault::VerdictAbove2Admitted,
        Fault::Unsatisfied0Admitted,
        Fault::UnsatisfiedUnbounded,
        Fault::LevelsUnjudged,
        Fault::VariableMessagesUnjudged,
        Fault::CheckMessagesUnjudged,
        Fault::CheckMessagesUnjudgedAt0,
        Fault::VariableMessagesUnjudgedLater,
        Fault::MessagesByChannelPrecision,
        Fault::MinusUnjudged,
        Fault::LastByteUnjudged,
        Fault::NothingToDoAccepted,
    ] {
        let message = shown_by(fault, 4);
        assert!(message.ends_with(", not Refused(21)"), "{fault:?}: {message}");
    }
}

#[test]
fn faults_that_refuse_what_can_be_carried_on() {
    for fault in [
        Fault::CountToLimitRefused,
        Fault::UnsatisfiedByGraph,
        Fault::LevelsByMessagePrecision,
        Fault::BytePastJudged,
    ] {
        let message = shown_by(fault, 4);
        assert!(message.starts_with("the answer is Refused(21), not Accepted("), "{message}");
    }
    let message = shown_by(Fault::BlankLevelsRefused, 4);
    assert!(message.starts_with("the answer is Refused(20), not "), "{message}");
}

#[test]
fn faults_in_the_order_of_refusals() {
    for (fault, given, first) in [
        (Fault::TwentyOneBeforeSix, 21, 6),
        (Fault::SixBeforeSixteen, 6, 16),
        (Fault::AdvanceSixteenBeforeNine, 16, 9),
        (Fault::NineBeforeEight, 9, 8),
        (Fault::EightBeforeFive, 8, 5),
    ] {
        let message = shown_by(fault, 64);
        let expected = format!("the answer is Refused({given}), not Refused({first})");
        assert_eq!(message, expected, "{fault:?}");
    }
}

#[test]
fn faults_of_what_an_advance_leaves() {
    let written = shown_by(Fault::LevelsWritten, 4);
    assert!(written.contains(" of levels is "), "{written}");
    for fault in [Fault::AdvanceBytePast, Fault::NothingToDoWritten, Fault::WrittenByTwentyOne] {
        let message = shown_by(fault, 4);
        assert!(message.starts_with("byte "), "{fault:?}: {message}");
    }
    let left = shown_by(Fault::DegreesLeftByAdvance, 4);
    assert!(left.contains(" of degrees is "), "{left}");
    let by_place = shown_by(Fault::DegreesLeftByAdvancePlace, 4);
    assert!(by_place.starts_with("after the companion, byte "), "{by_place}");
    let missing = shown_by(Fault::AdvancePlaceMissing, 64);
    assert!(missing.starts_with("the place of Refused(") && missing.contains(" is 0, not "));
    let always = shown_by(Fault::AdvanceAlwaysWithPlace, 4);
    assert!(always.ends_with(" is 1, not 0"), "{always}");
}

/// Whether one of these inputs shows a fault.
fn is_shown(fault: Fault, cases: &[Case]) -> bool {
    cases.iter().any(|case| check(case, &Faulty(fault), 1).is_err())
}

/// The chosen inputs show the faults that are asked for, without the random ones: runs show what a
/// run that was begun can show, states and their orders the rest.
#[test]
fn chosen_inputs_show_faults() {
    let runs: Vec<Case> =
        pause_cases::cases().into_iter().filter(|case| matches!(case, Case::Run(_))).collect();
    let states = [advance_cases::cases(), advance_orders::cases()].concat();
    assert!(!is_shown(Fault::None, &runs));
    assert!(!is_shown(Fault::None, &states));
    for fault in [
        Fault::LastStepLeftOut,
        Fault::LastStepAtHalt,
        Fault::ResumedIterationTwice,
        Fault::LastStepLiftedLate,
        Fault::LastStepLiftedEarly,
        Fault::FinishedAdvanced,
        Fault::CountAboveLimitAdmitted,
        Fault::StoppedAtHalt,
        Fault::UnsatisfiedBefore,
        Fault::CodewordRunOn,
        Fault::CountedFromZero,
        Fault::BegunOpenAtLimit0,
        Fault::NothingToDoAccepted,
    ] {
        assert!(is_shown(fault, &runs), "{fault:?} by runs");
    }
    for fault in [
        Fault::LastStepLeftOut,
        Fault::LastStepFromLentSums,
        Fault::LastStepLiftedLate,
        Fault::LastStepLiftedEarly,
        Fault::FirstMessagesMadeAnew,
        Fault::LentBitsRead,
        Fault::FinishedAdvanced,
        Fault::AtLimitAdvanced,
        Fault::PastLimitAdvanced,
        Fault::CountAboveLimitAdmitted,
        Fault::UnsatisfiedByGraph,
        Fault::CheckMessagesUnjudgedAt0,
        Fault::VariableMessagesUnjudgedLater,
        Fault::MessagesByChannelPrecision,
        Fault::BytePastJudged,
        Fault::BlankLevelsRefused,
        Fault::TwentyOneBeforeSix,
        Fault::SixBeforeSixteen,
        Fault::AdvanceSixteenBeforeNine,
        Fault::NineBeforeEight,
        Fault::EightBeforeFive,
        Fault::LevelsWritten,
        Fault::AdvanceBytePast,
        Fault::WrittenByTwentyOne,
        Fault::DegreesLeftByAdvance,
    ] {
        assert!(is_shown(fault, &states), "{fault:?} by states");
    }
}

/// Twin runs find by themselves that a run that is carried on sends +0 for -0.
#[test]
fn twins_that_are_advanced_unlike_each_other() {
    let inputs = (0..3_000).map(|input| cases::any(&mut Random::for_input(SEED, input)));
    let twins: Vec<Case> = inputs.filter(|case| matches!(case, Case::Twin(_))).collect();
    let said = |fault: Fault| -> Vec<String> {
        twins.iter().filter_map(|case| check(case, &Faulty(fault), 1).err()).collect()
    };
    assert_eq!(said(Fault::None), Vec::<String>::new());
    let messages = said(Fault::ZeroSentPlusOnResuming);
    assert!(messages.iter().all(|message| message.contains("twin run")), "{messages:?}");
    assert!(messages.len() > 10, "{}", messages.len());
}
