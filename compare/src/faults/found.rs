//! The faults that the harness finds, and how small it makes the input that shows them.

use super::{Fault, Faulty};
use crate::fast::Fast;
use crate::generate::cases::{self, Case};
use crate::harness::check::check;
use crate::harness::{self, Budget, Failure};
use crate::interface::{ENTRY_BYTES, NUMBER_BYTES};
use crate::random::Random;

pub const SEED: u64 = 7;

/// What the harness finds. The faults of pairs are in their call alone, and the others are not in
/// it.
pub fn found(fault: Fault) -> Failure {
    let wanted = |case: &Case| matches!(case, Case::Pair(_)) == fault.is_of_pairs();
    let series = harness::run_on(&Faulty(fault), SEED, Budget::Inputs(20_000), wanted);
    let failure = series.failure.unwrap_or_else(|| panic!("{fault:?} is not found"));
    println!("{fault:?}: {failure}");
    failure
}

/// The graph entries of a failing decode, and its iteration limit; a codeword that encode gave is
/// decoded with limit 0.
pub fn size(failure: &Failure) -> (usize, u32) {
    match &failure.case {
        Case::Decode(case) => (case.entries(), case.settings.limit),
        Case::Twin(case) => (case.decode.entries(), case.decode.settings.limit),
        Case::Encode(case) => (case.columns.len() / NUMBER_BYTES, 0),
        Case::Run(case) => (case.decode.entries(), case.decode.settings.limit),
        Case::Advance(case) => (case.entries(), case.settings.limit),
        Case::Pair(case) => (case.first.entries(), case.first.settings.limit),
        other => panic!("found in {other:?}"),
    }
}

#[test]
fn nothing_without_a_fault() {
    let series = harness::run(&Faulty(Fault::None), SEED, Budget::Inputs(14_000));
    assert_eq!(series.inputs, 14_000);
    assert!(series.failure.is_none());
}

#[test]
fn nothing_in_the_fast_decoder() {
    let series = harness::run(&Fast, SEED, Budget::Inputs(30_000));
    assert_eq!(series.inputs, 30_000);
    assert!(series.failure.is_none());
    // Every refusal of each call is among the inputs.
    for number in [2, 3, 4, 5, 6, 7, 8, 9, 10, 11, 12, 13, 16, 20] {
        assert!(series.tally.contains_key(&("decode", number)), "decode {number}");
    }
    for number in [0, 2, 3, 4, 5, 6, 7, 8, 9, 10, 11, 12, 13, 16, 20] {
        assert!(series.tally.contains_key(&("begin", number)), "begin {number}");
    }
    for number in [0, 2, 3, 4, 5, 6, 7, 8, 9, 16, 21] {
        assert!(series.tally.contains_key(&("advance", number)), "advance {number}");
    }
    for number in [1, 2, 3, 4, 5, 6] {
        assert!(series.tally.contains_key(&("read", number)), "read {number}");
    }
    for number in [2, 3, 4, 5, 6, 7] {
        assert!(series.tally.contains_key(&("write", number)), "write {number}");
    }
    for number in [1, 2, 3, 4, 5, 6, 17] {
        assert!(series.tally.contains_key(&("read blocks", number)), "read blocks {number}");
    }
    for number in [2, 3, 4, 5, 6, 17] {
        assert!(series.tally.contains_key(&("write blocks", number)), "write blocks {number}");
    }
    for number in [2, 3, 4, 5, 6, 7, 15, 18, 19] {
        assert!(series.tally.contains_key(&("encode", number)), "encode {number}");
    }
    for number in [2, 3, 4, 5, 6, 7, 8, 9, 10, 11, 12, 13, 16, 20] {
        assert!(series.tally.contains_key(&("pair, first head", number)), "first head {number}");
    }
    for number in [6, 8, 9, 10, 11, 12, 13, 16, 20] {
        assert!(series.tally.contains_key(&("pair, second head", number)), "second head {number}");
    }
    for number in [0, 6, 22] {
        assert!(series.tally.contains_key(&("pair", number)), "pair {number}");
    }
    assert!(series.iterations.contains_key(&255));
}

#[test]
fn a_tie_to_bit_0() {
    // A variable of degree 1 and its partners tie in the first iteration: one is exposed.
    let (entries, limit) = size(&found(Fault::TieToBit0));
    assert!(entries <= 4 && limit == 1, "{entries} {limit}");
}

#[test]
fn negative_zero_as_plus() {
    assert_eq!(size(&found(Fault::NegativeZeroAsPlus)), (2, 0));
}

#[test]
fn own_message_counted() {
    assert_eq!(size(&found(Fault::OwnMessageCounted)), (2, 1));
}

#[test]
fn other_ways_astray() {
    assert_eq!(size(&found(Fault::RoundedUp)), (2, 0));
    assert!(size(&found(Fault::Phi0WhereNqIs1)).0 <= 12);
    assert!(size(&found(Fault::OffsetPastNq)).0 <= 16);
}

#[test]
fn the_reviewers_checklist() {
    for fault in [
        Fault::AllZeroBits,
        Fault::NoIterations,
        Fault::StoppedBeforeTheLimit,
        Fault::IterationRepeated,
        Fault::CountNotItsOwn,
        Fault::RefusedThroughout,
    ] {
        assert!(size(&found(fault)).0 <= 12);
    }
}

#[test]
fn faults_of_the_run_and_its_buffers() {
    for fault in [
        Fault::DegreeOneAsEven,
        Fault::LastStepDoneToo,
        Fault::VarianceDividedLast,
        Fault::VarianceRead,
        Fault::BuffersBeforeValues,
        Fault::LastBadValue,
        Fault::BytePastTheLength,
        Fault::WrittenWhenRefused,
    ] {
        assert!(size(&found(fault)).0 <= 12);
    }
}

#[test]
fn faults_of_sheets() {
    for fault in
        [Fault::CarriageReturnsRead, Fault::LastLineFeedOptional, Fault::WideNumbersWrapped]
    {
        assert!(matches!(found(fault).case, Case::Read(_)));
    }
    assert!(matches!(found(Fault::TextLengthOneMore).case, Case::Write(_)));
}

#[test]
fn faults_of_lifting() {
    for fault in [
        Fault::LiftedFromTheNextOn,
        Fault::LiftedInPosteriorOnly,
        Fault::LiftedInOutgoingOnly,
        Fault::EveryMagnitudeLifted,
        Fault::LiftedAsStored,
        Fault::FirstMessagesLifted,
        Fault::LevelsLifted,
        Fault::PlusAloneLifted,
        Fault::NeverWrappedToZero,
    ] {
        let (entries, limit) = size(&found(fault));
        assert!(entries <= 12 && limit <= 3, "{fault:?}: {entries} {limit}");
    }
}

/// Twin runs find by themselves that messages of one sign alone are lifted.
#[test]
fn twins_that_lift_one_sign() {
    let decoder = Faulty(Fault::PlusAloneLifted);
    let inputs = (0..3_000).map(|input| cases::any(&mut Random::for_input(SEED, input)));
    let twins = inputs.filter(|case| matches!(case, Case::Twin(_)));
    let failures: Vec<String> = twins.filter_map(|case| check(&case, &decoder, 1).err()).collect();
    assert!(failures.len() >= 15, "{} twins fail", failures.len());
    assert!(failures.iter().all(|message| message.contains("twin")));
}

#[test]
fn faults_of_liftings_bounds() {
    let admitted = messages([
        Fault::WOfNqAdmitted,
        Fault::W16Admitted,
        Fault::WUnreadWhereNever,
        Fault::L0Admitted,
        Fault::L257Admitted,
    ]);
    assert!(admitted.iter().all(|message| message.contains("not Refused(16)")));
    let [before_9, after_10, place] =
        messages([Fault::SixteenBeforeNine, Fault::SixteenAfterTen, Fault::SixteenWithPlace]);
    assert_eq!(before_9, "the answer is Refused(16), not Refused(9)");
    assert_eq!(after_10, "the answer is Refused(10), not Refused(16)");
    assert_eq!(place, "the place of Refused(16) is 1, not 0");
}

/// What the harness says of each of these faults, which is shown by a small graph or sheet.
pub fn messages<const COUNT: usize>(faults: [Fault; COUNT]) -> [String; COUNT] {
    faults.map(|fault| {
        let failure = found(fault);
        let entries = match &failure.case {
            Case::Read(case) | Case::ReadBlocks(case) => {
                case.text.iter().filter(|&&byte| byte == b'\n').count()
            }
            Case::Write(case) => case.columns.len() / NUMBER_BYTES,
            Case::WriteBlocks(case) => case.entries.len() / ENTRY_BYTES,
            Case::Decode(_) | Case::Twin(_) | Case::Encode(_) => size(&failure).0,
            Case::Run(_) | Case::Advance(_) | Case::Pair(_) => size(&failure).0,
        };
        assert!(entries <= 128, "{fault:?}");
        failure.message
    })
}

#[test]
fn faults_in_the_order_of_the_degrees() {
    let [after_5, before_4] = messages([Fault::DegreesAfterFive, Fault::DegreesBeforeFour]);
    assert_eq!(after_5, "the answer is Refused(5), not Refused(6)");
    assert_eq!(before_4, "the answer is Refused(6), not Refused(4)");
}

#[test]
fn faults_of_the_list_of_degrees() {
    let changed = messages([
        Fault::DegreesChangedByFour,
        Fault::DegreesChangedBySix,
        Fault::DegreesCountedPastN,
    ]);
    assert!(changed.iter().all(|message| message.contains(" of degrees is 00, not ")));
    let left = messages([Fault::DegreesLeftAfterFive, Fault::DegreesLeftByLaterRefusals]);
    assert!(left.iter().all(|message| message.contains(" of degrees is ")));
    let [companion] = messages([Fault::DegreesLeftByCompanion]);
    assert!(companion.starts_with("after the companion, byte "));
    assert!(companion.contains(" of degrees is "));
}

#[test]
fn faults_of_numbers_cut_to_16_bits() {
    let [starts, columns] = messages([Fault::StartsOf16Bits, Fault::ColumnsOf16Bits]);
    // Another answer, or another place of this one.
    assert!(starts.contains("Refused(7)"));
    assert!(columns.contains("not Refused(3)"));
}

/// Found before the strips, in a sheet of 32,769 entries.
#[test]
fn the_old_limit_in_the_reader() {
    let series = harness::run(&Faulty(Fault::OldLimitInReader), SEED, Budget::Inputs(5_000));
    let failure = series.failure.expect("the fault is found");
    assert!(failure.message.starts_with("the answer is Refused(2), not "));
    let Case::Read(case) = &failure.case else {
        panic!("found in {:?}", failure.case);
    };
    assert!(case.text.iter().filter(|&&byte| byte == b'\n').count() >= 3 + 32_768);
}
