//! The faults of the writing side that the harness finds.

use super::found::{SEED, found, messages};
use super::{Fault, Faulty};
use crate::generate::cases::Case;
use crate::generate::encoding::{EncodeCase, encode_case};
use crate::generate::{Lists, encode_limits};
use crate::harness::check::check;
use crate::harness::{Failure, is_decoded};
use crate::interface::NUMBER_BYTES;
use crate::random::Random;

fn case_of(failure: &Failure) -> &EncodeCase {
    match &failure.case {
        Case::Encode(case) => case,
        other => panic!("found in {other:?}"),
    }
}

/// What the harness says of a fault of the word, which is shown by so many entries and bits.
fn shown_by(fault: Fault, entries: usize, bits: usize) -> String {
    let failure = found(fault);
    let case = case_of(&failure);
    assert!(case.columns.len() / NUMBER_BYTES <= entries, "{fault:?}");
    assert!(case.given.len() <= bits, "{fault:?}");
    failure.message
}

#[test]
fn faults_of_the_word() {
    // Both bits of one check; the second is the higher.
    assert_eq!(shown_by(Fault::FreeBitsAsOne, 2, 0), "byte 0 of codeword is 01, not 00");
    let first_pivot = shown_by(Fault::FirstPivot, 8, 2);
    assert!(first_pivot.contains(" of codeword is "), "{first_pivot}");
    let not_held = shown_by(Fault::GivenBitNotHeld, 2, 1);
    assert!(not_held.contains(" of codeword is 00, not 01"), "{not_held}");
    for fault in [Fault::RightSideNotAdded, Fault::ChecksAboveNotCleared, Fault::WorkTakenAsLent] {
        let message = shown_by(fault, 12, 2);
        let another = message.contains(" of codeword is ") || message.contains("Refused(19)");
        assert!(another, "{fault:?}: {message}");
    }
}

#[test]
fn faults_of_19() {
    for fault in [Fault::NineteenWithARowToUse, Fault::NineteenOfEmptyChecks] {
        let message = shown_by(fault, 4, 2);
        assert_eq!(message, "the answer is Refused(19), not Accepted(())", "{fault:?}");
    }
    for (fault, entries) in [
        (Fault::NineteenMissed, 2),
        (Fault::NineteenOfSingleChecks, 8),
        (Fault::NineteenWithoutLastCheck, 2),
    ] {
        assert_eq!(shown_by(fault, entries, 2), "the answer is Accepted(()), not Refused(19)");
    }
}

#[test]
fn faults_of_the_work() {
    for fault in [Fault::WorkLeftAfterNineteen, Fault::WorkLeftAfterCodeword] {
        let message = shown_by(fault, 4, 2);
        assert!(message.contains(" of work is 01, not 00"), "{message}");
    }
    for fault in [Fault::WorkClearedBySix, Fault::WorkClearedByEighteen, Fault::WorkWrittenPast] {
        let message = shown_by(fault, 8, 1);
        assert!(message.contains(" of work is 00, not "), "{message}");
    }
    for fault in [Fault::WorkNotMeasured, Fault::CodewordNotMeasured] {
        assert_eq!(shown_by(fault, 2, 0), "the answer is Accepted(()), not Refused(6)");
    }
}

#[test]
fn faults_of_the_codeword_lent() {
    for fault in [Fault::CodewordBeforeNineteen, Fault::CodewordClearedByNineteen] {
        let message = shown_by(fault, 2, 2);
        assert!(message.starts_with("byte 0 of codeword is "), "{message}");
    }
    let not_cleared = shown_by(Fault::CodewordNotCleared, 2, 0);
    assert!(not_cleared.ends_with(", not 00"), "{not_cleared}");
    let past = shown_by(Fault::CodewordWrittenPast, 2, 0);
    assert!(past.starts_with("byte 2 of codeword is 00, not "), "{past}");
}

#[test]
fn faults_that_admit_positions_and_bits() {
    for fault in [
        Fault::EqualPositionAdmitted,
        Fault::FallingPositionAdmitted,
        Fault::PositionOfNAdmitted,
        Fault::MoreBitsAdmitted,
        Fault::MorePositionsAdmitted,
    ] {
        let message = shown_by(fault, 2, 2);
        assert!(message.ends_with(", not Refused(18)"), "{fault:?}: {message}");
    }
    let part = shown_by(Fault::PartOfPositionRead, 2, 1);
    assert!(part.contains("Refused(18)"), "{part}");
    let two = shown_by(Fault::BitOf2Admitted, 2, 1);
    assert!(two.ends_with(", not Refused(15)"), "{two}");
}

/// What the harness says of the first input at the limits that fails. It is not shrunk, since
/// what is one past a limit, or of whole bytes, no longer is when anything is cut.
fn message_at_limits(fault: Fault) -> String {
    let cases = encode_limits::cases(&mut Random::new(SEED));
    let mut failures = cases.iter().filter_map(|case| check(case, &Faulty(fault), 1).err());
    failures.next().unwrap_or_else(|| panic!("{fault:?} is not found"))
}

#[test]
fn faults_at_the_limits() {
    for fault in [Fault::N2049Admitted, Fault::M513Admitted] {
        assert_eq!(message_at_limits(fault), "the answer is Accepted(()), not Refused(2)");
    }
    let counted = message_at_limits(Fault::DegreesChangedByTwo);
    assert!(counted.contains(" of degrees is "), "{counted}");
    let right_side = message_at_limits(Fault::WorkWithoutRightSide);
    assert_eq!(right_side, "the answer is Accepted(()), not Refused(6)");
    // Position 256 is 0, which is not above its predecessor, or another variable.
    let of_8_bits = message_at_limits(Fault::PositionsOf8Bits);
    assert!(of_8_bits.contains("Refused(18)") || of_8_bits.contains("codeword"), "{of_8_bits}");
    let entries = message_at_limits(Fault::WritingEntriesOfProgram);
    assert_eq!(entries, "the answer is Refused(2), not Refused(7)");
    let [after_7] = messages([Fault::WritingLimitsAfterSeven]);
    assert_eq!(after_7, "the answer is Refused(7), not Refused(2)");
}

#[test]
fn faults_in_the_order_of_refusals() {
    let [before_18, before_15, before_6, before_5] = messages([
        Fault::FifteenBeforeEighteen,
        Fault::SixBeforeFifteen,
        Fault::NineteenBeforeSix,
        Fault::EighteenBeforeFive,
    ]);
    assert_eq!(before_18, "the answer is Refused(15), not Refused(18)");
    assert_eq!(before_15, "the answer is Refused(6), not Refused(15)");
    assert_eq!(before_6, "the answer is Refused(19), not Refused(6)");
    assert_eq!(before_5, "the answer is Refused(18), not Refused(5)");
}

#[test]
fn faults_of_places_and_degrees() {
    let [last, without, of_18, of_19] = messages([
        Fault::LastBadBit,
        Fault::FifteenWithoutPlace,
        Fault::EighteenWithPlace,
        Fault::NineteenWithPlace,
    ]);
    assert!(last.starts_with("the place of Refused(15) is "), "{last}");
    assert!(without.starts_with("the place of Refused(15) is 0, not "), "{without}");
    assert!(of_18.starts_with("the place of Refused(18) is "), "{of_18}");
    assert_eq!(of_19, "the place of Refused(19) is 1, not 0");
    let [left, by_place] =
        messages([Fault::DegreesLeftByWriting, Fault::DegreesLeftByWritingPlace]);
    assert!(left.contains(" of degrees is "), "{left}");
    assert!(by_place.starts_with("after the companion, byte "), "{by_place}");
}

/// By what the calls say of each other alone.
#[test]
fn words_that_are_no_codewords() {
    let case = encode_case(&Lists::from_rows(3, &[vec![0, 1], vec![1, 2]]), &[]);
    let said = |fault: Fault, word: [u8; 3]| is_decoded(&case, &word, &Faulty(fault));
    assert_eq!(said(Fault::None, [0, 0, 0]), Ok(()));
    assert_eq!(said(Fault::None, [1, 1, 1]), Ok(()));
    let odd = said(Fault::None, [1, 1, 0]).unwrap_err();
    assert_eq!(odd, "1 checks are odd in what is given for a codeword");
    // A decoder that finds other bits, or none.
    assert!(said(Fault::AllZeroBits, [1, 1, 1]).is_err());
    assert!(said(Fault::RefusedThroughout, [1, 1, 1]).is_err());
}
