//! The faults of block sheets that the harness finds.

use super::found::{found, messages};
use super::{Fault, Faulty};
use crate::generate::block_limits;
use crate::generate::cases::Case;
use crate::harness::Failure;
use crate::harness::check::check;
use crate::interface::ENTRY_BYTES;

/// The entries of a failing call on a block sheet.
fn entries(failure: &Failure) -> usize {
    match &failure.case {
        Case::ReadBlocks(case) => {
            case.text.iter().filter(|&&byte| byte == b'\n').count().saturating_sub(3)
        }
        Case::WriteBlocks(case) => case.entries.len() / ENTRY_BYTES,
        other => panic!("found in {other:?}"),
    }
}

#[test]
fn faults_of_the_expansion() {
    for fault in [Fault::BlocksShiftedBack, Fault::ShiftNotReduced, Fault::BlocksByColumn] {
        let failure = found(fault);
        assert!(entries(&failure) <= 4, "{fault:?}");
    }
    assert!(entries(&found(Fault::BlockCountsExchanged)) <= 4);
}

#[test]
fn faults_in_the_order_of_17() {
    let [as_2, before_3, after_4, place] = messages([
        Fault::SizeZeroAsTwo,
        Fault::SeventeenBeforeThree,
        Fault::SeventeenAfterFour,
        Fault::SeventeenWithoutPlace,
    ]);
    assert_eq!(as_2, "the answer is Refused(2), not Refused(17)");
    assert_eq!(before_3, "the answer is Refused(17), not Refused(3)");
    assert_eq!(after_4, "the answer is Refused(4), not Refused(17)");
    assert!(place.starts_with("the place of Refused(17) is 0, not "));
}

#[test]
fn faults_that_admit_too_much() {
    let [pair, shift, product, wide] = messages([
        Fault::BlockPairTwice,
        Fault::ShiftOfSizeAdmitted,
        Fault::BlockProductWrapped,
        Fault::BlockNumbersOf32Bits,
    ]);
    // Another answer, or the graph's own 4 with its own place.
    assert!(pair.contains("Refused(4)"), "{pair}");
    assert!(shift.ends_with(", not Refused(17)"), "{shift}");
    assert!(product.ends_with(", not Refused(2)"), "{product}");
    assert!(wide.contains(", not Refused("), "{wide}");
}

/// What the harness says of the first input around the limits that fails. It is not shrunk, since
/// the expansions of its smaller neighbours are strips.
fn message_at_limits(fault: Fault) -> String {
    let cases = block_limits::cases();
    let mut failures = cases.iter().filter_map(|case| check(case, &Faulty(fault), 1).err());
    failures.next().unwrap_or_else(|| panic!("{fault:?} is not found"))
}

#[test]
fn faults_at_the_limit_of_entries() {
    let form = message_at_limits(Fault::FormBeforeBlockLimit);
    assert_eq!(form, "the answer is Refused(1), not Refused(2)");
    let rounded = message_at_limits(Fault::BlockLimitRoundedUp);
    assert!(rounded.contains("Refused(2)"), "{rounded}");
}

#[test]
fn faults_of_places() {
    let [top, row, writer] = messages([
        Fault::BlockPlaceWithoutTop,
        Fault::BlockPlaceByRow,
        Fault::BlockWriterWithoutPlace,
    ]);
    assert!(top.starts_with("the place of Refused("), "{top}");
    assert!(row.starts_with("the place of Refused(5) is "), "{row}");
    assert!(writer.contains(" is 0, not "), "{writer}");
    let failure = found(Fault::BlockWriterWithoutPlace);
    assert!(matches!(failure.case, Case::WriteBlocks(_)));
}

#[test]
fn faults_of_lent_lists() {
    let [stored, left, after_5] = messages([
        Fault::BlockListStoredBeforeFive,
        Fault::BlockDegreesLeftOut,
        Fault::BlockDegreesAfterFive,
    ]);
    assert!(stored.contains(" of starts is "), "{stored}");
    assert!(left.contains(" of degrees is "), "{left}");
    assert_eq!(after_5, "the answer is Refused(5), not Refused(6)");
}

#[test]
fn faults_of_the_writer() {
    let [part, text, past] =
        messages([Fault::BlockPartRead, Fault::BlockTextBeforeFive, Fault::BlockTextWrittenPast]);
    assert!(part.starts_with("the answer is "), "{part}");
    assert_eq!(text, "the answer is Refused(6), not Refused(5)");
    assert!(past.contains(" of text is 00, not "), "{past}");
}
