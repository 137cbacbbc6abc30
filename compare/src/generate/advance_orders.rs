//! Every pair of what an advance turns down.

use super::Lists;
use super::cases::Case;
use super::pause::{AdvanceCase, open, saturated};
use super::settings::{PRECISIONS, plain};
use crate::interface::{NEVER, Refusal, Settings, number_bytes, numbers};

/// What is changed: two faults that change the same do not go together.
#[derive(Clone, Copy, PartialEq, Eq)]
enum Changed {
    Variables,
    Checks,
    Start(usize),
    Column(usize),
    Row,
    Degrees,
    Channel,
    Message,
    Offset,
    Limit,
    LiftFrom,
    LiftTo,
    Length(usize),
    Record,
    Count,
    Level,
}

/// A refusal with what brings it about. Those that come first stand first.
struct Fault {
    refusal: Refusal,
    changed: Changed,
    change: Box<dyn Fn(&mut AdvanceCase)>,
}

fn fault(
    number: u8,
    place: usize,
    changed: Changed,
    change: impl Fn(&mut AdvanceCase) + 'static,
) -> Fault {
    Fault { refusal: Refusal { number, place }, changed, change: Box::new(change) }
}

const N: usize = 4;
const M: usize = 3;
const ENTRIES: usize = 8;

/// Three checks with 8 entries, at iteration 1. Every lent list is longer than it must be, with a
/// byte at its end that is beyond every precision.
fn good(precisions: (u32, u32)) -> AdvanceCase {
    let lists = Lists::from_rows(N, &[vec![0, 1, 2], vec![1, 3], vec![0, 2, 3]]);
    let settings = Settings { limit: 4, lift_from: 2, ..plain(precisions) };
    let mut case = saturated(&lists, settings, 1);
    for list in [&mut case.levels, &mut case.variable_messages, &mut case.check_messages] {
        list.push(u8::MAX);
    }
    AdvanceCase { degrees: case.degrees + 5, sums: case.sums + 3, bits: case.bits + 1, ..case }
}

fn with_variables(n: usize) -> Fault {
    fault(2, 0, Changed::Variables, move |case| case.n = n)
}

/// No start, or one.
fn with_starts(count: usize) -> Fault {
    fault(2, 0, Changed::Checks, move |case| {
        case.starts = number_bytes(&numbers(&case.starts)[..count]);
    })
}

fn bad_start(place: usize, index: usize, start: u32) -> Fault {
    fault(7, place, Changed::Start(index), move |case| put(&mut case.starts, index, start))
}

fn bad_column(number: u8, index: usize, column: u32) -> Fault {
    fault(number, index, Changed::Column(index), move |case| {
        put(&mut case.columns, index, column);
    })
}

/// A number of a list, where the list has so many.
fn put(list: &mut [u8], index: usize, number: u32) {
    if let Some(place) = list.as_chunks_mut().0.get_mut(index) {
        *place = number.to_le_bytes();
    }
}

/// The graph's, with the list of degrees.
fn of_the_graph() -> Vec<Fault> {
    let mut faults = Vec::new();
    faults.extend([0, 1, 1_000_001, 1 << 32 | N, usize::MAX].map(with_variables));
    faults.extend([0, 1].map(with_starts));
    faults.extend([bad_start(0, 0, 1), bad_start(2, 2, 2)]);
    // The starts do not end at E.
    faults.push(fault(7, M, Changed::Row, |case| case.columns.extend([3, 0, 0, 0])));
    faults.extend([bad_column(3, 4, 1_000_000), bad_column(3, 7, 1 << 16 | 3)]);
    faults.extend([bad_column(4, 1, 0), bad_column(4, 6, 0)]);
    faults.push(fault(6, 0, Changed::Degrees, |case| case.degrees = 4 * N - 1));
    faults.push(fault(6, 0, Changed::Degrees, |case| case.degrees = 0));
    // A check of variable 3 alone; a variable that stands in no check.
    faults.push(fault(5, M, Changed::Row, |case| {
        case.columns.extend([3, 0, 0, 0]);
        // Not in the place of the first check.
        if case.starts.len() > 4 {
            case.starts.extend([ENTRIES as u8 + 1, 0, 0, 0]);
        }
    }));
    faults.push(fault(5, M + N, Changed::Variables, |case| case.n = N + 1));
    faults
}

fn setting(number: u8, changed: Changed, change: impl Fn(&mut Settings) + 'static) -> Fault {
    fault(number, 0, changed, move |case| change(&mut case.settings))
}

/// 8, 9 and 16.
fn of_the_settings() -> Vec<Fault> {
    vec![
        setting(8, Changed::Channel, |settings| settings.channel = 5),
        setting(8, Changed::Channel, |settings| settings.channel = 0),
        setting(8, Changed::Message, |settings| settings.message = 1),
        setting(8, Changed::Message, |settings| settings.message = 256 + settings.channel),
        setting(9, Changed::Offset, |settings| settings.phi_s = 2),
        setting(9, Changed::Offset, |settings| settings.phi_a = 256),
        setting(9, Changed::Offset, |settings| settings.phi_0 = u32::MAX),
        setting(9, Changed::Limit, |settings| settings.limit = 256),
        setting(9, Changed::Limit, |settings| settings.limit = u32::MAX),
        setting(16, Changed::LiftFrom, |settings| settings.lift_from = 0),
        setting(16, Changed::LiftFrom, |settings| settings.lift_from = NEVER + 1),
        setting(16, Changed::LiftTo, |settings| settings.lift_to = 1),
        setting(16, Changed::LiftTo, |settings| settings.lift_to = 16),
    ]
}

/// 6 for each list, one byte short and none, and 21.
fn of_the_run() -> Vec<Fault> {
    let mut faults = Vec::new();
    for missing in [1, usize::MAX] {
        let short = move |length: usize| length.saturating_sub(missing);
        let cut = move |list: &mut Vec<u8>, needed: usize| list.truncate(short(needed));
        let list = |list, change: Box<dyn Fn(&mut AdvanceCase)>| {
            fault(6, 0, Changed::Length(list), change)
        };
        faults.push(list(0, Box::new(move |case| cut(&mut case.levels, N))));
        faults.push(list(1, Box::new(move |case| cut(&mut case.variable_messages, ENTRIES))));
        faults.push(list(2, Box::new(move |case| cut(&mut case.check_messages, ENTRIES))));
        faults.push(list(3, Box::new(move |case| case.sums = short(4 * N))));
        faults.push(list(4, Box::new(move |case| case.bits = short(N))));
    }
    faults.push(fault(21, 0, Changed::Record, |case| case.record = 0));
    faults.push(fault(21, 0, Changed::Record, |case| case.record = open(4, 1)));
    faults.push(fault(21, 0, Changed::Record, |case| case.record = open(1, 0)));
    faults.push(fault(21, 0, Changed::Limit, |case| case.settings.limit = 0));
    faults.push(fault(21, 0, Changed::Count, |case| case.count = 5));
    faults.push(fault(21, 0, Changed::Count, |case| case.count = 257));
    for list in 0..3 {
        faults.push(fault(21, 0, Changed::Level, move |case| {
            let list = match list {
                0 => &mut case.levels,
                1 => &mut case.variable_messages,
                _ => &mut case.check_messages,
            };
            list.iter_mut().take(1).for_each(|byte| *byte = 8);
        }));
    }
    faults
}

/// Each fault alone and each two that go together, with the refusal that comes first.
fn numbered_cases(precisions: (u32, u32)) -> Vec<(Refusal, AdvanceCase)> {
    let mut faults = of_the_graph();
    faults.extend(of_the_settings());
    faults.extend(of_the_run());
    let mut cases = Vec::new();
    for (index, first) in faults.iter().enumerate() {
        let mut case = good(precisions);
        (first.change)(&mut case);
        for second in faults[index + 1..].iter().filter(|fault| fault.changed != first.changed) {
            let mut case = case.clone();
            (second.change)(&mut case);
            cases.push((first.refusal, case));
        }
        cases.push((first.refusal, case));
    }
    cases
}

/// Every other one has nothing to do.
pub fn cases() -> Vec<Case> {
    let precisions = PRECISIONS[3];
    let mut cases = vec![good(precisions)];
    for (index, (_, mut case)) in numbered_cases(precisions).into_iter().enumerate() {
        if index % 2 == 1 && case.count == 1 {
            case.count = 0;
        }
        cases.push(case);
    }
    cases.into_iter().map(Case::Advance).collect()
}

#[cfg(test)]
mod tests {
    use super::*;
    use crate::interface::NUMBER_BYTES;

    #[test]
    fn the_first_of_two_refusals_is_given() {
        for precisions in PRECISIONS {
            let outcome = |case: &AdvanceCase| {
                case.outcome(&mut vec![0; case.degrees / NUMBER_BYTES]).map(|(record, _)| record)
            };
            assert!(outcome(&good(precisions)).is_ok());
            let cases = numbered_cases(precisions);
            for (expected, case) in &cases {
                assert_eq!(outcome(case), Err(*expected), "{case:?}");
                let by_nothing = AdvanceCase { count: 0, ..case.clone() };
                if case.count == 1 {
                    assert_eq!(outcome(&by_nothing), Err(*expected), "{case:?}");
                }
            }
            println!("{} cases", cases.len());
        }
    }
}
