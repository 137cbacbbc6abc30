//! Every pair of what decode turns down after the graph's refusals.

use super::Lists;
use super::cases::{Case, DecodeCase, decode_case};
use super::lifting::{BAD_FROM, BAD_TO};
use super::settings::{PRECISIONS, plain};
use crate::interface::{LARGEST_LIFT, NEVER, f32_bytes};
use crate::paper::quantiser::largest_magnitude;

/// The order in which they are looked for: "16, directly after 9", and 20 "after 12 and before 6".
const ORDER: [u8; 9] = [13, 8, 9, 16, 10, 11, 12, 20, 6];

/// A refusal's number, and a change that brings it about beside any other.
type Fault = (u8, Box<dyn Fn(&mut DecodeCase)>);

fn fault(number: u8, change: impl Fn(&mut DecodeCase) + 'static) -> Fault {
    (number, Box::new(change))
}

/// Everything but 16. Of two faults the later one's change is made first: a blank frame may then
/// be cut or spoilt.
fn others() -> Vec<Fault> {
    vec![
        fault(13, |case| case.values.truncate(8)),
        fault(13, |case| case.values.extend([0; 4])),
        fault(8, |case| case.settings.channel = 5),
        fault(8, |case| case.settings.channel = 0),
        fault(9, |case| case.settings.phi_s = 2),
        fault(9, |case| case.settings.phi_a = 256),
        fault(9, |case| case.settings.phi_0 = u32::MAX),
        fault(9, |case| case.settings.limit = 256),
        fault(10, |case| case.settings.variance = 0.0),
        fault(10, |case| case.settings.kind = 2),
        // Twice the largest f32.
        fault(11, |case| case.settings.gain = f32::MAX),
        fault(12, |case| case.values[..4].copy_from_slice(&f32_bytes(&[f32::NAN]))),
        fault(6, |case| case.lent.bits -= 1),
        fault(6, |case| case.lent.check_messages = 0),
        fault(20, |case| case.values = f32_bytes(&[-0.0, 0.0, -0.0])),
        // With a factor of 1, at the first threshold.
        fault(20, |case| case.values = f32_bytes(&[1.0, -1.0, 1.0])),
    ]
}

/// L and W outside their bounds.
fn lifting(from: u32, to: u32) -> Fault {
    fault(16, move |case| (case.settings.lift_from, case.settings.lift_to) = (from, to))
}

/// Each bad L with W at its ends; each bad W with L at its ends, never among them.
fn every_lifting(nq: u32) -> Vec<Fault> {
    let with_to = |from: u32| [nq + 1, LARGEST_LIFT].map(|to| lifting(from, to));
    let with_from = |to: u32| [1, 255, NEVER].map(|from| lifting(from, to));
    let bad_to = BAD_TO.into_iter().chain([nq, nq + 257]);
    BAD_FROM.into_iter().flat_map(with_to).chain(bad_to.flat_map(with_from)).collect()
}

/// Those that stand beside every other fault.
fn some_liftings(nq: u32) -> Vec<Fault> {
    let mut faults = vec![lifting(0, nq), lifting(1, nq), lifting(NEVER, nq)];
    faults.extend(BAD_FROM[..3].iter().map(|&from| lifting(from, LARGEST_LIFT)));
    faults.extend(BAD_TO[..3].iter().map(|&to| lifting(NEVER, to)));
    faults
}

pub fn cases() -> Vec<Case> {
    let cases = PRECISIONS.into_iter().flat_map(numbered_cases);
    cases.map(|(_, case)| Case::Decode(case)).collect()
}

/// Each alone and each two of different numbers, with the number that the order gives.
fn numbered_cases(precisions: (u32, u32)) -> Vec<(u8, DecodeCase)> {
    let lists = Lists::from_rows(3, &[vec![0, 1], vec![1, 2]]);
    let good = decode_case(&lists, &[2.5, -0.5, 1.5], plain(precisions));
    let with = |case: &DecodeCase, change: &dyn Fn(&mut DecodeCase)| {
        let mut case = case.clone();
        change(&mut case);
        case
    };
    let nq = largest_magnitude(precisions.1).into();
    let rank = |number: u8| ORDER.iter().position(|&other| other == number);
    let mut cases: Vec<(u8, DecodeCase)> =
        every_lifting(nq).iter().map(|(number, change)| (*number, with(&good, change))).collect();
    let mut faults = others();
    faults.extend(some_liftings(nq));
    for (index, (number, change)) in faults.iter().enumerate() {
        let case = with(&good, change);
        for (other, change) in faults[..index].iter().filter(|fault| fault.0 != *number) {
            let first = if rank(*other) < rank(*number) { other } else { number };
            cases.push((*first, with(&case, change)));
        }
        cases.push((*number, case));
    }
    cases
}

#[cfg(test)]
mod tests {
    use super::*;
    use crate::paper::Refusal;

    #[test]
    fn the_first_of_two_refusals_is_given() {
        for (number, case) in PRECISIONS.into_iter().flat_map(numbered_cases) {
            let place = match number {
                13 => case.values.len() / 4,
                _ => 0,
            };
            let refusal = case.outcome().err();
            assert_eq!(refusal, Some(Refusal { number, place }), "{:?}", case.settings);
        }
    }
}
