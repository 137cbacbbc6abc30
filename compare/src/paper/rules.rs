//! The update rules of one iteration, each for one message, sum or bit.

use super::quantiser::Level;

/// The three offsets, each 0 or 1.
#[derive(Clone, Copy, Debug)]
pub struct Offsets {
    pub phi_s: u8,
    pub phi_a: u8,
    pub phi_0: u8,
}

/// L and W. "256 means never", and then there is no L here.
#[derive(Clone, Copy, Debug)]
pub struct Lifting {
    pub from: Option<usize>,
    pub to: u8,
}

/// Iteration 0: "every variable sends its channel sign with the smaller of its channel
/// magnitude and Nq."
pub fn first_message(channel: Level, nq: u8) -> Level {
    Level { minus: channel.minus, magnitude: channel.magnitude.min(nq) }
}

/// Check to variable: "the sign is the product of the other incoming signs, the magnitude
/// their least." A check's degree is 2 or more, so there is another.
pub fn check_message(incoming: &[Level], recipient: usize) -> Level {
    let mut message = Level { minus: false, magnitude: u8::MAX };
    for (sender, level) in incoming.iter().enumerate() {
        if sender != recipient {
            message.minus ^= level.minus;
            message.magnitude = message.magnitude.min(level.magnitude);
        }
    }
    message
}

/// "From iteration L on, a check message of magnitude Nq counts as magnitude W in the
/// variable's sum and in the posterior sum." It is sent as it is.
pub fn counted(message: Level, iteration: usize, nq: u8, lifting: Lifting) -> Level {
    let lifts = lifting.from.is_some_and(|from| from <= iteration);
    match lifts && message.magnitude == nq {
        true => Level { magnitude: lifting.to, ..message },
        false => message,
    }
}

/// "e applies to the channel level only and is 0 for d = 2, 1 for odd d, 2 for even d
/// from 4."
pub fn channel_extra(degree: usize) -> i32 {
    match degree {
        2 => 0,
        odd if odd % 2 == 1 => 1,
        _ => 2,
    }
}

/// s(2M + extra), "s is +1 or -1, M the magnitude".
fn in_halves(level: Level, extra: i32) -> i32 {
    let size = 2 * i32::from(level.magnitude) + extra;
    if level.minus { -size } else { size }
}

/// "s(2M + e) plus, over all d incoming messages, s(2M + 1)", the messages as they count.
pub fn posterior_sum(channel: Level, incoming: &[Level]) -> i32 {
    let messages = incoming.iter().map(|&message| in_halves(message, 1));
    in_halves(channel, channel_extra(incoming.len())) + messages.sum::<i32>()
}

/// "1 for a negative sum, 0 for a positive one; a sum of zero takes the channel sign."
pub fn bit(sum: i32, channel: Level) -> u8 {
    let one = sum < 0 || (sum == 0 && channel.minus);
    u8::from(one)
}

/// "U, the outgoing variable sum, is the same sum without the message from that check", the
/// messages as they count.
pub fn outgoing_sum(channel: Level, incoming: &[Level], recipient: usize) -> i32 {
    let mut sum = in_halves(channel, channel_extra(incoming.len()));
    for (sender, &message) in incoming.iter().enumerate() {
        if sender != recipient {
            sum += in_halves(message, 1);
        }
    }
    sum
}

/// "Nq for F > Nq; Nq - φs for F = Nq; F - φa for 2 ≤ F < Nq; 1 - φ0 for F = 1 < Nq; 0 for
/// F = 0."
pub fn outgoing_magnitude(f: i32, nq: u8, offsets: Offsets) -> u8 {
    let largest = i32::from(nq);
    if f > largest {
        nq
    } else if f == largest {
        nq - offsets.phi_s
    } else if f >= 2 {
        f as u8 - offsets.phi_a
    } else if f == 1 {
        1 - offsets.phi_0
    } else {
        0
    }
}

/// Variable to check: F = (|U| - 1) / 2 gives the magnitude, "the sign is U's".
pub fn variable_message(u: i32, nq: u8, offsets: Offsets) -> Level {
    Level { minus: u < 0, magnitude: outgoing_magnitude((u.abs() - 1) / 2, nq, offsets) }
}
