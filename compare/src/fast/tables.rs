//! What messages add to sums and what sums send, as constant tables.

use crate::interface::Settings;

pub const MINUS: u8 = 0x80;

/// The largest magnitudes of message precisions of 2, 3 and 4 bits.
const NQ: [usize; 3] = [1, 3, 7];

/// Messages' contributions in halves by their byte: an odd size with the sign.
pub type Halves = [i32; 256];

/// Those of messages as they are.
pub static HALVES: Halves = halves(0, 0);

/// Those of messages of which one magnitude counts as another.
const fn halves(magnitude: usize, counts_as: usize) -> Halves {
    let mut halves = [0; 256];
    let mut byte = 0;
    while byte < 256 {
        let own = byte & 0x7f;
        let counted = if own == magnitude { counts_as } else { own };
        let size = 2 * counted as i32 + 1;
        halves[byte] = if byte < 128 { size } else { -size };
        byte += 1;
    }
    halves
}

/// For message precisions of 2, 3 and 4 bits, the largest magnitude lifted to 0, 1, .., 15.
static LIFTED: [[Halves; 16]; 3] = {
    let mut tables = [[[0; 256]; 16]; 3];
    let mut row = 0;
    while row < 3 {
        let mut to = 0;
        while to < 16 {
            tables[row][to] = halves(NQ[row], to);
            to += 1;
        }
        row += 1;
    }
    tables
};

/// The contributions once messages are lifted, of settings that are admitted.
pub fn lifted(settings: &Settings) -> &'static Halves {
    &LIFTED[(settings.message - 2) as usize][settings.lift_to as usize]
}

/// No sum is larger than 2 × 7 + 2 + 32 × 31 = 1,008, which all messages lifted to 15 give.
const MIDDLE: i32 = 1024;

/// Outgoing messages by their sum, which stands at `MIDDLE` + sum.
pub struct Outgoing([u8; 2048]);

/// For message precisions of 2, 3 and 4 bits, each setting of the offsets.
static OUTGOING: [Outgoing; 24] = {
    let mut tables = [const { Outgoing([0; 2048]) }; 24];
    let mut row = 0;
    while row < 24 {
        let mut index = 0;
        while index < 2048 {
            tables[row].0[index] = outgoing_message(row, index as i32 - MIDDLE);
            index += 1;
        }
        row += 1;
    }
    tables
};

const fn outgoing_message(row: usize, sum: i32) -> u8 {
    let nq = NQ[row / 8];
    let (phi_s, phi_a, phi_0) = (row / 4 % 2, row / 2 % 2, row % 2);
    let f = sum.unsigned_abs() as usize / 2;
    let magnitude = match f {
        0 => 0,
        _ if f > nq => nq,
        _ if f == nq => nq - phi_s,
        1 => 1 - phi_0,
        _ => f - phi_a,
    };
    magnitude as u8 | if sum < 0 { MINUS } else { 0 }
}

impl Outgoing {
    /// The table of settings that are admitted.
    pub fn of(settings: &Settings) -> &'static Outgoing {
        let offsets = settings.phi_s * 4 + settings.phi_a * 2 + settings.phi_0;
        &OUTGOING[((settings.message - 2) * 8 + offsets) as usize]
    }

    pub fn message(&self, sum: i32) -> u8 {
        self.0[(MIDDLE + sum) as usize & 2047]
    }
}
