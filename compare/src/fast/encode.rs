//! The writing side on the lent bytes. Row i of the work has n / 8 + 1 bytes, a bit for each
//! variable of check i, lowest first, and after them one for its right side. Each row's highest
//! variable is cleared from every other row, so that the answer is one store a row.

use super::graph::{self, Word, number};
use crate::interface::{EncodeInput, POSITION_BYTES, Refusal, work_length};

pub const MOST_VARIABLES: usize = 2_048;
pub const MOST_CHECKS: usize = 512;

/// What nothing is wrong with, but for the room and the bits themselves.
pub struct Message<'a> {
    n: usize,
    starts: &'a [Word],
    columns: &'a [Word],
    positions: &'a [[u8; POSITION_BYTES]],
    given: &'a [u8],
}

/// How rows lie: the bytes of each, and the right side's bit in the last of them.
#[derive(Clone, Copy)]
struct Rows {
    width: usize,
    right: u8,
}

fn refusal(number: u8, place: usize) -> Refusal {
    Refusal { number, place }
}

fn variable(position: [u8; POSITION_BYTES]) -> usize {
    u16::from_le_bytes(position).into()
}

/// The refusals up to 15.
pub fn check<'a>(input: &EncodeInput<'a>, degrees: &mut [u8]) -> Result<Message<'a>, Refusal> {
    let (n, (starts, columns)) = (input.graph.n, graph::lists(&input.graph));
    if n > MOST_VARIABLES || starts.len() > MOST_CHECKS + 1 {
        return Err(refusal(2, 0));
    }
    graph::check(n, starts, columns, degrees)?;
    let (positions, given) = (input.positions.as_chunks().0, input.given);
    let rising = positions.windows(2).all(|pair| variable(pair[0]) < variable(pair[1]));
    let in_range = positions.last().is_none_or(|&last| variable(last) < n);
    if positions.len() != given.len() || !rising || !in_range {
        return Err(refusal(18, 0));
    }
    match given.iter().position(|&bit| bit > 1) {
        Some(index) => Err(refusal(15, index)),
        None => Ok(Message { n, starts, columns, positions, given }),
    }
}

/// 6, then 19. The codeword is written once it is known that there is one.
pub fn run(message: &Message, codeword: &mut [u8], work: &mut [u8]) -> Result<(), Refusal> {
    let (n, needed) = (message.n, work_length(message.n, message.starts.len() - 1));
    let (Some(codeword), Some(work)) = (codeword.get_mut(..n), work.get_mut(..needed)) else {
        return Err(refusal(6, 0));
    };
    let rows = Rows { width: n / 8 + 1, right: 1 << (n % 8) };
    rows.load(message, work);
    let solved = rows.eliminate(work);
    if solved {
        codeword.fill(0);
        for (&position, &bit) in message.positions.iter().zip(message.given) {
            codeword[variable(position)] = bit;
        }
        rows.store(work, codeword);
    }
    work.fill(0);
    if solved { Ok(()) } else { Err(refusal(19, 0)) }
}

impl Rows {
    /// The checks' variables, but those that are given, whose bits go to the right side.
    fn load(self, message: &Message, work: &mut [u8]) {
        let Rows { width, right } = self;
        work.fill(0);
        let columns = graph::rows(message.starts).map(|(start, end)| &message.columns[start..end]);
        for (row, columns) in work.chunks_exact_mut(width).zip(columns) {
            for variable in columns.iter().map(|&column| number(column)) {
                row[variable / 8] |= 1 << (variable % 8);
            }
        }
        for (&position, &bit) in message.positions.iter().zip(message.given) {
            let (byte, mask) = place(variable(position));
            for row in work.chunks_exact_mut(width).filter(|row| row[byte] & mask != 0) {
                row[byte] ^= mask;
                row[width - 1] ^= right * bit;
            }
        }
    }

    /// Whether no row says that nothing sums to 1.
    fn eliminate(self, work: &mut [u8]) -> bool {
        let width = self.width;
        for start in (0..work.len()).step_by(width) {
            let (before, rest) = work.split_at_mut(start);
            let (pivot, after) = rest.split_at_mut(width);
            let Some(highest) = self.highest(pivot) else {
                if self.is_one(pivot) {
                    return false;
                }
                continue;
            };
            let (byte, mask) = place(highest);
            let others = before.chunks_exact_mut(width).chain(after.chunks_exact_mut(width));
            for row in others.filter(|row| row[byte] & mask != 0) {
                row.iter_mut().zip(&*pivot).for_each(|(byte, &other)| *byte ^= other);
            }
        }
        true
    }

    /// The ones of the rows' highest variables; the others of a row are free, and so 0.
    fn store(self, work: &[u8], codeword: &mut [u8]) {
        for row in work.chunks_exact(self.width).filter(|row| self.is_one(row)) {
            if let Some(highest) = self.highest(row) {
                codeword[highest] = 1;
            }
        }
    }

    fn is_one(self, row: &[u8]) -> bool {
        row[self.width - 1] & self.right != 0
    }

    fn highest(self, row: &[u8]) -> Option<usize> {
        let (&last, others) = row.split_last()?;
        let highest = |byte: usize, bits: u8| 8 * byte + bits.ilog2() as usize;
        match last & (self.right - 1) {
            0 => {
                let byte = others.iter().rposition(|&byte| byte != 0)?;
                Some(highest(byte, others[byte]))
            }
            bits => Some(highest(others.len(), bits)),
        }
    }
}

/// A variable's byte in a row, and its bit there.
fn place(variable: usize) -> (usize, u8) {
    (variable / 8, 1 << (variable % 8))
}
