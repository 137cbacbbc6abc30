//! Pairs of frames, read by two heads on one graph.

use super::{GraphBytes, Refusal, Settings};

/// The bytes of a head's report.
pub const REPORT_BYTES: usize = 8;

/// The bytes of both reports.
pub const REPORTS_BYTES: usize = 2 * REPORT_BYTES;

/// What a head has read, and how it is to be decoded: nothing is checked yet.
#[derive(Clone, Copy)]
pub struct HeadInput<'a> {
    pub values: &'a [u8],
    pub settings: Settings,
}

/// Two heads on one graph, and the iterations that they have together.
#[derive(Clone, Copy)]
pub struct PairInput<'a> {
    pub graph: GraphBytes<'a>,
    pub allowance: u32,
    pub heads: [HeadInput<'a>; 2],
}

/// A pair's refusal, and the head that it belongs to: 1 or 2, or 0 where it belongs to neither.
#[derive(Clone, Copy, Debug, PartialEq, Eq)]
pub struct PairRefusal {
    pub head: u8,
    pub refusal: Refusal,
}

impl PairRefusal {
    /// The refusal's number is the lowest byte of the answer, the head is the next. The answer is 0
    /// where nothing is refused.
    pub fn answer(&self) -> u64 {
        u64::from(self.refusal.number) | u64::from(self.head) << 8
    }
}

/// The bytes of both reports: "each packed as frame_decode's answer".
pub fn report_bytes(reports: [u64; 2]) -> Vec<u8> {
    reports.iter().flat_map(|report| report.to_le_bytes()).collect()
}

/// The reports in these bytes, of which there are enough.
pub fn reports_in(bytes: &[u8]) -> [u64; 2] {
    let (reports, _) = bytes.as_chunks::<REPORT_BYTES>();
    [0, 1].map(|head| u64::from_le_bytes(reports[head]))
}

#[cfg(test)]
mod tests {
    use super::*;

    #[test]
    fn answers_and_reports() {
        let of_head = |head| PairRefusal { head, refusal: Refusal { number: 22, place: 5 } };
        assert_eq!([0, 1, 2].map(|head| of_head(head).answer()), [22, 0x0116, 0x0216]);
        let reports = [0x0807_0605_0403_0201, 0x1817_1615_1413_1211];
        let mut bytes = report_bytes(reports);
        assert_eq!(bytes[..9], [1, 2, 3, 4, 5, 6, 7, 8, 0x11]);
        assert_eq!(bytes.len(), REPORTS_BYTES);
        bytes.push(9);
        assert_eq!(reports_in(&bytes), reports);
    }
}
