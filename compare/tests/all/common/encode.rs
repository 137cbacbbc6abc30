//! Calls of the writing side, each by the paper's reading and by the fast one.

use compare::fast::Fast;
use compare::generate::Lists;
use compare::generate::encoding::{EncodeCase, encode_case};
use compare::interface::{Answer, Decoder, EncodeInput, GraphBytes, number_bytes, numbers};
use compare::paper::Refusal;

/// What the numbers of the list of degrees, and the bytes of codeword and work are before a call.
pub const BEFORE: u32 = 0x0a0b_0c0d;
pub const BYTE: u8 = b'#';

/// A word or a refusal, and the degrees afterwards.
pub type Answered = (Result<Vec<u8>, Refusal>, Vec<u32>);

pub fn rows(n: usize, rows: &[&[u32]]) -> Lists {
    let rows: Vec<Vec<u32>> = rows.iter().map(|row| row.to_vec()).collect();
    Lists::from_rows(n, &rows)
}

/// Both readings of a call and its companion, with every byte that they leave.
pub fn answered(case: &EncodeCase) -> Answered {
    let before = vec![BEFORE; case.degrees / 4];
    let mut left = before.clone();
    let answer = case.outcome(&mut left);

    let graph = GraphBytes { n: case.n, starts: &case.starts, columns: &case.columns };
    let input = EncodeInput { graph, positions: &case.positions, given: &case.given };
    let odd = vec![BYTE; case.degrees % 4];
    let lent = [number_bytes(&before), odd].concat();
    let mut degrees = lent.clone();
    let place = Fast.encode_place(&input, &mut degrees);
    assert_eq!(numbers(&degrees), left);
    degrees = lent;
    let (mut codeword, mut work) = (vec![BYTE; case.codeword], vec![BYTE; case.work]);
    let fast = Fast.encode(&input, &mut degrees, &mut codeword, &mut work);
    assert_eq!(numbers(&degrees), left);
    assert!(degrees[case.degrees / 4 * 4..].iter().all(|&byte| byte == BYTE));

    let (expected, written, cleared) = match &answer {
        Ok(word) => ((Answer::Accepted(()), 0), &word[..], case.work_used()),
        Err(Refusal { number: 19, place }) => {
            ((Answer::Refused(19), *place), &[][..], case.work_used())
        }
        Err(Refusal { number, place }) => ((Answer::Refused(*number), *place), &[][..], 0),
    };
    assert_eq!((fast, place), expected);
    assert!(codeword.starts_with(written));
    assert!(codeword[written.len()..].iter().all(|&byte| byte == BYTE));
    assert!(work[..cleared].iter().all(|&byte| byte == 0));
    assert!(work[cleared..].iter().all(|&byte| byte == BYTE));
    (answer, left)
}

/// With lists of just the lengths that are needed, and with longer ones.
pub fn encoded(lists: &Lists, held: &[(u16, u8)]) -> Result<Vec<u8>, Refusal> {
    let case = encode_case(lists, held);
    let longer = EncodeCase {
        degrees: case.degrees + 9,
        codeword: case.codeword + 5,
        work: case.work + 70,
        ..case.clone()
    };
    let (answer, _) = answered(&case);
    assert_eq!(answered(&longer).0, answer);
    answer
}

/// The bits of a word by their digits.
pub fn word(digits: &str) -> Result<Vec<u8>, Refusal> {
    Ok(digits.bytes().map(|digit| digit - b'0').collect())
}
