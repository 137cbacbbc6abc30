//! Twin runs: values negated where a codeword is 1 give the mirrored run, by the decoder
//! alone, with lifting off and on: "the codeword symmetry include[s] lifting"; and wherever runs
//! that are begun and advanced halt. Where the word is no codeword, some iteration limit shows a
//! difference. Any word leaves a blank frame blank, and makes no other frame blank.

use super::series::Seen;
use crate::generate::cases::{DecodeCase, TwinCase};
use crate::interface::{
    AdvanceInput, Answer, DecodeInput, Decoder, GraphBytes, Lent, Record, Settings, number_bytes,
    numbers,
};
use crate::paper::{Graph, Limits, count_odd_checks};

/// The number that a blank frame gets.
const BLANK: u8 = 20;

/// What a run reports and leaves behind.
#[derive(PartialEq, Eq)]
pub struct Run {
    pub record: Record,
    pub levels: Vec<u8>,
    pub variable_messages: Vec<u8>,
    pub check_messages: Vec<u8>,
    pub sums: Vec<u8>,
    pub bits: Vec<u8>,
}

/// The calls that make a run of a frame.
#[derive(Clone, Copy)]
pub enum Call {
    Decode,
    Begin,
}

pub fn check_twin(case: &TwinCase, decoder: &dyn Decoder) -> Result<Seen, String> {
    let decode = &case.decode;
    let (starts, columns) = (numbers(&decode.starts), numbers(&decode.columns));
    let graph = Graph { n: decode.n, starts: &starts, columns: &columns };
    let seen = |call, refusal| Ok(Seen { call, refusal, iterations: None });
    let degrees = &mut numbers(&lent_bytes(decode.degrees));
    let Ok(odd_checks) = count_odd_checks(Limits::LENT, &graph, &case.word, degrees) else {
        return seen("no twin", 0);
    };
    let degrees = &number_bytes(degrees);
    let runs = |call, limit| twin_runs(call, limit, case, degrees, decoder);
    if odd_checks == 0 {
        let limit = decode.settings.limit;
        let Some((run, twin)) = runs(Call::Decode, limit)? else {
            return seen("twin", BLANK);
        };
        mirrors(&run, &twin, &case.word, &columns)?;
        let Some(begun) = runs(Call::Begin, limit)? else {
            return Err("begin finds a blank where decode finds none".to_string());
        };
        mirror_wherever_they_halt(begun, case, &columns, decoder)?;
        return seen("twin", 0);
    }
    // A check that is odd in the word turns its messages the other way in iteration 1,
    // unless one of the runs has stopped before.
    for limit in 0..=1 {
        let Some((run, twin)) = runs(Call::Decode, limit)? else {
            return seen("twin by no codeword", BLANK);
        };
        if mirrors(&run, &twin, &case.word, &columns).is_err() {
            return seen("twin by no codeword", 0);
        }
    }
    Err("the run is mirrored by a word that is no codeword".to_string())
}

/// The run on the values, and the run on the values negated where the word is 1, or nothing where
/// both frames are blank. Both count the same degrees.
fn twin_runs(
    call: Call,
    limit: u32,
    case: &TwinCase,
    degrees: &[u8],
    decoder: &dyn Decoder,
) -> Result<Option<(Run, Run)>, String> {
    let settings = Settings { limit, ..case.decode.settings };
    let values = &case.decode.values;
    let mut negated = values.clone();
    for (value, &bit) in negated.chunks_exact_mut(4).zip(&case.word) {
        value[3] ^= bit << 7;
    }
    let run_on = |values: &[u8]| run(call, &case.decode, values, settings, degrees, decoder);
    match (run_on(values)?, run_on(&negated)?) {
        (Some(run), Some(twin)) => Ok(Some((run, twin))),
        (None, None) => Ok(None),
        (Some(_), None) => Err("reversing signs makes a blank of a twin run".to_string()),
        (None, Some(_)) => Err("reversing signs cures a blank of a twin run".to_string()),
    }
}

/// Two runs that were begun, advanced by the same counts.
fn mirror_wherever_they_halt(
    (mut run, mut twin): (Run, Run),
    case: &TwinCase,
    columns: &[u32],
    decoder: &dyn Decoder,
) -> Result<(), String> {
    mirrors(&run, &twin, &case.word, columns)?;
    for &count in &case.counts {
        let answer = run.advance(&case.decode, count, decoder);
        let of_twin = twin.advance(&case.decode, count, decoder);
        if answer != of_twin {
            return Err(format!("twin runs advance to {answer:?} and {of_twin:?}"));
        }
        mirrors(&run, &twin, &case.word, columns)?;
    }
    Ok(())
}

impl Run {
    fn advance(&mut self, case: &DecodeCase, count: u32, decoder: &dyn Decoder) -> Answer<Record> {
        let graph = GraphBytes { n: case.n, starts: &case.starts, columns: &case.columns };
        let record = self.record.number();
        let answer = decoder.advance(
            &AdvanceInput { record, graph, settings: case.settings, count },
            &mut lent_bytes(case.degrees),
            &mut Lent {
                levels: &mut self.levels,
                variable_messages: &mut self.variable_messages,
                check_messages: &mut self.check_messages,
                sums: &mut self.sums,
                bits: &mut self.bits,
            },
        );
        if let Answer::Accepted(record) = answer {
            self.record = record;
        }
        answer
    }
}

/// The bytes of a buffer before it is lent.
pub fn lent_bytes(length: usize) -> Vec<u8> {
    vec![0x55; length]
}

/// A run, or nothing where the frame is blank.
pub fn run(
    call: Call,
    case: &DecodeCase,
    values: &[u8],
    settings: Settings,
    counted: &[u8],
    decoder: &dyn Decoder,
) -> Result<Option<Run>, String> {
    let [mut levels, mut variable_messages, mut check_messages, mut sums, mut bits] =
        case.lent.as_array().map(lent_bytes);
    let mut degrees = lent_bytes(case.degrees);
    let graph = GraphBytes { n: case.n, starts: &case.starts, columns: &case.columns };
    let input = DecodeInput { graph, values, settings };
    let mut lent = Lent {
        levels: &mut levels,
        variable_messages: &mut variable_messages,
        check_messages: &mut check_messages,
        sums: &mut sums,
        bits: &mut bits,
    };
    let answer = match call {
        Call::Decode => decoder.decode(&input, &mut degrees, &mut lent).map(Record::from),
        Call::Begin => decoder.begin(&input, &mut degrees, &mut lent),
    };
    let record = match answer {
        Answer::Accepted(record) => Some(record),
        Answer::Refused(BLANK) => None,
        other => return Err(format!("a twin run is answered {other:?}")),
    };
    if !degrees.starts_with(counted) {
        return Err("a twin run leaves other degrees".to_string());
    }
    let Some(record) = record else {
        let lists = [levels, variable_messages, check_messages, sums, bits];
        return match lists.iter().all(|list| *list == lent_bytes(list.len())) {
            true => Ok(None),
            false => Err("a blank twin run changes what it was lent".to_string()),
        };
    };
    Ok(Some(Run { record, levels, variable_messages, check_messages, sums, bits }))
}

/// Whether two runs of the same graph and settings mirror each other by the word.
pub fn mirrors(run: &Run, twin: &Run, word: &[u8], columns: &[u32]) -> Result<(), String> {
    if run.record != twin.record {
        return Err(format!("twin runs give {:?} and {:?}", run.record, twin.record));
    }
    let by_variable = |bytes: &[u8], turned: u8| -> Vec<u8> {
        bytes.iter().zip(word).map(|(byte, bit)| byte ^ (turned * bit)).collect()
    };
    let by_entry = |bytes: &[u8]| -> Vec<u8> {
        let bits = columns.iter().map(|&variable| word[variable as usize]);
        bytes.iter().zip(bits).map(|(byte, bit)| byte ^ (bit << 7)).collect()
    };
    let negated_sums = |bytes: &[u8]| -> Vec<u8> {
        let sums = bytes.chunks_exact(4).map(|b| i32::from_le_bytes([b[0], b[1], b[2], b[3]]));
        let turned =
            sums.zip(word).map(|(sum, &bit)| if bit == 1 { sum.wrapping_neg() } else { sum });
        turned.flat_map(i32::to_le_bytes).collect()
    };
    // At iteration 0 all check messages and sums are 0 in both runs.
    let check_messages = match run.record.iterations {
        0 => run.check_messages.clone(),
        _ => by_entry(&run.check_messages),
    };
    let lists = [
        ("levels", by_variable(&run.levels, 128), &twin.levels),
        ("bits", by_variable(&run.bits, 1), &twin.bits),
        ("variable messages", by_entry(&run.variable_messages), &twin.variable_messages),
        ("check messages", check_messages, &twin.check_messages),
        ("sums", negated_sums(&run.sums), &twin.sums),
    ];
    for (name, mirrored, found) in &lists {
        if let Some(at) = (0..mirrored.len()).find(|&at| mirrored[at] != found[at]) {
            return Err(format!("byte {at} of {name} in the twin run is not the mirrored one"));
        }
    }
    Ok(())
}
