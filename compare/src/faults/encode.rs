//! What faults do to the writing side: what it turns down, which word it finds, and what it leaves
//! in the lent bytes. The words are found by a list of rows, each cleared of the others' variables.

use super::calls::{place, put};
use super::{Fault, Faulty};
use crate::interface::{Answer, EncodeInput, number_bytes, numbers, positions, work_length};
use crate::paper::{Graph, Limits, Refusal, check_graph};

fn refuse<T>(number: u8, place: usize) -> Result<T, Refusal> {
    Err(Refusal { number, place })
}

/// A check: its variables, and then what they sum to.
type Row = Vec<u8>;

/// What is sought: bits for variables, on a graph. The work is as it was lent.
struct Sought<'a> {
    graph: Graph<'a>,
    positions: Vec<u16>,
    given: Vec<u8>,
    work: Vec<u8>,
}

/// A word, or what there was when it showed that there is none.
struct Found {
    word: Vec<u8>,
    rows: Vec<Row>,
    contradicts: bool,
}

impl Faulty {
    fn positions(&self, bytes: &[u8]) -> Vec<u16> {
        let mut bytes = bytes.to_vec();
        if self.has(Fault::PartOfPositionRead) && bytes.len() % 2 == 1 {
            bytes.push(0);
        }
        let mut list = positions(&bytes);
        if self.has(Fault::PositionsOf8Bits) {
            list.iter_mut().for_each(|position| *position &= 255);
        }
        list
    }

    fn sought<'a>(&self, graph: Graph<'a>, input: &EncodeInput, work: &[u8]) -> Sought<'a> {
        Sought {
            graph,
            positions: self.positions(input.positions),
            given: input.given.to_vec(),
            work: work.to_vec(),
        }
    }

    /// The refusals of the graph.
    fn check_writing_graph(&self, graph: &Graph, degrees: &mut [u32]) -> Result<(), Refusal> {
        let limits = match self.0 {
            Fault::N2049Admitted => Limits { variables: 2_049, ..Limits::WRITING },
            Fault::M513Admitted => Limits { checks: 513, ..Limits::WRITING },
            Fault::WritingLimitsAfterSeven | Fault::DegreesChangedByTwo => Limits::LENT,
            Fault::WritingEntriesOfProgram => {
                Limits { entries: Limits::PROGRAM.entries, ..Limits::WRITING }
            }
            _ => Limits::WRITING,
        };
        let before = degrees.to_vec();
        let mut checked = check_graph(limits, graph, degrees);
        let is_past = graph.n > Limits::WRITING.variables || graph.m() > Limits::WRITING.checks;
        let is_seven = checked.is_err_and(|refusal| refusal.number == 7);
        if self.has(Fault::WritingLimitsAfterSeven) && is_past && !is_seven {
            checked = refuse(2, 0);
            degrees.copy_from_slice(&before);
        }
        if self.has(Fault::DegreesChangedByTwo) && is_past {
            checked = refuse(2, 0);
        }
        checked
    }

    /// Whether 18 is given, and where the first is that is wrong.
    fn bad_position(&self, sought: &Sought) -> Option<usize> {
        let (n, list, bits) = (sought.graph.n, &sought.positions, sought.given.len());
        let unequal = match self.0 {
            Fault::MoreBitsAdmitted => bits < list.len(),
            Fault::MorePositionsAdmitted => bits > list.len(),
            _ => bits != list.len(),
        };
        let in_order = |a: u16, b: u16| match self.0 {
            Fault::EqualPositionAdmitted => a <= b,
            Fault::FallingPositionAdmitted => a != b,
            _ => a < b,
        };
        let most = if self.has(Fault::PositionOfNAdmitted) { n } else { n - 1 };
        let bad = |&at: &usize| {
            usize::from(list[at]) > most || (at > 0 && !in_order(list[at - 1], list[at]))
        };
        (0..list.len()).find(bad).or(unequal.then_some(0))
    }

    fn bad_bit(&self, given: &[u8]) -> Option<usize> {
        let most = if self.has(Fault::BitOf2Admitted) { 2 } else { 1 };
        let place = given.iter().position(|&bit| bit > most)?;
        match self.0 {
            Fault::FifteenWithoutPlace => Some(0),
            Fault::LastBadBit => given.iter().rposition(|&bit| bit > most),
            _ => Some(place),
        }
    }

    fn is_short(&self, graph: &Graph, codeword: usize, work: usize) -> bool {
        let needed = match self.0 {
            Fault::WorkNotMeasured => 0,
            // As many bits as there are variables.
            Fault::WorkWithoutRightSide => graph.m() * graph.n.div_ceil(8),
            _ => work_length(graph.n, graph.m()),
        };
        let is_measured = !self.has(Fault::CodewordNotMeasured);
        work < needed || (is_measured && codeword < graph.n)
    }

    /// What is found, where lists of these lengths are lent.
    fn find(
        &self,
        sought: &Sought,
        degrees: &mut [u32],
        codeword: usize,
        work: usize,
    ) -> Result<Found, Refusal> {
        let graph = &sought.graph;
        let checked = self.check_writing_graph(graph, degrees);
        let five = checked.is_err_and(|refusal| refusal.number == 5);
        if five && self.has(Fault::EighteenBeforeFive) && self.bad_position(sought).is_some() {
            return refuse(18, 0);
        }
        checked?;
        let place = |at: usize| if self.has(Fault::EighteenWithPlace) { at } else { 0 };
        let eighteen = (18, self.bad_position(sought).map(place));
        let fifteen = (15, self.bad_bit(&sought.given));
        let six = (6, self.is_short(graph, codeword, work).then_some(0));
        let order = match self.0 {
            Fault::FifteenBeforeEighteen => [fifteen, eighteen, six],
            Fault::SixBeforeFifteen => [eighteen, six, fifteen],
            _ => [eighteen, fifteen, six],
        };
        let first = order.into_iter().find_map(|(number, place)| Some((number, place?)));
        match first {
            // 19 is looked for before the lengths are.
            Some((6, _)) if self.has(Fault::NineteenBeforeSix) => {
                let found = self.solve(sought);
                if found.contradicts { Ok(found) } else { refuse(6, 0) }
            }
            Some((number, place)) => refuse(number, place),
            None => Ok(self.solve(sought)),
        }
    }

    fn solve(&self, sought: &Sought) -> Found {
        let (n, graph) = (sought.graph.n, &sought.graph);
        let mut rows: Vec<Row> = Vec::new();
        for (check, row) in graph.rows().enumerate() {
            let mut bits = self.row_before(sought, check);
            graph.columns[row].iter().for_each(|&variable| bits[variable as usize] = 1);
            rows.push(bits);
        }
        let mut word = vec![u8::from(self.has(Fault::FreeBitsAsOne)); n];
        for (&position, &bit) in sought.positions.iter().zip(&sought.given) {
            let variable = usize::from(position).min(n - 1);
            word[variable] = bit & 1;
            for row in rows.iter_mut().filter(|row| row[variable] == 1) {
                row[variable] = 0;
                row[n] ^= bit & 1;
            }
        }
        let contradicts = self.clear(n, &mut rows);
        for row in &rows {
            if let Some(pivot) = self.pivot(&row[..n]) {
                // The other variables of the row are free.
                let others = (0..n).filter(|&variable| variable != pivot && row[variable] == 1);
                let sum = others.fold(row[n], |sum, variable| sum ^ word[variable]);
                word[pivot] = sum;
            }
        }
        if let (Fault::GivenBitNotHeld, Some(&last)) = (self.0, sought.positions.last()) {
            word[usize::from(last)] = 0;
        }
        Found { word, rows, contradicts }
    }

    /// Nothing, or what the lent bytes happen to hold.
    fn row_before(&self, sought: &Sought, check: usize) -> Row {
        let (n, width) = (sought.graph.n, sought.graph.n / 8 + 1);
        let lent = sought.work.chunks_exact(width).nth(check);
        match lent.filter(|_| self.has(Fault::WorkTakenAsLent)) {
            Some(lent) => (0..=n).map(|bit| lent[bit / 8] >> (bit % 8) & 1).collect(),
            None => vec![0; n + 1],
        }
    }

    fn pivot(&self, variables: &[u8]) -> Option<usize> {
        match self.has(Fault::FirstPivot) {
            true => variables.iter().position(|&bit| bit == 1),
            false => variables.iter().rposition(|&bit| bit == 1),
        }
    }

    /// Clears each row's variable from the others; whether a row sums nothing to 1.
    fn clear(&self, n: usize, rows: &mut [Row]) -> bool {
        let says_nothing = |row: &Row| row[..n].iter().all(|&bit| bit == 0);
        match self.0 {
            Fault::NineteenOfSingleChecks => {
                let contradicts = rows.iter().any(|row| row[n] == 1 && says_nothing(row));
                self.clear_rows(n, rows);
                return contradicts;
            }
            Fault::NineteenWithARowToUse => {
                let single = |row: &Row| row[..n].iter().filter(|&&bit| bit == 1).count() == 1;
                if rows.iter().any(|row| row[n] == 1 && single(row)) {
                    return true;
                }
            }
            _ => {}
        }
        self.clear_rows(n, rows);
        if self.has(Fault::NineteenOfEmptyChecks) {
            return rows.iter().any(says_nothing);
        }
        let judged = match self.0 {
            Fault::NineteenMissed => 0,
            Fault::NineteenWithoutLastCheck => rows.len() - 1,
            _ => rows.len(),
        };
        rows[..judged].iter().any(|row| row[n] == 1 && says_nothing(row))
    }

    fn clear_rows(&self, n: usize, rows: &mut [Row]) {
        let width = if self.has(Fault::RightSideNotAdded) { n } else { n + 1 };
        for index in 0..rows.len() {
            let used = rows[index].clone();
            let Some(pivot) = self.pivot(&used[..n]) else {
                continue;
            };
            for (other, row) in rows.iter_mut().enumerate() {
                let is_cleared = other > index || !self.has(Fault::ChecksAboveNotCleared);
                if other != index && is_cleared && row[pivot] == 1 {
                    row[..width].iter_mut().zip(&used).for_each(|(bit, other)| *bit ^= other);
                }
            }
        }
    }

    pub fn encode_faulty(
        &self,
        input: &EncodeInput,
        degrees: &mut [u8],
        codeword: &mut [u8],
        work: &mut [u8],
    ) -> Answer<()> {
        let (n, lists) = (input.graph.n, self.lists(&input.graph));
        let sought = self.sought(lists.graph(), input, work);
        let before = degrees.to_vec();
        let found = self.on_degrees(degrees, Some(n), |degrees| {
            self.find(&sought, degrees, codeword.len(), work.len())
        });
        if self.has(Fault::DegreesLeftByWriting) && found.is_err() {
            put(degrees, &before);
        }
        match found {
            Ok(found) => self.leave(&found, codeword, work),
            Err(refusal) => {
                let clears = matches!(
                    (self.0, refusal.number),
                    (Fault::WorkClearedBySix, 6) | (Fault::WorkClearedByEighteen, 18)
                );
                if clears {
                    work.fill(0);
                }
                Answer::Refused(refusal.number)
            }
        }
    }

    /// The codeword, or 19, with the work cleared.
    fn leave(&self, found: &Found, codeword: &mut [u8], work: &mut [u8]) -> Answer<()> {
        let Found { word, rows, contradicts } = found;
        // Too short only where that is not looked at.
        let (length, used) = (word.len().min(codeword.len()), work_length(word.len(), rows.len()));
        let used = used.min(work.len());
        let left = match contradicts {
            true => Fault::WorkLeftAfterNineteen,
            false => Fault::WorkLeftAfterCodeword,
        };
        if self.has(left) {
            let sums = rows.iter().map(|row| row[word.len()]).take(used);
            put(work, &sums.collect::<Vec<u8>>());
            work[rows.len().min(used)..used].fill(0);
        } else {
            work[..used].fill(0);
        }
        if let (Fault::WorkWrittenPast, Some(past)) = (self.0, work.get_mut(used)) {
            *past = 0;
        }
        let stored = match self.0 {
            Fault::CodewordBeforeNineteen => true,
            _ => !contradicts,
        };
        if stored && self.has(Fault::CodewordNotCleared) {
            let ones = codeword.iter_mut().zip(word).filter(|(_, bit)| **bit == 1);
            ones.for_each(|(byte, _)| *byte = 1);
        } else if stored {
            put(codeword, &word[..length]);
        } else if self.has(Fault::CodewordClearedByNineteen) {
            codeword[..length].fill(0);
        }
        if let (Fault::CodewordWrittenPast, Some(past)) = (self.0, codeword.get_mut(length)) {
            *past = 0;
        }
        if *contradicts { Answer::Refused(19) } else { Answer::Accepted(()) }
    }

    pub fn encode_place_faulty(&self, input: &EncodeInput, degrees: &mut [u8]) -> usize {
        let (n, lists) = (input.graph.n, self.lists(&input.graph));
        let sought = self.sought(lists.graph(), input, &[]);
        let spare = &mut Vec::new();
        let listed = self.companion_list(degrees, spare);
        let before = numbers(listed);
        let found = self.on_degrees(listed, Some(n), |degrees| {
            self.find(&sought, degrees, usize::MAX, usize::MAX)
        });
        if self.has(Fault::DegreesLeftByWritingPlace) {
            put(listed, &number_bytes(&before));
        }
        let nineteen = found.as_ref().is_ok_and(|found| found.contradicts);
        match nineteen && self.has(Fault::NineteenWithPlace) {
            true => 1,
            false => place(found),
        }
    }
}
