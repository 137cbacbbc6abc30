//! Every pair of what the two calls on block sheets turn down.

use super::blocks::{read_case, write_case};
use super::cases::{Case, ReadCase, WriteBlocksCase};
use crate::interface::Refusal;
use crate::paper::blocks::text_of;
use crate::paper::{Blocks, Entry};

/// A sheet in the making: its numbers, the lines of its text that get another form, and which
/// of the lent lists are too short.
#[derive(Clone)]
struct Draft {
    blocks: Blocks,
    bad_lines: Vec<usize>,
    short: Vec<List>,
}

#[derive(Clone, Copy, PartialEq, Eq)]
enum List {
    Degrees,
    Starts,
    Columns,
    Text,
}

/// What is changed: two faults that change the same do not go together.
#[derive(Clone, Copy, PartialEq, Eq)]
enum Changed {
    Form(usize),
    Size,
    Rows,
    Columns,
    Row(usize),
    Column(usize),
    Shift(usize),
    LastEntry,
    Length(List),
}

/// A refusal with what brings it about. Those that come first stand first.
struct Fault {
    refusal: Refusal,
    changed: Changed,
    change: Box<dyn Fn(&mut Draft)>,
}

fn fault(
    number: u8,
    place: usize,
    changed: Changed,
    change: impl Fn(&mut Draft) + 'static,
) -> Fault {
    Fault { refusal: Refusal { number, place }, changed, change: Box::new(change) }
}

/// The form of a line, or the length of a list.
fn bad_line(line: usize) -> Fault {
    fault(1, line, Changed::Form(line), move |draft| draft.bad_lines.push(line))
}

fn short(list: List) -> Fault {
    fault(6, 0, Changed::Length(list), move |draft| draft.short.push(list))
}

/// The size is 3; every row and column has two entries or three. The seven entries stand in
/// lines 4 to 10.
fn good() -> Draft {
    let entries = [(0, 0, 1), (0, 1, 0), (1, 0, 2), (1, 1, 0), (1, 2, 1), (2, 0, 0), (2, 2, 2)];
    let entries = entries.map(|(row, column, shift)| Entry { row, column, shift }).to_vec();
    let blocks = Blocks { size: 3, rows: 3, columns: 3, entries };
    Draft { blocks, bad_lines: Vec::new(), short: Vec::new() }
}

/// In the order in which they are looked for.
fn faults() -> Vec<Fault> {
    let mut faults = vec![bad_line(1), bad_line(2)];
    faults.push(fault(17, 2, Changed::Size, |draft| draft.blocks.size = 0));
    faults.push(fault(2, 2, Changed::Size, |draft| draft.blocks.size = 333_334));
    for count in [0, 333_334, usize::MAX / 3 + 2] {
        faults.push(fault(2, 2, Changed::Columns, move |draft| draft.blocks.columns = count));
        faults.push(fault(2, 2, Changed::Rows, move |draft| draft.blocks.rows = count));
    }
    faults.push(bad_line(3));
    // The entries (1, 1, 0) and (1, 2, 1).
    faults.extend([7, 8].into_iter().flat_map(entry_faults));
    faults.push(short(List::Degrees));
    // Row 2 is left with one entry, so check 6 is.
    faults.push(fault(5, 6, Changed::LastEntry, |draft| draft.blocks.entries.truncate(6)));
    faults.extend([List::Starts, List::Columns, List::Text].map(short));
    faults
}

/// Of an entry of row 1 that is not the row's first.
fn entry_faults(line: usize) -> Vec<Fault> {
    let at = line - 4;
    vec![
        bad_line(line),
        fault(3, line, Changed::Row(line), move |draft| draft.blocks.entries[at].row = 3),
        fault(3, line, Changed::Column(line), move |draft| draft.blocks.entries[at].column = 3),
        fault(17, line, Changed::Shift(line), move |draft| draft.blocks.entries[at].shift = 3),
        // A row above; the pair of the entry above.
        fault(4, line, Changed::Row(line), move |draft| draft.blocks.entries[at].row = 0),
        fault(4, line, Changed::Column(line), move |draft| {
            draft.blocks.entries[at].column = draft.blocks.entries[at - 1].column;
        }),
    ]
}

impl Draft {
    /// The reader's input, where everything wrong can be wrong with it. The lists are measured
    /// by the good numbers.
    fn read_case(&self) -> Option<ReadCase> {
        let mut case = ReadCase { text: text_of(&self.blocks), ..read_case(&good().blocks) };
        let lines = case.text.split_inclusive(|&byte| byte == b'\n').enumerate();
        let with_form = |(index, line): (usize, &[u8])| match self.bad_lines.contains(&(index + 1))
        {
            true => [&line[..line.len() - 1], b" \n"].concat(),
            false => line.to_vec(),
        };
        case.text = lines.flat_map(with_form).collect();
        for list in &self.short {
            match list {
                List::Degrees => case.degrees -= 1,
                List::Starts => case.starts -= 1,
                List::Columns => case.columns -= 1,
                List::Text => return None,
            }
        }
        Some(case)
    }

    /// The writer's.
    fn write_case(&self) -> Option<WriteBlocksCase> {
        let degrees = write_case(&good().blocks).degrees;
        let mut case = WriteBlocksCase { degrees, ..write_case(&self.blocks) };
        for list in &self.short {
            match list {
                List::Degrees => case.degrees -= 1,
                List::Text => case.text -= 1,
                List::Starts | List::Columns => return None,
            }
        }
        self.bad_lines.is_empty().then_some(case)
    }

    fn cases(&self) -> impl Iterator<Item = Case> {
        let read = self.read_case().map(Case::ReadBlocks);
        read.into_iter().chain(self.write_case().map(Case::WriteBlocks))
    }
}

/// Each fault alone and each two that go together, with the refusal that comes first.
fn drafts() -> Vec<(Refusal, Draft)> {
    let faults = faults();
    let mut drafts = Vec::new();
    for (index, first) in faults.iter().enumerate() {
        let mut draft = good();
        (first.change)(&mut draft);
        for second in faults[index + 1..].iter().filter(|fault| fault.changed != first.changed) {
            let mut draft = draft.clone();
            (second.change)(&mut draft);
            drafts.push((first.refusal, draft));
        }
        drafts.push((first.refusal, draft));
    }
    drafts
}

pub fn cases() -> Vec<Case> {
    drafts().iter().flat_map(|(_, draft)| draft.cases()).collect()
}

#[cfg(test)]
mod tests {
    use super::*;
    use crate::interface::NUMBER_BYTES;
    use crate::paper::{Limits, blocks};

    fn refusal(case: &Case) -> Option<Refusal> {
        let limits = Limits::LENT;
        match case {
            Case::ReadBlocks(case) => {
                let degrees = &mut vec![0; case.degrees / NUMBER_BYTES];
                blocks::read(limits, &case.text, degrees, case.starts, case.columns).err()
            }
            Case::WriteBlocks(case) => {
                let degrees = &mut vec![0; case.degrees / NUMBER_BYTES];
                blocks::write(limits, &case.blocks(), degrees, case.text).err()
            }
            other => panic!("{other:?} is no call on a block sheet"),
        }
    }

    #[test]
    fn the_first_of_two_refusals_is_given() {
        assert!(good().cases().all(|case| refusal(&case).is_none()));
        for (expected, draft) in drafts() {
            for case in draft.cases() {
                assert_eq!(refusal(&case), Some(expected), "{case:?}");
            }
        }
    }
}
