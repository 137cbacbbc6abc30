//! The code sheet: read and written.

use super::graph::{Graph, check_graph};
use super::limits::Limits;
use super::text::{Text, decimals};
use super::{Refusal, refuse};
use crate::interface::NUMBER_BYTES;

const COUNTS_HEADER: &[u8] = b"variables checks";
const ENTRIES_HEADER: &[u8] = b"check variable";
/// Of a block sheet too.
pub const LINES_BEFORE_ENTRIES: usize = 3;

/// The graph that a sheet describes.
#[derive(Clone, Debug, PartialEq, Eq)]
pub struct Sheet {
    pub n: usize,
    pub starts: Vec<u32>,
    pub columns: Vec<u32>,
}

impl Sheet {
    pub fn graph(&self) -> Graph<'_> {
        Graph { n: self.n, starts: &self.starts, columns: &self.columns }
    }

    /// 6 for the two lent lists, whose lengths are in bytes.
    pub fn check_room(&self, starts_lent: usize, columns_lent: usize) -> Result<(), Refusal> {
        let too_short = |lent: usize, list: &[u32]| lent < NUMBER_BYTES * list.len();
        match too_short(starts_lent, &self.starts) || too_short(columns_lent, &self.columns) {
            true => refuse(6, 0),
            false => Ok(()),
        }
    }
}

/// "Top line first, place the line counted from 1"; then the list of degrees, 5, and 6 for
/// the two lent lists, whose lengths are in bytes.
pub fn read_sheet(
    limits: Limits,
    bytes: &[u8],
    degrees: &mut [u32],
    starts_lent: usize,
    columns_lent: usize,
) -> Result<Sheet, Refusal> {
    let text = Text::new(bytes);
    check_header(&text, 1, COUNTS_HEADER)?;
    let (n, m) = counts(limits, &text, 2)?;
    check_header(&text, 3, ENTRIES_HEADER)?;
    let sheet = graph_of(n, m, &entries(limits, &text, n, m)?);
    check_graph(limits, &sheet.graph(), degrees)?;
    sheet.check_room(starts_lent, columns_lent)?;
    Ok(sheet)
}

pub fn check_header(text: &Text, line: usize, header: &[u8]) -> Result<(), Refusal> {
    match text.line(line) {
        Some(found) if found == header => Ok(()),
        _ => refuse(1, line),
    }
}

fn counts(limits: Limits, text: &Text, line: usize) -> Result<(usize, usize), Refusal> {
    match text.line(line).and_then(decimals) {
        None => refuse(1, line),
        Some([n, m]) if limits.admit_variables(n) && limits.admit_checks(m) => Ok((n, m)),
        Some(_) => refuse(2, line),
    }
}

/// The entry lines: 2 for one too many "before its form", then 1, 3 and 4.
fn entries(
    limits: Limits,
    text: &Text,
    n: usize,
    m: usize,
) -> Result<Vec<(usize, usize)>, Refusal> {
    let mut entries = Vec::new();
    for line in LINES_BEFORE_ENTRIES + 1..=text.begun() {
        if entries.len() == limits.entries {
            return refuse(2, line);
        }
        let Some([check, variable]) = text.line(line).and_then(decimals) else {
            return refuse(1, line);
        };
        if check >= m || variable >= n {
            return refuse(3, line);
        }
        if entries.last().is_some_and(|&above| (check, variable) <= above) {
            return refuse(4, line);
        }
        entries.push((check, variable));
    }
    Ok(entries)
}

/// The graph of these ones, which are in order.
pub fn graph_of(n: usize, m: usize, entries: &[(usize, usize)]) -> Sheet {
    let entries_before = |check: usize| entries.partition_point(|entry| entry.0 < check);
    Sheet {
        n,
        starts: (0..=m).map(|check| entries_before(check) as u32).collect(),
        columns: entries.iter().map(|entry| entry.1 as u32).collect(),
    }
}

/// "The writer gives this text and its length"; 6 when the lent text is shorter.
pub fn write_sheet(
    limits: Limits,
    graph: &Graph,
    degrees: &mut [u32],
    text_lent: usize,
) -> Result<Vec<u8>, Refusal> {
    check_graph(limits, graph, degrees)?;
    let mut text = Vec::new();
    push_line(&mut text, COUNTS_HEADER);
    push_line(&mut text, format!("{} {}", graph.n, graph.m()).as_bytes());
    push_line(&mut text, ENTRIES_HEADER);
    for (check, row) in graph.rows().enumerate() {
        for variable in &graph.columns[row] {
            push_line(&mut text, format!("{check} {variable}").as_bytes());
        }
    }
    if text_lent < text.len() {
        return refuse(6, 0);
    }
    Ok(text)
}

pub fn push_line(text: &mut Vec<u8>, line: &[u8]) {
    text.extend_from_slice(line);
    text.push(b'\n');
}
