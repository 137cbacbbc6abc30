//! The parity-check graph: its check, a check's row, and the odd checks of given bits.

use super::limits::{CHECK_DEGREES, Limits, VARIABLE_DEGREES};
use super::{Refusal, refuse};
use std::ops::Range;

/// "m+1 row starts, and E columns in check order".
#[derive(Clone, Copy, Debug)]
pub struct Graph<'a> {
    pub n: usize,
    pub starts: &'a [u32],
    pub columns: &'a [u32],
}

impl<'a> Graph<'a> {
    /// The number of checks. "No starts counts as bad m": 0, like a single start.
    pub fn m(&self) -> usize {
        self.starts.len().saturating_sub(1)
    }

    pub fn entries(&self) -> usize {
        self.columns.len()
    }

    /// The entries of one check, for starts that are in order.
    pub fn row(&self, check: usize) -> Range<usize> {
        self.starts[check] as usize..self.starts[check + 1] as usize
    }

    pub fn rows(&self) -> impl Iterator<Item = Range<usize>> {
        (0..self.m()).map(|check| self.row(check))
    }

    /// For each variable the entries it stands in, in graph order.
    pub fn entries_of_variables(&self) -> Vec<Vec<usize>> {
        let mut entries = vec![Vec::new(); self.n];
        for (entry, &variable) in self.columns.iter().enumerate() {
            entries[variable as usize].push(entry);
        }
        entries
    }
}

/// "Each looked for over the whole input before the next." The list of degrees is lent: it
/// "holds the degrees after every call that came as far as 5, refused or not, and is
/// unchanged otherwise".
pub fn check_graph(limits: Limits, graph: &Graph, degrees: &mut [u32]) -> Result<(), Refusal> {
    check_counts(limits, graph)?;
    check_starts(graph)?;
    check_columns_below_n(graph)?;
    check_columns_rising(graph)?;
    count_degrees(graph, degrees)?;
    check_degrees(graph, degrees)
}

fn check_counts(limits: Limits, graph: &Graph) -> Result<(), Refusal> {
    let admitted = limits.admit_variables(graph.n)
        && limits.admit_checks(graph.m())
        && limits.admit_entries(graph.entries());
    if admitted { Ok(()) } else { refuse(2, 0) }
}

/// "Starts not beginning at 0, one below the start before it, or not ending at E (first
/// such index, the ends being 0 and m)."
fn check_starts(graph: &Graph) -> Result<(), Refusal> {
    let starts = graph.starts;
    let bad = |&index: &usize| {
        (index == 0 && starts[0] != 0)
            || (index > 0 && starts[index] < starts[index - 1])
            || (index == graph.m() && starts[index] as usize != graph.entries())
    };
    match (0..=graph.m()).find(bad) {
        Some(index) => refuse(7, index),
        None => Ok(()),
    }
}

fn check_columns_below_n(graph: &Graph) -> Result<(), Refusal> {
    let mut columns = graph.columns.iter();
    match columns.position(|&column| column as usize >= graph.n) {
        Some(index) => refuse(3, index),
        None => Ok(()),
    }
}

fn check_columns_rising(graph: &Graph) -> Result<(), Refusal> {
    for row in graph.rows() {
        for index in row.start + 1..row.end {
            if graph.columns[index] <= graph.columns[index - 1] {
                return refuse(4, index);
            }
        }
    }
    Ok(())
}

/// "Variable degrees are counted in a further lent list of n 32-bit numbers, and a shorter
/// one gets 6 directly before 5."
fn count_degrees(graph: &Graph, degrees: &mut [u32]) -> Result<(), Refusal> {
    let Some(degrees) = degrees.get_mut(..graph.n) else {
        return refuse(6, 0);
    };
    degrees.fill(0);
    for &variable in graph.columns {
        degrees[variable as usize] += 1;
    }
    Ok(())
}

/// "A degree outside its limits (lowest check, else m + lowest variable)."
fn check_degrees(graph: &Graph, degrees: &[u32]) -> Result<(), Refusal> {
    let bad_check = |row: Range<usize>| !CHECK_DEGREES.contains(&row.len());
    if let Some(check) = graph.rows().position(bad_check) {
        return refuse(5, check);
    }
    let bad_variable = |&degree: &u32| !VARIABLE_DEGREES.contains(&degree);
    match degrees[..graph.n].iter().position(bad_variable) {
        Some(variable) => refuse(5, graph.m() + variable),
        None => Ok(()),
    }
}

/// "The columns of one check are handed back as that part of the caller's list."
pub fn row_of_check<'a>(
    limits: Limits,
    graph: &Graph<'a>,
    check: usize,
    degrees: &mut [u32],
) -> Result<&'a [u32], Refusal> {
    check_graph(limits, graph, degrees)?;
    if check >= graph.m() {
        return refuse(3, check);
    }
    Ok(&graph.columns[graph.row(check)])
}

pub fn count_odd_checks(
    limits: Limits,
    graph: &Graph,
    bits: &[u8],
    degrees: &mut [u32],
) -> Result<usize, Refusal> {
    check_graph(limits, graph, degrees)?;
    if bits.len() != graph.n {
        return refuse(13, 0);
    }
    if let Some(index) = bits.iter().position(|&bit| bit > 1) {
        return refuse(15, index);
    }
    Ok(odd_checks(graph, bits))
}

/// How many checks have an odd number of ones.
pub fn odd_checks(graph: &Graph, bits: &[u8]) -> usize {
    let is_odd = |row: &Range<usize>| {
        let ones =
            graph.columns[row.clone()].iter().filter(|&&variable| bits[variable as usize] == 1);
        ones.count() % 2 == 1
    };
    graph.rows().filter(is_odd).count()
}
