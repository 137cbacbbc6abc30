//! Admitted graphs.

use crate::interface::as_number;
use crate::paper::{Graph, Limits};
use crate::random::Random;

/// A graph that owns its lists. Nothing says that it is admitted.
#[derive(Clone, Debug, PartialEq, Eq)]
pub struct Lists {
    pub n: usize,
    pub starts: Vec<u32>,
    pub columns: Vec<u32>,
}

impl Lists {
    pub fn from_rows(n: usize, rows: &[Vec<u32>]) -> Lists {
        let mut lists = Lists { n, starts: vec![0], columns: Vec::new() };
        for row in rows {
            lists.columns.extend_from_slice(row);
            lists.starts.push(as_number(lists.columns.len()));
        }
        lists
    }

    pub fn graph(&self) -> Graph<'_> {
        Graph { n: self.n, starts: &self.starts, columns: &self.columns }
    }

    /// The rows, for starts that are in order.
    pub fn rows(&self) -> Vec<Vec<u32>> {
        self.graph().rows().map(|row| self.columns[row].to_vec()).collect()
    }
}

/// Mostly small graphs, now and then one of some hundred variables.
pub fn any(random: &mut Random) -> Lists {
    let (variables, checks, most) = match random.below(12) {
        0 => (2, random.between(1, 32), 2),
        1 => (random.between(2, 5), random.between(1, 3), 3),
        2 => (random.between(50, 400), random.between(10, 200), 6),
        3 => (random.between(60, 90), random.between(1, 12), 64),
        4 => (random.between(3, 8), random.between(16, 60), 6),
        _ => (random.between(3, 24), random.between(1, 14), random.between(2, 7)),
    };
    irregular(random, variables, checks, most)
}

/// Thousands of entries, by one of a few shapes, most of them near the limits, one with
/// columns past 16 bits.
pub fn large(limits: Limits, random: &mut Random) -> Lists {
    match random.below(6) {
        0 => fullest(limits, random),
        1 => regular(random, limits.entries / 32, 32, 64),
        2 => regular(random, limits.variables - 2, 3, 6),
        3 => irregular(random, 4_000, 1_500, 20),
        4 => irregular(random, 2_000, 900, 64),
        _ => regular(random, 70_000, 2, 4),
    }
}

/// Up to `checks` rows of up to `most` entries. Variables that no row took are put into
/// one where there is room, or left out of the graph.
pub fn irregular(random: &mut Random, variables: usize, checks: usize, most: usize) -> Lists {
    let mut degrees = vec![0; variables];
    let mut rows: Vec<Vec<u32>> = Vec::new();
    for _ in 0..checks {
        let mut open: Vec<usize> = (0..variables).filter(|&v| degrees[v] < 32).collect();
        if open.len() < 2 {
            break;
        }
        random.shuffle(&mut open);
        open.truncate(random.between(2, most));
        open.iter().for_each(|&variable| degrees[variable] += 1);
        rows.push(open.into_iter().map(as_number).collect());
    }
    for variable in (0..variables).filter(|&variable| degrees[variable] == 0) {
        let row = random.below(rows.len());
        if rows[row].len() < 64 && !random.one_in(4) {
            rows[row].push(as_number(variable));
        }
    }
    rows.iter_mut().for_each(|row| row.sort_unstable());
    without_idle_variables(&Lists::from_rows(variables, &rows)).0
}

/// The graph numbered anew without the variables of degree 0, and the old number of each
/// variable that stays.
pub fn without_idle_variables(lists: &Lists) -> (Lists, Vec<usize>) {
    let mut used = vec![false; lists.n];
    lists.columns.iter().for_each(|&variable| used[variable as usize] = true);
    let kept: Vec<usize> = (0..lists.n).filter(|&variable| used[variable]).collect();
    let renumbered = |old: &u32| kept.partition_point(|&variable| variable < *old as usize);
    let columns = lists.columns.iter().map(|old| as_number(renumbered(old))).collect();
    (Lists { n: kept.len(), starts: lists.starts.clone(), columns }, kept)
}

/// Just so many variables and checks, at most 64 variables for a check. Every variable stands in a
/// check; a check has `degree` variables or, where they must be dealt out, more.
pub fn covering(random: &mut Random, n: usize, checks: usize, degree: usize) -> Lists {
    let mut dealt: Vec<u32> = (0..n).map(as_number).collect();
    random.shuffle(&mut dealt);
    let mut rows = vec![Vec::new(); checks];
    dealt.into_iter().enumerate().for_each(|(at, variable)| rows[at % checks].push(variable));
    let mut degrees = vec![1; n];
    for row in &mut rows {
        while row.len() < degree.min(n) {
            let variable = random.below(n);
            if degrees[variable] < 32 && !row.contains(&as_number(variable)) {
                degrees[variable] += 1;
                row.push(as_number(variable));
            }
        }
        row.sort_unstable();
    }
    Lists::from_rows(n, &rows)
}

/// A further check, somewhere, that says what some others say together, where it is admitted: the
/// variables that stand in an odd number of them. Of one check it is a repetition.
pub fn repeat_checks(random: &mut Random, lists: &mut Lists) {
    let mut rows = lists.rows();
    let sum = sum_of_checks(random, &rows);
    let mut degrees = vec![0; lists.n];
    lists.columns.iter().for_each(|&variable| degrees[variable as usize] += 1);
    let has_room = sum.iter().all(|&variable| degrees[variable as usize] < 32);
    if has_room && (2..=64).contains(&sum.len()) {
        rows.insert(random.below(rows.len() + 1), sum);
        *lists = Lists::from_rows(lists.n, &rows);
    }
}

/// The variables that stand in an odd number of some checks.
pub fn sum_of_checks(random: &mut Random, rows: &[Vec<u32>]) -> Vec<u32> {
    let count = random.between(1, rows.len().min(5));
    let mut chosen: Vec<&Vec<u32>> = rows.iter().collect();
    random.shuffle(&mut chosen);
    let mut variables: Vec<u32> = chosen[..count].iter().copied().flatten().copied().collect();
    variables.sort_unstable();
    let odd = variables.chunk_by(|a, b| a == b).filter(|same| same.len() % 2 == 1);
    odd.map(|same| same[0]).collect()
}

/// As many variables, checks and entries as there can be.
pub fn fullest(limits: Limits, random: &mut Random) -> Lists {
    let Limits { variables, checks, entries } = limits;
    regular(random, variables, entries / variables, entries / checks)
}

/// Every variable of one degree and every check of another, but for a last check of the
/// entries that are left: shuffled sockets, with repeats in a row swapped away.
pub fn regular(
    random: &mut Random,
    n: usize,
    variable_degree: usize,
    check_degree: usize,
) -> Lists {
    let mut columns = shuffled_sockets(random, n, variable_degree);
    part_repeats(random, &mut columns, check_degree, |_, _| true);
    in_rows(n, columns, check_degree)
}

/// The same with a codeword of about as many ones as zeros, for a check degree that is even
/// and divides the entries. Of two odd rows, the first changes a one for a zero of the
/// second, and repeats are changed for variables of the same bit.
pub fn regular_with_codeword(
    random: &mut Random,
    n: usize,
    variable_degree: usize,
    check_degree: usize,
) -> (Lists, Vec<u8>) {
    let mut word: Vec<u8> = (0..n).map(|_| random.below(2) as u8).collect();
    word[0] ^= word.iter().fold(0, |parity, bit| parity ^ bit);
    let mut columns = shuffled_sockets(random, n, variable_degree);
    let bit = |variable: u32| word[variable as usize];
    let is_odd = |row: &[u32]| row.iter().fold(0, |parity, &variable| parity ^ bit(variable)) == 1;
    let rows = columns.chunks(check_degree).enumerate();
    let odd: Vec<usize> = rows.filter(|(_, row)| is_odd(row)).map(|(check, _)| check).collect();
    for pair in odd.chunks_exact(2) {
        let entry_of = |check: usize, wanted: u8| {
            let mut row = check * check_degree..(check + 1) * check_degree;
            row.find(|&entry| bit(columns[entry]) == wanted).expect("both bits in an odd row")
        };
        let (one, zero) = (entry_of(pair[0], 1), entry_of(pair[1], 0));
        columns.swap(one, zero);
    }
    part_repeats(random, &mut columns, check_degree, |a, b| bit(a) == bit(b));
    (in_rows(n, columns, check_degree), word)
}

fn shuffled_sockets(random: &mut Random, n: usize, variable_degree: usize) -> Vec<u32> {
    let mut columns: Vec<u32> =
        (0..n * variable_degree).map(|socket| as_number(socket % n)).collect();
    random.shuffle(&mut columns);
    columns
}

/// Sorts each row, and swaps what repeats in it with other entries where that is allowed.
fn part_repeats(
    random: &mut Random,
    columns: &mut [u32],
    check_degree: usize,
    allowed: impl Fn(u32, u32) -> bool,
) {
    loop {
        columns.chunks_mut(check_degree).for_each(|row| row.sort_unstable());
        let repeats: Vec<usize> = (1..columns.len())
            .filter(|&entry| entry % check_degree > 0 && columns[entry] == columns[entry - 1])
            .collect();
        if repeats.is_empty() {
            return;
        }
        for entry in repeats {
            let other = random.below(columns.len());
            if allowed(columns[entry], columns[other]) {
                columns.swap(entry, other);
            }
        }
    }
}

/// The columns cut into rows of one degree; the last row has what is left.
fn in_rows(n: usize, columns: Vec<u32>, check_degree: usize) -> Lists {
    let rows = (0..columns.len()).step_by(check_degree);
    let starts = rows.chain([columns.len()]).map(as_number).collect();
    Lists { n, starts, columns }
}
