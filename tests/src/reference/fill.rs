//! The fill by its definition: walks of stored entries of M', searched from each place.
use super::questions::row_range;
use crate::model::Input;
use std::cmp::Reverse;
use std::collections::BinaryHeap;

/// Row k of M': place and value of each entry, in stored order; a place may stand there several times.
pub fn entries_by_place(input: &Input) -> Vec<Vec<(usize, f64)>> {
    let mut inverse = vec![0usize; input.n];
    for (k, &j) in input.c.iter().enumerate() {
        inverse[j as usize] = k;
    }
    let value = |p: usize| input.values.get(p).copied().unwrap_or(0.0);
    let row =
        |&row: &u16| row_range(input, row as usize).map(|p| (inverse[input.columns[p] as usize], value(p))).collect();
    input.r.iter().map(row).collect()
}

/// The filled positions: lower rows, lower columns and T, each ascending, and which (k, k) are filled.
#[derive(Clone, Debug, Default)]
pub struct Fill {
    pub lower_rows: Vec<Vec<usize>>,
    pub lower_columns: Vec<Vec<usize>>,
    pub upper: Vec<Vec<usize>>,
    /// The rows i < k with (i, k) filled: what lower row k is to T with rows and columns exchanged.
    pub upper_columns: Vec<Vec<usize>>,
    pub diagonal: Vec<bool>,
}

impl Fill {
    /// The fill of a matrix under its orders.
    pub fn of(input: &Input) -> Fill {
        let entries = entries_by_place(input);
        let pattern: Vec<Vec<usize>> = entries.iter().map(|row| row.iter().map(|e| e.0).collect()).collect();
        Fill::of_pattern(&pattern)
    }

    /// The fill of M', given as the places of each row's entries.
    pub fn of_pattern(pattern: &[Vec<usize>]) -> Fill {
        let n = pattern.len();
        let mut fill = Fill {
            lower_rows: vec![Vec::new(); n],
            lower_columns: vec![Vec::new(); n],
            upper: vec![Vec::new(); n],
            upper_columns: vec![Vec::new(); n],
            diagonal: vec![false; n],
        };
        for i in 0..n {
            for j in filled_in_row(pattern, i) {
                fill.insert(i, j);
            }
        }
        fill
    }

    fn insert(&mut self, i: usize, j: usize) {
        if j < i {
            self.lower_rows[i].push(j);
            self.lower_columns[j].push(i);
        } else if j > i {
            self.upper[i].push(j);
            self.upper_columns[j].push(i);
        } else {
            self.diagonal[i] = true;
        }
    }

    /// The number of filled positions below the diagonal.
    pub fn lower_count(&self) -> u64 {
        self.lower_rows.iter().map(|row| row.len() as u64).sum()
    }

    /// The number of filled positions above the diagonal.
    pub fn upper_count(&self) -> u64 {
        self.upper.iter().map(|list| list.len() as u64).sum()
    }

    /// The sum over k of the filled rows below k times the length of T(k).
    pub fn products(&self) -> u64 {
        let lengths = self.lower_columns.iter().zip(&self.upper);
        lengths.map(|(below, list)| below.len() as u64 * list.len() as u64).sum()
    }
}

/// The filled j of row i, ascending. For each j the search finds the walk from i to j whose greatest place
/// strictly between is least; (i, j) is filled if that place is smaller than i and j.
/// Places are counted one higher here, so that 0 stands for a walk of a single entry.
fn filled_in_row(pattern: &[Vec<usize>], i: usize) -> Vec<usize> {
    let n = pattern.len();
    let mut least = vec![usize::MAX; n];
    let mut open = BinaryHeap::new();
    reach(pattern, i, 0, &mut least, &mut open);
    while let Some(Reverse((between, place))) = open.pop() {
        let passable = place < i && between == least[place];
        if passable {
            reach(pattern, place, between.max(place + 1), &mut least, &mut open);
        }
    }
    (0..n).filter(|&j| least[j] <= i.min(j)).collect()
}

/// Takes the entries of row `from`, behind a walk whose greatest place between is `between`.
fn reach(
    pattern: &[Vec<usize>],
    from: usize,
    between: usize,
    least: &mut [usize],
    open: &mut BinaryHeap<Reverse<(usize, usize)>>,
) {
    for &j in &pattern[from] {
        if between < least[j] {
            least[j] = between;
            open.push(Reverse((between, j)));
        }
    }
}
