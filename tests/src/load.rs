//! Matrices that are made by a rule: from rows, the test load, tridiagonal systems, grids.
use crate::model::Input;

/// The matrix of rows of (column, value), with orders 0, 1, ...
pub fn from_rows(rows: &[Vec<(usize, f64)>], b: &[f64]) -> Input {
    let n = rows.len();
    let mut input = Input { n, b: b.to_vec(), ..Input::default() };
    input.starts.push(0);
    for row in rows {
        for &(column, value) in row {
            input.columns.push(column as u16);
            input.values.push(value);
        }
        input.starts.push(input.columns.len() as u32);
    }
    input.r = (0..n as u16).collect();
    input.c = input.r.clone();
    input
}

/// Other rows under the orders, the right side and the floor of the input.
pub fn with_rows(input: &Input, rows: &[Vec<(usize, f64)>]) -> Input {
    let Input { r, c, floor, .. } = input.clone();
    Input { r, c, floor, ..from_rows(rows, &input.b) }
}

/// The values of each column of a row in stored order, columns by their first entries. A structure call is lent no
/// values: zeros stand for them.
pub fn columns_of(input: &Input, row: usize) -> Vec<(usize, Vec<f64>)> {
    let mut found: Vec<(usize, Vec<f64>)> = Vec::new();
    for p in input.starts[row] as usize..input.starts[row + 1] as usize {
        let (column, value) = (input.columns[p] as usize, input.values.get(p).copied().unwrap_or(0.0));
        match found.iter_mut().find(|(other, _)| *other == column) {
            Some((_, values)) => values.push(value),
            None => found.push((column, vec![value])),
        }
    }
    found
}

/// The sum of a column's values from the first on. It is finite exactly if every partial sum is.
pub fn sum(values: &[f64]) -> f64 {
    values.iter().copied().reduce(|sum, value| sum + value).unwrap_or(0.0)
}

/// The same matrix with each entry twice: each row's entries stand there with half their values, then once more.
/// Unless a value is subnormal, the sums are the values that were there.
pub fn halved(input: &Input) -> Input {
    let row = |i: usize| {
        let entries = input.starts[i] as usize..input.starts[i + 1] as usize;
        let half = |p: usize| (input.columns[p] as usize, input.values[p] / 2.0);
        entries.clone().chain(entries).map(half).collect()
    };
    let rows: Vec<Vec<(usize, f64)>> = (0..input.n).map(row).collect();
    with_rows(input, &rows)
}

/// One row of e entries, each 1 / e; b = 1. The sum is 1 where e is a power of two.
pub fn parts_of_one(e: usize) -> Input {
    from_rows(&[vec![(0, 1.0 / e as f64); e]], &[1.0])
}

/// The test load: 4.0 on the diagonal and three draws a row.
pub fn test_load(n: usize, seed: u16) -> Input {
    let mut s = seed as u32;
    let mut rows = Vec::with_capacity(n);
    for k in 0..n {
        let mut row = vec![(k, 4.0)];
        for _ in 0..3 {
            s = (s * 25_173 + 13_849) % 65_536;
            let column = (s as usize / 16) % n;
            if row.iter().all(|&(j, _)| j != column) {
                row.push((column, -1.0));
            }
        }
        rows.push(row);
    }
    from_rows(&rows, &vec![1.0; n])
}

/// A tridiagonal system: 4 on the diagonal, -1 beside it.
pub fn tridiagonal(n: usize) -> Input {
    let rows: Vec<Vec<(usize, f64)>> = (0..n)
        .map(|k| {
            let first = k.saturating_sub(1);
            let last = (k + 1).min(n - 1);
            (first..=last).map(|j| (j, if j == k { 4.0 } else { -1.0 })).collect()
        })
        .collect();
    from_rows(&rows, &vec![1.0; n])
}

/// Report 114's model problem on a grid of side by side points: 8 on the diagonal, -1 after it,
/// -2 before it, and b so that x is 1, 2, 3, ...
pub fn grid(side: usize) -> Input {
    let n = side * side;
    let mut rows = Vec::with_capacity(n);
    let mut b = Vec::with_capacity(n);
    for p in 0..n {
        let row = grid_row(side, p);
        b.push(row.iter().map(|&(q, v)| v * (q + 1) as f64).sum());
        rows.push(row);
    }
    from_rows(&rows, &b)
}

fn grid_row(side: usize, p: usize) -> Vec<(usize, f64)> {
    let (i, j) = (p / side, p % side);
    let mut row = Vec::new();
    if i > 0 {
        row.push((p - side, -2.0));
    }
    if j > 0 {
        row.push((p - 1, -2.0));
    }
    row.push((p, 8.0));
    if j + 1 < side {
        row.push((p + 1, -1.0));
    }
    if i + 1 < side {
        row.push((p + side, -1.0));
    }
    row
}
