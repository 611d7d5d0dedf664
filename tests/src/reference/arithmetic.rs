//! The arithmetic, in the listed order, every result tested when it is made.
use super::fill::Fill;
use crate::model::*;

/// What the elimination leaves: L along each lower row, the pivots, d, u along each T(k), and z, whose place k is
/// x(c(k)).
#[derive(Clone, Debug, Default)]
pub struct Solved {
    pub l: Vec<Vec<f64>>,
    pub pivots: Vec<f64>,
    pub d: Vec<f64>,
    pub u: Vec<Vec<f64>>,
    pub z: Vec<f64>,
}

/// Question 13: the result, or a refusal at k unless it is finite.
fn checked(k: usize, result: f64) -> Result<f64, Refusal> {
    if result.is_finite() {
        return Ok(result);
    }
    refuse(13, k)
}

/// The difference from - a·b in two roundings.
fn minus_product(k: usize, from: f64, a: f64, b: f64) -> Result<f64, Refusal> {
    let product = checked(k, a * b)?;
    checked(k, from - product)
}

/// The rows of M' as lists of place and value, a place as often as it is stored.
type Entries = [Vec<(usize, f64)>];

/// Step 1 of place k: at each place the sum of its values in stored order, from the first of them. A single value is
/// taken as it is, and a place without any has +0.
fn working_row(k: usize, n: usize, entries: &[(usize, f64)]) -> Result<Vec<f64>, Refusal> {
    let mut sums: Vec<Option<f64>> = vec![None; n];
    for &(j, value) in entries {
        let sum = match sums[j] {
            Some(before) => checked(k, before + value)?,
            None => value,
        };
        sums[j] = Some(sum);
    }
    Ok(sums.into_iter().map(|sum| sum.unwrap_or(0.0)).collect())
}

/// Eliminates places 0 to n - 1, then goes back. Question 12: is the magnitude of each pivot above the floor?
pub fn solve(fill: &Fill, entries: &Entries, right: &[f64], floor: f64) -> Result<Solved, Refusal> {
    let mut solved = Solved::default();
    let y = factor(fill, entries, right, floor, &mut solved)?;
    solved.z = back(&fill.upper, &solved.u, &y)?;
    Ok(solved)
}

/// The pivots under the floor 0, up to the place that the elimination stops at; its own where it is found.
pub fn pivots(fill: &Fill, entries: &Entries, right: &[f64]) -> Vec<f64> {
    let mut solved = Solved::default();
    // a refusal leaves the pivots found before it
    let _ = factor(fill, entries, right, 0.0, &mut solved);
    solved.pivots
}

/// Eliminates places 0 to n - 1 and returns y.
fn factor(fill: &Fill, entries: &Entries, right: &[f64], floor: f64, solved: &mut Solved) -> Result<Vec<f64>, Refusal> {
    let n = right.len();
    let mut y = Vec::with_capacity(n);
    for k in 0..n {
        let mut w = working_row(k, n, &entries[k])?;
        let s = eliminate(k, fill, solved, &mut w, right[k], &y)?;
        solved.pivots.push(w[k]);
        if w[k].abs() <= floor {
            return refuse(12, k);
        }
        let d = checked(k, 1.0 / w[k])?;
        y.push(checked(k, s * d)?);
        let u: Result<Vec<f64>, Refusal> = fill.upper[k].iter().map(|&j| checked(k, w[j] * d)).collect();
        solved.u.push(u?);
        solved.d.push(d);
    }
    Ok(y)
}

/// Step 2 of place k: keeps row k of L and returns s.
fn eliminate(k: usize, fill: &Fill, solved: &mut Solved, w: &mut [f64], right: f64, y: &[f64]) -> Result<f64, Refusal> {
    let mut s = right;
    let mut multipliers = Vec::new();
    for &i in &fill.lower_rows[k] {
        let m = w[i];
        multipliers.push(m);
        s = minus_product(k, s, m, y[i])?;
        for (&j, &u) in fill.upper[i].iter().zip(&solved.u[i]) {
            w[j] = minus_product(k, w[j], m, u)?;
        }
    }
    solved.l.push(multipliers);
    Ok(s)
}

/// The back steps, from k = n - 1 down, which find z.
pub fn back(upper: &[Vec<usize>], u: &[Vec<f64>], y: &[f64]) -> Result<Vec<f64>, Refusal> {
    let mut z = vec![0.0; y.len()];
    for k in (0..y.len()).rev() {
        let mut t = y[k];
        for (&j, &factor) in upper[k].iter().zip(&u[k]) {
            t = minus_product(k, t, factor, z[j])?;
        }
        z[k] = t;
    }
    Ok(z)
}

/// The s and y steps with L and d found before. `lower`: for each place its (i, L(k, i)), i ascending.
pub fn forward(lower: &[Vec<(usize, f64)>], d: &[f64], right: &[f64]) -> Result<Vec<f64>, Refusal> {
    let mut y: Vec<f64> = Vec::with_capacity(right.len());
    for k in 0..right.len() {
        let mut s = right[k];
        for &(i, m) in &lower[k] {
            s = minus_product(k, s, m, y[i])?;
        }
        y.push(checked(k, s * d[k])?);
    }
    Ok(y)
}

/// The right side by place: slot k is b(r(k)).
pub fn right_by_place(r: &[u16], b: &[f64]) -> Vec<f64> {
    r.iter().map(|&row| b[row as usize]).collect()
}

/// The solution by own column: x(c(k)) = z(k).
pub fn own_order(c: &[u16], z: &[f64]) -> Vec<f64> {
    let mut x = vec![0.0; z.len()];
    for (k, &column) in c.iter().enumerate() {
        x[column as usize] = z[k];
    }
    x
}
