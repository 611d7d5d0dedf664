//! How far off a score is: the residual and the width of one row, each operation rounded once.
use super::questions::{self, Asked};
use crate::model::*;

/// Question 2: starts, columns, values, b and x.
fn lengths(m: &Input, x: &[f64]) -> Asked {
    let (n, e) = (m.n, m.columns.len());
    if e <= MAX_ENTRIES && m.starts.len() == n + 1 && m.values.len() == e && m.b.len() == n && x.len() == n {
        return Ok(());
    }
    refuse(2, 0)
}

fn below(row: usize, n: usize) -> Asked {
    if row < n {
        return Ok(());
    }
    refuse(5, row)
}

fn some(m: &Input, row: usize) -> Asked {
    if questions::row_range(m, row).is_empty() {
        return refuse(7, row);
    }
    Ok(())
}

/// Questions 1 to 7.
fn asked(m: &Input, x: &[f64], row: usize) -> Asked {
    questions::rows(m.n)?;
    lengths(m, x)?;
    questions::starts(m)?;
    questions::columns(m)?;
    below(row, m.n)?;
    questions::finite(&m.values, 0)?;
    questions::finite(&m.b, m.columns.len())?;
    questions::finite(x, m.columns.len() + m.n)?;
    some(m, row)
}

/// Every listed result in turn; the last residual and the width are what is asked for.
fn results(m: &Input, x: &[f64], row: usize) -> (Vec<f64>, f64, f64) {
    let entries = questions::row_range(m, row);
    let q = entries.len() as f64;
    let (mut residual, mut total) = (m.b[row], m.b[row].abs());
    let mut listed = Vec::new();
    for p in entries {
        let product = m.values[p] * x[m.columns[p] as usize];
        residual -= product;
        total += product.abs();
        listed.extend([product, residual, total]);
    }
    let share = (q + 2.0) * f64::EPSILON;
    let scaled = total * share;
    let least = q * f64::from_bits(1);
    let width = scaled + least;
    listed.extend([share, scaled, least, width]);
    (listed, residual, width)
}

/// The residual and the width, or the refusal.
pub fn checked(m: &Input, x: &[f64], row: usize) -> Result<(f64, f64), Refusal> {
    asked(m, x, row)?;
    let (listed, residual, width) = results(m, x, row);
    if listed.iter().all(|result| result.is_finite()) {
        return Ok((residual, width));
    }
    refuse(22, row)
}

/// The call: a refusal leaves the pair as it was, and the report gets the place.
pub fn make(lent: &mut Checking) -> u32 {
    let (number, place) = match checked(&lent.input, &lent.x, lent.row as usize) {
        Ok((residual, width)) => {
            lent.pair.iter_mut().zip([residual, width]).for_each(|(slot, value)| *slot = value);
            (0, 0)
        }
        Err(q) => (q.number, q.place),
    };
    lent.report.iter_mut().take(1).for_each(|slot| *slot = place);
    number
}
