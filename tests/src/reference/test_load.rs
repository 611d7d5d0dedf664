//! The call that makes a test load: the answer, the report and every slot that it leaves behind.
use super::calls::put;
use super::questions::{self, Asked};
use crate::load;
use crate::model::*;

/// Question 2: have the six buffers their lengths?
fn lengths(m: &Input) -> Asked {
    let (n, slots) = (m.n, 4 * m.n);
    let entries = m.columns.len() == slots && m.values.len() == slots;
    if m.starts.len() == n + 1 && entries && m.r.len() == n && m.c.len() == n && m.b.len() == n {
        return Ok(());
    }
    refuse(2, 0)
}

/// Leaves the load, then zeros, and counts its entries.
fn leave(seed: u16, matrix: &mut Input) -> u64 {
    let made = load::test_load(matrix.n, seed);
    put(&mut matrix.starts, &made.starts);
    put(&mut matrix.columns, &made.columns);
    put(&mut matrix.values, &made.values);
    put(&mut matrix.r, &made.r);
    put(&mut matrix.c, &made.c);
    put(&mut matrix.b, &made.b);
    made.columns.len() as u64
}

/// Puts questions 1 and 2, and makes a load of `matrix.n` rows. The report gets the place, 0, and the entry count.
pub fn make(seed: u16, matrix: &mut Input, report: &mut [u64]) -> u32 {
    let asked = questions::rows(matrix.n).and_then(|()| lengths(matrix));
    let (number, e) = match asked {
        Ok(()) => (0, leave(seed, matrix)),
        Err(q) => (q.number, 0),
    };
    report.iter_mut().zip([0, e]).for_each(|(slot, value)| *slot = value);
    number
}
