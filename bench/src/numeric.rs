//! The arithmetic with indexed loops over the lists.
use crate::symbolic::Pattern;
use lilacpliers_tests::model::*;

/// The upper side as the arithmetic reads and writes it.
pub struct Upper<'a> {
    pub starts: &'a [u32],
    pub runs: &'a [u32],
    pub index: &'a [u16],
    pub values: &'a mut [f64],
}

/// The working row and what it is made of.
pub struct Work {
    pub w: Vec<f64>,
    pub y: Vec<f64>,
}

impl Work {
    pub fn new(n: usize) -> Work {
        Work { w: vec![0.0; n], y: vec![0.0; n] }
    }

    /// Step 1: over zeros, the values of each column of row k added in stored order. A sum that begins from -0 is one
    /// that begins from its first value.
    pub fn load(&mut self, k: usize, pattern: &Pattern, values: &[f64]) {
        let from = pattern.starts[k] as usize;
        for &j in pattern.row(k) {
            self.w[j as usize] = -0.0;
        }
        for (&j, &value) in pattern.row(k).iter().zip(&values[from..]) {
            self.w[j as usize] += value;
        }
    }

    /// Step 2 at i: takes m times row i off the working row; s is returned.
    #[inline]
    pub fn eliminate(&mut self, i: usize, s: f64, upper: &Upper) -> f64 {
        let m = self.w[i];
        let from = upper.starts[i] as usize;
        let length = upper.starts[i + 1] as usize - from;
        let run = upper.runs[i] as usize;
        let list = &upper.index[run..run + length];
        let row = &upper.values[from..from + length];
        for (&j, &u) in list.iter().zip(row) {
            let product = m * u;
            self.w[j as usize] -= product;
        }
        let product = m * self.y[i];
        s - product
    }

    /// Step 3: d(k), y(k) and row k of u; the working row is zero again at k and after it.
    pub fn finish(&mut self, k: usize, s: f64, floor: f64, upper: &mut Upper) -> Result<f64, Refusal> {
        let from = upper.starts[k] as usize;
        let length = upper.starts[k + 1] as usize - from;
        let run = upper.runs[k] as usize;
        let list = &upper.index[run..run + length];
        let pivot = std::mem::take(&mut self.w[k]);
        let sound = s.is_finite() && pivot.is_finite() && list.iter().all(|&j| self.w[j as usize].is_finite());
        if !sound {
            return refuse(13, k);
        }
        if pivot.abs() <= floor {
            return refuse(12, k);
        }
        let d = 1.0 / pivot;
        self.y[k] = s * d;
        let mut finite = d.is_finite() && self.y[k].is_finite();
        for (&j, u) in list.iter().zip(&mut upper.values[from..from + length]) {
            *u = std::mem::take(&mut self.w[j as usize]) * d;
            finite &= u.is_finite();
        }
        if !finite {
            return refuse(13, k);
        }
        Ok(d)
    }
}

/// From k = n - 1 down, over y.
pub fn back(y: &mut [f64], upper: &Upper) -> Result<(), Refusal> {
    for k in (0..y.len()).rev() {
        let from = upper.starts[k] as usize;
        let length = upper.starts[k + 1] as usize - from;
        let run = upper.runs[k] as usize;
        let mut t = y[k];
        for (&j, &u) in upper.index[run..run + length].iter().zip(&upper.values[from..from + length]) {
            let product = u * y[j as usize];
            t -= product;
        }
        if !t.is_finite() {
            return refuse(13, k);
        }
        y[k] = t;
    }
    Ok(())
}
