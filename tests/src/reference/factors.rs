//! Lists and factors as a caller presents them to another right side: question 15, and reading them.
use crate::model::*;

/// One side's presented lists at place k.
struct Presented<'a> {
    store: &'a Store,
    shared: bool,
    n: usize,
    /// Whether the entries of list k lie above k (below k otherwise).
    above: bool,
}

impl Presented<'_> {
    fn range(&self, k: usize) -> (usize, usize) {
        (self.store.starts[k] as usize, self.store.starts[k + 1] as usize)
    }

    fn run(&self, k: usize) -> usize {
        if self.shared {
            self.store.runs[k] as usize
        } else {
            self.store.starts[k] as usize
        }
    }

    /// Starts, list and values of place k lie where they may.
    fn inside(&self, k: usize) -> bool {
        let (from, to) = self.range(k);
        let first = k > 0 || from == 0;
        first && from <= to && to <= self.store.values.len() && self.run(k) + (to - from) <= self.store.index.len()
    }

    fn list(&self, k: usize) -> &[u16] {
        let (from, to) = self.range(k);
        let run = self.run(k);
        &self.store.index[run..run + (to - from)]
    }

    fn values(&self, k: usize) -> &[f64] {
        let (from, to) = self.range(k);
        &self.store.values[from..to]
    }

    fn well_shaped(&self, k: usize) -> bool {
        let side = |j: usize| if self.above { k < j && j < self.n } else { j < k };
        let list = self.list(k);
        list.windows(2).all(|pair| pair[0] < pair[1]) && list.iter().all(|&j| side(j as usize))
    }

    fn good(&self, k: usize) -> bool {
        self.inside(k) && self.well_shaped(k) && self.values(k).iter().all(|v| v.is_finite())
    }
}

/// Lists and factors of both sides.
pub struct Factors<'a> {
    lower: Presented<'a>,
    upper: Presented<'a>,
    d: &'a [f64],
}

impl<'a> Factors<'a> {
    /// The factors as the buffers present them in the form.
    pub fn new(form: Form, n: usize, buffers: &'a Buffers) -> Factors<'a> {
        let shared = form == Form::Shared;
        Factors {
            lower: Presented { store: &buffers.lower, shared, n, above: shared },
            upper: Presented { store: &buffers.upper, shared, n, above: true },
            d: &buffers.d,
        }
    }

    /// Question 15: are lists well shaped and factors finite?
    pub fn ask(&self) -> Result<(), Refusal> {
        for k in 0..self.d.len() {
            if !(self.lower.good(k) && self.upper.good(k) && self.d[k].is_finite()) {
                return refuse(15, k);
            }
        }
        Ok(())
    }

    /// The rows of L: row k holds the pairs of i and L(k, i), i ascending.
    pub fn lower_rows(&self) -> Vec<Vec<(usize, f64)>> {
        let n = self.d.len();
        let mut rows = vec![Vec::new(); n];
        for p in 0..n {
            for (&j, &value) in self.lower.list(p).iter().zip(self.lower.values(p)) {
                if self.lower.shared {
                    rows[j as usize].push((p, value));
                } else {
                    rows[p].push((j as usize, value));
                }
            }
        }
        rows
    }

    /// The lists T(k) and the values u along them.
    pub fn upper_rows(&self) -> (Vec<Vec<usize>>, Vec<Vec<f64>>) {
        let n = self.d.len();
        let lists = (0..n).map(|k| self.upper.list(k).iter().map(|&j| j as usize).collect()).collect();
        let values = (0..n).map(|k| self.upper.values(k).to_vec()).collect();
        (lists, values)
    }
}
