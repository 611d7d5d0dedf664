//! The fill by merging lists under marks, and its lists placed one after another or sharing slots.
use lilacpliers_tests::model::*;

/// A pattern by rows.
pub struct Pattern {
    pub starts: Vec<u32>,
    pub places: Vec<u16>,
}

impl Pattern {
    pub fn row(&self, k: usize) -> &[u16] {
        &self.places[self.starts[k] as usize..self.starts[k + 1] as usize]
    }

    /// The same pattern by columns.
    pub fn transposed(&self) -> Pattern {
        let n = self.starts.len() - 1;
        let mut starts = vec![0u32; n + 1];
        self.places.iter().for_each(|&p| starts[p as usize + 1] += 1);
        for k in 0..n {
            starts[k + 1] += starts[k];
        }
        let mut next = starts.clone();
        let mut places = vec![0u16; self.places.len()];
        for k in 0..n {
            for &p in self.row(k) {
                let slot = &mut next[p as usize];
                places[*slot as usize] = k as u16;
                *slot += 1;
            }
        }
        Pattern { starts, places }
    }
}

/// M' by rows: places, and the values beside them.
pub fn by_place(input: &Input) -> (Pattern, Vec<f64>) {
    let mut inverse = vec![0u16; input.n];
    for (k, &j) in input.c.iter().enumerate() {
        inverse[j as usize] = k as u16;
    }
    let mut pattern = Pattern { starts: vec![0], places: Vec::with_capacity(input.columns.len()) };
    let mut values = Vec::with_capacity(input.columns.len());
    for &row in &input.r {
        let range = input.starts[row as usize] as usize..input.starts[row as usize + 1] as usize;
        pattern.places.extend(input.columns[range.clone()].iter().map(|&j| inverse[j as usize]));
        values.extend_from_slice(input.values.get(range).unwrap_or(&[]));
        pattern.starts.push(pattern.places.len() as u32);
    }
    (pattern, values)
}

/// One side's lists as they are placed. In the plain form runs are the list starts.
pub struct Placing<'a> {
    pub starts: &'a mut [u32],
    pub runs: &'a mut [u32],
    pub index: &'a mut [u16],
    /// Slots of the value store.
    pub value_slots: usize,
    pub used: usize,
    last_run: usize,
}

impl<'a> Placing<'a> {
    pub fn new(starts: &'a mut [u32], runs: &'a mut [u32], index: &'a mut [u16], value_slots: usize) -> Placing<'a> {
        starts[0] = 0;
        Placing { starts, runs, index, value_slots, used: 0, last_run: 0 }
    }

    /// The list of a place already placed.
    pub fn list(&self, i: usize) -> &[u16] {
        let length = (self.starts[i + 1] - self.starts[i]) as usize;
        let run = if self.runs.is_empty() { self.starts[i] } else { self.runs[i] } as usize;
        &self.index[run..run + length]
    }

    /// Puts the list of place k where the form has it; false where a store is too short.
    pub fn place(&mut self, k: usize, list: &[u16], best: Best) -> bool {
        let end = self.starts[k] as usize + list.len();
        let (run, standing) = self.plan(list, best);
        let fits = end <= self.value_slots && self.used.max(run + list.len()) <= self.index.len();
        if !fits {
            return false;
        }
        self.starts[k + 1] = end as u32;
        if !self.runs.is_empty() {
            self.runs[k] = run as u32;
        }
        if standing < list.len() {
            self.index[run + standing..run + list.len()].copy_from_slice(&list[standing..]);
            self.used = run + list.len();
            self.last_run = run;
        }
        true
    }

    /// Where the run starts, and how many entries of the list stand there.
    fn plan(&self, list: &[u16], best: Best) -> (usize, usize) {
        if self.runs.is_empty() || list.is_empty() {
            return (self.used, 0);
        }
        if best.most == list.len() {
            let i = best.at;
            let end = self.runs[i] + self.starts[i + 1] - self.starts[i];
            return (end as usize - best.most, list.len());
        }
        let tail = &self.index[self.last_run..self.used];
        if let Ok(at) = tail.binary_search(&list[0]) {
            let common = (tail.len() - at).min(list.len());
            if tail[at..at + common] == list[..common] {
                return (self.last_run + at, common);
            }
        }
        (self.used, 0)
    }
}

/// The first list with the most entries above k, among those merged into the list of k.
#[derive(Clone, Copy, Default)]
pub struct Best {
    pub at: usize,
    pub most: usize,
}

impl Best {
    fn offer(&mut self, i: usize, count: usize) {
        if count > self.most || (count == self.most && i < self.at) {
            *self = Best { at: i, most: count };
        }
    }
}

/// The members of one row (or column): marks, and the places before and after its own.
pub struct Members {
    marks: Vec<u32>,
    pub before: Vec<u16>,
    pub after: Vec<u16>,
    pub diagonal: bool,
    pub best: Best,
    pub products: u64,
}

impl Members {
    pub fn new(n: usize) -> Members {
        Members {
            marks: vec![0; n],
            before: Vec::with_capacity(n),
            after: Vec::with_capacity(n),
            diagonal: false,
            best: Best::default(),
            products: 0,
        }
    }

    #[inline]
    fn add(&mut self, k: usize, j: u16) {
        let mark = &mut self.marks[j as usize];
        if *mark == k as u32 + 1 {
            return;
        }
        *mark = k as u32 + 1;
        match (j as usize).cmp(&k) {
            std::cmp::Ordering::Less => self.before.push(j),
            std::cmp::Ordering::Equal => self.diagonal = true,
            std::cmp::Ordering::Greater => self.after.push(j),
        }
    }

    /// The members of row k: its entries, and the lists of every place before k among them.
    pub fn find(&mut self, k: usize, entries: &[u16], lists: &Placing) {
        self.before.clear();
        self.after.clear();
        self.diagonal = false;
        self.best = Best::default();
        self.products = 0;
        entries.iter().for_each(|&j| self.add(k, j));
        let mut at = 0;
        while at < self.before.len() {
            let i = self.before[at] as usize;
            let list = lists.list(i);
            list.iter().for_each(|&j| self.add(k, j));
            self.products += list.len() as u64;
            let above = list.len() - list.partition_point(|&j| j as usize <= k);
            self.best.offer(i, above);
            at += 1;
        }
        self.before.sort_unstable();
        self.after.sort_unstable();
    }
}
