//! Where the lists stand in an index store: one after another (plain) or sharing slots (shared, row).

/// One side's lists as placed so far, without a limit on slots.
#[derive(Clone, Debug)]
pub struct Placed {
    pub slots: Vec<u16>,
    pub runs: Vec<u32>,
    /// List starts: one more than lists placed.
    pub starts: Vec<u32>,
    last_run: Option<usize>,
}

impl Default for Placed {
    fn default() -> Placed {
        Placed { slots: Vec::new(), runs: Vec::new(), starts: vec![0], last_run: None }
    }
}

impl Placed {
    /// How many values the lists placed so far have.
    pub fn values(&self) -> usize {
        self.starts[self.starts.len() - 1] as usize
    }

    fn close(&mut self, run: usize, length: usize) {
        self.runs.push(run as u32);
        self.starts.push((self.values() + length) as u32);
    }

    fn write(&mut self, list: &[usize]) {
        self.slots.extend(list.iter().map(|&j| j as u16));
    }

    /// Places a list the plain way, behind what is there.
    pub fn append(&mut self, list: &[usize]) {
        let run = self.slots.len();
        self.write(list);
        self.close(run, list.len());
    }

    /// Places list k by the shared form's three steps. `row`: the i < k that lead to k, `lists`: the side's lists.
    pub fn share(&mut self, k: usize, row: &[usize], lists: &[Vec<usize>]) {
        let list = &lists[k];
        let run = if list.is_empty() {
            self.slots.len()
        } else if let Some(run) = self.tail(k, row, lists) {
            run
        } else {
            self.overlap_or_append(list)
        };
        self.close(run, list.len());
    }

    /// Step 2: the tail of an earlier list.
    fn tail(&self, k: usize, row: &[usize], lists: &[Vec<usize>]) -> Option<usize> {
        let above = |i: usize| lists[i].iter().filter(|&&j| j > k).count();
        let most = row.iter().map(|&i| above(i)).max()?;
        let first = row.iter().copied().find(|&i| above(i) == most)?;
        if most != lists[k].len() {
            return None;
        }
        Some(self.runs[first] as usize + lists[first].len() - most)
    }

    /// Step 3: the list goes over the end of the last run, or behind all.
    fn overlap_or_append(&mut self, list: &[usize]) -> usize {
        if let Some(run) = self.overlap(list) {
            let standing = self.slots.len() - run;
            if standing < list.len() {
                self.write(&list[standing..]);
                self.last_run = Some(run);
            }
            return run;
        }
        let run = self.slots.len();
        self.write(list);
        self.last_run = Some(run);
        run
    }

    fn overlap(&self, list: &[usize]) -> Option<usize> {
        let from = self.last_run?;
        let found = from + self.slots[from..].iter().position(|&j| j as usize == list[0])?;
        let agrees = self.slots[found..].iter().zip(list).all(|(&slot, &j)| slot as usize == j);
        if agrees {
            Some(found)
        } else {
            None
        }
    }
}
