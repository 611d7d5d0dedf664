//! Structure and solve of the ordinary solver, for matrices that pass questions 1 to 7 and 19. It leaves in the buffers
//! what the product leaves when it ends well; after a refusal it leaves them as they are.
use crate::numeric::{back, Upper, Work};
use crate::symbolic::{by_place, Members, Pattern, Placing};
use lilacpliers_tests::model::*;

/// Structure in the plain or the shared form.
pub fn structure(form: Form, input: &Input, buffers: &mut Buffers) -> Result<Counts, Refusal> {
    let (pattern, _) = by_place(input);
    let counts = place_lists(form, &pattern, buffers)?;
    buffers.lower.values.fill(0.0);
    buffers.upper.values.fill(0.0);
    Ok(counts)
}

/// Structure, factors and solution.
pub fn solve(form: Form, input: &Input, buffers: &mut Buffers) -> Result<Counts, Refusal> {
    let (pattern, values) = by_place(input);
    let counts = place_lists(form, &pattern, buffers)?;
    let right: Vec<f64> = input.r.iter().map(|&row| input.b[row as usize]).collect();
    let z = match form {
        Form::Plain => eliminate_plain(&pattern, &values, &right, input.floor, buffers)?,
        _ => eliminate_shared(&pattern, &values, &right, input.floor, buffers)?,
    };
    for (&column, t) in input.c.iter().zip(z) {
        buffers.x[column as usize] = t;
    }
    buffers.lower.values[counts.lower as usize..].fill(0.0);
    buffers.upper.values[counts.upper as usize..].fill(0.0);
    Ok(counts)
}

fn placing(store: &mut Store) -> Placing<'_> {
    let Store { starts, runs, index, values } = store;
    Placing::new(starts, runs, index, values.len())
}

/// The fill and its lists; unused index slots are zero.
fn place_lists(form: Form, pattern: &Pattern, buffers: &mut Buffers) -> Result<Counts, Refusal> {
    let n = pattern.starts.len() - 1;
    let mut lower = placing(&mut buffers.lower);
    let mut upper = placing(&mut buffers.upper);
    let columns = if form == Form::Plain { None } else { Some(pattern.transposed()) };
    let mut row = Members::new(n);
    let mut column = Members::new(n);
    let mut products = 0;
    for k in 0..n {
        row.find(k, pattern.row(k), &upper);
        if !row.diagonal {
            return refuse(9, k);
        }
        products += row.products;
        let fits = match &columns {
            None => lower.place(k, &row.before, row.best),
            Some(columns) => {
                column.find(k, columns.row(k), &lower);
                lower.place(k, &column.after, column.best)
            }
        };
        if !fits {
            return refuse(10, k);
        }
        if !upper.place(k, &row.after, row.best) {
            return refuse(11, k);
        }
    }
    lower.index[lower.used..].fill(0);
    upper.index[upper.used..].fill(0);
    Ok(Counts { lower: lower.starts[n] as u64, upper: upper.starts[n] as u64, products })
}

/// Row by row: L along lower row k.
fn eliminate_plain(
    pattern: &Pattern,
    values: &[f64],
    right: &[f64],
    floor: f64,
    buffers: &mut Buffers,
) -> Result<Vec<f64>, Refusal> {
    let n = right.len();
    let Buffers { lower, upper, d, .. } = buffers;
    let mut upper =
        Upper { starts: &upper.starts, runs: &upper.starts, index: &upper.index, values: &mut upper.values };
    let mut work = Work::new(n);
    for k in 0..n {
        work.load(k, pattern, values);
        let range = lower.starts[k] as usize..lower.starts[k + 1] as usize;
        let mut s = right[k];
        for p in range {
            let i = lower.index[p] as usize;
            s = work.eliminate(i, s, &upper);
            let m = std::mem::take(&mut work.w[i]);
            lower.values[p] = m;
            // a multiplier that is not finite leaves a sum that is not finite
            s = if m.is_finite() { s } else { f64::NAN };
        }
        d[k] = work.finish(k, s, floor, &mut upper)?;
    }
    back(&mut work.y, &upper)?;
    Ok(work.y)
}

/// Links from a place to the columns whose next entry lies there.
struct Links {
    first: Vec<u16>,
    next: Vec<u16>,
    cursor: Vec<u32>,
}

const NONE: u16 = u16::MAX;

impl Links {
    fn new(n: usize) -> Links {
        Links { first: vec![NONE; n], next: vec![NONE; n], cursor: vec![0; n] }
    }

    /// The columns that have row k, ascending.
    fn take(&mut self, k: usize, columns: &mut Vec<u16>) {
        columns.clear();
        let mut i = std::mem::replace(&mut self.first[k], NONE);
        while i != NONE {
            columns.push(i);
            i = self.next[i as usize];
        }
        columns.sort_unstable();
    }

    /// Links column i to the row of its next entry.
    fn link(&mut self, i: usize, lower: &Store) {
        let at = self.cursor[i];
        if at < lower.starts[i + 1] - lower.starts[i] {
            let row = lower.index[(lower.runs[i] + at) as usize] as usize;
            self.next[i] = self.first[row];
            self.first[row] = i as u16;
        }
    }
}

/// Row by row with L kept by columns.
fn eliminate_shared(
    pattern: &Pattern,
    values: &[f64],
    right: &[f64],
    floor: f64,
    buffers: &mut Buffers,
) -> Result<Vec<f64>, Refusal> {
    let n = right.len();
    let Buffers { lower, upper, d, .. } = buffers;
    let mut upper = Upper { starts: &upper.starts, runs: &upper.runs, index: &upper.index, values: &mut upper.values };
    let mut work = Work::new(n);
    let mut links = Links::new(n);
    let mut row = Vec::with_capacity(n);
    for k in 0..n {
        work.load(k, pattern, values);
        links.take(k, &mut row);
        let mut s = right[k];
        for &i in &row {
            let i = i as usize;
            s = work.eliminate(i, s, &upper);
            let m = std::mem::take(&mut work.w[i]);
            lower.values[(lower.starts[i] + links.cursor[i]) as usize] = m;
            s = if m.is_finite() { s } else { f64::NAN };
            links.cursor[i] += 1;
            links.link(i, lower);
        }
        links.link(k, lower);
        d[k] = work.finish(k, s, floor, &mut upper)?;
    }
    back(&mut work.y, &upper)?;
    Ok(work.y)
}

#[cfg(test)]
mod tests {
    use super::*;
    use lilacpliers_tests::random::Random;
    use lilacpliers_tests::{compare, generate, load, reference};

    /// The answer and, where it ends well, every buffer but scratch as the reference has them.
    fn agrees(call: Call, input: &Input, slots: Slots) {
        let mut expected = Buffers::for_call(call, input.n, slots);
        let answer = reference::run(call, input, &mut expected);
        let mut found = Buffers::for_call(call, input.n, slots);
        let given = match call {
            Call::Structure(form) => structure(form, input, &mut found),
            _ => solve(call.form(), input, &mut found),
        };
        let given: Answer = match given {
            Ok(counts) => counts.into(),
            Err(q) => q.into(),
        };
        assert_eq!(given, answer);
        if answer.number == 0 {
            let difference = compare::buffers(&found, &expected);
            assert!(difference.is_ok(), "{call:?} n {}: {difference:?}", input.n);
        }
    }

    #[test]
    fn random_matrices() {
        for case in 0..4000 {
            let mut random = Random::for_case(5, case);
            let n = random.between(1, 20);
            let mut input = generate::sound_input(&mut random, n);
            if random.per_mille(500) {
                input.floor = generate::sound_floor(&mut random, &input);
            }
            let slots = Slots::all(random.pick(&[n * n, n, 2 * n]));
            for form in [Form::Plain, Form::Shared] {
                agrees(Call::Structure(form), &input, slots);
                agrees(Call::Solve(form), &input, slots);
            }
        }
    }

    #[test]
    fn columns_several_times_in_a_row() {
        for case in 0..4000 {
            let mut random = Random::for_case(6, case);
            let n = random.between(1, 12);
            let input = generate::repeated_input(&mut random, n);
            for form in [Form::Plain, Form::Shared] {
                agrees(Call::Structure(form), &input, Slots::all(n * n));
                agrees(Call::Solve(form), &input, Slots::all(n * n));
            }
        }
        for input in [load::parts_of_one(MAX_ENTRIES), load::halved(&load::test_load(100, 1))] {
            for form in [Form::Plain, Form::Shared] {
                agrees(Call::Structure(form), &input, Slots::all(input.n * input.n));
                agrees(Call::Solve(form), &input, Slots::all(input.n * input.n));
            }
        }
    }

    #[test]
    fn test_loads() {
        for n in [10, 100, 256] {
            let input = load::test_load(n, 1);
            for form in [Form::Plain, Form::Shared] {
                agrees(Call::Solve(form), &input, Slots::all(n * n));
            }
        }
    }
}
