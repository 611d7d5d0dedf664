//! The calls: the answer, and every slot that each leaves behind.
use super::arithmetic::{self, Solved};
use super::factors::Factors;
use super::fill::{entries_by_place, Fill};
use super::placing::Placed;
use super::questions;
use crate::model::*;

/// Both sides' lists, placed the form's way. The row form keeps no lower side.
struct Structure<'a> {
    form: Form,
    fill: &'a Fill,
    lower: Placed,
    upper: Placed,
}

impl<'a> Structure<'a> {
    fn new(form: Form, fill: &'a Fill) -> Structure<'a> {
        Structure { form, fill, lower: Placed::default(), upper: Placed::default() }
    }

    /// Places the lists of place k on both sides.
    fn place(&mut self, k: usize) {
        let fill = self.fill;
        match self.form {
            Form::Plain => {
                self.lower.append(&fill.lower_rows[k]);
                self.upper.append(&fill.upper[k]);
            }
            Form::Shared => {
                self.lower.share(k, &fill.upper_columns[k], &fill.lower_columns);
                self.upper.share(k, &fill.lower_rows[k], &fill.upper);
            }
            Form::Row => self.upper.share(k, &fill.lower_rows[k], &fill.upper),
        }
    }

    /// Puts questions 9, 10 and 11 at k.
    fn ask(&mut self, k: usize, slots: &Slots) -> Result<(), Refusal> {
        if !self.fill.diagonal[k] {
            return refuse(9, k);
        }
        self.place(k);
        if self.lower.slots.len() > slots.lower_index || self.lower.values() > slots.lower_values {
            return refuse(10, k);
        }
        if self.upper.slots.len() > slots.upper_index || self.upper.values() > slots.upper_values {
            return refuse(11, k);
        }
        Ok(())
    }

    fn placed(&self, side: Side) -> &Placed {
        match side {
            Side::Lower => &self.lower,
            Side::Upper => &self.upper,
        }
    }

    fn list(&self, side: Side, k: usize) -> &[usize] {
        match (side, self.form) {
            (Side::Upper, _) => &self.fill.upper[k],
            (Side::Lower, Form::Plain) => &self.fill.lower_rows[k],
            (Side::Lower, _) => &self.fill.lower_columns[k],
        }
    }

    /// Whether the presented side has at k what was placed there.
    fn matches(&self, side: Side, k: usize, store: &Store) -> bool {
        let placed = self.placed(side);
        let run = placed.runs[k] as usize;
        let starts = store.starts[k] == placed.starts[k] && store.starts[k + 1] == placed.starts[k + 1];
        let runs = self.form == Form::Plain || store.runs[k] as usize == run;
        let list = self.list(side, k);
        let presented = &store.index[run..run + list.len()];
        starts && runs && presented.iter().zip(list).all(|(&slot, &j)| slot as usize == j)
    }
}

fn slots_of(buffers: &Buffers) -> Slots {
    Slots {
        lower_index: buffers.lower.index.len(),
        lower_values: buffers.lower.values.len(),
        upper_index: buffers.upper.index.len(),
        upper_values: buffers.upper.values.len(),
    }
}

/// Puts questions 9 to 11 for every k.
fn place_all<'a>(form: Form, fill: &'a Fill, slots: &Slots) -> Result<Structure<'a>, Refusal> {
    let mut structure = Structure::new(form, fill);
    for k in 0..fill.upper.len() {
        structure.ask(k, slots)?;
    }
    Ok(structure)
}

/// Puts question 14 for every k.
fn match_all<'a>(form: Form, fill: &'a Fill, buffers: &Buffers) -> Result<Structure<'a>, Refusal> {
    let slots = slots_of(buffers);
    let mut structure = Structure::new(form, fill);
    for k in 0..fill.upper.len() {
        let same = structure.ask(k, &slots).is_ok()
            && structure.matches(Side::Lower, k, &buffers.lower)
            && structure.matches(Side::Upper, k, &buffers.upper);
        if !same {
            return refuse(14, k);
        }
    }
    Ok(structure)
}

/// What a call that ends well found.
struct Found {
    counts: Counts,
    lower: Placed,
    upper: Placed,
    /// The values of both sides in the form's arrangement, d and x.
    lower_values: Vec<f64>,
    upper_values: Vec<f64>,
    d: Vec<f64>,
    x: Vec<f64>,
}

fn arrange_lower(form: Form, fill: &Fill, solved: &Solved) -> Vec<f64> {
    match form {
        Form::Plain => solved.l.concat(),
        Form::Row => Vec::new(),
        Form::Shared => {
            let mut columns: Vec<Vec<f64>> = vec![Vec::new(); fill.upper.len()];
            for (row, multipliers) in fill.lower_rows.iter().zip(&solved.l) {
                for (&i, &m) in row.iter().zip(multipliers) {
                    columns[i].push(m);
                }
            }
            columns.concat()
        }
    }
}

fn find(call: Call, input: &Input, buffers: &Buffers) -> Result<Found, Refusal> {
    questions::before_nine(call, input)?;
    let form = call.form();
    let fill = Fill::of(input);
    let structure = match call {
        Call::Refactor(_) => match_all(form, &fill, buffers)?,
        _ => place_all(form, &fill, &slots_of(buffers))?,
    };
    let counts = Counts { lower: fill.lower_count(), upper: fill.upper_count(), products: fill.products() };
    let (lower, upper) = (structure.lower, structure.upper);
    let mut found = Found { counts, lower, upper, lower_values: vec![], upper_values: vec![], d: vec![], x: vec![] };
    if let Call::Structure(_) = call {
        return Ok(found);
    }
    let right = arithmetic::right_by_place(&input.r, &input.b);
    let solved = arithmetic::solve(&fill, &entries_by_place(input), &right, input.floor)?;
    found.lower_values = arrange_lower(form, &fill, &solved);
    found.upper_values = solved.u.concat();
    found.x = arithmetic::own_order(&input.c, &solved.z);
    found.d = solved.d;
    Ok(found)
}

/// Puts questions 5, 6 (b only), 15 and 13, and finds x.
fn another_right_side(form: Form, input: &Input, buffers: &Buffers) -> Result<Vec<f64>, Refusal> {
    questions::orders(input.n, &input.r, &input.c)?;
    questions::finite(&input.b, 0)?;
    let factors = Factors::new(form, input.n, buffers);
    factors.ask()?;
    let right = arithmetic::right_by_place(&input.r, &input.b);
    let y = arithmetic::forward(&factors.lower_rows(), &buffers.d, &right)?;
    let (lists, values) = factors.upper_rows();
    let z = arithmetic::back(&lists, &values, &y)?;
    Ok(arithmetic::own_order(&input.c, &z))
}

/// Leaves the slots of `from`, then zeros.
pub fn put<T: Copy + Default>(to: &mut [T], from: &[T]) {
    to.fill(T::default());
    to[..from.len()].copy_from_slice(from);
}

fn put_lists(store: &mut Store, placed: &Placed) {
    put(&mut store.starts, &placed.starts);
    if !store.runs.is_empty() {
        put(&mut store.runs, &placed.runs);
    }
    put(&mut store.index, &placed.slots);
}

fn clear_store(store: &mut Store) {
    store.starts.fill(0);
    store.runs.fill(0);
    store.index.fill(0);
    store.values.fill(0.0);
}

/// Zeroes all that the call writes but x and scratch.
fn clear_written(call: Call, buffers: &mut Buffers) {
    match call {
        Call::Structure(_) | Call::Solve(_) => {
            clear_store(&mut buffers.lower);
            clear_store(&mut buffers.upper);
            buffers.d.fill(0.0);
        }
        Call::Refactor(_) => {
            buffers.lower.values.fill(0.0);
            buffers.upper.values.fill(0.0);
            buffers.d.fill(0.0);
        }
        Call::Resolve(_) => {}
    }
}

fn clear_scratch(buffers: &mut Buffers) {
    buffers.scratch_f64.fill(0.0);
    buffers.scratch_u32.fill(0);
}

/// Leaves what a call that ends well leaves, scratch apart.
fn leave(call: Call, found: &Found, buffers: &mut Buffers) {
    clear_written(call, buffers);
    if let Call::Structure(_) | Call::Solve(Form::Plain | Form::Shared) = call {
        put_lists(&mut buffers.lower, &found.lower);
        put_lists(&mut buffers.upper, &found.upper);
    }
    if let Call::Solve(Form::Plain | Form::Shared) | Call::Refactor(_) = call {
        put(&mut buffers.lower.values, &found.lower_values);
        put(&mut buffers.upper.values, &found.upper_values);
        put(&mut buffers.d, &found.d);
    }
    put(&mut buffers.x, &found.x);
}

/// Runs a call on lent buffers as the paper has it.
pub fn run(call: Call, input: &Input, buffers: &mut Buffers) -> Answer {
    let early = questions::rows(input.n).and_then(|()| questions::lengths(call, input, buffers));
    if let Err(q) = early {
        return q.into();
    }
    let answer = match call {
        Call::Resolve(form) => run_another(form, input, buffers),
        _ => run_whole(call, input, buffers),
    };
    clear_scratch(buffers);
    match answer {
        Ok(counts) => counts.into(),
        Err(q) => q.into(),
    }
}

fn run_whole(call: Call, input: &Input, buffers: &mut Buffers) -> Result<Counts, Refusal> {
    match find(call, input, buffers) {
        Ok(found) => {
            leave(call, &found, buffers);
            let counted = !matches!(call, Call::Refactor(_));
            Ok(if counted { found.counts } else { Counts::default() })
        }
        Err(q) => {
            if (9..=13).contains(&q.number) {
                clear_written(call, buffers);
            }
            Err(q)
        }
    }
}

fn run_another(form: Form, input: &Input, buffers: &mut Buffers) -> Result<Counts, Refusal> {
    let x = another_right_side(form, input, buffers)?;
    put(&mut buffers.x, &x);
    Ok(Counts::default())
}

/// The slots that the lists of places 0 to k need, k the last place with (0, 0) to (k, k) all filled.
/// None where a question before 9 is answered with no.
pub fn needs(form: Form, input: &Input) -> Option<Slots> {
    let fits = questions::rows(input.n).is_ok() && input_fits(input);
    if !fits || questions::before_nine(Call::Structure(form), input).is_err() {
        return None;
    }
    let fill = Fill::of(input);
    let mut structure = Structure::new(form, &fill);
    let unlimited = Slots::all(usize::MAX);
    for k in 0..input.n {
        if structure.ask(k, &unlimited).is_err() {
            break;
        }
    }
    Some(Slots {
        lower_index: structure.lower.slots.len(),
        lower_values: structure.lower.values(),
        upper_index: structure.upper.slots.len(),
        upper_values: structure.upper.values(),
    })
}

fn input_fits(input: &Input) -> bool {
    let n = input.n;
    input.starts.len() == n + 1 && input.columns.len() <= MAX_ENTRIES && input.r.len() == n && input.c.len() == n
}

/// The pivots that the arithmetic finds under the floor 0, up to the place that it stops at.
/// Empty where a question before it is answered with no.
pub fn pivots(input: &Input) -> Vec<f64> {
    let call = Call::Solve(Form::Plain);
    let input = Input { floor: 0.0, ..input.clone() };
    let fits = questions::rows(input.n).is_ok() && questions::input_lengths(call, &input);
    if !fits || questions::before_nine(call, &input).is_err() {
        return Vec::new();
    }
    let fill = Fill::of(&input);
    if fill.diagonal.contains(&false) {
        return Vec::new();
    }
    arithmetic::pivots(&fill, &entries_by_place(&input), &arithmetic::right_by_place(&input.r, &input.b))
}

/// Whether the form is short of slots, as demand 3 has it: the earlier questions are passed and for some k with
/// (0, 0) to (k, k) all filled the lists of places 0 to k need more slots than a store has.
pub fn is_short(form: Form, input: &Input, buffers: &Buffers) -> bool {
    let call = Call::Solve(form);
    let sized = questions::rows(input.n).and_then(|()| questions::lengths(call, input, buffers));
    if sized.and_then(|()| questions::before_nine(call, input)).is_err() {
        return false;
    }
    let Some(need) = needs(form, input) else { return false };
    let have = slots_of(buffers);
    let lower = form != Form::Row && (need.lower_index > have.lower_index || need.lower_values > have.lower_values);
    lower || need.upper_index > have.upper_index || need.upper_values > have.upper_values
}
