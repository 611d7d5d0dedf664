//! The reference is not trusted blindly: its fill against the elimination game on a table of truth values, its
//! solution against elimination on a full square without any structure.
use super::cases::Range;
use super::{Reference, Solver, Tally};
use crate::compare::{self, Compared};
use crate::generate::{self, Case};
use crate::model::*;
use crate::random::Random;
use crate::reference;
use crate::reference::fill::{entries_by_place, Fill};

/// Eliminating place k joins every row below it that has k with every place after it that row k has.
fn elimination_game(pattern: &[Vec<usize>]) -> Vec<Vec<bool>> {
    let n = pattern.len();
    let mut table = vec![vec![false; n]; n];
    for (i, row) in pattern.iter().enumerate() {
        row.iter().for_each(|&j| table[i][j] = true);
    }
    for k in 0..n {
        let pivot_row = table[k].clone();
        for row in table.iter_mut().skip(k + 1).filter(|row| row[k]) {
            for j in k + 1..n {
                row[j] |= pivot_row[j];
            }
        }
    }
    table
}

fn table_of(fill: &Fill) -> Vec<Vec<bool>> {
    let n = fill.upper.len();
    let mut table = vec![vec![false; n]; n];
    for k in 0..n {
        fill.lower_rows[k].iter().chain(&fill.upper[k]).for_each(|&j| table[k][j] = true);
        table[k][k] = fill.diagonal[k];
    }
    table
}

fn ascending(lists: &[Vec<usize>]) -> bool {
    lists.iter().all(|list| list.windows(2).all(|pair| pair[0] < pair[1]))
}

fn products_by_rows(fill: &Fill) -> u64 {
    fill.lower_rows.iter().flatten().map(|&i| fill.upper[i].len() as u64).sum()
}

/// The first place whose (k, k) is not filled.
fn null_pivot(input: &Input) -> Option<usize> {
    let pattern: Vec<Vec<usize>> =
        entries_by_place(input).iter().map(|row| row.iter().map(|e| e.0).collect()).collect();
    let table = elimination_game(&pattern);
    (0..input.n).find(|&k| !table[k][k])
}

fn check_fill(input: &Input) -> Compared {
    let entries = entries_by_place(input);
    let pattern: Vec<Vec<usize>> = entries.iter().map(|row| row.iter().map(|e| e.0).collect()).collect();
    let fill = Fill::of_pattern(&pattern);
    let expected = elimination_game(&pattern);
    for (k, (found, row)) in table_of(&fill).iter().zip(&expected).enumerate() {
        compare::numbers(&format!("filled row {k}"), found, row)?;
    }
    let sorted = ascending(&fill.upper) && ascending(&fill.lower_rows) && ascending(&fill.lower_columns);
    compare::same("ascending", &sorted, &true)?;
    compare::same("products", &fill.products(), &products_by_rows(&fill))
}

/// The numbers of a full square, each the sum of what is stored there, its right side, by place, and the floor.
struct Square {
    a: Vec<Vec<f64>>,
    y: Vec<f64>,
    floor: f64,
}

/// Where the elimination stops: 12 or 13, and the place.
type Stop = (u32, usize);

fn all_finite(row: &[f64]) -> bool {
    row.iter().all(|v| v.is_finite())
}

impl Square {
    fn new(input: &Input) -> Square {
        let n = input.n;
        let mut a = vec![vec![0.0; n]; n];
        for (row, entries) in a.iter_mut().zip(entries_by_place(input)) {
            for (j, slot) in row.iter_mut().enumerate() {
                let values = entries.iter().filter(|entry| entry.0 == j).map(|entry| entry.1);
                *slot = values.reduce(|sum, value| sum + value).unwrap_or(0.0);
            }
        }
        Square { a, y: reference::arithmetic::right_by_place(&input.r, &input.b), floor: input.floor }
    }

    /// Every operation of every position of row k. A number that is not finite, a sum of stored values among them,
    /// stays so until the row's end.
    fn eliminate(&mut self, k: usize) -> Result<(), Stop> {
        let (above, rest) = self.a.split_at_mut(k);
        let row = &mut rest[0];
        for (i, upper) in above.iter().enumerate() {
            let m = row[i];
            self.y[k] -= m * self.y[i];
            row[i + 1..].iter_mut().zip(&upper[i + 1..]).for_each(|(w, u)| *w -= m * u);
        }
        if !(all_finite(row) && self.y[k].is_finite()) {
            return Err((13, k));
        }
        if (-self.floor..=self.floor).contains(&row[k]) {
            return Err((12, k));
        }
        let d = 1.0 / row[k];
        self.y[k] *= d;
        row[k + 1..].iter_mut().for_each(|u| *u *= d);
        if !(d.is_finite() && self.y[k].is_finite() && all_finite(&row[k + 1..])) {
            return Err((13, k));
        }
        Ok(())
    }

    fn back(&mut self, k: usize) -> Result<(), Stop> {
        for j in k + 1..self.y.len() {
            self.y[k] -= self.a[k][j] * self.y[j];
        }
        if self.y[k].is_finite() {
            return Ok(());
        }
        Err((13, k))
    }

    /// The solution by place.
    fn solve(mut self) -> Result<Vec<f64>, Stop> {
        let n = self.y.len();
        for k in 0..n {
            self.eliminate(k)?;
        }
        for k in (0..n).rev() {
            self.back(k)?;
        }
        Ok(self.y)
    }
}

/// Positions outside the fill stay zeros, so the numbers are the same; only a zero's sign may differ.
fn check_solution(input: &Input) -> Compared {
    let call = Call::Solve(Form::Plain);
    let mut buffers = Buffers::for_call(call, input.n, Slots::all(input.n * input.n));
    let answer = reference::run(call, input, &mut buffers);
    let z: Vec<f64> = input.c.iter().map(|&j| buffers.x[j as usize]).collect();
    let found = if answer.number == 0 { Ok(z) } else { Err((answer.number, answer.place as usize)) };
    compare::same("solution", &found, &Square::new(input).solve())
}

/// What is placed reads back as the list of each place, and shares never more slots than plain.
fn check_lists(input: &Input, form: Form) -> Compared {
    let fill = Fill::of(input);
    let call = Call::Structure(form);
    let mut buffers = Buffers::for_call(call, input.n, Slots::all(input.n * input.n));
    let answer = reference::run(call, input, &mut buffers);
    compare::same("number", &answer.number, &0)?;
    let lists = reference::Lists { form, n: input.n, lower: buffers.lower, upper: buffers.upper };
    let lower = if form == Form::Plain { &fill.lower_rows } else { &fill.lower_columns };
    for k in 0..input.n {
        for (side, expected) in [(Side::Lower, &lower[k]), (Side::Upper, &fill.upper[k])] {
            let (offset, length) = reference::lookup(&lists, side, k);
            let store = if side == Side::Lower { &lists.lower } else { &lists.upper };
            let found: Vec<usize> = store.index[offset..offset + length].iter().map(|&j| j as usize).collect();
            compare::numbers(&format!("{side:?} list {k}"), &found, expected)?;
        }
    }
    Ok(())
}

/// Solving again from the factors gives the bits of the solve; refactoring gives its answer.
pub fn check_reuse(solver: &dyn Solver, input: &Input, form: Form) -> Compared {
    let run = |call: Call, buffers: &mut Buffers| {
        let mut case = Case { call, input: input.clone(), buffers: std::mem::take(buffers), report: 4 };
        generate::only_lent(&mut case);
        let answer = solver.run(call, &case.input, &mut case.buffers, 4);
        *buffers = case.buffers;
        answer
    };
    let mut buffers = Buffers::for_call(Call::Solve(form), input.n, Slots::all(input.n * input.n));
    let answer = run(Call::Solve(form), &mut buffers)?;
    if answer.number != 0 {
        let structure = Call::Structure(form);
        let mut lists = Buffers::for_call(structure, input.n, Slots::all(input.n * input.n));
        compare::same("number", &run(structure, &mut lists)?.number, &0)?;
        let mut presented = Buffers { d: buffers.d, x: buffers.x, ..lists };
        let refused = run(Call::Refactor(form), &mut presented)?;
        return compare::same("refactoring what cannot be solved", &refused, &answer);
    }
    let solved = buffers.clone();
    for call in [Call::Resolve(form), Call::Refactor(form)] {
        compare::same("number", &run(call, &mut buffers)?.number, &0)?;
        compare::buffers(&buffers, &solved)?;
    }
    let mut other = input.clone();
    other.b.iter_mut().enumerate().for_each(|(k, v)| *v = 1.0 - 0.5 * *v + k as f64);
    let mut expected = Buffers::for_call(Call::Solve(form), input.n, Slots::all(input.n * input.n));
    let whole = reference::run(Call::Solve(form), &other, &mut expected);
    let mut case = Case { call: Call::Resolve(form), input: other, buffers, report: 4 };
    generate::only_lent(&mut case);
    let again = solver.run(case.call, &case.input, &mut case.buffers, 4)?;
    compare::same("number with another right side", &again.number, &whole.number)?;
    compare::same("place with another right side", &again.place, &whole.place)?;
    if whole.number == 0 {
        compare::floats("x of another right side", &case.buffers.x, &expected.x)?;
    }
    Ok(())
}

/// A null pivot is refused by every call that finds the fill.
fn check_null_pivot(input: &Input, place: usize) -> Compared {
    for call in CALLS.into_iter().filter(|call| matches!(call, Call::Structure(_) | Call::Solve(_))) {
        let mut buffers = Buffers::for_call(call, input.n, Slots::all(input.n * input.n));
        let answer = reference::run(call, input, &mut buffers);
        compare::same(&format!("{call:?}"), &answer, &Refusal { number: 9, place: place as u64 }.into())?;
    }
    Ok(())
}

fn check(random: &mut Random) -> Compared {
    let n = random.pick(&[1, 2, 3, 5, 8, 13, 21, 34]);
    let mut input = generate::sound_input(random, n);
    if random.per_mille(500) {
        input.floor = generate::sound_floor(random, &input);
    }
    check_fill(&input)?;
    if let Some(place) = null_pivot(&input) {
        return check_null_pivot(&input, place);
    }
    check_solution(&input)?;
    for form in [Form::Plain, Form::Shared] {
        check_lists(&input, form)?;
        check_reuse(&Reference, &input, form)?;
    }
    Ok(())
}

/// Checks the reference on random matrices.
pub fn run(range: Range, tally: &mut Tally) {
    for number in range.numbers() {
        let result = check(&mut range.random(number));
        tally.add(|| range.label("consistency", number), result);
    }
}

/// Refactors and solves again over what the solver's own solves left, on random matrices.
pub fn reuse(solver: &dyn Solver, range: Range, tally: &mut Tally) {
    for number in range.numbers() {
        let random = &mut range.random(number);
        let n = random.pick(&[1, 2, 3, 5, 8, 13, 21, 34]);
        let mut input = generate::sound_input(random, n);
        if random.per_mille(500) {
            input.floor = generate::sound_floor(random, &input);
        }
        if null_pivot(&input).is_some() {
            continue;
        }
        for form in [Form::Plain, Form::Shared] {
            let result = check_reuse(solver, &input, form);
            tally.add(|| format!("{} {form:?} {}", range.label("reuse", number), solver.name()), result);
        }
    }
}
