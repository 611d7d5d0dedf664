//! A column that stands several times in a row, in every call that is lent the matrix: its values are added in stored
//! order, from the first of them, before the row is eliminated. Beside the reference's answer stand answers worked out
//! by hand, and what the same solver answers and leaves where each column stands once, with the sum.
use super::cases::{run_case, Range};
use super::faults::{empty_last_row, no_slots, number_in, Fault};
use super::sheets::compare_sheet;
use super::{consistency, Solver, Tally};
use crate::compare::{self, Compared};
use crate::generate::{self, Case};
use crate::load;
use crate::model::*;
use crate::random::Random;
use crate::reference::{self, fill_sheet};

const LEAST: f64 = f64::from_bits(1);

/// The calls that are lent the matrix.
fn lent_the_matrix() -> impl Iterator<Item = Call> {
    CALLS.into_iter().filter(|call| !matches!(call, Call::Resolve(_)))
}

/// A call over noise, with the stores that it needs.
fn case_of(random: &mut Random, call: Call, input: &Input) -> Case {
    let slots = reference::needs(call.form(), input).unwrap_or_default();
    let mut case = generate::over_noise(random, call, input, slots);
    generate::only_lent(&mut case);
    case
}

// ---- each column once

/// Whether a row has a column several times.
fn repeats(input: &Input) -> bool {
    (0..input.n).any(|row| load::columns_of(input, row).iter().any(|(_, values)| values.len() > 1))
}

/// The matrix with each column once, with its sum, and the first place with a sum that is not finite. A row that has
/// one is made all zeros: whatever the rows before it, its pivot is then a zero.
fn once(input: &Input) -> (Input, Option<usize>) {
    let sum = |(column, values): (usize, Vec<f64>)| (column, load::sum(&values));
    let rows = (0..input.n).map(|row| load::columns_of(input, row).into_iter().map(sum).collect());
    let mut rows: Vec<Vec<(usize, f64)>> = rows.collect();
    let bad: Vec<bool> = rows.iter().map(|row| row.iter().any(|(_, sum)| !sum.is_finite())).collect();
    for (row, _) in rows.iter_mut().zip(&bad).filter(|(_, &bad)| bad) {
        row.iter_mut().for_each(|(_, sum)| *sum = 0.0);
    }
    let first = input.r.iter().position(|&row| bad[row as usize]);
    (load::with_rows(input, &rows), first)
}

/// Every call answers and leaves what it does with the sums; where one is not finite, 13 stands for the zero pivot.
fn alike(solver: &dyn Solver, random: &mut Random, input: &Input) -> Compared {
    let (sums, overflow) = once(input);
    for call in lent_the_matrix() {
        let case = case_of(random, call, input);
        let mut beside = Case { input: sums.clone(), ..case.clone() };
        generate::only_lent(&mut beside);
        let (answer, left) = run_case(solver, &case)?;
        let (mut expected, other) = run_case(solver, &beside)?;
        if expected.number == 12 && overflow == Some(expected.place as usize) {
            expected.number = 13;
        }
        compare::same(&format!("{call:?} beside that with sums"), &answer, &expected)?;
        compare::buffers(&left, &other)?;
    }
    sheets_alike(solver, random, input, &sums)
}

/// The sheet does not tell whether a column stands several times.
fn sheets_alike(solver: &dyn Solver, random: &mut Random, input: &Input, sums: &Input) -> Compared {
    let slots = reference::needs(Form::Shared, input).unwrap_or_default();
    let lent = generate::printing(random, input, slots, fill_sheet::bytes(input.n), 4);
    compare_sheet(solver, &lent)?;
    let columns = |input: &Input| (input.starts.clone(), input.columns.clone());
    let (mut one, mut other) = (lent.clone(), lent);
    (other.input.starts, other.input.columns) = columns(sums);
    let numbers = [solver.sheet(&mut one)?, solver.sheet(&mut other)?];
    compare::same("number of the sheet beside that with sums", &numbers[0], &numbers[1])?;
    compare::numbers("sheet beside that with sums", &one.sheet, &other.sheet)?;
    compare::numbers("report of the sheet beside that with sums", &one.report, &other.report)
}

// ---- answers that are worked out by hand

/// A system, and x or the refusal of every call that factors.
type Known = (&'static str, Input, Result<Vec<f64>, (u32, u64)>);

/// One row with these entries, and b = 1.
fn one(values: &[f64]) -> Input {
    load::from_rows(&[values.iter().map(|&value| (0, value)).collect()], &[1.0])
}

/// A diagonal of ones with these entries at (0, 1), and b = (-0, 1). With the sum v there x(0) is -0 - v·1, which is +0
/// where v is -0, and -0 where v is +0.
fn above(values: &[f64]) -> Input {
    let row = [(0, 1.0)].into_iter().chain(values.iter().map(|&value| (1, value))).collect();
    load::from_rows(&[row, vec![(1, 1.0)]], &[-0.0, 1.0])
}

/// Each row as a list of columns and values, b all ones.
fn rows(rows: &[&[(usize, f64)]]) -> Input {
    let rows: Vec<Vec<(usize, f64)>> = rows.iter().map(|row| row.to_vec()).collect();
    load::from_rows(&rows, &vec![1.0; rows.len()])
}

fn sums_of_one() -> Vec<Known> {
    let (max, large) = (f64::MAX, 2f64.powi(53));
    let least = f64::from_bits(1 << 50);
    vec![
        ("two values", one(&[1.0, 3.0]), Ok(vec![0.25])),
        ("65 values", one(&[0.125; 65]), Ok(vec![1.0 / 8.125])),
        ("0.1, 0.2, 0.3", one(&[0.1, 0.2, 0.3]), Ok(vec![f64::from_bits(0x3FFA_AAAA_AAAA_AAAA)])),
        ("0.3, 0.2, 0.1", one(&[0.3, 0.2, 0.1]), Ok(vec![f64::from_bits(0x3FFA_AAAA_AAAA_AAAB)])),
        ("2^53, 1, -2^53", one(&[large, 1.0, -large]), Err((12, 0))),
        ("1, 2^53, -2^53", one(&[1.0, large, -large]), Err((12, 0))),
        ("-2^53, 1, 2^53", one(&[-large, 1.0, large]), Ok(vec![1.0])),
        ("2^53, -2^53, 1", one(&[large, -large, 1.0]), Ok(vec![1.0])),
        ("values that cancel", one(&[2.0, -2.0]), Err((12, 0))),
        ("-0 twice", one(&[-0.0, -0.0]), Err((12, 0))),
        ("2^-1024 twice", one(&[least, least]), Ok(vec![2f64.powi(1023)])),
        ("max, max", one(&[max, max]), Err((13, 0))),
        ("max, max, -max", one(&[max, max, -max]), Err((13, 0))),
        ("-max, -max, max", one(&[-max, -max, max]), Err((13, 0))),
        ("max, max, -max, -max", one(&[max, max, -max, -max]), Err((13, 0))),
        ("max, -max, max", one(&[max, -max, max]), Ok(vec![least])),
        ("max, 2^969", one(&[max, 2f64.powi(969)]), Ok(vec![least])),
        ("max, 2^970", one(&[max, 2f64.powi(970)]), Err((13, 0))),
    ]
}

fn signs_of_zero() -> Vec<Known> {
    vec![
        ("-0 alone", above(&[-0.0]), Ok(vec![0.0, 1.0])),
        ("+0 alone", above(&[0.0]), Ok(vec![-0.0, 1.0])),
        ("-0, -0", above(&[-0.0, -0.0]), Ok(vec![0.0, 1.0])),
        ("-0, -0, -0", above(&[-0.0, -0.0, -0.0]), Ok(vec![0.0, 1.0])),
        ("+0, -0", above(&[0.0, -0.0]), Ok(vec![-0.0, 1.0])),
        ("-0, +0", above(&[-0.0, 0.0]), Ok(vec![-0.0, 1.0])),
        ("1, -1", above(&[1.0, -1.0]), Ok(vec![-0.0, 1.0])),
        ("-1, 1", above(&[-1.0, 1.0]), Ok(vec![-0.0, 1.0])),
        ("-0, 1, -1", above(&[-0.0, 1.0, -1.0]), Ok(vec![-0.0, 1.0])),
        ("2^-1074, -2^-1074, -0", above(&[LEAST, -LEAST, -0.0]), Ok(vec![-0.0, 1.0])),
    ]
}

/// Positions that a sum of zero keeps: without them row 1 would be empty, or its pivot null.
fn kept_positions() -> Vec<Known> {
    vec![
        ("a sum of zero above the diagonal", rows(&[&[(0, 1.0), (1, 1.0), (1, -1.0)], &[(0, 1.0)]]), Err((12, 1))),
        ("a sum of -0 above the diagonal", rows(&[&[(0, 1.0), (1, -0.0), (1, -0.0)], &[(0, 1.0)]]), Err((12, 1))),
        ("a sum of zero below the diagonal", rows(&[&[(0, 1.0), (1, 1.0)], &[(0, 1.0), (0, -1.0)]]), Err((12, 1))),
        ("a sum of zero on the diagonal", rows(&[&[(0, 1.0)], &[(1, 4.0), (1, -4.0)]]), Err((12, 1))),
    ]
}

/// The sum of a row among the other results: what an earlier place refuses comes first, what else its own place refuses
/// comes later.
fn first_refusals() -> Vec<Known> {
    let (max, two): (f64, [(usize, f64); 2]) = (f64::MAX, [(1, f64::MAX), (1, f64::MAX)]);
    let turned = rows(&[&two, &[(0, 1.0)]]);
    let behind_zero = rows(&[&two, &[(0, 0.0)]]);
    // place 0 is row 1
    let other_order = |input: Input| Input { r: vec![1, 0], ..input };
    let with_max = |b: f64, last: &[(usize, f64)]| {
        let input = rows(&[&[(0, 1.0), (1, max)], last]);
        Input { b: vec![1.0, b], ..input }
    };
    vec![
        ("a sum at place 1", rows(&[&[(0, 1.0)], &two]), Err((13, 1))),
        ("behind a zero pivot", rows(&[&[(0, 0.0)], &two]), Err((12, 0))),
        ("behind a reciprocal that overflows", rows(&[&[(0, LEAST)], &two]), Err((13, 0))),
        ("behind another sum", rows(&[&[(0, max), (0, max)], &two]), Err((13, 0))),
        ("before a zero pivot", rows(&[&[(0, 1.0)], &two, &[(2, 0.0)]]), Err((13, 1))),
        ("beside a zero pivot", rows(&[&[(0, 0.0), (1, max), (1, max)], &[(1, 1.0)]]), Err((13, 0))),
        ("below the diagonal", rows(&[&[(0, 1.0)], &[(0, max), (0, max), (1, 1.0)]]), Err((13, 1))),
        ("own row 0 at place 1", other_order(turned), Err((13, 1))),
        ("own row 0 behind a zero pivot", other_order(behind_zero), Err((12, 0))),
        ("a back step that overflows", with_max(4.0, &[(1, 0.5), (1, 0.5)]), Err((13, 0))),
        ("before a back step that overflows", with_max(4.0, &two), Err((13, 1))),
    ]
}

fn known(solver: &dyn Solver, random: &mut Random, tally: &mut Tally) {
    let systems = [sums_of_one(), signs_of_zero(), kept_positions(), first_refusals()].concat();
    for (name, input, expected) in systems {
        for call in FACTORING {
            let found = run_case(solver, &case_of(random, call, &input));
            let result = found.and_then(|(answer, buffers)| match &expected {
                Ok(x) => compare::same("number", &answer.number, &0)
                    .and_then(|()| compare::floats(&format!("x of {call:?}"), &buffers.x, x)),
                Err(refusal) => compare::same("number and place", &(answer.number, answer.place), refusal),
            });
            tally.add(|| format!("repeats, {name}, {call:?} ({})", solver.name()), result);
        }
        tally.add(|| format!("repeats, {name} beside sums ({})", solver.name()), alike(solver, random, &input));
    }
}

/// A zero sum keeps its position, so it is counted, in the structure calls too, which are lent no values.
fn counted(solver: &dyn Solver, random: &mut Random) -> Compared {
    let input = rows(&[&[(0, 1.0), (1, 1.0), (1, -1.0)], &[(1, 1.0), (0, 2.0), (0, -2.0), (1, 1.0)]]);
    for call in lent_the_matrix().filter(|call| !matches!(call, Call::Refactor(_))) {
        let (answer, _) = run_case(solver, &case_of(random, call, &input))?;
        let counts = Counts { lower: 1, upper: 1, products: 1 };
        compare::same(&format!("{call:?}"), &answer, &counts.into())?;
    }
    Ok(())
}

// ---- which refusal comes first

/// An arrow whose row 1 has a sum that overflows, at the diagonal.
fn overflowing() -> Input {
    rows(&[
        &[(0, 9.0), (1, 1.0), (2, 1.0)],
        &[(0, 1.0), (1, f64::MAX), (1, f64::MAX), (1, f64::MIN)],
        &[(0, 1.0), (2, 9.0)],
    ])
}

/// Faults beside the sum. Those of the questions come first; of the results, those of place 0. The row form has no lower
/// side, and solves write over list starts.
const BESIDE: [Fault; 16] = [
    ("nothing else", |_| (), [13; 3]),
    ("n = 0", |case| case.input.n = 0, [1; 3]),
    ("x is short", |case| case.buffers.x.truncate(2), [2; 3]),
    ("starts begin at 1", |case| case.input.starts[0] = 1, [3; 3]),
    ("a column is n", |case| case.input.columns[8] = 3, [4; 3]),
    ("r is no order", |case| case.input.r[1] = 0, [5; 3]),
    ("a value is infinite", |case| case.input.values[8] = f64::INFINITY, [6; 3]),
    ("b has a NaN", |case| case.input.b[2] = f64::NAN, [6; 3]),
    ("a negative floor", |case| case.input.floor = -1.0, [19; 3]),
    ("a row is empty", empty_last_row, [7; 3]),
    ("a null pivot at place 0", |case| case.input.columns[0] = 1, [9, 9, 14]),
    ("no lower slots", |case| no_slots(&mut case.buffers.lower), [10, 13, 14]),
    ("no upper slots", |case| no_slots(&mut case.buffers.upper), [11, 11, 14]),
    ("another list start", |case| case.buffers.upper.starts[1] = 7, [13, 13, 14]),
    ("a floor over pivot 0", |case| case.input.floor = 9.0, [12; 3]),
    ("a zero pivot at place 0", |case| case.input.values[0] = 0.0, [12; 3]),
];

fn order(solver: &dyn Solver, random: &mut Random, tally: &mut Tally) {
    for (name, make, numbers) in BESIDE {
        for call in FACTORING {
            let mut case = case_of(random, call, &overflowing());
            make(&mut case);
            let number = number_in(call, numbers);
            let found = run_case(solver, &case);
            let result = found.and_then(|(answer, _)| compare::same("number", &answer.number, &number));
            tally.add(|| format!("a sum that overflows, {name}, {call:?} ({})", solver.name()), result);
        }
    }
}

// ---- how many

/// So many entries a row, the first at (k, k), the others at (k, 0).
fn one_full_column(n: usize, entries: usize) -> Input {
    let row = |k: usize| (0..entries).map(|at| if at == 0 { (k, 4.0) } else { (0, 0.5 / entries as f64) }).collect();
    let rows: Vec<Vec<(usize, f64)>> = (0..n).map(row).collect();
    load::from_rows(&rows, &vec![1.0; n])
}

/// Row 0 has every column so many times, the others their diagonal alone.
fn one_full_row(n: usize, times: usize) -> Input {
    let first = (0..n * times).map(|at| (at % n, if at % n == 0 { 2.0 } else { 0.25 })).collect();
    let row = |k: usize| if k == 0 { Vec::clone(&first) } else { vec![(k, 1.0)] };
    let rows: Vec<Vec<(usize, f64)>> = (0..n).map(row).collect();
    load::from_rows(&rows, &vec![1.0; n])
}

/// Each call solves it or finds its structure, as the reference does and as it does with the sums.
fn taken(solver: &dyn Solver, random: &mut Random, input: &Input) -> Compared {
    for call in lent_the_matrix() {
        let (answer, _) = run_case(solver, &case_of(random, call, input))?;
        compare::same(&format!("number of {call:?}"), &answer.number, &0)?;
    }
    alike(solver, random, input)
}

/// Another right side and refactor over what a solve left.
fn reused(solver: &dyn Solver, input: &Input) -> Compared {
    consistency::check_reuse(solver, input, Form::Plain)?;
    consistency::check_reuse(solver, input, Form::Shared)
}

/// One entry over the limit of e is 2, and a sum cannot help it.
fn too_many(solver: &dyn Solver, random: &mut Random) -> Compared {
    for call in lent_the_matrix() {
        let (answer, _) = run_case(solver, &case_of(random, call, &one(&vec![0.5; MAX_ENTRIES + 1])))?;
        compare::same(&format!("{call:?}"), &answer, &Refusal { number: 2, place: 0 }.into())?;
    }
    Ok(())
}

fn small_systems() -> Vec<(String, Input)> {
    let mut systems = Vec::new();
    for e in [2, 3, 4, 64, 100] {
        systems.push((format!("n = 1, e = {e}"), load::parts_of_one(e)));
    }
    for n in [2, 3, 7] {
        systems.push((format!("a column of {} entries", 2 * n * n + 1), one_full_column(n, 2 * n + 1)));
        systems.push((format!("a row of {} entries", n * (n + 1)), one_full_row(n, n + 1)));
    }
    systems.push(("a grid, each entry twice".to_string(), load::halved(&load::grid(3))));
    systems.push(("a load, each entry four times".to_string(), load::halved(&load::halved(&load::test_load(9, 1)))));
    systems
}

/// Checks what is worked out by hand, the order of refusals, and rows and columns of many entries.
pub fn limits(solver: &dyn Solver, seed: u64, tally: &mut Tally) {
    let random = &mut Random::new(seed);
    known(solver, random, tally);
    tally.add(|| format!("repeats, counts ({})", solver.name()), counted(solver, random));
    order(solver, random, tally);
    for (name, input) in small_systems() {
        tally.add(|| format!("repeats, {name} ({})", solver.name()), taken(solver, random, &input));
        tally.add(|| format!("repeats, {name}, used again ({})", solver.name()), reused(solver, &input));
    }
}

/// As many entries as there may be: in one row, in one column, and in rows of their own column alone.
fn large_systems() -> Vec<(&'static str, Input)> {
    let diagonal: Vec<Vec<(usize, f64)>> = (0..MAX_ROWS).map(|k| vec![(k, 0.25); MAX_ENTRIES / MAX_ROWS]).collect();
    vec![
        ("n = 1, e = 65,536", load::parts_of_one(MAX_ENTRIES)),
        ("n = 2, each row of 32,768 entries", one_full_column(2, MAX_ENTRIES / 2)),
        ("a column of 65,521 entries", one_full_column(16, MAX_ENTRIES / 16)),
        ("a row of 65,280 entries", one_full_row(256, 255)),
        ("n = 4,096, each entry of a diagonal 16 times", load::from_rows(&diagonal, &vec![1.0; MAX_ROWS])),
    ]
}

/// A test load of two entries for each gives the counts and the bits of the load itself.
fn halved_load(solver: &dyn Solver, random: &mut Random, n: usize) -> Compared {
    let input = load::test_load(n, 1);
    for call in lent_the_matrix() {
        let case = case_of(random, call, &input);
        let mut twice = Case { input: load::halved(&input), ..case.clone() };
        generate::only_lent(&mut twice);
        let (answer, left) = run_case(solver, &twice)?;
        let (expected, other) = run_case(solver, &case)?;
        compare::same("number", &expected.number, &0)?;
        compare::same(&format!("{call:?} beside the load"), &answer, &expected)?;
        compare::buffers(&left, &other)?;
    }
    Ok(())
}

/// Checks the greatest numbers of entries, and one more.
pub fn large(solver: &dyn Solver, seed: u64, tally: &mut Tally) {
    let random = &mut Random::new(seed);
    for (name, input) in large_systems() {
        tally.add(|| format!("repeats, {name} ({})", solver.name()), taken(solver, random, &input));
    }
    tally.add(|| format!("repeats, e = 65,537 ({})", solver.name()), too_many(solver, random));
    tally.add(|| format!("repeats, a halved load ({})", solver.name()), halved_load(solver, random, 200));
}

// ---- random systems

/// Random systems; of many, some must have a sum that overflows, and most none.
pub fn run(solver: &dyn Solver, range: Range, tally: &mut Tally) {
    let (mut repeating, mut overflowing) = (0, 0);
    for number in range.numbers() {
        let random = &mut range.random(number);
        let n = random.pick(&[1, 2, 3, 5, 8, 13]);
        let mut input = generate::repeated_input(random, n);
        if random.per_mille(300) {
            input.floor = generate::sound_floor(random, &input);
        }
        repeating += u64::from(repeats(&input));
        overflowing += u64::from(once(&input).1.is_some());
        let result = alike(solver, random, &input);
        tally.add(|| format!("{} {} n {n}", range.label("repeats", number), solver.name()), result);
    }
    if range.only.is_none() {
        let name = || format!("repeats seed {} {}", range.seed, solver.name());
        tally.add(name, compare::at_least("systems with repeats", repeating, range.count * 4 / 5));
        tally.add(name, compare::at_least("sums that overflow", overflowing, range.count / 20));
        tally.add(name, compare::at_least("sums that do not", range.count - overflowing, range.count / 2));
    }
}
