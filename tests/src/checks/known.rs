//! Cases with known figures: the paper's boundary graphs, Report 114's example and grid, the test load.
use super::cases::compare_case;
use super::{loads, Solver, Tally};
use crate::compare::{self, Compared, Difference};
use crate::generate::Case;
use crate::load;
use crate::model::*;

const SOLVES: [Form; 3] = [Form::Plain, Form::Shared, Form::Row];

fn solve(solver: &dyn Solver, form: Form, input: &Input, slots: Slots) -> Result<(Answer, Buffers), Difference> {
    let call = Call::Solve(form);
    let mut buffers = Buffers::for_call(call, input.n, slots);
    let answer = solver.run(call, input, &mut buffers, 4)?;
    Ok((answer, buffers))
}

fn structure(solver: &dyn Solver, form: Form, input: &Input, slots: Slots) -> Result<(Answer, Buffers), Difference> {
    let call = Call::Structure(form);
    let mut buffers = Buffers::for_call(call, input.n, slots);
    let answer = solver.run(call, input, &mut buffers, 4)?;
    Ok((answer, buffers))
}

fn counts(lower: u64, upper: u64, products: u64) -> Counts {
    Counts { lower, upper, products }
}

/// All three solves refuse with the number and place.
fn refuses(solver: &dyn Solver, input: &Input, number: u32, place: u64) -> Compared {
    for form in SOLVES {
        let (answer, _) = solve(solver, form, input, Slots::all(64))?;
        compare::same(&format!("{form:?}"), &answer, &Refusal { number, place }.into())?;
    }
    Ok(())
}

/// All three solves end well with the counts and the bits of x.
fn solves(solver: &dyn Solver, input: &Input, expected: Counts, x: &[f64]) -> Compared {
    for form in SOLVES {
        let (answer, buffers) = solve(solver, form, input, Slots::all(64))?;
        compare::same(&format!("{form:?}"), &answer, &expected.into())?;
        compare::floats(&format!("{form:?} x"), &buffers.x, x)?;
    }
    Ok(())
}

fn diagonal(values: &[f64], b: &[f64]) -> Input {
    let rows: Vec<Vec<(usize, f64)>> = values.iter().enumerate().map(|(k, &v)| vec![(k, v)]).collect();
    load::from_rows(&rows, b)
}

/// The paper's file: rows (2, 4), (1, 4), b = (10, 9).
pub fn paper_matrix() -> Input {
    load::from_rows(&[vec![(0, 2.0), (1, 4.0)], vec![(0, 1.0), (1, 4.0)]], &[10.0, 9.0])
}

fn rows_limits(solver: &dyn Solver) -> Compared {
    for n in [0usize, 4_097] {
        let input = Input { n, ..diagonal(&vec![1.0; n.max(1)], &vec![1.0; n.max(1)]) };
        for &call in solver.calls() {
            let mut buffers = Buffers::for_call(call, n, Slots::all(1));
            let answer = solver.run(call, &input, &mut buffers, 4)?;
            compare::same(&format!("n {n} {call:?}"), &answer, &Refusal { number: 1, place: 0 }.into())?;
        }
    }
    let ones = vec![1.0; 4_096];
    let input = diagonal(&ones, &ones);
    for form in SOLVES {
        let (answer, buffers) = solve(solver, form, &input, Slots::all(0))?;
        compare::same(&format!("n 4096 {form:?}"), &answer, &Answer::default())?;
        compare::floats("x", &buffers.x, &ones)?;
    }
    Ok(())
}

fn smallest_pivots(solver: &dyn Solver) -> Compared {
    refuses(solver, &diagonal(&[-0.0], &[1.0]), 12, 0)?;
    refuses(solver, &diagonal(&[0.0], &[1.0]), 12, 0)?;
    let x = [2f64.powi(1023)];
    solves(solver, &diagonal(&[f64::from_bits(1 << 51)], &[1.0]), Counts::default(), &x)?;
    refuses(solver, &diagonal(&[f64::from_bits(1 << 50)], &[1.0]), 13, 0)
}

fn exchanged_rows(solver: &dyn Solver) -> Compared {
    let mut input = load::from_rows(&[vec![(1, 1.0)], vec![(0, 1.0)]], &[3.0, 5.0]);
    refuses(solver, &input, 9, 0)?;
    input.r = vec![1, 0];
    solves(solver, &input, Counts::default(), &[5.0, 3.0])
}

fn pivot_by_fill(solver: &dyn Solver) -> Compared {
    let input = load::from_rows(&[vec![(0, 1.0), (1, 1.0)], vec![(0, 1.0)]], &[1.0, 1.0]);
    solves(solver, &input, counts(1, 1, 1), &[1.0, -0.0])?;
    let (_, buffers) = solve(solver, Form::Plain, &input, Slots::all(1))?;
    compare::floats("d", &buffers.d, &[1.0, -1.0])
}

fn pivot_cancelled(solver: &dyn Solver) -> Compared {
    let input = load::from_rows(&[vec![(0, 1.0), (1, 1.0)], vec![(0, 1.0), (1, 1.0)]], &[1.0, 1.0]);
    refuses(solver, &input, 12, 1)
}

fn arrow(solver: &dyn Solver) -> Compared {
    let rows = [vec![(0, 9.0), (1, 1.0), (2, 1.0)], vec![(0, 1.0), (1, 9.0)], vec![(0, 1.0), (2, 9.0)]];
    let input = load::from_rows(&rows, &[1.0, 1.0, 1.0]);
    for form in SOLVES {
        let (answer, _) = solve(solver, form, &input, Slots::sides(3, 3))?;
        compare::same("answer", &answer, &counts(3, 3, 5).into())?;
    }
    let exact = Slots { lower_index: 2, lower_values: 3, upper_index: 2, upper_values: 3 };
    let (answer, buffers) = structure(solver, Form::Shared, &input, exact)?;
    compare::same("shared with 2 index slots", &answer, &counts(3, 3, 5).into())?;
    compare::numbers("upper run starts", &buffers.upper.runs, &[0, 1, 2])?;
    compare::numbers("upper index store", &buffers.upper.index, &[1, 2])?;
    let short = Slots { upper_index: 2, ..Slots::sides(3, 3) };
    let (answer, _) = structure(solver, Form::Plain, &input, short)?;
    compare::same("one upper plain slot fewer", &answer, &Refusal { number: 11, place: 1 }.into())
}

/// Solves the arrow with each of the four stores one slot short: T(0) = {1,2}, T(1) = {2}, lower rows {}, {0}, {0,1}.
fn arrow_lacks(solver: &dyn Solver) -> Compared {
    let rows = [vec![(0, 9.0), (1, 1.0), (2, 1.0)], vec![(0, 1.0), (1, 9.0)], vec![(0, 1.0), (2, 9.0)]];
    let input = load::from_rows(&rows, &[1.0, 1.0, 1.0]);
    let plain = Slots::sides(3, 3);
    let shared = Slots { lower_index: 2, lower_values: 3, upper_index: 2, upper_values: 3 };
    let lacks: [(&[Form], Slots, u32, u64); 8] = [
        (&[Form::Plain], Slots { lower_index: 2, ..plain }, 10, 2),
        (&[Form::Plain], Slots { lower_values: 2, ..plain }, 10, 2),
        (&[Form::Plain], Slots { upper_index: 2, ..plain }, 11, 1),
        (&[Form::Plain], Slots { upper_values: 2, ..plain }, 11, 1),
        (&[Form::Shared], Slots { lower_index: 1, ..shared }, 10, 0),
        (&[Form::Shared], Slots { lower_values: 2, ..shared }, 10, 1),
        (&[Form::Shared, Form::Row], Slots { upper_index: 1, ..shared }, 11, 0),
        (&[Form::Shared, Form::Row], Slots { upper_values: 2, ..shared }, 11, 1),
    ];
    for (forms, slots, number, place) in lacks {
        for &form in forms {
            let (answer, _) = solve(solver, form, &input, slots)?;
            compare::same(&format!("{form:?} {slots:?}"), &answer, &Refusal { number, place }.into())?;
        }
    }
    let (answer, _) = solve(solver, Form::Row, &input, Slots { lower_index: 0, lower_values: 0, ..shared })?;
    compare::same("the row form keeps no lower side", &answer, &counts(3, 3, 5).into())
}

/// The lists {2,3,4}, {3,4}, {3}, {4} of an upper triangle: three shared slots, runs 0, 1, 1, 2.
fn shared_tails(solver: &dyn Solver) -> Compared {
    let rows = [
        vec![(0, 1.0), (2, 1.0), (3, 1.0), (4, 1.0)],
        vec![(1, 1.0), (3, 1.0), (4, 1.0)],
        vec![(2, 1.0), (3, 1.0)],
        vec![(3, 1.0), (4, 1.0)],
        vec![(4, 1.0)],
    ];
    let input = load::from_rows(&rows, &[1.0; 5]);
    let (answer, buffers) = structure(solver, Form::Shared, &input, Slots::sides(0, 8))?;
    compare::same("answer", &answer, &counts(0, 7, 0).into())?;
    compare::numbers("upper run starts", &buffers.upper.runs, &[0, 1, 1, 2, 3])?;
    compare::numbers("upper index store", &buffers.upper.index, &[2, 3, 4, 0, 0, 0, 0, 0])
}

/// Report 114's 5 by 5 example: entries 1 to 9 by rows.
pub fn report_example() -> Input {
    let rows = [
        vec![(0, 1.0), (2, 2.0)],
        vec![(1, 3.0)],
        vec![(1, 4.0), (2, 5.0), (3, 6.0)],
        vec![(3, 7.0)],
        vec![(3, 8.0), (4, 9.0)],
    ];
    load::from_rows(&rows, &[7.0, 6.0, 47.0, 28.0, 77.0])
}

fn report_114_example(solver: &dyn Solver) -> Compared {
    let input = report_example();
    for form in SOLVES {
        let (answer, buffers) = solve(solver, form, &input, Slots::sides(2, 2))?;
        compare::same("answer", &answer, &counts(2, 2, 0).into())?;
        near("x", &buffers.x, &[1.0, 2.0, 3.0, 4.0, 5.0])?;
    }
    Ok(())
}

/// Lists of the same length whose numbers differ by rounding only; a NaN is near nothing.
fn near(name: &str, found: &[f64], expected: &[f64]) -> Compared {
    compare::same(&format!("length of {name}"), &found.len(), &expected.len())?;
    for (slot, (&a, &b)) in found.iter().zip(expected).enumerate() {
        let close = (a - b).abs() <= 1e-12 * b.abs();
        if !close {
            return compare::differ(format!("{name}[{slot}]"), a, b);
        }
    }
    Ok(())
}

/// `near` itself: what it must let pass and what it must not.
pub fn near_fails(tally: &mut Tally) {
    let inf = f64::INFINITY;
    let asked: [(&[f64], &[f64], bool); 10] = [
        (&[], &[], true),
        (&[1.0, 2.0], &[1.0, 2.0], true),
        (&[1.0 + f64::EPSILON], &[1.0], true),
        (&[1.0 + 1e-11], &[1.0], false),
        (&[f64::NAN], &[1.0], false),
        (&[1.0], &[f64::NAN], false),
        (&[f64::NAN], &[f64::NAN], false),
        (&[inf], &[1.0], false),
        (&[1.0], &[1.0, 2.0], false),
        (&[1.0, 2.0], &[1.0], false),
    ];
    for (found, expected, passes) in asked {
        let result = compare::same("passes", &near("x", found, expected).is_ok(), &passes);
        tally.add(|| format!("near {found:?} {expected:?}"), result);
    }
}

/// The order that Report 114's driver prints for the 3 by 3 grid, counted from 0.
pub const GRID_ORDER: [u16; 9] = [0, 2, 6, 8, 5, 4, 1, 3, 7];

/// Report 114's 3 by 3 grid problem with one order for rows and columns.
pub fn grid_ordered(order: &[u16]) -> Input {
    Input { r: order.to_vec(), c: order.to_vec(), ..load::grid(3) }
}

/// Compares every buffer of the three solves with the reference, bit by bit.
fn solves_as_reference(solver: &dyn Solver, input: &Input, slots: Slots) -> Compared {
    for form in SOLVES {
        let call = Call::Solve(form);
        let buffers = Buffers::for_call(call, input.n, slots);
        compare_case(solver, &Case { call, input: input.clone(), buffers, report: 4 }).1?;
    }
    Ok(())
}

fn grid_in(solver: &dyn Solver, order: &[u16], expected: Counts, slots: Slots) -> Result<Vec<f64>, Difference> {
    let input = grid_ordered(order);
    solves_as_reference(solver, &input, Slots::all(20))?;
    let (_, first) = solve(solver, Form::Plain, &input, Slots::all(20))?;
    near("x", &first.x, &[1.0, 2.0, 3.0, 4.0, 5.0, 6.0, 7.0, 8.0, 9.0])?;
    for form in SOLVES {
        let (answer, buffers) = solve(solver, form, &input, Slots::all(20))?;
        compare::same("answer", &answer, &expected.into())?;
        compare::floats(&format!("x of the {form:?} form"), &buffers.x, &first.x)?;
    }
    uses(solver, &input, expected, slots)?;
    Ok(first.x)
}

/// The shared form fits index stores of exactly these slots, and one fewer on either side is refused.
fn uses(solver: &dyn Solver, input: &Input, expected: Counts, slots: Slots) -> Compared {
    let (answer, _) = structure(solver, Form::Shared, input, slots)?;
    compare::same("shared in the exact slots", &answer, &expected.into())?;
    let fewer = Slots { lower_index: slots.lower_index - 1, ..slots };
    let (answer, _) = structure(solver, Form::Shared, input, fewer)?;
    compare::same("one lower slot fewer", &answer.number, &10)?;
    let fewer = Slots { upper_index: slots.upper_index - 1, ..slots };
    let (answer, _) = structure(solver, Form::Shared, input, fewer)?;
    compare::same("one upper slot fewer", &answer.number, &11)
}

fn report_114_grid(solver: &dyn Solver) -> Compared {
    let natural: Vec<u16> = (0..9).collect();
    let slots = Slots { lower_index: 9, lower_values: 20, upper_index: 9, upper_values: 20 };
    let first = grid_in(solver, &natural, counts(20, 20, 54), slots)?;
    let slots = Slots { lower_index: 14, lower_values: 17, upper_index: 14, upper_values: 17 };
    let second = grid_in(solver, &GRID_ORDER, counts(17, 17, 39), slots)?;
    let differ = first.iter().zip(&second).any(|(a, b)| a.to_bits() != b.to_bits());
    compare::same("the orders differ in the last bits", &differ, &true)
}

/// The fill sheet of Report 114's grid in that order, down to its blank lines.
const GRID_SHEET: [&str; 10] = [
    "FILL                                   1",
    "     0       0       0       2         0",
    "     1       2       0       2         2",
    "     2       6       0       2         4",
    "     3       8       0       2         6",
    "     4       5       2       3         8",
    "     5       4       1       3        11",
    "     6       1       4       2        12",
    "     7       3       4       1         5",
    "     8       7       6       0        14",
];

fn grid_sheet(solver: &dyn Solver) -> Compared {
    let input = grid_ordered(&GRID_ORDER);
    let slots = Slots { lower_index: 14, lower_values: 17, upper_index: 14, upper_values: 17 };
    let buffers = Buffers::for_call(Call::Structure(Form::Shared), input.n, slots);
    let mut lent = Printing { input, buffers, sheet: vec![7; 2_050], report: vec![7; 5] };
    compare::same("number", &solver.sheet(&mut lent)?, &0)?;
    compare::numbers("report", &lent.report, &[0, 17, 17, 39, 7])?;
    let blank = " ".repeat(40);
    let lines = GRID_SHEET.into_iter().chain([blank.as_str(); 40]);
    let text: String = lines.map(|line| format!("{line}\n")).collect();
    compare::numbers("sheet", &lent.sheet, text.as_bytes())
}

/// Figures of the test load: e, counts, shared slots.
struct LoadFigures {
    n: usize,
    e: usize,
    counts: Counts,
    shared_lower: usize,
    shared_upper: usize,
}

const LOADS: [LoadFigures; 2] = [
    LoadFigures {
        n: 256,
        e: 1_018,
        counts: Counts { lower: 7_513, upper: 7_515, products: 368_580 },
        shared_lower: 2_946,
        shared_upper: 3_744,
    },
    LoadFigures {
        n: 1_024,
        e: 4_091,
        counts: Counts { lower: 113_878, upper: 112_859, products: 24_233_048 },
        shared_lower: 40_691,
        shared_upper: 45_114,
    },
];

/// Entry counts of the test load: n, seed and e.
const LOAD_ENTRIES: [(usize, u16, usize); 7] =
    [(1, 0, 1), (2, 1, 4), (9, 1, 29), (64, 1, 252), (256, 1, 1_018), (1_024, 1, 4_091), (4_096, 1, 16_377)];

/// The solver's own load, which must be that of the generator here.
fn own_load(solver: &dyn Solver, n: usize, seed: u16) -> Result<Input, Difference> {
    let made = loads::made(solver, n, seed)?;
    compare::matrices(&made, &load::test_load(n, seed), false)?;
    Ok(made)
}

fn load_entries(solver: &dyn Solver) -> Compared {
    for (n, seed, e) in LOAD_ENTRIES {
        let made = own_load(solver, n, seed)?;
        compare::same(&format!("entries of n {n} seed {seed}"), &made.columns.len(), &e)?;
    }
    Ok(())
}

/// The load of n = 5 and seed 1, written out.
fn load_of_five(solver: &dyn Solver) -> Compared {
    let made = own_load(solver, 5, 1)?;
    let natural = [0, 1, 2, 3, 4];
    compare::numbers("starts", &made.starts, &[0, 3, 6, 9, 13, 16])?;
    compare::numbers("columns", &made.columns, &[0, 3, 2, 1, 2, 3, 2, 1, 3, 3, 2, 4, 1, 4, 3, 1])?;
    let values = [4, -1, -1, 4, -1, -1, 4, -1, -1, 4, -1, -1, -1, 4, -1, -1].map(f64::from);
    compare::floats("values", &made.values, &values)?;
    compare::numbers("r", &made.r, &natural)?;
    compare::numbers("c", &made.c, &natural)?;
    compare::floats("b", &made.b, &[1.0; 5])
}

fn test_load(solver: &dyn Solver, figures: &LoadFigures) -> Compared {
    let input = own_load(solver, figures.n, 1)?;
    compare::same("e", &input.columns.len(), &figures.e)?;
    let plain = Slots::sides(figures.counts.lower as usize, figures.counts.upper as usize);
    let (answer, _) = structure(solver, Form::Plain, &input, plain)?;
    compare::same("plain", &answer, &figures.counts.into())?;
    let shared = Slots { lower_index: figures.shared_lower, upper_index: figures.shared_upper, ..plain };
    uses(solver, &input, figures.counts, shared)
}

/// Solves the test load of other seeds and sizes in all three forms, against the reference.
fn loads_against_reference(solver: &dyn Solver) -> Compared {
    for (n, seed) in [(1, 1), (2, 7), (40, 3), (150, 1), (300, 9), (512, 65_535)] {
        solves_as_reference(solver, &own_load(solver, n, seed)?, Slots::all(n * n))?;
    }
    Ok(())
}

/// Tries the whole range of n: a tridiagonal system of 4,096.
fn largest_tridiagonal(solver: &dyn Solver) -> Compared {
    let input = load::tridiagonal(4_096);
    solves_as_reference(solver, &input, Slots::all(4_095))?;
    let call = Call::Structure(Form::Shared);
    let buffers = Buffers::for_call(call, input.n, Slots::all(4_095));
    compare_case(solver, &Case { call, input, buffers, report: 4 }).1
}

/// Runs every case with known figures on the solver.
pub fn run(solver: &dyn Solver, tally: &mut Tally) {
    let graphs: [(&str, Compared); 16] = [
        ("the paper's file", solves(solver, &paper_matrix(), counts(1, 1, 1), &[1.0, 2.0])),
        ("n = 0, 4,097 and 4,096", rows_limits(solver)),
        ("pivots -0, 2^-1023 and 2^-1024", smallest_pivots(solver)),
        ("entries (0,1), (1,0)", exchanged_rows(solver)),
        ("pivot 1 is fill", pivot_by_fill(solver)),
        ("pivot 1 cancels", pivot_cancelled(solver)),
        ("row 0, column 0 and diagonal full", arrow(solver)),
        ("the same, one slot short", arrow_lacks(solver)),
        ("shared tails", shared_tails(solver)),
        ("Report 114's example", report_114_example(solver)),
        ("Report 114's grid", report_114_grid(solver)),
        ("the fill sheet of Report 114's grid, written out", grid_sheet(solver)),
        ("entries of test loads", load_entries(solver)),
        ("test load n 5, written out", load_of_five(solver)),
        ("test loads against the reference", loads_against_reference(solver)),
        ("a tridiagonal system of 4,096", largest_tridiagonal(solver)),
    ];
    for (name, result) in graphs {
        tally.add(|| format!("{name} ({})", solver.name()), result);
    }
    for figures in &LOADS {
        tally.add(|| format!("test load n {} ({})", figures.n, solver.name()), test_load(solver, figures));
    }
}
