//! A buffer of length 0 may be NULL: each lent buffer in turn, and all at once, against the reference.
use super::cases::compare_case;
use super::files::{compare_file, compare_written};
use super::kept::{self, compare_read, compare_write};
use super::loads::compare_load;
use super::residuals::compare_row;
use super::sheets::compare_sheet;
use super::{known, Solver, Tally};
use crate::compare::{self, Compared};
use crate::generate::{self, Case};
use crate::load;
use crate::model::*;
use crate::reference::{self, factor_file, matrix_file, Lists};

/// Takes a buffer's slots away; false where the call is not lent it.
type Taking = (&'static str, fn(&mut Case) -> bool);

fn take<T>(list: &mut Vec<T>) -> bool {
    let lent = !list.is_empty();
    list.clear();
    lent
}

const TAKINGS: [Taking; 18] = [
    ("starts", |case| take(&mut case.input.starts)),
    ("columns", |case| take(&mut case.input.columns)),
    ("values", |case| take(&mut case.input.values)),
    ("r", |case| take(&mut case.input.r)),
    ("c", |case| take(&mut case.input.c)),
    ("b", |case| take(&mut case.input.b)),
    ("lower list starts", |case| take(&mut case.buffers.lower.starts)),
    ("lower run starts", |case| take(&mut case.buffers.lower.runs)),
    ("lower index store", |case| take(&mut case.buffers.lower.index)),
    ("lower value store", |case| take(&mut case.buffers.lower.values)),
    ("upper list starts", |case| take(&mut case.buffers.upper.starts)),
    ("upper run starts", |case| take(&mut case.buffers.upper.runs)),
    ("upper index store", |case| take(&mut case.buffers.upper.index)),
    ("upper value store", |case| take(&mut case.buffers.upper.values)),
    ("d", |case| take(&mut case.buffers.d)),
    ("x", |case| take(&mut case.buffers.x)),
    ("scratch f64", |case| take(&mut case.buffers.scratch_f64)),
    ("scratch u32", |case| take(&mut case.buffers.scratch_u32)),
];

/// How many buffers besides the report the header has for each call.
fn lent_buffers(call: Call) -> usize {
    match call {
        Call::Structure(Form::Plain) => 12,
        Call::Structure(_) | Call::Solve(Form::Row) => 14,
        Call::Solve(Form::Plain) | Call::Refactor(Form::Plain) => 16,
        Call::Solve(_) | Call::Refactor(_) => 18,
        Call::Resolve(Form::Plain) => 13,
        Call::Resolve(_) => 15,
    }
}

/// Refactor and another right side are lent what a solve left.
fn case_of(call: Call, input: Input, slots: usize, report: usize) -> Case {
    let mut buffers = Buffers::for_call(call, input.n, Slots::all(slots));
    if let Call::Refactor(form) | Call::Resolve(form) = call {
        reference::run(Call::Solve(form), &input, &mut buffers);
    }
    let mut case = Case { call, input, buffers, report };
    generate::only_lent(&mut case);
    case
}

/// The call answers with one of the numbers, and all is as the reference leaves it.
fn answers(solver: &dyn Solver, case: &Case, numbers: &[u32]) -> Compared {
    let (answer, result) = compare_case(solver, case);
    result?;
    among(answer.number, numbers)
}

fn among(number: u32, numbers: &[u32]) -> Compared {
    if numbers.contains(&number) {
        return Ok(());
    }
    compare::differ("number", number, numbers)
}

/// A missing store is 10 or 11, 14 where a structure is presented and 15 where factors are, and no columns at all are 3
/// for the structure calls; every other buffer is 2.
fn refusals(call: Call, name: &str) -> &'static [u32] {
    match name {
        "columns" if matches!(call, Call::Structure(_)) => &[3],
        name if name.ends_with("store") && matches!(call, Call::Refactor(_)) => &[14],
        name if name.ends_with("store") && matches!(call, Call::Resolve(_)) => &[15],
        "lower index store" | "lower value store" => &[10],
        "upper index store" | "upper value store" => &[11],
        _ => &[2],
    }
}

fn calls(solver: &dyn Solver, call: Call, tally: &mut Tally) {
    let mut tried = 0;
    for (name, taking) in TAKINGS {
        let mut case = case_of(call, known::paper_matrix(), 1, 4);
        if taking(&mut case) {
            tried += 1;
            tally.add(|| format!("{call:?} with NULL for {name}"), answers(solver, &case, refusals(call, name)));
        }
    }
    let all = compare::same("buffers", &tried, &lent_buffers(call));
    tally.add(|| format!("{call:?} with NULL for each buffer"), all);
    let one = load::from_rows(&[vec![(0, 2.0)]], &[8.0]);
    tally.add(
        || format!("{call:?} with NULL stores and report, n = 1"),
        answers(solver, &case_of(call, one, 0, 0), &[0]),
    );
    for (n, number) in [(0, 1), (1, 2)] {
        let case = Case { call, input: Input { n, ..Input::default() }, buffers: Buffers::default(), report: 0 };
        tally.add(|| format!("{call:?} with NULL for all, n = {n}"), answers(solver, &case, &[number]));
    }
}

fn lookup(solver: &dyn Solver, lists: &Lists) -> Compared {
    for side in [Side::Lower, Side::Upper] {
        let found = solver.lookup(lists, side, 0)?;
        compare::same("part", &found, &reference::lookup(lists, side, 0))?;
        compare::same("empty part", &found, &(0, 0))?;
    }
    Ok(())
}

fn lookups(solver: &dyn Solver, form: Form, tally: &mut Tally) {
    let whole = Buffers::for_call(Call::Structure(form), 1, Slots::all(0)).upper;
    let short = [whole.clone(), Store { starts: vec![], ..whole.clone() }, Store { runs: vec![], ..whole.clone() }];
    for (number, store) in short.into_iter().enumerate() {
        for (lower, upper) in [(whole.clone(), store.clone()), (store, whole.clone())] {
            let lists = Lists { form, n: 1, lower, upper };
            tally.add(|| format!("lookup {form:?} with NULL, lists {number}"), lookup(solver, &lists));
        }
    }
}

const MATRIX_TAKINGS: [fn(&mut Input) -> bool; 6] = [
    |matrix| take(&mut matrix.starts),
    |matrix| take(&mut matrix.columns),
    |matrix| take(&mut matrix.values),
    |matrix| take(&mut matrix.r),
    |matrix| take(&mut matrix.c),
    |matrix| take(&mut matrix.b),
];

/// Writes the matrix, then reads the file of the whole matrix into its buffers.
fn write_and_read(solver: &dyn Solver, matrix: &Input, file: &[u8], number: u32) -> Compared {
    let (answer, _) = compare_written(solver, matrix, &vec![7; file.len()])?;
    compare::same("number of write", &answer.number, &number)?;
    compare_file(solver, file, matrix)
}

fn files(solver: &dyn Solver, tally: &mut Tally) {
    let empty = matrix_file::blank(1, 0);
    let file = matrix_file::file_of(&empty);
    tally.add(|| "file with NULL columns and values".to_string(), write_and_read(solver, &empty, &file, 0));
    let whole = known::paper_matrix();
    let file = matrix_file::file_of(&whole);
    for (number, taking) in MATRIX_TAKINGS.iter().enumerate() {
        let mut matrix = whole.clone();
        taking(&mut matrix);
        tally.add(
            || format!("file with NULL for part {number} of its matrix"),
            write_and_read(solver, &matrix, &file, 2),
        );
    }
    tally.add(|| "NULL file written".to_string(), compare_written(solver, &whole, &[]).map(|_| ()));
    tally.add(|| "NULL file read".to_string(), compare_file(solver, &[], &whole));
}

const FACTOR_TAKINGS: [fn(&mut Keeping) -> bool; 9] = [
    |kept| take(&mut kept.r),
    |kept| take(&mut kept.c),
    |kept| take(&mut kept.lower.starts),
    |kept| take(&mut kept.lower.index),
    |kept| take(&mut kept.lower.values),
    |kept| take(&mut kept.upper.starts),
    |kept| take(&mut kept.upper.index),
    |kept| take(&mut kept.upper.values),
    |kept| take(&mut kept.d),
];

/// Writes the factors into as many bytes as the file has, then reads the file into their buffers.
fn keep_number(solver: &dyn Solver, kept: &Keeping, file: &[u8], report: usize, number: u32) -> Compared {
    let slots = vec![7; report];
    let ((written, _), _) = compare_write(solver, kept, &vec![5; file.len()], &slots)?;
    compare::same("number of write", &written, &number)?;
    let (read, _) = compare_read(solver, file, kept, &slots)?;
    compare::same("number of read", &read, &number)
}

fn factor_files(solver: &dyn Solver, tally: &mut Tally) {
    let whole = kept::example();
    let file = factor_file::file_of(&whole);
    for (number, taking) in FACTOR_TAKINGS.iter().enumerate() {
        let mut kept = whole.clone();
        let result = compare::same("lent", &taking(&mut kept), &true);
        let result = result.and_then(|()| keep_number(solver, &kept, &file, 4, 2));
        tally.add(|| format!("factor file with NULL for buffer {number}"), result);
    }
    tally.add(|| "factor file with NULL report".to_string(), keep_number(solver, &whole, &file, 0, 0));
    let one = Keeping { d: vec![0.5], ..Keeping::blank(1, Slots::all(0)) };
    let file = factor_file::file_of(&one);
    tally.add(|| "factor file with NULL stores".to_string(), keep_number(solver, &one, &file, 0, 0));
    let none = compare_write(solver, &whole, &[], &[]).and_then(|((number, _), _)| among(number, &[2]));
    tally.add(|| "NULL factor file written".to_string(), none);
    let none = compare_read(solver, &[], &Keeping::default(), &[]).and_then(|(number, _)| among(number, &[16]));
    tally.add(|| "NULL factor file read".to_string(), none);
}

/// Makes a load in what is left of the matrix, with a report of so many slots.
fn load_number(solver: &dyn Solver, matrix: &Input, report: usize, number: u32) -> Compared {
    compare::same("number of load", &compare_load(solver, 1, matrix, &vec![7; report])?, &number)
}

fn test_loads(solver: &dyn Solver, tally: &mut Tally) {
    let whole = matrix_file::blank(2, 8);
    for (number, taking) in MATRIX_TAKINGS.iter().enumerate() {
        let mut matrix = whole.clone();
        taking(&mut matrix);
        tally.add(|| format!("load with NULL for part {number} of its matrix"), load_number(solver, &matrix, 2, 2));
    }
    tally.add(|| "load with NULL report".to_string(), load_number(solver, &whole, 0, 0));
    for (n, number) in [(0, 1), (1, 2)] {
        let matrix = Input { n, ..Input::default() };
        tally.add(|| format!("load with NULL for all, n = {n}"), load_number(solver, &matrix, 0, number));
    }
}

/// Prints the fill in what the case is lent, with a sheet of so many bytes.
fn sheet_number(solver: &dyn Solver, case: Case, bytes: usize, numbers: &[u32]) -> Compared {
    let Case { input, buffers, report, .. } = case;
    let lent = Printing { input, buffers, sheet: vec![7; bytes], report: vec![7; report] };
    among(compare_sheet(solver, &lent)?, numbers)
}

fn sheets(solver: &dyn Solver, tally: &mut Tally) {
    let call = Call::Structure(Form::Shared);
    let paper = || case_of(call, known::paper_matrix(), 1, 4);
    for (name, taking) in TAKINGS {
        let mut case = paper();
        if taking(&mut case) {
            let result = sheet_number(solver, case, 2_050, refusals(call, name));
            tally.add(|| format!("sheet with NULL for {name}"), result);
        }
    }
    tally.add(|| "sheet with NULL sheet".to_string(), sheet_number(solver, paper(), 0, &[2]));
    let one = case_of(call, load::from_rows(&[vec![(0, 2.0)]], &[8.0]), 0, 0);
    tally.add(|| "sheet with NULL stores and report, n = 1".to_string(), sheet_number(solver, one, 2_050, &[0]));
    for (n, number) in [(0, 1), (1, 2)] {
        let case = Case { call, input: Input { n, ..Input::default() }, buffers: Buffers::default(), report: 0 };
        tally.add(|| format!("sheet with NULL for all, n = {n}"), sheet_number(solver, case, 0, &[number]));
    }
}

/// Asks for the first row of what is left of the paper's matrix.
fn row_number(solver: &dyn Solver, lent: &Checking, number: u32) -> Compared {
    compare::same("number of residual", &compare_row(solver, lent)?, &number)
}

/// A buffer of the call on a residual, taken away.
type RowTaking = (&'static str, fn(&mut Checking) -> bool, u32);

const ROW_TAKINGS: [RowTaking; 7] = [
    ("starts", |lent| take(&mut lent.input.starts), 2),
    ("columns", |lent| take(&mut lent.input.columns), 2),
    ("values", |lent| take(&mut lent.input.values), 2),
    ("b", |lent| take(&mut lent.input.b), 2),
    ("x", |lent| take(&mut lent.x), 2),
    ("pair", |lent| take(&mut lent.pair), 0),
    ("report", |lent| take(&mut lent.report), 0),
];

fn residuals(solver: &dyn Solver, tally: &mut Tally) {
    let input = known::paper_matrix();
    let whole = Checking { input, x: vec![1.0, 2.0], row: 0, pair: vec![7.0; 2], report: vec![7; 4] };
    for (name, taking, number) in ROW_TAKINGS {
        let mut lent = whole.clone();
        taking(&mut lent);
        tally.add(|| format!("residual with NULL for {name}"), row_number(solver, &lent, number));
    }
    for (n, number) in [(0, 1), (1, 2)] {
        let lent = Checking { input: Input { n, ..Input::default() }, ..Checking::default() };
        tally.add(|| format!("residual with NULL for all, n = {n}"), row_number(solver, &lent, number));
    }
}

/// The solver must lend buffers of length 0 as NULL.
pub fn run(solver: &dyn Solver, tally: &mut Tally) {
    for &call in solver.calls() {
        calls(solver, call, tally);
    }
    for form in [Form::Plain, Form::Shared] {
        lookups(solver, form, tally);
    }
    files(solver, tally);
    factor_files(solver, tally);
    test_loads(solver, tally);
    residuals(solver, tally);
    sheets(solver, tally);
}
