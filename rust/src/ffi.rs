//! The foreign calls of include/lilacpliers.h and include/lilacpliers_residual.h, and the only unsafe code.
//!
//! Every function here lends whole slices and vectors of their own, so that each pointer leads to as many slots as its
//! length says and no written buffer overlaps another. The library itself refuses lengths that do not fit.
use crate::buffers::{Lists, Pair, Scratch, Values};
use crate::form::Kept;
use crate::{Counts, Matrix, Orders, Side};

/// The functions as the headers declare them: `lent` and `out` stand for a pointer and a length.
mod raw {
    macro_rules! declare {
        ($name:ident [$($done:tt)*]) => { extern "C" { pub fn $name($($done)*) -> u32; } };
        ($name:ident [$($done:tt)*] $arg:ident: size, $($rest:tt)*) => {
            declare! { $name [$($done)* $arg: usize,] $($rest)* }
        };
        ($name:ident [$($done:tt)*] $arg:ident: number, $($rest:tt)*) => {
            declare! { $name [$($done)* $arg: u32,] $($rest)* }
        };
        ($name:ident [$($done:tt)*] $arg:ident: count, $($rest:tt)*) => {
            declare! { $name [$($done)* $arg: u64,] $($rest)* }
        };
        ($name:ident [$($done:tt)*] $arg:ident: short, $($rest:tt)*) => {
            declare! { $name [$($done)* $arg: u16,] $($rest)* }
        };
        ($name:ident [$($done:tt)*] $arg:ident: real, $($rest:tt)*) => {
            declare! { $name [$($done)* $arg: f64,] $($rest)* }
        };
        ($name:ident [$($done:tt)*] $arg:ident: lent $kind:ty, $($rest:tt)*) => {
            declare! { $name [$($done)* $arg: *const $kind, _: usize,] $($rest)* }
        };
        ($name:ident [$($done:tt)*] $arg:ident: out $kind:ty, $($rest:tt)*) => {
            declare! { $name [$($done)* $arg: *mut $kind, _: usize,] $($rest)* }
        };
    }

    declare! { lp_structure_plain [] n: size, starts: lent u32, columns: lent u16, r: lent u16, c: lent u16,
    lower_starts: out u32, lower_index: out u16, lower_values: out f64,
    upper_starts: out u32, upper_index: out u16, upper_values: out f64,
    scratch_f64: out f64, scratch_u32: out u32, report: out u64, }

    declare! { lp_structure_shared [] n: size, starts: lent u32, columns: lent u16, r: lent u16, c: lent u16,
    lower_starts: out u32, lower_runs: out u32, lower_index: out u16, lower_values: out f64,
    upper_starts: out u32, upper_runs: out u32, upper_index: out u16, upper_values: out f64,
    scratch_f64: out f64, scratch_u32: out u32, report: out u64, }

    declare! { lp_fill_sheet [] n: size, starts: lent u32, columns: lent u16, r: lent u16, c: lent u16,
    lower_starts: out u32, lower_runs: out u32, lower_index: out u16, lower_values: out f64,
    upper_starts: out u32, upper_runs: out u32, upper_index: out u16, upper_values: out f64,
    scratch_f64: out f64, scratch_u32: out u32, sheet: out u8, report: out u64, }

    declare! { lp_solve_plain [] n: size, starts: lent u32, columns: lent u16, values: lent f64,
    r: lent u16, c: lent u16, b: lent f64, floor: real,
    lower_starts: out u32, lower_index: out u16, lower_values: out f64,
    upper_starts: out u32, upper_index: out u16, upper_values: out f64,
    d: out f64, x: out f64, scratch_f64: out f64, scratch_u32: out u32, report: out u64, }

    declare! { lp_solve_shared [] n: size, starts: lent u32, columns: lent u16, values: lent f64,
    r: lent u16, c: lent u16, b: lent f64, floor: real,
    lower_starts: out u32, lower_runs: out u32, lower_index: out u16, lower_values: out f64,
    upper_starts: out u32, upper_runs: out u32, upper_index: out u16, upper_values: out f64,
    d: out f64, x: out f64, scratch_f64: out f64, scratch_u32: out u32, report: out u64, }

    declare! { lp_solve_row [] n: size, starts: lent u32, columns: lent u16, values: lent f64,
    r: lent u16, c: lent u16, b: lent f64, floor: real,
    upper_starts: out u32, upper_runs: out u32, upper_index: out u16, upper_values: out f64,
    d: out f64, x: out f64, scratch_f64: out f64, scratch_u32: out u32, report: out u64, }

    declare! { lp_refactor_plain [] n: size, starts: lent u32, columns: lent u16, values: lent f64,
    r: lent u16, c: lent u16, b: lent f64, floor: real,
    lower_starts: lent u32, lower_index: lent u16, lower_values: out f64,
    upper_starts: lent u32, upper_index: lent u16, upper_values: out f64,
    d: out f64, x: out f64, scratch_f64: out f64, scratch_u32: out u32, report: out u64, }

    declare! { lp_refactor_shared [] n: size, starts: lent u32, columns: lent u16, values: lent f64,
    r: lent u16, c: lent u16, b: lent f64, floor: real,
    lower_starts: lent u32, lower_runs: lent u32, lower_index: lent u16, lower_values: out f64,
    upper_starts: lent u32, upper_runs: lent u32, upper_index: lent u16, upper_values: out f64,
    d: out f64, x: out f64, scratch_f64: out f64, scratch_u32: out u32, report: out u64, }

    declare! { lp_resolve_plain [] n: size, r: lent u16, c: lent u16, b: lent f64,
    lower_starts: lent u32, lower_index: lent u16, lower_values: lent f64,
    upper_starts: lent u32, upper_index: lent u16, upper_values: lent f64,
    d: lent f64, x: out f64, scratch_f64: out f64, scratch_u32: out u32, report: out u64, }

    declare! { lp_resolve_shared [] n: size, r: lent u16, c: lent u16, b: lent f64,
    lower_starts: lent u32, lower_runs: lent u32, lower_index: lent u16, lower_values: lent f64,
    upper_starts: lent u32, upper_runs: lent u32, upper_index: lent u16, upper_values: lent f64,
    d: lent f64, x: out f64, scratch_f64: out f64, scratch_u32: out u32, report: out u64, }

    declare! { lp_list_plain [] side: number, place: size, n: size,
    lower_starts: lent u32, lower_index: lent u16, upper_starts: lent u32, upper_index: lent u16, report: out u64, }

    declare! { lp_list_shared [] side: number, place: size, n: size,
    lower_starts: lent u32, lower_runs: lent u32, lower_index: lent u16,
    upper_starts: lent u32, upper_runs: lent u32, upper_index: lent u16, report: out u64, }

    declare! { lp_file_shape [] file: lent u8, report: out u64, }

    declare! { lp_read_matrix [] file: lent u8, starts: out u32, columns: out u16, values: out f64,
    r: out u16, c: out u16, b: out f64, report: out u64, }

    declare! { lp_write_matrix [] n: size, starts: lent u32, columns: lent u16, values: lent f64,
    r: lent u16, c: lent u16, b: lent f64, file: out u8, report: out u64, }

    declare! { lp_factor_shape [] file: lent u8, report: out u64, }

    declare! { lp_read_factors [] file: lent u8, r: out u16, c: out u16,
    lower_starts: out u32, lower_index: out u16, lower_values: out f64,
    upper_starts: out u32, upper_index: out u16, upper_values: out f64,
    d: out f64, report: out u64, }

    declare! { lp_write_factors [] n: size, lower: count, upper: count, products: count, r: lent u16, c: lent u16,
    lower_starts: lent u32, lower_index: lent u16, lower_values: lent f64,
    upper_starts: lent u32, upper_index: lent u16, upper_values: lent f64,
    d: lent f64, file: out u8, report: out u64, }

    declare! { lp_test_load [] n: size, seed: short, starts: out u32, columns: out u16, values: out f64,
    r: out u16, c: out u16, b: out f64, report: out u64, }

    declare! { lp_residual [] n: size, starts: lent u32, columns: lent u16, values: lent f64, b: lent f64, x: lent f64,
    row: number, pair: out f64, report: out u64, }
}

/// Calls a raw function: `[number]` passes as it is, `(lent)` and `{written}` buffers as a pointer and a length; the
/// report is added behind them. Gives the answer.
macro_rules! call {
    (@ $name:ident $report:ident ($($done:tt)*)) => {
        // SAFETY: each pointer comes from a slice or vector with the length beside it, and written ones are exclusive.
        unsafe { raw::$name($($done)* $report.as_mut_ptr(), $report.len()) }
    };
    (@ $name:ident $report:ident ($($done:tt)*) [$number:expr] $($rest:tt)*) => {
        call!(@ $name $report ($($done)* $number,) $($rest)*)
    };
    (@ $name:ident $report:ident ($($done:tt)*) ($buffer:expr) $($rest:tt)*) => {
        call!(@ $name $report ($($done)* $buffer.as_ptr(), $buffer.len(),) $($rest)*)
    };
    (@ $name:ident $report:ident ($($done:tt)*) {$buffer:expr} $($rest:tt)*) => {
        call!(@ $name $report ($($done)* $buffer.as_mut_ptr(), $buffer.len(),) $($rest)*)
    };
    ($name:ident: $($given:tt)*) => {{
        let mut report = [0u64; 4];
        let number = call!(@ $name report () $($given)*);
        Answer { number, report }
    }};
}

/// What a call returned and reported.
#[derive(Debug, Clone, Copy)]
pub(crate) struct Answer {
    pub number: u32,
    pub report: [u64; 4],
}

/// What a call is asked: a matrix with its orders.
#[derive(Clone, Copy)]
pub(crate) struct Asked<'a> {
    pub matrix: &'a Matrix,
    pub orders: &'a Orders,
}

/// What a call is asked: a system of equations.
#[derive(Clone, Copy)]
pub(crate) struct Equations<'a> {
    pub matrix: &'a Matrix,
    pub orders: &'a Orders,
    pub right: &'a [f64],
}

/// The structure of a matrix; the value stores lent for it stay zero.
pub(crate) fn structure(form: Kept, asked: Asked, lists: &mut Pair, values: &mut Values, s: &mut Scratch) -> Answer {
    let (m, o) = (asked.matrix, asked.orders);
    let (l, u) = (&mut lists.lower, &mut lists.upper);
    match form {
        Kept::Plain => call!(lp_structure_plain: [m.rows()] (m.starts()) (m.columns()) (o.rows()) (o.columns())
            {l.starts} {l.index} {values.lower} {u.starts} {u.index} {values.upper} {s.floats} {s.marks}),
        Kept::Shared => call!(lp_structure_shared: [m.rows()] (m.starts()) (m.columns()) (o.rows()) (o.columns())
            {l.starts} {l.runs} {l.index} {values.lower} {u.starts} {u.runs} {u.index} {values.upper}
            {s.floats} {s.marks}),
    }
}

/// The structure in the shared form, and its fill sheet.
pub(crate) fn fill_sheet(
    asked: Asked,
    lists: &mut Pair,
    values: &mut Values,
    s: &mut Scratch,
    sheet: &mut [u8],
) -> Answer {
    let (m, o) = (asked.matrix, asked.orders);
    let (l, u) = (&mut lists.lower, &mut lists.upper);
    call!(lp_fill_sheet: [m.rows()] (m.starts()) (m.columns()) (o.rows()) (o.columns())
        {l.starts} {l.runs} {l.index} {values.lower} {u.starts} {u.runs} {u.index} {values.upper}
        {s.floats} {s.marks} {sheet})
}

/// Structure, factors and one solution.
pub(crate) fn solve(
    form: Kept,
    asked: Equations,
    floor: f64,
    lists: &mut Pair,
    values: &mut Values,
    x: &mut [f64],
    s: &mut Scratch,
) -> Answer {
    let (m, o, b) = (asked.matrix, asked.orders, asked.right);
    let (l, u, v) = (&mut lists.lower, &mut lists.upper, values);
    match form {
        Kept::Plain => call!(lp_solve_plain: [m.rows()] (m.starts()) (m.columns()) (m.values())
            (o.rows()) (o.columns()) (b) [floor] {l.starts} {l.index} {v.lower} {u.starts} {u.index} {v.upper}
            {v.d} {x} {s.floats} {s.marks}),
        Kept::Shared => call!(lp_solve_shared: [m.rows()] (m.starts()) (m.columns()) (m.values())
            (o.rows()) (o.columns()) (b) [floor] {l.starts} {l.runs} {l.index} {v.lower}
            {u.starts} {u.runs} {u.index} {v.upper} {v.d} {x} {s.floats} {s.marks}),
    }
}

/// One solution in the row form; lower values are not lent.
pub(crate) fn solve_row(
    asked: Equations,
    floor: f64,
    upper: &mut Lists,
    values: &mut Values,
    x: &mut [f64],
    s: &mut Scratch,
) -> Answer {
    let (m, o, b) = (asked.matrix, asked.orders, asked.right);
    call!(lp_solve_row: [m.rows()] (m.starts()) (m.columns()) (m.values()) (o.rows()) (o.columns()) (b) [floor]
        {upper.starts} {upper.runs} {upper.index} {values.upper} {values.d} {x} {s.floats} {s.marks})
}

/// New values over lists found before.
pub(crate) fn refactor(
    form: Kept,
    asked: Equations,
    floor: f64,
    lists: &Pair,
    values: &mut Values,
    x: &mut [f64],
    s: &mut Scratch,
) -> Answer {
    let (m, o, b) = (asked.matrix, asked.orders, asked.right);
    let (l, u, v) = (&lists.lower, &lists.upper, values);
    match form {
        Kept::Plain => call!(lp_refactor_plain: [m.rows()] (m.starts()) (m.columns()) (m.values())
            (o.rows()) (o.columns()) (b) [floor] (l.starts) (l.index) {v.lower} (u.starts) (u.index) {v.upper}
            {v.d} {x} {s.floats} {s.marks}),
        Kept::Shared => call!(lp_refactor_shared: [m.rows()] (m.starts()) (m.columns()) (m.values())
            (o.rows()) (o.columns()) (b) [floor] (l.starts) (l.runs) (l.index) {v.lower}
            (u.starts) (u.runs) (u.index) {v.upper} {v.d} {x} {s.floats} {s.marks}),
    }
}

/// Another right side over factors found before; x has as many slots as there are rows.
pub(crate) fn resolve(
    form: Kept,
    o: &Orders,
    b: &[f64],
    lists: &Pair,
    v: &Values,
    x: &mut [f64],
    s: &mut Scratch,
) -> Answer {
    let (l, u, n) = (&lists.lower, &lists.upper, x.len());
    match form {
        Kept::Plain => call!(lp_resolve_plain: [n] (o.rows()) (o.columns()) (b)
            (l.starts) (l.index) (v.lower) (u.starts) (u.index) (v.upper) (v.d) {x} {s.floats} {s.marks}),
        Kept::Shared => call!(lp_resolve_shared: [n] (o.rows()) (o.columns()) (b)
            (l.starts) (l.runs) (l.index) (v.lower) (u.starts) (u.runs) (u.index) (v.upper)
            (v.d) {x} {s.floats} {s.marks}),
    }
}

/// Start and length of a list within its index store.
pub(crate) fn list(form: Kept, side: Side, place: usize, n: usize, lists: &Pair) -> (usize, usize) {
    let (l, u) = (&lists.lower, &lists.upper);
    let side = match side {
        Side::Lower => 0,
        Side::Upper => 1,
    };
    let answer = match form {
        Kept::Plain => call!(lp_list_plain: [side] [place] [n] (l.starts) (l.index) (u.starts) (u.index)),
        Kept::Shared => call!(lp_list_shared: [side] [place] [n]
            (l.starts) (l.runs) (l.index) (u.starts) (u.runs) (u.index)),
    };
    (answer.report[0] as usize, answer.report[1] as usize)
}

/// What the library answers to a number of rows, before it asks anything else: 1, or else 2.
pub(crate) fn ask_rows(n: usize) -> Answer {
    let (none16, none32, nothing): ([u16; 0], [u32; 0], [f64; 0]) = ([], [], []);
    let mut file: [u8; 0] = [];
    call!(lp_write_matrix: [n] (none32) (none16) (nothing) (none16) (none16) (nothing) {file})
}

/// n and e of a matrix file.
pub(crate) fn file_shape(file: &[u8]) -> Answer {
    call!(lp_file_shape: (file))
}

/// The parts of a system: what a matrix file holds.
#[derive(Default)]
pub(crate) struct Parts {
    pub starts: Vec<u32>,
    pub columns: Vec<u16>,
    pub values: Vec<f64>,
    pub rows: Vec<u16>,
    pub order: Vec<u16>,
    pub right: Vec<f64>,
}

impl Parts {
    /// Zeros for n rows and so many entries.
    pub fn new(n: usize, entries: usize) -> Parts {
        Parts {
            starts: vec![0; n + 1],
            columns: vec![0; entries],
            values: vec![0.0; entries],
            rows: vec![0; n],
            order: vec![0; n],
            right: vec![0.0; n],
        }
    }

    /// Cuts columns and values to the first e entries.
    pub fn cut(&mut self, e: usize) {
        self.columns.truncate(e);
        self.columns.shrink_to_fit();
        self.values.truncate(e);
        self.values.shrink_to_fit();
    }
}

/// Reads a matrix file into parts of the lengths that it holds.
pub(crate) fn read_matrix(file: &[u8], p: &mut Parts) -> Answer {
    call!(lp_read_matrix: (file) {p.starts} {p.columns} {p.values} {p.rows} {p.order} {p.right})
}

/// Writes a matrix file.
pub(crate) fn write_matrix(asked: Equations, file: &mut [u8]) -> Answer {
    let (m, o, b) = (asked.matrix, asked.orders, asked.right);
    call!(lp_write_matrix: [m.rows()] (m.starts()) (m.columns()) (m.values()) (o.rows()) (o.columns()) (b) {file})
}

/// n, lower and upper of a factor file.
pub(crate) fn factor_shape(file: &[u8]) -> Answer {
    call!(lp_factor_shape: (file))
}

/// Reads a factor file into orders, lists and values of the lengths that it holds; the answer has the counts.
pub(crate) fn read_factors(
    file: &[u8],
    rows: &mut [u16],
    columns: &mut [u16],
    lists: &mut Pair,
    v: &mut Values,
) -> Answer {
    let (l, u) = (&mut lists.lower, &mut lists.upper);
    call!(lp_read_factors: (file) {rows} {columns} {l.starts} {l.index} {v.lower} {u.starts} {u.index} {v.upper} {v.d})
}

/// Writes a factor file.
pub(crate) fn write_factors(n: usize, counts: Counts, o: &Orders, lists: &Pair, v: &Values, file: &mut [u8]) -> Answer {
    let (l, u) = (&lists.lower, &lists.upper);
    call!(lp_write_factors: [n] [counts.lower] [counts.upper] [counts.products] (o.rows()) (o.columns())
        (l.starts) (l.index) (v.lower) (u.starts) (u.index) (v.upper) (v.d) {file})
}

/// Makes a test load in parts with room for 4n entries; report[1] is how many it has.
pub(crate) fn test_load(n: usize, seed: u16, p: &mut Parts) -> Answer {
    call!(lp_test_load: [n] [seed] {p.starts} {p.columns} {p.values} {p.rows} {p.order} {p.right})
}

/// The residual and the width of a row, put into the pair.
pub(crate) fn residual(m: &Matrix, right: &[f64], x: &[f64], row: u32, pair: &mut [f64; 2]) -> Answer {
    call!(lp_residual: [m.rows()] (m.starts()) (m.columns()) (m.values()) (right) (x) [row] {pair})
}
