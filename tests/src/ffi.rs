//! The C interface of the library (include/lilacpliers.h, include/lilacpliers_residual.h), and safe calls of it that
//! watch the slots around every lent buffer.
use crate::compare::{self, differ, Compared, Difference};
use crate::model::*;
use crate::reference::Lists;
use std::cell::Cell;

/// The functions as the headers declare them: `lent` and `out` stand for a pointer and a length, `count` for a number of
/// 64 bits, `real` for a double.
pub mod raw {
    macro_rules! declare {
        ($name:ident [$($done:tt)*]) => { extern "C" { pub fn $name($($done)*) -> u32; } };
        ($name:ident [$($done:tt)*] $arg:ident: size, $($rest:tt)*) => {
            declare! { $name [$($done)* $arg: usize,] $($rest)* }
        };
        ($name:ident [$($done:tt)*] $arg:ident: number, $($rest:tt)*) => {
            declare! { $name [$($done)* $arg: u32,] $($rest)* }
        };
        ($name:ident [$($done:tt)*] $arg:ident: count, $($rest:tt)*) => {
            declare! { $name [$($done)* $arg: u64,] $($rest)* }
        };
        ($name:ident [$($done:tt)*] $arg:ident: short, $($rest:tt)*) => {
            declare! { $name [$($done)* $arg: u16,] $($rest)* }
        };
        ($name:ident [$($done:tt)*] $arg:ident: real, $($rest:tt)*) => {
            declare! { $name [$($done)* $arg: f64,] $($rest)* }
        };
        ($name:ident [$($done:tt)*] $arg:ident: lent $kind:ty, $($rest:tt)*) => {
            declare! { $name [$($done)* $arg: *const $kind, _: usize,] $($rest)* }
        };
        ($name:ident [$($done:tt)*] $arg:ident: out $kind:ty, $($rest:tt)*) => {
            declare! { $name [$($done)* $arg: *mut $kind, _: usize,] $($rest)* }
        };
    }

    declare! { lp_structure_plain [] n: size, starts: lent u32, columns: lent u16, r: lent u16, c: lent u16,
    lower_starts: out u32, lower_index: out u16, lower_values: out f64,
    upper_starts: out u32, upper_index: out u16, upper_values: out f64,
    scratch_f64: out f64, scratch_u32: out u32, report: out u64, }

    declare! { lp_structure_shared [] n: size, starts: lent u32, columns: lent u16, r: lent u16, c: lent u16,
    lower_starts: out u32, lower_runs: out u32, lower_index: out u16, lower_values: out f64,
    upper_starts: out u32, upper_runs: out u32, upper_index: out u16, upper_values: out f64,
    scratch_f64: out f64, scratch_u32: out u32, report: out u64, }

    declare! { lp_fill_sheet [] n: size, starts: lent u32, columns: lent u16, r: lent u16, c: lent u16,
    lower_starts: out u32, lower_runs: out u32, lower_index: out u16, lower_values: out f64,
    upper_starts: out u32, upper_runs: out u32, upper_index: out u16, upper_values: out f64,
    scratch_f64: out f64, scratch_u32: out u32, sheet: out u8, report: out u64, }

    declare! { lp_solve_plain [] n: size, starts: lent u32, columns: lent u16, values: lent f64,
    r: lent u16, c: lent u16, b: lent f64, floor: real,
    lower_starts: out u32, lower_index: out u16, lower_values: out f64,
    upper_starts: out u32, upper_index: out u16, upper_values: out f64,
    d: out f64, x: out f64, scratch_f64: out f64, scratch_u32: out u32, report: out u64, }

    declare! { lp_solve_shared [] n: size, starts: lent u32, columns: lent u16, values: lent f64,
    r: lent u16, c: lent u16, b: lent f64, floor: real,
    lower_starts: out u32, lower_runs: out u32, lower_index: out u16, lower_values: out f64,
    upper_starts: out u32, upper_runs: out u32, upper_index: out u16, upper_values: out f64,
    d: out f64, x: out f64, scratch_f64: out f64, scratch_u32: out u32, report: out u64, }

    declare! { lp_solve_row [] n: size, starts: lent u32, columns: lent u16, values: lent f64,
    r: lent u16, c: lent u16, b: lent f64, floor: real,
    upper_starts: out u32, upper_runs: out u32, upper_index: out u16, upper_values: out f64,
    d: out f64, x: out f64, scratch_f64: out f64, scratch_u32: out u32, report: out u64, }

    declare! { lp_refactor_plain [] n: size, starts: lent u32, columns: lent u16, values: lent f64,
    r: lent u16, c: lent u16, b: lent f64, floor: real,
    lower_starts: lent u32, lower_index: lent u16, lower_values: out f64,
    upper_starts: lent u32, upper_index: lent u16, upper_values: out f64,
    d: out f64, x: out f64, scratch_f64: out f64, scratch_u32: out u32, report: out u64, }

    declare! { lp_refactor_shared [] n: size, starts: lent u32, columns: lent u16, values: lent f64,
    r: lent u16, c: lent u16, b: lent f64, floor: real,
    lower_starts: lent u32, lower_runs: lent u32, lower_index: lent u16, lower_values: out f64,
    upper_starts: lent u32, upper_runs: lent u32, upper_index: lent u16, upper_values: out f64,
    d: out f64, x: out f64, scratch_f64: out f64, scratch_u32: out u32, report: out u64, }

    declare! { lp_resolve_plain [] n: size, r: lent u16, c: lent u16, b: lent f64,
    lower_starts: lent u32, lower_index: lent u16, lower_values: lent f64,
    upper_starts: lent u32, upper_index: lent u16, upper_values: lent f64,
    d: lent f64, x: out f64, scratch_f64: out f64, scratch_u32: out u32, report: out u64, }

    declare! { lp_resolve_shared [] n: size, r: lent u16, c: lent u16, b: lent f64,
    lower_starts: lent u32, lower_runs: lent u32, lower_index: lent u16, lower_values: lent f64,
    upper_starts: lent u32, upper_runs: lent u32, upper_index: lent u16, upper_values: lent f64,
    d: lent f64, x: out f64, scratch_f64: out f64, scratch_u32: out u32, report: out u64, }

    declare! { lp_list_plain [] side: number, place: size, n: size,
    lower_starts: lent u32, lower_index: lent u16, upper_starts: lent u32, upper_index: lent u16, report: out u64, }

    declare! { lp_list_shared [] side: number, place: size, n: size,
    lower_starts: lent u32, lower_runs: lent u32, lower_index: lent u16,
    upper_starts: lent u32, upper_runs: lent u32, upper_index: lent u16, report: out u64, }

    declare! { lp_file_shape [] file: lent u8, report: out u64, }

    declare! { lp_read_matrix [] file: lent u8, starts: out u32, columns: out u16, values: out f64,
    r: out u16, c: out u16, b: out f64, report: out u64, }

    declare! { lp_write_matrix [] n: size, starts: lent u32, columns: lent u16, values: lent f64,
    r: lent u16, c: lent u16, b: lent f64, file: out u8, report: out u64, }

    declare! { lp_factor_shape [] file: lent u8, report: out u64, }

    declare! { lp_read_factors [] file: lent u8, r: out u16, c: out u16,
    lower_starts: out u32, lower_index: out u16, lower_values: out f64,
    upper_starts: out u32, upper_index: out u16, upper_values: out f64,
    d: out f64, report: out u64, }

    declare! { lp_write_factors [] n: size, lower: count, upper: count, products: count, r: lent u16, c: lent u16,
    lower_starts: lent u32, lower_index: lent u16, lower_values: lent f64,
    upper_starts: lent u32, upper_index: lent u16, upper_values: lent f64,
    d: lent f64, file: out u8, report: out u64, }

    declare! { lp_test_load [] n: size, seed: short, starts: out u32, columns: out u16, values: out f64,
    r: out u16, c: out u16, b: out f64, report: out u64, }

    declare! { lp_residual [] n: size, starts: lent u32, columns: lent u16, values: lent f64, b: lent f64, x: lent f64,
    row: number, pair: out f64, report: out u64, }
}

/// Calls a raw function: `[number]`s pass as they are, buffers as a pointer and a length.
macro_rules! call {
    (@ $name:ident ($($done:tt)*)) => { unsafe { raw::$name($($done)*) } };
    (@ $name:ident ($($done:tt)*) [$number:expr] $($rest:tt)*) => { call!(@ $name ($($done)* $number,) $($rest)*) };
    (@ $name:ident ($($done:tt)*) ($buffer:expr) $($rest:tt)*) => {
        call!(@ $name ($($done)* $buffer.pointer(), $buffer.length(),) $($rest)*)
    };
    ($name:ident: $($given:tt)*) => { call!(@ $name () $($given)*) };
}

const MARGIN: usize = 16;

thread_local! {
    static NULLS: Cell<bool> = const { Cell::new(false) };
}

/// From now on a buffer of length 0 is lent as NULL, or else as a place between its margins.
pub fn lend_nulls(nulls: bool) {
    NULLS.set(nulls);
}

/// A copy of a lent buffer with slots on both sides that no call may touch.
struct Guarded<T> {
    cells: Vec<T>,
    canary: T,
}

impl<T: Copy + PartialEq> Guarded<T> {
    fn new(contents: &[T], canary: T) -> Guarded<T> {
        let mut cells = vec![canary; MARGIN];
        cells.extend_from_slice(contents);
        cells.extend(vec![canary; MARGIN]);
        Guarded { cells, canary }
    }

    fn pointer(&mut self) -> *mut T {
        if NULLS.get() && self.length() == 0 {
            return std::ptr::null_mut();
        }
        self.cells[MARGIN..].as_mut_ptr()
    }

    fn length(&self) -> usize {
        self.cells.len() - 2 * MARGIN
    }

    fn contents(&self) -> Vec<T> {
        self.cells[MARGIN..self.cells.len() - MARGIN].to_vec()
    }

    /// What the buffer holds now.
    fn back(&self, name: &str) -> Result<Vec<T>, Difference> {
        self.intact(name)?;
        Ok(self.contents())
    }

    fn intact(&self, name: &str) -> Compared {
        let end = self.cells.len() - MARGIN;
        let around = self.cells[..MARGIN].iter().chain(&self.cells[end..]);
        if around.into_iter().all(|cell| *cell == self.canary) {
            return Ok(());
        }
        differ(format!("slots around {name}"), "written", "untouched")
    }
}

fn guard_u16(list: &[u16]) -> Guarded<u16> {
    Guarded::new(list, 0xA5C3)
}

fn guard_u32(list: &[u32]) -> Guarded<u32> {
    Guarded::new(list, 0xA5C3_5A3C)
}

fn guard_u64(list: &[u64]) -> Guarded<u64> {
    Guarded::new(list, 0xA5C3_5A3C_0FF0_1234)
}

fn guard_f64(list: &[f64]) -> Guarded<f64> {
    Guarded::new(list, 1.2345e-67)
}

fn guard_u8(list: &[u8]) -> Guarded<u8> {
    Guarded::new(list, 0xA5)
}

struct GuardedInput {
    starts: Guarded<u32>,
    columns: Guarded<u16>,
    values: Guarded<f64>,
    r: Guarded<u16>,
    c: Guarded<u16>,
    b: Guarded<f64>,
    floor: f64,
}

impl GuardedInput {
    fn new(input: &Input) -> GuardedInput {
        GuardedInput {
            starts: guard_u32(&input.starts),
            columns: guard_u16(&input.columns),
            values: guard_f64(&input.values),
            r: guard_u16(&input.r),
            c: guard_u16(&input.c),
            b: guard_f64(&input.b),
            floor: input.floor,
        }
    }

    fn back(&self, n: usize) -> Result<Input, Difference> {
        self.starts.intact("starts")?;
        self.columns.intact("columns")?;
        self.values.intact("values")?;
        self.r.intact("r")?;
        self.c.intact("c")?;
        self.b.intact("b")?;
        Ok(Input {
            n,
            starts: self.starts.contents(),
            columns: self.columns.contents(),
            values: self.values.contents(),
            r: self.r.contents(),
            c: self.c.contents(),
            b: self.b.contents(),
            floor: self.floor,
        })
    }

    /// What is only lent must come back as it was.
    fn unchanged(&self, input: &Input) -> Compared {
        compare::matrices(&self.back(input.n)?, input, false)
    }
}

struct GuardedStore {
    starts: Guarded<u32>,
    runs: Guarded<u32>,
    index: Guarded<u16>,
    values: Guarded<f64>,
}

impl GuardedStore {
    fn new(store: &Store) -> GuardedStore {
        GuardedStore {
            starts: guard_u32(&store.starts),
            runs: guard_u32(&store.runs),
            index: guard_u16(&store.index),
            values: guard_f64(&store.values),
        }
    }

    fn back(&self, side: &str) -> Result<Store, Difference> {
        self.starts.intact(&format!("{side} list starts"))?;
        self.runs.intact(&format!("{side} run starts"))?;
        self.index.intact(&format!("{side} index store"))?;
        self.values.intact(&format!("{side} value store"))?;
        Ok(Store {
            starts: self.starts.contents(),
            runs: self.runs.contents(),
            index: self.index.contents(),
            values: self.values.contents(),
        })
    }
}

struct GuardedKeeping {
    r: Guarded<u16>,
    c: Guarded<u16>,
    l: GuardedStore,
    u: GuardedStore,
    d: Guarded<f64>,
}

impl GuardedKeeping {
    fn new(kept: &Keeping) -> GuardedKeeping {
        GuardedKeeping {
            r: guard_u16(&kept.r),
            c: guard_u16(&kept.c),
            l: GuardedStore::new(&kept.lower),
            u: GuardedStore::new(&kept.upper),
            d: guard_f64(&kept.d),
        }
    }

    /// What the buffers hold now; n and the counts are those of what was lent.
    fn back(&self, lent: &Keeping) -> Result<Keeping, Difference> {
        self.r.intact("r")?;
        self.c.intact("c")?;
        self.d.intact("d")?;
        Ok(Keeping {
            n: lent.n,
            counts: lent.counts,
            r: self.r.contents(),
            c: self.c.contents(),
            lower: self.l.back("lower")?,
            upper: self.u.back("upper")?,
            d: self.d.contents(),
        })
    }
}

struct GuardedBuffers {
    l: GuardedStore,
    u: GuardedStore,
    d: Guarded<f64>,
    x: Guarded<f64>,
    sf: Guarded<f64>,
    su: Guarded<u32>,
}

impl GuardedBuffers {
    fn new(buffers: &Buffers) -> GuardedBuffers {
        GuardedBuffers {
            l: GuardedStore::new(&buffers.lower),
            u: GuardedStore::new(&buffers.upper),
            d: guard_f64(&buffers.d),
            x: guard_f64(&buffers.x),
            sf: guard_f64(&buffers.scratch_f64),
            su: guard_u32(&buffers.scratch_u32),
        }
    }

    fn back(&self) -> Result<Buffers, Difference> {
        self.d.intact("d")?;
        self.x.intact("x")?;
        self.sf.intact("scratch f64")?;
        self.su.intact("scratch u32")?;
        Ok(Buffers {
            lower: self.l.back("lower")?,
            upper: self.u.back("upper")?,
            d: self.d.contents(),
            x: self.x.contents(),
            scratch_f64: self.sf.contents(),
            scratch_u32: self.su.contents(),
        })
    }
}

const UNSET: u64 = 0xDEAD_BEEF_DEAD_BEEF;

/// A report of some slots; those beyond the `filled` first must stay as they were.
struct Report {
    slots: Guarded<u64>,
    filled: usize,
}

impl Report {
    fn new(length: usize, filled: usize) -> Report {
        Report { slots: guard_u64(&vec![UNSET; length]), filled }
    }

    fn pointer(&mut self) -> *mut u64 {
        self.slots.pointer()
    }

    fn length(&self) -> usize {
        self.slots.length()
    }

    /// The slots a call fills; 0 for those that the report is too short for.
    fn read(&self) -> Result<[u64; 4], Difference> {
        self.slots.intact("report")?;
        let slots = self.slots.contents();
        if let Some(slot) = slots.iter().skip(4).position(|&v| v != UNSET) {
            return differ(format!("report[{}]", slot + 4), slots[slot + 4], "untouched");
        }
        let mut found = [0; 4];
        for (to, from) in found.iter_mut().zip(&slots).take(self.filled) {
            *to = *from;
        }
        Ok(found)
    }
}

/// The answer in a report: place, and counts where the call has them.
fn answer(number: u32, report: &Report) -> Result<Answer, Difference> {
    let [place, lower, upper, products] = report.read()?;
    Ok(Answer { number, place, counts: Counts { lower, upper, products } })
}

/// The calls that the library exports.
pub const EXPORTED: [Call; 9] = CALLS;

/// How many report slots a call fills.
fn filled(call: Call) -> usize {
    match call {
        Call::Structure(_) | Call::Solve(_) => 4,
        Call::Refactor(_) | Call::Resolve(_) => 1,
    }
}

/// Everything that a call of the library is lent, ready to be run as often as one likes.
pub struct Loan {
    call: Call,
    n: usize,
    lent: GuardedInput,
    given: GuardedBuffers,
    report: Report,
}

impl Loan {
    /// Copies of all buffers; `report` is the length of the report.
    pub fn new(call: Call, input: &Input, buffers: &Buffers, report: usize) -> Loan {
        Loan {
            call,
            n: input.n,
            lent: GuardedInput::new(input),
            given: GuardedBuffers::new(buffers),
            report: Report::new(report, filled(call)),
        }
    }

    /// Runs the call itself and nothing else, and returns its number.
    pub fn run(&mut self) -> u32 {
        let (n, lent, given, report) = (self.n, &mut self.lent, &mut self.given, &mut self.report);
        match self.call {
            Call::Structure(form) => structure(form, n, lent, given, report),
            Call::Solve(form) => solve(form, n, lent, given, report),
            Call::Refactor(form) => refactor(form, n, lent, given, report),
            Call::Resolve(form) => resolve(form, n, lent, given, report),
        }
    }

    /// What the buffers hold now.
    pub fn buffers(&self) -> Result<Buffers, Difference> {
        self.given.back()
    }

    /// The answer of the last run.
    pub fn answer(&self, number: u32) -> Result<Answer, Difference> {
        answer(number, &self.report)
    }
}

/// Runs a call of the library; `report` is the length of the report lent to it.
pub fn run(call: Call, input: &Input, buffers: &mut Buffers, report: usize) -> Result<Answer, Difference> {
    let mut loan = Loan::new(call, input, buffers, report);
    let number = loan.run();
    loan.lent.unchanged(input)?;
    *buffers = loan.buffers()?;
    loan.answer(number)
}

fn structure(form: Form, n: usize, m: &mut GuardedInput, g: &mut GuardedBuffers, report: &mut Report) -> u32 {
    match form {
        Form::Plain => call!(lp_structure_plain: [n] (m.starts) (m.columns) (m.r) (m.c)
            (g.l.starts) (g.l.index) (g.l.values) (g.u.starts) (g.u.index) (g.u.values) (g.sf) (g.su) (report)),
        Form::Shared => call!(lp_structure_shared: [n] (m.starts) (m.columns) (m.r) (m.c)
            (g.l.starts) (g.l.runs) (g.l.index) (g.l.values) (g.u.starts) (g.u.runs) (g.u.index) (g.u.values)
            (g.sf) (g.su) (report)),
        Form::Row => unreachable!("the row form has no structure call"),
    }
}

fn solve(form: Form, n: usize, m: &mut GuardedInput, g: &mut GuardedBuffers, report: &mut Report) -> u32 {
    match form {
        Form::Plain => call!(lp_solve_plain: [n] (m.starts) (m.columns) (m.values) (m.r) (m.c) (m.b) [m.floor]
            (g.l.starts) (g.l.index) (g.l.values) (g.u.starts) (g.u.index) (g.u.values)
            (g.d) (g.x) (g.sf) (g.su) (report)),
        Form::Shared => call!(lp_solve_shared: [n] (m.starts) (m.columns) (m.values) (m.r) (m.c) (m.b) [m.floor]
            (g.l.starts) (g.l.runs) (g.l.index) (g.l.values) (g.u.starts) (g.u.runs) (g.u.index) (g.u.values)
            (g.d) (g.x) (g.sf) (g.su) (report)),
        Form::Row => call!(lp_solve_row: [n] (m.starts) (m.columns) (m.values) (m.r) (m.c) (m.b) [m.floor]
            (g.u.starts) (g.u.runs) (g.u.index) (g.u.values) (g.d) (g.x) (g.sf) (g.su) (report)),
    }
}

fn refactor(form: Form, n: usize, m: &mut GuardedInput, g: &mut GuardedBuffers, report: &mut Report) -> u32 {
    match form {
        Form::Plain => call!(lp_refactor_plain: [n] (m.starts) (m.columns) (m.values) (m.r) (m.c) (m.b) [m.floor]
            (g.l.starts) (g.l.index) (g.l.values) (g.u.starts) (g.u.index) (g.u.values)
            (g.d) (g.x) (g.sf) (g.su) (report)),
        Form::Shared => call!(lp_refactor_shared: [n] (m.starts) (m.columns) (m.values) (m.r) (m.c) (m.b) [m.floor]
            (g.l.starts) (g.l.runs) (g.l.index) (g.l.values) (g.u.starts) (g.u.runs) (g.u.index) (g.u.values)
            (g.d) (g.x) (g.sf) (g.su) (report)),
        Form::Row => unreachable!("the row form has no refactor call"),
    }
}

fn resolve(form: Form, n: usize, m: &mut GuardedInput, g: &mut GuardedBuffers, report: &mut Report) -> u32 {
    match form {
        Form::Plain => call!(lp_resolve_plain: [n] (m.r) (m.c) (m.b)
            (g.l.starts) (g.l.index) (g.l.values) (g.u.starts) (g.u.index) (g.u.values)
            (g.d) (g.x) (g.sf) (g.su) (report)),
        Form::Shared => call!(lp_resolve_shared: [n] (m.r) (m.c) (m.b)
            (g.l.starts) (g.l.runs) (g.l.index) (g.l.values) (g.u.starts) (g.u.runs) (g.u.index) (g.u.values)
            (g.d) (g.x) (g.sf) (g.su) (report)),
        Form::Row => unreachable!("the row form has no call for another right side"),
    }
}

/// Looks a list up: offset and length of its part of the index store.
pub fn lookup(lists: &Lists, side: Side, place: usize) -> Result<(usize, usize), Difference> {
    let mut l = GuardedStore::new(&lists.lower);
    let mut u = GuardedStore::new(&lists.upper);
    let mut report = Report::new(2, 2);
    let side = match side {
        Side::Lower => 0,
        Side::Upper => 1,
    };
    let number = match lists.form {
        Form::Plain => call!(lp_list_plain: [side] [place] [lists.n]
            (l.starts) (l.index) (u.starts) (u.index) (report)),
        _ => call!(lp_list_shared: [side] [place] [lists.n]
            (l.starts) (l.runs) (l.index) (u.starts) (u.runs) (u.index) (report)),
    };
    compare::same("number", &number, &0)?;
    l.back("lower")?;
    u.back("upper")?;
    let [offset, length, ..] = report.read()?;
    Ok((offset as usize, length as usize))
}

/// A file that is only read must come back as it was.
fn unchanged_file(lent: &Guarded<u8>, file: &[u8]) -> Compared {
    compare::numbers("file", &lent.back("file")?, file)
}

/// Finds n and e of a matrix file, or its refusal.
pub fn shape(file: &[u8]) -> Result<Result<(usize, usize), Refusal>, Difference> {
    let mut lent = guard_u8(file);
    let mut report = Report::new(4, 3);
    let number = call!(lp_file_shape: (lent) (report));
    unchanged_file(&lent, file)?;
    let [place, n, e, _] = report.read()?;
    if number == 0 {
        return Ok(Ok((n as usize, e as usize)));
    }
    compare::same("n and e after a refusal", &(n, e), &(0, 0))?;
    Ok(Err(Refusal { number, place }))
}

/// Reads a matrix file into the lent buffers.
pub fn read(file: &[u8], matrix: &mut Input) -> Result<Answer, Difference> {
    let mut lent = guard_u8(file);
    let mut m = GuardedInput::new(matrix);
    let mut report = Report::new(4, 1);
    let number = call!(lp_read_matrix: (lent) (m.starts) (m.columns) (m.values) (m.r) (m.c) (m.b) (report));
    unchanged_file(&lent, file)?;
    *matrix = m.back(matrix.n)?;
    answer(number, &report)
}

/// Writes a matrix file into the lent bytes.
pub fn write(matrix: &Input, file: &mut Vec<u8>) -> Result<Answer, Difference> {
    let mut out = guard_u8(file);
    let mut m = GuardedInput::new(matrix);
    let mut report = Report::new(4, 1);
    let number = call!(lp_write_matrix: [matrix.n] (m.starts) (m.columns) (m.values) (m.r) (m.c) (m.b) (out) (report));
    m.unchanged(matrix)?;
    *file = out.back("file")?;
    answer(number, &report)
}

/// Finds n, lower and upper of a factor file; the report is a buffer like the others here.
pub fn factor_shape(file: &[u8], report: &mut Vec<u64>) -> Result<u32, Difference> {
    let mut lent = guard_u8(file);
    let mut slots = guard_u64(report);
    let number = call!(lp_factor_shape: (lent) (slots));
    unchanged_file(&lent, file)?;
    *report = slots.back("report")?;
    Ok(number)
}

/// Reads a factor file into the lent buffers.
pub fn read_factors(file: &[u8], kept: &mut Keeping, report: &mut Vec<u64>) -> Result<u32, Difference> {
    let mut lent = guard_u8(file);
    let mut k = GuardedKeeping::new(kept);
    let mut slots = guard_u64(report);
    let number = call!(lp_read_factors: (lent) (k.r) (k.c)
        (k.l.starts) (k.l.index) (k.l.values) (k.u.starts) (k.u.index) (k.u.values) (k.d) (slots));
    unchanged_file(&lent, file)?;
    *kept = k.back(kept)?;
    *report = slots.back("report")?;
    Ok(number)
}

/// Writes a factor file into the lent bytes; what is only lent must come back as it was.
pub fn write_factors(kept: &Keeping, file: &mut Vec<u8>, report: &mut Vec<u64>) -> Result<u32, Difference> {
    let mut out = guard_u8(file);
    let mut k = GuardedKeeping::new(kept);
    let mut slots = guard_u64(report);
    let Counts { lower, upper, products } = kept.counts;
    let number = call!(lp_write_factors: [kept.n] [lower] [upper] [products] (k.r) (k.c)
        (k.l.starts) (k.l.index) (k.l.values) (k.u.starts) (k.u.index) (k.u.values) (k.d) (out) (slots));
    compare::kept(&k.back(kept)?, kept)?;
    *file = out.back("file")?;
    *report = slots.back("report")?;
    Ok(number)
}

/// Makes a test load of `matrix.n` rows in the lent buffers; the report is a buffer like the others here.
pub fn load(seed: u16, matrix: &mut Input, report: &mut Vec<u64>) -> Result<u32, Difference> {
    let mut m = GuardedInput::new(matrix);
    let mut slots = guard_u64(report);
    let number = call!(lp_test_load: [matrix.n] [seed] (m.starts) (m.columns) (m.values) (m.r) (m.c) (m.b) (slots));
    *matrix = m.back(matrix.n)?;
    *report = slots.back("report")?;
    Ok(number)
}

/// Finds the shared structure in the lent buffers and prints its fill; what is only lent must come back as it was.
pub fn sheet(lent: &mut Printing) -> Result<u32, Difference> {
    let mut m = GuardedInput::new(&lent.input);
    let mut g = GuardedBuffers::new(&lent.buffers);
    let mut out = guard_u8(&lent.sheet);
    let mut slots = guard_u64(&lent.report);
    let number = call!(lp_fill_sheet: [lent.input.n] (m.starts) (m.columns) (m.r) (m.c)
        (g.l.starts) (g.l.runs) (g.l.index) (g.l.values) (g.u.starts) (g.u.runs) (g.u.index) (g.u.values)
        (g.sf) (g.su) (out) (slots));
    m.unchanged(&lent.input)?;
    lent.buffers = g.back()?;
    lent.sheet = out.back("sheet")?;
    lent.report = slots.back("report")?;
    Ok(number)
}

/// Finds the residual and the width of a row; what is only lent must come back as it was.
pub fn residual(lent: &mut Checking) -> Result<u32, Difference> {
    let mut m = GuardedInput::new(&lent.input);
    let mut x = guard_f64(&lent.x);
    let mut pair = guard_f64(&lent.pair);
    let mut slots = guard_u64(&lent.report);
    let number = call!(lp_residual: [lent.input.n] (m.starts) (m.columns) (m.values) (m.b) (x) [lent.row]
        (pair) (slots));
    m.unchanged(&lent.input)?;
    x.intact("x")?;
    compare::floats("x", &x.contents(), &lent.x)?;
    pair.intact("pair")?;
    lent.pair = pair.contents();
    slots.intact("report")?;
    lent.report = slots.contents();
    Ok(number)
}
