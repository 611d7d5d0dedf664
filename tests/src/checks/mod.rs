//! The checks, and who is checked: the reference itself, or the library behind the C interface.
pub mod cases;
pub mod consistency;
pub mod faults;
pub mod files;
pub mod floors;
pub mod forms;
pub mod header;
pub mod kept;
pub mod known;
pub mod loads;
pub mod nulls;
#[cfg(all(feature = "standin", not(feature = "library")))]
pub mod planted;
pub mod printed;
pub mod repeats;
pub mod residuals;
pub mod sheets;
pub mod signatures;

use crate::compare::{Compared, Difference};
use crate::model::*;
use crate::reference::{self, factor_file, fill_sheet, matrix_file, residual, test_load, Lists};
use std::process::ExitCode;

/// How many checks passed and failed. The first failures are printed as they come.
pub struct Tally {
    pub passed: u64,
    pub failed: u64,
    /// How many failures are printed.
    shown: u64,
}

impl Default for Tally {
    fn default() -> Tally {
        Tally { passed: 0, failed: 0, shown: 40 }
    }
}

impl Tally {
    /// A tally that prints no failures, where they are expected.
    pub fn silent() -> Tally {
        Tally { shown: 0, ..Tally::default() }
    }

    /// Counts one check; its name is made only where it is printed.
    pub fn add(&mut self, name: impl FnOnce() -> String, result: Compared) {
        match result {
            Ok(()) => self.passed += 1,
            Err(difference) => {
                self.failed += 1;
                if self.failed <= self.shown {
                    println!("FAILED {}: {difference}", name());
                }
            }
        }
    }

    /// Prints the closing line; the exit status is a failure where a check failed.
    pub fn close(&self) -> ExitCode {
        println!("{} passed, {} failed", self.passed, self.failed);
        if self.failed == 0 {
            ExitCode::SUCCESS
        } else {
            ExitCode::FAILURE
        }
    }
}

/// The calls of one solver. An error is a fault of the call itself, as a slot written outside its buffer.
pub trait Solver {
    /// What failures call it.
    fn name(&self) -> &'static str;
    /// The calls that it has.
    fn calls(&self) -> &'static [Call];
    /// Runs a call; `report` is the length of the report lent to it.
    fn run(&self, call: Call, input: &Input, buffers: &mut Buffers, report: usize) -> Result<Answer, Difference>;
    /// Looks a list up: its offset and length.
    fn lookup(&self, lists: &Lists, side: Side, place: usize) -> Result<(usize, usize), Difference>;
    /// Finds n and e of a matrix file, or its refusal.
    fn shape(&self, file: &[u8]) -> Result<Result<(usize, usize), Refusal>, Difference>;
    /// Reads a matrix file into the lent buffers.
    fn read(&self, file: &[u8], matrix: &mut Input) -> Result<Answer, Difference>;
    /// Writes a matrix file into the lent bytes.
    fn write(&self, matrix: &Input, file: &mut Vec<u8>) -> Result<Answer, Difference>;
    /// Finds n, lower and upper of a factor file in the lent report, and returns the call's number.
    fn factor_shape(&self, file: &[u8], report: &mut Vec<u64>) -> Result<u32, Difference>;
    /// Reads a factor file into the lent buffers and report, and returns the call's number.
    fn read_factors(&self, file: &[u8], kept: &mut Keeping, report: &mut Vec<u64>) -> Result<u32, Difference>;
    /// Writes a factor file into the lent bytes, and returns the call's number.
    fn write_factors(&self, kept: &Keeping, file: &mut Vec<u8>, report: &mut Vec<u64>) -> Result<u32, Difference>;
    /// Makes a test load of `matrix.n` rows in the lent buffers and report, and returns its number.
    fn load(&self, seed: u16, matrix: &mut Input, report: &mut Vec<u64>) -> Result<u32, Difference>;
    /// Finds the shared structure in the lent buffers, prints its fill, and returns the call's number.
    fn sheet(&self, lent: &mut Printing) -> Result<u32, Difference>;
    /// Finds the residual and the width of a row, and returns the call's number.
    fn residual(&self, lent: &mut Checking) -> Result<u32, Difference>;
}

/// The solver of this package.
pub struct Reference;

impl Solver for Reference {
    fn name(&self) -> &'static str {
        "reference"
    }

    fn calls(&self) -> &'static [Call] {
        &CALLS
    }

    fn run(&self, call: Call, input: &Input, buffers: &mut Buffers, report: usize) -> Result<Answer, Difference> {
        Ok(masked(call, reference::run(call, input, buffers), report))
    }

    fn lookup(&self, lists: &Lists, side: Side, place: usize) -> Result<(usize, usize), Difference> {
        Ok(reference::lookup(lists, side, place))
    }

    fn shape(&self, file: &[u8]) -> Result<Result<(usize, usize), Refusal>, Difference> {
        Ok(matrix_file::shape(file))
    }

    fn read(&self, file: &[u8], matrix: &mut Input) -> Result<Answer, Difference> {
        Ok(matrix_file::read(file, matrix))
    }

    fn write(&self, matrix: &Input, file: &mut Vec<u8>) -> Result<Answer, Difference> {
        Ok(matrix_file::write(matrix, file))
    }

    fn factor_shape(&self, file: &[u8], report: &mut Vec<u64>) -> Result<u32, Difference> {
        Ok(factor_file::shape(file, report))
    }

    fn read_factors(&self, file: &[u8], kept: &mut Keeping, report: &mut Vec<u64>) -> Result<u32, Difference> {
        Ok(factor_file::read(file, kept, report))
    }

    fn write_factors(&self, kept: &Keeping, file: &mut Vec<u8>, report: &mut Vec<u64>) -> Result<u32, Difference> {
        Ok(factor_file::write(kept, file, report))
    }

    fn load(&self, seed: u16, matrix: &mut Input, report: &mut Vec<u64>) -> Result<u32, Difference> {
        Ok(test_load::make(seed, matrix, report))
    }

    fn sheet(&self, lent: &mut Printing) -> Result<u32, Difference> {
        Ok(fill_sheet::make(lent))
    }

    fn residual(&self, lent: &mut Checking) -> Result<u32, Difference> {
        Ok(residual::make(lent))
    }
}

/// The answer as a report of so many slots shows it.
fn masked(call: Call, answer: Answer, report: usize) -> Answer {
    let counted = matches!(call, Call::Structure(_) | Call::Solve(_));
    let shown = |slot: usize, value: u64| if slot < report && (slot == 0 || counted) { value } else { 0 };
    let counts = answer.counts;
    Answer {
        number: answer.number,
        place: shown(0, answer.place),
        counts: Counts {
            lower: shown(1, counts.lower),
            upper: shown(2, counts.upper),
            products: shown(3, counts.products),
        },
    }
}

/// The library behind the C interface.
#[cfg(any(feature = "library", feature = "standin"))]
pub struct Library {
    /// Whether buffers of length 0 are lent as NULL.
    pub nulls: bool,
}

#[cfg(any(feature = "library", feature = "standin"))]
impl Solver for Library {
    fn name(&self) -> &'static str {
        "library"
    }

    fn calls(&self) -> &'static [Call] {
        &crate::ffi::EXPORTED
    }

    fn run(&self, call: Call, input: &Input, buffers: &mut Buffers, report: usize) -> Result<Answer, Difference> {
        crate::ffi::lend_nulls(self.nulls);
        crate::ffi::run(call, input, buffers, report)
    }

    fn lookup(&self, lists: &Lists, side: Side, place: usize) -> Result<(usize, usize), Difference> {
        crate::ffi::lend_nulls(self.nulls);
        crate::ffi::lookup(lists, side, place)
    }

    fn shape(&self, file: &[u8]) -> Result<Result<(usize, usize), Refusal>, Difference> {
        crate::ffi::lend_nulls(self.nulls);
        crate::ffi::shape(file)
    }

    fn read(&self, file: &[u8], matrix: &mut Input) -> Result<Answer, Difference> {
        crate::ffi::lend_nulls(self.nulls);
        crate::ffi::read(file, matrix)
    }

    fn write(&self, matrix: &Input, file: &mut Vec<u8>) -> Result<Answer, Difference> {
        crate::ffi::lend_nulls(self.nulls);
        crate::ffi::write(matrix, file)
    }

    fn factor_shape(&self, file: &[u8], report: &mut Vec<u64>) -> Result<u32, Difference> {
        crate::ffi::lend_nulls(self.nulls);
        crate::ffi::factor_shape(file, report)
    }

    fn read_factors(&self, file: &[u8], kept: &mut Keeping, report: &mut Vec<u64>) -> Result<u32, Difference> {
        crate::ffi::lend_nulls(self.nulls);
        crate::ffi::read_factors(file, kept, report)
    }

    fn write_factors(&self, kept: &Keeping, file: &mut Vec<u8>, report: &mut Vec<u64>) -> Result<u32, Difference> {
        crate::ffi::lend_nulls(self.nulls);
        crate::ffi::write_factors(kept, file, report)
    }

    fn load(&self, seed: u16, matrix: &mut Input, report: &mut Vec<u64>) -> Result<u32, Difference> {
        crate::ffi::lend_nulls(self.nulls);
        crate::ffi::load(seed, matrix, report)
    }

    fn sheet(&self, lent: &mut Printing) -> Result<u32, Difference> {
        crate::ffi::lend_nulls(self.nulls);
        crate::ffi::sheet(lent)
    }

    fn residual(&self, lent: &mut Checking) -> Result<u32, Difference> {
        crate::ffi::lend_nulls(self.nulls);
        crate::ffi::residual(lent)
    }
}
