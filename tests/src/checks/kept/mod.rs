//! The factor file: shape, read and write against the reference, slot by slot and byte by byte, over every kind of
//! damage; refusals that are written out, and which of two comes first; what is written is read, and solves as before.
mod damage;
mod lengths;
mod random;
mod refusals;
mod solved;

use super::{Solver, Tally};
use crate::compare::{self, Compared, Difference};
use crate::model::*;
use crate::random::Random;
use crate::reference::factor_file::{self, file_length};
pub use damage::damage;
pub use random::run;
pub use solved::large;

/// A call's number and report.
type Told = (u32, Vec<u64>);

/// Compares shape and read of a file, over the slots of `into` and `report`, with the reference; what read told.
pub fn compare_read(solver: &dyn Solver, file: &[u8], into: &Keeping, report: &[u64]) -> Result<Told, Difference> {
    let (mut expected, mut found) = (report.to_vec(), report.to_vec());
    let number = factor_file::shape(file, &mut expected);
    compare::same("number of shape", &solver.factor_shape(file, &mut found)?, &number)?;
    compare::numbers("report of shape", &found, &expected)?;
    let (mut expected, mut filled) = (into.clone(), report.to_vec());
    let number = factor_file::read(file, &mut expected, &mut filled);
    let (mut found, mut given) = (into.clone(), report.to_vec());
    compare::same("number of read", &solver.read_factors(file, &mut found, &mut given)?, &number)?;
    compare::numbers("report of read", &given, &filled)?;
    compare::kept(&found, &expected)?;
    Ok((number, given))
}

/// Compares writing over the bytes of `before` with the reference: what was told, and the file.
pub fn compare_write(
    solver: &dyn Solver,
    kept: &Keeping,
    before: &[u8],
    report: &[u64],
) -> Result<(Told, Vec<u8>), Difference> {
    let (mut expected, mut filled) = (before.to_vec(), report.to_vec());
    let number = factor_file::write(kept, &mut expected, &mut filled);
    let (mut file, mut given) = (before.to_vec(), report.to_vec());
    compare::same("number of write", &solver.write_factors(kept, &mut file, &mut given)?, &number)?;
    compare::numbers("report of write", &given, &filled)?;
    compare::numbers("file", &file, &expected)?;
    Ok(((number, given), file))
}

/// The answer begins with this number and place.
fn told((number, report): &Told, expected: (u32, u64)) -> Compared {
    compare::same("number and place", &(*number, report[0]), &expected)
}

// ---- an example of nine places

const LOWER: [&[u16]; 9] = [&[], &[0], &[1], &[0, 1, 2], &[1, 3], &[2, 3, 4], &[], &[4, 5, 6], &[0, 5, 7]];
const UPPER: [&[u16]; 9] = [&[1, 3, 8], &[2, 3, 4], &[5, 8], &[4, 5, 6, 7], &[5, 7], &[6, 7, 8], &[7], &[8], &[]];
/// Each number of the lower lists counts the length of the upper list that it names.
const COUNTS: Counts = Counts { lower: 16, upper: 19, products: 42 };
/// d may be zero, of either sign.
const D: [f64; 9] = [0.5, -0.0, 0.0, 5e-324, -3.5, f64::MAX, -f64::MIN_POSITIVE, 1.0, 1e300];

fn side(lists: &[&[u16]], first: f64) -> Store {
    let mut store = Store { starts: vec![0], ..Store::default() };
    for list in lists {
        store.index.extend_from_slice(list);
        store.starts.push(store.index.len() as u32);
    }
    store.values = (0..store.index.len()).map(|p| first - 0.75 * p as f64).collect();
    store
}

/// Lists of two blocks, more of them on one side than on the other, with orders that differ.
pub fn example() -> Keeping {
    let order = |step: u16, first: u16| (0..9).map(|k| (first + step * k) % 9).collect();
    let (lower, upper) = (side(&LOWER, 3.0), side(&UPPER, -1.25));
    Keeping { n: 9, counts: COUNTS, r: order(2, 1), c: order(4, 3), lower, upper, d: D.to_vec() }
}

/// The lengths of buffers that just hold the factors.
fn lengths_of(kept: &Keeping) -> [usize; 9] {
    let (n, lower, upper) = (kept.n, kept.counts.lower as usize, kept.counts.upper as usize);
    [n, n, n + 1, lower, lower, n + 1, upper, upper, n]
}

/// The stores among the lengths: these may be longer than the lists.
const STORES: [usize; 4] = [3, 4, 6, 7];

/// The file's length, where the stores hold the counts.
fn length_of(kept: &Keeping) -> usize {
    file_length((kept.n, kept.counts.lower as usize, kept.counts.upper as usize))
}

/// Writes n, lower or upper into a file.
fn put_head(file: &mut [u8], at: usize, number: u32) {
    file[at..at + 4].copy_from_slice(&number.to_le_bytes());
}

/// Reads and writes the example with each fault, with buffers of other lengths, and with random changes.
pub fn limits(solver: &dyn Solver, seed: u64, tally: &mut Tally) {
    let random = &mut Random::new(seed);
    let counts = factor_file::counts(&example().lower, &example().upper);
    tally.add(|| "counts of the example of factors".to_string(), compare::same("counts", &counts, &COUNTS));
    refusals::read(solver, random, tally);
    refusals::write(solver, tally);
    lengths::lengths(solver, random, tally);
    lengths::reports(solver, random, tally);
    damage::changed(solver, random, tally);
}
