//! The test load: the answer, every slot of the six buffers and of the report against the reference.
use super::cases::Range;
use super::{Solver, Tally};
use crate::compare::{self, Difference};
use crate::generate;
use crate::model::*;
use crate::random::Random;
use crate::reference::{matrix_file, test_load};

/// The lengths that the call asks for: starts, columns, values, r, c, b.
fn lengths(n: usize) -> [usize; 6] {
    [n + 1, 4 * n, 4 * n, n, n, n]
}

/// Makes a load over the slots of `lent` and `report`, and compares all of it with the reference.
pub fn compare_load(solver: &dyn Solver, seed: u16, lent: &Input, report: &[u64]) -> Result<u32, Difference> {
    let (mut expected, mut filled) = (lent.clone(), report.to_vec());
    let number = test_load::make(seed, &mut expected, &mut filled);
    let (mut found, mut given) = (lent.clone(), report.to_vec());
    compare::same("number", &solver.load(seed, &mut found, &mut given)?, &number)?;
    compare::numbers("report", &given, &filled)?;
    compare::matrices(&found, &expected, false)?;
    Ok(number)
}

/// The solver's load as other calls are lent it: its buffers cut to its entries.
pub fn made(solver: &dyn Solver, n: usize, seed: u16) -> Result<Input, Difference> {
    let mut matrix = matrix_file::blank(n, 4 * n);
    let mut report = vec![0; 2];
    compare::same("number", &solver.load(seed, &mut matrix, &mut report)?, &0)?;
    let e = report[1] as usize;
    matrix.columns.truncate(e);
    matrix.values.truncate(e);
    Ok(matrix)
}

/// One call over noise, and the number that it must answer with.
struct Asked {
    n: usize,
    seed: u16,
    lengths: [usize; 6],
    report: usize,
    number: u32,
}

impl Asked {
    fn done(n: usize, seed: u16) -> Asked {
        Asked { n, seed, lengths: lengths(n), report: 4, number: 0 }
    }

    fn refused(n: usize, lengths: [usize; 6], number: u32) -> Asked {
        Asked { n, seed: 1, lengths, report: 4, number }
    }

    fn add(&self, solver: &dyn Solver, random: &mut Random, tally: &mut Tally) {
        let lent = generate::dirty_matrix(random, self.n, self.lengths);
        let result = compare_load(solver, self.seed, &lent, &generate::dirty_report(random, self.report));
        let result = result.and_then(|number| compare::same("number", &number, &self.number));
        let Asked { n, seed, lengths, report, .. } = self;
        tally.add(|| format!("load n {n} seed {seed} lengths {lengths:?} report {report}"), result);
    }
}

/// Every n to 64, the greatest n, and reports of no slot to six.
fn sizes() -> Vec<Asked> {
    let seeds = [0, 1, 2, 4_711, 32_768, 65_535];
    let small = (1..=64).flat_map(|n| seeds.map(|seed| Asked::done(n, seed)));
    let greatest = [0, 1, 65_535].map(|seed| Asked::done(MAX_ROWS, seed));
    let reports = (0..=6).map(|report| Asked { report, ..Asked::done(9, 1) });
    small.chain(greatest).chain(reports).collect()
}

/// The lengths with one buffer or two of them one short, one long or of no slot.
fn wrong_lengths(n: usize) -> Vec<[usize; 6]> {
    let right = lengths(n);
    let others = |length: usize| [length.saturating_sub(1), length + 1, 0];
    let changes: Vec<(usize, usize)> = (0..6).flat_map(|at| others(right[at]).map(|length| (at, length))).collect();
    let mut found = Vec::new();
    for &(at, length) in &changes {
        let mut one = right;
        one[at] = length;
        found.push(one);
        for &(other, length) in changes.iter().filter(|(other, _)| *other > at) {
            let mut two = one;
            two[other] = length;
            found.push(two);
        }
    }
    found
}

/// Wrong lengths are 2, also as many slots as the load has entries.
fn wrong() -> Vec<Asked> {
    let mut found = vec![Asked::refused(9, [10, 29, 29, 9, 9, 9], 2)];
    for n in [1, 2, 9] {
        found.extend(wrong_lengths(n).into_iter().map(|lengths| Asked::refused(n, lengths, 2)));
    }
    found.extend((0..=6).map(|report| Asked { report, ..Asked::refused(9, [10, 36, 35, 9, 9, 9], 2) }));
    found
}

/// An n out of its limits is 1, whatever the lengths: also what n + 1 and 4n are without their upper bits.
fn out_of_limits() -> Vec<Asked> {
    let greater = [MAX_ROWS + 1, 1 << 16, 1 << 32, (1 << 32) + 1, 1 << 62, (1 << 62) + 1, 1 << 63, usize::MAX];
    let any = [[0; 6], [1, 0, 0, 0, 0, 0], lengths(1)];
    let mut found = vec![Asked::refused(0, lengths(0), 1), Asked::refused(MAX_ROWS + 1, lengths(MAX_ROWS + 1), 1)];
    found.extend(wrong_lengths(0).into_iter().map(|lengths| Asked::refused(0, lengths, 1)));
    found.extend(greater.iter().flat_map(|&n| any.map(|lengths| Asked::refused(n, lengths, 1))));
    found.extend((0..=6).map(|report| Asked { report, ..Asked::refused(0, lengths(0), 1) }));
    found
}

/// Tries known sizes and lengths over noise.
pub fn limits(solver: &dyn Solver, seed: u64, tally: &mut Tally) {
    let mut random = Random::new(seed);
    for asked in sizes().iter().chain(&wrong()).chain(&out_of_limits()) {
        asked.add(solver, &mut random, tally);
    }
}

/// Tries any n, any seed and a report of any length over noise; some buffers have another length.
pub fn run(solver: &dyn Solver, range: Range, tally: &mut Tally) {
    for number in range.numbers() {
        let random = &mut range.random(number);
        let most = random.pick(&[64, MAX_ROWS]);
        let n = random.between(1, most);
        let seed = random.bits() as u16;
        let mut lent = lengths(n);
        if random.per_mille(60) {
            lent[random.below(6)] = random.below(4 * n);
        }
        let matrix = generate::dirty_matrix(random, n, lent);
        let report = random.below(6);
        let result = compare_load(solver, seed, &matrix, &generate::dirty_report(random, report)).map(|_| ());
        tally.add(|| format!("{} {} n {n} seed {seed}", range.label("loads", number), solver.name()), result);
    }
}
