//! Random factor files and factors, and random solves that are kept.
use super::solved::kept_and_solved;
use super::{compare_read, compare_write, length_of, lengths_of, STORES};
use crate::checks::cases::Range;
use crate::checks::{Solver, Tally};
use crate::compare::{self, Difference};
use crate::generate;
use crate::model::*;
use crate::random::Random;
use crate::reference::factor_file::{cut, file_of};
use crate::reference::matrix_file::{seal, BLOCK};
use std::collections::BTreeMap;

/// A file of random factors, mostly with some damage, and buffers to read it into.
fn to_read(random: &mut Random) -> (Vec<u8>, Keeping) {
    let kept = generate::sound_keeping(random);
    let mut lengths = lengths_of(&kept);
    STORES.iter().for_each(|&at| lengths[at] += random.pick(&[0, 0, 0, 1, 5]));
    let mut into = generate::dirty_keeping(random, lengths);
    if random.per_mille(60) {
        generate::resize_keeping(random, &mut into);
    }
    let mut kept = cut(&kept);
    if random.per_mille(400) {
        generate::change_keeping(random, &mut kept);
    }
    let mut file = file_of(&kept);
    if random.per_mille(400) {
        for _ in 0..random.between(1, 3) {
            let at = random.below(file.len());
            file[at] = random.pick(&[0, 1, 2, 3, 9, 127, 240, 255]);
        }
        if random.per_mille(900) {
            seal(&mut file);
        }
    }
    if random.per_mille(30) {
        let length = random.pick(&[0, BLOCK, file.len() + BLOCK, file.len() - 1]);
        file.resize(length, 0);
        seal(&mut file);
    }
    (file, into)
}

/// Random factors, mostly with some fault, and a buffer for their file.
fn to_write(random: &mut Random) -> (Keeping, Vec<u8>) {
    let mut kept = generate::sound_keeping(random);
    let mut length = length_of(&kept);
    if random.per_mille(500) {
        generate::change_keeping(random, &mut kept);
    }
    if random.per_mille(100) {
        generate::resize_keeping(random, &mut kept);
    }
    if random.per_mille(50) {
        kept.n = random.pick(&[0, 4_097, usize::MAX, kept.n + 1]);
    }
    if random.per_mille(100) {
        let (Counts { lower, upper, .. }, far) = (kept.counts, random.bits());
        let counts = [(lower + 1, upper), (lower, upper + 1), (lower / 2, upper), (lower, upper / 2), (far, upper)];
        (kept.counts.lower, kept.counts.upper) = random.pick(&counts);
    }
    if random.per_mille(50) {
        length = random.pick(&[0, length - 1, length + 1, length + BLOCK]);
    }
    let before = (0..length).map(|_| random.bits() as u8).collect();
    (kept, before)
}

/// Reads random factors, writes others, and keeps those of a random solve: the number of each.
fn three(solver: &dyn Solver, random: &mut Random) -> [(&'static str, Result<u32, Difference>); 3] {
    let slots = random.below(6);
    let report = generate::dirty_report(random, slots);
    let (file, into) = to_read(random);
    let read = compare_read(solver, &file, &into, &report).map(|(number, _)| number);
    let (kept, before) = to_write(random);
    let written = compare_write(solver, &kept, &before, &report).map(|((number, _), _)| number);
    let n = random.pick(&[1, 2, 3, 5, 8, 13]);
    let input = generate::sound_input(random, n);
    [("read", read), ("written", written), ("kept", kept_and_solved(solver, random, &input, n * n))]
}

/// The numbers that many random cases must meet.
const MET: [(&str, &[u32]); 3] =
    [("read", &[0, 1, 2, 5, 15, 16, 17, 20, 21]), ("written", &[0, 1, 2, 5, 15, 21]), ("kept", &[0, 12, 13])];

/// Runs random cases; of many, each number must be met.
pub fn run(solver: &dyn Solver, range: Range, tally: &mut Tally) {
    let mut met: BTreeMap<(&str, u32), u64> = BTreeMap::new();
    for number in range.numbers() {
        for (what, found) in three(solver, &mut range.random(number)) {
            found.iter().for_each(|&number| *met.entry((what, number)).or_default() += 1);
            let label = || format!("{}, factors {what} ({})", range.label("kept", number), solver.name());
            tally.add(label, found.map(|_| ()));
        }
    }
    if range.only.is_some() || range.count < 1_000 {
        return;
    }
    for (what, numbers) in MET {
        for &number in numbers {
            let enough = compare::at_least("cases", met.get(&(what, number)).copied().unwrap_or(0), 1);
            tally.add(|| format!("factors {what}, answer {number} is tried ({})", solver.name()), enough);
        }
    }
}
