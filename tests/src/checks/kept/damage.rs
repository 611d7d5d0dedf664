//! Files damaged byte by byte, any sizes at a file's start, and factors with random changes.
use super::{compare_read, compare_write, example, lengths_of, put_head};
use crate::checks::{Solver, Tally};
use crate::generate;
use crate::model::*;
use crate::random::Random;
use crate::reference::factor_file::file_of;
use crate::reference::matrix_file::{seal, BLOCK};

/// Any numbers for n, lower and upper, the checks right.
fn heads(solver: &dyn Solver, tally: &mut Tally) {
    let near = [0, 1, 2, 9, 4_096, 4_097, 1 << 20, 1 << 31, u32::MAX];
    let into = Keeping::blank(1, Slots::all(2));
    for n in near {
        for (lower, upper) in near.iter().flat_map(|&lower| near.map(|upper| (lower, upper))) {
            for blocks in [1, 2] {
                let mut file = vec![0; BLOCK * blocks];
                [n, lower, upper].iter().enumerate().for_each(|(at, &number)| put_head(&mut file, 4 * at, number));
                seal(&mut file);
                let result = compare_read(solver, &file, &into, &[7; 4]).map(|_| ());
                tally.add(|| format!("factors of n {n} lower {lower} upper {upper}, {blocks} blocks"), result);
            }
        }
    }
}

/// Each byte of the example's file gets other values, the checks made right again or not.
fn damaged(solver: &dyn Solver, random: &mut Random, tally: &mut Tally) {
    let kept = example();
    let whole = file_of(&kept);
    let into = generate::dirty_keeping(random, lengths_of(&kept));
    for (at, &old) in whole.iter().enumerate() {
        for value in [old ^ 1, old ^ 0x80, old.wrapping_add(1), 0, 255, random.bits() as u8] {
            for sealed in [false, true] {
                let mut file = whole.clone();
                file[at] = value;
                if sealed {
                    seal(&mut file);
                }
                let result = compare_read(solver, &file, &into, &[7; 4]).map(|_| ());
                tally.add(|| format!("factors, byte {at} is {value}, sealed {sealed} ({})", solver.name()), result);
            }
        }
    }
}

/// The example with garbage behind its lists is written, as it is and with changes.
pub fn changed(solver: &dyn Solver, random: &mut Random, tally: &mut Tally) {
    for number in 0..400 {
        let mut kept = example();
        kept.lower.index.extend([9, 9]);
        kept.lower.values.push(f64::NAN);
        kept.upper.values.push(f64::INFINITY);
        if number > 0 {
            generate::change_keeping(random, &mut kept);
        }
        let result = compare_write(solver, &kept, &[5; 2 * BLOCK], &[7; 4]).map(|_| ());
        tally.add(|| format!("factors with change {number} written ({})", solver.name()), result);
    }
}

/// Damages the example's file byte by byte, and tries any sizes.
pub fn damage(solver: &dyn Solver, seed: u64, tally: &mut Tally) {
    damaged(solver, &mut Random::new(seed), tally);
    heads(solver, tally);
}
