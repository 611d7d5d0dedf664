//! Refusals that are written out, each by itself and with each later one.
use super::{compare_read, compare_write, example, lengths_of, put_head, told};
use crate::checks::{Solver, Tally};
use crate::generate;
use crate::model::*;
use crate::random::Random;
use crate::reference::factor_file::file_of;
use crate::reference::matrix_file::{seal, BLOCK};

/// What a fault changes: the factors in the file, its bytes before and after the blocks are sealed, or what is lent.
enum Change {
    Lists(fn(&mut Keeping)),
    Payload(fn(&mut Vec<u8>)),
    Blocks(fn(&mut Vec<u8>)),
    Lent(fn(&mut Keeping)),
}

/// A fault's name, number and place, and what makes it.
type Fault = (&'static str, u32, u64, Change);

/// The faults of a file's bytes, in the order of their questions.
const IN_FILES: [Fault; 14] = [
    ("an empty file", 16, 0, Change::Blocks(|file| file.clear())),
    ("half a block", 16, 0, Change::Blocks(|file| file.truncate(768))),
    ("a byte too many", 16, 0, Change::Blocks(|file| file.push(0))),
    ("a damaged byte", 17, 1, Change::Blocks(|file| file[700] ^= 1)),
    ("blocks exchanged", 17, 0, Change::Blocks(|file| file.rotate_left(BLOCK))),
    ("n = 0", 1, 0, Change::Payload(|file| put_head(file, 0, 0))),
    ("n = 4,097", 1, 0, Change::Payload(|file| put_head(file, 0, 4_097))),
    ("n = 2^32 - 1", 1, 0, Change::Payload(|file| put_head(file, 0, u32::MAX))),
    ("a lower count of a block more", 20, 0, Change::Payload(|file| put_head(file, 4, 16 + 51))),
    ("an upper count of a block less", 20, 0, Change::Payload(|file| put_head(file, 8, 0))),
    ("an upper count of 2^32 - 1", 20, 0, Change::Payload(|file| put_head(file, 8, u32::MAX))),
    ("a block too many", 20, 0, Change::Payload(|file| file.resize(3 * BLOCK, 0))),
    ("the first closing byte", 20, 0, Change::Payload(|file| file[BLOCK + 558 - 504] = 1)),
    ("the last closing byte", 20, 0, Change::Payload(|file| file[BLOCK + 503] = 0x80)),
];

/// Lengths that are refused.
const IN_LENGTHS: [Fault; 10] = [
    ("r is short", 2, 0, Change::Lent(|lent| lent.r.truncate(8))),
    ("c is long", 2, 0, Change::Lent(|lent| lent.c.push(0))),
    ("d is short", 2, 0, Change::Lent(|lent| lent.d.truncate(8))),
    ("no lower starts", 2, 0, Change::Lent(|lent| lent.lower.starts.clear())),
    ("lower starts of n", 2, 0, Change::Lent(|lent| lent.lower.starts.truncate(9))),
    ("upper starts of n + 2", 2, 0, Change::Lent(|lent| lent.upper.starts.push(19))),
    ("a short lower index store", 2, 0, Change::Lent(|lent| lent.lower.index.truncate(14))),
    ("a short lower value store", 2, 0, Change::Lent(|lent| lent.lower.values.truncate(14))),
    ("a short upper index store", 2, 0, Change::Lent(|lent| lent.upper.index.truncate(17))),
    ("a short upper value store", 2, 0, Change::Lent(|lent| lent.upper.values.truncate(17))),
];

/// The faults of orders, lists and counts, in the order of their questions.
const IN_LISTS: [Fault; 24] = [
    ("r repeats a number", 5, 3, Change::Lists(|kept| kept.r[3] = kept.r[1])),
    ("r has n", 5, 0, Change::Lists(|kept| kept.r[0] = 9)),
    ("c repeats a number", 5, 9 + 8, Change::Lists(|kept| kept.c[8] = kept.c[0])),
    ("c has 65,535", 5, 9 + 4, Change::Lists(|kept| kept.c[4] = u16::MAX)),
    ("the lower starts begin at 1", 15, 0, Change::Lists(|kept| kept.lower.starts[0] = 1)),
    ("the upper starts begin at 2^32 - 1", 15, 0, Change::Lists(|kept| kept.upper.starts[0] = u32::MAX)),
    ("the lower starts fall", 15, 3, Change::Lists(|kept| kept.lower.starts[4] = 1)),
    ("the upper starts fall", 15, 6, Change::Lists(|kept| kept.upper.starts[7] = 0)),
    ("a lower list leaves the store", 15, 4, Change::Lists(|kept| kept.lower.starts[5] = 17)),
    ("an upper list leaves the store", 15, 2, Change::Lists(|kept| kept.upper.starts[3] = u32::MAX)),
    ("the last upper list leaves the store", 15, 8, Change::Lists(|kept| kept.upper.starts[9] = 20)),
    ("the lower starts end early", 15, 8, Change::Lists(|kept| kept.lower.starts[9] = 15)),
    ("the upper starts end early", 15, 8, Change::Lists(|kept| kept.upper.starts[8..].fill(18))),
    ("lower row 3 has place 3", 15, 3, Change::Lists(|kept| kept.lower.index[4] = 3)),
    ("lower row 5 does not ascend", 15, 5, Change::Lists(|kept| kept.lower.index[8] = 2)),
    ("T(2) has place 2", 15, 2, Change::Lists(|kept| kept.upper.index[6] = 2)),
    ("T(5) has n", 15, 5, Change::Lists(|kept| kept.upper.index[16] = 9)),
    ("L is not finite", 15, 1, Change::Lists(|kept| kept.lower.values[0] = f64::INFINITY)),
    ("u is no number", 15, 7, Change::Lists(|kept| kept.upper.values[18] = f64::NAN)),
    ("d is not finite", 15, 0, Change::Lists(|kept| kept.d[0] = f64::NEG_INFINITY)),
    ("d is no number", 15, 6, Change::Lists(|kept| kept.d[6] = f64::NAN)),
    ("products one more", 21, 0, Change::Lists(|kept| kept.counts.products += 1)),
    ("no products", 21, 0, Change::Lists(|kept| kept.counts.products = 0)),
    ("products 2^32 more", 21, 0, Change::Lists(|kept| kept.counts.products += 1 << 32)),
];

/// The example's file with the faults, and what is lent to read it; a change of the blocks comes last, the first
/// question's last of all.
fn made(random: &mut Random, faults: &[&Fault]) -> (Vec<u8>, Keeping) {
    let mut kept = example();
    let mut into = generate::dirty_keeping(random, lengths_of(&kept));
    faults.iter().for_each(|fault| match fault.3 {
        Change::Lists(change) => change(&mut kept),
        Change::Lent(change) => change(&mut into),
        _ => {}
    });
    let mut file = file_of(&kept);
    faults.iter().for_each(|fault| {
        if let Change::Payload(change) = fault.3 {
            change(&mut file)
        }
    });
    seal(&mut file);
    faults.iter().rev().for_each(|fault| {
        if let Change::Blocks(change) = fault.3 {
            change(&mut file)
        }
    });
    (file, into)
}

/// Every fault by itself, then every two of different numbers: the first question's is told.
fn each_and_pairs(faults: &[&'static Fault], mut ask: impl FnMut(&[&Fault], (u32, u64))) {
    for (at, first) in faults.iter().enumerate() {
        ask(&[first], (first.1, first.2));
        for second in faults[at + 1..].iter().filter(|second| second.1 != first.1) {
            ask(&[first, second], (first.1, first.2));
        }
    }
}

fn names(faults: &[&Fault]) -> String {
    faults.iter().map(|fault| fault.0).collect::<Vec<_>>().join(", ")
}

pub fn read(solver: &dyn Solver, random: &mut Random, tally: &mut Tally) {
    let faults: Vec<&Fault> = IN_FILES.iter().chain(&IN_LENGTHS).chain(&IN_LISTS).collect();
    each_and_pairs(&faults, |faults, expected| {
        let (file, into) = made(random, faults);
        let found = compare_read(solver, &file, &into, &[7; 5]);
        let result = found.and_then(|found| told(&found, expected));
        tally.add(|| format!("factors read, {} ({})", names(faults), solver.name()), result);
    });
}

/// The writer's faults of n and of the counts; the last two are of counts that the starts do not end at.
const IN_COUNTS: [Fault; 9] = [
    ("n = 0", 1, 0, Change::Lists(|kept| kept.n = 0)),
    ("n = 4,097", 1, 0, Change::Lists(|kept| kept.n = 4_097)),
    ("n = 2^32 + 9", 1, 0, Change::Lists(|kept| kept.n = (1 << 32) + 9)),
    ("n one more", 2, 0, Change::Lists(|kept| kept.n = 10)),
    ("a lower count over the stores", 2, 0, Change::Lists(|kept| kept.counts.lower = 17)),
    ("an upper count of 2^64 - 1", 2, 0, Change::Lists(|kept| kept.counts.upper = u64::MAX)),
    ("a lower count of 2^32 + 16", 2, 0, Change::Lists(|kept| kept.counts.lower += 1 << 32)),
    ("a lower count one less", 15, 8, Change::Lists(|kept| kept.counts.lower = 15)),
    ("an upper count one less", 15, 7, Change::Lists(|kept| kept.counts.upper = 18)),
];

/// The faults of a buffer that is written to.
const IN_BUFFERS: [Fault; 4] = [
    ("no file", 2, 0, Change::Blocks(|file| file.clear())),
    ("a file one byte short", 2, 0, Change::Blocks(|file| file.truncate(2 * BLOCK - 1))),
    ("a file one block short", 2, 0, Change::Blocks(|file| file.truncate(BLOCK))),
    ("a file one block long", 2, 0, Change::Blocks(|file| file.resize(3 * BLOCK, 5))),
];

pub fn write(solver: &dyn Solver, tally: &mut Tally) {
    let mut faults: Vec<&Fault> = IN_COUNTS[..3].iter().chain(&IN_BUFFERS).chain(&IN_LENGTHS).collect();
    faults.extend(IN_COUNTS[3..7].iter().chain(&IN_LISTS[..4]).chain(&IN_COUNTS[7..]).chain(&IN_LISTS[4..]));
    each_and_pairs(&faults, |faults, expected| {
        let (mut kept, mut file) = (example(), vec![5; 2 * BLOCK]);
        // The lists' own faults first: what is lent is made shorter behind them.
        faults.iter().rev().for_each(|fault| match fault.3 {
            Change::Lists(change) | Change::Lent(change) => change(&mut kept),
            Change::Payload(change) | Change::Blocks(change) => change(&mut file),
        });
        let found = compare_write(solver, &kept, &file, &[7; 5]);
        let result = found.and_then(|(found, _)| told(&found, expected));
        tally.add(|| format!("factors written, {} ({})", names(faults), solver.name()), result);
    });
}
