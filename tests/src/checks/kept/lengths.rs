//! Buffers and reports of other lengths, and stores at the limit of slots.
use super::{compare_read, compare_write, example, lengths_of, told, COUNTS, STORES};
use crate::checks::{Solver, Tally};
use crate::compare;
use crate::generate;
use crate::model::*;
use crate::random::Random;
use crate::reference::factor_file::file_of;
use crate::reference::matrix_file::BLOCK;

/// Lengths with one buffer or two one short, one long or of no slot; only stores may be longer.
fn other_lengths(right: [usize; 9]) -> Vec<([usize; 9], u32)> {
    let others = |at: usize| [right[at] - 1, right[at] + 1, 0].map(|length| (at, length));
    let changes: Vec<(usize, usize)> = (0..9).flat_map(others).collect();
    let taken = |&(at, length): &(usize, usize)| STORES.contains(&at) && length > right[at];
    let mut found = Vec::new();
    for (first, one) in changes.iter().enumerate() {
        for two in &changes[first..] {
            let mut lengths = right;
            lengths[two.0] = two.1;
            lengths[one.0] = one.1;
            let number = if taken(one) && (taken(two) || one.0 == two.0) { 0 } else { 2 };
            found.push((lengths, number));
        }
    }
    found
}

/// Buffers of other lengths: stores may be longer than the lists.
pub fn lengths(solver: &dyn Solver, random: &mut Random, tally: &mut Tally) {
    let kept = example();
    let file = file_of(&kept);
    for (lengths, number) in other_lengths(lengths_of(&kept)) {
        let into = generate::dirty_keeping(random, lengths);
        let found = compare_read(solver, &file, &into, &[7; 4]).and_then(|found| told(&found, (number, 0)));
        tally.add(|| format!("factors read into lengths {lengths:?} ({})", solver.name()), found);
    }
}

/// Reports of no slot to six, where the calls end well and where they refuse.
pub fn reports(solver: &dyn Solver, random: &mut Random, tally: &mut Tally) {
    let kept = example();
    let file = file_of(&kept);
    for report in 0..=6 {
        let slots = generate::dirty_report(random, report);
        for (file, number) in [(&file[..], 0), (&file[..BLOCK], 20), (&file[BLOCK..], 17)] {
            let into = generate::dirty_keeping(random, lengths_of(&kept));
            let found = compare_read(solver, file, &into, &slots);
            let found = found.and_then(|found| compare::same("number", &found.0, &number));
            tally.add(|| format!("factors read, {number}, report of {report} slots ({})", solver.name()), found);
        }
        for (bytes, number) in [(2 * BLOCK, 0), (BLOCK, 2)] {
            let found = compare_write(solver, &kept, &vec![5; bytes], &slots);
            let found = found.and_then(|(found, _)| compare::same("number", &found.0, &number));
            tally.add(|| format!("factors written, {number}, report of {report} slots ({})", solver.name()), found);
        }
    }
}

/// Stores at the limit of slots are filled with zeros behind the lists; one slot more is 2, whatever the counts.
pub fn slots(solver: &dyn Solver, tally: &mut Tally) {
    let kept = example();
    let file = file_of(&kept);
    for at in STORES {
        for (slots, number) in [(MAX_SLOTS, 0), (MAX_SLOTS + 1, 2)] {
            let mut lengths = lengths_of(&kept);
            lengths[at] = slots;
            let mut into = generate::dirty_keeping(&mut Random::new(1), lengths);
            let found = compare_read(solver, &file, &into, &[7; 4]).and_then(|found| told(&found, (number, 0)));
            tally.add(|| format!("factors read into {slots} slots of buffer {at}"), found);
            (into.n, into.counts, into.r, into.c) = (9, COUNTS, kept.r.clone(), kept.c.clone());
            let number = if number == 0 { 15 } else { 2 };
            let found = compare_write(solver, &into, &[5; 2 * BLOCK], &[7; 4]);
            let found = found.and_then(|(found, _)| told(&found, (number, 0)));
            tally.add(|| format!("factors written from {slots} slots of buffer {at}"), found);
        }
    }
}

/// A file of one entry more than a store may have is read by none, and written by none.
pub fn too_many(solver: &dyn Solver, tally: &mut Tally) {
    let entries = MAX_SLOTS + 1;
    let mut kept = Keeping::blank(2, Slots { lower_index: entries, lower_values: entries, ..Slots::default() });
    kept.counts.lower = entries as u64;
    let file = file_of(&kept);
    for slots in [MAX_SLOTS, entries] {
        let into = Keeping::blank(2, Slots::sides(slots, 0));
        let found = compare_read(solver, &file, &into, &[7; 4]).and_then(|found| told(&found, (2, 0)));
        tally.add(|| format!("factors of {entries} entries read into {slots} slots"), found);
    }
    let found = compare_write(solver, &kept, &vec![5; file.len()], &[7; 4]);
    let found = found.and_then(|(found, _)| told(&found, (2, 0)));
    tally.add(|| format!("factors of {entries} entries written"), found);
}
