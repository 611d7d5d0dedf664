//! The comparison is not trusted blindly: faults are planted in the stand-in, and it must find each of them.
use super::cases::{self, Range};
use super::{files, floors, kept, loads, repeats, residuals, sheets, Library, Tally};
use crate::compare;
use crate::standin::{plant, Fault, FAULTS};

/// How many of the library's checks fail with the fault.
fn failures(fault: Option<Fault>) -> u64 {
    let library = Library { nulls: false };
    let mut tally = Tally::silent();
    let range = |count: u64| Range { seed: 1, count, only: None };
    plant(fault);
    cases::run(&library, range(2_000), &mut tally);
    cases::lookups(&library, range(500), &mut tally);
    files::lengths(&library, 1, &mut tally);
    floors::limits(&library, 1, &mut tally);
    kept::limits(&library, 1, &mut tally);
    loads::limits(&library, 1, &mut tally);
    repeats::limits(&library, 1, &mut tally);
    residuals::limits(&library, 1, &mut tally);
    residuals::run(&library, range(500), &mut tally);
    sheets::limits(&library, 1, &mut tally);
    plant(None);
    tally.failed
}

/// Every planted fault is found, and without one nothing fails.
pub fn run(tally: &mut Tally) {
    tally.add(|| "no fault planted".to_string(), compare::same("failed checks", &failures(None), &0));
    for fault in FAULTS {
        let found = failures(Some(fault));
        tally.add(|| format!("planted fault {fault:?}"), compare::at_least("failed checks", found, 1));
    }
}
