//! Plants each fault of the stand-in in turn: the checks of the library must find it. Ends with one line,
//! `N passed, M failed`.
use lilacpliers_tests::checks::{planted, Tally};
use std::process::ExitCode;

fn main() -> ExitCode {
    let mut tally = Tally::default();
    planted::run(&mut tally);
    tally.close()
}
