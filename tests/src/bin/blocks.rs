//! Runs every block of the documents, and works out the figures of their tables. Ends with one line, `N passed, M failed`.
//!
//! The words behind it are the documents to take instead of all.
use lilacpliers_tests::blocks;
use lilacpliers_tests::checks::Tally;
use std::process::ExitCode;

const DOCUMENTS: [&str; 3] = ["README.md", "command/README.md", "docs/GUIDE.md"];

fn main() -> ExitCode {
    let named: Vec<String> = std::env::args().skip(1).collect();
    let documents: Vec<&str> = named.iter().map(String::as_str).collect();
    let mut tally = Tally::default();
    blocks::planted::run(&mut tally);
    blocks::tables::run(&mut tally);
    blocks::run(if documents.is_empty() { &DOCUMENTS } else { &documents }, &mut tally);
    tally.close()
}
