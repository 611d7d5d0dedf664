//! What the program should print for its standard input, by the reference: stands in for the program, to try the
//! comparison of printed output without it.
use lilacpliers_tests::reference::program;
use std::io::Read;
use std::process::ExitCode;

fn main() -> ExitCode {
    let mut file = Vec::new();
    if let Err(error) = std::io::stdin().read_to_end(&mut file) {
        eprintln!("standard input cannot be read: {error}");
        return ExitCode::FAILURE;
    }
    print!("{}", program::output(&file));
    ExitCode::SUCCESS
}
