//! What the program prints for its standard input.
use super::{calls, matrix_file};
use crate::model::*;

const MAX_FILE: usize = 11_776;
const SMALL_ROWS: usize = 64;
const SMALL_ENTRIES: usize = 1_024;
const STORE: usize = 2_016;

/// The lines that the program prints for a file.
pub fn output(file: &[u8]) -> String {
    if file.len() > MAX_FILE {
        return "too large\n".to_string();
    }
    match matrix_file::shape(file) {
        Err(q) => refused(q.number, q.place),
        Ok((n, e)) if n > SMALL_ROWS || e > SMALL_ENTRIES => "too large\n".to_string(),
        Ok((n, e)) => solve(file, n, e),
    }
}

fn refused(number: u32, place: u64) -> String {
    format!("refused {number} {place}\n")
}

fn solve(file: &[u8], n: usize, e: usize) -> String {
    let mut matrix = matrix_file::blank(n, e);
    let read = matrix_file::read(file, &mut matrix);
    if read.number != 0 {
        return refused(read.number, read.place);
    }
    let call = Call::Solve(Form::Plain);
    let mut buffers = Buffers::for_call(call, n, Slots::all(STORE));
    let answer = calls::run(call, &matrix, &mut buffers);
    if answer.number != 0 {
        return refused(answer.number, answer.place);
    }
    let counts = answer.counts;
    let mut text = format!("n {n} lower {} upper {} products {}\n", counts.lower, counts.upper, counts.products);
    for (column, x) in buffers.x.iter().enumerate() {
        text.push_str(&format!("x {column} {:016X}\n", x.to_bits()));
    }
    text
}
