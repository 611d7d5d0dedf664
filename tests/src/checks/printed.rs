//! The program: run on files, its output against what the paper has it print.
use super::cases::Range;
use super::{known, Tally};
use crate::compare::{self, Compared};
use crate::generate;
use crate::load;
use crate::model::*;
use crate::random::Random;
use crate::reference::{matrix_file, program};
use std::io::{ErrorKind, Write};
use std::path::{Path, PathBuf};
use std::process::{Command, Output, Stdio};

/// The executable: LILACPLIERS_PROGRAM, or crates/solve/out/solve of the repository.
pub fn executable() -> PathBuf {
    match std::env::var_os("LILACPLIERS_PROGRAM") {
        Some(path) => PathBuf::from(path),
        None => super::header::repository().join("crates/solve/out/solve"),
    }
}

fn output_of(path: &Path, file: &[u8]) -> Result<Output, std::io::Error> {
    let mut child = Command::new(path).stdin(Stdio::piped()).stdout(Stdio::piped()).spawn()?;
    if let Some(mut stdin) = child.stdin.take() {
        match stdin.write_all(file) {
            // a program that has read enough may close its input early
            Err(error) if error.kind() != ErrorKind::BrokenPipe => return Err(error),
            _ => {}
        }
    }
    child.wait_with_output()
}

fn compare_output(path: &Path, file: &[u8]) -> Compared {
    match output_of(path, file) {
        Ok(output) => {
            let text = String::from_utf8_lossy(&output.stdout).into_owned();
            compare::same("output", &text, &program::output(file))?;
            compare::same("exit status", &output.status.code(), &Some(0))
        }
        Err(error) => compare::differ(format!("running {}", path.display()), error.to_string(), "a run"),
    }
}

/// Checks the reference's own output for the paper's file, and its other fixed lines.
pub fn known_outputs(tally: &mut Tally) {
    let paper = "n 2 lower 1 upper 1 products 1\nx 0 3FF0000000000000\nx 1 4000000000000000\n";
    let expect = |file: &[u8], text: &str| compare::same("output", &program::output(file), &text.to_string());
    tally.add(
        || "output for the paper's file".to_string(),
        expect(&matrix_file::file_of(&known::paper_matrix()), paper),
    );
    tally.add(|| "output for no bytes".to_string(), expect(&[], "refused 16 0\n"));
    tally.add(|| "output for 11,777 bytes".to_string(), expect(&[0; 11_777], "too large\n"));
    let zero = load::from_rows(&[vec![(0, 0.0)]], &[1.0]);
    tally.add(|| "output for a zero pivot".to_string(), expect(&matrix_file::file_of(&zero), "refused 12 0\n"));
    let wide = load::tridiagonal(65);
    tally.add(|| "output for n = 65".to_string(), expect(&matrix_file::file_of(&wide), "too large\n"));
    let twice = matrix_file::file_of(&load::halved(&known::paper_matrix()));
    tally.add(|| "output for the paper's file, each entry twice".to_string(), expect(&twice, paper));
    let one = "n 1 lower 0 upper 0 products 0\nx 0 3FF0000000000000\n";
    tally.add(
        || "output for e = 1,024 in one row".to_string(),
        expect(&matrix_file::file_of(&load::parts_of_one(1_024)), one),
    );
    let overflow = load::from_rows(&[vec![(0, f64::MAX), (0, f64::MAX), (0, f64::MIN)]], &[1.0]);
    tally.add(
        || "output for a sum that overflows".to_string(),
        expect(&matrix_file::file_of(&overflow), "refused 13 0\n"),
    );
}

/// A file with n and e of its own, otherwise zeros, in as many blocks as asked.
fn headed(n: u32, e: u32, blocks: usize) -> Vec<u8> {
    let mut file = vec![0u8; 512 * blocks];
    file[..4].copy_from_slice(&n.to_le_bytes());
    file[4..8].copy_from_slice(&e.to_le_bytes());
    matrix_file::seal(&mut file);
    file
}

fn full(n: usize, e: usize) -> Input {
    let row = |k: usize| (0..e / n).map(|j| ((k + j) % n, if j == 0 { 40.0 } else { 1.0 })).collect();
    let rows: Vec<Vec<(usize, f64)>> = (0..n).map(row).collect();
    load::from_rows(&rows, &vec![1.0; n])
}

fn chosen_files() -> Vec<(String, Vec<u8>)> {
    let mut files = vec![
        ("the paper's file".to_string(), matrix_file::file_of(&known::paper_matrix())),
        ("Report 114's example".to_string(), matrix_file::file_of(&known::report_example())),
        ("Report 114's grid".to_string(), matrix_file::file_of(&load::grid(3))),
        ("Report 114's grid in its order".to_string(), matrix_file::file_of(&known::grid_ordered(&known::GRID_ORDER))),
        ("n = 64, e = 1,024".to_string(), matrix_file::file_of(&full(64, 1_024))),
        ("n = 64, the whole lower and upper side filled".to_string(), matrix_file::file_of(&bordered(64))),
        ("the paper's file, each entry twice".to_string(), matrix_file::file_of(&load::halved(&known::paper_matrix()))),
        ("n = 64, each entry twice".to_string(), matrix_file::file_of(&load::halved(&load::tridiagonal(64)))),
        ("n = 1, e = 1,024".to_string(), matrix_file::file_of(&load::parts_of_one(1_024))),
        ("n = 1, e = 2,048".to_string(), matrix_file::file_of(&load::parts_of_one(2_048))),
        ("n = 65".to_string(), matrix_file::file_of(&load::tridiagonal(65))),
        ("e = 1,025".to_string(), headed(33, 1_025, 22)),
        ("n = 5,000".to_string(), headed(5_000, 1, 1)),
        ("n = 0".to_string(), headed(0, 0, 1)),
        ("e = 65,537".to_string(), headed(2, 65_537, 1)),
        ("a block of zeros too many".to_string(), headed(1, 0, 2)),
    ];
    let whole = matrix_file::file_of(&full(64, 1_024));
    for length in [0usize, 1, 511, 512, 513, 11_775, 11_776, 11_777, 12_288, 70_000] {
        let mut file = whole.clone();
        file.resize(length, 0);
        files.push((format!("{length} bytes"), file));
    }
    files
}

/// The last row and column full: with row 0 full too every position is filled.
fn bordered(n: usize) -> Input {
    let rows: Vec<Vec<(usize, f64)>> = (0..n)
        .map(|k| {
            let row = |j: usize| (j, if j == k { 100.0 } else { 1.0 });
            if k == 0 {
                (0..n).map(row).collect()
            } else {
                vec![row(0), row(k)]
            }
        })
        .collect();
    load::from_rows(&rows, &vec![1.0; n])
}

/// A small matrix's file, sometimes damaged.
fn random_file(random: &mut Random) -> Vec<u8> {
    let mut file = matrix_file::file_of(&generate::any_input(random));
    if random.per_mille(150) {
        let at = random.below(file.len());
        file[at] ^= random.between(1, 255) as u8;
        if random.per_mille(500) {
            matrix_file::seal(&mut file);
        }
    }
    file
}

/// Runs the program on chosen files and on random ones; a missing program is one failure.
pub fn run(path: &Path, range: Range, tally: &mut Tally) {
    if !path.exists() {
        let missing = compare::differ(path.display().to_string(), "no file", "the program");
        return tally.add(|| "program".to_string(), missing);
    }
    for (name, file) in chosen_files() {
        tally.add(|| format!("program on {name}"), compare_output(path, &file));
    }
    for number in range.numbers() {
        let file = random_file(&mut range.random(number));
        tally.add(|| range.label("program", number), compare_output(path, &file));
    }
}
