//! The test load: its bytes wherever they go, what the other commands make of it, and what is refused.
mod common;
use common::{command, done, err, failed, lilac, own};
use lilacpliers::System;
use std::fs::File;
use std::process::Stdio;

fn read(path: &str) -> Vec<u8> {
    std::fs::read(path).expect("the file is there")
}

/// A load in a file of the test's own.
fn load(name: &str, n: &str, seed: &str) -> String {
    let path = own(name);
    assert_eq!(done(&["load", n, seed, "-o", &path]), "");
    path
}

#[test]
fn a_file_and_standard_output_have_the_librarys_bytes() {
    for (n, seed) in [(1, 0), (5, 1), (300, 65_535), (4_096, 7)] {
        let due = System::test_load(n, seed).and_then(|system| system.write()).expect("a load");
        let (n, seed) = (n.to_string(), seed.to_string());
        assert!(read(&load(&format!("load_{n}.lp"), &n, &seed)) == due, "{n}");
        for words in [&["load", &n, &seed][..], &["load", &n, &seed, "-o", "-"]] {
            let output = lilac(words);
            assert_eq!((output.status.code(), err(&output).as_str()), (Some(0), ""), "{words:?}");
            assert!(output.stdout == due, "{words:?}");
        }
    }
}

#[test]
fn any_other_name_is_a_matrix_file() {
    let due = read(&load("named.lp", "9", "1"));
    for name in ["named", "named.load", "named.mtx.lp", "named.lf.lp", "mtx", "lf"] {
        assert!(read(&load(name, "9", "1")) == due, "{name}");
    }
}

#[test]
fn the_name_of_a_factor_file_is_refused() {
    for name in ["load.lf", "load.LF", ".lf"] {
        let path = own(name);
        let line = failed(2, &["load", "9", "1", "-o", &path]);
        assert!(line.contains("a load is a matrix, and a name that ends in .lf is a factor file's"), "{line}");
        assert!(!std::path::Path::new(&path).exists(), "{name}");
    }
}

#[test]
fn a_market_file_is_the_same_load() {
    let text = load("load_text.MTX", "5", "1");
    let first = "%%MatrixMarket matrix coordinate real general\n5 5 16\n1 1 4.0\n1 4 -1.0\n1 3 -1.0\n2 2 4.0\n";
    assert!(read(&text).starts_with(first.as_bytes()));
    for (n, seed) in [("5", "1"), ("64", "12345")] {
        let file = load(&format!("same_{n}.lp"), n, seed);
        let text = load(&format!("same_{n}.mtx"), n, seed);
        let (back, there) = (own(&format!("back_{n}.lp")), own(&format!("there_{n}.mtx")));
        // Neither way leaves anything behind, or it would be said.
        done(&["convert", &text, &back]);
        done(&["convert", &file, &there]);
        assert!(read(&back) == read(&file) && read(&there) == read(&text), "{n}");
    }
}

#[test]
fn the_fill_has_its_figures() {
    let table = done(&["structure", &load("fill.lp", "256", "1")]);
    let words: Vec<Vec<&str>> = table.lines().map(|line| line.split_whitespace().collect()).collect();
    let due = [
        "rows 256",
        "stored entries 1018",
        "filled below the diagonal 7513",
        "filled above the diagonal 7515",
        "products 368580",
        "lower index 2946",
        "upper index 3744",
    ];
    for line in due {
        assert!(words.iter().any(|found| found.join(" ") == line), "{line}: {table}");
    }
}

#[test]
fn three_forms_solve_it_alike() {
    let file = load("forms.lp", "256", "1");
    let [plain, shared, row] = ["plain", "shared", "row"].map(|form| done(&["solve", &file, "--hex", "--form", form]));
    assert!(plain.lines().count() == 256 && plain == shared && plain == row);
    assert_eq!(plain, done(&["solve", &load("forms.mtx", "256", "1"), "--hex"]));
}

#[test]
fn a_load_goes_down_a_pipe() {
    let mut first = command().args(["load", "5", "1"]).stdout(Stdio::piped()).spawn().expect("the command runs");
    let pipe = first.stdout.take().expect("a pipe");
    let second = command().args(["solve", "-", "--hex"]).stdin(pipe).output().expect("the command runs");
    assert!(first.wait().expect("the command ends").success());
    assert_eq!(common::out(&second), done(&["solve", &load("piped.lp", "5", "1"), "--hex"]));
}

/// The master of a new terminal counts as one. A machine without terminals has none to be spared.
#[test]
fn a_terminal_gets_no_matrix_file() {
    for words in [&["load", "5", "1"][..], &["load", "5", "1", "-o", "-"]] {
        let Ok(terminal) = File::options().read(true).write(true).open("/dev/ptmx") else { return };
        let child = command().args(words).stdout(terminal).stderr(Stdio::piped()).spawn().expect("the command runs");
        let output = child.wait_with_output().expect("the command ends");
        assert_eq!(output.status.code(), Some(2));
        assert_eq!(err(&output), "lilac: a matrix file is no text for a terminal: -o FILE writes it to a file\n");
    }
}

#[test]
fn rows_out_of_the_limits_are_refused() {
    for n in ["0", "000", "4097", "65536", "65537", "18446744073709551615"] {
        let path = own("refused_load.lp");
        let line = failed(1, &["load", n, "1", "-o", &path]);
        let rows: usize = n.parse().expect("a number");
        assert_eq!(line, format!("lilac: load: a test load has 1 to 4096 rows, not {rows}\n"));
        assert_eq!(failed(1, &["load", n, "1", "-o", &path, "--refusals", "numbers"]), "refused 1 0\n");
        assert!(!std::path::Path::new(&path).exists(), "{n}");
    }
}

#[test]
fn words_that_are_no_numbers_are_named() {
    let long = "9".repeat(400);
    let bad = ["", " ", "x", "1.0", "1e3", "0x10", "+1", "1 ", "-1", "\u{0661}", "18446744073709551616", &long];
    for word in bad {
        let named = format!("{word:?}");
        let (rows, seed) = (failed(2, &["load", "--", word, "1"]), failed(2, &["load", "--", "5", word]));
        assert!(rows.contains("N is a decimal number, 1 to 4096") && rows.contains(&named), "{rows}");
        assert!(seed.contains("SEED is a decimal number, 0 to 65535") && seed.contains(&named), "{seed}");
    }
    assert!(failed(2, &["load", "5", "65536"]).contains("SEED is a decimal number, 0 to 65535, not \"65536\""));
    assert!(failed(2, &["load", "-5", "1"]).contains("\"-5\""));
}

#[test]
fn words_too_few_and_too_many() {
    assert!(failed(2, &["load"]).contains("N and SEED"));
    assert!(failed(2, &["load", "5"]).contains("only \"5\""));
    assert!(failed(2, &["load", "5", "1", "load.lp"]).contains("\"load.lp\" is one word too many"));
    assert!(failed(2, &["load", "5", "1", "-o"]).contains("--output needs a word"));
    assert!(failed(2, &["load", "5", "1", "--right", "b.txt"]).contains("\"--right\" is no option of load"));
}

#[test]
fn help_tells_of_it() {
    assert!(done(&["--help"]).contains("lilac load N SEED"));
    assert!(done(&["help", "load"]).starts_with("lilac load N SEED [options]\n"));
    assert_eq!(done(&["load", "--help"]), done(&["help", "load"]));
    assert!(failed(2, &["laod", "5", "1"]).contains("picture, sheet or load"));
}
