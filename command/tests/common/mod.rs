//! What the tests share: running the command, files of their own.
#![allow(dead_code)]
use std::path::{Path, PathBuf};
use std::process::{Command, Output};

pub fn command() -> Command {
    Command::new(env!("CARGO_BIN_EXE_lilac"))
}

/// Runs the command with these words.
pub fn lilac(words: &[&str]) -> Output {
    command().args(words).output().expect("the command runs")
}

pub fn example(name: &str) -> String {
    text_of(&Path::new(env!("CARGO_MANIFEST_DIR")).join("../examples").join(name))
}

/// A new file of the test's own; every name is used by one test only.
pub fn file(name: &str, contents: impl AsRef<[u8]>) -> String {
    let path = own(name);
    std::fs::write(&path, contents).expect("a file of the test's own is written");
    path
}

/// A path of the test's own, with nothing there yet.
pub fn own(name: &str) -> String {
    let path: PathBuf = Path::new(env!("CARGO_TARGET_TMPDIR")).join(name);
    let _ = std::fs::remove_file(&path);
    text_of(&path)
}

fn text_of(path: &Path) -> String {
    path.to_str().expect("test paths are text").to_string()
}

pub fn out(output: &Output) -> String {
    String::from_utf8(output.stdout.clone()).expect("standard output is text")
}

pub fn err(output: &Output) -> String {
    String::from_utf8(output.stderr.clone()).expect("standard error is text")
}

/// Status 0 and nothing on standard error; what was printed.
pub fn done(words: &[&str]) -> String {
    let output = lilac(words);
    assert_eq!((output.status.code(), err(&output).as_str()), (Some(0), ""), "{words:?}");
    out(&output)
}

/// This status, one line on standard error and nothing printed; the line.
pub fn failed(status: i32, words: &[&str]) -> String {
    let output = lilac(words);
    let line = err(&output);
    assert_eq!(output.status.code(), Some(status), "{words:?}: {line}");
    assert_eq!(out(&output), "", "{words:?}");
    assert!(line.lines().count() == 1 && line.ends_with('\n'), "{words:?}: not one line: {line:?}");
    assert!(line.len() < 2500 && !line.contains("panicked"), "{words:?}: {line}");
    line
}

/// A tridiagonal matrix of n rows.
pub fn tridiagonal(n: usize) -> String {
    let mut text = format!("%%MatrixMarket matrix coordinate real general\n{n} {n} {}\n", 3 * n - 2);
    for i in 1..=n {
        for j in i.saturating_sub(1).max(1)..=(i + 1).min(n) {
            text.push_str(&format!("{i} {j} {}\n", if i == j { 4 } else { -1 }));
        }
    }
    text
}
