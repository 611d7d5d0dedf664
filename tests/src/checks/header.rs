//! The C headers: each read by a C compiler, and used by a C program with the library.
use super::Tally;
use crate::compare::{self, Compared};
use std::path::PathBuf;
use std::process::Command;

/// The repository's root.
pub fn repository() -> PathBuf {
    PathBuf::from(env!("CARGO_MANIFEST_DIR")).join("..")
}

const WARNINGS: [&str; 5] = ["-std=c99", "-Wall", "-Wextra", "-Werror", "-pedantic"];

fn gcc(program: &str) -> Command {
    let root = repository();
    let mut command = Command::new("gcc");
    command.args(WARNINGS).arg("-I").arg(root.join("include")).arg(root.join(format!("tests/c/{program}.c")));
    command
}

/// Runs a command; what it wrote to its error output is shown where it fails.
fn succeeds(what: &str, mut command: Command) -> Compared {
    match command.output() {
        Ok(output) if output.status.success() => Ok(()),
        Ok(output) => compare::differ(what, String::from_utf8_lossy(&output.stderr).into_owned(), "success"),
        Err(error) => compare::differ(what, error.to_string(), "a run"),
    }
}

fn syntax(program: &str) -> Compared {
    let mut command = gcc(program);
    command.arg("-fsyntax-only");
    succeeds("gcc -fsyntax-only", command)
}

fn linked(name: &str) -> Compared {
    let folder = std::env::temp_dir().join(format!("lilacpliers-header-{}", std::process::id()));
    if let Err(error) = std::fs::create_dir_all(&folder) {
        return compare::differ("temporary folder", error.to_string(), "made");
    }
    let program = folder.join(name);
    let mut command = gcc(name);
    command.arg(repository().join("crates/capi/out/libcapi.a")).arg("-o").arg(&program);
    let result = succeeds("gcc", command).and_then(|()| succeeds(name, Command::new(&program)));
    let _ = std::fs::remove_dir_all(&folder);
    result
}

/// Checks the headers by themselves, and with C programs that use the library.
pub fn run(tally: &mut Tally) {
    tally.add(|| "C header".to_string(), syntax("header_test"));
    tally.add(|| "C program over the library".to_string(), linked("header_test"));
    tally.add(|| "C header of the residual".to_string(), syntax("residual_test"));
    tally.add(|| "C program over the library, the residual".to_string(), linked("residual_test"));
}
