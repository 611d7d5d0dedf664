//! Every block of the documents is run: shell blocks with what they print, programs, and calls in Rattle.
pub mod parse;
pub mod planted;
pub mod rattle;
pub mod scratch;
#[cfg(feature = "library")]
pub mod tables;

use crate::checks::header::repository;
use crate::checks::Tally;
use crate::compare::{self, differ, Compared, Difference};
use parse::{parse, Block, Kind};
use scratch::Scratch;
use std::io;
use std::process::{Command, Output};

/// The block that runs this among the tests, so that it cannot be run from here.
const GATE: &str = "bash .ci/run\n";
/// The Rattle program for the calls that README.md shows.
const TOUR: &str = "tests/tour/main.txt";

/// A text of the repository.
pub fn text_of(path: &str) -> Result<String, Difference> {
    std::fs::read_to_string(repository().join(path)).or_else(|error| differ(path, error.to_string(), "a file"))
}

/// The end of what a command wrote.
pub fn tail(output: &Output) -> String {
    let text = [&output.stdout[..], &output.stderr[..]].concat();
    let text = String::from_utf8_lossy(&text).into_owned();
    let from = text.char_indices().rev().nth(800).map_or(0, |(at, _)| at);
    text[from..].to_string()
}

/// A command that ended well, or how it ended.
fn succeeded(what: &str, output: io::Result<Output>) -> Result<Output, Difference> {
    match output {
        Ok(output) if output.status.success() => Ok(output),
        Ok(output) => differ(what, tail(&output), "success"),
        Err(error) => differ(what, error.to_string(), "a run"),
    }
}

/// Runs a shell block; where an output stands behind it, that is what it must print.
fn shell(scratch: &Scratch, script: &str, expected: Option<&str>) -> Compared {
    if script == GATE {
        return gate();
    }
    let output = succeeded("sh", scratch.run(".", &["sh", "-euc", script]))?;
    let printed = String::from_utf8_lossy(&output.stdout);
    expected.map_or(Ok(()), |expected| compare::same("standard output", &&*printed, &expected))
}

/// The gate itself is what runs now: it must call the proofs and the tests, and the tests this.
fn gate() -> Compared {
    let calls = [(".ci/run", " rt ci"), (".ci/run", " bash tests/run.sh"), ("tests/run.sh", " --bin blocks")];
    for (path, call) in calls {
        let called = text_of(path)?.lines().any(|line| !line.starts_with('#') && line.ends_with(call));
        compare::same(&format!("{path} calls{call}"), &called, &true)?;
    }
    Ok(())
}

/// Runs a whole Rust program over the crate.
fn program(scratch: &Scratch, text: &str) -> Compared {
    let manifest = "[package]\nname = \"block\"\nversion = \"0.1.0\"\nedition = \"2021\"\n\n\
                    [dependencies]\nlilacpliers = { path = \"../rust\" }\n";
    let written = scratch.write("block/Cargo.toml", manifest).and_then(|()| scratch.write("block/src/main.rs", text));
    let run = || scratch.run("block", &["cargo", "run", "--quiet", "--offline"]);
    succeeded("cargo run", written.and_then(|()| run())).map(|_| ())
}

fn file(scratch: &Scratch, name: &str, text: &str) -> Compared {
    scratch.write(name, text).or_else(|error| differ(name, error.to_string(), "written"))
}

/// Runs one block, with the block behind it; an output is compared with its shell block.
fn run_block(scratch: &Scratch, block: &Block, next: Option<&Block>) -> Compared {
    let output = next.filter(|next| next.kind == Kind::Output).map(|next| next.text.as_str());
    match &block.kind {
        Kind::Shell => shell(scratch, &block.text, output),
        Kind::Program => program(scratch, &block.text),
        Kind::File(name) => file(scratch, name, &block.text),
        Kind::Output | Kind::Rattle => Ok(()),
    }
}

/// Runs the blocks of a text in order, in a folder of their own.
pub fn run_text(name: &str, text: &str, tally: &mut Tally) {
    let blocks = match parse(text) {
        Ok(blocks) => blocks,
        Err(difference) => return tally.add(|| name.to_string(), Err(difference)),
    };
    let scratch = match Scratch::new() {
        Ok(scratch) => scratch,
        Err(error) => return tally.add(|| name.to_string(), differ("scratch", error.to_string(), "a folder")),
    };
    for (at, block) in blocks.iter().enumerate() {
        if !matches!(block.kind, Kind::Output | Kind::Rattle) {
            tally.add(|| block.name(name), run_block(&scratch, block, blocks.get(at + 1)));
        }
    }
    let calls: String = blocks.iter().filter(|block| block.kind == Kind::Rattle).map(|block| &*block.text).collect();
    if !calls.is_empty() {
        let tried = text_of(TOUR).and_then(|program| rattle::run(&scratch, &calls, &program));
        tally.add(|| format!("{name}, the calls in Rattle"), tried);
    }
}

/// The command is built from its own folder first, so that the blocks find it built.
fn built() -> Compared {
    succeeded("./lilac --help", Command::new(repository().join("lilac")).arg("--help").output()).map(|_| ())
}

/// Runs the blocks of the documents.
pub fn run(documents: &[&str], tally: &mut Tally) {
    tally.add(|| "the command lilac".to_string(), built());
    for name in documents {
        match text_of(name) {
            Ok(text) => run_text(name, &text, tally),
            Err(difference) => tally.add(|| name.to_string(), Err(difference)),
        }
    }
}
