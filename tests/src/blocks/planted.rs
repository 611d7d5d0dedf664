//! Faults planted in documents: each must be told.
use super::scratch::Scratch;
use super::{rattle, run_text};
use crate::checks::Tally;
use crate::compare::{self, Compared};

/// Documents without a fault.
const SOUND: [&str; 3] = [
    "Words.\n\n```sh\necho one\necho two >&2\n```\n\n```text\none\n```\n",
    "```c two.c\nint main(void) { return 0; }\n```\n\nWords.\n\n```sh\ncc two.c -o two\n./two\n```\n",
    "```sh\ntest -f README.md\necho kept >kept.txt\n```\n\n```sh\ncat kept.txt\n```\n```text\nkept\n```\n",
];

/// Documents with one fault each.
const FAULTY: [(&str, &str); 12] = [
    ("another output", "```sh\necho one\n```\n\n```text\ntwo\n```\n"),
    ("a line too many", "```sh\necho one\n```\n\n```text\none\n\n```\n"),
    ("a command that fails", "```sh\nfalse\ntrue\n```\n"),
    ("an unset name", "```sh\necho $UNHEARD_OF\n```\n"),
    ("an indented block", "Words.\n\n    echo one\n"),
    ("a block without a word", "```\necho one\n```\n"),
    ("a block of an unknown word", "```sh and more\necho one\n```\n"),
    ("a block that does not end", "```sh\necho one\n"),
    ("a fence in a list", "- item\n  ```sh\n  echo one\n  ```\n"),
    ("an output of nothing", "```sh\necho one\n```\n\nWords.\n\n```text\none\n```\n"),
    ("a file that nothing uses", "```c two.c\nint main(void) { return 0; }\n```\n\n```sh\ntrue\n```\n"),
    ("a call in Rattle that is not there", "```rattle\nlet answer = plain_form::solve(n);\n```\n"),
];

/// Runs each document by itself: how many checks failed.
fn failures(text: &str) -> u64 {
    let mut tally = Tally::silent();
    run_text("planted", text, &mut tally);
    tally.failed
}

const SHAPE: &str = "let shape = matrix_file::matrix_file_shape(file);\n";

/// A program for one call, which then checks that this holds.
fn program_for_shape(holds: bool) -> String {
    format!(
        "fn shape(file: &[u8]) {{\n    //@ matrix_file::matrix_file_shape\n    check::expect({holds});\n}}\n\n\
         fn main() {{\n    let file = [0u8; 1];\n    shape(&file);\n}}\n"
    )
}

/// The outcome of a call in Rattle, in a program whose check holds or not.
fn rattle_run(holds: bool) -> Compared {
    let scratch = Scratch::new().or_else(|error| compare::differ("scratch", error.to_string(), "a folder"))?;
    rattle::run(&scratch, SHAPE, &program_for_shape(holds))
}

/// A fault that was told.
fn told(result: Compared) -> Compared {
    compare::same("a fault is told", &result.is_err(), &true)
}

fn rattle_faults(tally: &mut Tally) {
    let alike = |list: &str| rattle::arguments_alike("matrix_file::read_matrix", &format!("let end = read({list});"));
    tally.add(|| "a sound call".into(), alike("file, starts, columns, values, r, c, b"));
    tally.add(|| "planted: two arguments exchanged".into(), told(alike("file, starts, columns, values, c, r, b")));
    tally.add(|| "planted: an argument too few".into(), told(alike("file, starts, columns, values, r, c")));
    tally.add(|| "a sound call in Rattle".into(), rattle_run(true));
    tally.add(|| "planted: a check in Rattle that fails".into(), told(rattle_run(false)));
}

/// Checks that a sound document passes and that each planted fault is told.
pub fn run(tally: &mut Tally) {
    for text in SOUND {
        tally.add(|| format!("a sound document: {text:?}"), compare::same("failures", &failures(text), &0));
    }
    for (name, text) in FAULTY {
        tally.add(|| format!("planted: {name}"), compare::same("failures", &failures(text), &1));
    }
    rattle_faults(tally);
}
