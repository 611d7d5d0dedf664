//! Runs all checks and ends with one line, `N passed, M failed`.
//!
//! Options: --seed S (default 1), --cases N (random cases of the calls, default 40000), --case K (that one alone),
//! --only GROUP (one of GROUPS).
use lilacpliers_tests::checks::cases::Range;
use lilacpliers_tests::checks::*;
use std::process::ExitCode;

const GROUPS: [&str; 17] = [
    "known",
    "consistency",
    "cases",
    "lookups",
    "forms",
    "floors",
    "repeats",
    "residuals",
    "reuse",
    "damaged",
    "files",
    "kept",
    "loads",
    "sheets",
    "nulls",
    "program",
    "header",
];

struct Options {
    seed: u64,
    cases: u64,
    case: Option<u64>,
    only: Option<String>,
}

fn number(text: Option<String>, option: &str) -> Result<u64, String> {
    let text = text.ok_or(format!("{option} wants a number"))?;
    text.parse().map_err(|_| format!("{option} wants a number, not {text}"))
}

fn group(text: Option<String>) -> Result<String, String> {
    text.filter(|text| GROUPS.contains(&text.as_str())).ok_or(format!("--only wants one of {GROUPS:?}"))
}

fn options() -> Result<Options, String> {
    let mut options = Options { seed: 1, cases: 40_000, case: None, only: None };
    let mut words = std::env::args().skip(1);
    while let Some(word) = words.next() {
        match word.as_str() {
            "--seed" => options.seed = number(words.next(), "--seed")?,
            "--cases" => options.cases = number(words.next(), "--cases")?,
            "--case" => options.case = Some(number(words.next(), "--case")?),
            "--only" => options.only = Some(group(words.next())?),
            _ => return Err(format!("unknown option {word}")),
        }
    }
    Ok(options)
}

impl Options {
    fn wants(&self, group: &str) -> bool {
        self.only.as_deref().is_none_or(|only| only == group)
    }

    fn range(&self, count: u64) -> Range {
        Range { seed: self.seed, count, only: self.case }
    }
}

fn check_reference(options: &Options, tally: &mut Tally) {
    if options.wants("known") {
        known::near_fails(tally);
        known::run(&Reference, tally);
        printed::known_outputs(tally);
    }
    if options.wants("consistency") {
        consistency::run(options.range(options.cases / 10), tally);
    }
    if options.wants("forms") {
        forms::run(&Reference, options.range(options.cases / 4), tally);
    }
    if options.wants("floors") {
        floors::limits(&Reference, options.seed, tally);
        floors::run(&Reference, options.range(options.cases / 40), tally);
    }
    if options.wants("repeats") {
        repeats::limits(&Reference, options.seed, tally);
        repeats::run(&Reference, options.range(options.cases / 40), tally);
    }
    if options.wants("residuals") {
        residuals::limits(&Reference, options.seed, tally);
        residuals::large(&Reference, options.seed, tally);
        residuals::run(&Reference, options.range(options.cases / 10), tally);
    }
    if options.wants("sheets") {
        sheets::reading(tally);
    }
    if options.wants("files") {
        files::examples(tally);
        files::round_trips(&Reference, options.range(options.cases / 20), tally);
    }
    if options.wants("kept") {
        kept::limits(&Reference, options.seed, tally);
        kept::run(&Reference, options.range(options.cases / 40), tally);
    }
}

fn check_library(library: &dyn Solver, options: &Options, tally: &mut Tally) {
    if options.wants("known") {
        known::run(library, tally);
    }
    if options.wants("cases") {
        let reached = cases::run(library, options.range(options.cases), tally);
        if options.only.is_some() {
            reached.iter().for_each(|((call, number), met)| println!("{call} answer {number}: {met} cases"));
        }
        if options.case.is_none() && options.cases >= 20_000 {
            cases::reached_all(library, &reached, tally);
        }
    }
    if options.wants("lookups") {
        cases::lookups(library, options.range(options.cases / 4), tally);
    }
    if options.wants("forms") {
        forms::run(library, options.range(options.cases / 4), tally);
    }
    if options.wants("floors") {
        floors::limits(library, options.seed, tally);
        floors::run(library, options.range(options.cases / 10), tally);
    }
    if options.wants("repeats") {
        repeats::limits(library, options.seed, tally);
        repeats::large(library, options.seed, tally);
        repeats::run(library, options.range(options.cases / 10), tally);
    }
    if options.wants("residuals") {
        residuals::limits(library, options.seed, tally);
        residuals::large(library, options.seed, tally);
        residuals::run(library, options.range(options.cases / 2), tally);
    }
    if options.wants("reuse") {
        consistency::reuse(library, options.range(options.cases / 10), tally);
    }
    check_library_files(library, options, tally);
    if options.wants("loads") {
        loads::limits(library, options.seed, tally);
        loads::run(library, options.range(options.cases / 100), tally);
    }
    if options.wants("sheets") {
        sheets::limits(library, options.seed, tally);
        sheets::large(library, options.seed, tally);
        sheets::run(library, options.range(options.cases / 10), tally);
    }
}

fn check_library_files(library: &dyn Solver, options: &Options, tally: &mut Tally) {
    if options.wants("damaged") {
        files::damaged(library, options.seed, tally);
    }
    if options.wants("files") {
        files::lengths(library, options.seed, tally);
        files::heads(library, tally);
        files::too_many_entries(library, tally);
        files::round_trips(library, options.range(options.cases / 20), tally);
    }
    if options.wants("kept") {
        kept::limits(library, options.seed, tally);
        kept::damage(library, options.seed, tally);
        kept::large(library, options.seed, tally);
        kept::run(library, options.range(options.cases / 10), tally);
    }
}

fn check_nulls(options: &Options, tally: &mut Tally) {
    let library = Library { nulls: true };
    nulls::run(&library, tally);
    cases::run(&library, options.range(options.cases / 10), tally);
    cases::lookups(&library, options.range(options.cases / 20), tally);
    files::round_trips(&library, options.range(options.cases / 40), tally);
    kept::run(&library, options.range(options.cases / 40), tally);
    sheets::run(&library, options.range(options.cases / 40), tally);
    residuals::limits(&library, options.seed, tally);
}

fn main() -> ExitCode {
    let options = match options() {
        Ok(options) => options,
        Err(message) => {
            eprintln!("{message}");
            return ExitCode::from(2);
        }
    };
    println!("seed {}", options.seed);
    let mut tally = Tally::default();
    check_reference(&options, &mut tally);
    check_library(&Library { nulls: false }, &options, &mut tally);
    if options.wants("nulls") {
        check_nulls(&options, &mut tally);
    }
    if options.wants("program") {
        printed::run(&printed::executable(), options.range(options.cases / 100), &mut tally);
    }
    if options.wants("header") {
        header::run(&mut tally);
        signatures::run(&mut tally);
    }
    tally.close()
}
