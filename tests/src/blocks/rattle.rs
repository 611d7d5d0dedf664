//! The Rattle calls of a document, run: they fill the places of a program, which `rt try` runs without proof. Arguments
//! are called as the parameters that they stand for, so that an exchange of two of one type is told too.
use super::scratch::{copy_all, Scratch};
use super::{tail, text_of};
use crate::checks::header::repository;
use crate::compare::{self, differ, Compared, Difference};
use std::collections::{BTreeMap, BTreeSet};
use std::fs;
use std::io;

/// A line of the program that begins with this mark stands for the statement that calls the function it names.
const MARK: &str = "//@ ";
/// The crates that the program uses besides those of the calls.
const ALWAYS: [&str; 3] = ["check", "base", "matrix"];

/// The statements of the blocks, each by the function that it calls.
fn statements(text: &str) -> Result<BTreeMap<String, String>, Difference> {
    let mut found = BTreeMap::new();
    for statement in text.split_inclusive(";\n").filter(|part| !part.trim().is_empty()) {
        let called = statement.split_once(" = ").and_then(|(_, call)| call.split_once('(')).map(|(name, _)| name);
        let whole = statement.trim_start().starts_with("let ") && statement.ends_with(");\n");
        match called {
            Some(name) if whole && !found.contains_key(name) => found.insert(name.to_string(), statement.to_string()),
            _ => return differ("a Rattle statement", statement, "let NAME = one call that stands there once;"),
        };
    }
    Ok(found)
}

/// The parts of a list between commas.
fn parts(list: &str) -> Vec<&str> {
    list.split(',').map(str::trim).filter(|part| !part.is_empty()).collect()
}

/// The parameters of a public function, with their types; a method may have its name.
fn parameters<'a>(text: &'a str, name: &str) -> Vec<&'a str> {
    let method = format!("{name}(self");
    let mut functions = text.split("pub fn ").filter(|part| !part.starts_with(&method));
    let declared = functions.find(|part| part.split(['(', '<']).next() == Some(name));
    let list = declared.and_then(|part| part.split_once('(')?.1.split_once(')'));
    parts(list.map_or("", |(list, _)| list))
}

/// Checks that the arguments of a call that are names are those of the parameters in their places.
pub fn arguments_alike(called: &str, statement: &str) -> Compared {
    let (home, name) = called.split_once("::").unwrap_or(("", called));
    let text = text_of(&format!("crates/{home}/src/lib.rt"))?;
    let list = statement.split_once('(').and_then(|(_, rest)| rest.rsplit_once(')'));
    let (arguments, parameters) = (parts(list.map_or("", |(list, _)| list)), parameters(&text, name));
    compare::same(&format!("arguments of {called}"), &arguments.len(), &parameters.len())?;
    for (argument, parameter) in arguments.into_iter().zip(parameters) {
        if argument.chars().all(|c| c == '_' || c.is_ascii_lowercase()) {
            let parameter = parameter.split(':').next().unwrap_or(parameter);
            compare::same(&format!("argument of {called}"), &argument, &parameter)?;
        }
    }
    Ok(())
}

/// The program with each place filled by its statement, none left over on either side.
fn fill(program: &str, mut statements: BTreeMap<String, String>) -> Result<String, Difference> {
    let mut text = String::new();
    for line in program.lines() {
        match line.trim_start().strip_prefix(MARK) {
            None => text.push_str(&format!("{line}\n")),
            Some(name) => match statements.remove(name) {
                Some(statement) => text.push_str(&statement),
                None => return differ("calls of the document", "no such statement", name),
            },
        }
    }
    match statements.into_keys().next() {
        Some(name) => differ("tests/tour/main.txt", "no place", name),
        None => Ok(text),
    }
}

/// The line of crates.txt for the program.
fn crates_line(program: &str) -> String {
    let called = program.lines().filter_map(|line| line.trim_start().strip_prefix(MARK)?.split_once("::"));
    let names: BTreeSet<&str> = called.map(|(name, _)| name).chain(ALWAYS).collect();
    format!("tour: {}\n", names.into_iter().collect::<Vec<_>>().join(" "))
}

/// A repository of the same sources with the program as one crate more. rt takes no links to other folders.
fn repository_with(scratch: &Scratch, program: &str, filled: &str) -> io::Result<()> {
    let listed = fs::read_to_string(repository().join("crates.txt"))?;
    scratch.write("tour/crates.txt", &format!("{listed}{}", crates_line(program)))?;
    scratch.write("tour/crates/tour/src/main.rt", filled)?;
    for item in fs::read_dir(repository().join("crates"))? {
        let item = item?;
        let sources = item.path().join("src");
        if sources.is_dir() {
            copy_all(&sources, &scratch.folder.join("tour/crates").join(item.file_name()).join("src"))?;
        }
    }
    Ok(())
}

/// Runs the calls of a document's blocks in the program.
pub fn run(scratch: &Scratch, blocks: &str, program: &str) -> Compared {
    let statements = statements(blocks)?;
    statements.iter().try_for_each(|(called, statement)| arguments_alike(called, statement))?;
    let filled = fill(program, statements)?;
    let tried = repository_with(scratch, program, &filled).and_then(|()| scratch.run("tour/crates/tour", &["rt", "try"]));
    match tried {
        Ok(output) if output.status.success() => Ok(()),
        Ok(output) => differ("rt try", tail(&output), "every check of tests/tour/main.txt met"),
        Err(error) => differ("rt try", error.to_string(), "a run"),
    }
}
