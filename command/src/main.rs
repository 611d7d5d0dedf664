//! The command `lilac`: solves sparse systems with the proved library, shows their fill, converts their files, makes a
//! test load, checks scores.
#![deny(unsafe_code)]

mod arguments;
mod check;
#[allow(unsafe_code)]
mod closed;
mod commands;
mod convert;
mod facts;
mod fault;
mod help;
mod input;
mod output;
mod picture;
mod progress;

use arguments::Task;
use fault::Fault;
use output::Place;
use std::process::ExitCode;

fn main() -> ExitCode {
    let (numbers, end) = match arguments::parse(std::env::args_os().skip(1).collect()) {
        Ok(task) => (refusals_as_numbers(&task), run(task)),
        Err(line) => (false, Err(Fault::Bad(line))),
    };
    match end {
        Ok(()) => ExitCode::SUCCESS,
        Err(fault) => {
            fault.tell(numbers);
            ExitCode::from(fault.status())
        }
    }
}

fn refusals_as_numbers(task: &Task) -> bool {
    match task {
        Task::Help(_) | Task::Version => false,
        Task::Solve(solve) => solve.numbers,
        Task::Factor(factor) => factor.numbers,
        Task::Convert(convert) => convert.numbers,
        Task::Load(load) => load.numbers,
        Task::Check(check) => check.numbers,
        Task::Structure { numbers, .. } | Task::Picture { numbers, .. } | Task::Sheet { numbers, .. } => *numbers,
    }
}

fn run(task: Task) -> Result<(), Fault> {
    match task {
        Task::Help(topic) => Ok(output::write(Place::Standard, help::text(topic).as_bytes())?),
        Task::Version => {
            let line = concat!("lilac ", env!("CARGO_PKG_VERSION"), "\n");
            Ok(output::write(Place::Standard, line.as_bytes())?)
        }
        Task::Solve(solve) => commands::solve(&solve),
        Task::Factor(factor) => commands::factor(&factor),
        Task::Structure { file, orders, .. } => commands::structure(&file, &orders),
        Task::Convert(convert) => convert::convert(&convert),
        Task::Picture { file, orders, out, .. } => commands::picture(&file, &orders, out.as_deref()),
        Task::Sheet { file, orders, out, .. } => commands::sheet(&file, &orders, out.as_deref()),
        Task::Load(load) => commands::load(&load),
        Task::Check(check) => check::check(&check),
    }
}
