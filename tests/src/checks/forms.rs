//! The three solves on one input and floor: where none is short of slots, the same answer and the same x bit for bit.
use super::cases::Range;
use super::{Solver, Tally};
use crate::compare::{self, Compared};
use crate::generate::{self, Case};
use crate::reference;

/// Runs the three solves, none of them short of slots, and compares answers and x.
pub fn agree(solver: &dyn Solver, cases: &mut [Case; 3]) -> Compared {
    let before = cases.clone();
    let mut answers = Vec::new();
    for case in cases.iter_mut() {
        answers.push(solver.run(case.call, &case.input, &mut case.buffers, case.report)?);
    }
    for other in 1..3 {
        let name = format!("{:?} against {:?}", cases[other].call, cases[0].call);
        compare::same(&format!("answer of {name}"), &answers[other], &answers[0])?;
        if answers[0].number == 0 {
            compare::floats(&format!("x of {name}"), &cases[other].buffers.x, &cases[0].buffers.x)?;
        }
    }
    for (case, old) in cases.iter().zip(&before) {
        if answers[0].number != 0 {
            compare::floats("x after a refusal", &case.buffers.x, &old.buffers.x)?;
        }
    }
    Ok(())
}

/// Only inputs with no form short of slots are compared: of many, at least half must be of that kind.
pub fn run(solver: &dyn Solver, range: Range, tally: &mut Tally) {
    let mut compared = 0;
    for number in range.numbers() {
        let (input, mut cases) = generate::three_forms(&mut range.random(number));
        let short = cases.iter().any(|case| reference::is_short(case.call.form(), &input, &case.buffers));
        if short {
            continue;
        }
        compared += 1;
        let result = agree(solver, &mut cases);
        tally.add(|| format!("{} {} n {}", range.label("forms", number), solver.name(), input.n), result);
    }
    if range.only.is_none() {
        let enough = compare::at_least("inputs in three forms", compared, range.count / 2);
        tally.add(|| format!("forms seed {} {}", range.seed, solver.name()), enough);
    }
}
