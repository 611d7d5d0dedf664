//! Random cases of every call: the solver's answer and every exit buffer against the reference.
use super::{masked, Solver, Tally};
use crate::compare::{self, Compared, Difference};
use crate::generate::{self, Case};
use crate::model::*;
use crate::random::Random;
use crate::reference;
use std::collections::BTreeMap;

/// Which cases to run: all numbers below `count`, or one number alone.
#[derive(Clone, Copy)]
pub struct Range {
    pub seed: u64,
    pub count: u64,
    pub only: Option<u64>,
}

impl Range {
    /// The numbers of the cases to run.
    pub fn numbers(&self) -> std::ops::Range<u64> {
        match self.only {
            Some(number) => number..number + 1,
            None => 0..self.count,
        }
    }

    /// The generator of a case.
    pub fn random(&self, number: u64) -> Random {
        Random::for_case(self.seed, number)
    }

    /// What a failed case is called, so that it can be run alone.
    pub fn label(&self, group: &str, number: u64) -> String {
        format!("{group} seed {} case {number}", self.seed)
    }
}

/// How often each call gave each answer: shows that the cases reach every question.
pub type Reached = BTreeMap<(String, u32), u64>;

/// Runs a case on the solver and compares it with what the reference leaves.
pub fn compare_case(solver: &dyn Solver, case: &Case) -> (Answer, Compared) {
    let mut expected = case.buffers.clone();
    let whole = reference::run(case.call, &case.input, &mut expected);
    let answer = masked(case.call, whole, case.report);
    let mut found = case.buffers.clone();
    let result = solver.run(case.call, &case.input, &mut found, case.report).and_then(|given| {
        compare::same("answer", &given, &answer)?;
        compare::buffers(&found, &expected)
    });
    (whole, result)
}

/// Runs a case, compares all with the reference, and hands back what the solver left.
pub fn run_case(solver: &dyn Solver, case: &Case) -> Result<(Answer, Buffers), Difference> {
    compare_case(solver, case).1?;
    let mut buffers = case.buffers.clone();
    let answer = solver.run(case.call, &case.input, &mut buffers, case.report)?;
    Ok((answer, buffers))
}

/// Runs random cases against the reference, and says which answers they met.
pub fn run(solver: &dyn Solver, range: Range, tally: &mut Tally) -> Reached {
    let mut reached = Reached::new();
    for number in range.numbers() {
        let case = generate::case(&mut range.random(number), solver.calls());
        let (answer, result) = compare_case(solver, &case);
        *reached.entry((format!("{:?}", case.call), answer.number)).or_default() += 1;
        if result.is_err() && range.only.is_some() {
            println!("{case:#?}");
        }
        tally.add(|| format!("{} {:?} n {}", range.label("cases", number), case.call, case.input.n), result);
    }
    reached
}

/// Runs random lookups against the reference.
pub fn lookups(solver: &dyn Solver, range: Range, tally: &mut Tally) {
    for number in range.numbers() {
        let (lists, side, place) = generate::lookup_case(&mut range.random(number));
        let expected = reference::lookup(&lists, side, place);
        let result = solver.lookup(&lists, side, place).and_then(|found| compare::same("part", &found, &expected));
        tally.add(
            || format!("{} {:?} {side:?} place {place} n {}", range.label("lookups", number), lists.form, lists.n),
            result,
        );
    }
}

/// The answers that the cases of every call must have met, so that no question goes untried.
pub fn reached_all(solver: &dyn Solver, reached: &Reached, tally: &mut Tally) {
    for &call in solver.calls() {
        for number in numbers_of(call) {
            let met = reached.get(&(format!("{call:?}"), number)).copied().unwrap_or(0);
            let result = compare::at_least("cases that met it", met, 1);
            tally.add(|| format!("{call:?} answer {number} is tried"), result);
        }
    }
}

fn numbers_of(call: Call) -> Vec<u32> {
    match call {
        Call::Structure(_) => vec![0, 1, 2, 3, 4, 5, 7, 9, 10, 11],
        Call::Solve(Form::Row) => vec![0, 1, 2, 3, 4, 5, 6, 7, 9, 11, 12, 13, 19],
        Call::Solve(_) => vec![0, 1, 2, 3, 4, 5, 6, 7, 9, 10, 11, 12, 13, 19],
        Call::Refactor(_) => vec![0, 1, 2, 3, 4, 5, 6, 7, 12, 13, 14, 19],
        Call::Resolve(_) => vec![0, 1, 2, 5, 6, 13, 15],
    }
}
