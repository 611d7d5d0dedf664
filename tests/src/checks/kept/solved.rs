//! What a solve or a refactor leaves is kept, read, and solved with.
use super::lengths::{slots, too_many};
use super::{compare_read, compare_write, length_of, lengths_of, told, STORES};
use crate::checks::{Solver, Tally};
use crate::compare::{self, Compared, Difference};
use crate::generate::{self, Case};
use crate::load;
use crate::model::*;
use crate::random::Random;
use crate::reference::factor_file::cut;

/// Another right side over factors of the plain form: the answer and x.
fn resolved(solver: &dyn Solver, kept: &Keeping, b: &[f64]) -> Result<(Answer, Vec<f64>), Difference> {
    let call = Call::Resolve(Form::Plain);
    let mut buffers = Buffers::for_call(call, kept.n, Slots::default());
    (buffers.lower, buffers.upper, buffers.d) = (kept.lower.clone(), kept.upper.clone(), kept.d.clone());
    let input = Input { n: kept.n, r: kept.r.clone(), c: kept.c.clone(), b: b.to_vec(), ..Input::default() };
    let answer = solver.run(call, &input, &mut buffers, 4)?;
    Ok((answer, buffers.x))
}

/// What is read of the written factors, into buffers that held anything, and the file.
fn through_file(solver: &dyn Solver, random: &mut Random, kept: &Keeping) -> Result<(Keeping, Vec<u8>), Difference> {
    let before: Vec<u8> = (0..length_of(kept)).map(|_| random.bits() as u8).collect();
    let (found, file) = compare_write(solver, kept, &before, &[7; 4])?;
    told(&found, (0, 0))?;
    let mut lengths = lengths_of(kept);
    STORES.iter().for_each(|&at| lengths[at] += random.below(3));
    let mut back = generate::dirty_keeping(random, lengths);
    let found = compare_read(solver, &file, &back, &[7; 4])?;
    let Counts { lower, upper, products } = kept.counts;
    compare::same("answer of read", &found, &(0, vec![0, lower, upper, products]))?;
    let mut report = vec![7; 4];
    solver.read_factors(&file, &mut back, &mut report)?;
    (back.n, back.counts) = (kept.n, kept.counts);
    Ok((back, file))
}

/// Solves, keeps the factors, reads them, and solves two right sides with what was read: all bits are the original's, and
/// a solve's. The number of the solve.
pub fn kept_and_solved(
    solver: &dyn Solver,
    random: &mut Random,
    input: &Input,
    slots: usize,
) -> Result<u32, Difference> {
    let call = Call::Solve(Form::Plain);
    let Case { mut buffers, .. } = generate::over_noise(random, call, input, Slots::all(slots));
    let answer = solver.run(call, input, &mut buffers, 4)?;
    if answer.number != 0 {
        return Ok(answer.number);
    }
    let Buffers { lower, upper, d, x, .. } = buffers;
    let kept = Keeping { n: input.n, counts: answer.counts, r: input.r.clone(), c: input.c.clone(), lower, upper, d };
    let (back, file) = through_file(solver, random, &kept)?;
    compare::kept(&cut(&back), &cut(&kept))?;
    let (_, again) = through_file(solver, random, &back)?;
    compare::numbers("the file of what was read", &again, &file)?;
    let (same, found) = resolved(solver, &back, &input.b)?;
    compare::same("number with the solve's right side", &same.number, &0)?;
    compare::floats("x with the solve's right side", &found, &x)?;
    let other: Vec<f64> = input.b.iter().enumerate().map(|(k, v)| 1.0 - 0.5 * v + k as f64).collect();
    let (answer, x) = resolved(solver, &kept, &other)?;
    let (same, found) = resolved(solver, &back, &other)?;
    compare::same("answer with another right side", &same, &answer)?;
    compare::floats("x of another right side", &found, &x)?;
    solved_alike(solver, random, &Input { b: other, ..input.clone() }, slots, &answer, &x)?;
    refactored(solver, random, input, &kept)?;
    Ok(0)
}

/// A solve with the right side gives the number, the place and the x that the factors gave.
fn solved_alike(
    solver: &dyn Solver,
    random: &mut Random,
    input: &Input,
    slots: usize,
    answer: &Answer,
    x: &[f64],
) -> Compared {
    let call = Call::Solve(Form::Plain);
    let Case { mut buffers, .. } = generate::over_noise(random, call, input, Slots::all(slots));
    let whole = solver.run(call, input, &mut buffers, 4)?;
    compare::same("number and place of a solve", &(answer.number, answer.place), &(whole.number, whole.place))?;
    if whole.number == 0 {
        compare::floats("x of a solve", x, &buffers.x)?;
    }
    Ok(())
}

/// Factors of other values are kept too, under the counts of the solve.
fn refactored(solver: &dyn Solver, random: &mut Random, input: &Input, kept: &Keeping) -> Compared {
    let call = Call::Refactor(Form::Plain);
    let values = input.values.iter().map(|value| 2.0 * value).collect();
    let input = Input { values, ..input.clone() };
    let mut buffers = Buffers::for_call(call, input.n, Slots::default());
    (buffers.lower, buffers.upper) = (kept.lower.clone(), kept.upper.clone());
    if solver.run(call, &input, &mut buffers, 4)?.number != 0 {
        return Ok(());
    }
    let Buffers { lower, upper, d, x, .. } = buffers;
    let kept = Keeping { lower, upper, d, ..kept.clone() };
    let (back, _) = through_file(solver, random, &kept)?;
    let (answer, found) = resolved(solver, &back, &input.b)?;
    compare::same("number after refactor", &answer.number, &0)?;
    compare::floats("x after refactor", &found, &x)
}

/// Large systems are kept and solved, and the limits of the stores are met.
pub fn large(solver: &dyn Solver, seed: u64, tally: &mut Tally) {
    slots(solver, tally);
    too_many(solver, tally);
    let random = &mut Random::new(seed);
    let systems = [load::grid(24), load::test_load(300, 1), load::tridiagonal(MAX_ROWS)];
    for (input, entries) in systems.iter().zip([20_000, 40_000, MAX_ROWS]) {
        let result = kept_and_solved(solver, random, input, entries).map(|_| ());
        tally.add(|| format!("factors of {} places kept ({})", input.n, solver.name()), result);
    }
}
