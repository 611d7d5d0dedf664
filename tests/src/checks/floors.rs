//! Floors under pivots, in every call that factors: at, just below and just above the magnitude of each pivot, floors
//! that are refused, and which refusal comes first. Beside the reference's answer stands one that is worked out from
//! its pivots by the bits of their magnitudes.
use super::cases::{run_case, Range};
use super::faults::{empty_last_row, no_slots, number_in, Fault};
use super::{forms, Solver, Tally};
use crate::compare::{self, Compared, Difference};
use crate::generate::{self, beside, Case, BAD_FLOORS, FLOORS};
use crate::load;
use crate::model::*;
use crate::random::Random;
use crate::reference;

const LEAST: f64 = f64::from_bits(1);

fn diagonal(values: &[f64]) -> Input {
    let rows: Vec<Vec<(usize, f64)>> = values.iter().enumerate().map(|(k, &v)| vec![(k, v)]).collect();
    load::from_rows(&rows, &vec![1.0; values.len()])
}

/// Row 0, column 0 and the diagonal are full, the rest is fill.
fn arrow() -> Input {
    let rows = [vec![(0, 9.0), (1, 1.0), (2, 1.0)], vec![(0, 1.0), (1, -9.0)], vec![(0, 1.0), (2, 9.0)]];
    load::from_rows(&rows, &[1.0; 3])
}

/// Pivot 1 is fill: -1.
fn filled_pivot() -> Input {
    load::from_rows(&[vec![(0, 2.0), (1, 2.0)], vec![(0, 1.0)]], &[1.0; 2])
}

/// At place 1 a result of step 2 overflows beside a pivot of 1; pivot 0 is 4.
fn overflowing() -> Input {
    load::from_rows(&[vec![(0, 4.0), (2, f64::MAX)], vec![(0, 16.0), (1, 1.0)], vec![(2, 1.0)]], &[1.0; 3])
}

/// Runs the case under a floor, compares all with the reference, and hands back what the solver left.
fn run_under(solver: &dyn Solver, case: &Case, floor: f64) -> Result<(Answer, Buffers), Difference> {
    let mut case = case.clone();
    case.input.floor = floor;
    run_case(solver, &case)
}

/// A call over noise, with stores as long as they can be needed.
fn case_of(random: &mut Random, call: Call, input: &Input) -> Case {
    generate::over_noise(random, call, input, Slots::all(input.n * input.n))
}

// ---- answers that are written out

/// A system, floors, and what every call answers under each: number and place.
struct Known {
    name: &'static str,
    input: Input,
    answers: Vec<(f64, u32, u64)>,
}

/// The answers with the pivots 4, -2 and 1.
fn of_three_pivots() -> Vec<(f64, u32, u64)> {
    let mut answers = vec![(0.0, 0, 0), (-0.0, 0, 0), (LEAST, 0, 0), (f64::MAX, 12, 0)];
    for (pivot, below, at) in [(1.0, (0, 0), (12, 2)), (2.0, (12, 2), (12, 1)), (4.0, (12, 1), (12, 0))] {
        let floors = beside(pivot).into_iter().zip([below, at, at]);
        answers.extend(floors.map(|(floor, (number, place))| (floor, number, place)));
    }
    answers
}

fn known_answers() -> [Known; 4] {
    let [below_four, ..] = beside(4.0);
    [
        Known { name: "pivots 4, -2, 1", input: diagonal(&[4.0, -2.0, 1.0]), answers: of_three_pivots() },
        Known {
            name: "a result of step 2 overflows beside a small pivot",
            input: overflowing(),
            answers: vec![(0.0, 13, 1), (1.0, 13, 1), (below_four, 13, 1), (4.0, 12, 0)],
        },
        Known {
            name: "a pivot whose reciprocal overflows",
            input: diagonal(&[1.0, -LEAST, 1.0]),
            answers: vec![(0.0, 13, 1), (-0.0, 13, 1), (LEAST, 12, 1), (f64::from_bits(2), 12, 1), (1.0, 12, 0)],
        },
        Known {
            name: "pivots 1, -0",
            input: diagonal(&[1.0, -0.0]),
            answers: vec![(0.0, 12, 1), (-0.0, 12, 1), (LEAST, 12, 1)],
        },
    ]
}

fn known(solver: &dyn Solver, random: &mut Random, tally: &mut Tally) {
    for Known { name, input, answers } in known_answers() {
        for call in FACTORING {
            let case = case_of(random, call, &input);
            for &(floor, number, place) in &answers {
                let found = run_under(solver, &case, floor);
                let result = found.and_then(|(answer, _)| {
                    compare::same("number and place", &(answer.number, answer.place), &(number, place))
                });
                tally.add(|| format!("floor {floor:e} with {name}, {call:?} ({})", solver.name()), result);
            }
        }
    }
}

// ---- every pivot of small systems

/// Each place in turn has the least pivot, of either sign; then systems with entries beside the diagonal.
fn small_systems() -> Vec<Input> {
    let mut systems =
        vec![arrow(), filled_pivot(), overflowing(), load::grid(3), load::tridiagonal(6), load::test_load(9, 1)];
    for n in 1..=4 {
        for k in 0..n {
            for least in [3.0, -3.0, 1e-300, -1e-300, LEAST, -LEAST, 0.0, -0.0] {
                let mut values = vec![8.0, -16.0, 32.0, -64.0][..n].to_vec();
                values[k] = least;
                systems.push(diagonal(&values));
            }
        }
    }
    systems
}

/// The floors to try with a system: the magnitudes of its pivots, the numbers beside them, and those of the list.
fn floors_of(pivots: &[f64]) -> Vec<f64> {
    let mut floors: Vec<f64> = pivots.iter().flat_map(|pivot| beside(pivot.abs())).collect();
    floors.extend(FLOORS);
    floors
}

/// The place of the first pivot whose magnitude is at most the floor; numbers of no sign are ordered as their bits are.
fn first_low(pivots: &[f64], floor: f64) -> Option<usize> {
    let magnitude = |v: f64| v.to_bits() & !(1 << 63);
    pivots.iter().position(|&pivot| magnitude(pivot) <= magnitude(floor))
}

/// Under a sound floor the call answers 12 at the first low pivot, or leaves all that it leaves under 0.
fn sound(solver: &dyn Solver, case: &Case, pivots: &[f64], floor: f64) -> Compared {
    let (answer, buffers) = run_under(solver, case, floor)?;
    if let Some(place) = first_low(pivots, floor) {
        return compare::same("answer", &answer, &Refusal { number: 12, place: place as u64 }.into());
    }
    let (under_zero, left) = run_under(solver, case, 0.0)?;
    compare::same("answer beside that under 0", &answer, &under_zero)?;
    compare::buffers(&buffers, &left)
}

/// A refused floor gives 19 and no place, and leaves what a value that is not finite leaves.
fn refused(solver: &dyn Solver, case: &Case, floor: f64) -> Compared {
    let (answer, buffers) = run_under(solver, case, floor)?;
    compare::same("answer", &answer, &Refusal { number: 19, place: 0 }.into())?;
    let mut infinite = case.clone();
    infinite.input.values[0] = f64::INFINITY;
    let (other, left) = run_under(solver, &infinite, 0.0)?;
    compare::same("number with a value that is not finite", &other.number, &6)?;
    compare::buffers(&buffers, &left)
}

/// The floors 0 and -0 give the same answer and leave the same bits.
fn zeros(solver: &dyn Solver, case: &Case) -> Compared {
    let (answer, buffers) = run_under(solver, case, 0.0)?;
    let (other, left) = run_under(solver, case, -0.0)?;
    compare::same("answer under -0", &other, &answer)?;
    compare::buffers(&left, &buffers)
}

/// The three solves agree under the floor.
fn alike(solver: &dyn Solver, random: &mut Random, input: &Input, floor: f64) -> Compared {
    let input = Input { floor, ..input.clone() };
    let mut cases = [Form::Plain, Form::Shared, Form::Row].map(|form| case_of(random, Call::Solve(form), &input));
    forms::agree(solver, &mut cases)
}

fn every_pivot(solver: &dyn Solver, random: &mut Random, tally: &mut Tally) {
    for (number, input) in small_systems().iter().enumerate() {
        let pivots = reference::pivots(input);
        let name = |what: &str, floor: f64| format!("floor {floor:e} of system {number}, {what} ({})", solver.name());
        for call in FACTORING {
            let case = case_of(random, call, input);
            for floor in floors_of(&pivots) {
                tally.add(|| name(&format!("{call:?}"), floor), sound(solver, &case, &pivots, floor));
            }
            for floor in BAD_FLOORS {
                tally.add(|| name(&format!("{call:?}"), floor), refused(solver, &case, floor));
            }
            tally.add(|| name(&format!("{call:?}, both zeros"), 0.0), zeros(solver, &case));
        }
        for floor in floors_of(&pivots).into_iter().chain(BAD_FLOORS) {
            tally.add(|| name("three forms", floor), alike(solver, random, input, floor));
        }
    }
}

// ---- which refusal comes first

/// Takes the entry (0, 0) out, which no fill puts back.
fn no_pivot(case: &mut Case) {
    case.input.columns.remove(0);
    case.input.values.remove(0);
    case.input.starts[1..].iter_mut().for_each(|start| *start -= 1);
}

/// Makes (1, 1) a second entry at (1, 0); fill keeps the pivot, and the lists stay.
fn sum_overflows(case: &mut Case) {
    case.input.columns[4] = 0;
    case.input.values[3..5].fill(f64::MAX);
}

/// The faults of a case of the arrow that come before 19, with their numbers under the floor 0.
const BEFORE: [Fault; 9] = [
    ("n = 0", |case| case.input.n = 0, [1; 3]),
    ("n = 4,097", |case| case.input.n = 4_097, [1; 3]),
    ("x is short", |case| case.buffers.x.truncate(2), [2; 3]),
    ("starts begin at 1", |case| case.input.starts[0] = 1, [3; 3]),
    ("a column is n", |case| case.input.columns[4] = 3, [4; 3]),
    ("r is no order", |case| case.input.r[1] = 0, [5; 3]),
    ("c is no order", |case| case.input.c[2] = 1, [5; 3]),
    ("a value is infinite", |case| case.input.values[6] = f64::INFINITY, [6; 3]),
    ("b has a NaN", |case| case.input.b[2] = f64::NAN, [6; 3]),
];

/// The faults that 19 comes before. The row form has no lower side, and solves write over list starts.
const BEHIND: [Fault; 8] = [
    ("a row is empty", empty_last_row, [7; 3]),
    ("a sum that overflows", sum_overflows, [13; 3]),
    ("a null pivot", no_pivot, [9, 9, 14]),
    ("no lower slots", |case| no_slots(&mut case.buffers.lower), [10, 0, 14]),
    ("no upper slots", |case| no_slots(&mut case.buffers.upper), [11, 11, 14]),
    ("another list start", |case| case.buffers.upper.starts[1] = 7, [0, 0, 14]),
    ("a zero pivot", |case| case.input.values[0] = 0.0, [12; 3]),
    ("an overflow", |case| case.input.values[0] = LEAST, [13; 3]),
];

/// The fault's number under the floor 0, then its answer beside a refused floor: its own where it comes first, or 19.
fn both(solver: &dyn Solver, case: &Case, numbers: [u32; 3], first: bool, floor: f64) -> Compared {
    let number = number_in(case.call, numbers);
    let (alone, _) = run_under(solver, case, 0.0)?;
    compare::same("number of the fault alone", &alone.number, &number)?;
    let (answer, _) = run_under(solver, case, floor)?;
    let expected = if first { alone } else { Refusal { number: 19, place: 0 }.into() };
    compare::same("answer with the floor", &answer, &expected)
}

fn order(solver: &dyn Solver, random: &mut Random, tally: &mut Tally) {
    let before = BEFORE.iter().map(|fault| (fault, true));
    for (&(name, make, numbers), first) in before.chain(BEHIND.iter().map(|fault| (fault, false))) {
        for call in FACTORING {
            let mut case = case_of(random, call, &arrow());
            make(&mut case);
            for floor in BAD_FLOORS {
                let result = both(solver, &case, numbers, first, floor);
                tally.add(|| format!("floor {floor:e}, {name}, {call:?} ({})", solver.name()), result);
            }
        }
    }
}

/// Checks every chosen floor.
pub fn limits(solver: &dyn Solver, seed: u64, tally: &mut Tally) {
    let random = &mut Random::new(seed);
    known(solver, random, tally);
    every_pivot(solver, random, tally);
    order(solver, random, tally);
}

// ---- random systems

/// One random system under the magnitude of one of its pivots, the numbers beside it, one of the lists each.
fn any_system(solver: &dyn Solver, random: &mut Random, input: &Input, pivots: &[f64]) -> Compared {
    let pivot = if pivots.is_empty() { 0.0 } else { random.pick(pivots) };
    let [below, at, above] = beside(pivot.abs());
    let (other, bad) = (random.pick(&FLOORS), random.pick(&BAD_FLOORS));
    for call in FACTORING {
        let case = case_of(random, call, input);
        for floor in [below, at, above, other] {
            sound(solver, &case, pivots, floor)?;
        }
        refused(solver, &case, bad)?;
        zeros(solver, &case)?;
    }
    for floor in [below, at, above, other, bad] {
        alike(solver, random, input, floor)?;
    }
    Ok(())
}

/// Random systems under floors taken from their pivots; of many, at least half must have one that is not zero.
pub fn run(solver: &dyn Solver, range: Range, tally: &mut Tally) {
    let mut with_pivots = 0;
    for number in range.numbers() {
        let random = &mut range.random(number);
        let n = random.pick(&[1, 2, 3, 5, 8, 13, 21]);
        let input = generate::sound_input(random, n);
        let pivots = reference::pivots(&input);
        with_pivots += u64::from(pivots.iter().any(|&pivot| pivot != 0.0));
        let result = any_system(solver, random, &input, &pivots);
        tally.add(|| format!("{} {} n {n}", range.label("floors", number), solver.name()), result);
    }
    if range.only.is_none() {
        let enough = compare::at_least("systems with a pivot that is not zero", with_pivots, range.count / 2);
        tally.add(|| format!("floors seed {} {}", range.seed, solver.name()), enough);
    }
}
