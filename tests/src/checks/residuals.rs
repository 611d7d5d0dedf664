//! The residual and the width of a row: the answer bit by bit against the reference, and both promises on them by exact
//! arithmetic.
use super::cases::Range;
use super::{Solver, Tally};
use crate::compare::{self, Compared, Difference};
use crate::exact::{self, Natural};
use crate::generate;
use crate::load;
use crate::model::*;
use crate::random::Random;
use crate::reference::{self, questions, residual};

/// The exact residual lies within the width, and the width is at most (2q + 10)·S/2^53 + (2q + 4)/2^1074.
fn promises(m: &Input, x: &[f64], row: usize, found: f64, width: f64) -> Compared {
    let entries = questions::row_range(m, row);
    let q = entries.len() as u64;
    let mut left = exact::value(m.b[row]);
    let mut sum = exact::size(m.b[row]);
    for p in entries {
        let (value, score) = (m.values[p], x[m.columns[p] as usize]);
        left = left.less(&exact::product(value, score));
        sum = sum.plus(&exact::product_size(value, score));
    }
    let off = left.less(&exact::value(found)).size();
    compare::same("the exact residual lies within the width", &(off <= exact::size(width)), &true)?;
    let whole = Natural::new(2 * q + 10).times(&sum);
    let most = whole.plus(&Natural::new(2 * q + 4).shifted(exact::UNIT - 1_074 + 53));
    compare::same("the width is within its bound", &(exact::size(width).shifted(53) <= most), &true)
}

/// Asks for a row, compares all that is lent with the reference, and puts the promises to a pair.
pub fn compare_row(solver: &dyn Solver, lent: &Checking) -> Result<u32, Difference> {
    let mut expected = lent.clone();
    let number = residual::make(&mut expected);
    let mut found = lent.clone();
    compare::same("number", &solver.residual(&mut found)?, &number)?;
    compare::numbers("report", &found.report, &expected.report)?;
    compare::floats("pair", &found.pair, &expected.pair)?;
    if number == 0 && found.pair.len() >= 2 {
        promises(&lent.input, &lent.x, lent.row as usize, found.pair[0], found.pair[1])?;
    }
    Ok(number)
}

/// A call over noise, with a pair and a report of so many slots.
fn lent(random: &mut Random, input: &Input, x: &[f64], row: u32, pair: usize, report: usize) -> Checking {
    let pair = (0..pair).map(|_| generate::dirty_float(random)).collect();
    Checking { input: input.clone(), x: x.to_vec(), row, pair, report: generate::dirty_report(random, report) }
}

/// One row of entries (value, x), each with a column of its own.
fn row_of(entries: &[(f64, f64)], right: f64) -> (Input, Vec<f64>) {
    let mut rows = vec![entries.iter().enumerate().map(|(j, &(value, _))| (j, value)).collect::<Vec<_>>()];
    rows.resize(entries.len().max(1), vec![(0, 1.0)]);
    let mut b = vec![0.0; rows.len()];
    b[0] = right;
    let mut x: Vec<f64> = entries.iter().map(|&(_, score)| score).collect();
    x.resize(rows.len(), 0.0);
    (load::from_rows(&rows, &b), x)
}

/// Rows whose residual and width were worked out by another program: entries, b, and both numbers' bits.
type Known = (&'static [(f64, f64)], f64, u64, u64);

const TINY: f64 = f64::from_bits(1);
const HALF_OF_MAX: f64 = f64::from_bits(0x7FDF_FFFF_FFFF_FFFF);

const KNOWN: [Known; 6] = [
    (&[(3.0, 1.0 / 3.0)], 1.0, 0, 0x3CD8_0000_0000_0000),
    (&[(TINY, 0.5)], 0.0, 0, 1),
    (&[(TINY, -0.5)], -0.0, 0, 1),
    (&[(0.1, 0.3), (-0.3, 0.001), (7.0, 1e-17)], 0.1, 0x3FB1_FF2E_48E8_A719, 0x3CA4_D916_872B_0210),
    (&[(0.1, 3.0), (0.2, 3.0)], 0.9, 0xBCA0_0000_0000_0000, 0x3CDC_CCCC_CCCC_CCCE),
    (&[(HALF_OF_MAX, 1.0)], HALF_OF_MAX, 0, 0x7CC7_FFFF_FFFF_FFFF),
];

fn known(solver: &dyn Solver, random: &mut Random, tally: &mut Tally) {
    for (entries, right, residual, width) in KNOWN {
        let (input, x) = row_of(entries, right);
        let mut asked = lent(random, &input, &x, 0, 2, 4);
        let result = compare_row(solver, &asked).and_then(|number| {
            compare::same("number", &number, &0)?;
            solver.residual(&mut asked)?;
            compare::floats("pair", &asked.pair, &[f64::from_bits(residual), f64::from_bits(width)])
        });
        tally.add(|| format!("residual of {entries:?} and {right:e}"), result);
    }
}

/// The exact check refuses a width of 0 where the exact residual is 2^-54, and twice the width that the row has.
fn promises_refuse(tally: &mut Tally) {
    let (entries, right, residual, width) = KNOWN[0];
    let (input, x) = row_of(entries, right);
    let width = f64::from_bits(width);
    for (tried, kept) in [(0.0, false), (width, true), (2.0 * width, false)] {
        let found = promises(&input, &x, 0, f64::from_bits(residual), tried).is_ok();
        tally.add(|| format!("a width of {tried:e}"), compare::same("both promises hold", &found, &kept));
    }
}

/// One change of a call that it must answer with a number at a place.
type Change = (&'static str, fn(&mut Checking), u32, u64);

const CHANGES: [Change; 26] = [
    ("nothing", |_| (), 0, 0),
    ("n = 0", |lent| lent.input.n = 0, 1, 0),
    ("n over its limit", |lent| lent.input.n = MAX_ROWS + 1, 1, 0),
    ("n of 2^63", |lent| lent.input.n = 1 << 63, 1, 0),
    ("a start less", |lent| lent.input.starts.truncate(3), 2, 0),
    ("a column more", |lent| lent.input.columns.push(0), 2, 0),
    ("a value less", |lent| lent.input.values.truncate(4), 2, 0),
    ("b one short", |lent| lent.input.b.truncate(2), 2, 0),
    ("x one long", |lent| lent.x.push(0.0), 2, 0),
    ("starts that fall", |lent| lent.input.starts[2] = 0, 3, 1),
    ("starts and a column at fault", |lent| (lent.input.starts[2], lent.input.columns[4]) = (0, 3), 3, 1),
    ("a column of 3", |lent| lent.input.columns[4] = 3, 4, 4),
    ("a column of 3 and row 3", |lent| (lent.input.columns[4], lent.row) = (3, 3), 4, 4),
    ("row 3", |lent| lent.row = 3, 5, 3),
    ("row 3 and a value of NaN", |lent| (lent.row, lent.input.values[0]) = (3, f64::NAN), 5, 3),
    ("the greatest row", |lent| lent.row = u32::MAX, 5, u32::MAX as u64),
    ("row 2^16", |lent| lent.row = 1 << 16, 5, 1 << 16),
    ("a value of another row", |lent| lent.input.values[4] = f64::INFINITY, 6, 4),
    ("a value and b", |lent| (lent.input.values[4], lent.input.b[0]) = (f64::NAN, f64::NAN), 6, 4),
    ("b of another row", |lent| lent.input.b[2] = f64::NAN, 6, 7),
    ("b and x", |lent| (lent.input.b[2], lent.x[0]) = (f64::NAN, f64::NAN), 6, 7),
    ("x of no column of the row", |lent| lent.x[2] = f64::NEG_INFINITY, 6, 10),
    ("x and an empty row", |lent| (lent.x[2], lent.row) = (f64::NAN, 1), 6, 10),
    ("the empty row", |lent| lent.row = 1, 7, 1),
    ("a product over the greatest number", |lent| (lent.input.values[1], lent.x[1]) = (1e200, 1e200), 22, 0),
    ("T alone over it", |lent| (lent.input.b[0], lent.input.values[0], lent.x[0]) = (1.5e308, 1.5e308, 1.0), 22, 0),
];

/// Three rows: the second is empty, the first has a column twice.
fn three() -> (Input, Vec<f64>) {
    let rows = [vec![(0, 2.0), (1, -1.0), (0, 0.5)], vec![], vec![(2, 4.0), (0, -0.25)]];
    (load::from_rows(&rows, &[1.0, 2.0, 3.0]), vec![0.75, -0.5, 0.875])
}

fn changed(solver: &dyn Solver, random: &mut Random, tally: &mut Tally) {
    let (input, x) = three();
    for (name, change, number, place) in CHANGES {
        for (pair, report) in [(2, 4), (0, 0), (1, 1), (3, 2), (2, 6)] {
            let mut asked = lent(random, &input, &x, 0, pair, report);
            change(&mut asked);
            let result = compare_row(solver, &asked).and_then(|found| {
                compare::same("number", &found, &number)?;
                solver.residual(&mut asked)?;
                compare::numbers("place", &asked.report[..report.min(1)], &[place][..report.min(1)])
            });
            tally.add(|| format!("residual, {name}, pair of {pair}, report of {report}"), result);
        }
    }
}

/// The most entries that a row can have, of one column, and each row of a test load at its own solution.
pub fn large(solver: &dyn Solver, seed: u64, tally: &mut Tally) {
    let random = &mut Random::new(seed);
    for e in [4_096, MAX_ENTRIES - 1, MAX_ENTRIES, MAX_ENTRIES + 1] {
        let input = load::parts_of_one(e);
        let asked = lent(random, &input, &[1.0 - f64::EPSILON], 0, 2, 4);
        let number = if e > MAX_ENTRIES { 2 } else { 0 };
        let result = compare_row(solver, &asked).and_then(|found| compare::same("number", &found, &number));
        tally.add(|| format!("residual of a row of {e} entries"), result);
    }
    let input = load::test_load(64, 1);
    let call = Call::Solve(Form::Row);
    let mut buffers = Buffers::for_call(call, input.n, Slots::all(4_096));
    reference::run(call, &input, &mut buffers);
    for row in 0..input.n as u32 {
        let asked = lent(random, &input, &buffers.x, row, 2, 4);
        let result = compare_row(solver, &asked).and_then(|found| compare::same("number", &found, &0));
        tally.add(|| format!("residual of row {row} of a load at its solution"), result);
    }
}

/// Known rows, the exact check itself, and every question in its turn.
pub fn limits(solver: &dyn Solver, seed: u64, tally: &mut Tally) {
    let random = &mut Random::new(seed);
    known(solver, random, tally);
    promises_refuse(tally);
    changed(solver, random, tally);
}

/// The ranges that a row's numbers are drawn from: powers of two about which they lie.
const RANGES: [(i32, i32); 6] = [(-3, 3), (-540, -530), (-1_074, -1_000), (505, 512), (-1_074, 1_000), (0, 0)];

/// A number whose size is about a power of two, with few or all of its digits.
fn number(random: &mut Random, (low, high): (i32, i32)) -> f64 {
    let exponent = low + random.below((high - low + 1) as usize) as i32;
    let all = 1.0 + random.unit();
    let digits = random.pick(&[1.0, 1.5, all, all]);
    let sign = random.pick(&[1.0, -1.0]);
    // In two steps, so that no factor leaves the range before the product does.
    sign * digits * 2f64.powi(exponent / 2) * 2f64.powi(exponent - exponent / 2)
}

/// Columns and values of a row, one column now and then twice.
fn random_row(random: &mut Random, n: usize, range: (i32, i32)) -> Vec<(usize, f64)> {
    let entries = random.between(1, 9);
    (0..entries).map(|_| (random.below(n), number(random, range))).collect()
}

/// A row's b: any number, or about what the products come to, so that they cancel.
fn right_side(random: &mut Random, row: &[(usize, f64)], x: &[f64], range: (i32, i32)) -> f64 {
    let sum: f64 = row.iter().map(|&(j, value)| value * x[j]).sum();
    match random.below(4) {
        0 => number(random, range),
        1 => 0.0,
        _ if sum.is_finite() => sum,
        _ => number(random, range),
    }
}

/// Random rows of every range: subnormal, near overflow, cancelling. At least nine of ten get a pair.
pub fn run(solver: &dyn Solver, range: Range, tally: &mut Tally) {
    let mut pairs = 0;
    for case in range.numbers() {
        let random = &mut range.random(case);
        let (values, scores) = (random.pick(&RANGES), random.pick(&RANGES));
        let n = random.between(1, 6);
        let x: Vec<f64> = (0..n).map(|_| number(random, scores)).collect();
        let rows: Vec<Vec<(usize, f64)>> = (0..n).map(|_| random_row(random, n, values)).collect();
        let b: Vec<f64> = rows.iter().map(|row| right_side(random, row, &x, values)).collect();
        let input = load::from_rows(&rows, &b);
        let row = random.below(n) as u32;
        let asked = lent(random, &input, &x, row, 2, 1);
        let result = compare_row(solver, &asked).map(|number| pairs += u64::from(number == 0));
        tally.add(|| format!("{} {} n {n} row {row}", range.label("residuals", case), solver.name()), result);
    }
    if range.only.is_none() {
        let least = range.count * 9 / 10;
        tally.add(|| "random rows".to_string(), compare::at_least("rows with a pair", pairs, least));
    }
}
