//! The tables of docs/GUIDE.md: memory is what the library needs, found by running it; refusals and limits are those of
//! the header.
use super::text_of;
use crate::checks::{loads, Library, Solver, Tally};
use crate::compare::{self, Compared, Difference};
use crate::load;
use crate::model::*;

const GUIDE: &str = "docs/GUIDE.md";
const HEADER: &str = "include/lilacpliers.h";
const FORMS: [(Form, &str); 3] = [(Form::Plain, "plain"), (Form::Shared, "shared"), (Form::Row, "row")];
/// The refusals for want of slots.
const SHORT: [u32; 2] = [10, 11];

/// The systems of the memory table.
fn systems() -> Result<[(&'static str, Input); 3], Difference> {
    let library = Library { nulls: false };
    Ok([
        ("test load, n = 1,024", loads::made(&library, 1_024, 1)?),
        ("test load, n = 2,048", loads::made(&library, 2_048, 1)?),
        ("grid of 64 by 64, n = 4,096", load::grid(64)),
    ])
}

/// The index and value slots that a side's lists use; the last list of a side is empty and stands behind all others.
fn used(store: &Store) -> (usize, usize) {
    let values = store.starts.last().map_or(0, |&end| end as usize);
    (store.runs.last().map_or(values, |&run| run as usize), values)
}

/// The slots that a solve needs in a form, by a structure call with stores of the greatest length.
fn needed(form: Form, input: &Input) -> Result<Slots, Difference> {
    let kept = if form == Form::Plain { Form::Plain } else { Form::Shared };
    let call = Call::Structure(kept);
    let mut buffers = Buffers::for_call(call, input.n, Slots::all(MAX_SLOTS));
    let answer = Library { nulls: false }.run(call, input, &mut buffers, 4)?;
    compare::same("answer of the structure call", &answer.number, &0)?;
    let ((lower_index, lower_values), (upper_index, upper_values)) = (used(&buffers.lower), used(&buffers.upper));
    let slots = Slots { lower_index, lower_values, upper_index, upper_values };
    Ok(if form == Form::Row { Slots { lower_index: 0, lower_values: 0, ..slots } } else { slots })
}

/// Solves with stores of these lengths: the number of the answer, and the bytes lent besides matrix, orders, b and x.
fn solved(form: Form, input: &Input, slots: Slots) -> Result<(u32, usize), Difference> {
    let mut buffers = Buffers::for_call(Call::Solve(form), input.n, slots);
    let bytes = lent(&buffers);
    Ok((Library { nulls: false }.run(Call::Solve(form), input, &mut buffers, 4)?.number, bytes))
}

fn lent(buffers: &Buffers) -> usize {
    let side = |store: &Store| {
        size_of_val(&store.starts[..])
            + size_of_val(&store.runs[..])
            + size_of_val(&store.index[..])
            + size_of_val(&store.values[..])
    };
    let rest = size_of_val(&buffers.d[..]) + size_of_val(&buffers.scratch_f64[..]);
    side(&buffers.lower) + side(&buffers.upper) + rest + size_of_val(&buffers.scratch_u32[..])
}

/// The same with one slot fewer in one of the stores, where there is one.
fn shorter(slots: Slots) -> Vec<Slots> {
    let Slots { lower_index, lower_values, upper_index, upper_values } = slots;
    let fewer = |count: usize| count.checked_sub(1);
    [
        fewer(lower_index).map(|lower_index| Slots { lower_index, ..slots }),
        fewer(lower_values).map(|lower_values| Slots { lower_values, ..slots }),
        fewer(upper_index).map(|upper_index| Slots { upper_index, ..slots }),
        fewer(upper_values).map(|upper_values| Slots { upper_values, ..slots }),
    ]
    .into_iter()
    .flatten()
    .collect()
}

/// A row of the memory table; a solve must take just these stores and none shorter.
fn memory_row(name: &str, (form, word): (Form, &str), input: &Input) -> Result<String, Difference> {
    let slots = needed(form, input)?;
    let (number, bytes) = solved(form, input, slots)?;
    compare::same("answer with the stores of the table", &number, &0)?;
    for slots in shorter(slots) {
        let (number, _) = solved(form, input, slots)?;
        compare::same("refused for a slot", &SHORT.contains(&number), &true)?;
    }
    let Slots { lower_index, lower_values, upper_index, upper_values } = slots;
    let numbers = [lower_index, lower_values, upper_index, upper_values, bytes].map(grouped);
    Ok(format!("| {name} | {word} | {} |", numbers.join(" | ")))
}

/// A number with a comma after each thousand.
fn grouped(number: usize) -> String {
    if number < 1_000 {
        return number.to_string();
    }
    format!("{},{:03}", grouped(number / 1_000), number % 1_000)
}

/// A table is what it should be: the rows that begin so, in order.
fn same_rows(text: &str, begin: impl Fn(&str) -> bool, expected: &[String]) -> Compared {
    let found: Vec<&str> = text.lines().filter(|line| begin(line)).collect();
    for (at, row) in expected.iter().enumerate() {
        compare::same("row", &found.get(at).copied().unwrap_or("none"), &row.as_str())?;
    }
    compare::same("rows", &found.len(), &expected.len())
}

fn memory() -> Compared {
    let mut rows = Vec::new();
    for (name, input) in systems()? {
        for form in FORMS {
            rows.push(memory_row(name, form, &input)?);
        }
    }
    same_rows(&text_of(GUIDE)?, |line| line.starts_with("| test load,") || line.starts_with("| grid of"), &rows)
}

/// The numbers that the header names, in order: those with a comment behind them are the refusals.
fn named(refusals: bool) -> Result<Vec<(String, usize)>, Difference> {
    let mut found = Vec::new();
    for line in text_of(HEADER)?.lines() {
        let words: Vec<&str> = line.split_whitespace().collect();
        if let ["#define", name, number, rest @ ..] = &words[..] {
            if let Ok(number) = number.parse() {
                found.extend((refusals != rest.is_empty()).then(|| (name.to_string(), number)));
            }
        }
    }
    Ok(found)
}

/// The table of refusals begins each row with the header's number and name, in order.
fn refusals() -> Compared {
    let named = named(true)?;
    compare::same("refusals of the header", &named.len(), &21)?;
    let expected: Vec<String> = named.iter().map(|(name, number)| format!("| {number} | `{name}` |")).collect();
    let cells = |line: &str| line.split_inclusive('|').take(3).collect::<String>() + "\n";
    let begins: String = text_of(GUIDE)?.lines().map(cells).collect();
    same_rows(&begins, |line| line.ends_with("` |") && line.contains("| `LP_"), &expected)
}

/// The table of limits ends each row with the header's number and name, in order.
fn limits() -> Compared {
    let named: Vec<_> = named(false)?.into_iter().filter(|(name, _)| name.starts_with("LP_MAX_")).collect();
    compare::same("limits of the header", &named.len(), &3)?;
    let row = |(name, number): &(String, usize)| format!("| {} | `{name}` |", grouped(*number));
    let expected: Vec<String> = named.iter().map(row).collect();
    let guide = text_of(GUIDE)?;
    let cut = |line: &str| line.split_once(" | ").map(|(_, rest)| format!("| {rest}\n"));
    let ends: String = guide.lines().filter(|line| line.contains("`LP_MAX_")).filter_map(cut).collect();
    same_rows(&ends, |_| true, &expected)
}

/// Checks the three tables.
pub fn run(tally: &mut Tally) {
    tally.add(|| format!("memory table of {GUIDE}"), memory());
    tally.add(|| format!("refusals of {GUIDE}"), refusals());
    tally.add(|| format!("limits of {GUIDE}"), limits());
}
