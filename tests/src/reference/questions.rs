//! Questions 1 to 7 and 19, each by itself. A column may stand several times in a row, so 8 is not asked.
use crate::model::*;

/// A question passed, or its refusal.
pub type Asked = Result<(), Refusal>;

/// Question 1: is n within its limits?
pub fn rows(n: usize) -> Asked {
    if !(1..=MAX_ROWS).contains(&n) {
        return refuse(1, 0);
    }
    Ok(())
}

/// Question 2: are all lent lengths as stated?
pub fn lengths(call: Call, input: &Input, buffers: &Buffers) -> Asked {
    if input_lengths(call, input) && side_lengths(call, input.n, buffers) && rest_lengths(call, input.n, buffers) {
        return Ok(());
    }
    refuse(2, 0)
}

/// Whether matrix, orders and right side have the lengths that the call asks for.
pub fn input_lengths(call: Call, input: &Input) -> bool {
    let n = input.n;
    let orders = input.r.len() == n && input.c.len() == n;
    let e = input.columns.len();
    let matrix = input.starts.len() == n + 1 && e <= MAX_ENTRIES;
    match call {
        Call::Structure(_) => orders && matrix,
        Call::Resolve(_) => orders && input.b.len() == n,
        _ => orders && matrix && input.values.len() == e && input.b.len() == n,
    }
}

fn side_lengths(call: Call, n: usize, buffers: &Buffers) -> bool {
    let form = call.form();
    let upper = store_lengths(form, n, &buffers.upper);
    let lower = form == Form::Row || store_lengths(form, n, &buffers.lower);
    upper && lower
}

fn store_lengths(form: Form, n: usize, store: &Store) -> bool {
    let runs = form == Form::Plain || store.runs.len() == n;
    let slots = store.index.len() <= MAX_SLOTS && store.values.len() <= MAX_SLOTS;
    store.starts.len() == n + 1 && runs && slots
}

fn rest_lengths(call: Call, n: usize, buffers: &Buffers) -> bool {
    let scratch = buffers.scratch_f64.len() == 3 * n && buffers.scratch_u32.len() == 8 * n + 8;
    let whole = buffers.d.len() == n && buffers.x.len() == n;
    scratch && (matches!(call, Call::Structure(_)) || whole)
}

/// Question 3: do starts begin at 0, never fall, and end at e?
pub fn starts(input: &Input) -> Asked {
    let s = &input.starts;
    for row in 0..input.n {
        let wrong_first = row == 0 && s[0] != 0;
        let falls = s[row + 1] < s[row];
        let wrong_end = row == input.n - 1 && s[row + 1] as usize != input.columns.len();
        if wrong_first || falls || wrong_end {
            return refuse(3, row);
        }
    }
    Ok(())
}

/// Question 4: is each column below n?
pub fn columns(input: &Input) -> Asked {
    match input.columns.iter().position(|&j| j as usize >= input.n) {
        Some(entry) => refuse(4, entry),
        None => Ok(()),
    }
}

/// Question 5: are r and then c orders?
pub fn orders(n: usize, r: &[u16], c: &[u16]) -> Asked {
    if let Some(k) = order_fault(n, r) {
        return refuse(5, k);
    }
    if let Some(k) = order_fault(n, c) {
        return refuse(5, k + n);
    }
    Ok(())
}

fn order_fault(n: usize, order: &[u16]) -> Option<usize> {
    (0..n).find(|&k| order[k] as usize >= n || order[..k].contains(&order[k]))
}

/// Question 6: are the numbers finite? Places count from `from`.
pub fn finite(numbers: &[f64], from: usize) -> Asked {
    match numbers.iter().position(|v| !v.is_finite()) {
        Some(p) => refuse(6, p + from),
        None => Ok(()),
    }
}

/// Question 19: is the floor finite and not negative? -0 counts as 0.
pub fn floor(floor: f64) -> Asked {
    if floor.is_finite() && floor >= 0.0 {
        return Ok(());
    }
    refuse(19, 0)
}

/// The entries of own row `row`.
pub fn row_range(input: &Input, row: usize) -> std::ops::Range<usize> {
    input.starts[row] as usize..input.starts[row + 1] as usize
}

/// Question 7: by k, has each row an entry?
pub fn entries(input: &Input) -> Asked {
    for &row in &input.r {
        if row_range(input, row as usize).is_empty() {
            return refuse(7, row as usize);
        }
    }
    Ok(())
}

/// Puts questions 3 to 7 as the call does, 19 behind 6; the structure call skips these two.
pub fn before_nine(call: Call, input: &Input) -> Asked {
    starts(input)?;
    columns(input)?;
    orders(input.n, &input.r, &input.c)?;
    if !matches!(call, Call::Structure(_)) {
        finite(&input.values, 0)?;
        finite(&input.b, input.values.len())?;
        floor(input.floor)?;
    }
    entries(input)
}
