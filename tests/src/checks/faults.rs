//! Faults that are made in a case beside another one, to see which is answered first.
use crate::generate::Case;
use crate::model::*;

/// A fault: its name, what makes it, and the number answered by a solve that keeps L, by the row form and by refactor.
pub type Fault = (&'static str, fn(&mut Case), [u32; 3]);

/// The number that a call answers, of a fault's three.
pub fn number_in(call: Call, numbers: [u32; 3]) -> u32 {
    match call {
        Call::Refactor(_) => numbers[2],
        Call::Solve(Form::Row) => numbers[1],
        _ => numbers[0],
    }
}

pub fn empty_last_row(case: &mut Case) {
    let input = &mut case.input;
    let end = input.starts[input.n - 1];
    input.starts[input.n] = end;
    input.columns.truncate(end as usize);
    input.values.truncate(end as usize);
}

pub fn no_slots(store: &mut Store) {
    store.index.clear();
    store.values.clear();
}
