//! A list asked for by side and place.
use crate::model::*;

/// What is lent to a lookup: both sides' list starts, run starts (shared only) and index stores.
#[derive(Clone, Debug)]
pub struct Lists {
    pub form: Form,
    pub n: usize,
    pub lower: Store,
    pub upper: Store,
}

/// Offset and length of the part within the index store of the named side.
pub fn lookup(lists: &Lists, side: Side, place: usize) -> (usize, usize) {
    find(lists, side, place).unwrap_or((0, 0))
}

fn find(lists: &Lists, side: Side, place: usize) -> Option<(usize, usize)> {
    let n = lists.n;
    let sized = (1..=MAX_ROWS).contains(&n) && fits(lists, &lists.lower) && fits(lists, &lists.upper);
    if !sized || place >= n {
        return None;
    }
    let store = match side {
        Side::Lower => &lists.lower,
        Side::Upper => &lists.upper,
    };
    let length = (store.starts[place + 1] as usize).checked_sub(store.starts[place] as usize)?;
    let run = match lists.form {
        Form::Plain => store.starts[place] as usize,
        _ => store.runs[place] as usize,
    };
    if run + length > store.index.len() {
        return None;
    }
    Some((run, length))
}

fn fits(lists: &Lists, store: &Store) -> bool {
    let runs = lists.form == Form::Plain || store.runs.len() == lists.n;
    store.starts.len() == lists.n + 1 && runs && store.index.len() <= MAX_SLOTS
}
