//! The call that prints the fill: the shared structure call, and the pages of what it placed.
use super::calls;
use super::fill::Fill;
use super::questions::{self, Asked};
use crate::model::*;

/// The places of a page: its lines but the first.
const PLACES: usize = 49;

/// The bytes of the sheet of n places: each page begun has 50 lines of 40 characters and a newline.
pub fn bytes(n: usize) -> usize {
    50 * 41 * n.div_ceil(PLACES)
}

/// Question 2 of the sheet: has it its length?
fn length(lent: &Printing) -> Asked {
    if lent.sheet.len() == bytes(lent.input.n) {
        return Ok(());
    }
    refuse(2, 0)
}

/// The pages of a matrix, given the run starts of its upper lists.
fn pages(input: &Input, runs: &[u32]) -> String {
    let fill = Fill::of(input);
    let line = |k: usize| {
        let (row, lower, upper, run) = (input.r[k], fill.lower_rows[k].len(), fill.upper[k].len(), runs[k]);
        format!("{k:>6}{row:>8}{lower:>8}{upper:>8}{run:>10}\n")
    };
    let lines: Vec<String> = (0..input.n).map(line).collect();
    let mut text = String::new();
    for (page, places) in lines.chunks(PLACES).enumerate() {
        text += &format!("FILL{:>36}\n", page + 1);
        text += &places.concat();
        text += &format!("{:40}\n", "").repeat(PLACES - places.len());
    }
    text
}

/// Puts questions 1 and 2, then those of the shared structure call, and prints what it placed. The report gets the place
/// and three counts.
pub fn make(lent: &mut Printing) -> u32 {
    let sized = questions::rows(lent.input.n).and_then(|()| length(lent));
    let answer = match sized {
        Ok(()) => calls::run(Call::Structure(Form::Shared), &lent.input, &mut lent.buffers),
        Err(q) => q.into(),
    };
    if answer.number == 0 {
        lent.sheet.copy_from_slice(pages(&lent.input, &lent.buffers.upper.runs).as_bytes());
    }
    let counts = answer.counts;
    let slots = [answer.place, counts.lower, counts.upper, counts.products];
    lent.report.iter_mut().zip(slots).for_each(|(slot, value)| *slot = value);
    answer.number
}
