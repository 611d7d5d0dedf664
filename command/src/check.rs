//! The command check: how far off each score is, and which neighbours cannot be told apart.
use crate::arguments::{Check, OrderFiles};
use crate::fault::Fault;
use crate::input::{self, shown, Loaded};
use crate::output::{self, decimal, hexadecimal, Place};
use crate::progress;
use lilacpliers::{Error, Matrix, Residual, Residuals, System};

const APART: &str = "      cannot be told apart\n";

pub fn check(asked: &Check) -> Result<(), Fault> {
    let (out, right) = (asked.out.as_deref(), asked.right.as_deref());
    output::apart(&[out], &[Some(&asked.file), Some(&asked.scores), right])?;
    let text = {
        let _sign = progress::during(format!("checking {}", shown(&asked.scores)));
        let loaded = input::load(&asked.file, right, &OrderFiles::default())?;
        let System { matrix, right, .. } = &loaded.system;
        let x = input::vector(&asked.scores, matrix.rows())?;
        let found =
            lilacpliers::Check::new(matrix, right, &x).residuals().map_err(|error| fault(asked, &loaded, error))?;
        table(&ranked(matrix, &x, &found.rows), asked.hex) + &worst(&found)
    };
    Ok(output::write(out.map_or(Place::Standard, Place::of), text.as_bytes())?)
}

/// What the library said about the system, or about a number of the scores.
fn fault(asked: &Check, loaded: &Loaded, error: Error) -> Fault {
    let System { matrix, .. } = &loaded.system;
    let first = (matrix.entries() + matrix.rows()) as u64;
    match &error {
        Error::Refused(refusal) if refusal.number() == 6 && refusal.place() >= first => {
            Fault::about(&shown(&asked.scores), error)
        }
        _ => loaded.fault(error),
    }
}

/// A score, its row's residual, and how far the row's own equation, all other scores held, can move it.
struct Line {
    row: usize,
    score: f64,
    found: Residual,
    play: f64,
}

/// The greatest score first; equal ones by row.
fn ranked(matrix: &Matrix, x: &[f64], found: &[Residual]) -> Vec<Line> {
    let rows = x.iter().zip(found).enumerate();
    let mut lines: Vec<Line> =
        rows.map(|(row, (&score, &found))| Line { row, score, found, play: play(matrix, row, &found) }).collect();
    lines.sort_by(|a, b| b.score.total_cmp(&a.score).then(a.row.cmp(&b.row)));
    lines
}

/// Without end where the row has no value on the diagonal, or one of zero, or where adding its entries overflows.
fn play(matrix: &Matrix, row: usize, found: &Residual) -> f64 {
    let value = own_value(matrix, row).abs();
    if value.is_finite() {
        found.reach() / value
    } else {
        f64::INFINITY
    }
}

/// The value on the diagonal; its entries are added where there are several.
fn own_value(matrix: &Matrix, row: usize) -> f64 {
    matrix.row(row).filter(|&(column, _)| column == row).map(|(_, value)| value).sum()
}

/// Whether the ranges of a score and the next one lie apart. A row without its own column leaves its score any range.
fn apart(line: &Line, next: &Line) -> bool {
    line.score - line.play > next.score + next.play
}

fn table(lines: &[Line], hex: bool) -> String {
    let number = if hex { hexadecimal } else { decimal };
    let mut text = format!("{:>5} {:>24} {:>24} {:>24}\n", "row", "score", "residual", "width");
    for (at, line) in lines.iter().enumerate() {
        let Residual { residual, width } = line.found;
        let numbers = [line.score, residual, width].map(|value| format!(" {:>24}", number(value))).concat();
        text.push_str(&format!("{:>5}{numbers}\n", line.row));
        if lines.get(at + 1).is_some_and(|next| !apart(line, next)) {
            text.push_str(APART);
        }
    }
    text
}

fn worst(found: &Residuals) -> String {
    let ratio = found.rows.get(found.worst).map_or(0.0, Residual::ratio);
    format!("row {} has the largest residual for its width: {} widths\n", found.worst, decimal(ratio))
}
