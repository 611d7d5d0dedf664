//! The command convert: files of one kind into the other. What no solve would take is found here already.
use crate::arguments::{Convert, OrderFiles};
use crate::fault::Fault;
use crate::input::{self, shown};
use crate::output::{self, column, say, Place};
use crate::progress;
use lilacpliers::{Matrix, Orders, System};
use std::path::Path;

/// The kinds of files, by name.
#[derive(Clone, Copy, PartialEq)]
pub enum Kind {
    Market,
    MatrixFile,
    FactorFile,
}

const ENDINGS: [(&[u8], Kind); 3] = [(b".mtx", Kind::Market), (b".lp", Kind::MatrixFile), (b".lf", Kind::FactorFile)];

/// The kind that the end of a name tells; `.mtx` alone is a name, too.
pub fn kind(path: &Path) -> Option<Kind> {
    let name = path.file_name()?.to_ascii_lowercase();
    ENDINGS.iter().find(|(ending, _)| name.as_encoded_bytes().ends_with(ending)).map(|&(_, kind)| kind)
}

/// Refuses a name that is a factor file's where a matrix is due.
pub fn matrix_due(path: &Path) -> Result<(), Fault> {
    match kind(path) {
        Some(Kind::FactorFile) => Err(format!("{} holds factors and no matrix", shown(path)).into()),
        _ => Ok(()),
    }
}

fn kind_due(path: &Path) -> Result<Kind, Fault> {
    kind(path).ok_or_else(|| format!("{}: the name should end in .mtx or .lp", path.display()).into())
}

pub fn convert(asked: &Convert) -> Result<(), Fault> {
    let _sign = progress::during(format!("converting {}", shown(&asked.from)));
    matrix_due(&asked.from)?;
    match (kind_due(&asked.from)?, kind_due(&asked.to)?) {
        (Kind::Market, Kind::MatrixFile) => to_matrix_file(asked),
        (Kind::MatrixFile, Kind::Market) => to_market(asked),
        _ => Err("convert goes from .mtx to .lp or from .lp to .mtx".to_string().into()),
    }
}

fn to_matrix_file(asked: &Convert) -> Result<(), Fault> {
    let [both, rows, columns] = asked.orders.paths();
    output::apart(&[Some(&asked.to)], &[Some(&asked.from), asked.right.as_deref(), both, rows, columns])?;
    let name = shown(&asked.from);
    let mut system = input::from_market(&asked.from, &input::bytes(&asked.from)?)?;
    input::complete(&mut system, asked.right.as_deref(), &asked.orders)?;
    check_orders(&name, &system)?;
    let file = system.write().map_err(|error| Fault::about(&name, error))?;
    Ok(output::write(Place::File(&asked.to), &file)?)
}

fn to_market(asked: &Convert) -> Result<(), Fault> {
    let [both, rows, columns] = asked.orders.paths();
    output::apart(&[Some(&asked.to), asked.right.as_deref(), both, rows, columns], &[Some(&asked.from)])?;
    let name = shown(&asked.from);
    let system = input::from_matrix_file(&asked.from, &input::bytes(&asked.from)?)?;
    check_rows(&name, &system.matrix)?;
    check_orders(&name, &system)?;
    let orders = &system.orders;
    if both.is_some() && orders.rows() != orders.columns() {
        return Err(format!("{name}: row order and column order differ; --rows and --columns keep them").into());
    }
    write(&asked.to, system.matrix.to_matrix_market())?;
    if let Some(path) = &asked.right {
        write(path, right_text(path, &system.right))?;
    }
    if let Some(path) = both.or(rows) {
        write(path, order_text(orders.rows()))?;
    }
    if let Some(path) = columns {
        write(path, order_text(orders.columns()))?;
    }
    for (what, option) in left_behind(&system, asked) {
        say(&format!("the {what} of {name} is left behind; {option} FILE keeps it"));
    }
    Ok(())
}

fn write(path: &Path, text: String) -> Result<(), String> {
    output::write(Place::of(path), text.as_bytes())
}

/// What was not written out and is not what a Matrix Market file is taken to have, and the option that keeps it.
fn left_behind(system: &System, asked: &Convert) -> Vec<(&'static str, &'static str)> {
    let natural = Orders::natural(system.matrix.rows());
    let (rows, columns) = (system.orders.rows() != natural.rows(), system.orders.columns() != natural.columns());
    let OrderFiles { both, rows: row_file, columns: column_file } = &asked.orders;
    let no_file = both.is_none() && row_file.is_none() && column_file.is_none();
    let one = rows && no_file && system.orders.rows() == system.orders.columns();
    let candidates = [
        (asked.right.is_none() && system.right.iter().any(|&number| number != 1.0), "right side", "--right"),
        (one, "order", "--order"),
        (rows && !one && both.is_none() && row_file.is_none(), "row order", "--rows"),
        (columns && !one && both.is_none() && column_file.is_none(), "column order", "--columns"),
    ];
    candidates.into_iter().filter(|&(left, ..)| left).map(|(_, what, option)| (what, option)).collect()
}

/// A right side as plain numbers, or as a Matrix Market file of one column where its name says so.
fn right_text(path: &Path, right: &[f64]) -> String {
    let numbers = column(right, false);
    match kind(path) {
        Some(Kind::Market) => format!("%%MatrixMarket matrix array real general\n{} 1\n{numbers}", right.len()),
        _ => numbers,
    }
}

fn order_text(order: &[u16]) -> String {
    order.iter().map(|number| format!("{number}\n")).collect()
}

fn check_orders(name: &str, system: &System) -> Result<(), Fault> {
    let natural = Orders::natural(system.matrix.rows());
    for (what, order) in [("row", system.orders.rows()), ("column", system.orders.columns())] {
        let mut sorted = order.to_vec();
        sorted.sort_unstable();
        if sorted != natural.rows() {
            let last = natural.rows().len().saturating_sub(1);
            return Err(format!("{name}: the {what} order is no order, which has each of 0 to {last} once").into());
        }
    }
    Ok(())
}

/// A matrix file may hold row starts or columns that are none; as Matrix Market it would lose entries.
fn check_rows(name: &str, matrix: &Matrix) -> Result<(), Fault> {
    let n = matrix.rows();
    let starts = matrix.starts();
    let rising = starts.windows(2).all(|pair| pair[0] <= pair[1]);
    let ends = starts.first() == Some(&0) && starts.last().is_some_and(|&end| end as usize == matrix.entries());
    if !rising || !ends {
        return Err(format!("{name}: its row starts do not fit its entries").into());
    }
    match matrix.columns().iter().position(|&j| usize::from(j) >= n) {
        Some(entry) => Err(format!("{name}: the column of entry {entry} is not below {n}").into()),
        None => Ok(()),
    }
}

#[cfg(test)]
mod tests {
    use super::*;

    #[test]
    fn the_end_of_a_name_tells_its_kind() {
        for name in ["a.mtx", "A.MTX", "folder/a.b.mtx", ".mtx"] {
            assert!(kind(Path::new(name)) == Some(Kind::Market), "{name}");
        }
        for name in ["a.lp", "a.Lp", ".lp"] {
            assert!(kind(Path::new(name)) == Some(Kind::MatrixFile), "{name}");
        }
        for name in ["a.lf", "a.LF", "folder/a.lp.lf", ".lf"] {
            assert!(kind(Path::new(name)) == Some(Kind::FactorFile), "{name}");
        }
        for name in ["", "-", "mtx", "lp", "lf", "a.mtx.gz", "a.lf.txt", "a.mtx ", "folder.mtx/a", "folder.lf/a"] {
            assert!(kind(Path::new(name)).is_none(), "{name}");
        }
    }
}
