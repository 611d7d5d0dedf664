//! The commands solve, factor, structure, picture, sheet and load.
use crate::arguments::{Factor, FormName, Load, OrderFiles, Solve};
use crate::convert::{kind, Kind};
use crate::facts::{facts, table_text, Fact, Stored};
use crate::fault::Fault;
use crate::input::{self, shown};
use crate::output::{self, column, Place};
use crate::picture::{draw, Subject};
use crate::progress;
use lilacpliers::{solve_above, Factors, Form, Matrix, Orders, Side, Structure, System};
use std::collections::BTreeSet;
use std::path::Path;

pub fn solve(asked: &Solve) -> Result<(), Fault> {
    output::apart(&[asked.out.as_deref()], &read_files(&asked.file, asked.right.as_deref(), &asked.orders))?;
    if kind(&asked.file) == Some(Kind::FactorFile) {
        return solve_kept(asked);
    }
    let text = {
        let _sign = progress::during(format!("solving {}", shown(&asked.file)));
        let loaded = input::load(&asked.file, asked.right.as_deref(), &asked.orders)?;
        let System { matrix, orders, right } = &loaded.system;
        let found = solve_above(form(asked.form), matrix, orders, right, asked.floor);
        column(&found.map_err(|error| loaded.fault(error))?.x, asked.hex)
    };
    Ok(output::write(place(asked.out.as_deref()), text.as_bytes())?)
}

/// Solves with the factors of a file. Its name tells that it is one: its blocks are those of a matrix file.
fn solve_kept(asked: &Solve) -> Result<(), Fault> {
    let name = shown(&asked.file);
    let Some(right) = asked.right.as_deref() else {
        return Err(format!("{name} holds factors and no right side: give one with --right").into());
    };
    if asked.form != FormName::Plain || asked.floor != 0.0 || asked.orders != OrderFiles::default() {
        return Err(format!("{name} holds factors: form, orders and floor are those that they were found by").into());
    }
    let text = {
        let _sign = progress::during(format!("solving with {name}"));
        let factors = Factors::load(&input::bytes(&asked.file)?).map_err(|error| Fault::about_factors(&name, error))?;
        let right = input::vector(right, factors.rows())?;
        column(&factors.solve_again(&right).map_err(|error| Fault::about(&name, error))?, asked.hex)
    };
    Ok(output::write(place(asked.out.as_deref()), text.as_bytes())?)
}

/// Factors in the plain form, for a restart to solve with. The right side is zeros, under which only the factors can be
/// refused: none was asked for.
pub fn factor(asked: &Factor) -> Result<(), Fault> {
    let out = place(asked.out.as_deref());
    if let Place::File(path) = out {
        if kind(path) != Some(Kind::FactorFile) {
            return Err(format!("{}: the name of a factor file should end in .lf", shown(path)).into());
        }
    }
    output::apart(&[asked.out.as_deref()], &read_files(&asked.file, None, &asked.orders))?;
    let file = {
        let _sign = progress::during(format!("factoring {}", shown(&asked.file)));
        let loaded = input::load(&asked.file, None, &asked.orders)?;
        let System { matrix, orders, .. } = &loaded.system;
        let zeros = vec![0.0; matrix.rows()];
        let found = Factors::solve_above(Form::Plain, matrix, orders, &zeros, asked.floor);
        found.and_then(|(factors, _)| factors.save()).map_err(|error| loaded.fault(error))?
    };
    Ok(output::write_binary(out, "factor", &file)?)
}

fn read_files<'a>(file: &'a Path, right: Option<&'a Path>, orders: &'a OrderFiles) -> [Option<&'a Path>; 5] {
    let [both, rows, columns] = orders.paths();
    [Some(file), right, both, rows, columns]
}

fn form(name: FormName) -> Form {
    match name {
        FormName::Plain => Form::Plain,
        FormName::Shared => Form::Shared,
        FormName::Row => Form::Row,
    }
}

fn place(out: Option<&Path>) -> Place<'_> {
    out.map_or(Place::Standard, Place::of)
}

pub fn structure(file: &Path, orders: &OrderFiles) -> Result<(), Fault> {
    let text = {
        let _sign = progress::during(format!("finding the fill of {}", shown(file)));
        table_text(&found(file, orders)?.table())
    };
    Ok(output::write(Place::Standard, text.as_bytes())?)
}

pub fn picture(file: &Path, orders: &OrderFiles, out: Option<&Path>) -> Result<(), Fault> {
    output::apart(&[out], &read_files(file, None, orders))?;
    let text = {
        let _sign = progress::during(format!("drawing the fill of {}", shown(file)));
        let found = found(file, orders)?;
        let n = found.system.matrix.rows();
        let title = file.file_name().map_or_else(|| shown(file), |name| name.to_string_lossy().into_owned());
        draw(&Subject {
            title: if title == "-" { "standard input" } else { &title },
            stored: &stored(&found.system.matrix, &found.system.orders),
            lower: &lists(&found.plain, Side::Lower, n),
            upper: &lists(&found.shared, Side::Upper, n),
            runs: &runs(&found.shared, Side::Upper, n),
            lower_columns: &lists(&found.shared, Side::Lower, n),
            lower_runs: &runs(&found.shared, Side::Lower, n),
            facts: &found.table(),
        })
    };
    Ok(output::write(place(out), text.as_bytes())?)
}

pub fn sheet(file: &Path, orders: &OrderFiles, out: Option<&Path>) -> Result<(), Fault> {
    output::apart(&[out], &read_files(file, None, orders))?;
    let text = {
        let _sign = progress::during(format!("printing the fill of {}", shown(file)));
        let loaded = input::load(file, None, orders)?;
        let System { matrix, orders, .. } = &loaded.system;
        Structure::fill_sheet(matrix, orders).map_err(|error| loaded.fault(error))?.1
    };
    Ok(output::write(place(out), text.as_bytes())?)
}

/// A system and its structure in the two forms that keep one.
struct Found {
    system: System,
    plain: Structure,
    shared: Structure,
}

impl Found {
    fn table(&self) -> Vec<Fact> {
        let matrix = &self.system.matrix;
        let stored = Stored { entries: matrix.entries(), positions: positions(matrix) };
        facts(matrix.rows(), stored, self.plain.counts(), self.plain.slots(), self.shared.slots())
    }
}

/// How many positions have an entry; a position with several counts once.
fn positions(matrix: &Matrix) -> usize {
    let columns = |i| matrix.row(i).map(|(j, _)| j).collect::<BTreeSet<usize>>().len();
    (0..matrix.rows()).map(columns).sum()
}

fn found(file: &Path, orders: &OrderFiles) -> Result<Found, Fault> {
    let loaded = input::load(file, None, orders)?;
    let System { matrix, orders, .. } = &loaded.system;
    let find = |form| Structure::find(form, matrix, orders).map_err(|error| loaded.fault(error));
    let (plain, shared) = (find(Form::Plain)?, find(Form::Shared)?);
    Ok(Found { system: loaded.system, plain, shared })
}

fn lists(structure: &Structure, side: Side, n: usize) -> Vec<Vec<usize>> {
    (0..n).map(|k| structure.list(side, k).iter().map(|&j| usize::from(j)).collect()).collect()
}

fn runs(structure: &Structure, side: Side, n: usize) -> Vec<usize> {
    (0..n).map(|k| structure.run(side, k)).collect()
}

/// The stored entries of M' by place, a place as often as it is stored. The library has accepted matrix and orders
/// before.
fn stored(matrix: &Matrix, orders: &Orders) -> Vec<Vec<usize>> {
    let mut place_of = vec![0; matrix.rows()];
    for (k, &own) in orders.columns().iter().enumerate() {
        if let Some(slot) = place_of.get_mut(usize::from(own)) {
            *slot = k;
        }
    }
    let row = |&own: &u16| matrix.row(usize::from(own)).filter_map(|(j, _)| place_of.get(j).copied()).collect();
    orders.rows().iter().map(row).collect()
}

/// A Matrix Market file is taken to have the right side and the orders of a load, so nothing is left behind in one.
pub fn load(asked: &Load) -> Result<(), Fault> {
    let out = asked.out.as_deref();
    let named = out.and_then(kind);
    if let (Some(path), Some(Kind::FactorFile)) = (out, named) {
        return Err(
            format!("{}: a load is a matrix, and a name that ends in .lf is a factor file's", shown(path)).into()
        );
    }
    let fault = |error| Fault::about("load", error);
    let system = System::test_load(asked.rows, asked.seed).map_err(fault)?;
    if named == Some(Kind::Market) {
        return Ok(output::write(place(out), system.matrix.to_matrix_market().as_bytes())?);
    }
    Ok(output::write_binary(place(out), "matrix", &system.write().map_err(fault)?)?)
}
