//! Files read: matrices of both kinds, told apart by their contents, right sides and orders.
use crate::arguments::OrderFiles;
use crate::convert::matrix_due;
use crate::fault::Fault;
use lilacpliers::{order_from_text, vector_from_text, Error, Matrix, Orders, Refusal, System};
use std::fs::File;
use std::io::{self, Read};
use std::path::Path;

/// No file that the library takes comes near this; an endless device is given up here.
const GREATEST_FILE: u64 = 64 << 20;
const MARKET: &[u8] = b"%%MatrixMarket";

/// How a file is shown in messages.
pub fn shown(path: &Path) -> String {
    if is_standard(path) {
        "standard input".to_string()
    } else if path.as_os_str().is_empty() {
        "a file without a name".to_string()
    } else {
        path.display().to_string()
    }
}

fn is_standard(path: &Path) -> bool {
    path == Path::new("-")
}

/// All bytes of a file; the name - is standard input.
pub fn bytes(path: &Path) -> Result<Vec<u8>, Fault> {
    let name = shown(path);
    let found = if is_standard(path) { limited(io::stdin().lock()) } else { File::open(path).and_then(limited) };
    let bytes = found.map_err(|error| format!("cannot read {name}: {error}"))?;
    if bytes.is_empty() {
        return Err(format!("{name} is empty").into());
    }
    if bytes.len() as u64 > GREATEST_FILE {
        return Err(format!("{name} is too large: over {} MiB", GREATEST_FILE >> 20).into());
    }
    Ok(bytes)
}

fn limited(source: impl Read) -> io::Result<Vec<u8>> {
    let mut bytes = Vec::new();
    source.take(GREATEST_FILE + 1).read_to_end(&mut bytes)?;
    Ok(bytes)
}

/// Comments may be in any encoding, so bytes that are no UTF-8 are let pass here; in a number they are found.
fn text(path: &Path) -> Result<String, Fault> {
    Ok(String::from_utf8_lossy(&bytes(path)?).into_owned())
}

fn is_market(bytes: &[u8]) -> bool {
    bytes.get(..MARKET.len()).is_some_and(|start| start.eq_ignore_ascii_case(MARKET))
}

/// A system and where it came from.
pub struct Loaded {
    pub system: System,
    pub name: String,
    market: bool,
}

impl Loaded {
    /// What the library said about this system. It counts rows from 0, a Matrix Market file counts them from 1.
    pub fn fault(&self, error: Error) -> Fault {
        let row = |refusal: &Refusal| Some(format!(" (counted from 0; row {} of the file)", refusal.row()? + 1));
        Fault::about(&self.name, error).with_hint(|refusal| if self.market { row(refusal) } else { None })
    }
}

/// The system of a file of either kind, with the right side and the orders that are given besides.
pub fn load(path: &Path, right: Option<&Path>, orders: &OrderFiles) -> Result<Loaded, Fault> {
    matrix_due(path)?;
    let bytes = bytes(path)?;
    let market = is_market(&bytes);
    let mut system = if market {
        from_market(path, &bytes)?
    } else {
        from_matrix_file(path, &bytes).map_err(|fault| fault.with_hint(neither_kind))?
    };
    complete(&mut system, right, orders)?;
    Ok(Loaded { system, name: shown(path), market })
}

/// A file that fails from its start may have been meant as the other kind.
fn neither_kind(refusal: &Refusal) -> Option<String> {
    let from_start = matches!((refusal.number(), refusal.place()), (16, _) | (17, 0));
    from_start.then(|| "; nor does it begin with %%MatrixMarket".to_string())
}

/// Takes the right side and the orders from files where they are given.
pub fn complete(system: &mut System, right: Option<&Path>, files: &OrderFiles) -> Result<(), Fault> {
    let n = system.matrix.rows();
    if let Some(right) = right {
        system.right = vector(right, n)?;
    }
    if let Some(path) = &files.both {
        let both = order(path, n)?;
        system.orders = orders(path, &both, &both)?;
    }
    if let Some(path) = &files.rows {
        system.orders = orders(path, &order(path, n)?, &wide(system.orders.columns()))?;
    }
    if let Some(path) = &files.columns {
        system.orders = orders(path, &wide(system.orders.rows()), &order(path, n)?)?;
    }
    Ok(())
}

fn wide(order: &[u16]) -> Vec<usize> {
    order.iter().map(|&number| usize::from(number)).collect()
}

/// A Matrix Market file holds no right side and no orders: all ones, and 0, 1, ..
pub fn from_market(path: &Path, bytes: &[u8]) -> Result<System, Fault> {
    let name = shown(path);
    if !is_market(bytes) {
        return Err(format!("{name} is no Matrix Market file: it does not begin with %%MatrixMarket").into());
    }
    let matrix =
        Matrix::from_matrix_market(&String::from_utf8_lossy(bytes)).map_err(|error| Fault::about(&name, error))?;
    let n = matrix.rows();
    Ok(System { matrix, orders: Orders::natural(n), right: vec![1.0; n] })
}

pub fn from_matrix_file(path: &Path, bytes: &[u8]) -> Result<System, Fault> {
    System::read(bytes).map_err(|error| Fault::about(&shown(path), error))
}

/// The n numbers of a file: a right side, or scores.
pub fn vector(path: &Path, n: usize) -> Result<Vec<f64>, Fault> {
    let name = shown(path);
    let found = vector_from_text(&text(path)?).map_err(|error| Fault::about(&name, error))?;
    due(&name, found.len(), n)?;
    Ok(found)
}

fn order(path: &Path, n: usize) -> Result<Vec<usize>, Fault> {
    let name = shown(path);
    let order = order_from_text(&text(path)?).map_err(|error| Fault::about(&name, error))?;
    due(&name, order.len(), n)?;
    Ok(order)
}

/// The two orders, the path being that of the one just read.
fn orders(path: &Path, rows: &[usize], columns: &[usize]) -> Result<Orders, Fault> {
    Orders::new(rows, columns).map_err(|error| Fault::about(&shown(path), error))
}

fn due(name: &str, found: usize, n: usize) -> Result<(), Fault> {
    if found == n {
        return Ok(());
    }
    Err(format!("{name}: the matrix has {n} rows, but this file has {found} numbers").into())
}
