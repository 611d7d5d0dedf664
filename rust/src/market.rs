//! Matrix Market texts.
use crate::{Error, Matrix, MAX_ROWS};
use std::fmt::Write;

/// An entry: row, column and value.
type Entry = (usize, usize, f64);

/// A line that is neither blank nor a comment: its number, counted from 1, and its words.
type Line<'a> = (usize, Vec<&'a str>);

/// What the first line says.
struct Header {
    array: bool,
    field: Field,
    symmetric: bool,
}

#[derive(Clone, Copy, PartialEq)]
enum Field {
    Real,
    Integer,
    Pattern,
}

/// The shape that the caller needs.
#[derive(Clone, Copy, PartialEq)]
enum Wanted {
    Square,
    Column,
}

/// What the line of sizes says; an array names no entries.
struct Sizes {
    line: usize,
    rows: usize,
    columns: usize,
    entries: usize,
}

/// Whether a text begins as a Matrix Market text does.
pub(crate) fn is_market(text: &str) -> bool {
    text.get(..14).is_some_and(|head| head.eq_ignore_ascii_case("%%matrixmarket"))
}

/// Reads a square matrix.
pub(crate) fn read_matrix(text: &str) -> Result<Matrix, Error> {
    let (n, entries) = read(text, Wanted::Square)?;
    Matrix::from_triplets(n, &entries)
}

/// Reads a matrix of one column; what a coordinate text leaves out is zero.
pub(crate) fn read_vector(text: &str) -> Result<Vec<f64>, Error> {
    let (n, entries) = read(text, Wanted::Column)?;
    let mut slots = vec![None; n];
    for (i, _, value) in entries {
        if let Some(slot) = slots.get_mut(i) {
            if slot.replace(value).is_some() {
                return Err(Error::Text(format!("row {} is given twice", i + 1)));
            }
        }
    }
    Ok(slots.into_iter().map(|slot| slot.unwrap_or(0.0)).collect())
}

/// Writes a matrix. A row whose start falls back, which no call takes, is left out: no entry is written twice.
pub(crate) fn write_matrix(matrix: &Matrix) -> String {
    let (mut lines, mut written, mut end) = (String::new(), 0, 0);
    for (i, &start) in matrix.starts().iter().enumerate() {
        if start < end {
            continue;
        }
        end = start;
        for (j, value) in matrix.row(i) {
            // Writing to a String cannot fail.
            let _ = writeln!(lines, "{} {} {value:?}", i + 1, j + 1);
            (written, end) = (written + 1, end + 1);
        }
    }
    let n = matrix.rows();
    format!("%%MatrixMarket matrix coordinate real general\n{n} {n} {written}\n{lines}")
}

/// A number.
pub(crate) fn real(line: usize, word: &str) -> Result<f64, Error> {
    word.parse().map_err(|_| fault(line, format!("{} is no number", quoted(word))))
}

/// A whole number from 0 on.
pub(crate) fn whole(line: usize, word: &str) -> Result<usize, Error> {
    word.parse().map_err(|_| fault(line, format!("{} is no whole number that can be taken", quoted(word))))
}

fn fault(line: usize, words: String) -> Error {
    Error::Text(format!("line {line}: {words}"))
}

/// A word of the text, safe to print and not too long.
fn quoted(word: &str) -> String {
    let short: String = word.chars().take(40).collect();
    let more = if short.len() < word.len() { ".." } else { "" };
    format!("{short:?}{more}")
}

/// Rows and entries, symmetric ones on both sides.
fn read(text: &str, wanted: Wanted) -> Result<(usize, Vec<Entry>), Error> {
    let header = header(text)?;
    let mut lines = data_lines(text);
    let sizes = sizes(&header, lines.next())?;
    check_shape(&header, &sizes, wanted)?;
    let found = match header.array {
        true => array(&header, &sizes, lines, wanted)?,
        false => coordinate(&header, &sizes, lines)?,
    };
    Ok((sizes.rows, if header.symmetric { both_sides(found) } else { found }))
}

fn header(text: &str) -> Result<Header, Error> {
    let first = text.lines().next().unwrap_or_default();
    let words: Vec<String> = first.split_whitespace().take(6).map(str::to_ascii_lowercase).collect();
    let words: Vec<&str> = words.iter().map(String::as_str).collect();
    let &["%%matrixmarket", "matrix", layout, field, symmetry] = words.as_slice() else {
        let due = "%%MatrixMarket matrix coordinate real general";
        return Err(fault(1, format!("this is no header of a Matrix Market matrix, such as {due}")));
    };
    let array = match layout {
        "coordinate" => false,
        "array" => true,
        _ => return Err(untaken("layout", layout, "coordinate and array")),
    };
    let field = match field {
        "real" => Field::Real,
        "integer" => Field::Integer,
        "pattern" if !array => Field::Pattern,
        "pattern" => return Err(fault(1, "an array has values, so it is no pattern".into())),
        _ => return Err(untaken("field", field, "real, integer and pattern")),
    };
    let symmetric = match symmetry {
        "general" => false,
        "symmetric" => true,
        _ => return Err(untaken("symmetry", symmetry, "general and symmetric")),
    };
    Ok(Header { array, field, symmetric })
}

fn untaken(what: &str, word: &str, taken: &str) -> Error {
    fault(1, format!("the {what} {} is not taken, only {taken}", quoted(word)))
}

/// The lines behind the header.
fn data_lines(text: &str) -> impl Iterator<Item = Line<'_>> {
    let all = text.lines().enumerate().skip(1);
    let data = all.filter(|(_, line)| !line.trim_start().starts_with('%'));
    data.map(|(at, line)| (at + 1, line.split_whitespace().collect())).filter(|(_, words): &Line| !words.is_empty())
}

fn sizes(header: &Header, line: Option<Line>) -> Result<Sizes, Error> {
    let Some((line, words)) = line else {
        return Err(Error::Text("the text ends before its line of sizes".into()));
    };
    match (header.array, words.as_slice()) {
        (true, &[rows, columns]) => {
            Ok(Sizes { line, rows: whole(line, rows)?, columns: whole(line, columns)?, entries: 0 })
        }
        (false, &[rows, columns, entries]) => {
            let (rows, columns) = (whole(line, rows)?, whole(line, columns)?);
            Ok(Sizes { line, rows, columns, entries: whole(line, entries)? })
        }
        (true, _) => Err(fault(line, "the line of sizes of an array has two numbers: rows and columns".into())),
        (false, _) => Err(fault(line, "the line of sizes has three numbers: rows, columns and entries".into())),
    }
}

fn check_shape(header: &Header, sizes: &Sizes, wanted: Wanted) -> Result<(), Error> {
    let Sizes { line, rows, columns, .. } = *sizes;
    let words = match wanted {
        Wanted::Column if columns != 1 => format!("{rows} by {columns} is no right side, which has one column"),
        Wanted::Column if rows > MAX_ROWS => format!("{rows} rows, where up to {MAX_ROWS} are taken"),
        Wanted::Column if header.symmetric && rows != 1 => "a symmetric matrix is square".into(),
        Wanted::Square if rows != columns => format!("{rows} by {columns} is not square"),
        _ => return Ok(()),
    };
    Err(fault(line, words))
}

fn coordinate<'a>(header: &Header, sizes: &Sizes, lines: impl Iterator<Item = Line<'a>>) -> Result<Vec<Entry>, Error> {
    let due = sizes.entries;
    let mut found = Vec::new();
    for (line, words) in lines {
        if found.len() == due {
            return Err(fault(line, format!("an entry beyond the {due} that line {} announces", sizes.line)));
        }
        let (i, j, value) = match (header.field, words.as_slice()) {
            (Field::Pattern, &[i, j]) => (i, j, 1.0),
            (Field::Pattern, _) => return Err(fault(line, "an entry of a pattern is row and column".into())),
            (field, &[i, j, word]) => (i, j, value(field, line, word)?),
            _ => return Err(fault(line, "an entry is row, column and value".into())),
        };
        let (i, j) = (position("row", line, i, sizes.rows)?, position("column", line, j, sizes.columns)?);
        found.push((i, j, value));
    }
    if found.len() == due {
        return Ok(found);
    }
    Err(Error::Text(format!(
        "the text ends after {} of the {due} entries that line {} announces",
        found.len(),
        sizes.line
    )))
}

fn array<'a>(
    header: &Header,
    sizes: &Sizes,
    lines: impl Iterator<Item = Line<'a>>,
    wanted: Wanted,
) -> Result<Vec<Entry>, Error> {
    let due = values_due(header, sizes);
    let (mut found, mut count) = (Vec::new(), 0);
    let (mut i, mut j) = (0, 0);
    for (line, words) in lines {
        for word in words {
            if count == due {
                return Err(fault(line, format!("a value beyond the {due} that are due")));
            }
            let value = value(header.field, line, word)?;
            if value != 0.0 || wanted == Wanted::Column {
                found.push((i, j, value));
            }
            (count, i) = (count + 1, i + 1);
            if i == sizes.rows {
                j += 1;
                i = if header.symmetric { j } else { 0 };
            }
        }
    }
    if count == due {
        return Ok(found);
    }
    Err(Error::Text(format!("the text ends after {count} of {due} values")))
}

/// How many values an array has; a symmetric one, which is square, those on and below the diagonal.
fn values_due(header: &Header, sizes: &Sizes) -> u128 {
    let (rows, columns) = (sizes.rows as u128, sizes.columns as u128);
    match header.symmetric {
        true => rows.saturating_mul(rows + 1) / 2,
        false => rows.saturating_mul(columns),
    }
}

fn value(field: Field, line: usize, word: &str) -> Result<f64, Error> {
    let digits = word.strip_prefix(['-', '+']).unwrap_or(word);
    if field == Field::Integer && !digits.bytes().all(|byte| byte.is_ascii_digit()) {
        return Err(fault(line, format!("{} is no whole number", quoted(word))));
    }
    real(line, word)
}

/// A row or column, counted from 1 in the text and from 0 here.
fn position(what: &str, line: usize, word: &str, most: usize) -> Result<usize, Error> {
    let number = whole(line, word)?;
    match number.checked_sub(1) {
        Some(position) if position < most => Ok(position),
        _ => Err(fault(line, format!("{what} {number} is out of range, {what}s are 1 to {most}"))),
    }
}

/// Each entry beside the diagonal once more on the other side.
fn both_sides(found: Vec<Entry>) -> Vec<Entry> {
    let other = |(i, j, value): Entry| (i != j).then_some((j, i, value));
    found.into_iter().flat_map(|entry| [Some(entry), other(entry)]).flatten().collect()
}
