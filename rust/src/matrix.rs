//! Sparse matrices by rows.
use crate::{ffi, market, Error, Refusal, MAX_ROWS};

/// A square sparse matrix by rows. Each row keeps its entries in the order they were given.
///
/// ```
/// use lilacpliers::Matrix;
/// let matrix = Matrix::from_triplets(2, &[(0, 0, 2.0), (0, 1, 4.0), (1, 0, 1.0), (1, 1, 4.0)])?;
/// assert_eq!((matrix.rows(), matrix.entries()), (2, 4));
/// assert_eq!(matrix.row(1).collect::<Vec<_>>(), [(0, 1.0), (1, 4.0)]);
/// # Ok::<(), lilacpliers::Error>(())
/// ```
///
/// A column may stand several times in a row. All of these entries are kept; a solve adds their values in the order of
/// the row, each sum rounded once, and where a sum is not finite it is refused with 13. A position whose values come to
/// zero is still one of the pattern.
///
/// ```
/// use lilacpliers::{solve, Form, Matrix, Orders};
/// let matrix = Matrix::from_triplets(1, &[(0, 0, 1.0), (0, 0, 3.0)])?;
/// assert_eq!(matrix.entries(), 2);
/// assert_eq!(solve(Form::Plain, &matrix, &Orders::natural(1), &[8.0])?.x, [2.0]);
/// # Ok::<(), lilacpliers::Error>(())
/// ```
#[derive(Debug, Clone, PartialEq)]
pub struct Matrix {
    starts: Vec<u32>,
    columns: Vec<u16>,
    values: Vec<f64>,
}

impl Matrix {
    /// A matrix of n rows from (row, column, value), in any order of the rows. A position that is given several times
    /// has as many entries, in the order given.
    ///
    /// An n out of the limits is refused with 1 at once. A column from n to 65,535 is kept for the library to refuse.
    pub fn from_triplets(n: usize, entries: &[(usize, usize, f64)]) -> Result<Matrix, Error> {
        if !(1..=MAX_ROWS).contains(&n) {
            return Err(Refusal::of_rows(n, ffi::ask_rows(n)).into());
        }
        let mut rows: Vec<Vec<(u16, f64)>> = vec![Vec::new(); n];
        for (index, &(i, j, value)) in entries.iter().enumerate() {
            let column = u16::try_from(j).map_err(|_| outside(index, "column", j, n))?;
            let row = rows.get_mut(i).ok_or_else(|| outside(index, "row", i, n))?;
            row.push((column, value));
        }
        let mut starts = vec![0];
        let mut end = 0;
        for row in &rows {
            end += row.len();
            starts.push(u32::try_from(end).map_err(|_| Error::Shape(format!("{end} entries are too many")))?);
        }
        let (columns, values) = rows.into_iter().flatten().unzip();
        Ok(Matrix { starts, columns, values })
    }

    /// A matrix from its row starts (one more than rows), columns and values; a row may have a column several times.
    /// Only the lengths are checked here; the library asks the rest.
    pub fn from_rows(starts: Vec<u32>, columns: Vec<u16>, values: Vec<f64>) -> Result<Matrix, Error> {
        if starts.is_empty() {
            return Err(Error::Shape("there are no row starts, where one more than the rows is due".into()));
        }
        same_length(&columns, &values)?;
        Ok(Matrix { starts, columns, values })
    }

    /// Reads a square Matrix Market matrix: coordinate or array; real, integer or pattern, whose values are 1; general
    /// or symmetric, which is written out in full. The zeros of an array are not stored. An entry that stands in the
    /// text several times is kept as often, in the order of the text.
    ///
    /// ```
    /// use lilacpliers::Matrix;
    /// let text = "%%MatrixMarket matrix coordinate real symmetric\n2 2 2\n1 1 4\n2 1 -1\n";
    /// assert_eq!(Matrix::from_matrix_market(text)?.starts(), [0, 2, 3]);
    /// let error = Matrix::from_matrix_market("%%MatrixMarket matrix coordinate real general\n2 2 1\n3 1 4\n");
    /// assert_eq!(error.unwrap_err().to_string(), "line 3: row 3 is out of range, rows are 1 to 2");
    /// # Ok::<(), lilacpliers::Error>(())
    /// ```
    pub fn from_matrix_market(text: &str) -> Result<Matrix, Error> {
        market::read_matrix(text)
    }

    /// The number of rows.
    pub fn rows(&self) -> usize {
        self.starts.len().saturating_sub(1)
    }

    /// The number of entries, each of a column that stands several times in a row counted.
    pub fn entries(&self) -> usize {
        self.columns.len()
    }

    /// Column and value of each entry of row i, in stored order; nothing where the row starts name no such part.
    pub fn row(&self, i: usize) -> impl Iterator<Item = (usize, f64)> + '_ {
        let part = self.part(i);
        let columns = self.columns.get(part.clone()).unwrap_or_default();
        let values = self.values.get(part).unwrap_or_default();
        columns.iter().zip(values).map(|(&j, &value)| (usize::from(j), value))
    }

    /// The entries of row i.
    fn part(&self, i: usize) -> std::ops::Range<usize> {
        let start = |at: Option<usize>| Some(*self.starts.get(at?)? as usize);
        match (start(Some(i)), start(i.checked_add(1))) {
            (Some(from), Some(to)) => from..to,
            _ => 0..0,
        }
    }

    /// The row starts, one more than rows.
    pub fn starts(&self) -> &[u32] {
        &self.starts
    }

    /// The column of each entry.
    pub fn columns(&self) -> &[u16] {
        &self.columns
    }

    /// The value of each entry.
    pub fn values(&self) -> &[f64] {
        &self.values
    }

    /// The same pattern with other values, one for each entry.
    pub fn with_values(&self, values: Vec<f64>) -> Result<Matrix, Error> {
        same_length(&self.columns, &values)?;
        Ok(Matrix { starts: self.starts.clone(), columns: self.columns.clone(), values })
    }

    /// The matrix as a Matrix Market text, whose numbers read back to the same bits (a NaN: to some NaN).
    pub fn to_matrix_market(&self) -> String {
        market::write_matrix(self)
    }
}

fn outside(index: usize, what: &str, number: usize, n: usize) -> Error {
    Error::Shape(format!("entry {index} has {what} {number}, which is not below {n}"))
}

fn same_length(columns: &[u16], values: &[f64]) -> Result<(), Error> {
    if columns.len() == values.len() {
        return Ok(());
    }
    Err(Error::Shape(format!("there are {} columns but {} values", columns.len(), values.len())))
}
