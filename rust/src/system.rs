//! Matrix files, and the test load.
use crate::ffi::{self, Equations, Parts};
use crate::refusal::Question;
use crate::{Error, Matrix, Orders, MAX_ENTRIES, MAX_ROWS};

/// A system of equations with its orders: what a matrix file holds.
///
/// ```
/// use lilacpliers::{Matrix, Orders, System};
/// let matrix = Matrix::from_triplets(1, &[(0, 0, 2.0)])?;
/// let system = System { matrix, orders: Orders::natural(1), right: vec![6.0] };
/// let file = system.write()?;
/// assert_eq!(file.len(), 512);
/// assert_eq!(System::read(&file)?, system);
/// # Ok::<(), lilacpliers::Error>(())
/// ```
#[derive(Debug, Clone, PartialEq)]
pub struct System {
    /// The matrix.
    pub matrix: Matrix,
    /// Row order and column order.
    pub orders: Orders,
    /// The right side, by row.
    pub right: Vec<f64>,
}

impl System {
    /// Reads a matrix file. What it holds is not judged before it is solved.
    pub fn read(bytes: &[u8]) -> Result<System, Error> {
        let shape = ffi::file_shape(bytes);
        Question::read(bytes).settle(&shape)?;
        let (n, e) = (shape.report[1] as usize, shape.report[2] as usize);
        let mut parts = Parts::new(n, e);
        let answer = ffi::read_matrix(bytes, &mut parts);
        Question::read(bytes).settle(&answer)?;
        System::from_parts(parts)
    }

    /// Makes the test load of n rows from a seed: the same system wherever it is made.
    ///
    /// Row k has 4 at column k, then three draws. A draw sets the seed to (seed · 25,173 + 13,849) modulo 65,536 and
    /// puts −1 at column (seed div 16) modulo n, unless the row has that column already; the seed runs on from row to
    /// row. The orders are 0, 1, .. and the right side is all ones. An n outside 1 to 4,096 is refused with 1.
    ///
    /// No claim is made on pivots: whether a load can be solved in its order, the solve tells.
    ///
    /// ```
    /// use lilacpliers::System;
    /// let load = System::test_load(5, 1)?;
    /// assert_eq!(load.matrix.starts(), [0, 3, 6, 9, 13, 16]);
    /// assert_eq!(load.matrix.columns(), [0, 3, 2, 1, 2, 3, 2, 1, 3, 3, 2, 4, 1, 4, 3, 1]);
    /// assert_eq!(load.matrix.row(4).collect::<Vec<_>>(), [(4, 4.0), (3, -1.0), (1, -1.0)]);
    /// assert_eq!(load.right, [1.0; 5]);
    /// # Ok::<(), lilacpliers::Error>(())
    /// ```
    pub fn test_load(n: usize, seed: u16) -> Result<System, Error> {
        // An n out of the limits is refused before any length is asked, so no room is made for it.
        let mut parts = if (1..=MAX_ROWS).contains(&n) { Parts::new(n, 4 * n) } else { Parts::default() };
        let answer = ffi::test_load(n, seed, &mut parts);
        Question::load(n).settle(&answer)?;
        parts.cut(answer.report[1] as usize);
        System::from_parts(parts)
    }

    fn from_parts(parts: Parts) -> Result<System, Error> {
        let matrix = Matrix::from_rows(parts.starts, parts.columns, parts.values)?;
        Ok(System { matrix, orders: Orders::from_parts(parts.rows, parts.order), right: parts.right })
    }

    /// Writes a matrix file. What it holds is not judged; every NaN becomes the same one.
    pub fn write(&self) -> Result<Vec<u8>, Error> {
        let (n, e) = (self.matrix.rows().min(MAX_ROWS), self.matrix.entries().min(MAX_ENTRIES));
        let mut file = vec![0; (12 + 16 * n + 10 * e).div_ceil(504) * 512];
        let asked = Equations { matrix: &self.matrix, orders: &self.orders, right: &self.right };
        let answer = ffi::write_matrix(asked, &mut file);
        Question::write(asked).settle(&answer)?;
        Ok(file)
    }
}
