//! How far off a solution is, row by row.
use crate::refusal::Question;
use crate::{ffi, Error, Matrix};

/// The residual of a row's equation, and how far the exact one can be from it.
#[derive(Debug, Clone, Copy, PartialEq)]
pub struct Residual {
    /// The right side less each value times its unknown, in stored order, each operation rounded once.
    pub residual: f64,
    /// The exact residual of the stored numbers is no farther than this from `residual`. It is never 0.
    pub width: f64,
}

impl Residual {
    /// The size of the residual in widths. From above 1 on the row's equation is surely not met; up to 1 nothing that
    /// was computed tells it from one that is.
    pub fn ratio(&self) -> f64 {
        self.residual.abs() / self.width
    }

    /// The residual's magnitude and the width together, rounded once.
    pub fn reach(&self) -> f64 {
        self.residual.abs() + self.width
    }
}

/// The residuals of all rows.
#[derive(Debug, Clone, PartialEq)]
pub struct Residuals {
    /// By row.
    pub rows: Vec<Residual>,
    /// The row with the largest ratio, the first of these.
    pub worst: usize,
}

/// A system and numbers for its unknowns, such as a solution: tells how far off each equation is.
///
/// ```
/// use lilacpliers::{Check, Matrix};
/// let matrix = Matrix::from_triplets(2, &[(0, 0, 2.0), (0, 1, 4.0), (1, 0, 1.0), (1, 1, 4.0)])?;
/// let (right, x) = ([10.0, 9.0], [1.0, 2.125]);
/// let check = Check::new(&matrix, &right, &x);
/// assert_eq!(check.residual(0)?.residual, -0.5);
/// assert!(check.residual(0)?.width < 1e-13);
/// let all = check.residuals()?;
/// assert_eq!((all.rows.len(), all.rows[1].residual, all.worst), (2, -0.5, 1));
/// # Ok::<(), lilacpliers::Error>(())
/// ```
///
/// A column that stands several times in a row is so many entries here: the values are not added first, as a solve does.
#[derive(Debug, Clone, Copy)]
pub struct Check<'a> {
    matrix: &'a Matrix,
    right: &'a [f64],
    x: &'a [f64],
}

impl<'a> Check<'a> {
    /// The system of a matrix and a right side by row, at x by column. Nothing is judged before a row is asked for.
    pub fn new(matrix: &'a Matrix, right: &'a [f64], x: &'a [f64]) -> Check<'a> {
        Check { matrix, right, x }
    }

    /// The residual and the width of a row.
    ///
    /// A row that the matrix does not have is refused with 5, and with 22 one where a result on the way is not finite.
    /// Each call looks at the whole matrix once.
    pub fn residual(&self, row: usize) -> Result<Residual, Error> {
        let mut pair = [0.0; 2];
        // The matrix has no row of the greatest number either.
        let asked = u32::try_from(row).unwrap_or(u32::MAX);
        let answer = ffi::residual(self.matrix, self.right, self.x, asked, &mut pair);
        Question::residual(self.matrix, self.right, self.x, row).settle(&answer)?;
        let [residual, width] = pair;
        Ok(Residual { residual, width })
    }

    /// The residuals of all rows, and where the ratio is largest.
    pub fn residuals(&self) -> Result<Residuals, Error> {
        // A matrix without rows is refused as row 0 is asked for.
        let rows = (0..self.matrix.rows().max(1)).map(|row| self.residual(row)).collect::<Result<Vec<_>, _>>()?;
        let mut worst = 0;
        for (row, found) in rows.iter().enumerate() {
            if rows.get(worst).is_some_and(|most| found.ratio() > most.ratio()) {
                worst = row;
            }
        }
        Ok(Residuals { rows, worst })
    }
}
