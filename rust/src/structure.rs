//! The fill of a matrix.
use crate::buffers::{grow, rows_lent, sheet_bytes, Pair, Scratch, Values};
use crate::ffi::{self, Answer, Asked};
use crate::form::Kept;
use crate::refusal::Question;
use crate::{Counts, Error, Form, Matrix, Orders, Side, Slots};

/// The fill of a matrix: for each place the list of filled positions on either side of the diagonal.
///
/// ```
/// use lilacpliers::{Form, Matrix, Orders, Side, Structure};
/// let matrix = Matrix::from_triplets(2, &[(0, 0, 2.0), (0, 1, 4.0), (1, 0, 1.0), (1, 1, 4.0)])?;
/// let structure = Structure::find(Form::Plain, &matrix, &Orders::natural(2))?;
/// assert_eq!(structure.counts().products, 1);
/// assert_eq!(structure.list(Side::Upper, 0), [1]);
/// # Ok::<(), lilacpliers::Error>(())
/// ```
#[derive(Debug, Clone, PartialEq)]
pub struct Structure {
    pub(crate) form: Kept,
    pub(crate) lists: Pair,
    pub(crate) counts: Counts,
}

impl Structure {
    /// Finds the structure, in the plain or the shared form; the values of the matrix do not matter.
    pub fn find(form: Form, matrix: &Matrix, orders: &Orders) -> Result<Structure, Error> {
        let form = form.kept().ok_or(Error::RowForm)?;
        let asked = Asked { matrix, orders };
        found(form, asked, |lists, values, scratch| ffi::structure(form, asked, lists, values, scratch))
    }

    /// Finds the structure in the shared form, and its fill sheet: the fill place by place, on pages to be printed.
    ///
    /// A page has 50 lines of 40 characters, each with a line end. Its first line has `FILL` and at the end the number
    /// of the page, from 1; every other line is that of a place, with blanks on the left of its numbers: the place
    /// (6 characters), its own row (8), the length of its lower row (8), the length of its upper list (8), and where
    /// that list starts in the upper index store (10), which is [`Structure::run`]. Lines behind the last place are
    /// blank. What [`Structure::find`] refuses is refused here, too, and there is no sheet.
    ///
    /// ```
    /// use lilacpliers::{Matrix, Orders, Structure};
    /// let entries = [(0, 0, 4.0), (0, 1, 1.0), (0, 2, 1.0), (1, 0, 1.0), (1, 1, 4.0), (2, 0, 1.0), (2, 2, 4.0)];
    /// let matrix = Matrix::from_triplets(3, &entries)?;
    /// let (structure, sheet) = Structure::fill_sheet(&matrix, &Orders::natural(3))?;
    /// let (page, blank) = sheet.split_at(4 * 41);
    /// let lines = [
    ///     "FILL                                   1\n",
    ///     "     0       0       0       2         0\n",
    ///     "     1       1       1       1         1\n",
    ///     "     2       2       2       0         2\n",
    /// ];
    /// assert_eq!(page, lines.concat());
    /// assert_eq!(blank, format!("{:40}\n", "").repeat(46));
    /// assert_eq!(structure.counts().upper, 3);
    /// # Ok::<(), lilacpliers::Error>(())
    /// ```
    pub fn fill_sheet(matrix: &Matrix, orders: &Orders) -> Result<(Structure, String), Error> {
        let asked = Asked { matrix, orders };
        let mut sheet = vec![0; sheet_bytes(rows_lent(matrix))];
        let structure = found(Kept::Shared, asked, |lists, values, scratch| {
            ffi::fill_sheet(asked, lists, values, scratch, &mut sheet)
        })?;
        // The library writes ASCII alone.
        Ok((structure, String::from_utf8_lossy(&sheet).into_owned()))
    }

    /// How much the elimination fills and multiplies.
    pub fn counts(&self) -> Counts {
        self.counts
    }

    /// The slots that the lists use.
    pub fn slots(&self) -> Slots {
        Slots {
            lower_index: self.lists.lower.index_slots(),
            lower_values: self.lists.lower.value_slots(),
            upper_index: self.lists.upper.index_slots(),
            upper_values: self.lists.upper.value_slots(),
        }
    }

    /// The form of the lists.
    pub fn form(&self) -> Form {
        self.form.form()
    }

    /// The list of a place, ascending: above the diagonal the columns of its row; below it the columns of its row in
    /// the plain form, and the rows of its column in the shared form. A place that does not exist has the empty list.
    pub fn list(&self, side: Side, place: usize) -> &[u16] {
        let (start, length) = self.part(side, place);
        let lists = match side {
            Side::Lower => &self.lists.lower,
            Side::Upper => &self.lists.upper,
        };
        lists.index.get(start..).and_then(|rest| rest.get(..length)).unwrap_or_default()
    }

    /// Where the list of a place starts in its index store; 0 for a place that does not exist.
    pub fn run(&self, side: Side, place: usize) -> usize {
        self.part(side, place).0
    }

    fn part(&self, side: Side, place: usize) -> (usize, usize) {
        let n = self.lists.lower.starts.len().saturating_sub(1);
        ffi::list(self.form, side, place, n, &self.lists)
    }
}

/// What a structure call finds, lent more and more slots until it has enough.
fn found(
    form: Kept,
    asked: Asked,
    mut call: impl FnMut(&mut Pair, &mut Values, &mut Scratch) -> Answer,
) -> Result<Structure, Error> {
    let n = rows_lent(asked.matrix);
    let mut scratch = Scratch::new(n);
    let (answer, (mut lists, mut values)) = grow(asked.matrix, |room| {
        let (mut lists, mut values) = (Pair::new(form, n, room), Values::new(n, room));
        let answer = call(&mut lists, &mut values, &mut scratch);
        (answer, (lists, values))
    });
    Question::structure(asked.matrix, asked.orders).settle(&answer)?;
    lists.trim(&mut values);
    Ok(Structure { form, lists, counts: counts(&answer) })
}

/// The counts of an answer.
pub(crate) fn counts(answer: &Answer) -> Counts {
    let [_, lower, upper, products] = answer.report;
    Counts { lower, upper, products }
}
