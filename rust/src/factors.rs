//! Factors and solutions.
use crate::buffers::{factor_bytes, grow, rows_lent, Lists, Pair, Scratch, Values};
use crate::ffi::{self, Equations};
use crate::form::Kept;
use crate::refusal::Question;
use crate::structure::counts;
use crate::{Counts, Error, Form, Matrix, Orders, Side, Slots, Structure, MAX_SLOTS};

/// A solution and what it took.
#[derive(Debug, Clone, PartialEq)]
pub struct Solution {
    /// The unknowns, by column.
    pub x: Vec<f64>,
    /// How much the elimination filled and multiplied.
    pub counts: Counts,
}

/// Solves a system in any of the three forms, and keeps nothing but the solution.
///
/// ```
/// use lilacpliers::{solve, Form, Matrix, Orders};
/// let matrix = Matrix::from_triplets(2, &[(0, 0, 2.0), (0, 1, 4.0), (1, 0, 1.0), (1, 1, 4.0)])?;
/// let solution = solve(Form::Row, &matrix, &Orders::natural(2), &[10.0, 9.0])?;
/// assert_eq!(solution.x, [1.0, 2.0]);
/// # Ok::<(), lilacpliers::Error>(())
/// ```
pub fn solve(form: Form, matrix: &Matrix, orders: &Orders, right: &[f64]) -> Result<Solution, Error> {
    solve_above(form, matrix, orders, right, 0.0)
}

/// Solves as [`solve`] does, but refuses with 12 a pivot whose magnitude is at most the floor, for what is divided by a
/// pivot near zero outweighs all else. The floor 0, of either sign, refuses pivots of zero only, as [`solve`] does; a
/// floor that is negative, infinite or not a number is refused itself, with 19.
///
/// ```
/// use lilacpliers::{solve_above, Error, Form, Matrix, Orders};
/// let matrix = Matrix::from_triplets(2, &[(0, 0, 1.0), (0, 1, 1.0), (1, 0, 1.0), (1, 1, 1.25)])?;
/// let above = |floor| solve_above(Form::Plain, &matrix, &Orders::natural(2), &[2.0, 3.0], floor);
/// assert_eq!(above(0.125)?.x, [-2.0, 4.0]);
/// // The pivots are 1 and 0.25.
/// let Err(Error::Refused(refusal)) = above(0.25) else { panic!() };
/// assert_eq!((refusal.number(), refusal.place()), (12, 1));
/// assert!(refusal.to_string().starts_with("the magnitude of the pivot at place 1 (row 1) is at most the floor"));
/// # Ok::<(), Error>(())
/// ```
pub fn solve_above(form: Form, matrix: &Matrix, orders: &Orders, right: &[f64], floor: f64) -> Result<Solution, Error> {
    let asked = Equations { matrix, orders, right };
    match form.kept() {
        Some(form) => Ok(factor(form, asked, floor)?.1),
        None => solve_row(asked, floor),
    }
}

/// The factors of a matrix, for more right sides and for new values.
///
/// ```
/// use lilacpliers::{Factors, Form, Matrix, Orders};
/// let matrix = Matrix::from_triplets(2, &[(0, 0, 2.0), (0, 1, 4.0), (1, 0, 1.0), (1, 1, 4.0)])?;
/// let (mut factors, solution) = Factors::solve(Form::Shared, &matrix, &Orders::natural(2), &[10.0, 9.0])?;
/// assert_eq!(solution.x, [1.0, 2.0]);
/// assert_eq!(factors.solve_again(&[6.0, 5.0])?, [1.0, 1.0]);
/// let other = matrix.with_values(vec![1.0, 0.0, 0.0, 2.0])?;
/// assert_eq!(factors.refactor(&other, &[1.0, 1.0])?, [1.0, 0.5]);
/// # Ok::<(), lilacpliers::Error>(())
/// ```
#[derive(Debug, Clone, PartialEq)]
pub struct Factors {
    structure: Structure,
    values: Values,
    orders: Orders,
}

impl Factors {
    /// Finds structure, factors and one solution, in the plain or the shared form.
    pub fn solve(form: Form, matrix: &Matrix, orders: &Orders, right: &[f64]) -> Result<(Factors, Solution), Error> {
        Factors::solve_above(form, matrix, orders, right, 0.0)
    }

    /// The same, but refuses a pivot whose magnitude is at most the floor, as [`solve_above`] does. The factors do not
    /// keep the floor: [`Factors::refactor_above`] takes one of its own.
    ///
    /// ```
    /// use lilacpliers::{Factors, Form, Matrix, Orders};
    /// let matrix = Matrix::from_triplets(2, &[(0, 0, 2.0), (1, 0, 1.0), (1, 1, -4.0)])?;
    /// let (mut factors, _) = Factors::solve_above(Form::Plain, &matrix, &Orders::natural(2), &[2.0, 1.0], 1.0)?;
    /// let other = matrix.with_values(vec![2.0, 1.0, -0.5])?;
    /// assert!(factors.refactor_above(&other, &[2.0, 1.0], 0.5).is_err());
    /// assert_eq!(factors.refactor_above(&other, &[2.0, 2.0], 0.25)?, [1.0, -2.0]);
    /// # Ok::<(), lilacpliers::Error>(())
    /// ```
    pub fn solve_above(
        form: Form,
        matrix: &Matrix,
        orders: &Orders,
        right: &[f64],
        floor: f64,
    ) -> Result<(Factors, Solution), Error> {
        let form = form.kept().ok_or(Error::RowForm)?;
        factor(form, Equations { matrix, orders, right }, floor)
    }

    /// Factors a matrix of the same pattern with new values, and solves for one right side. After a refusal the
    /// factors are those from before.
    pub fn refactor(&mut self, matrix: &Matrix, right: &[f64]) -> Result<Vec<f64>, Error> {
        self.refactor_above(matrix, right, 0.0)
    }

    /// The same, but refuses a pivot whose magnitude is at most the floor, as [`solve_above`] does. The floor may be
    /// another than before.
    pub fn refactor_above(&mut self, matrix: &Matrix, right: &[f64], floor: f64) -> Result<Vec<f64>, Error> {
        let n = rows_lent(matrix);
        let asked = Equations { matrix, orders: &self.orders, right };
        let (mut values, mut x, mut scratch) = (self.values.blank(), vec![0.0; n], Scratch::new(n));
        let (form, lists) = (self.structure.form, &self.structure.lists);
        let answer = ffi::refactor(form, asked, floor, lists, &mut values, &mut x, &mut scratch);
        Question::refactor(asked, floor, self.rows()).settle(&answer)?;
        self.values = values;
        Ok(x)
    }

    /// Solves for another right side.
    pub fn solve_again(&self, right: &[f64]) -> Result<Vec<f64>, Error> {
        let n = self.rows();
        let (mut x, mut scratch) = (vec![0.0; n], Scratch::new(n));
        let lists = &self.structure.lists;
        let answer = ffi::resolve(self.structure.form, &self.orders, right, lists, &self.values, &mut x, &mut scratch);
        Question::resolve(n, &self.orders, right).settle(&answer)?;
        Ok(x)
    }

    /// Writes the factors and their orders as a factor file, so that a restart need not eliminate again. Only the
    /// plain form can be kept.
    ///
    /// ```
    /// use lilacpliers::{Factors, Form, Matrix, Orders};
    /// let matrix = Matrix::from_triplets(2, &[(0, 0, 2.0), (0, 1, 4.0), (1, 0, 1.0), (1, 1, 4.0)])?;
    /// let (factors, _) = Factors::solve(Form::Plain, &matrix, &Orders::natural(2), &[10.0, 9.0])?;
    /// let kept = Factors::load(&factors.save()?)?;
    /// assert_eq!(kept, factors);
    /// assert_eq!(kept.solve_again(&[6.0, 5.0])?, [1.0, 1.0]);
    /// # Ok::<(), lilacpliers::Error>(())
    /// ```
    pub fn save(&self) -> Result<Vec<u8>, Error> {
        if self.structure.form() != Form::Plain {
            return Err(Error::Shape("only factors of the plain form can be kept in a file".into()));
        }
        let (n, counts, lists) = (self.rows(), self.counts(), &self.structure.lists);
        let mut file = vec![0; factor_bytes(n, counts)];
        let answer = ffi::write_factors(n, counts, &self.orders, lists, &self.values, &mut file);
        Question::keep(n, &self.orders).settle(&answer)?;
        Ok(file)
    }

    /// Reads a factor file: factors of the plain form, as [`Factors::save`] wrote them. Orders, lists, values and counts
    /// are judged, so that what is read can be solved with.
    pub fn load(bytes: &[u8]) -> Result<Factors, Error> {
        let shape = ffi::factor_shape(bytes);
        Question::factors(bytes, None).settle(&shape)?;
        let [_, n, lower, upper] = shape.report.map(|number| number as usize);
        // A file may hold more entries than a store may have slots: it is refused with 2, so no room is made for it.
        let (lower, upper) = (lower.min(MAX_SLOTS), upper.min(MAX_SLOTS));
        let list = |slots: usize| Lists::new(Kept::Plain, n, slots);
        let mut lists = Pair { lower: list(lower), upper: list(upper) };
        let mut values = Values { lower: vec![0.0; lower], upper: vec![0.0; upper], d: vec![0.0; n] };
        let (mut rows, mut columns) = (vec![0; n], vec![0; n]);
        let answer = ffi::read_factors(bytes, &mut rows, &mut columns, &mut lists, &mut values);
        Question::factors(bytes, Some(n)).settle(&answer)?;
        let structure = Structure { form: Kept::Plain, lists, counts: counts(&answer) };
        Ok(Factors { structure, values, orders: Orders::from_parts(rows, columns) })
    }

    /// How much the elimination fills and multiplies.
    pub fn counts(&self) -> Counts {
        self.structure.counts()
    }

    /// The slots that the lists use.
    pub fn slots(&self) -> Slots {
        self.structure.slots()
    }

    /// The list of a place, as [`Structure::list`] gives it.
    pub fn list(&self, side: Side, place: usize) -> &[u16] {
        self.structure.list(side, place)
    }

    /// The structure that the factors stand in.
    pub fn structure(&self) -> &Structure {
        &self.structure
    }

    /// How many rows the matrix has.
    pub fn rows(&self) -> usize {
        self.values.d.len()
    }
}

fn factor(form: Kept, asked: Equations, floor: f64) -> Result<(Factors, Solution), Error> {
    let n = rows_lent(asked.matrix);
    let (mut x, mut scratch) = (vec![0.0; n], Scratch::new(n));
    let (answer, (mut lists, mut values)) = grow(asked.matrix, |room| {
        let (mut lists, mut values) = (Pair::new(form, n, room), Values::new(n, room));
        let answer = ffi::solve(form, asked, floor, &mut lists, &mut values, &mut x, &mut scratch);
        (answer, (lists, values))
    });
    Question::solve(asked, floor).settle(&answer)?;
    lists.trim(&mut values);
    let counts = counts(&answer);
    let structure = Structure { form, lists, counts };
    Ok((Factors { structure, values, orders: asked.orders.clone() }, Solution { x, counts }))
}

fn solve_row(asked: Equations, floor: f64) -> Result<Solution, Error> {
    let n = rows_lent(asked.matrix);
    let (mut x, mut scratch) = (vec![0.0; n], Scratch::new(n));
    let (answer, ()) = grow(asked.matrix, |room| {
        let mut upper = Lists::new(Kept::Shared, n, room.upper);
        let mut values = Values::new(n, room.upper_only());
        (ffi::solve_row(asked, floor, &mut upper, &mut values, &mut x, &mut scratch), ())
    });
    Question::solve(asked, floor).settle(&answer)?;
    Ok(Solution { x, counts: counts(&answer) })
}
