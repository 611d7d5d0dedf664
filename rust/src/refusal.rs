//! The library's refusals, in words.
use crate::ffi::{Answer, Equations};
use crate::{Matrix, Orders, MAX_ENTRIES, MAX_ROWS, MAX_SLOTS};
use std::fmt;

/// A question that the library answered with no: its number, the place it names, and plain words.
///
/// All numbers in the words count from 0, as in this crate's calls.
///
/// ```
/// use lilacpliers::{solve, Error, Form, Matrix, Orders};
/// let matrix = Matrix::from_triplets(2, &[(0, 0, 1.0), (0, 1, 1.0)])?;
/// let Err(Error::Refused(refusal)) = solve(Form::Plain, &matrix, &Orders::natural(2), &[1.0, 1.0]) else { panic!() };
/// assert_eq!((refusal.number(), refusal.place()), (7, 1));
/// assert!(refusal.to_string().starts_with("row 1 has no entry"));
/// # Ok::<(), Error>(())
/// ```
#[derive(Debug, Clone, PartialEq, Eq)]
pub struct Refusal {
    number: u32,
    place: u64,
    row: Option<usize>,
    words: String,
}

impl Refusal {
    /// The number of the question, as the headers list them.
    pub fn number(&self) -> u32 {
        self.number
    }

    /// The place that the refusal names, 0 where it names none.
    pub fn place(&self) -> u64 {
        self.place
    }

    /// The row of the matrix that is at fault, where there is one.
    pub fn row(&self) -> Option<usize> {
        self.row
    }

    /// The refusal of a number of rows.
    pub(crate) fn of_rows(n: usize, answer: Answer) -> Refusal {
        let [place, ..] = answer.report;
        Refusal { number: answer.number, place, row: None, words: rows_words(n) }
    }
}

impl fmt::Display for Refusal {
    fn fmt(&self, out: &mut fmt::Formatter) -> fmt::Result {
        out.write_str(&self.words)
    }
}

fn rows_words(n: usize) -> String {
    format!("the matrix has {n} rows; 1 to {MAX_ROWS} are taken")
}

/// What a call was asked, to put its refusal into words.
#[derive(Clone, Copy)]
pub(crate) struct Question<'a> {
    call: Call,
    rows: Option<usize>,
    matrix: Option<&'a Matrix>,
    orders: Option<&'a Orders>,
    right: Option<&'a [f64]>,
    floor: Option<f64>,
    x: Option<&'a [f64]>,
}

/// The calls, as far as the words differ.
#[derive(Clone, Copy)]
enum Call {
    Solve,
    /// Over factors of so many rows.
    Refactor(usize),
    /// From a matrix file of so many bytes.
    Read(usize),
    /// From a factor file of so many bytes.
    Factors(usize),
    /// Of a test load.
    Load,
    /// Of the residual of a row.
    Residual(usize),
}

impl<'a> Question<'a> {
    fn of(call: Call) -> Question<'a> {
        Question { call, rows: None, matrix: None, orders: None, right: None, floor: None, x: None }
    }

    pub fn structure(matrix: &'a Matrix, orders: &'a Orders) -> Question<'a> {
        let rows = Some(matrix.rows());
        Question { rows, matrix: Some(matrix), orders: Some(orders), ..Question::of(Call::Solve) }
    }

    pub fn write(asked: Equations<'a>) -> Question<'a> {
        Question { right: Some(asked.right), ..Question::structure(asked.matrix, asked.orders) }
    }

    pub fn solve(asked: Equations<'a>, floor: f64) -> Question<'a> {
        Question { floor: Some(floor), ..Question::write(asked) }
    }

    pub fn refactor(asked: Equations<'a>, floor: f64, factored: usize) -> Question<'a> {
        Question { call: Call::Refactor(factored), ..Question::solve(asked, floor) }
    }

    pub fn resolve(n: usize, orders: &'a Orders, right: &'a [f64]) -> Question<'a> {
        let (orders, right) = (Some(orders), Some(right));
        Question { rows: Some(n), orders, right, ..Question::of(Call::Solve) }
    }

    pub fn read(file: &[u8]) -> Question<'a> {
        Question::of(Call::Read(file.len()))
    }

    pub fn keep(n: usize, orders: &'a Orders) -> Question<'a> {
        Question { right: None, ..Question::resolve(n, orders, &[]) }
    }

    /// Of a factor file; its rows are known once its shape is.
    pub fn factors(file: &[u8], rows: Option<usize>) -> Question<'a> {
        Question { call: Call::Factors(file.len()), rows, ..Question::read(file) }
    }

    pub fn load(n: usize) -> Question<'a> {
        Question { rows: Some(n), ..Question::of(Call::Load) }
    }

    pub fn residual(matrix: &'a Matrix, right: &'a [f64], x: &'a [f64], row: usize) -> Question<'a> {
        let (rows, matrix, right, x) = (Some(matrix.rows()), Some(matrix), Some(right), Some(x));
        Question { rows, matrix, right, x, ..Question::of(Call::Residual(row)) }
    }

    /// Nothing if the answer is "done", else its refusal.
    pub fn settle(&self, answer: &Answer) -> Result<(), Refusal> {
        if answer.number == 0 {
            return Ok(());
        }
        let (number, [place, ..]) = (answer.number, answer.report);
        Err(Refusal { number, place, row: self.row(number, place as usize), words: self.words(number, place as usize) })
    }

    /// Whether 22 can be its answer.
    fn is_of_a_row(&self) -> bool {
        matches!(self.call, Call::Residual(_))
    }

    /// The row of the matrix at fault.
    fn row(&self, number: u32, place: usize) -> Option<usize> {
        match number {
            3 | 7 => Some(place),
            22 if self.is_of_a_row() => Some(place),
            4 => self.row_of_entry(place),
            6 if place < self.entries() => self.row_of_entry(place),
            6 => Some(place - self.entries()).filter(|&row| self.x.is_none() || Some(row) < self.rows),
            9..=15 => number_at(self.orders?.rows(), place),
            _ => None,
        }
    }

    fn words(&self, number: u32, place: usize) -> String {
        match number {
            1 => self.limit_words(),
            2 => self.length_words(),
            3 => format!(
                "the row starts are wrong at row {place}: they begin at 0, never fall and end at the number of entries"
            ),
            4 => self.column_words(place),
            5 => self.order_words(place),
            6 => self.finite_words(place),
            7 => format!("row {place} has no entry: no order can solve it; give the row an entry or leave it out"),
            9..=15 => self.place_words(number, place),
            16..=18 => self.file_words(number, place),
            19 => "the floor under pivots must be a finite number, zero or greater".into(),
            20 => "the factor file is longer or shorter than its first numbers say, or does not end in zeros".into(),
            21 => "the factor file's count of products is not that of its lists".into(),
            22 if self.is_of_a_row() => format!("a result of row {place} is not finite; scaled rows may avoid it"),
            _ => format!("the library refuses it with {number} at {place}"),
        }
    }

    fn limit_words(&self) -> String {
        match (self.call, self.rows) {
            (Call::Load, Some(n)) => format!("a test load has 1 to {MAX_ROWS} rows, not {n}"),
            (_, Some(n)) => rows_words(n),
            (_, None) => format!("the file has no rows, or more than {MAX_ROWS}"),
        }
    }

    fn length_words(&self) -> String {
        let n = self.rows.unwrap_or(0);
        match self.call {
            Call::Refactor(factored) if factored != n => {
                return format!("the matrix has {n} rows where the factors have {factored}: solve it anew");
            }
            Call::Factors(_) => {
                return format!("the factors have over {MAX_SLOTS} entries below or above the diagonal");
            }
            _ => {}
        }
        let parts = [
            ("row order", self.orders.map(|orders| orders.rows().len())),
            ("column order", self.orders.map(|orders| orders.columns().len())),
            ("right side", self.right.map(<[f64]>::len)),
            ("solution", self.x.map(<[f64]>::len)),
        ];
        for (what, length) in parts {
            if let Some(length) = length.filter(|&length| length != n) {
                return format!("the {what} has {length} numbers where the matrix has {n} rows");
            }
        }
        entries_words(self.entries())
    }

    fn column_words(&self, entry: usize) -> String {
        let column = self.matrix.and_then(|matrix| number_at(matrix.columns(), entry)).unwrap_or(0);
        format!("entry {entry}{} has column {column}, where columns are 0 to {}", self.row_words(entry), self.last())
    }

    fn order_words(&self, place: usize) -> String {
        let n = self.rows.unwrap_or(0);
        if let Call::Residual(row) = self.call {
            return format!("there is no row {row}: rows are 0 to {}", self.last());
        }
        let (what, order, place) = match place.checked_sub(n) {
            Some(place) => ("column", self.orders.map(Orders::columns), place),
            None => ("row", self.orders.map(Orders::rows), place),
        };
        let fault = match order.and_then(|order| number_at(order, place)) {
            Some(number) if number >= n => format!(": {number} is out of range"),
            Some(number) => format!(": {number} stands there before"),
            None => String::new(),
        };
        format!("the {what} order is wrong at place {place}{fault}; each of 0 to {} is due once", self.last())
    }

    fn finite_words(&self, index: usize) -> String {
        match index.checked_sub(self.entries()) {
            Some(index) if self.x.is_some() && Some(index) >= self.rows => {
                format!("number {} of the solution is not finite", index - self.rows.unwrap_or(0))
            }
            Some(index) => format!("number {index} of the right side is not finite"),
            None => format!("the value of entry {index} is not finite{}", self.row_words(index)),
        }
    }

    fn place_words(&self, number: u32, place: usize) -> String {
        let at = self.place_name(place);
        match number {
            9 => format!("the pivot at {at} has no entry and no fill; another order may avoid it"),
            10 => format!(
                "the lists below the diagonal need over {MAX_SLOTS} slots from {at} on; another order may fill less"
            ),
            11 => format!(
                "the lists above the diagonal need over {MAX_SLOTS} slots from {at} on; another order may fill less"
            ),
            12 if self.floor.is_some_and(|floor| floor > 0.0) => {
                format!("the magnitude of the pivot at {at} is at most the floor; another order or a lower floor may avoid it")
            }
            12 => format!("the pivot at {at} is zero; another order may avoid it"),
            13 => format!("a result at {at} is not finite; scaled rows or another order may avoid it"),
            14 => format!("the matrix has another structure than the factors from {at} on: solve it anew"),
            _ => format!("the factors are damaged at {at}: solve anew"),
        }
    }

    fn file_words(&self, number: u32, place: usize) -> String {
        let (kind, length) = match self.call {
            Call::Read(length) => ("matrix", length),
            Call::Factors(length) => ("factor", length),
            _ => return entries_words(self.entries()),
        };
        match number {
            16 => format!("{length} bytes are no {kind} file, which has a positive multiple of 512"),
            17 => format!("block {place} of the file is damaged: its number or checks are wrong"),
            _ => format!("the file has over {MAX_ENTRIES} entries, or {length} bytes do not fit its rows and entries"),
        }
    }

    /// A place with its own row, and its own column where that is another number.
    fn place_name(&self, place: usize) -> String {
        let row = self.orders.and_then(|orders| number_at(orders.rows(), place));
        let column = self.orders.and_then(|orders| number_at(orders.columns(), place));
        match (row, column) {
            (Some(row), Some(column)) if row != column => format!("place {place} (row {row}, column {column})"),
            (Some(row), _) => format!("place {place} (row {row})"),
            _ => format!("place {place}"),
        }
    }

    fn entries(&self) -> usize {
        self.matrix.map_or(0, Matrix::entries)
    }

    fn last(&self) -> usize {
        self.rows.unwrap_or(0).saturating_sub(1)
    }

    /// The row that an entry belongs to.
    fn row_of_entry(&self, entry: usize) -> Option<usize> {
        let starts = self.matrix?.starts();
        starts.partition_point(|&start| start as usize <= entry).checked_sub(1)
    }

    fn row_words(&self, entry: usize) -> String {
        self.row_of_entry(entry).map_or(String::new(), |row| format!(" (row {row})"))
    }
}

fn entries_words(e: usize) -> String {
    if e > MAX_ENTRIES {
        return format!("the matrix has {e} entries; up to {MAX_ENTRIES} are taken");
    }
    "the lengths of matrix, orders and right side do not fit together".into()
}

fn number_at(list: &[u16], at: usize) -> Option<usize> {
    list.get(at).map(|&number| usize::from(number))
}

#[cfg(test)]
mod tests {
    use super::*;

    /// 8 is reserved, and what is not known may come with a later library: neither passes for done.
    #[test]
    fn numbers_without_words_are_refusals() {
        let matrix = Matrix::from_triplets(1, &[(0, 0, 1.0)]).unwrap();
        let orders = Orders::natural(1);
        for question in [Question::structure(&matrix, &orders), Question::read(&[0; 512]), Question::load(1)] {
            for number in [8, 22, u32::MAX] {
                let refusal = question.settle(&Answer { number, report: [3, 0, 0, 0] }).unwrap_err();
                assert_eq!((refusal.number(), refusal.place(), refusal.row()), (number, 3, None));
                assert_eq!(refusal.to_string(), format!("the library refuses it with {number} at 3"));
            }
        }
    }
}
