//! Right sides and orders as text.
use crate::{market, Error};

/// Reads a right side: a Matrix Market file of one column, or plain numbers with blanks or line ends between.
///
/// ```
/// assert_eq!(lilacpliers::vector_from_text("10 9\n")?, [10.0, 9.0]);
/// # Ok::<(), lilacpliers::Error>(())
/// ```
pub fn vector_from_text(text: &str) -> Result<Vec<f64>, Error> {
    if market::is_market(text) {
        return market::read_vector(text);
    }
    words(text).map(|(line, word)| market::real(line, word)).collect()
}

/// Reads an order: whole numbers counted from 0, with blanks or line ends between.
///
/// ```
/// assert_eq!(lilacpliers::order_from_text("1 0")?, [1, 0]);
/// # Ok::<(), lilacpliers::Error>(())
/// ```
pub fn order_from_text(text: &str) -> Result<Vec<usize>, Error> {
    words(text).map(|(line, word)| market::whole(line, word)).collect()
}

/// Each word with the number of its line, counted from 1.
fn words(text: &str) -> impl Iterator<Item = (usize, &str)> {
    text.lines().enumerate().flat_map(|(at, line)| line.split_whitespace().map(move |word| (at + 1, word)))
}
