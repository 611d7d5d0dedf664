//! What can go wrong.
use crate::Refusal;
use std::fmt;

/// Why there is no result, in plain words.
#[derive(Debug, Clone, PartialEq)]
#[non_exhaustive]
pub enum Error {
    /// The library refused the question.
    Refused(Refusal),
    /// A text cannot be read.
    Text(String),
    /// Parts do not fit together, or a number does not fit its slot.
    Shape(String),
    /// The row form keeps neither structure nor factors; ask for the plain or the shared form.
    RowForm,
}

impl fmt::Display for Error {
    fn fmt(&self, out: &mut fmt::Formatter) -> fmt::Result {
        match self {
            Error::Refused(refusal) => refusal.fmt(out),
            Error::Text(words) | Error::Shape(words) => out.write_str(words),
            Error::RowForm => {
                out.write_str("the row form keeps neither structure nor factors; ask for the plain or the shared form")
            }
        }
    }
}

impl std::error::Error for Error {}

impl From<Refusal> for Error {
    fn from(refusal: Refusal) -> Error {
        Error::Refused(refusal)
    }
}
