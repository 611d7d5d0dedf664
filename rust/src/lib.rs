//! Sparse LU elimination, proved for all input down to the last bit.
//!
//! This crate is the safe Rust side of the proved static library: it lends the library buffers of the right lengths
//! and puts its answers into words. There is no elimination in it. Rows, columns, entries and places count from 0, also
//! in the words of a refusal; only Matrix Market texts, and the words about them, count from 1.
//!
//! ```
//! use lilacpliers::{solve, vector_from_text, Form, Matrix, Orders};
//! let matrix = Matrix::from_matrix_market(
//!     "%%MatrixMarket matrix coordinate real general
//!      2 2 4
//!      1 1 2
//!      1 2 4
//!      2 1 1
//!      2 2 4",
//! )?;
//! let right = vector_from_text("10 9")?;
//! let solution = solve(Form::Plain, &matrix, &Orders::natural(matrix.rows()), &right)?;
//! assert_eq!(solution.x, [1.0, 2.0]);
//! assert_eq!(solution.counts.products, 1);
//! # Ok::<(), lilacpliers::Error>(())
//! ```
//!
//! [`solve`] keeps nothing but the solution; [`Factors`] serve more right sides and new values; [`solve_above`],
//! [`Factors::solve_above`] and [`Factors::refactor_above`] refuse pivots near zero, [`Factors::save`] and
//! [`Factors::load`] keep factors in a file; [`Structure`] is the fill alone, and [`Structure::fill_sheet`] prints it
//! on pages; [`Check`] tells how far off a solution is; [`System`] is what a matrix file holds, and
//! [`System::test_load`] makes one that is the same everywhere. Nothing here panics, whatever it is given: what cannot
//! be solved is an [`Error`], mostly a [`Refusal`] with the library's number and place.
//!
//! The library is for x86-64 and for the floating-point environment that every Rust program starts with.
#![deny(missing_docs)]
#![deny(unsafe_code)]

mod buffers;
mod error;
mod factors;
#[allow(unsafe_code)]
mod ffi;
mod form;
mod market;
mod matrix;
mod orders;
mod refusal;
mod residual;
mod structure;
mod system;
mod text;

pub use error::Error;
pub use factors::{solve, solve_above, Factors, Solution};
pub use form::{Counts, Form, Side, Slots};
pub use matrix::Matrix;
pub use orders::Orders;
pub use refusal::Refusal;
pub use residual::{Check, Residual, Residuals};
pub use structure::Structure;
pub use system::System;
pub use text::{order_from_text, vector_from_text};

/// The most rows that the library takes.
pub const MAX_ROWS: usize = 4096;
/// The most entries that the library takes.
pub const MAX_ENTRIES: usize = 65_536;
/// The most slots of a store.
pub const MAX_SLOTS: usize = 1_048_576;
