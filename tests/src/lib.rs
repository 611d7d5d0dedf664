//! Tests of the solver from outside: another solver written from the paper, a generator of cases,
//! and the comparison of the library with that solver, buffer by buffer and bit by bit. The documents' blocks are run too.
pub mod blocks;
pub mod checks;
pub mod compare;
pub mod exact;
#[cfg(any(feature = "library", feature = "standin"))]
pub mod ffi;
pub mod generate;
pub mod load;
pub mod model;
pub mod random;
pub mod reference;
#[cfg(all(feature = "standin", not(feature = "library")))]
pub mod standin;
