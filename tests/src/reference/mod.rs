//! Another solver, written from the paper for comparison only: fill by searching walks, dense working
//! rows, every rounded operation tested by itself. It is slow on purpose and shares nothing with the library.
pub mod arithmetic;
pub mod calls;
pub mod factor_file;
pub mod factors;
pub mod fill;
pub mod fill_sheet;
pub mod lookup;
pub mod matrix_file;
pub mod placing;
pub mod program;
pub mod questions;
pub mod residual;
pub mod test_load;

pub use calls::{is_short, needs, pivots, run};
pub use lookup::{lookup, Lists};
