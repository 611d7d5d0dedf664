//! An ordinary solver with the product's lists and order of operations, to measure the product against.
pub mod numeric;
pub mod ordinary;
pub mod symbolic;
