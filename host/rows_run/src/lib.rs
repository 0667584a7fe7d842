//! The row index in plain Rust, for the run that holds the library to it and for the benchmark.
pub mod index;
