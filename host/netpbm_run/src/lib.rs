//! PGM and PFM in plain Rust, for the run that holds the library to them and for the benchmark.
pub mod format;
