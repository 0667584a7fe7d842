//! The volume of a heap in plain Rust, for the run that holds the library to it, for the program's tests and for the benchmark.
pub mod measure;
