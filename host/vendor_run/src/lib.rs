//! The check of a vendor's map in plain Rust, for the run that holds the library to it, for the table of OpenCV's maps and for the
//! benchmark.
pub mod judge;
