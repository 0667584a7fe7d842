//! The version of this crate.

/// The version of this crate, which is that of the library it is written for: three numbers with dots, such as `0.1.0`.
///
/// ```
/// let numbers: Vec<u32> = plombrisa::version().split('.').map(|number| number.parse().unwrap()).collect();
/// assert_eq!(numbers.len(), 3);
/// ```
pub fn version() -> &'static str {
    env!("CARGO_PKG_VERSION")
}
