//! The Rust that Plombrisa is held to: `dense.rs` of calibration-rs, unchanged, behind the two names that it leans on, and the
//! point formula of its `rectification.rs`.
//! Its licence is in LICENSE.txt beside this crate.

/// Stands for the repository's own error type, of which `dense.rs` uses this one function.
#[derive(Debug)]
pub enum MvgError {
    InvalidInput(String),
}

impl MvgError {
    pub fn invalid_input(message: impl Into<String>) -> Self {
        Self::InvalidInput(message.into())
    }
}

pub type Result<T> = std::result::Result<T, MvgError>;

pub mod dense;
pub mod rectification;

/// The same text with its raw volume handed out (see build.rs).
#[allow(dead_code)]
pub mod opened {
    include!(concat!(env!("OUT_DIR"), "/dense_opened.rs"));
}
