//! Why a call that asks for memory of its own came to nothing.
use crate::Refusal;
use crate::grouped::Grouped;
use std::fmt;

/// Why a call that asks for memory of its own came to nothing.
///
/// Memory is asked for only after the library has judged what it was given, so a call that the library refuses is
/// [`Refused`](Error::Refused) however little memory there is.
///
/// ```
/// use plombrisa::{Error, Options, Picture, Refusal, match_block};
///
/// let picture = Picture { bytes: &[0; 15], width: 5, height: 3 };
/// let error = match_block(picture, picture, &Options { block_size: 2, ..Options::default() }).unwrap_err();
/// assert_eq!(error, Error::Refused(Refusal::BlockEven));
/// assert_eq!(error.to_string(), "refused, 4: the block's side is zero or even");
/// assert_eq!(Error::Memory { bytes: 12_884_901_888 }.to_string(), "out of memory: 12,884,901,888 bytes are needed");
/// ```
#[derive(Debug, Clone, Copy, PartialEq, Eq)]
pub enum Error {
    /// The library refused what it was given, for this reason.
    Refused(Refusal),
    /// What was given is sound, but the system has not the memory that the call needs.
    Memory {
        /// All the bytes that the call needs beside what it was given, whichever part of them could not be had.
        bytes: u64,
    },
}

impl Error {
    /// The library's reason, where it was the library that refused and not the system.
    pub fn refusal(self) -> Option<Refusal> {
        match self {
            Self::Refused(refusal) => Some(refusal),
            Self::Memory { .. } => None,
        }
    }
}

impl From<Refusal> for Error {
    fn from(refusal: Refusal) -> Self {
        Self::Refused(refusal)
    }
}

impl fmt::Display for Error {
    fn fmt(&self, f: &mut fmt::Formatter) -> fmt::Result {
        match self {
            Self::Refused(refusal) => write!(f, "refused, {}: {refusal}", refusal.number()),
            Self::Memory { bytes } => write!(f, "out of memory: {} bytes are needed", Grouped(*bytes)),
        }
    }
}

impl std::error::Error for Error {}
