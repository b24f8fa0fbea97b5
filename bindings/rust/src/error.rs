//! Why a call is refused.
use alloc::string::String;
use core::fmt;

/// Why a call is refused.
#[derive(Clone, Debug, PartialEq, Eq)]
pub enum Error {
    /// The transcript refuses a step: the bytes are no proof, or the values have none.
    Refused {
        /// The position of the step, 0 also where the seed is refused, and the number of the steps at the end.
        position: u64,
        /// Why.
        reason: String,
    },
    /// Nothing was asked that can be answered: the description is none, or the witnesses or the values are not those
    /// that its steps want. The text says which.
    Malformed(String),
    /// Memory ran out.
    OutOfMemory,
}

impl fmt::Display for Error {
    fn fmt(&self, f: &mut fmt::Formatter<'_>) -> fmt::Result {
        match self {
            Error::Refused { position, reason } => {
                write!(f, "refused at step {position}: {reason}")
            }
            Error::Malformed(reason) => f.write_str(reason),
            Error::OutOfMemory => f.write_str("out of memory"),
        }
    }
}

impl core::error::Error for Error {}
