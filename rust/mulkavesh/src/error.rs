//! Why a call has no answer.

use crate::Fault;
use std::{error, fmt};

/// Why a call has no answer. Nothing is left of a call that was refused.
///
/// ```
/// use mulkavesh::{gc, Beginning, Error, Fault, Flags, Roots};
///
/// let error = gc(b"no module", Flags::default(), Roots::default()).unwrap_err();
/// assert_eq!(error, Error::Invalid(Fault::Header(Beginning::Other)));
/// let text = "the input WebAssembly is invalid: the bytes don't begin as a WebAssembly module";
/// assert_eq!(error.to_string(), text);
/// ```
#[derive(Debug, Clone, PartialEq, Eq, Hash)]
pub enum Error {
    /// The input is no module that keeps the rules of the format; this is wrong with it, as
    /// [`diagnose`](crate::diagnose) tells it. [`strip`](crate::strip) and
    /// [`sections`](crate::sections()) look at its framing alone. Where there is no memory to find that out, the error
    /// is [`Error::NoMemory`], and where a place in it passes 32 bits [`Error::TooLarge`].
    Invalid(Fault),
    /// What is to be written, or told, has a count, a size or a place past 32 bits.
    TooLarge,
    /// Memory ran out.
    NoMemory,
    /// There is nothing of this name or index that the call could work on.
    NotFound,
    /// This NAME of [`Roots`](crate::Roots), the first such one, fits no export of the input.
    Unfit(String),
}

impl fmt::Display for Error {
    fn fmt(&self, formatter: &mut fmt::Formatter<'_>) -> fmt::Result {
        match self {
            Error::Invalid(fault) => write!(formatter, "the input WebAssembly is invalid: {fault}"),
            Error::TooLarge => formatter.write_str("a count or size passes 32 bits"),
            Error::NoMemory => formatter.write_str("out of memory"),
            Error::NotFound => formatter.write_str("there is nothing of this name or index"),
            Error::Unfit(name) => write!(formatter, "no export fits {name:?}"),
        }
    }
}

impl error::Error for Error {}
