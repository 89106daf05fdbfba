//! Why a call is refused.
use std::{error, fmt, io, result};

/// Why a call is refused. Nothing has changed then, unless the call says otherwise.
#[derive(Clone, Copy, Debug, Eq, Hash, PartialEq)]
#[non_exhaustive]
pub enum Error {
    /// There was no memory.
    Memory,
    /// An earlier call found no memory, and what the screen shows is undefined: make a new object.
    Failed,
    /// The client has ended, or never was.
    UnknownClient,
    /// Fewer bytes wait for the client.
    NotOwed,
    /// The first line of a recording isn't a header.
    NoHeader,
    /// A recording is a file of gzip, bzip2, xz or zstd: unpack it first.
    Compressed,
    /// The size has more cells than the object may have.
    TooLarge,
    /// Another code of the library, which this crate doesn't know.
    Other(i32),
}

/// What most calls return.
pub type Result<T> = result::Result<T, Error>;

impl fmt::Display for Error {
    fn fmt(&self, f: &mut fmt::Formatter<'_>) -> fmt::Result {
        let text = match self {
            Error::Memory => "out of memory",
            Error::Failed => "an earlier call found no memory",
            Error::UnknownClient => "the client has ended, or never was",
            Error::NotOwed => "fewer bytes are owed",
            Error::NoHeader => "the recording has no header",
            Error::Compressed => "the recording is a compressed file",
            Error::TooLarge => "the size has more cells than is allowed",
            Error::Other(code) => return write!(f, "the library answered {code}"),
        };
        f.write_str(text)
    }
}

impl error::Error for Error {}

impl From<Error> for io::Error {
    fn from(error: Error) -> io::Error {
        match error {
            Error::Memory => io::ErrorKind::OutOfMemory.into(),
            _ => io::Error::other(error),
        }
    }
}

/// What a code of the library means.
pub(crate) fn answer(code: i32) -> Result<i32> {
    match code {
        0.. => Ok(code),
        -4 => Err(Error::Memory),
        -5 => Err(Error::Failed),
        -6 => Err(Error::UnknownClient),
        -7 => Err(Error::NotOwed),
        -10 => Err(Error::NoHeader),
        -11 => Err(Error::Compressed),
        -13 => Err(Error::TooLarge),
        // A word here is never closed nor of another kind, and has a size; places and events are checked where they
        // are used.
        _ => Err(Error::Other(code)),
    }
}
