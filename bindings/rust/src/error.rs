//! Why a call was refused.

use std::fmt;

use crate::faults;

/// The number of an allocation that failed, in docs/FAULTS.md.
pub const OUT_OF_MEMORY: u32 = 90;

/// A call that was refused, or that found no memory.
///
/// After either of them in a stream, the tenant is at its last checkpoint, and its stream is dead until its `end`.
#[derive(Clone, Debug, PartialEq, Eq)]
pub enum Error {
    /// The call was refused.
    Fault {
        /// The number of docs/FAULTS.md.
        number: u32,
        /// What the call printed before the refusal.
        reply: Vec<u8>,
    },
    /// An allocation failed.
    Memory {
        /// How many whole items of a piece took effect: lines and `data` of its stream. 0 for every other call.
        items: u64,
        /// What these items printed.
        reply: Vec<u8>,
    },
}

impl Error {
    /// The number of docs/FAULTS.md. It is 90 for [`Error::Memory`].
    pub fn number(&self) -> u32 {
        match self {
            Error::Fault { number, .. } => *number,
            Error::Memory { .. } => OUT_OF_MEMORY,
        }
    }

    /// What the number means, in the words of docs/FAULTS.md.
    ///
    /// ```
    /// # fn main() -> Result<(), gitpool::Error> {
    /// let mut service = gitpool::Service::new()?;
    /// let refused = service.ask(b"alice", b"cat HEAD").unwrap_err();
    /// assert_eq!(refused.number(), 16);
    /// assert!(refused.meaning().starts_with("a name or expression names nothing in the repository"));
    /// # Ok(())
    /// # }
    /// ```
    pub fn meaning(&self) -> &'static str {
        faults::meaning_of(self.number()).unwrap_or("a number that this version of the crate does not know")
    }

    /// What the call printed before it was refused.
    pub fn reply(&self) -> &[u8] {
        match self {
            Error::Fault { reply, .. } | Error::Memory { reply, .. } => reply,
        }
    }

    pub(crate) fn of_number(number: u32) -> Error {
        let reply = Vec::new();
        match number {
            OUT_OF_MEMORY => Error::Memory { items: 0, reply },
            _ => Error::Fault { number, reply },
        }
    }
}

impl fmt::Display for Error {
    fn fmt(&self, to: &mut fmt::Formatter<'_>) -> fmt::Result {
        write!(to, "fault {}: {}", self.number(), self.meaning())
    }
}

impl std::error::Error for Error {}

/// Why an import ended early.
#[derive(Debug)]
pub enum ImportError {
    /// The stream was refused, or the tenant already had one.
    Refused(Error),
    /// The reader failed.
    Read(std::io::Error),
}

impl fmt::Display for ImportError {
    fn fmt(&self, to: &mut fmt::Formatter<'_>) -> fmt::Result {
        match self {
            ImportError::Refused(error) => error.fmt(to),
            ImportError::Read(error) => error.fmt(to),
        }
    }
}

impl std::error::Error for ImportError {}

impl From<Error> for ImportError {
    fn from(error: Error) -> ImportError {
        ImportError::Refused(error)
    }
}

impl From<std::io::Error> for ImportError {
    fn from(error: std::io::Error) -> ImportError {
        ImportError::Read(error)
    }
}
