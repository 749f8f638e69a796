use std::fmt;

/// Why a call has no result.
#[derive(Clone, Copy, Debug, PartialEq, Eq)]
pub enum Error {
    /// The arguments are invalid. Each call states which it refuses.
    Arguments,
    /// There are no such committees.
    Committees(Refusal),
    /// An allocation failed.
    OutOfMemory,
}

/// Why there are no such committees: the first of these that holds, in this order.
#[derive(Clone, Copy, Debug, PartialEq, Eq)]
pub enum Refusal {
    /// A committee has 2^32 keys or more.
    TooManyKeys,
    /// No epoch is listed.
    NoCommittee,
    /// The epochs do not rise strictly.
    Epochs,
    /// A committee has no participant.
    EmptyCommittee,
    /// A key stands twice in a committee.
    RepeatedKey,
}

impl fmt::Display for Error {
    fn fmt(&self, f: &mut fmt::Formatter<'_>) -> fmt::Result {
        f.write_str(match self {
            Error::Arguments => "the arguments are invalid",
            Error::Committees(_) => "there are no such committees",
            Error::OutOfMemory => "out of memory",
        })
    }
}

impl fmt::Display for Refusal {
    fn fmt(&self, f: &mut fmt::Formatter<'_>) -> fmt::Result {
        f.write_str(match self {
            Refusal::TooManyKeys => "a committee has 2^32 keys or more",
            Refusal::NoCommittee => "no epoch is listed",
            Refusal::Epochs => "the epochs do not rise strictly",
            Refusal::EmptyCommittee => "a committee has no participant",
            Refusal::RepeatedKey => "a key stands twice in a committee",
        })
    }
}

impl std::error::Error for Refusal {}

impl std::error::Error for Error {
    fn source(&self) -> Option<&(dyn std::error::Error + 'static)> {
        match self {
            Error::Committees(refusal) => Some(refusal),
            Error::Arguments | Error::OutOfMemory => None,
        }
    }
}
