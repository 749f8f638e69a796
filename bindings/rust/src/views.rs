//! Quorums, windows of views and leaders.

use crate::{ffi, Error};

/// How many of `n` participants may lie: the greatest f with 3f + 1 <= n, and 0 where n is 0.
pub fn max_faults(n: u32) -> u32 {
    ffi::max_faults(n)
}

/// How many of `n` participants are a quorum: n - f, and 0 where n is 0.
///
/// ```
/// use simplex_audit::views::{max_faults, quorum};
/// assert_eq!((max_faults(4), quorum(4)), (1, 3));
/// ```
pub fn quorum(n: u32) -> u32 {
    ffi::quorum(n)
}

/// Whether a node in view `current` takes votes of the view `pending`. `Error::Arguments` if terms have no views, or the next
/// term's start plus the term length plus 1 is above 2^64 - 1.
///
/// ```
/// use simplex_audit::views::admits;
/// assert_eq!(admits(1, 0, 10, 11), Ok(true));
/// assert_eq!(admits(1, 0, 10, 14), Ok(false));
/// ```
pub fn admits(term_length: u32, optimistic_views: u64, current: u64, pending: u64) -> Result<bool, Error> {
    ffi::admits(term_length, optimistic_views, current, pending)
}

/// Whether a node in view `current` sends messages of the view `pending`. The error is that of [`admits`].
pub fn admits_outbound(term_length: u32, optimistic_views: u64, current: u64, pending: u64) -> Result<bool, Error> {
    ffi::admits_outbound(term_length, optimistic_views, current, pending)
}

/// The earliest view from which messages of a view may be issued, or `None` where no lookahead bounds it. `Error::Arguments`
/// where terms have no views.
pub fn issuance_floor(term_length: u32, optimistic_views: u64, view: u64) -> Result<Option<u64>, Error> {
    ffi::issuance_floor(term_length, optimistic_views, view)
}

/// The number of the participant who leads a view of an epoch, in the order of the numbers or in the one that a seed
/// determines. `Error::Arguments` where there is no participant or terms have no views.
pub fn leader(seed: Option<&[u8]>, participants: u32, term_length: u32, epoch: u64, view: u64) -> Result<u32, Error> {
    ffi::leader(seed, participants, term_length, epoch, view)
}
