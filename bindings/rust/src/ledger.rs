use crate::{audit, ffi, Committees, Error, Report};

/// Holds the evidence of a stream that comes in batches, each of which holds every vote of its rounds. A
/// [`Monitor`](crate::Monitor) needs no such batches.
///
/// Each [`feed`](Self::feed) and each [`new_records`](crate::new_records) reads all stored evidence again. So n batches with an
/// evidence each take time in n^2. If no round comes in two batches, give each batch a ledger of its own and append what it
/// stores to a file: that reads each batch once, and `resume` takes the file.
///
/// ```
/// use simplex_audit::{Committees, Encoder, Ledger, Size, Vote};
///
/// let committees = Committees::every(Size::Bytes64, 4)?;
/// let mut ledger = Ledger::resume(committees.clone(), Vec::new())?;
/// for view in [10, 11] {
///     let mut batch = Encoder::new(Size::Bytes64);
///     for payload in [[6; 32], [7; 32]] {
///         let vote = Vote::Finalize { epoch: 3, view, parent: 5, payload };
///         batch.vote(&vote, 1, &[0; 64], &|_: &Vote, _: u32, _: &[u8]| true)?;
///     }
///     ledger.feed(batch.as_bytes())?;
/// }
/// // What is stored survives a restart.
/// let again = Ledger::resume(committees, ledger.stored().to_vec())?;
/// assert_eq!(again.report()?.evidence.len(), 2);
/// # Ok::<(), simplex_audit::Error>(())
/// ```
#[derive(Clone, Debug)]
pub struct Ledger {
    committees: Committees,
    stored: Vec<u8>,
}

impl Ledger {
    /// A ledger that begins with what an earlier one stored, or with no bytes. `Error::Arguments` if these bytes have a fault,
    /// behind which nothing would be read.
    pub fn resume(committees: Committees, stored: Vec<u8>) -> Result<Self, Error> {
        match audit(&committees, &stored)?.fault {
            None => Ok(Ledger { committees, stored }),
            Some(_) => Err(Error::Arguments),
        }
    }

    /// Adds the evidence of a batch, and reads all that is stored. What is behind a fault of the batch is ignored. After an
    /// error the ledger is as before. To learn what a batch adds, call [`new_records`](crate::new_records) with what is stored
    /// before.
    pub fn feed(&mut self, batch: &[u8]) -> Result<(), Error> {
        self.stored = ffi::store(&self.committees, &self.stored, batch)?;
        Ok(())
    }

    /// The report of all evidence so far.
    pub fn report(&self) -> Result<Report, Error> {
        audit(&self.committees, &self.stored)
    }

    /// The evidence as messages, which `resume` takes.
    pub fn stored(&self) -> &[u8] {
        &self.stored
    }
}
