use crate::committees::{Members, Size};
use crate::deferred::write_verdicts;
use crate::exports::*;
use crate::messages::vote_of;
use crate::report::{evidence, report, split};
use crate::{ffi, Committees, Error, Evidence, Report, Split, Verifier};
use std::collections::BTreeMap;

const WHOLE: u32 = 0;
const FAULT: u32 = 1;
const MEMORY: u32 = 3;
const SHORT: u32 = 4;

/// An auditor for a node that runs for long. It is fed a stream as it comes, cut anywhere, at the cost of the new bytes, and
/// returns the evidence that each piece completes. It forgets nothing from its floor on, so a late vote is judged with all
/// that came before.
///
/// What it holds is a few messages that can stand for the whole stream. A node stores them and makes a monitor of them again
/// after a restart.
///
/// ```
/// use simplex_audit::{Committees, Encoder, Monitor, Size, Vote};
///
/// let committees = Committees::every(Size::Bytes64, 4)?;
/// let vote = |payload: u8| {
///     let mut batch = Encoder::new(Size::Bytes64);
///     let vote = Vote::Notarize { epoch: 3, view: 10, parent: 5, payload: [payload; 32] };
///     batch.vote(&vote, 2, &[0; 64], &|_: &Vote, _: u32, _: &[u8]| true)?;
///     Ok::<_, simplex_audit::Error>(batch)
/// };
/// let mut monitor = Monitor::new(&committees)?;
/// assert_eq!(monitor.feed(vote(6)?.as_bytes())?, []);
/// // The node is started again.
/// let stored = monitor.held()?;
/// let mut monitor = Monitor::resume(&committees, &stored)?;
/// let evidence = monitor.feed(vote(7)?.as_bytes())?;
/// assert_eq!((evidence.len(), evidence[0].view, evidence[0].signer), (1, 10, 2));
/// // It is told once.
/// assert_eq!(monitor.feed(vote(7)?.as_bytes())?, []);
/// # Ok::<(), simplex_audit::Error>(())
/// ```
pub struct Monitor {
    auditor: Auditor,
    splits: Vec<Split>,
    committees: Committees,
    unfed: Vec<u8>,
    verified: Verified,
}

/// Valid votes that need not be verified again: by epoch, view and signer their kind, subject and signature, one after another,
/// the earliest few of each.
type Verified = BTreeMap<(u64, u64, u32), Vec<Vec<u8>>>;

/// As many votes of a signer in a round as an auditor records.
const RECORDED: usize = 5;

impl Monitor {
    /// A monitor that was fed nothing.
    pub fn new(committees: &Committees) -> Result<Self, Error> {
        Self::resume(committees, &[])
    }

    /// A monitor that goes on as the one that held these bytes. The evidence in them is returned again by the next `feed`. The
    /// floor is the first round: prune it to the floor of the other one. `Error::Arguments` if the bytes have a fault, behind
    /// which nothing would be read.
    pub fn resume(committees: &Committees, held: &[u8]) -> Result<Self, Error> {
        let mut monitor = Monitor {
            auditor: Auditor { state: std::ptr::null_mut() },
            splits: Vec::new(),
            committees: committees.clone(),
            unfed: Vec::new(),
            verified: Verified::new(),
        };
        let (bytes, length, auditor) = (held.as_ptr(), held.len(), &mut monitor.auditor);
        let status = match &committees.members {
            // SAFETY: each pointer is that of a slice that lives through the call, and the handle owns nothing.
            Members::Vouched { size, epochs, sizes } => unsafe {
                let (epochs, epochs_len, sizes, sizes_len) = (epochs.as_ptr(), epochs.len(), sizes.as_ptr(), sizes.len());
                simplex_auditor_new(size.bytes() as u32, epochs, epochs_len, sizes, sizes_len, bytes, length, auditor)
            },
            // SAFETY: as above.
            Members::Plain { name, epochs, sizes, keys } => unsafe {
                simplex_auditor_new_plain(
                    name.as_ptr(),
                    name.len(),
                    epochs.as_ptr(),
                    epochs.len(),
                    sizes.as_ptr(),
                    sizes.len(),
                    keys.as_ptr(),
                    keys.len(),
                    bytes,
                    length,
                    auditor,
                )
            },
        };
        succeeded(status)?;
        // of a stream with a fault nothing more is read; a last message that is cut off is none
        monitor.push(&[])?;
        Ok(monitor)
    }

    /// Feeds the next bytes of the stream, and returns the evidence that they complete, each once however the stream is cut.
    /// `Error::Arguments` if the stream has a fault before these bytes, or would have 2^64 bytes. After an error nothing was
    /// fed, or, out of memory, it may be fed while its evidence waits for the next `feed`; nothing is lost.
    pub fn feed(&mut self, bytes: &[u8]) -> Result<Vec<Evidence>, Error> {
        if !self.unfed.is_empty() {
            return Err(Error::Arguments);
        }
        self.push(bytes)?;
        self.news()
    }

    /// Feeds the next bytes of a stream whose signatures are not verified yet, as [`feed`](Self::feed) does; their verdicts may
    /// be any bytes. A vote is verified if its round is at the floor or above it and its signer is in the committee, and a valid
    /// one once: whoever sends it again, by itself or in a certificate, costs no verification. The bytes of a message that is
    /// not whole yet wait for the next bytes ([`unfed`](Self::unfed)). `Error::Arguments` also if bytes that were fed by `feed`
    /// end within a message.
    ///
    /// ```
    /// use simplex_audit::{Committees, Deferred, Encoder, Monitor, Size, Vote};
    /// use std::cell::Cell;
    ///
    /// let vote = Vote::Notarize { epoch: 3, view: 10, parent: 5, payload: [6; 32] };
    /// let mut stream = Encoder::new(Size::Bytes64);
    /// for signer in 0..3 {
    ///     stream.vote(&vote, signer, &[signer as u8; 64], &Deferred)?;
    /// }
    /// stream.certificate(&vote, &[(0, &[0; 64]), (1, &[1; 64]), (2, &[2; 64])], &Deferred)?;
    /// let verified = Cell::new(0);
    /// let verifier = |_: &Vote, _: u32, _: &[u8]| {
    ///     verified.set(verified.get() + 1);
    ///     true
    /// };
    /// let mut monitor = Monitor::new(&Committees::every(Size::Bytes64, 4)?)?;
    /// for bytes in stream.as_bytes().chunks(100) {
    ///     assert_eq!(monitor.feed_unverified(bytes, &verifier)?, []);
    /// }
    /// // Another node's log has the same votes.
    /// assert_eq!(monitor.feed_unverified(stream.as_bytes(), &verifier)?, []);
    /// assert_eq!((monitor.votes()?, verified.get()), (3, 3));
    /// # Ok::<(), simplex_audit::Error>(())
    /// ```
    pub fn feed_unverified(&mut self, bytes: &[u8], verifier: &dyn Verifier) -> Result<Vec<Evidence>, Error> {
        let Members::Vouched { size, .. } = self.committees.members else {
            return self.feed(bytes);
        };
        let before = self.unfed.len();
        self.unfed.try_reserve(bytes.len()).map_err(|_| Error::OutOfMemory)?;
        self.unfed.extend_from_slice(bytes);
        let fed = self.verify_unfed(size, verifier).and_then(|whole| self.push_unfed(whole));
        match fed {
            Ok(whole) => drop(self.unfed.drain(..whole)),
            Err(error) => {
                self.unfed.truncate(before);
                return Err(error);
            }
        }
        self.news()
    }

    /// The bytes of a message that is not whole yet, of those that came by [`feed_unverified`](Self::feed_unverified). They are
    /// not fed, and [`held`](Self::held) lacks them: they have to come again after a restart.
    pub fn unfed(&self) -> &[u8] {
        &self.unfed
    }

    /// Writes the verdicts of the whole messages that wait, and returns how many bytes can be fed.
    fn verify_unfed(&mut self, size: Size, verifier: &dyn Verifier) -> Result<usize, Error> {
        let (mut whole, mut over) = (0, false);
        let (auditor, unfed) = (&mut self.auditor, &mut self.unfed);
        let listed = ffi::filled(unfed.len() / size.bytes(), |records| {
            let (mut needed, to, room) = (0, records.as_mut_ptr().cast(), records.len());
            // SAFETY: the pointers are those of slices that live through the call, and the handle is that of a monitor.
            let status =
                unsafe { simplex_auditor_unverified(auditor, unfed.as_ptr(), unfed.len(), to, room, &mut needed, &mut whole) };
            over = status == FAULT;
            (status, needed)
        })?;
        let (committees, verified) = (&self.committees, &mut self.verified);
        write_verdicts(size, unfed, &listed, |place, subject, signature| {
            let votes = verified.entry((place.epoch, place.view, place.signer)).or_default();
            let vote = [&[place.kind as u8], subject, signature].concat();
            if votes.contains(&vote) {
                return Ok(true);
            }
            let valid = verifier.verify(&vote_of(committees, place.kind, subject)?, place.signer, signature);
            if valid && votes.len() < RECORDED {
                votes.push(vote);
            }
            Ok(valid)
        })?;
        // what is behind a fault is fed for the report
        Ok(if over { unfed.len() } else { whole })
    }

    fn push_unfed(&mut self, whole: usize) -> Result<usize, Error> {
        let unfed = std::mem::take(&mut self.unfed);
        let pushed = self.push(&unfed[..whole]);
        self.unfed = unfed;
        pushed.map(|()| whole)
    }

    fn push(&mut self, bytes: &[u8]) -> Result<(), Error> {
        // SAFETY: the pointer is that of a slice that lives through the call, and the handle is that of a monitor.
        succeeded(unsafe { simplex_auditor_feed(&mut self.auditor, bytes.as_ptr(), bytes.len()) })
    }

    /// The evidence that arose and was not returned yet.
    pub fn news(&mut self) -> Result<Vec<Evidence>, Error> {
        let auditor = &mut self.auditor;
        let text = filled(|text, room| {
            let mut length = 0;
            // SAFETY: the buffer has so much room.
            (unsafe { simplex_auditor_news(auditor, text, room, &mut length) }, length)
        })?;
        let text = String::from_utf8_lossy(&text);
        let (mut found, mut splits) = (Vec::new(), Vec::new());
        for line in text.lines() {
            match evidence(line) {
                Some(one) => found.push(one),
                None => splits.push(split(line).expect("a line of evidence or of a split")),
            }
        }
        self.splits.append(&mut splits);
        Ok(found)
    }

    /// The splits that arose with the evidence that was returned, and were not taken yet: a round again when more participants
    /// are accused there.
    pub fn take_splits(&mut self) -> Vec<Split> {
        std::mem::take(&mut self.splits)
    }

    /// Gives up all rounds below one: what is known of them is dropped, and their messages are read and not judged. The floor
    /// never falls.
    pub fn prune(&mut self, epoch: u64, view: u64) {
        self.verified = self.verified.split_off(&(epoch, view, 0));
        // SAFETY: the handle is that of a monitor.
        unsafe { simplex_auditor_prune(&mut self.auditor, epoch, view) };
    }

    /// The report of all that was fed, from the floor on. Messages and offsets are counted from what it was resumed from; after
    /// [`Error::OutOfMemory`] of a `feed`, from what it held then.
    pub fn report(&mut self) -> Result<Report, Error> {
        let (auditor, mut summary) = (&mut self.auditor, Summary::default());
        let text = filled(|text, room| {
            // SAFETY: the buffer has so much room.
            let status = unsafe { simplex_auditor_report(auditor, text, room, &mut summary) };
            (status, summary.length)
        })?;
        Ok(report(&text, &summary))
    }

    /// How many valid votes are recorded, from the floor on.
    pub fn votes(&mut self) -> Result<usize, Error> {
        let mut votes = 0;
        // SAFETY: the handle is that of a monitor.
        succeeded(unsafe { simplex_auditor_votes(&mut self.auditor, &mut votes) })?;
        Ok(votes)
    }

    /// Few messages that can stand for all that was fed, from the floor on, and the bytes after the last whole message, for
    /// [`resume`](Self::resume).
    pub fn held(&mut self) -> Result<Vec<u8>, Error> {
        let auditor = &mut self.auditor;
        filled(|bytes, room| {
            let mut length = 0;
            // SAFETY: the buffer has so much room.
            (unsafe { simplex_auditor_held(auditor, bytes, room, &mut length) }, length)
        })
    }
}

// SAFETY: what a handle owns belongs to no thread, as is proved of it, and each call takes the monitor alone, by `&mut`.
unsafe impl Send for Monitor {}
// SAFETY: nothing can be done with a shared monitor.
unsafe impl Sync for Monitor {}

impl Drop for Monitor {
    fn drop(&mut self) {
        // SAFETY: the handle is that of a monitor, or owns nothing.
        unsafe { simplex_auditor_free(&mut self.auditor) };
    }
}

impl std::fmt::Debug for Monitor {
    fn fmt(&self, f: &mut std::fmt::Formatter<'_>) -> std::fmt::Result {
        f.debug_struct("Monitor").finish_non_exhaustive()
    }
}

fn succeeded(status: u32) -> Result<(), Error> {
    match status {
        WHOLE => Ok(()),
        MEMORY => Err(Error::OutOfMemory),
        _ => Err(Error::Arguments),
    }
}

/// What a call puts into a buffer. It says how many bytes that are if they are more.
fn filled(mut call: impl FnMut(*mut u8, usize) -> (u32, usize)) -> Result<Vec<u8>, Error> {
    let mut buffer: Vec<u8> = Vec::new();
    buffer.try_reserve_exact(1024).map_err(|_| Error::OutOfMemory)?;
    loop {
        let (status, length) = call(buffer.as_mut_ptr(), buffer.capacity());
        match status {
            WHOLE | FAULT => {
                // SAFETY: the call wrote this many bytes.
                unsafe { buffer.set_len(length) };
                return Ok(buffer);
            }
            SHORT => buffer.try_reserve_exact(length).map_err(|_| Error::OutOfMemory)?,
            MEMORY => return Err(Error::OutOfMemory),
            _ => return Err(Error::Arguments),
        }
    }
}
