//! Audits in parts: a stream is cut by rounds into classes, each class is audited by itself, and the reports are merged. The
//! report is that of [`audit`] over the whole stream, byte for byte.
//!
//! ```
//! use simplex_audit::shards::{audit_ranges, index, merge, ranges, Cut};
//! use simplex_audit::{audit, Committees, Encoder, Size, Vote};
//! use std::num::NonZeroU32;
//!
//! let (committees, mut stream) = (Committees::every(Size::Bytes64, 4)?, Encoder::new(Size::Bytes64));
//! // In each of ten rounds participant 2 votes for two payloads.
//! for view in 1..=10 {
//!     for payload in [[6; 32], [7; 32]] {
//!         let vote = Vote::Notarize { epoch: 3, view, parent: view - 1, payload };
//!         stream.vote(&vote, 2, &[0; 64], &|_: &Vote, _: u32, _: &[u8]| true)?;
//!     }
//! }
//! let cut = Cut { seed: 2026, classes: NonZeroU32::new(3).unwrap() };
//! let table = index(&committees, stream.as_bytes())?;
//! let mut reports = Vec::new();
//! for class in 0..cut.classes.get() {
//!     reports.push(audit_ranges(&committees, stream.as_bytes(), &ranges(&table.rows, &cut, class)?)?);
//! }
//! assert_eq!(merge(reports, table.fault), audit(&committees, stream.as_bytes())?);
//! # Ok::<(), simplex_audit::Error>(())
//! ```

use crate::bounds::Bounds;
use crate::committees::Members;
use crate::deferred::audit_verified;
use crate::{audit, audit_deferred, ffi, report, Committees, Error, Report, Verifier};
use std::collections::hash_map::RandomState;
use std::fmt::Write;
use std::hash::{BuildHasher, Hasher};
use std::mem;
use std::num::{NonZeroU32, NonZeroUsize};
use std::panic::resume_unwind;
use std::sync::atomic::{AtomicU32, Ordering};
use std::thread;

use crate::exports::Summary;
pub use crate::exports::{Range, Row};

/// How rounds are cut into classes, numbered from 0 on: they are spread evenly. All parts of an audit have one cut.
#[derive(Clone, Copy, Debug, PartialEq, Eq)]
pub struct Cut {
    /// What the mix of a round's numbers begins with. A sender who knows it can send rounds of one class alone.
    pub seed: u64,
    /// How many classes there are.
    pub classes: NonZeroU32,
}

impl Cut {
    /// A cut into so many classes, by a seed that is drawn anew and that nobody knows.
    pub fn random(classes: NonZeroU32) -> Self {
        Cut { seed: RandomState::new().build_hasher().finish(), classes }
    }

    /// The class of a round.
    ///
    /// ```
    /// use simplex_audit::shards::Cut;
    /// let cut = Cut { seed: 0, classes: 1000.try_into().unwrap() };
    /// assert_eq!(cut.class_of(5, 123_456_789), 466);
    /// ```
    pub fn class_of(&self, epoch: u64, view: u64) -> u32 {
        ffi::class_of(epoch, view, self.seed, self.classes)
    }
}

/// The messages of a stream as a table.
#[derive(Clone, Debug, PartialEq, Eq)]
pub struct Index {
    /// A row of 48 bytes for each message, in the order of the stream.
    pub rows: Vec<Row>,
    /// The offset of the first byte that does not start a valid message, if there is one.
    pub fault: Option<usize>,
}

/// Where the messages of each class of a stream stand.
#[derive(Clone, Debug, PartialEq, Eq)]
pub struct Classes {
    /// For each class the ranges of its messages, in the order of the stream. Neighbours are joined.
    pub ranges: Vec<Vec<Range>>,
    /// How many messages were read, of all classes.
    pub read: usize,
    /// The offset of the first byte that does not start a valid message, if there is one.
    pub fault: Option<usize>,
}

/// How many bytes are read at a time. The library has rows and ranges of its own, which so are few.
const WINDOW: usize = 1 << 24;

/// Reads a stream once and returns its messages as rows. Nothing is verified or recorded. Of the committees it takes the size
/// of signatures, and the number of participants of the greatest one, under which certificates are read.
pub fn index(committees: &Committees, stream: &[u8]) -> Result<Index, Error> {
    index_by(committees, stream, WINDOW)
}

fn index_by(committees: &Committees, stream: &[u8], window: usize) -> Result<Index, Error> {
    let mut rows = ffi::reserved(Bounds::of(committees, stream.len()).rows());
    let fault = in_windows(stream, window, |piece, at| {
        let (found, summary) = ffi::index(committees, piece)?;
        rows.extend(found.into_iter().map(|row| Row { place: at + row.place, ..row }));
        Ok(fault_of(&summary))
    })?;
    rows.shrink_to_fit();
    Ok(Index { rows, fault })
}

/// Reads a stream once and returns where the messages of each class stand. Nothing is verified or recorded. Of the committees
/// it takes what [`index`] does.
///
/// ```
/// use simplex_audit::shards::{audit_ranges, class_ranges, merge, Cut};
/// use simplex_audit::{audit, Committees, Deferred, Encoder, Size, Vote};
///
/// let (committees, mut stream) = (Committees::every(Size::Bytes64, 4)?, Encoder::new(Size::Bytes64));
/// for view in 1..=10 {
///     stream.vote(&Vote::Nullify { epoch: 3, view }, 2, &[0; 64], &Deferred)?;
/// }
/// let found = class_ranges(&committees, stream.as_bytes(), &Cut::random(3.try_into().unwrap()))?;
/// let reports = found.ranges.iter().map(|ranges| audit_ranges(&committees, stream.as_bytes(), ranges));
/// assert_eq!(merge(reports.collect::<Result<Vec<_>, _>>()?, found.fault), audit(&committees, stream.as_bytes())?);
/// # Ok::<(), simplex_audit::Error>(())
/// ```
pub fn class_ranges(committees: &Committees, stream: &[u8], cut: &Cut) -> Result<Classes, Error> {
    class_ranges_by(committees, stream, cut, WINDOW)
}

fn class_ranges_by(committees: &Committees, stream: &[u8], cut: &Cut, window: usize) -> Result<Classes, Error> {
    let classes = cut.classes.get() as usize;
    let (mut ranges, mut read, mut ends) = (vec![Vec::new(); classes], 0, vec![0; classes]);
    let fault = in_windows(stream, window, |piece, at| {
        let (found, summary) = ffi::class_ranges(committees, piece, cut.seed, &mut ends)?;
        let mut begin = 0;
        for (of_class, end) in ranges.iter_mut().zip(&ends) {
            join(of_class, &found[begin..*end], at);
            begin = *end;
        }
        read += summary.read;
        Ok(fault_of(&summary))
    })?;
    Ok(Classes { ranges, read, fault })
}

/// Appends ranges of bytes that begin at an offset. The first may continue the last one.
fn join(ranges: &mut Vec<Range>, further: &[Range], at: usize) {
    for range in further {
        let (place, length) = (at + range.place, range.length);
        match ranges.last_mut() {
            Some(last) if last.place + last.length == place => last.length += length,
            _ => ranges.push(Range { place, length }),
        }
    }
}

/// How so many threads read a stream side by side, each a stretch of it.
#[derive(Clone, Copy)]
struct Stretches {
    threads: usize,
    /// The fewest bytes of a stretch.
    length: usize,
    /// A message is taken to begin where so many do one after another.
    messages: usize,
}

/// How many offsets are looked at for the begin of a stretch, and how many bytes at each.
const OFFSETS: usize = 1 << 17;
const LOOKED_AT: usize = 1 << 20;

impl Stretches {
    fn of(threads: usize) -> Self {
        Stretches { threads, length: 1 << 22, messages: 100 }
    }

    /// What [`class_ranges`] returns. Where a stretch begins is a guess, but that of the first. The guess is right if the
    /// stretch before it is read up to there. From where one is not, this thread reads the stream on.
    fn class_ranges(self, committees: &Committees, stream: &[u8], cut: &Cut) -> Result<Classes, Error> {
        let count = self.threads.min(stream.len() / self.length).max(1);
        let guesses = (1..count).filter_map(|i| self.begin(committees, stream, stream.len() / count * i));
        let mut begins: Vec<usize> = [0].into_iter().chain(guesses).collect();
        begins.dedup();
        let end = |i: usize| begins.get(i + 1).copied().unwrap_or(stream.len());
        let read = |i: u32| Ok((i, class_ranges(committees, &stream[begins[i as usize]..end(i as usize)], cut)?));
        let mut found = in_threads(self.threads, NonZeroU32::new(begins.len() as u32).unwrap_or(NonZeroU32::MIN), read)?;
        found.sort_by_key(|(i, _)| *i);
        let mut all = Classes { ranges: vec![Vec::new(); cut.classes.get() as usize], read: 0, fault: None };
        for ((_, classes), at) in found.into_iter().zip(&begins) {
            all.append(&classes, *at);
            if let Some(at) = all.fault {
                all.append(&class_ranges(committees, &stream[at..], cut)?, at);
                break;
            }
        }
        Ok(all)
    }

    /// An offset at which, by a guess, a message begins: the first from an offset on.
    fn begin(self, committees: &Committees, stream: &[u8], from: usize) -> Option<usize> {
        (from..stream.len().min(from.saturating_add(OFFSETS))).find(|at| {
            let left = &stream[*at..];
            let read = ffi::class_ranges(committees, &left[..left.len().min(LOOKED_AT)], 0, &mut [0]);
            read.is_ok_and(|(_, summary)| summary.faulted == 0 || summary.read >= self.messages)
        })
    }
}

impl Classes {
    /// Appends what was read of bytes that begin at an offset.
    fn append(&mut self, further: &Classes, at: usize) {
        for (ranges, more) in self.ranges.iter_mut().zip(&further.ranges) {
            join(ranges, more, at);
        }
        self.read += further.read;
        self.fault = further.fault.map(|place| at + place);
    }
}

/// Reads a stream a window at a time, and returns where it stops being messages, if it does. `read` is given a window and its
/// offset, and returns where that stops. The last message of a window may be cut off, so the next one begins with it, and is
/// larger if there was no other.
fn in_windows(
    stream: &[u8],
    window: usize,
    mut read: impl FnMut(&[u8], usize) -> Result<Option<usize>, Error>,
) -> Result<Option<usize>, Error> {
    let (mut at, mut room) = (0, window);
    loop {
        let left = &stream[at..];
        let piece = &left[..room.min(left.len())];
        let fault = read(piece, at)?;
        let length = fault.unwrap_or(piece.len());
        at += length;
        if room >= left.len() {
            return Ok(fault.map(|_| at));
        }
        room = if length > 0 { window } else { room.saturating_mul(2) };
    }
}

/// Where a reading stopped, if it did not come to the end.
fn fault_of(summary: &Summary) -> Option<usize> {
    (summary.faulted != 0).then_some(summary.fault_place)
}

/// Where the messages of one class stand, in the order of the rows. Neighbours are joined. `Error::Arguments` if the cut has no
/// such class, or if a row ends beyond 2^64.
pub fn ranges(rows: &[Row], cut: &Cut, class: u32) -> Result<Vec<Range>, Error> {
    ffi::ranges(rows, cut.seed, cut.classes, class)
}

/// Audits what stands in these ranges of a stream, one after another, as [`audit`] audits a stream. They are read in place. A
/// fault's offset counts the bytes of the ranges. `Error::Arguments` if a range is not within the stream.
pub fn audit_ranges(committees: &Committees, stream: &[u8], ranges: &[Range]) -> Result<Report, Error> {
    let (text, summary) = ffi::audit_ranges(committees, stream, ranges)?;
    Ok(report::report(&text, &summary))
}

/// The report of a stream, from the reports of all its classes in any order, and its fault. Their own faults are dropped: the
/// part of a class has none.
pub fn merge(reports: impl IntoIterator<Item = Report>, fault: Option<usize>) -> Report {
    let mut merged = Report { evidence: Vec::new(), splits: Vec::new(), read: 0, fault, text: String::new() };
    for mut report in reports {
        merged.evidence.append(&mut report.evidence);
        merged.splits.append(&mut report.splits);
        merged.read = merged.read.saturating_add(report.read);
    }
    merged.evidence.sort_by_key(|one| (one.epoch, one.view, one.signer, one.kind));
    merged.splits.sort_by_key(|one| (one.epoch, one.view));
    for one in &merged.evidence {
        merged.text.push_str(&one.line);
        merged.text.push('\n');
    }
    for one in &merged.splits {
        // a string never refuses what is written to it
        let _ = writeln!(merged.text, "{} {} split {} {}", one.epoch, one.view, one.named, one.least);
    }
    merged
}

/// Audits a stream in so many threads, this one among them, which read the same bytes. The report is that of [`audit`].
///
/// The stream is read once for its [`class_ranges`]. The threads take class after class of its rounds, of four times as many,
/// by a seed that is drawn anew. One round is never cut, so one thread audits all of it. If a thread cannot be started there
/// are fewer. With one thread it is `audit`, without classes.
///
/// ```
/// use simplex_audit::{audit, shards::audit_parallel, Committees, Encoder, Size, Vote};
///
/// let (committees, mut stream) = (Committees::every(Size::Bytes64, 4)?, Encoder::new(Size::Bytes64));
/// for (view, payload) in [(10, 6), (11, 6), (10, 7), (11, 7)] {
///     let vote = Vote::Notarize { epoch: 3, view, parent: 5, payload: [payload; 32] };
///     stream.vote(&vote, 2, &[0; 64], &|_: &Vote, _: u32, _: &[u8]| true)?;
/// }
/// let report = audit_parallel(&committees, stream.as_bytes(), 4.try_into().unwrap())?;
/// assert_eq!(report, audit(&committees, stream.as_bytes())?);
/// # Ok::<(), simplex_audit::Error>(())
/// ```
pub fn audit_parallel(committees: &Committees, stream: &[u8], threads: NonZeroUsize) -> Result<Report, Error> {
    if threads.get() == 1 {
        return audit(committees, stream);
    }
    by_classes(committees, stream, threads, |ranges| audit_ranges(committees, stream, ranges))
}

/// Audits a stream whose signatures are not verified yet, in so many threads, as [`audit_parallel`] and [`audit_deferred`] do.
/// The report is that of `audit_deferred`, and the same signatures are verified, in another order. Each thread copies one class
/// of rounds at a time, for the verdicts. A panic of the verifier is passed on.
///
/// ```
/// use simplex_audit::{shards::audit_deferred_parallel, Committees, Deferred, Encoder, Size, Vote};
/// use std::sync::atomic::{AtomicU32, Ordering};
///
/// let mut stream = Encoder::new(Size::Bytes64);
/// // Each participant votes in view 9, and participant 2 for two payloads in view 10.
/// for (view, signer, payload) in [(9, 0, 6), (9, 1, 6), (9, 2, 6), (10, 2, 6), (10, 2, 7)] {
///     let vote = Vote::Notarize { epoch: 3, view, parent: 5, payload: [payload; 32] };
///     stream.vote(&vote, signer, &[0; 64], &Deferred)?;
/// }
/// let verified = AtomicU32::new(0);
/// let verifier = |_: &Vote, _: u32, _: &[u8]| verified.fetch_add(1, Ordering::Relaxed) < u32::MAX;
/// let committees = Committees::every(Size::Bytes64, 4)?;
/// let report = audit_deferred_parallel(&committees, stream.as_bytes(), &verifier, 4.try_into().unwrap())?;
/// assert_eq!((report.read, report.evidence.len(), verified.into_inner()), (5, 1, 2));
/// # Ok::<(), simplex_audit::Error>(())
/// ```
pub fn audit_deferred_parallel(
    committees: &Committees,
    stream: &[u8],
    verifier: &(dyn Verifier + Sync),
    threads: NonZeroUsize,
) -> Result<Report, Error> {
    match committees.members {
        Members::Plain { .. } => audit_parallel(committees, stream, threads),
        Members::Vouched { .. } if threads.get() == 1 => audit_deferred(committees, stream, verifier),
        Members::Vouched { .. } => {
            by_classes(committees, stream, threads, |ranges| audit_verified(committees, joined(stream, ranges), verifier))
        }
    }
}

/// A copy of these ranges, one after another.
fn joined(stream: &[u8], ranges: &[Range]) -> Vec<u8> {
    let mut bytes = Vec::with_capacity(ranges.iter().map(|range| range.length).sum());
    for range in ranges {
        bytes.extend_from_slice(&stream[range.place..][..range.length]);
    }
    bytes
}

/// How many classes there are for each thread: the last ones even out what the threads have to do.
const CLASSES: usize = 4;

/// The most classes: more would even out nothing.
const MOST: usize = 1 << 16;

/// The report of a stream whose classes are each audited by one of so many threads.
fn by_classes(
    committees: &Committees,
    stream: &[u8],
    threads: NonZeroUsize,
    audited: impl Fn(&[Range]) -> Result<Report, Error> + Sync,
) -> Result<Report, Error> {
    // more threads than messages would have nothing to do
    let threads = threads.get().min(Bounds::of(committees, stream.len()).rows()).min(MOST / CLASSES);
    let classes = NonZeroU32::new((threads * CLASSES) as u32).unwrap_or(NonZeroU32::MIN);
    let found = Stretches::of(threads).class_ranges(committees, stream, &Cut::random(classes))?;
    let reports = in_threads(threads, classes, |class| audited(&found.ranges[class as usize]))?;
    Ok(merge(reports, found.fault))
}

/// Takes all classes from the workers when it is dropped: one of them has failed or panics.
struct Stops<'a>(&'a AtomicU32, u32);

impl Drop for Stops<'_> {
    fn drop(&mut self) {
        self.0.store(self.1, Ordering::Relaxed);
    }
}

/// What is made of all classes, or of other things so numbered, in some order. Threads, this one among them, take them one by
/// one, up to the first of which nothing is made.
fn in_threads<T: Send>(
    threads: usize,
    classes: NonZeroU32,
    made: impl Fn(u32) -> Result<T, Error> + Sync,
) -> Result<Vec<T>, Error> {
    let next = AtomicU32::new(0);
    let take = || next.fetch_update(Ordering::Relaxed, Ordering::Relaxed, |class| (class < classes.get()).then_some(class + 1));
    let work = || {
        let mut all = Vec::new();
        while let Ok(class) = take() {
            let stops = Stops(&next, classes.get());
            all.push(made(class)?);
            mem::forget(stops);
        }
        Ok(all)
    };
    thread::scope(|scope| {
        let started = (1..threads).map_while(|_| thread::Builder::new().spawn_scoped(scope, work).ok());
        let started: Vec<_> = started.collect();
        let mut results = vec![work()];
        results.extend(started.into_iter().map(|worker| worker.join().unwrap_or_else(|panic| resume_unwind(panic))));
        let every: Vec<Vec<_>> = results.into_iter().collect::<Result<_, _>>()?;
        Ok(every.into_iter().flatten().collect())
    })
}

#[cfg(test)]
mod tests {
    use super::*;
    use crate::{Deferred, Encoder, Size, Vote};
    use std::sync::atomic::AtomicUsize;

    const CLASSES: NonZeroU32 = NonZeroU32::MIN.saturating_add(99);

    fn empty() -> Report {
        merge([], None)
    }

    #[test]
    fn each_class_is_audited_once() {
        for threads in [0, 1, 2, 64] {
            let asked: Vec<_> = (0..100).map(|_| AtomicUsize::new(0)).collect();
            let audited = |class: u32| {
                asked[class as usize].fetch_add(1, Ordering::Relaxed);
                Ok(Report { read: 1 << class.min(20), ..empty() })
            };
            let reports = in_threads(threads, CLASSES, audited).unwrap();
            assert_eq!(merge(reports, Some(7)), Report { read: (1 << 20) - 1 + (80 << 20), fault: Some(7), ..empty() });
            assert!(asked.into_iter().all(|count| count.into_inner() == 1));
        }
    }

    #[test]
    fn an_error_is_returned_and_ends_the_work() {
        for threads in [1, 2, 8] {
            let asked = AtomicUsize::new(0);
            let audited = |class| {
                asked.fetch_add(1, Ordering::Relaxed);
                if class == 3 {
                    Err(Error::OutOfMemory)
                } else {
                    Ok(empty())
                }
            };
            assert_eq!(in_threads(threads, CLASSES, audited), Err(Error::OutOfMemory));
            assert!(threads > 1 || asked.into_inner() == 4);
        }
    }

    #[test]
    #[should_panic(expected = "the verifier of class 50")]
    fn a_panic_is_passed_on() {
        let audited = |class| if class == 50 { panic!("the verifier of class {class}") } else { Ok(empty()) };
        let _ = in_threads(4, CLASSES, audited);
    }

    #[test]
    fn windows_have_the_rows_and_ranges_of_the_stream() {
        let committees = Committees::every(Size::Bytes64, 9).unwrap();
        let mut stream = Encoder::new(Size::Bytes64);
        for view in 1..=20 {
            let vote = Vote::Nullify { epoch: 3, view };
            stream.vote(&vote, 0, &[9; 64], &Deferred).unwrap();
            // certificates of some 140 to 600 bytes
            let listed: Vec<(u32, &[u8])> = (0..2 + view as u32 % 8).map(|signer| (signer, &[9; 64][..])).collect();
            stream.certificate(&vote, &listed, &Deferred).unwrap();
        }
        let whole = stream.as_bytes();
        for stream in [whole, &whole[..whole.len() - 1], &[&whole[..1000], &[0xff; 300], whole].concat(), &[], &[0xff]] {
            let once = index_by(&committees, stream, usize::MAX).unwrap();
            let cut = Cut { seed: 2026, classes: 5.try_into().unwrap() };
            let every = (0..5).map(|class| ranges(&once.rows, &cut, class).unwrap()).collect();
            let found = Classes { ranges: every, read: once.rows.len(), fault: once.fault };
            for window in (1..200).chain([1000, 5000, WINDOW]) {
                assert_eq!(index_by(&committees, stream, window).unwrap(), once);
                assert_eq!(class_ranges_by(&committees, stream, &cut, window).unwrap(), found);
            }
            // some guesses are right and others wrong
            for (length, messages) in [1, 7, 50, 400].into_iter().flat_map(|length| [(length, 1), (length, 2), (length, 9)]) {
                for threads in [1, 2, 3, 8] {
                    let stretches = Stretches { threads, length, messages };
                    assert_eq!(stretches.class_ranges(&committees, stream, &cut).unwrap(), found);
                }
            }
            let read = once.rows.last().map_or(0, |row| row.place + row.length);
            assert_eq!(once.fault, (read < stream.len()).then_some(read));
        }
    }

    #[test]
    fn seeds_differ() {
        assert_ne!(Cut::random(CLASSES), Cut::random(CLASSES));
    }
}
