//! The calls of the C library, over slices.
//!
//! Each pointer that is passed is that of a slice or a value that lives through the call, with the slice's length beside it;
//! such a pointer is never null. What is written is borrowed by nothing else. A buffer is the unused capacity of a vector: a
//! call reads nothing of it, and writes the items that it counts.

use crate::bounds::Bounds;
use crate::committees::{Committees, Members, Size};
use crate::exports::*;
use crate::{Error, Refusal};
use std::mem::MaybeUninit;
use std::num::NonZeroU32;

const WHOLE: u32 = 0;
const FAULT: u32 = 1;
const MEMORY: u32 = 3;
const SHORT: u32 = 4;
/// The bytes of a signature under the plain scheme.
const PLAIN: u32 = 32;
/// Why committees are refused, apart from what the types of this crate leave no room for.
const NOTHING: u32 = 0;
const NO_COMMITTEE: u32 = 2;
const EPOCHS: u32 = 4;
const EMPTY: u32 = 5;
const REPEATED: u32 = 7;
const UNKNOWN: u32 = 8;
const NO: u32 = 0;
const YES: u32 = 1;
pub(crate) const NOTARIZE: u32 = 0;
pub(crate) const NULLIFY: u32 = 1;
pub(crate) const FINALIZE: u32 = 2;
pub(crate) const CONFLICTING_NOTARIZE: u32 = 0;
pub(crate) const CONFLICTING_FINALIZE: u32 = 1;
pub(crate) const NOTARIZATION: u32 = 1;
pub(crate) const CERTIFICATION: u32 = 2;
pub(crate) const NULLIFICATION: u32 = 4;
pub(crate) const FINALIZATION: u32 = 6;
/// The longest tag and subject of a message; the longest number, that of a length included; the longest suffix of a namespace.
const HEAD: usize = 1 + 62;
const NUMBER: usize = 10;
const SUFFIX: usize = 9;
/// The longest number of a participant, or of attestations.
const SIGNER: usize = 5;

/// A call over a stream under committees of these sizes, which fills a buffer and writes how much that is.
type ByNumbers<T, W> = unsafe extern "C" fn(
    signature: u32,
    epochs: *const u64,
    epochs_len: usize,
    sizes: *const u32,
    sizes_len: usize,
    stream: *const u8,
    stream_len: usize,
    buffer: *mut T,
    buffer_len: usize,
    written: *mut W,
) -> u32;

/// The same under the committees of these keys.
type ByKeys<T, W> = unsafe extern "C" fn(
    name: *const u8,
    name_len: usize,
    epochs: *const u64,
    epochs_len: usize,
    sizes: *const u32,
    sizes_len: usize,
    keys: *const u8,
    keys_len: usize,
    stream: *const u8,
    stream_len: usize,
    buffer: *mut T,
    buffer_len: usize,
    written: *mut W,
) -> u32;

/// A vector with capacity for this many items, or, if an allocation of so many fails, for half as many, and so on. Systems that
/// give memory by the page, when it is written, give none for the rest.
pub(crate) fn reserved<T>(most: usize) -> Vec<T> {
    let (mut buffer, mut room) = (Vec::new(), most);
    while buffer.try_reserve_exact(room).is_err() {
        room /= 2;
    }
    buffer
}

/// Calls with a buffer for `most` items, which is never too short if so many can be allocated. Calls again with a longer one if
/// the call asks for it. Beside its status the call returns how many items it wrote, or needs.
pub(crate) fn filled<T>(most: usize, mut call: impl FnMut(&mut [MaybeUninit<T>]) -> (u32, usize)) -> Result<Vec<T>, Error> {
    let mut buffer = reserved(most);
    loop {
        let (status, length) = call(buffer.spare_capacity_mut());
        match status {
            WHOLE | FAULT => {
                // SAFETY: the call wrote this many items.
                unsafe { buffer.set_len(length) };
                buffer.shrink_to_fit();
                return Ok(buffer);
            }
            SHORT => buffer.try_reserve_exact(length).map_err(|_| Error::OutOfMemory)?,
            MEMORY => return Err(Error::OutOfMemory),
            _ => return Err(Error::Arguments),
        }
    }
}

/// A call over a stream of vouched signatures, and that of the plain scheme.
struct ByScheme<T, W> {
    vouched: ByNumbers<T, W>,
    plain: ByKeys<T, W>,
}

impl<T, W> ByScheme<T, W> {
    fn call(&self, committees: &Committees, stream: &[u8], buffer: &mut [MaybeUninit<T>], written: &mut W) -> u32 {
        match &committees.members {
            // SAFETY: see this module.
            Members::Vouched { size, epochs, sizes } => unsafe {
                (self.vouched)(
                    size.bytes() as u32,
                    epochs.as_ptr(),
                    epochs.len(),
                    sizes.as_ptr(),
                    sizes.len(),
                    stream.as_ptr(),
                    stream.len(),
                    buffer.as_mut_ptr().cast(),
                    buffer.len(),
                    written,
                )
            },
            // SAFETY: see this module.
            Members::Plain { name, epochs, sizes, keys } => unsafe {
                (self.plain)(
                    name.as_ptr(),
                    name.len(),
                    epochs.as_ptr(),
                    epochs.len(),
                    sizes.as_ptr(),
                    sizes.len(),
                    keys.as_ptr(),
                    keys.len(),
                    stream.as_ptr(),
                    stream.len(),
                    buffer.as_mut_ptr().cast(),
                    buffer.len(),
                    written,
                )
            },
        }
    }
}

const AUDIT: ByScheme<u8, Summary> = ByScheme { vouched: simplex_audit, plain: simplex_audit_plain };

const RECORDS: ByScheme<Record, Summary> = ByScheme { vouched: simplex_records, plain: simplex_records_plain };

/// The text of a stream's report, and its numbers.
pub(crate) fn audit(committees: &Committees, stream: &[u8]) -> Result<(Vec<u8>, Summary), Error> {
    let mut summary = Summary::default();
    let most = Bounds::of(committees, stream.len()).text();
    let text = filled(most, |text| (AUDIT.call(committees, stream, text, &mut summary), summary.length))?;
    Ok((text, summary))
}

/// The text of the report of some ranges of a stream, one after another, and its numbers.
pub(crate) fn audit_ranges(committees: &Committees, stream: &[u8], ranges: &[Range]) -> Result<(Vec<u8>, Summary), Error> {
    let length = ranges.iter().fold(0_usize, |sum, range| sum.saturating_add(range.length));
    let mut summary = Summary::default();
    let text = filled(Bounds::of(committees, length).text(), |text| {
        let status = match &committees.members {
            // SAFETY: see this module.
            Members::Vouched { size, epochs, sizes } => unsafe {
                simplex_audit_ranges(
                    size.bytes() as u32,
                    epochs.as_ptr(),
                    epochs.len(),
                    sizes.as_ptr(),
                    sizes.len(),
                    stream.as_ptr(),
                    stream.len(),
                    ranges.as_ptr(),
                    ranges.len(),
                    text.as_mut_ptr().cast(),
                    text.len(),
                    &mut summary,
                )
            },
            // SAFETY: see this module.
            Members::Plain { name, epochs, sizes, keys } => unsafe {
                simplex_audit_ranges_plain(
                    name.as_ptr(),
                    name.len(),
                    epochs.as_ptr(),
                    epochs.len(),
                    sizes.as_ptr(),
                    sizes.len(),
                    keys.as_ptr(),
                    keys.len(),
                    stream.as_ptr(),
                    stream.len(),
                    ranges.as_ptr(),
                    ranges.len(),
                    text.as_mut_ptr().cast(),
                    text.len(),
                    &mut summary,
                )
            },
        };
        (status, summary.length)
    })?;
    Ok((text, summary))
}

/// A row for each message of a stream, and the numbers of the reading.
pub(crate) fn index(committees: &Committees, stream: &[u8]) -> Result<(Vec<Row>, Summary), Error> {
    let (signature, bound) = signature_and_bound(committees);
    let mut summary = Summary::default();
    let rows = filled(Bounds::of(committees, stream.len()).rows(), |rows| {
        let (to, room) = (rows.as_mut_ptr().cast(), rows.len());
        // SAFETY: see this module.
        let status = unsafe { simplex_index(signature, bound, stream.as_ptr(), stream.len(), to, room, &mut summary) };
        (status, summary.read)
    })?;
    Ok((rows, summary))
}

/// The ranges of as many classes of rounds as there are ends, one class after another, and the numbers of the reading. Of each
/// class it is written where its ranges end.
pub(crate) fn class_ranges(
    committees: &Committees,
    stream: &[u8],
    seed: u64,
    ends: &mut [usize],
) -> Result<(Vec<Range>, Summary), Error> {
    let (signature, bound) = signature_and_bound(committees);
    let mut summary = Summary::default();
    let ranges = filled(Bounds::of(committees, stream.len()).rows(), |ranges| {
        let (to, room) = (ranges.as_mut_ptr().cast(), ranges.len());
        let (at, length, last) = (stream.as_ptr(), stream.len(), ends.as_mut_ptr());
        // SAFETY: see this module.
        let status =
            unsafe { simplex_class_ranges(signature, bound, at, length, seed, to, room, last, ends.len(), &mut summary) };
        (status, summary.length)
    })?;
    Ok((ranges, summary))
}

/// The ranges of one class of rounds, of so many.
pub(crate) fn ranges(rows: &[Row], seed: u64, classes: NonZeroU32, class: u32) -> Result<Vec<Range>, Error> {
    filled(rows.len(), |ranges| {
        let (mut needed, to, room) = (0, ranges.as_mut_ptr().cast(), ranges.len());
        // SAFETY: see this module.
        let status = unsafe { simplex_ranges(rows.as_ptr(), rows.len(), seed, classes.get(), class, to, room, &mut needed) };
        (status, needed)
    })
}

pub(crate) fn class_of(epoch: u64, view: u64, seed: u64, classes: NonZeroU32) -> u32 {
    // SAFETY: only numbers are passed.
    unsafe { simplex_class_of(epoch, view, seed, classes.get()) }
}

/// What a ledger stores that held `stored` and was fed `batch`.
pub(crate) fn store(committees: &Committees, stored: &[u8], batch: &[u8]) -> Result<Vec<u8>, Error> {
    filled(Bounds::of(committees, stored.len() + batch.len()).messages(), |evidence| {
        let mut length = 0;
        let status = match &committees.members {
            // SAFETY: see this module.
            Members::Vouched { size, epochs, sizes } => unsafe {
                simplex_store(
                    size.bytes() as u32,
                    epochs.as_ptr(),
                    epochs.len(),
                    sizes.as_ptr(),
                    sizes.len(),
                    stored.as_ptr(),
                    stored.len(),
                    batch.as_ptr(),
                    batch.len(),
                    evidence.as_mut_ptr().cast(),
                    evidence.len(),
                    &mut length,
                )
            },
            // SAFETY: see this module.
            Members::Plain { name, epochs, sizes, keys } => unsafe {
                simplex_store_plain(
                    name.as_ptr(),
                    name.len(),
                    epochs.as_ptr(),
                    epochs.len(),
                    sizes.as_ptr(),
                    sizes.len(),
                    keys.as_ptr(),
                    keys.len(),
                    stored.as_ptr(),
                    stored.len(),
                    batch.as_ptr(),
                    batch.len(),
                    evidence.as_mut_ptr().cast(),
                    evidence.len(),
                    &mut length,
                )
            },
        };
        (status, length)
    })
}

/// The attestations of a stream that have to be verified; under the plain scheme, which verifies its signatures itself, none.
pub(crate) fn suspects(committees: &Committees, stream: &[u8]) -> Result<Vec<Suspect>, Error> {
    let Members::Vouched { size, epochs, sizes } = &committees.members else {
        return Ok(Vec::new());
    };
    filled(Bounds::of(committees, stream.len()).votes(), |records| {
        let (mut needed, to, room) = (0, records.as_mut_ptr().cast(), records.len());
        // SAFETY: see this module.
        let status = unsafe {
            simplex_suspects(
                size.bytes() as u32,
                epochs.as_ptr(),
                epochs.len(),
                sizes.as_ptr(),
                sizes.len(),
                stream.as_ptr(),
                stream.len(),
                to,
                room,
                &mut needed,
            )
        };
        (status, needed)
    })
}

/// The evidence of a stream's report, as records.
pub(crate) fn records(committees: &Committees, stream: &[u8]) -> Result<Vec<Record>, Error> {
    filled(Bounds::of(committees, stream.len()).evidence(), |records| {
        let mut summary = Summary::default();
        (RECORDS.call(committees, stream, records, &mut summary), summary.evidence)
    })
}

/// What a vote says.
pub(crate) struct Said<'a> {
    pub kind: u32,
    pub epoch: u64,
    pub view: u64,
    pub parent: u64,
    pub payload: &'a [u8],
}

/// Appends what a call writes, at most so many bytes.
fn appended(bytes: &mut Vec<u8>, most: usize, call: impl FnOnce(*mut u8, usize, &mut usize) -> u32) -> Result<(), Error> {
    bytes.try_reserve(most).map_err(|_| Error::OutOfMemory)?;
    let (spare, mut size) = (bytes.spare_capacity_mut(), 0);
    match call(spare.as_mut_ptr().cast(), spare.len(), &mut size) {
        WHOLE => {
            // SAFETY: the call wrote this many bytes behind those that are there.
            unsafe { bytes.set_len(bytes.len() + size) };
            Ok(())
        }
        MEMORY => Err(Error::OutOfMemory),
        _ => Err(Error::Arguments),
    }
}

/// The bytes that are signed.
pub(crate) fn signed_bytes(name: &[u8], said: &Said) -> Result<Vec<u8>, Error> {
    let mut bytes = Vec::new();
    // SAFETY: see this module.
    appended(&mut bytes, NUMBER + name.len() + SUFFIX + HEAD, |to, room, size| unsafe {
        simplex_signed_bytes(
            name.as_ptr(),
            name.len(),
            said.kind,
            said.epoch,
            said.view,
            said.parent,
            said.payload.as_ptr(),
            said.payload.len(),
            to,
            room,
            size,
        )
    })?;
    Ok(bytes)
}

/// Appends a vote with this signature, behind which its verdict stands.
pub(crate) fn write_vote(signature: u32, said: &Said, signer: u32, attested: &[u8], bytes: &mut Vec<u8>) -> Result<(), Error> {
    // SAFETY: see this module.
    appended(bytes, HEAD + SIGNER + attested.len(), |to, room, written| unsafe {
        simplex_write_vote(
            signature,
            said.kind,
            said.epoch,
            said.view,
            said.parent,
            said.payload.as_ptr(),
            said.payload.len(),
            signer,
            attested.as_ptr(),
            attested.len(),
            to,
            room,
            written,
        )
    })
}

/// Appends a certificate of this kind that lists these signers, with signatures behind each of which its verdict stands.
pub(crate) fn write_certificate(
    size: Size,
    kind: u32,
    said: &Said,
    signers: &[u32],
    attested: &[u8],
    bytes: &mut Vec<u8>,
) -> Result<(), Error> {
    let most = HEAD + SIGNER + SIGNER * signers.len() + attested.len();
    // SAFETY: see this module.
    appended(bytes, most, |to, room, written| unsafe {
        simplex_write_certificate(
            size.bytes() as u32,
            kind,
            said.epoch,
            said.view,
            said.parent,
            said.payload.as_ptr(),
            said.payload.len(),
            signers.as_ptr(),
            signers.len(),
            attested.as_ptr(),
            attested.len(),
            to,
            room,
            written,
        )
    })
}

/// Why committees of these members are refused, if they are.
pub(crate) fn refusal(members: &Members) -> Result<(), Error> {
    let cause = match members {
        // SAFETY: see this module.
        Members::Vouched { size, epochs, sizes } => unsafe {
            simplex_refusal(size.bytes() as u32, epochs.as_ptr(), epochs.len(), sizes.as_ptr(), sizes.len())
        },
        // SAFETY: see this module.
        Members::Plain { epochs, sizes, keys, .. } => unsafe {
            let (sizes_at, sizes_len) = (sizes.as_ptr(), sizes.len());
            simplex_refusal_plain(epochs.as_ptr(), epochs.len(), sizes_at, sizes_len, keys.as_ptr(), keys.len())
        },
    };
    match cause {
        NOTHING => Ok(()),
        NO_COMMITTEE => Err(Error::Committees(Refusal::NoCommittee)),
        EPOCHS => Err(Error::Committees(Refusal::Epochs)),
        EMPTY => Err(Error::Committees(Refusal::EmptyCommittee)),
        REPEATED => Err(Error::Committees(Refusal::RepeatedKey)),
        UNKNOWN => Err(Error::OutOfMemory),
        // The types leave no other cause.
        _ => Err(Error::Arguments),
    }
}

/// The bytes of a signature, and the bound of certificates: the number of participants of the greatest committee.
pub(crate) fn signature_and_bound(committees: &Committees) -> (u32, u32) {
    let (signature, sizes) = match &committees.members {
        Members::Vouched { size, sizes, .. } => (size.bytes() as u32, sizes),
        Members::Plain { sizes, .. } => (PLAIN, sizes),
    };
    (signature, sizes.iter().max().copied().unwrap_or(0))
}

/// The bytes of a signature, and of the verdict behind it if there is one.
pub(crate) fn attested(committees: &Committees) -> usize {
    match &committees.members {
        Members::Vouched { size, .. } => size.bytes() + 1,
        Members::Plain { .. } => PLAIN as usize,
    }
}

/// The message at the front of some bytes, and its attestations.
pub(crate) fn read_message(
    committees: &Committees,
    bytes: &[u8],
) -> Result<Option<(MessageHead, Vec<AttestationPlace>)>, Error> {
    let (signature, bound) = signature_and_bound(committees);
    let (mut head, mut found) = (MessageHead::default(), Vec::new());
    loop {
        let spare: &mut [MaybeUninit<AttestationPlace>] = found.spare_capacity_mut();
        let (to, room) = (spare.as_mut_ptr().cast(), spare.len());
        // SAFETY: see this module.
        match unsafe { simplex_read_message(signature, bound, bytes.as_ptr(), bytes.len(), to, room, &mut head) } {
            WHOLE => {
                // SAFETY: the call wrote this many records.
                unsafe { found.set_len(head.attestations) };
                return Ok(Some((head, found)));
            }
            FAULT => return Ok(None),
            SHORT => found.try_reserve_exact(head.attestations).map_err(|_| Error::OutOfMemory)?,
            MEMORY => return Err(Error::OutOfMemory),
            _ => return Err(Error::Arguments),
        }
    }
}

/// Whom one piece of evidence accuses.
pub(crate) fn verify_evidence(committees: &Committees, evidence: &[u8]) -> Result<Option<AccusationRecord>, Error> {
    let mut found = AccusationRecord::default();
    let status = match &committees.members {
        // SAFETY: see this module.
        Members::Vouched { size, epochs, sizes } => unsafe {
            simplex_verify_evidence(
                size.bytes() as u32,
                epochs.as_ptr(),
                epochs.len(),
                sizes.as_ptr(),
                sizes.len(),
                evidence.as_ptr(),
                evidence.len(),
                &mut found,
            )
        },
        // SAFETY: see this module.
        Members::Plain { name, epochs, sizes, keys } => unsafe {
            simplex_verify_evidence_plain(
                name.as_ptr(),
                name.len(),
                epochs.as_ptr(),
                epochs.len(),
                sizes.as_ptr(),
                sizes.len(),
                keys.as_ptr(),
                keys.len(),
                evidence.as_ptr(),
                evidence.len(),
                &mut found,
            )
        },
    };
    match status {
        WHOLE => Ok(Some(found)),
        FAULT => Ok(None),
        MEMORY => Err(Error::OutOfMemory),
        _ => Err(Error::Arguments),
    }
}

pub(crate) fn version() -> u32 {
    // SAFETY: nothing is passed.
    unsafe { simplex_version() }
}

pub(crate) fn max_faults(n: u32) -> u32 {
    // SAFETY: only numbers are passed.
    unsafe { simplex_max_faults(n) }
}

pub(crate) fn quorum(n: u32) -> u32 {
    // SAFETY: only numbers are passed.
    unsafe { simplex_quorum(n) }
}

/// Yes, no, or no answer.
fn answer(status: u32) -> Result<bool, Error> {
    match status {
        NO => Ok(false),
        YES => Ok(true),
        _ => Err(Error::Arguments),
    }
}

pub(crate) fn admits(term_length: u32, optimistic_views: u64, current: u64, pending: u64) -> Result<bool, Error> {
    // SAFETY: only numbers are passed.
    answer(unsafe { simplex_admits(term_length, optimistic_views, current, pending) })
}

pub(crate) fn admits_outbound(term_length: u32, optimistic_views: u64, current: u64, pending: u64) -> Result<bool, Error> {
    // SAFETY: only numbers are passed.
    answer(unsafe { simplex_admits_outbound(term_length, optimistic_views, current, pending) })
}

pub(crate) fn issuance_floor(term_length: u32, optimistic_views: u64, view: u64) -> Result<Option<u64>, Error> {
    let mut floor = 0;
    // SAFETY: see this module.
    let bounded = answer(unsafe { simplex_issuance_floor(term_length, optimistic_views, view, &mut floor) })?;
    Ok(bounded.then_some(floor))
}

pub(crate) fn leader(seed: Option<&[u8]>, participants: u32, term_length: u32, epoch: u64, view: u64) -> Result<u32, Error> {
    let mut number = 0;
    // SAFETY: see this module.
    let status = unsafe {
        match seed {
            None => simplex_leader(participants, term_length, epoch, view, &mut number),
            Some(seed) => {
                simplex_leader_shuffled(seed.as_ptr(), seed.len(), participants, term_length, epoch, view, &mut number)
            }
        }
    };
    match status {
        WHOLE => Ok(number),
        MEMORY => Err(Error::OutOfMemory),
        _ => Err(Error::Arguments),
    }
}

#[cfg(test)]
mod tests {
    use super::*;

    #[test]
    fn less_is_reserved_than_cannot_be() {
        assert!(reserved::<u64>(3).capacity() >= 3);
        assert!(reserved::<u64>(usize::MAX).capacity() >= 3);
    }

    #[test]
    fn a_short_buffer_is_made_longer() {
        for most in [0, 2, 3] {
            let mut calls = 0;
            let filled = filled(most, |buffer| {
                calls += 1;
                if buffer.len() < 3 {
                    return (SHORT, 3);
                }
                buffer[..3].copy_from_slice(&[6, 7, 8].map(MaybeUninit::new));
                (FAULT, 3)
            });
            assert_eq!((filled, calls), (Ok(vec![6_u8, 7, 8]), if most < 3 { 2 } else { 1 }));
        }
        assert_eq!(filled::<u8>(3, |_| (MEMORY, 3)), Err(Error::OutOfMemory));
        assert_eq!(filled::<u8>(0, |_| (SHORT, usize::MAX)), Err(Error::OutOfMemory));
    }
}
