use crate::committees::Members;
use crate::exports::{AttestationPlace, Suspect};
use crate::messages::vote_of;
use crate::{audit, ffi, Committees, Error, Report, Size, Verifier, Vote};

/// Verifies nothing: with it an [`Encoder`](crate::Encoder) writes a stream whose signatures [`audit_deferred`] verifies.
#[derive(Clone, Copy, Debug)]
pub struct Deferred;

impl Verifier for Deferred {
    fn verify(&self, _: &Vote, _: u32, _: &[u8]) -> bool {
        false
    }
}

/// Audits a stream whose signatures are not verified yet; its verdicts may be any bytes. Only the votes of suspects and the
/// certificates of their rounds are verified, each vote once. A suspect is a signer of the committee, in a round where two votes that claim to
/// be that signer's contradict; an honest stream has none. The report is that of [`audit`] with every signature verified.
///
/// ```
/// use simplex_audit::{audit_deferred, Committees, Deferred, Encoder, Size, Vote};
/// use std::cell::Cell;
///
/// let mut stream = Encoder::new(Size::Bytes64);
/// // Each participant votes in view 9, and participant 2 for two payloads in view 10.
/// for (view, signer, payload) in [(9, 0, 6), (9, 1, 6), (9, 2, 6), (10, 2, 6), (10, 2, 7)] {
///     let vote = Vote::Notarize { epoch: 3, view, parent: 5, payload: [payload; 32] };
///     stream.vote(&vote, signer, &[0; 64], &Deferred)?;
/// }
/// let verified = Cell::new(0);
/// let report = audit_deferred(&Committees::every(Size::Bytes64, 4)?, stream.as_bytes(), &|_: &Vote, _: u32, _: &[u8]| {
///     verified.set(verified.get() + 1);
///     true
/// })?;
/// assert_eq!((report.read, report.evidence.len(), verified.get()), (5, 1, 2));
/// # Ok::<(), simplex_audit::Error>(())
/// ```
pub fn audit_deferred(committees: &Committees, stream: &[u8], verifier: &dyn Verifier) -> Result<Report, Error> {
    match &committees.members {
        Members::Vouched { .. } => audit_verified(committees, stream.to_vec(), verifier),
        Members::Plain { .. } => audit(committees, stream),
    }
}

/// The deferred audit of a stream in which the verdicts may be written.
pub(crate) fn audit_verified(committees: &Committees, mut stream: Vec<u8>, verifier: &dyn Verifier) -> Result<Report, Error> {
    if let Members::Vouched { size, .. } = &committees.members {
        let suspects = ffi::suspects(committees, &stream)?;
        write_verdicts(*size, &mut stream, &suspects, |place, subject, signature| {
            let vote = vote_of(committees, place.kind, subject)?;
            Ok(verifier.verify(&vote, place.signer, signature))
        })?;
    }
    audit(committees, &stream)
}

/// Writes the verdicts of listed attestations: `verify` is given each with its subject and its signature, those that are the
/// same once.
pub(crate) fn write_verdicts(
    size: Size,
    stream: &mut [u8],
    listed: &[Suspect],
    mut verify: impl FnMut(&AttestationPlace, &[u8], &[u8]) -> Result<bool, Error>,
) -> Result<(), Error> {
    for (index, Suspect { place, first }) in listed.iter().enumerate() {
        stream[place.verdict_place] = if *first == index {
            let subject = &stream[place.subject_place..][..place.subject_length];
            let signature = &stream[place.verdict_place - size.bytes()..place.verdict_place];
            verify(place, subject, signature)?.into()
        } else {
            stream[listed[*first].place.verdict_place]
        };
    }
    Ok(())
}
