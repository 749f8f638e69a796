use crate::committees::Members;
use crate::exports::{AccusationRecord, AttestationPlace, MessageHead};
use crate::records::kind_of;
use crate::{ffi, Committees, Error, Kind, Vote};
use std::ops::Range;

/// A vote of a message, and where it stands.
#[derive(Clone, Debug, PartialEq, Eq)]
pub struct Attestation {
    /// What was signed.
    pub vote: Vote,
    /// The number of the signer.
    pub signer: u32,
    /// The offsets of the signature's bytes, without the verdict.
    pub signature: Range<usize>,
}

/// The message at the front of some bytes.
#[derive(Clone, Debug, PartialEq, Eq)]
pub struct Message {
    /// The epoch of its round.
    pub epoch: u64,
    /// The view of its round.
    pub view: u64,
    /// The number of its kind, 0 to 9: the tag with which it is encoded.
    pub kind: u32,
    /// The number of its bytes: the next message begins so far behind it.
    pub length: usize,
    /// Its votes: one, two of evidence, and those that a certificate lists.
    pub attestations: Vec<Attestation>,
}

/// The message at the front of some bytes, or `None` if there is none. Nothing is verified.
///
/// ```
/// use simplex_audit::{read_message, Committees, Deferred, Encoder, Size, Vote};
///
/// let committees = Committees::every(Size::Bytes64, 4)?;
/// let mut stream = Encoder::new(Size::Bytes64);
/// let vote = Vote::Finalize { epoch: 300, view: 10, parent: 5, payload: [6; 32] };
/// stream.certificate(&vote, &[(1, &[0; 64]), (3, &[9; 64])], &Deferred)?;
/// let message = read_message(&committees, stream.as_bytes())?.unwrap();
/// assert_eq!((message.kind, message.epoch, message.length), (6, 300, stream.as_bytes().len()));
/// let last = &message.attestations[1];
/// assert_eq!((&last.vote, last.signer, &stream.as_bytes()[last.signature.clone()]), (&vote, 3, &[9; 64][..]));
/// # Ok::<(), simplex_audit::Error>(())
/// ```
pub fn read_message(committees: &Committees, bytes: &[u8]) -> Result<Option<Message>, Error> {
    let Some((head, places)) = ffi::read_message(committees, bytes)? else {
        return Ok(None);
    };
    let verdict = match &committees.members {
        Members::Vouched { .. } => 1,
        Members::Plain { .. } => 0,
    };
    let signature = ffi::signature_and_bound(committees).0 as usize;
    let attestations = places.iter().enumerate().map(|(i, place)| {
        let end = place.verdict_place + 1 - verdict;
        let is_second = i == 1 && head.kind >= FIRST_EVIDENCE;
        Attestation {
            vote: vote_at(bytes, place, if is_second { head.second_parent } else { head.parent }),
            signer: place.signer,
            signature: end - signature..end,
        }
    });
    let MessageHead { epoch, view, kind, length, .. } = head;
    Ok(Some(Message { epoch, view, kind, length, attestations: attestations.collect() }))
}

/// The first kind of messages that are evidence.
const FIRST_EVIDENCE: u32 = 7;

/// The vote whose subject stands there, for a proposal with this parent, if it is for one.
fn vote_at(bytes: &[u8], place: &AttestationPlace, parent: u64) -> Vote {
    let AttestationPlace { epoch, view, .. } = *place;
    let mut payload = [0; 32];
    if place.kind != ffi::NULLIFY {
        payload.copy_from_slice(&bytes[place.subject_place + place.subject_length - 32..][..32]);
    }
    match place.kind {
        ffi::NOTARIZE => Vote::Notarize { epoch, view, parent, payload },
        ffi::NULLIFY => Vote::Nullify { epoch, view },
        _ => Vote::Finalize { epoch, view, parent, payload },
    }
}

/// The vote of this kind with this subject: the vote as a message, its signer and signature being zeros, is read.
pub(crate) fn vote_of(committees: &Committees, kind: u32, subject: &[u8]) -> Result<Vote, Error> {
    let tag = match kind {
        ffi::NOTARIZE => 0,
        ffi::NULLIFY => 3,
        _ => 5,
    };
    let mut message = [&[tag], subject].concat();
    message.resize(message.len() + 1 + ffi::attested(committees), 0);
    let (head, places) = ffi::read_message(committees, &message)?.ok_or(Error::Arguments)?;
    let place = places.first().ok_or(Error::Arguments)?;
    Ok(vote_at(&message, place, head.parent))
}

/// Whom one piece of evidence accuses, and whether it proves that.
#[derive(Clone, Copy, Debug, PartialEq, Eq)]
pub struct Accusation {
    /// The epoch of the round of both votes.
    pub epoch: u64,
    /// The view of that round.
    pub view: u64,
    /// The number of the signer of both votes.
    pub signer: u32,
    /// How they contradict.
    pub kind: Kind,
    /// Whether both signatures are valid.
    pub proved: bool,
}

/// Judges one piece of evidence by itself, such as [`Ledger`](crate::Ledger) stores. It is proved where both votes are valid
/// under the committee of their epoch: where an audit of this message alone accuses the signer. `None` if the bytes are not
/// exactly one message that is evidence.
///
/// ```
/// use simplex_audit::{verify_evidence, Committees, Encoder, Kind, Ledger, Size, Vote};
///
/// let committees = Committees::every(Size::Bytes64, 4)?;
/// let mut stream = Encoder::new(Size::Bytes64);
/// for payload in [[6; 32], [7; 32]] {
///     let vote = Vote::Notarize { epoch: 3, view: 10, parent: 5, payload };
///     stream.vote(&vote, 2, &[0; 64], &|_: &Vote, _: u32, _: &[u8]| true)?;
/// }
/// let mut ledger = Ledger::resume(committees.clone(), Vec::new())?;
/// ledger.feed(stream.as_bytes())?;
/// let it = verify_evidence(&committees, ledger.stored())?.unwrap();
/// assert_eq!((it.view, it.signer, it.kind, it.proved), (10, 2, Kind::ConflictingNotarize, true));
/// let two = Committees::every(Size::Bytes64, 2)?;
/// assert!(!verify_evidence(&two, ledger.stored())?.unwrap().proved);
/// assert_eq!(verify_evidence(&committees, stream.as_bytes())?, None);
/// # Ok::<(), simplex_audit::Error>(())
/// ```
pub fn verify_evidence(committees: &Committees, message: &[u8]) -> Result<Option<Accusation>, Error> {
    let Some(AccusationRecord { epoch, view, signer, kind, proved }) = ffi::verify_evidence(committees, message)? else {
        return Ok(None);
    };
    Ok(Some(Accusation { epoch, view, signer, kind: kind_of(kind), proved: proved == 1 }))
}
