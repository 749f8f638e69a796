use crate::exports::VotePlace;
use crate::messages::vote_of;
use crate::{audit, exports, ffi, Committees, Error, Kind, Vote};

/// A vote with its signature, whole: what stands in the stream of a vote of some evidence.
#[derive(Clone, Debug, PartialEq, Eq)]
pub struct SignedVote {
    /// What was signed: [`Vote::signed_bytes`] has the bytes.
    pub vote: Vote,
    /// The number of the signer.
    pub signer: u32,
    /// The signature, without the verdict.
    pub signature: Vec<u8>,
    /// The verdict behind the signature, 1. Under the plain scheme there is none.
    pub verdict: Option<u8>,
    /// The vote as a message, with signature and verdict, to be handed on. Behind each other both votes of an evidence are a
    /// stream whose report is this evidence.
    pub message: Vec<u8>,
}

/// An evidence of a report, with its two votes, and where they stand in the stream.
#[derive(Clone, Debug, PartialEq, Eq)]
pub struct Record {
    /// The epoch of the round.
    pub epoch: u64,
    /// The view of the round.
    pub view: u64,
    /// The participant's number.
    pub signer: u32,
    /// How the votes contradict.
    pub kind: Kind,
    /// The offset of the first message that carries the first vote: the vote on its own, a certificate that lists it, or
    /// evidence with it. Of a nullify and a finalize the nullify is the first.
    pub first_place: usize,
    /// The offset of the first message that carries the second vote. It may be before `first_place`, or the same.
    pub second_place: usize,
    /// The first vote. It stands in the message at `first_place`, which may hold other votes, and invalid ones.
    pub first: SignedVote,
    /// The second vote. It stands in the message at `second_place`.
    pub second: SignedVote,
}

/// Audits a stream as [`audit`](crate::audit) does, and returns the evidence as records, each with both votes and their places
/// in the stream. There is one for each evidence of the report, in the same order.
///
/// ```
/// use simplex_audit::{audit, records, Committees, Encoder, Kind, Size, Vote};
///
/// let mut stream = Encoder::new(Size::Bytes64);
/// let (mut places, mut votes) = (Vec::new(), Vec::new());
/// // Participant 1 votes once, and participant 2 for two payloads.
/// for (signer, payload) in [(1, 6), (2, 6), (2, 7)] {
///     places.push(stream.as_bytes().len());
///     let vote = Vote::Notarize { epoch: 3, view: 10, parent: 5, payload: [payload; 32] };
///     stream.vote(&vote, signer, &[payload; 64], &|_: &Vote, _: u32, _: &[u8]| true)?;
///     votes.push(vote);
/// }
/// let committees = Committees::every(Size::Bytes64, 4)?;
/// let records = records(&committees, stream.as_bytes())?;
/// assert_eq!(records.len(), 1);
/// let it = &records[0];
/// assert_eq!((it.view, it.signer, it.kind), (10, 2, Kind::ConflictingNotarize));
/// assert_eq!((it.first_place, it.second_place), (places[1], places[2]));
/// assert_eq!((it.first.vote, it.second.vote), (votes[1], votes[2]));
/// assert_eq!((it.second.signer, &it.second.signature[..], it.second.verdict), (2, &[7; 64][..], Some(1)));
/// // Whoever is handed the two votes finds the same evidence.
/// let both = [&it.first.message[..], &it.second.message].concat();
/// assert_eq!(audit(&committees, &both)?.text, audit(&committees, stream.as_bytes())?.text);
/// # Ok::<(), simplex_audit::Error>(())
/// ```
pub fn records(committees: &Committees, stream: &[u8]) -> Result<Vec<Record>, Error> {
    ffi::records(committees, stream)?.iter().map(|of| record(committees, stream, of)).collect()
}

/// The new records of what was stored with a batch behind it: those with at least one place in the batch, at
/// `stored.len()` or above. All other evidence was stored before. `Error::Arguments` if what was stored has a fault, behind
/// which nothing would be read. What was stored is audited by itself, and then with the batch, however short the batch is.
///
/// ```
/// use simplex_audit::{new_records, Committees, Encoder, Ledger, Size, Vote};
///
/// let committees = Committees::every(Size::Bytes64, 4)?;
/// let mut ledger = Ledger::resume(committees.clone(), Vec::new())?;
/// for view in [10, 11] {
///     let mut batch = Encoder::new(Size::Bytes64);
///     for payload in [[6; 32], [7; 32]] {
///         let vote = Vote::Finalize { epoch: 3, view, parent: 5, payload };
///         batch.vote(&vote, 1, &[0; 64], &|_: &Vote, _: u32, _: &[u8]| true)?;
///     }
///     let new = new_records(&committees, ledger.stored(), batch.as_bytes())?;
///     assert_eq!((new.len(), new[0].view, new[0].signer), (1, view, 1));
///     ledger.feed(batch.as_bytes())?;
/// }
/// # Ok::<(), simplex_audit::Error>(())
/// ```
pub fn new_records(committees: &Committees, stored: &[u8], batch: &[u8]) -> Result<Vec<Record>, Error> {
    if audit(committees, stored)?.fault.is_some() {
        return Err(Error::Arguments);
    }
    let mut found = records(committees, &[stored, batch].concat())?;
    found.retain(|one| one.first_place.max(one.second_place) >= stored.len());
    Ok(found)
}

fn record(committees: &Committees, stream: &[u8], of: &exports::Record) -> Result<Record, Error> {
    Ok(Record {
        epoch: of.epoch,
        view: of.view,
        signer: of.signer,
        kind: kind_of(of.kind),
        first_place: of.first_place,
        second_place: of.second_place,
        first: signed_vote(committees, stream, &of.first_vote)?,
        second: signed_vote(committees, stream, &of.second_vote)?,
    })
}

/// The vote that stands there.
fn signed_vote(committees: &Committees, stream: &[u8], place: &VotePlace) -> Result<SignedVote, Error> {
    let VotePlace { subject_place, subject_length, verdict_place, signer, kind } = *place;
    let vote = vote_of(committees, kind, &stream[subject_place..][..subject_length])?;
    let attested = &stream[..=verdict_place][verdict_place + 1 - ffi::attested(committees)..];
    let size = ffi::signature_and_bound(committees).0;
    let (signature, verdict) = attested.split_at(size as usize);
    let mut message = Vec::new();
    ffi::write_vote(size, &vote.said(), signer, attested, &mut message)?;
    Ok(SignedVote { vote, signer, signature: signature.to_vec(), verdict: verdict.first().copied(), message })
}

/// The kind of this number.
pub(crate) fn kind_of(number: u32) -> Kind {
    match number {
        ffi::CONFLICTING_NOTARIZE => Kind::ConflictingNotarize,
        ffi::CONFLICTING_FINALIZE => Kind::ConflictingFinalize,
        _ => Kind::NullifyFinalize,
    }
}
