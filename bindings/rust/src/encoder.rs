use crate::{ffi, Error, Size};
use std::alloc::{handle_alloc_error, Layout};

/// A vote, without its signer and signature.
#[derive(Clone, Copy, Debug, PartialEq, Eq)]
pub enum Vote {
    /// A vote for a proposal.
    Notarize { epoch: u64, view: u64, parent: u64, payload: [u8; 32] },
    /// A vote to skip a round.
    Nullify { epoch: u64, view: u64 },
    /// A vote to finalize a proposal.
    Finalize { epoch: u64, view: u64, parent: u64, payload: [u8; 32] },
}

impl Vote {
    /// The bytes that are signed: the length of the namespace as a number, the namespace, and the vote's message. The namespace
    /// is the base and behind it `_NOTARIZE`, `_NULLIFY` or `_FINALIZE`.
    pub fn signed_bytes(&self, base: &[u8]) -> Vec<u8> {
        // Any numbers and payload are those of a vote, so only memory can fail, as it can for any vector.
        ffi::signed_bytes(base, &self.said()).unwrap_or_else(|_| handle_alloc_error(Layout::new::<Vote>()))
    }

    /// What it says, as the calls of the library take it.
    pub(crate) fn said(&self) -> ffi::Said<'_> {
        match *self {
            Vote::Notarize { epoch, view, parent, ref payload } => {
                ffi::Said { kind: ffi::NOTARIZE, epoch, view, parent, payload }
            }
            Vote::Nullify { epoch, view } => ffi::Said { kind: ffi::NULLIFY, epoch, view, parent: 0, payload: &[] },
            Vote::Finalize { epoch, view, parent, ref payload } => {
                ffi::Said { kind: ffi::FINALIZE, epoch, view, parent, payload }
            }
        }
    }
}

/// Verifies signatures. A closure is a verifier.
pub trait Verifier {
    /// Whether the signature on the vote is valid under this signer's key in the committee of the vote's epoch.
    fn verify(&self, vote: &Vote, signer: u32, signature: &[u8]) -> bool;
}

impl<F: Fn(&Vote, u32, &[u8]) -> bool> Verifier for F {
    fn verify(&self, vote: &Vote, signer: u32, signature: &[u8]) -> bool {
        self(vote, signer, signature)
    }
}

/// Writes messages as a stream. Each signature is verified, and the verdict written behind it.
#[derive(Clone, Debug)]
pub struct Encoder {
    size: Size,
    bytes: Vec<u8>,
}

impl Encoder {
    /// An encoder of signatures of this size, that has written nothing.
    pub fn new(size: Size) -> Self {
        Encoder { size, bytes: Vec::new() }
    }

    /// Appends a vote. `Error::Arguments` where the signature has another size; nothing is written then.
    pub fn vote(&mut self, vote: &Vote, signer: u32, signature: &[u8], verifier: &dyn Verifier) -> Result<(), Error> {
        let mut attested = Vec::new();
        self.attest(&mut attested, vote, signer, signature, verifier)?;
        ffi::write_vote(self.size.bytes() as u32, &vote.said(), signer, &attested, &mut self.bytes)
    }

    /// Appends a certificate that lists these signers, in ascending order, with the signatures. `Error::Arguments` if there is
    /// no signer, they do not ascend, or a signature has another size; nothing is written then.
    pub fn certificate(&mut self, vote: &Vote, listed: &[(u32, &[u8])], verifier: &dyn Verifier) -> Result<(), Error> {
        let kind = match vote {
            Vote::Notarize { .. } => ffi::NOTARIZATION,
            Vote::Nullify { .. } => ffi::NULLIFICATION,
            Vote::Finalize { .. } => ffi::FINALIZATION,
        };
        self.list(kind, vote, listed, verifier)
    }

    /// Appends a certification, a notarization that a node accepted: what [`certificate`](Self::certificate) writes for a
    /// notarize, with a tag of its own. An audit counts it as a notarization. `Error::Arguments` also where the vote is no
    /// notarize.
    ///
    /// ```
    /// use simplex_audit::{audit, Committees, Encoder, Size, Vote};
    ///
    /// let signature = [0; 64];
    /// let mut stream = Encoder::new(Size::Bytes64);
    /// for (payload, signers) in [([6; 32], [0, 1, 2]), ([7; 32], [1, 2, 3])] {
    ///     let vote = Vote::Notarize { epoch: 3, view: 10, parent: 5, payload };
    ///     let listed = signers.map(|signer| (signer, signature.as_slice()));
    ///     stream.certification(&vote, &listed, &|_: &Vote, _: u32, _: &[u8]| true)?;
    /// }
    /// let report = audit(&Committees::every(Size::Bytes64, 4)?, stream.as_bytes())?;
    /// assert_eq!((stream.as_bytes()[0], report.read, report.evidence.len(), report.splits.len()), (2, 2, 2, 1));
    /// # Ok::<(), simplex_audit::Error>(())
    /// ```
    pub fn certification(&mut self, vote: &Vote, listed: &[(u32, &[u8])], verifier: &dyn Verifier) -> Result<(), Error> {
        match vote {
            Vote::Notarize { .. } => self.list(ffi::CERTIFICATION, vote, listed, verifier),
            Vote::Nullify { .. } | Vote::Finalize { .. } => Err(Error::Arguments),
        }
    }

    /// Appends a certificate of this kind.
    fn list(&mut self, kind: u32, vote: &Vote, listed: &[(u32, &[u8])], verifier: &dyn Verifier) -> Result<(), Error> {
        let mut attested = Vec::with_capacity(listed.len() * (self.size.bytes() + 1));
        for (signer, signature) in listed {
            self.attest(&mut attested, vote, *signer, signature, verifier)?;
        }
        let signers: Vec<u32> = listed.iter().map(|one| one.0).collect();
        ffi::write_certificate(self.size, kind, &vote.said(), &signers, &attested, &mut self.bytes)
    }

    /// The size of its signatures.
    pub fn size(&self) -> Size {
        self.size
    }

    /// All that it wrote.
    pub fn as_bytes(&self) -> &[u8] {
        &self.bytes
    }

    /// Appends a signature and the verdict on it.
    fn attest(
        &self,
        attested: &mut Vec<u8>,
        vote: &Vote,
        signer: u32,
        signature: &[u8],
        verifier: &dyn Verifier,
    ) -> Result<(), Error> {
        if signature.len() != self.size.bytes() {
            return Err(Error::Arguments);
        }
        attested.extend_from_slice(signature);
        attested.push(u8::from(verifier.verify(vote, signer, signature)));
        Ok(())
    }
}
