//! From the release to a stream: `Tap` takes each `Activity` that a reporter is given, by its public fields and methods alone,
//! and writes it by the `Encoder`, each signature verified by the release's scheme.
//!
//! It was compiled against the stubs of `stubs.rs`, and not against the release. In a node `stubs` is replaced by the types of
//! `commonware_consensus::simplex` and of its scheme, with the type parameters that the node has.

mod stubs;

use simplex_audit::{audit, Committees, Encoder, Error, Size, Vote};
use std::{error, fmt};
use stubs::{
    Activity, Attestation, Certificate, CodecError, ConflictingFinalize, ConflictingNotarize, Digest, Epoch, Finalization,
    Finalize, Notarization, Notarize, Nullification, Nullify, NullifyFinalize, Participant, Proposal, Rng, Round, Scheme,
    Sequential, Signature, Subject, View,
};

/// Why an activity was not written.
#[derive(Debug)]
enum Refused {
    /// The release's codec did not read what it wrote.
    Codec(CodecError),
    /// The encoder takes no such message.
    Encoder(Error),
}

impl fmt::Display for Refused {
    fn fmt(&self, f: &mut fmt::Formatter<'_>) -> fmt::Result {
        f.write_str(match self {
            Refused::Codec(_) => "the codec did not read what it wrote",
            Refused::Encoder(_) => "the encoder takes no such message",
        })
    }
}

impl error::Error for Refused {
    fn source(&self) -> Option<&(dyn error::Error + 'static)> {
        match self {
            Refused::Codec(error) => Some(error),
            Refused::Encoder(error) => Some(error),
        }
    }
}

impl From<CodecError> for Refused {
    fn from(error: CodecError) -> Self {
        Refused::Codec(error)
    }
}

impl From<Error> for Refused {
    fn from(error: Error) -> Self {
        Refused::Encoder(error)
    }
}

/// The vote that signs a subject.
fn vote_of(subject: Subject<'_>) -> Vote {
    let numbers = |round: Round| (round.epoch().get(), round.view().get());
    let payload = |digest: &Digest| digest.as_ref().try_into().expect("a digest of 32 bytes");
    match subject {
        Subject::Notarize { proposal } => {
            let ((epoch, view), parent) = (numbers(proposal.round), proposal.parent.get());
            Vote::Notarize { epoch, view, parent, payload: payload(&proposal.payload) }
        }
        Subject::Nullify { round } => {
            let (epoch, view) = numbers(round);
            Vote::Nullify { epoch, view }
        }
        Subject::Finalize { proposal } => {
            let ((epoch, view), parent) = (numbers(proposal.round), proposal.parent.get());
            Vote::Finalize { epoch, view, parent, payload: payload(&proposal.payload) }
        }
    }
}

/// Verifies signatures on a subject by the release's scheme.
fn verifier<'a>(scheme: &'a Scheme, subject: Subject<'a>) -> impl Fn(&Vote, u32, &[u8]) -> bool + 'a {
    move |_, signer, signature| {
        let signature = Signature(signature.try_into().expect("a signature of 64 bytes"));
        let attestation = Attestation { signer: Participant::new(signer), signature };
        scheme.verify_attestation(&mut Rng, subject, &attestation, &Sequential)
    }
}

/// Each signer of a certificate with its signature, ascending. How a certificate keeps them is its scheme's: this alone knows.
fn listed(certificate: &Certificate) -> Vec<(u32, &[u8])> {
    certificate.0.iter().map(|it| (it.signer.get(), it.signature.as_ref())).collect()
}

/// Writes activities as a stream.
struct Tap {
    scheme: Scheme,
    stream: Encoder,
}

impl Tap {
    fn vote(&mut self, subject: Subject<'_>, attestation: &Attestation) -> Result<(), Refused> {
        let (signer, signature) = (attestation.signer.get(), attestation.signature.as_ref());
        Ok(self.stream.vote(&vote_of(subject), signer, signature, &verifier(&self.scheme, subject))?)
    }

    fn certificate(&mut self, subject: Subject<'_>, certificate: &Certificate) -> Result<(), Refused> {
        Ok(self.stream.certificate(&vote_of(subject), &listed(certificate), &verifier(&self.scheme, subject))?)
    }

    fn certification(&mut self, subject: Subject<'_>, certificate: &Certificate) -> Result<(), Refused> {
        Ok(self.stream.certification(&vote_of(subject), &listed(certificate), &verifier(&self.scheme, subject))?)
    }

    fn notarize(&mut self, it: &Notarize) -> Result<(), Refused> {
        self.vote(Subject::Notarize { proposal: &it.proposal }, &it.attestation)
    }

    fn nullify(&mut self, it: &Nullify) -> Result<(), Refused> {
        self.vote(Subject::Nullify { round: it.round }, &it.attestation)
    }

    fn finalize(&mut self, it: &Finalize) -> Result<(), Refused> {
        self.vote(Subject::Finalize { proposal: &it.proposal }, &it.attestation)
    }

    /// Appends an activity. Evidence keeps its votes private, so they are read back from its encoding, in their order.
    fn activity(&mut self, activity: &Activity) -> Result<(), Refused> {
        match activity {
            Activity::Notarize(it) => self.notarize(it),
            Activity::Nullify(it) => self.nullify(it),
            Activity::Finalize(it) => self.finalize(it),
            Activity::Notarization(it) => self.certificate(Subject::Notarize { proposal: &it.proposal }, &it.certificate),
            Activity::Certification(it) => self.certification(Subject::Notarize { proposal: &it.proposal }, &it.certificate),
            Activity::Nullification(it) => self.certificate(Subject::Nullify { round: it.round }, &it.certificate),
            Activity::Finalization(it) => self.certificate(Subject::Finalize { proposal: &it.proposal }, &it.certificate),
            Activity::ConflictingNotarize(it) => {
                let mut bytes = it.encode();
                self.notarize(&Notarize::read(&mut bytes)?)?;
                self.notarize(&Notarize::read(&mut bytes)?)
            }
            Activity::ConflictingFinalize(it) => {
                let mut bytes = it.encode();
                self.finalize(&Finalize::read(&mut bytes)?)?;
                self.finalize(&Finalize::read(&mut bytes)?)
            }
            Activity::NullifyFinalize(it) => {
                let mut bytes = it.encode();
                self.nullify(&Nullify::read(&mut bytes)?)?;
                self.finalize(&Finalize::read(&mut bytes)?)
            }
        }
    }
}

/// What a reporter of a committee of four may be given: of view 10 two notarizations that contradict, votes and evidence, and
/// then the certificates of two honest views. A signature that begins with 0 is invalid.
fn activities() -> Vec<Activity> {
    let round_of = |view: u64| Round::new(Epoch::new(3), View::new(view));
    let round = round_of(10);
    let proposal = |payload: u8| Proposal { round, parent: View::new(5), payload: Digest([payload; 32]) };
    let signed = |signer: u32, first: u8| {
        let mut signature = [0; 64];
        signature[0] = first;
        Attestation { signer: Participant::new(signer), signature: Signature(signature) }
    };
    let notarize =
        |payload: u8, signer: u32, first: u8| Notarize { proposal: proposal(payload), attestation: signed(signer, first) };
    let finalize = |payload: u8, signer: u32| Finalize { proposal: proposal(payload), attestation: signed(signer, 1) };
    let nullify = |signer: u32| Nullify { round, attestation: signed(signer, 1) };
    let by = |signers: [u32; 3]| Certificate(signers.map(|signer| signed(signer, 1)).to_vec());
    let certified = |payload: u8, signers: [u32; 3]| Notarization { proposal: proposal(payload), certificate: by(signers) };
    let settled = Proposal { round: round_of(11), ..proposal(6) };
    vec![
        Activity::Notarize(notarize(6, 0, 1)),
        Activity::Notarize(notarize(8, 3, 0)),
        Activity::Notarization(certified(6, [0, 1, 2])),
        Activity::Certification(certified(7, [1, 2, 3])),
        Activity::Nullify(nullify(0)),
        Activity::Finalize(finalize(6, 3)),
        Activity::ConflictingNotarize(ConflictingNotarize::new(notarize(6, 1, 1), notarize(7, 1, 1))),
        Activity::ConflictingFinalize(ConflictingFinalize::new(finalize(6, 2), finalize(7, 2))),
        Activity::NullifyFinalize(NullifyFinalize::new(nullify(0), finalize(6, 0))),
        Activity::Finalization(Finalization { proposal: settled, certificate: by([0, 1, 3]) }),
        Activity::Nullification(Nullification { round: round_of(12), certificate: by([0, 2, 3]) }),
    ]
}

fn main() -> Result<(), Refused> {
    let mut tap = Tap { scheme: Scheme { participants: 4 }, stream: Encoder::new(Size::Bytes64) };
    for activity in activities() {
        tap.activity(&activity)?;
    }
    let committees = Committees::listed(Size::Bytes64, &[(3, tap.scheme.participants)])?;
    let report = audit(&committees, tap.stream.as_bytes())?;
    println!("{} messages", report.read);
    print!("{}", report.text);
    Ok(())
}
