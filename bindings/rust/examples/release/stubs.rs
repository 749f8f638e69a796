//! Stubs of the release's types: the names, the public fields and the methods that `main.rs` uses, in the shape that the
//! release's source has them, and behind them no more than a demonstration needs. A signature is valid here if its first byte
//! is 1. The release's types are generic over a scheme and a digest, which are fixed here.

macro_rules! number {
    ($name:ident, $inner:ty) => {
        #[derive(Clone, Copy, PartialEq, Eq)]
        pub struct $name($inner);

        impl $name {
            pub const fn new(number: $inner) -> Self {
                Self(number)
            }

            pub const fn get(self) -> $inner {
                self.0
            }
        }
    };
}

number!(Epoch, u64);
number!(View, u64);
number!(Participant, u32);

#[derive(Clone, Copy, PartialEq, Eq)]
pub struct Round {
    epoch: Epoch,
    view: View,
}

impl Round {
    pub const fn new(epoch: Epoch, view: View) -> Self {
        Self { epoch, view }
    }

    pub const fn epoch(self) -> Epoch {
        self.epoch
    }

    pub const fn view(self) -> View {
        self.view
    }
}

/// A digest of 32 bytes.
#[derive(Clone, Copy, PartialEq, Eq)]
pub struct Digest(pub [u8; 32]);

impl AsRef<[u8]> for Digest {
    fn as_ref(&self) -> &[u8] {
        &self.0
    }
}

/// A signature of 64 bytes.
#[derive(Clone, Copy)]
pub struct Signature(pub [u8; 64]);

impl AsRef<[u8]> for Signature {
    fn as_ref(&self) -> &[u8] {
        &self.0
    }
}

#[derive(Clone, Copy)]
pub struct Attestation {
    pub signer: Participant,
    pub signature: Signature,
}

#[derive(Clone, Copy)]
pub struct Proposal {
    pub round: Round,
    pub parent: View,
    pub payload: Digest,
}

/// What is signed.
#[derive(Clone, Copy)]
pub enum Subject<'a> {
    Notarize { proposal: &'a Proposal },
    Nullify { round: Round },
    Finalize { proposal: &'a Proposal },
}

/// A source of randomness and a strategy of verification, which the release's calls take.
pub struct Rng;
pub struct Sequential;

/// An attributable scheme. Its certificates list the attestations that they are made of.
pub struct Scheme {
    pub participants: u32,
}

pub struct Certificate(pub Vec<Attestation>);

impl Scheme {
    pub fn verify_attestation(&self, _: &mut Rng, _: Subject<'_>, attestation: &Attestation, _: &Sequential) -> bool {
        attestation.signer.get() < self.participants && attestation.signature.0[0] == 1
    }
}

#[derive(Clone, Copy)]
pub struct Notarize {
    pub proposal: Proposal,
    pub attestation: Attestation,
}

#[derive(Clone, Copy)]
pub struct Nullify {
    pub round: Round,
    pub attestation: Attestation,
}

#[derive(Clone, Copy)]
pub struct Finalize {
    pub proposal: Proposal,
    pub attestation: Attestation,
}

pub struct Notarization {
    pub proposal: Proposal,
    pub certificate: Certificate,
}

pub struct Nullification {
    pub round: Round,
    pub certificate: Certificate,
}

pub struct Finalization {
    pub proposal: Proposal,
    pub certificate: Certificate,
}

/// Evidence keeps both of its votes private. Its encoding is theirs, one behind the other.
macro_rules! evidence {
    ($name:ident, $first:ident, $second:ident) => {
        pub struct $name($first, $second);

        impl $name {
            pub fn new(first: $first, second: $second) -> Self {
                Self(first, second)
            }

            pub fn encode(&self) -> Encoded {
                Encoded(vec![Item::$first(self.0), Item::$second(self.1)].into_iter())
            }
        }
    };
}

evidence!(ConflictingNotarize, Notarize, Notarize);
evidence!(ConflictingFinalize, Finalize, Finalize);
evidence!(NullifyFinalize, Nullify, Finalize);

/// Stands for encoded bytes: what is read of them are the values that were written.
pub struct Encoded(std::vec::IntoIter<Item>);

enum Item {
    Notarize(Notarize),
    Nullify(Nullify),
    Finalize(Finalize),
}

#[derive(Debug)]
pub struct CodecError;

impl std::fmt::Display for CodecError {
    fn fmt(&self, f: &mut std::fmt::Formatter<'_>) -> std::fmt::Result {
        f.write_str("another item was encoded")
    }
}

impl std::error::Error for CodecError {}

macro_rules! read {
    ($name:ident) => {
        impl $name {
            pub fn read(reader: &mut Encoded) -> Result<Self, CodecError> {
                match reader.0.next() {
                    Some(Item::$name(value)) => Ok(value),
                    _ => Err(CodecError),
                }
            }
        }
    };
}

read!(Notarize);
read!(Nullify);
read!(Finalize);

pub enum Activity {
    Notarize(Notarize),
    Notarization(Notarization),
    Certification(Notarization),
    Nullify(Nullify),
    Nullification(Nullification),
    Finalize(Finalize),
    Finalization(Finalization),
    ConflictingNotarize(ConflictingNotarize),
    ConflictingFinalize(ConflictingFinalize),
    NullifyFinalize(NullifyFinalize),
}
