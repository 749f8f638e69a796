//! The proved auditor of `simplex_messages`: it reads a stream of consensus messages and reports exactly the participants who
//! signed two contradictory votes. The caller verifies signatures by a library of its own ([`Verifier`]). A node feeds a stream
//! as it comes ([`Monitor`]), and streams can be audited in parts and in threads ([`shards`]).
//!
//! ```
//! use simplex_audit::{audit, Committees, Encoder, Size, Vote};
//!
//! let mut stream = Encoder::new(Size::Bytes64);
//! // Participant 2 votes for two payloads in one round. Here every signature is taken to be valid.
//! for payload in [[6; 32], [7; 32]] {
//!     let vote = Vote::Notarize { epoch: 3, view: 10, parent: 5, payload };
//!     stream.vote(&vote, 2, &[0; 64], &|_: &Vote, _: u32, _: &[u8]| true)?;
//! }
//! let report = audit(&Committees::every(Size::Bytes64, 4)?, stream.as_bytes())?;
//! assert_eq!(report.evidence.len(), 1);
//! assert_eq!((report.evidence[0].view, report.evidence[0].signer), (10, 2));
//! assert_eq!(report.fault, None);
//! # Ok::<(), simplex_audit::Error>(())
//! ```

mod bounds;
mod committees;
mod deferred;
mod encoder;
mod error;
mod exports;
mod ffi;
mod ledger;
mod messages;
mod monitor;
mod records;
mod report;

pub mod shards;
pub mod views;

pub use committees::{Committees, Size};
pub use deferred::{audit_deferred, Deferred};
pub use encoder::{Encoder, Verifier, Vote};
pub use error::{Error, Refusal};
pub use ledger::Ledger;
pub use messages::{read_message, verify_evidence, Accusation, Attestation, Message};
pub use monitor::Monitor;
pub use records::{new_records, records, Record, SignedVote};
pub use report::{audit, Evidence, Kind, Report, Split};

/// The version of the library's calls.
pub fn version() -> u32 {
    ffi::version()
}

#[cfg(doctest)]
#[doc = include_str!("../README.md")]
struct Readme;
