//! What all public types are: values that threads may share and send to each other, and errors as `dyn Error`.

use simplex_audit::shards::{Classes, Cut, Index, Range, Row};
use simplex_audit::{
    Accusation, Attestation, Committees, Deferred, Encoder, Error, Evidence, Kind, Ledger, Message, Monitor, Record, Refusal,
    Report, SignedVote, Size, Split, Verifier, Vote,
};
use std::collections::BTreeSet;
use std::path::Path;

/// Compiles for a type that is `Send`, `Sync` and `Debug`, and borrows nothing.
const fn shared<T: Send + Sync + std::fmt::Debug + 'static>() {}

macro_rules! shared {
    ($($name:ident)*) => {
        const SHARED: &[&str] = &[$(stringify!($name)),*];
        const _: () = { $(shared::<$name>();)* };
    };
}

shared! {
    Accusation Attestation Classes Committees Cut Deferred Encoder Error Evidence Index Kind Ledger Message Monitor Range Record
    Refusal Report Row SignedVote Size Split Vote
}

/// The names of the structures and enumerations that the crate's sources make public.
fn declared() -> BTreeSet<String> {
    let sources = std::fs::read_dir(Path::new(env!("CARGO_MANIFEST_DIR")).join("src")).unwrap();
    let texts = sources.map(|source| std::fs::read_to_string(source.unwrap().path()).unwrap());
    let of = |line: &str| {
        let name = line.strip_prefix("pub struct ").or_else(|| line.strip_prefix("pub enum "))?;
        name.split(|letter: char| !letter.is_alphanumeric()).next().map(str::to_owned)
    };
    texts.flat_map(|text| text.lines().filter_map(of).collect::<Vec<_>>()).collect()
}

#[test]
fn threads_share_all_public_types() {
    assert_eq!(declared(), SHARED.iter().map(|name| name.to_string()).collect());
}

#[test]
fn verifiers_are_objects() {
    let closure = |_: &Vote, _: u32, _: &[u8]| true;
    let verifiers: [&(dyn Verifier + Sync); 2] = [&closure, &Deferred];
    let vote = Vote::Nullify { epoch: 3, view: 10 };
    assert_eq!(verifiers.map(|verifier| verifier.verify(&vote, 0, &[0; 64])), [true, false]);
}

#[test]
fn errors_are_boxed() {
    let boxed: Box<dyn std::error::Error + Send + Sync> = Error::OutOfMemory.into();
    assert_eq!(boxed.to_string(), "out of memory");
    assert_eq!(boxed.downcast_ref(), Some(&Error::OutOfMemory));
}
