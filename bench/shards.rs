//! What `bench/shards` runs. `make SCHEME MEGABYTES` writes a stream of 100 participants to standard output.
//! `SCHEME CALL THREADS FILE` reads one, makes a call of the Rust crate, and prints how many seconds that took, how many
//! messages were read and lines found, and a hash of the lines. SCHEME is `plain` or `vouched`, CALL is `classes`, `audit`,
//! `deferred` or `by_hand`.

#[allow(dead_code)]
#[path = "by_hand.rs"]
mod by_hand;
#[cfg(ed25519)]
#[path = "../bindings/rust/examples/ed25519/key.rs"]
mod key;

use by_hand::{push_number, sha256};
use simplex_audit::shards::{Cut, audit_deferred_parallel, audit_parallel, class_ranges};
use simplex_audit::{Committees, Error, Report, Size, Verifier, Vote};
use std::io::Write;
use std::num::NonZeroUsize;
use std::time::Instant;

const PARTICIPANTS: u32 = 100;
const QUORUM: usize = 67;
/// In one round of so many a participant notarizes two payloads.
const LIES: u64 = 10;
const BASE: &[u8] = b"bench";
/// How many classes there are.
const CLASSES: u32 = 16;

/// The key of a participant, and the seed of its Ed25519 key.
fn key(signer: u32) -> [u8; 32] {
    std::array::from_fn(|i| if i < 28 { 0 } else { signer.to_be_bytes()[i - 28] })
}

/// How signatures are made, each as it stands in a stream.
enum Signers {
    Plain,
    #[cfg(ed25519)]
    Vouched(Vec<key::Key>),
    #[cfg(not(ed25519))]
    Vouched,
}

impl Signers {
    fn of(scheme: &str) -> Self {
        match scheme {
            "plain" => Signers::Plain,
            #[cfg(ed25519)]
            _ => Signers::Vouched((0..PARTICIPANTS).map(|signer| key::Key::of_seed(key(signer))).collect()),
            #[cfg(not(ed25519))]
            _ => Signers::Vouched,
        }
    }

    /// The plain scheme hashes the namespace, the key and the message. Ed25519 signs where a deferred audit verifies, in the
    /// rounds with a lie; elsewhere there are zeros. Each verdict is 01.
    fn sign(&self, signed: &[u8], signer: u32, is_lie: bool) -> Vec<u8> {
        let name = 1 + usize::from(signed[0]);
        match self {
            Signers::Plain => sha256(&[&signed[..name], &key(signer), &signed[name..]].concat()).to_vec(),
            #[cfg(ed25519)]
            Signers::Vouched(keys) if is_lie => [&keys[signer as usize].sign(signed)[..], &[1]].concat(),
            _ => [&[u8::from(is_lie); 64][..], &[1]].concat(),
        }
    }
}

#[cfg(ed25519)]
impl Verifier for Signers {
    fn verify(&self, vote: &Vote, signer: u32, signature: &[u8]) -> bool {
        match self {
            Signers::Plain => false,
            Signers::Vouched(keys) => keys[signer as usize].verifies(&vote.signed_bytes(BASE), signature),
        }
    }
}

#[cfg(not(ed25519))]
impl Verifier for Signers {
    fn verify(&self, _: &Vote, _: u32, signature: &[u8]) -> bool {
        signature[0] == 1
    }
}

/// Appends what one node has of votes of one kind in a round: each participant's, and the certificate by a quorum of them.
fn put_votes(bytes: &mut Vec<u8>, signers: &Signers, tag: u8, vote: &Vote, is_lie: bool) {
    let signed = vote.signed_bytes(BASE);
    let message = &signed[1 + usize::from(signed[0])..];
    let mut listed = Vec::new();
    for signer in 0..PARTICIPANTS {
        let mut attestation = Vec::new();
        push_number(&mut attestation, u64::from(signer));
        attestation.extend(signers.sign(&signed, signer, is_lie));
        bytes.push(tag);
        bytes.extend_from_slice(message);
        bytes.extend_from_slice(&attestation);
        listed.push(attestation);
    }
    bytes.push(tag + 1);
    bytes.extend_from_slice(message);
    push_number(bytes, QUORUM as u64);
    bytes.extend(listed[..QUORUM].concat());
}

/// A round: notarizes and their notarization, perhaps a second notarize of one participant, finalizes and their finalization.
fn put_round(bytes: &mut Vec<u8>, signers: &Signers, view: u64) {
    let (epoch, parent, is_lie) = (0, view - 1, view % LIES == 0);
    let payload = sha256(&view.to_be_bytes());
    put_votes(bytes, signers, 0, &Vote::Notarize { epoch, view, parent, payload }, is_lie);
    if is_lie {
        let liar = (view / LIES % u64::from(PARTICIPANTS)) as u32;
        let signed = Vote::Notarize { epoch, view, parent, payload: sha256(&payload) }.signed_bytes(BASE);
        bytes.push(0);
        bytes.extend_from_slice(&signed[1 + usize::from(signed[0])..]);
        push_number(bytes, u64::from(liar));
        bytes.extend(signers.sign(&signed, liar, is_lie));
    }
    put_votes(bytes, signers, 5, &Vote::Finalize { epoch, view, parent, payload }, is_lie);
}

fn make(scheme: &str, megabytes: usize) {
    let (signers, mut to, mut left) = (Signers::of(scheme), std::io::stdout().lock(), megabytes * 1_000_000);
    for view in 1.. {
        let mut round = Vec::new();
        put_round(&mut round, &signers, view);
        to.write_all(&round).unwrap();
        left = left.saturating_sub(round.len());
        if left == 0 {
            break;
        }
    }
}

/// A committee whose signatures have verdicts, for the auditor by hand.
struct Verdicts;

impl by_hand::Scheme for Verdicts {
    fn signature_bytes(&self) -> usize {
        65
    }

    fn participants(&self) -> usize {
        PARTICIPANTS as usize
    }

    fn is_good(&self, _: &mut Vec<u8>, _: &by_hand::Subject, (_, signature): by_hand::Attestation) -> bool {
        signature[64] == 1
    }
}

/// The report of the auditor by hand, which is fed pieces as by a pipe.
fn audited_by_hand<S: by_hand::Scheme>(committee: S, stream: &[u8]) -> Report {
    let (mut auditor, mut held) = (by_hand::Auditor::new(by_hand::Committees::Every(committee)), Vec::new());
    for piece in stream.chunks(1 << 16) {
        held.extend_from_slice(piece);
        auditor.advance(&mut held);
    }
    Report { text: auditor.text(), read: auditor.read, ..nothing() }
}

fn nothing() -> Report {
    Report { evidence: Vec::new(), splits: Vec::new(), read: 0, fault: None, text: String::new() }
}

/// The report of a call, or of `classes` no more than how many messages were read.
fn called(scheme: &str, call: &str, threads: NonZeroUsize, stream: &[u8]) -> Result<Report, Error> {
    let keys: Vec<_> = (0..PARTICIPANTS).map(key).collect();
    if call == "by_hand" {
        return Ok(match scheme {
            "plain" => audited_by_hand(by_hand::plain(BASE, keys).unwrap(), stream),
            _ => audited_by_hand(Verdicts, stream),
        });
    }
    let committees = match scheme {
        "plain" => Committees::plain(BASE, &keys)?,
        _ => Committees::every(Size::Bytes64, PARTICIPANTS)?,
    };
    if call == "audit" {
        return audit_parallel(&committees, stream, threads);
    }
    if call == "deferred" {
        return audit_deferred_parallel(&committees, stream, &Signers::of(scheme), threads);
    }
    let found = class_ranges(&committees, stream, &Cut::random(CLASSES.try_into().unwrap()))?;
    Ok(Report { read: found.read, fault: found.fault, ..nothing() })
}

fn main() {
    let words: Vec<String> = std::env::args().skip(1).collect();
    match &words.iter().map(String::as_str).collect::<Vec<_>>()[..] {
        ["make", scheme, megabytes] => make(scheme, megabytes.parse().unwrap()),
        [scheme, call, threads, file] => {
            let stream = std::fs::read(file).unwrap();
            let start = Instant::now();
            let report = called(scheme, call, threads.parse().unwrap(), &stream).unwrap();
            let seconds = start.elapsed().as_secs_f64();
            assert_eq!(report.fault, None);
            let hash = by_hand::sha256(report.text.as_bytes());
            let lines = report.text.lines().count();
            println!("{seconds} {} {lines} {:02x}{:02x}", report.read, hash[0], hash[1]);
        }
        _ => panic!("make SCHEME MEGABYTES, or SCHEME CALL THREADS FILE"),
    }
}
