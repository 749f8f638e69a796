//! A monitor tells the evidence of the whole stream, however it is cut and however often it is made again.

use simplex_audit::{audit, read_message, Committees, Deferred, Encoder, Error, Evidence, Monitor, Size, Verifier, Vote};
use std::cell::Cell;
use std::collections::BTreeSet;

const PARTICIPANTS: u32 = 4;

/// Numbers that are drawn from a seed.
struct Chance(u64);

impl Chance {
    fn below(&mut self, n: u64) -> u64 {
        self.0 = self.0.wrapping_mul(6_364_136_223_846_793_005).wrapping_add(1_442_695_040_888_963_407);
        (self.0 >> 33) % n
    }
}

/// Accepts the signatures that begin with 1.
fn first(_: &Vote, _: u32, signature: &[u8]) -> bool {
    signature[0] == 1
}

fn committees() -> Committees {
    Committees::every(Size::Bytes64, PARTICIPANTS).unwrap()
}

fn vote(chance: &mut Chance) -> Vote {
    let (epoch, view, payload) = (3, 1 + chance.below(5), [chance.below(3) as u8; 32]);
    match chance.below(3) {
        0 => Vote::Notarize { epoch, view, parent: 0, payload },
        1 => Vote::Nullify { epoch, view },
        _ => Vote::Finalize { epoch, view, parent: 0, payload },
    }
}

/// Votes and some certificates, each signature valid or not.
fn messages(chance: &mut Chance, count: u64) -> Vec<u8> {
    let mut stream = Encoder::new(Size::Bytes64);
    let verifier: &dyn Verifier = &first;
    for _ in 0..count {
        let vote = vote(chance);
        if chance.below(5) == 0 {
            let signatures: Vec<[u8; 64]> = (0..3).map(|_| [(chance.below(9) != 0) as u8; 64]).collect();
            let listed: Vec<(u32, &[u8])> = (0..).zip(signatures.iter().map(|it| it.as_slice())).collect();
            stream.certificate(&vote, &listed, verifier).unwrap();
        } else {
            let signature = [(chance.below(5) != 0) as u8; 64];
            stream.vote(&vote, chance.below(u64::from(PARTICIPANTS) + 1) as u32, &signature, verifier).unwrap();
        }
    }
    stream.as_bytes().to_vec()
}

fn cut(chance: &mut Chance, mut stream: &[u8]) -> Vec<Vec<u8>> {
    let mut pieces = Vec::new();
    while !stream.is_empty() {
        let (piece, rest) = stream.split_at(stream.len().min(1 + chance.below(500) as usize));
        pieces.push(piece.to_vec());
        stream = rest;
    }
    pieces
}

fn lines(evidence: &[Evidence]) -> BTreeSet<String> {
    evidence.iter().map(|it| it.line.clone()).collect()
}

#[test]
fn what_is_told_is_the_evidence_of_the_whole() {
    for seed in 0..200 {
        let chance = &mut Chance(seed);
        let count = chance.below(60);
        let stream = messages(chance, count);
        let (mut monitor, mut told) = (Monitor::new(&committees()).unwrap(), Vec::new());
        for piece in cut(chance, &stream) {
            told.extend(monitor.feed(&piece).unwrap());
        }
        let whole = audit(&committees(), &stream).unwrap();
        assert_eq!(told.len(), whole.evidence.len());
        assert_eq!(lines(&told), lines(&whole.evidence));
        assert_eq!(monitor.report().unwrap(), whole);
        let views: BTreeSet<u64> = monitor.take_splits().iter().map(|it| it.view).collect();
        assert_eq!(views, whole.splits.iter().map(|it| it.view).collect());
    }
}

#[test]
fn a_restart_forgets_nothing() {
    for seed in 0..200 {
        let chance = &mut Chance(seed);
        let stream = messages(chance, 40);
        let (mut held, mut told) = (Vec::new(), BTreeSet::new());
        for piece in cut(chance, &stream) {
            let mut monitor = Monitor::resume(&committees(), &held).unwrap();
            told.append(&mut lines(&monitor.feed(&piece).unwrap()));
            held = monitor.held().unwrap();
        }
        assert_eq!(told, lines(&audit(&committees(), &stream).unwrap().evidence));
    }
}

#[test]
fn what_is_held_is_bounded_by_a_floor() {
    let chance = &mut Chance(1);
    let stream = messages(chance, 300);
    let mut monitor = Monitor::new(&committees()).unwrap();
    monitor.prune(3, 3);
    let told = monitor.feed(&stream).unwrap();
    let wanted: Vec<Evidence> = audit(&committees(), &stream).unwrap().evidence.into_iter().filter(|it| it.view >= 3).collect();
    assert_eq!(lines(&told), lines(&wanted));
    monitor.prune(3, 2);
    let held = monitor.held().unwrap().len();
    for _ in 0..50 {
        assert_eq!(monitor.feed(&stream).unwrap(), []);
    }
    assert_eq!(monitor.held().unwrap().len(), held);
    monitor.prune(4, 0);
    assert_eq!((monitor.held().unwrap(), monitor.votes().unwrap()), (Vec::new(), 0));
}

#[test]
fn nothing_is_read_behind_a_fault() {
    let mut monitor = Monitor::new(&committees()).unwrap();
    assert_eq!(monitor.feed(&[0xff]).unwrap(), []);
    assert_eq!(monitor.feed(&[0xff]), Err(Error::Arguments));
    assert_eq!(monitor.report().unwrap().fault, Some(0));
    assert_eq!(Monitor::resume(&committees(), &[0xff]).err(), Some(Error::Arguments));
    let mut plain = Monitor::new(&Committees::plain(b"test", &[[0; 32]]).unwrap()).unwrap();
    assert_eq!(plain.votes().unwrap(), 0);
}

/// A network's votes, each from three nodes and then in certificates, in pieces cut anywhere: each vote is verified once.
#[test]
fn each_vote_is_verified_once() {
    let mut stream = Encoder::new(Size::Bytes64);
    for view in 1..=20 {
        let vote = Vote::Notarize { epoch: 3, view, parent: view - 1, payload: [6; 32] };
        let signatures: Vec<[u8; 64]> = (0..PARTICIPANTS).map(|signer| [1 + signer as u8; 64]).collect();
        for _ in 0..3 {
            for (signer, signature) in (0..).zip(&signatures) {
                stream.vote(&vote, signer, signature, &Deferred).unwrap();
            }
            let listed: Vec<(u32, &[u8])> = (0..).zip(signatures.iter().map(|it| it.as_slice())).collect();
            stream.certificate(&vote, &listed, &Deferred).unwrap();
        }
    }
    let verified = Cell::new(0);
    let verifier = |_: &Vote, _: u32, _: &[u8]| {
        verified.set(verified.get() + 1);
        true
    };
    let (chance, mut monitor) = (&mut Chance(1), Monitor::new(&committees()).unwrap());
    for piece in cut(chance, stream.as_bytes()) {
        assert_eq!(monitor.feed_unverified(&piece, &verifier).unwrap(), []);
    }
    assert!(monitor.unfed().is_empty());
    assert_eq!((monitor.votes().unwrap(), verified.get()), (20 * PARTICIPANTS as usize, 20 * PARTICIPANTS as usize));
    // behind a floor nothing is verified
    monitor.prune(4, 0);
    assert_eq!(monitor.feed_unverified(stream.as_bytes(), &verifier).unwrap(), []);
    assert_eq!(verified.get(), 20 * PARTICIPANTS as usize);
}

/// The evidence is that of a stream whose signatures were all verified before, whatever the verdicts are.
#[test]
fn deferred_pieces_have_the_same_evidence() {
    for seed in 0..200 {
        let chance = &mut Chance(seed);
        let count = chance.below(60);
        let stream = messages(chance, count);
        let (mut monitor, mut told) = (Monitor::new(&committees()).unwrap(), Vec::new());
        for piece in cut(chance, &without_verdicts(&stream)) {
            told.extend(monitor.feed_unverified(&piece, &first).unwrap());
        }
        let whole = audit(&committees(), &stream).unwrap();
        assert_eq!(lines(&told), lines(&whole.evidence));
        assert_eq!(monitor.report().unwrap(), whole);
    }
}

/// The stream with other verdicts.
fn without_verdicts(stream: &[u8]) -> Vec<u8> {
    let (mut other, mut at) = (stream.to_vec(), 0);
    while let Some(message) = read_message(&committees(), &stream[at..]).unwrap() {
        for attestation in &message.attestations {
            other[at + attestation.signature.end] ^= 1;
        }
        at += message.length;
    }
    other
}

#[test]
fn deferred_pieces_begin_with_a_message() {
    let stream = messages(&mut Chance(3), 10);
    let mut monitor = Monitor::new(&committees()).unwrap();
    monitor.feed(&stream[..9]).unwrap();
    assert_eq!(monitor.feed_unverified(&stream[9..], &first), Err(Error::Arguments));
    let mut monitor = Monitor::new(&committees()).unwrap();
    monitor.feed_unverified(&stream[..9], &first).unwrap();
    assert_eq!(monitor.unfed(), &stream[..9]);
    assert_eq!(monitor.feed(&stream[9..]), Err(Error::Arguments));
    // what starts no message is fed, and then nothing more is
    assert_eq!(monitor.feed_unverified(&stream[9..], &first).map(|_| ()), Ok(()));
    assert_eq!(monitor.feed_unverified(&[0xff], &first), Ok(Vec::new()));
    assert_eq!(monitor.feed_unverified(&[0], &first), Err(Error::Arguments));
    assert_eq!(monitor.report().unwrap().fault, Some(stream.len()));
}
