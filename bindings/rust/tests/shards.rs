//! Audits in parts and in threads have the report of the whole stream.

use simplex_audit::shards::{
    audit_deferred_parallel, audit_parallel, audit_ranges, index, merge, ranges, Cut, Index, Range, Row,
};
use simplex_audit::{audit, audit_deferred, Committees, Deferred, Encoder, Error, Kind, Size, Verifier, Vote};
use std::collections::BTreeSet;
use std::num::{NonZeroU32, NonZeroUsize};
use std::panic::{catch_unwind, AssertUnwindSafe};
use std::sync::Mutex;

const SIZES: [Size; 3] = [Size::Bytes48, Size::Bytes64, Size::Bytes96];
const THREADS: [usize; 6] = [1, 2, 3, 4, 16, 64];
const PARTICIPANTS: u32 = 7;

fn every(_: &Vote, _: u32, _: &[u8]) -> bool {
    true
}

/// Accepts the signatures whose bytes are even.
fn even(_: &Vote, _: u32, signature: &[u8]) -> bool {
    signature[0] & 1 == 0
}

fn threads(number: usize) -> NonZeroUsize {
    NonZeroUsize::new(number).unwrap()
}

/// What a node has of some rounds of epochs 3 and 4, each round with liars of its own: votes in an order of the node's, and
/// certificates, of which those of each fifth round contradict.
fn log(size: Size, node: u32, verifier: &dyn Verifier) -> Vec<u8> {
    let mut stream = Encoder::new(size);
    for view in 1..=20 {
        for epoch in [4, 3] {
            put_round(&mut stream, epoch, view, node, verifier);
        }
    }
    stream.as_bytes().to_vec()
}

fn put_round(stream: &mut Encoder, epoch: u64, view: u64, node: u32, verifier: &dyn Verifier) {
    let notarize = |payload| Vote::Notarize { epoch, view, parent: view - 1, payload: [payload; 32] };
    let finalize = Vote::Finalize { epoch, view, parent: view - 1, payload: [6; 32] };
    let signature = |signer: u32| [(view as u8) ^ signer as u8, 9].repeat(stream.size().bytes() / 2);
    let all: Vec<_> = (0..PARTICIPANTS).map(|signer| (signer, signature(signer))).collect();
    let listed: Vec<(u32, &[u8])> = all.iter().map(|(signer, signature)| (*signer, signature.as_slice())).collect();
    let liar = (view % u64::from(PARTICIPANTS)) as u32;
    for i in 0..PARTICIPANTS {
        let signer = (i + node) % PARTICIPANTS;
        stream.vote(&notarize(6), signer, listed[signer as usize].1, verifier).unwrap();
        if signer == liar {
            stream.vote(&notarize(7), signer, listed[signer as usize].1, verifier).unwrap();
            stream.vote(&Vote::Nullify { epoch, view }, signer, listed[signer as usize].1, verifier).unwrap();
        }
    }
    stream.certificate(&finalize, &listed[..5], verifier).unwrap();
    if [5, 10, 15, 20].contains(&view) {
        stream.certification(&notarize(8), &listed[1..], verifier).unwrap();
        stream.certificate(&notarize(6), &listed[..6], verifier).unwrap();
    }
}

/// Streams, each with committees: whole, of three nodes, cut within a message, damaged within, and empty; of one committee and
/// of committees by epoch, in one of which nobody is accused who stands outside it.
fn streams(size: Size, verifier: &dyn Verifier) -> Vec<(Committees, Vec<u8>)> {
    let nodes: Vec<u8> = (0..3).flat_map(|node| log(size, node, verifier)).collect();
    let one = log(size, 0, verifier);
    let mut damaged = nodes.clone();
    damaged[nodes.len() / 2..][..500].fill(0xff);
    let streams = [nodes.clone(), one.clone(), one[..one.len() - 3].to_vec(), damaged, Vec::new(), vec![0xff]];
    let committees = [
        Committees::every(size, PARTICIPANTS).unwrap(),
        Committees::listed(size, &[(2, 1), (3, 4), (4, PARTICIPANTS)]).unwrap(),
        Committees::every(size, 3).unwrap(),
    ];
    committees.iter().flat_map(|one| streams.iter().map(move |stream| (one.clone(), stream.clone()))).collect()
}

fn cut(seed: u64, classes: u32) -> Cut {
    Cut { seed, classes: NonZeroU32::new(classes).unwrap() }
}

/// The ranges of all classes, and the fault.
fn shards(committees: &Committees, stream: &[u8], cut: &Cut) -> (Vec<Vec<Range>>, Option<usize>) {
    let Index { rows, fault } = index(committees, stream).unwrap();
    ((0..cut.classes.get()).map(|class| ranges(&rows, cut, class).unwrap()).collect(), fault)
}

#[test]
fn the_streams_have_what_is_tried() {
    let reports: Vec<_> =
        streams(Size::Bytes64, &every).iter().map(|(committees, stream)| audit(committees, stream).unwrap()).collect();
    assert!(reports.iter().filter(|report| report.fault.is_some()).count() > 3);
    assert!(reports.iter().filter(|report| !report.splits.is_empty()).count() > 3);
    let kinds: BTreeSet<_> = reports.iter().flat_map(|report| &report.evidence).map(|one| one.kind).collect();
    assert!(kinds.contains(&Kind::ConflictingNotarize) && kinds.contains(&Kind::NullifyFinalize));
}

#[test]
fn merged_reports_are_that_of_the_stream() {
    for size in SIZES {
        for (committees, stream) in streams(size, &every) {
            let report = audit(&committees, &stream).unwrap();
            for classes in [1, 2, 3, 16, 64] {
                let (shards, fault) = shards(&committees, &stream, &cut(u64::from(classes) << 60, classes));
                let mut reports: Vec<_> =
                    shards.iter().map(|ranges| audit_ranges(&committees, &stream, ranges).unwrap()).collect();
                assert!(reports.iter().all(|report| report.fault.is_none()));
                assert!(classes < 64 || reports.iter().any(|report| report.read == 0));
                reports.reverse();
                assert_eq!(merge(reports, fault), report);
            }
        }
    }
}

#[test]
fn threads_have_the_report_of_the_stream() {
    for size in SIZES {
        for (committees, stream) in streams(size, &every) {
            let report = audit(&committees, &stream).unwrap();
            for number in THREADS {
                assert_eq!(audit_parallel(&committees, &stream, threads(number)).unwrap(), report);
            }
        }
    }
}

#[test]
fn threads_verify_what_one_verifies() {
    for (committees, stream) in streams(Size::Bytes64, &Deferred) {
        let asked = Mutex::new(Vec::new());
        let verifier = |vote: &Vote, signer: u32, signature: &[u8]| {
            asked.lock().unwrap().push((*vote, signer, signature.to_vec()));
            even(vote, signer, signature)
        };
        let sorted = || {
            let mut calls: Vec<_> = asked.lock().unwrap().drain(..).map(|call| format!("{call:?}")).collect();
            calls.sort();
            calls
        };
        let report = audit_deferred(&committees, &stream, &verifier).unwrap();
        let calls = sorted();
        for number in THREADS {
            assert_eq!(audit_deferred_parallel(&committees, &stream, &verifier, threads(number)).unwrap(), report);
            assert_eq!(sorted(), calls);
        }
    }
}

#[test]
fn the_plain_scheme() {
    let committees = Committees::plain(b"test", &[[0; 32]]).unwrap();
    // a notarize, whose signature does not verify, and bytes behind it
    let vote = [&[0, 0, 10, 5][..], &[6; 32], &[0], &[9; 32]].concat();
    for stream in [vec![], vote.clone(), [&vote[..], &vote, &[0xff]].concat()] {
        let report = audit(&committees, &stream).unwrap();
        assert_eq!(index(&committees, &stream).unwrap().rows.len(), report.read);
        for number in THREADS {
            assert_eq!(audit_parallel(&committees, &stream, threads(number)).unwrap(), report);
            assert_eq!(audit_deferred_parallel(&committees, &stream, &every, threads(number)).unwrap(), report);
        }
        let (shards, fault) = shards(&committees, &stream, &cut(1, 5));
        assert_eq!(merge(shards.iter().map(|it| audit_ranges(&committees, &stream, it).unwrap()), fault), report);
    }
}

#[test]
fn rows_describe_messages() {
    for size in SIZES {
        let committees = Committees::every(size, PARTICIPANTS).unwrap();
        let signature = vec![9; size.bytes()];
        let listed: Vec<(u32, &[u8])> = (0..3).map(|signer| (signer, signature.as_slice())).collect();
        let mut stream = Encoder::new(size);
        stream.certificate(&Vote::Nullify { epoch: 300, view: 10 }, &listed, &every).unwrap();
        let first = stream.as_bytes().len();
        stream.vote(&Vote::Nullify { epoch: 1, view: u64::MAX }, 5, &signature, &every).unwrap();
        let length = stream.as_bytes().len() - first;
        let rows = [
            Row { epoch: 300, view: 10, place: 0, length: first, attestations: 3, kind: 4 },
            Row { epoch: 1, view: u64::MAX, place: first, length, attestations: 1, kind: 3 },
        ];
        assert_eq!(index(&committees, stream.as_bytes()), Ok(Index { rows: rows.to_vec(), fault: None }));
        let longer = [stream.as_bytes(), &[0xff; 9]].concat();
        assert_eq!(index(&committees, &longer).unwrap().fault, Some(first + length));
        // a certificate with a signer that is outside every committee is no message
        let fewer = Committees::every(size, 2).unwrap();
        assert_eq!(index(&fewer, stream.as_bytes()), Ok(Index { rows: Vec::new(), fault: Some(0) }));
    }
}

#[test]
fn each_message_is_in_the_ranges_of_its_class() {
    for (committees, stream) in streams(Size::Bytes48, &every) {
        for classes in [1, 2, 64] {
            let cut = cut(7, classes);
            let Index { rows, .. } = index(&committees, &stream).unwrap();
            for class in 0..classes {
                let ranges = ranges(&rows, &cut, class).unwrap();
                let of_class = rows.iter().filter(|row| cut.class_of(row.epoch, row.view) == class);
                let places: Vec<_> = of_class.flat_map(|row| row.place..row.place + row.length).collect();
                assert_eq!(ranges.iter().flat_map(|it| it.place..it.place + it.length).collect::<Vec<_>>(), places);
                assert!(ranges.windows(2).all(|pair| pair[0].place + pair[0].length < pair[1].place));
            }
        }
    }
}

#[test]
fn a_panic_of_the_verifier_is_passed_on() {
    let committees = Committees::every(Size::Bytes64, PARTICIPANTS).unwrap();
    let stream = log(Size::Bytes64, 0, &Deferred);
    let verifier = |vote: &Vote, _: u32, _: &[u8]| match vote {
        Vote::Nullify { view: 17, .. } => panic!("view 17"),
        _ => true,
    };
    for number in THREADS {
        let audited = || audit_deferred_parallel(&committees, &stream, &verifier, threads(number));
        let panic = catch_unwind(AssertUnwindSafe(audited)).unwrap_err();
        assert_eq!(panic.downcast_ref(), Some(&"view 17"));
    }
}

#[test]
fn what_is_refused() {
    let committees = Committees::every(Size::Bytes64, PARTICIPANTS).unwrap();
    let stream = log(Size::Bytes64, 0, &every);
    let rows = index(&committees, &stream).unwrap().rows;
    assert_eq!(ranges(&rows, &cut(0, 3), 3), Err(Error::Arguments));
    let beyond = Row { place: usize::MAX, length: 1, ..rows[0] };
    assert_eq!(ranges(&[beyond], &cut(0, 1), 0), Err(Error::Arguments));
    for (place, length) in [(stream.len(), 1), (0, stream.len() + 1), (usize::MAX, 1), (1, usize::MAX)] {
        assert_eq!(audit_ranges(&committees, &stream, &[Range { place, length }]), Err(Error::Arguments));
    }
    assert_eq!(audit_ranges(&committees, &stream, &[]).unwrap(), merge([], None));
    assert_eq!(audit_ranges(&committees, &stream, &[Range { place: stream.len(), length: 0 }]).unwrap(), merge([], None));
    // ranges that cut a message have a fault, whose offset counts their bytes
    let (one, two) = (Range { place: rows[1].place, length: rows[1].length }, Range { place: 0, length: 3 });
    let report = audit_ranges(&committees, &stream, &[one, two]).unwrap();
    assert_eq!((report.read, report.fault), (1, Some(rows[1].length)));
}
