//! Streams that an `Encoder` writes, and what is refused.

use simplex_audit::{
    audit, audit_deferred, new_records, read_message, records, verify_evidence, version, views, Attestation, Committees,
    Deferred, Encoder, Error, Kind, Ledger, Refusal, SignedVote, Size, Split, Vote,
};
use std::cell::RefCell;
use std::error::Error as _;

const SIZES: [Size; 3] = [Size::Bytes48, Size::Bytes64, Size::Bytes96];

fn every(_: &Vote, _: u32, _: &[u8]) -> bool {
    true
}

/// A stream with two certificates of the signers 0 to 2 that contradict.
fn fork(size: Size, verifier: &dyn simplex_audit::Verifier) -> Encoder {
    let signature = vec![9; size.bytes()];
    let listed: Vec<(u32, &[u8])> = (0..3).map(|signer| (signer, signature.as_slice())).collect();
    let mut stream = Encoder::new(size);
    let payload = [6; 32];
    stream.certificate(&Vote::Nullify { epoch: 300, view: 10 }, &listed, verifier).unwrap();
    stream.certificate(&Vote::Finalize { epoch: 300, view: 10, parent: 5, payload }, &listed, verifier).unwrap();
    stream
}

/// Two notarizes of participant 0 that contradict, each as a message: with signatures of each size and under the plain scheme.
fn contradictions() -> Vec<(Committees, [Vec<u8>; 2])> {
    let by_epoch = Committees::plain_listed(b"test", &[(0, &[[9; 32], [0; 32]]), (7, &[[1; 32]])]).unwrap();
    let mut all = vec![(Committees::plain(b"test", &[[0; 32]]).unwrap(), plain_votes()), (by_epoch, plain_votes())];
    for size in SIZES {
        let votes = [[6; 32], [7; 32]].map(|payload| {
            let mut stream = Encoder::new(size);
            let vote = Vote::Notarize { epoch: 0, view: 10, parent: 5, payload };
            stream.vote(&vote, 0, &vec![9; size.bytes()], &every).unwrap();
            stream.as_bytes().to_vec()
        });
        all.push((Committees::every(size, 4).unwrap(), votes));
    }
    all
}

/// These votes under the plain scheme, of a key of 32 zero bytes. A signature, here in two halves, is the SHA-256 of the
/// namespace behind its length, of the key, and of the proposal.
fn plain_votes() -> [Vec<u8>; 2] {
    let signed = [
        (6, [0x8c6774d2f68c567d3d7099353ba7b9a7_u128, 0x3b4a3919f00bf8571c6cf14b8b0e1fbc]),
        (7, [0x85c5f612872154ca52e992a79aec3bfd, 0xc407bf2873f7f4372e33b4be6de3d71b]),
    ];
    signed.map(|(payload, halves)| {
        let signature = halves.map(u128::to_be_bytes).concat();
        [&[0, 0, 10, 5][..], &[payload; 32], &[0], &signature].concat()
    })
}

#[test]
fn certificates_that_contradict() {
    for size in SIZES {
        let committees = Committees::listed(size, &[(7, 9), (300, 4)]).unwrap();
        let report = audit(&committees, fork(size, &every).as_bytes()).unwrap();
        assert_eq!(report.splits, [Split { epoch: 300, view: 10, named: 3, least: 2 }]);
        assert!(report.evidence.iter().all(|one| one.kind == Kind::NullifyFinalize && one.epoch == 300 && one.view == 10));
        assert_eq!(report.evidence.iter().map(|one| one.signer).collect::<Vec<_>>(), [0, 1, 2]);
        assert_eq!((report.read, report.fault, report.text.lines().count()), (2, None, 4));
        // of another committee a quorum is more, and without a valid signature there is nothing
        let larger = Committees::every(size, 7).unwrap();
        assert!(audit(&larger, fork(size, &every).as_bytes()).unwrap().splits.is_empty());
        let none = audit(&committees, fork(size, &|_: &Vote, _: u32, _: &[u8]| false).as_bytes()).unwrap();
        assert_eq!((none.read, none.evidence.len(), none.splits.len()), (2, 0, 0));
    }
}

#[test]
fn places_of_votes() {
    for size in SIZES {
        let committees = Committees::listed(size, &[(7, 9), (300, 4)]).unwrap();
        let stream = fork(size, &every);
        let report = audit(&committees, stream.as_bytes()).unwrap();
        let found = records(&committees, stream.as_bytes()).unwrap();
        // the finalization stands behind the nullification: tag, round and count, and three signers, signatures and verdicts
        let second = 5 + 3 * (2 + size.bytes());
        let places: Vec<_> = found.iter().map(|one| (one.first_place, one.second_place)).collect();
        assert_eq!(places, [(0, second); 3]);
        let plain: Vec<_> = found.iter().map(|one| (one.epoch, one.view, one.signer, one.kind)).collect();
        assert_eq!(plain, report.evidence.iter().map(|one| (one.epoch, one.view, one.signer, one.kind)).collect::<Vec<_>>());
        // behind another copy of the votes the places stay
        let twice = [stream.as_bytes(), stream.as_bytes(), &[0xff]].concat();
        assert_eq!(records(&committees, &twice).unwrap(), found);
        assert_eq!(records(&committees, &[]).unwrap(), []);
    }
    assert_eq!(records(&Committees::plain(b"test", &[[0; 32]]).unwrap(), &[0xff]), Ok(Vec::new()));
}

/// The first message that carries a vote also holds another vote of the signer, or votes of others, that are invalid.
#[test]
fn records_hold_both_votes() {
    for size in SIZES {
        let committees = Committees::every(size, 300).unwrap();
        let signature = vec![9; size.bytes()];
        let message = |vote: &Vote, verdict: bool| {
            let mut stream = Encoder::new(size);
            stream.vote(vote, 200, &signature, &|_: &Vote, _: u32, _: &[u8]| verdict).unwrap();
            stream.as_bytes().to_vec()
        };
        let whole = |vote: Vote| SignedVote {
            vote,
            signer: 200,
            signature: signature.clone(),
            verdict: Some(1),
            message: message(&vote, true),
        };
        let notarize = |payload| Vote::Notarize { epoch: 300, view: 10, parent: 1 << 40, payload: [payload; 32] };
        let (vote, other) = (notarize(6), notarize(7));
        let (valid, invalid) = (message(&vote, true), message(&other, false));
        for (first, second) in [(&valid, &invalid), (&invalid, &valid)] {
            let evidence = [&[7], &first[1..], &second[1..]].concat();
            let found = records(&committees, &[&evidence[..], &message(&other, true)].concat()).unwrap();
            assert_eq!((found.len(), found[0].first_place, found[0].second_place), (1, 0, evidence.len()));
            assert_eq!((&found[0].first, &found[0].second), (&whole(vote), &whole(other)));
        }
        let (nullify, finalize) =
            (Vote::Nullify { epoch: 300, view: 10 }, Vote::Finalize { epoch: 300, view: 10, parent: 5, payload: [0; 32] });
        let mut certificate = Encoder::new(size);
        let listed = [127, 200, 299].map(|signer| (signer, &signature[..]));
        certificate.certificate(&finalize, &listed, &|_: &Vote, signer: u32, _: &[u8]| signer == 200).unwrap();
        let front = message(&finalize, false);
        let stream = [&front[..], certificate.as_bytes(), &message(&nullify, true)].concat();
        let found = records(&committees, &stream).unwrap();
        let places = (front.len() + certificate.as_bytes().len(), front.len());
        assert_eq!((found.len(), found[0].first_place, found[0].second_place), (1, places.0, places.1));
        assert_eq!((&found[0].first, &found[0].second), (&whole(nullify), &whole(finalize)));
    }
}

#[test]
fn the_votes_of_records_prove_it() {
    for (committees, votes) in contradictions() {
        let stream = votes.concat();
        let found = records(&committees, &stream).unwrap();
        assert_eq!(found.len(), 1);
        let (first, second) = (&found[0].first, &found[0].second);
        assert_eq!([&first.message[..], &second.message].concat(), stream);
        for one in [first, second] {
            let read = read_message(&committees, &one.message).unwrap().unwrap();
            let Attestation { vote, signer, signature } = &read.attestations[0];
            assert_eq!((&one.vote, one.signer, &one.signature[..]), (vote, *signer, &one.message[signature.clone()]));
        }
    }
}

#[test]
fn what_is_signed() {
    let payload = [6; 32];
    let proposal = [&[0xac, 2, 10, 5][..], &payload].concat();
    let votes = [
        (Vote::Notarize { epoch: 300, view: 10, parent: 5, payload }, &b"\x0dtest_NOTARIZE"[..], &proposal[..]),
        (Vote::Nullify { epoch: 300, view: 10 }, b"\x0ctest_NULLIFY", &[0xac, 2, 10]),
        (Vote::Finalize { epoch: 300, view: 10, parent: 5, payload }, b"\x0dtest_FINALIZE", &proposal),
    ];
    for (vote, name, message) in votes {
        assert_eq!(vote.signed_bytes(b"test"), [name, message].concat());
    }
    // a namespace of more than 127 bytes
    let base = [b'n'; 120];
    let vote = Vote::Nullify { epoch: 3, view: 10 };
    assert_eq!(vote.signed_bytes(&base), [&[0x80, 1][..], &base, b"_NULLIFY", &[3, 10]].concat());
}

#[test]
fn deferred_certificates() {
    for size in SIZES {
        let committees = Committees::listed(size, &[(7, 9), (300, 4)]).unwrap();
        let mut stream = Encoder::new(size);
        let honest = Vote::Finalize { epoch: 300, view: 9, parent: 1 << 40, payload: [5; 32] };
        let signature = vec![8; size.bytes()];
        stream.certificate(&honest, &[(0, &signature), (1, &signature)], &Deferred).unwrap();
        let asked = RefCell::new(Vec::new());
        let verifier = |vote: &Vote, signer: u32, signature: &[u8]| {
            asked.borrow_mut().push((*vote, signer, signature.to_vec()));
            true
        };
        let report = audit_deferred(&committees, stream.as_bytes(), &verifier).unwrap();
        assert_eq!((report.read, report.text.as_str(), asked.borrow().len()), (1, "", 0));
        let bytes = [stream.as_bytes(), fork(size, &Deferred).as_bytes()].concat();
        let report = audit_deferred(&committees, &bytes, &verifier).unwrap();
        assert_eq!(report.text, audit(&committees, fork(size, &every).as_bytes()).unwrap().text);
        let mut wanted = Vec::new();
        let finalize = Vote::Finalize { epoch: 300, view: 10, parent: 5, payload: [6; 32] };
        for vote in [Vote::Nullify { epoch: 300, view: 10 }, finalize] {
            wanted.extend((0..3).map(|signer| (vote, signer, vec![9; size.bytes()])));
        }
        assert_eq!(*asked.borrow(), wanted);
        // nothing is valid that does not verify, whatever stands in the stream
        let none = |_: &Vote, _: u32, _: &[u8]| false;
        assert_eq!(audit_deferred(&committees, fork(size, &every).as_bytes(), &none).unwrap().text, "");
    }
}

#[test]
fn many_suspects() {
    let mut stream = Encoder::new(Size::Bytes64);
    for signer in 0..100 {
        for payload in [[6; 32], [7; 32]] {
            let vote = Vote::Notarize { epoch: u64::MAX, view: u64::MAX, parent: u64::MAX, payload };
            stream.vote(&vote, signer, &[9; 64], &Deferred).unwrap();
        }
    }
    let committees = Committees::every(Size::Bytes64, 100).unwrap();
    let report = audit_deferred(&committees, stream.as_bytes(), &every).unwrap();
    assert_eq!((report.evidence.len(), report.read), (100, 200));
}

#[test]
fn many_lines() {
    let mut stream = Encoder::new(Size::Bytes64);
    for signer in 0..100 {
        for payload in [[6; 32], [7; 32]] {
            let vote = Vote::Notarize { epoch: u64::MAX, view: u64::MAX, parent: 5, payload };
            stream.vote(&vote, signer, &[9; 64], &every).unwrap();
        }
    }
    let committees = Committees::every(Size::Bytes64, 100).unwrap();
    let report = audit(&committees, stream.as_bytes()).unwrap();
    assert_eq!((report.evidence.len(), report.read), (100, 200));
    let length = stream.as_bytes().len();
    let found = records(&committees, stream.as_bytes()).unwrap();
    let (first, last) = (found.first().unwrap(), found.last().unwrap());
    assert_eq!((found.len(), first.first_place, last.second_place), (100, 0, length - length / 200));
    let mut ledger = Ledger::resume(committees, Vec::new()).unwrap();
    ledger.feed(stream.as_bytes()).unwrap();
    assert_eq!(ledger.report().unwrap().text, report.text);
    let stored = ledger.stored().to_vec();
    ledger.feed(&[]).unwrap();
    assert_eq!(ledger.stored(), stored);
}

#[test]
fn what_was_stored_stays() {
    for (committees, [one, other]) in contradictions() {
        let mut ledger = Ledger::resume(committees, Vec::new()).unwrap();
        ledger.feed(&[&one[..], &other].concat()).unwrap();
        let stored = ledger.stored().to_vec();
        assert_eq!(ledger.report().unwrap().evidence.len(), 1);
        // a batch that begins with no message, and one that has the same votes in the other order
        for batch in [vec![0xff], [other, one].concat()] {
            ledger.feed(&batch).unwrap();
            assert_eq!(ledger.stored(), stored);
        }
    }
}

#[test]
fn batches_of_their_own_rounds() {
    for size in SIZES {
        let committees = Committees::every(size, 4).unwrap();
        let (mut one_ledger, mut appended) = (Ledger::resume(committees.clone(), Vec::new()).unwrap(), Vec::new());
        for view in [11, 10, 12] {
            let mut batch = Encoder::new(size);
            let (epoch, parent, payload) = (3, 5, [6; 32]);
            for vote in [Vote::Nullify { epoch, view }, Vote::Finalize { epoch, view, parent, payload }] {
                batch.vote(&vote, 2, &vec![9; size.bytes()], &every).unwrap();
            }
            one_ledger.feed(batch.as_bytes()).unwrap();
            let mut ledger = Ledger::resume(committees.clone(), Vec::new()).unwrap();
            ledger.feed(batch.as_bytes()).unwrap();
            appended.extend_from_slice(ledger.stored());
        }
        let report = Ledger::resume(committees, appended).unwrap().report().unwrap();
        assert_eq!(report, one_ledger.report().unwrap());
        assert_eq!(report.evidence.iter().map(|one| one.view).collect::<Vec<_>>(), [10, 11, 12]);
    }
}

#[test]
fn a_fork_of_65_536_participants() {
    let (size, n) = (Size::Bytes64, 65_536);
    let (committees, quorum) = (Committees::every(size, n).unwrap(), views::quorum(n));
    assert_eq!((views::max_faults(n), quorum), (21_845, 43_691));
    let fork = |first: std::ops::Range<u32>, second: std::ops::Range<u32>| {
        let mut stream = Encoder::new(size);
        for (payload, signers) in [([6; 32], first), ([7; 32], second)] {
            let listed: Vec<(u32, &[u8])> = signers.map(|signer| (signer, &[9; 64][..])).collect();
            stream.certificate(&Vote::Finalize { epoch: 3, view: 10, parent: 5, payload }, &listed, &every).unwrap();
        }
        stream.as_bytes().to_vec()
    };
    // two quorums that share f + 1 participants, up to the last participant
    let report = audit(&committees, &fork(0..quorum, n - quorum..n)).unwrap();
    assert_eq!(report.splits, [Split { epoch: 3, view: 10, named: 21_846, least: 21_846 }]);
    assert!(report.evidence.iter().map(|one| one.signer).eq(n - quorum..quorum));
    // a certificate of one signer fewer certifies nothing, and its votes count
    let report = audit(&committees, &fork(0..quorum, n - quorum + 1..n)).unwrap();
    assert_eq!((report.evidence.len(), report.splits.len()), (21_845, 0));
    // participant 65,536 is none, so what lists it is no message
    let report = audit(&committees, &fork(n - 1..n, n - 1..n + 1)).unwrap();
    assert_eq!((report.read, report.evidence.len(), report.fault), (1, 0, Some(37 + 3 + 65)));
}

#[test]
fn damaged_bytes_are_refused() {
    for (committees, votes) in contradictions() {
        let mut ledger = Ledger::resume(committees.clone(), Vec::new()).unwrap();
        ledger.feed(&votes.concat()).unwrap();
        let stored = ledger.stored();
        for damaged in [&[0xff][..], &stored[..stored.len() - 1], &[stored, &[0xff]].concat()] {
            assert_eq!(Ledger::resume(committees.clone(), damaged.to_vec()).err(), Some(Error::Arguments));
            assert_eq!(new_records(&committees, damaged, &votes.concat()), Err(Error::Arguments));
        }
        assert_eq!(Ledger::resume(committees, stored.to_vec()).unwrap().stored(), stored);
    }
}

#[test]
fn new_evidence_with_a_stored_vote() {
    let committees = Committees::every(Size::Bytes64, 4).unwrap();
    let batch = |votes: &[Vote]| {
        let mut stream = Encoder::new(Size::Bytes64);
        for vote in votes {
            stream.vote(vote, 2, &[9; 64], &every).unwrap();
        }
        stream.as_bytes().to_vec()
    };
    let finalize = |payload| Vote::Finalize { epoch: 3, view: 10, parent: 5, payload };
    let (one, other, nullify) = (finalize([6; 32]), finalize([7; 32]), Vote::Nullify { epoch: 3, view: 10 });
    for (first, behind, kind) in [(other, nullify, Kind::NullifyFinalize), (nullify, other, Kind::ConflictingFinalize)] {
        let mut ledger = Ledger::resume(committees.clone(), Vec::new()).unwrap();
        ledger.feed(&batch(&[one, first])).unwrap();
        let stored = ledger.stored();
        assert_eq!(new_records(&committees, stored, &batch(&[first, one])), Ok(Vec::new()));
        let new = new_records(&committees, stored, &batch(&[behind])).unwrap();
        let (first, second) = (new[0].first_place < stored.len(), new[0].second_place < stored.len());
        assert_eq!((new.len(), new[0].kind, first != second), (1, kind, true));
    }
    assert_eq!(new_records(&committees, &[0xff], &[]), Err(Error::Arguments));
}

#[test]
fn messages_are_read_again() {
    let committees = Committees::every(Size::Bytes96, 4).unwrap();
    let big = u64::MAX;
    let payload = [6; 32];
    let votes = [
        Vote::Notarize { epoch: big, view: 10, parent: 300, payload },
        Vote::Nullify { epoch: 3, view: big },
        Vote::Finalize { epoch: 127, view: 128, parent: big, payload },
    ];
    for (vote, [one, several]) in votes.iter().zip([[0, 1], [3, 4], [5, 6]]) {
        let mut stream = Encoder::new(Size::Bytes96);
        stream.vote(vote, 3, &[7; 96], &every).unwrap();
        let second = stream.as_bytes().len();
        stream.certificate(vote, &[(0, &[8; 96]), (2, &[9; 96])], &Deferred).unwrap();
        let first = read_message(&committees, stream.as_bytes()).unwrap().unwrap();
        assert_eq!((first.kind, first.length), (one, second));
        let Attestation { vote: read, signer, signature } = &first.attestations[0];
        assert_eq!((read, *signer, &stream.as_bytes()[signature.clone()]), (vote, 3, &[7; 96][..]));
        assert_eq!(stream.as_bytes()[signature.end], 1);
        let behind = &stream.as_bytes()[second..];
        let certificate = read_message(&committees, behind).unwrap().unwrap();
        assert_eq!((certificate.kind, certificate.length, certificate.attestations.len()), (several, behind.len(), 2));
        let last = &certificate.attestations[1];
        assert_eq!((&last.vote, last.signer, &behind[last.signature.clone()]), (vote, 2, &[9; 96][..]));
        assert_eq!(behind[last.signature.end], 0);
        assert_eq!(read_message(&committees, &behind[..behind.len() - 1]), Ok(None));
    }
    assert_eq!(read_message(&committees, &[]), Ok(None));
}

#[test]
fn evidence_by_itself() {
    for (committees, batches) in contradictions() {
        let mut ledger = Ledger::resume(committees.clone(), Vec::new()).unwrap();
        ledger.feed(&batches.concat()).unwrap();
        let report = ledger.report().unwrap();
        let it = verify_evidence(&committees, ledger.stored()).unwrap().unwrap();
        let of = &report.evidence[0];
        assert_eq!((it.epoch, it.view, it.signer, it.kind, it.proved), (of.epoch, of.view, of.signer, of.kind, true));
        let message = read_message(&committees, ledger.stored()).unwrap().unwrap();
        assert_eq!((message.attestations.len(), message.length), (2, ledger.stored().len()));
        assert_eq!(verify_evidence(&committees, &ledger.stored()[1..]), Ok(None));
        assert_eq!(verify_evidence(&committees, &batches[0]), Ok(None));
    }
}

#[test]
fn keys_by_epoch() {
    let stream = plain_votes().concat();
    let evidence = |listed: &[(u64, &[[u8; 32]])]| {
        let committees = Committees::plain_listed(b"test", listed).unwrap();
        audit(&committees, &stream).unwrap().evidence.iter().map(|it| (it.epoch, it.signer)).collect::<Vec<_>>()
    };
    let (signer, other): ([[u8; 32]; 2], [[u8; 32]; 1]) = ([[9; 32], [0; 32]], [[1; 32]]);
    assert_eq!(evidence(&[(0, &signer), (7, &other)]), [(0, 0)]);
    assert_eq!(evidence(&[(0, &other), (7, &signer)]), []);
    assert_eq!(evidence(&[(7, &signer)]), []);
}

#[test]
fn what_is_refused() {
    let refused = |refusal| Err(Error::Committees(refusal));
    assert_eq!(Committees::every(Size::Bytes64, 0), refused(Refusal::EmptyCommittee));
    assert_eq!(Committees::listed(Size::Bytes64, &[]), refused(Refusal::NoCommittee));
    assert_eq!(Committees::listed(Size::Bytes64, &[(2, 1), (2, 1)]), refused(Refusal::Epochs));
    assert_eq!(Committees::listed(Size::Bytes64, &[(2, 1), (3, 0)]), refused(Refusal::EmptyCommittee));
    // the first cause in the order of the enum
    assert_eq!(Committees::listed(Size::Bytes64, &[(3, 0), (2, 1)]), refused(Refusal::Epochs));
    assert_eq!(Committees::plain(b"", &[]), refused(Refusal::EmptyCommittee));
    assert_eq!(Committees::plain(b"", &[[1; 32], [0; 32], [1; 32]]), refused(Refusal::RepeatedKey));
    assert_eq!(Committees::plain_listed(b"", &[]), refused(Refusal::NoCommittee));
    let (key, twice) = ([[1; 32]], [[1; 32], [1; 32]]);
    assert_eq!(Committees::plain_listed(b"", &[(2, &key), (1, &twice)]), refused(Refusal::Epochs));
    assert_eq!(Committees::plain_listed(b"", &[(1, &twice), (2, &[])]), refused(Refusal::EmptyCommittee));
    assert_eq!(Committees::plain_listed(b"", &[(1, &key), (2, &twice)]), refused(Refusal::RepeatedKey));
    assert!(Committees::plain_listed(b"", &[(1, &key), (2, &key)]).is_ok());
    let error = Error::Committees(Refusal::RepeatedKey);
    assert_eq!(error.to_string(), "there are no such committees");
    assert_eq!(error.source().unwrap().to_string(), "a key stands twice in a committee");
    let vote = Vote::Nullify { epoch: 0, view: 1 };
    let mut stream = Encoder::new(Size::Bytes48);
    assert_eq!(stream.vote(&vote, 0, &[0; 47], &every), Err(Error::Arguments));
    assert_eq!(stream.certificate(&vote, &[], &every), Err(Error::Arguments));
    assert_eq!(stream.certificate(&vote, &[(1, &[0; 48]), (1, &[0; 48])], &every), Err(Error::Arguments));
    assert_eq!(stream.certificate(&vote, &[(1, &[0; 48]), (2, &[0; 49])], &every), Err(Error::Arguments));
    assert_eq!(stream.certification(&vote, &[(1, &[0; 48])], &every), Err(Error::Arguments));
    assert!(stream.as_bytes().is_empty());
}

#[test]
fn numbers() {
    assert_eq!(version(), 2);
    assert_eq!((views::max_faults(0), views::quorum(0)), (0, 0));
    assert_eq!(views::admits_outbound(1, 0, 10, 12), Ok(false));
    assert_eq!(views::admits(0, 0, 10, 11), Err(Error::Arguments));
    assert_eq!(views::issuance_floor(5, 2, 13), Ok(Some(10)));
    assert_eq!(views::issuance_floor(5, 0, 13), Ok(None));
    assert_eq!(views::issuance_floor(0, 0, 13), Err(Error::Arguments));
    for seed in [None, Some(b"seed".as_slice()), Some(&[])] {
        let mut leaders: Vec<_> = (1..5).map(|view| views::leader(seed, 4, 1, 0, view).unwrap()).collect();
        leaders.sort_unstable();
        assert_eq!(leaders, [0, 1, 2, 3]);
        assert_eq!(views::leader(seed, 0, 1, 0, 1), Err(Error::Arguments));
        assert!(views::leader(seed, 65_536, 1, 0, 1).unwrap() < 65_536);
    }
    assert_eq!(views::leader(None, 65_536, 1, 0, 65_535), Ok(65_535));
}
