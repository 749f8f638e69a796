//! Four participants sign votes by Ed25519. One notarizes two payloads, one nullifies a round and finalizes in it, and one
//! forges a vote of another. Signatures are made and verified by OpenSSL's libcrypto. Then verification is deferred: of the
//! same votes with an honest round before them those of suspects alone are verified. With an argument the program prints the
//! first stream, and nothing else.

mod key;

use key::Key;
use simplex_audit::{audit, audit_deferred, records, Committees, Deferred, Encoder, Error, Report, Size, Verifier, Vote};
use std::cell::Cell;
use std::io::{self, Write};

/// The participants of a committee, who sign under the base `demo`.
struct Network(Vec<Key>);

impl Verifier for Network {
    fn verify(&self, vote: &Vote, signer: u32, signature: &[u8]) -> bool {
        self.0.get(signer as usize).is_some_and(|key| key.verifies(&vote.signed_bytes(b"demo"), signature))
    }
}

impl Network {
    /// Appends votes, each with who it is said to be from and who signed it.
    fn vote(&self, stream: &mut Encoder, votes: &[(Vote, u32, usize)], verifier: &dyn Verifier) -> Result<(), Error> {
        for (vote, signer, with) in votes {
            let signature = self.0[*with].sign(&vote.signed_bytes(b"demo"));
            stream.vote(vote, *signer, &signature, verifier)?;
        }
        Ok(())
    }

    /// The deferred report, and how many signatures were verified.
    fn audit_deferred(&self, committees: &Committees, stream: &Encoder) -> Result<(Report, usize), Error> {
        let verified = Cell::new(0);
        let report = audit_deferred(committees, stream.as_bytes(), &|vote: &Vote, signer: u32, signature: &[u8]| {
            verified.set(verified.get() + 1);
            self.verify(vote, signer, signature)
        })?;
        Ok((report, verified.get()))
    }
}

fn main() -> Result<(), Box<dyn std::error::Error>> {
    let network = Network((0..4).map(|i| Key::of_seed([[i, 42].as_slice(), &[0; 30]].concat().try_into().unwrap())).collect());
    let notarize = |view: u64, payload: u8| Vote::Notarize { epoch: 3, view, parent: 5, payload: [payload; 32] };
    let finalize = Vote::Finalize { epoch: 3, view: 10, parent: 5, payload: [0xaa; 32] };
    let votes = [
        (notarize(10, 0xaa), 0, 0),
        (notarize(10, 0xaa), 1, 1),
        (notarize(10, 0xaa), 2, 2),
        (notarize(10, 0xaa), 3, 3),
        (notarize(10, 0xbb), 0, 0),                   // participant 0 votes for another payload
        (notarize(10, 0xbb), 3, 1),                   // participant 1 forges a vote of participant 3
        (Vote::Nullify { epoch: 3, view: 10 }, 2, 2), // participant 2 nullifies the round
        (finalize, 2, 2),                             // and finalizes in it
        (finalize, 1, 1),
    ];
    let committees = Committees::listed(Size::Bytes64, &[(3, 4)])?;
    let mut stream = Encoder::new(Size::Bytes64);
    network.vote(&mut stream, &votes, &network)?;
    if std::env::args().nth(1).is_some() {
        return Ok(io::stdout().write_all(stream.as_bytes())?);
    }
    let report = audit(&committees, stream.as_bytes())?;
    println!("{} messages, {} equivocators", report.read, report.evidence.len());
    print!("{}", report.text);
    for one in records(&committees, stream.as_bytes())? {
        println!("votes of participant {} at bytes {} and {}", one.signer, one.first_place, one.second_place);
        // Whoever is shown the two votes can verify them.
        assert!([&one.first, &one.second].iter().all(|it| network.verify(&it.vote, it.signer, &it.signature)));
    }

    // The same votes behind an honest round, with nothing verified yet.
    let honest: Vec<_> = (0..4).map(|i| (notarize(9, 0xaa), i as u32, i)).collect();
    let mut stream = Encoder::new(Size::Bytes64);
    network.vote(&mut stream, &honest, &Deferred)?;
    let (deferred, verified) = network.audit_deferred(&committees, &stream)?;
    println!("deferred: {verified} of {} signatures of an honest round verified", deferred.read);
    network.vote(&mut stream, &votes, &Deferred)?;
    let (deferred, verified) = network.audit_deferred(&committees, &stream)?;
    assert_eq!(deferred.text, report.text);
    println!("deferred: {verified} of {} signatures of both rounds verified", deferred.read);
    Ok(())
}
