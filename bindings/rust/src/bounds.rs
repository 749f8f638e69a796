//! How much a call writes at most, by the length of its stream.

use crate::committees::{Committees, Members};

/// The longest line of evidence, and of a split, with its end.
const LINE: usize = 246;
const SPLIT_LINE: usize = 70;
/// The longest proposal: three numbers of 10 bytes and the payload.
const PROPOSAL: usize = 62;
/// The longest number of a participant.
const SIGNER: usize = 5;

/// What a stream of some length holds at most.
pub(crate) struct Bounds {
    /// The bytes of a signature, with its verdict if there is one.
    signature: usize,
    length: usize,
    votes: usize,
}

impl Bounds {
    /// Of a stream of this many bytes. A vote takes at least a byte for its signer, and its signature.
    pub fn of(committees: &Committees, length: usize) -> Self {
        let signature = match &committees.members {
            Members::Vouched { size, .. } => size.bytes() + 1,
            Members::Plain { .. } => 32,
        };
        Bounds { signature, length, votes: length / (1 + signature) }
    }

    /// The messages. The shortest is a nullify: a byte each for its tag, epoch, view and signer, and the signature.
    pub fn rows(&self) -> usize {
        self.length / (4 + self.signature)
    }

    /// The votes, each as often as a message carries it.
    pub fn votes(&self) -> usize {
        self.votes
    }

    /// The evidence. Two votes of a signer in a round are one evidence at most, three are two, and five are all three kinds.
    pub fn evidence(&self) -> usize {
        self.votes - self.votes.div_ceil(3)
    }

    /// The bytes of the report's text. A split has two certificates of its round, and so at least two votes.
    pub fn text(&self) -> usize {
        self.evidence().saturating_mul(LINE).saturating_add((self.votes / 2).saturating_mul(SPLIT_LINE))
    }

    /// The bytes of the evidence as messages, each a tag and two votes.
    pub fn messages(&self) -> usize {
        self.evidence().saturating_mul(1 + 2 * (PROPOSAL + SIGNER + self.signature))
    }
}

#[cfg(test)]
mod tests {
    use super::*;
    use crate::{ffi, Encoder, Size, Vote};

    const MOST: u64 = u64::MAX;

    fn every(_: &Vote, _: u32, _: &[u8]) -> bool {
        true
    }

    /// A nullification and two finalizations by these participants: no stream of its length has more evidence.
    fn densest(size: Size, participants: u32) -> Vec<u8> {
        let signature = vec![9; size.bytes()];
        let listed: Vec<(u32, &[u8])> = (0..participants).map(|signer| (signer, signature.as_slice())).collect();
        let finalize = |payload| Vote::Finalize { epoch: MOST, view: MOST, parent: MOST, payload };
        let mut stream = Encoder::new(size);
        for vote in [Vote::Nullify { epoch: MOST, view: MOST }, finalize([6; 32]), finalize([7; 32])] {
            stream.certificate(&vote, &listed, &every).unwrap();
        }
        stream.as_bytes().to_vec()
    }

    #[test]
    fn the_densest_stream_fits() {
        for size in [Size::Bytes48, Size::Bytes64, Size::Bytes96] {
            for participants in [1, 2, 100, 1000] {
                let committees = Committees::every(size, participants).unwrap();
                let stream = densest(size, participants);
                let bounds = Bounds::of(&committees, stream.len());
                let (text, summary) = ffi::audit(&committees, &stream).unwrap();
                assert_eq!((summary.evidence, summary.splits), (2 * participants as usize, 1));
                assert!(summary.evidence <= bounds.evidence() && text.len() <= bounds.text());
                assert!(ffi::suspects(&committees, &stream).unwrap().len() <= bounds.votes());
                assert_eq!(ffi::index(&committees, &stream).unwrap().0.len(), 3);
                let stored = ffi::store(&committees, &[], &stream).unwrap();
                assert!(stored.len() <= bounds.messages());
                // what is stored fits again: with nothing behind it, and with the stream
                for batch in [&[][..], &stream] {
                    let again = ffi::store(&committees, &stored, batch).unwrap();
                    assert!(again == stored && again.len() <= Bounds::of(&committees, stored.len() + batch.len()).messages());
                }
                // no more is reserved than twice what the densest stream of many signers needs
                assert!(participants < 100 || (bounds.text() < 2 * text.len() && bounds.messages() < 2 * stored.len()));
            }
        }
    }

    #[test]
    fn the_shortest_messages_fit() {
        for size in [Size::Bytes48, Size::Bytes64, Size::Bytes96] {
            let committees = Committees::every(size, 1).unwrap();
            let mut stream = Encoder::new(size);
            for view in 0..100 {
                stream.vote(&Vote::Nullify { epoch: 0, view }, 0, &vec![9; size.bytes()], &every).unwrap();
            }
            let (rows, summary) = ffi::index(&committees, stream.as_bytes()).unwrap();
            assert_eq!((rows.len(), summary.read), (Bounds::of(&committees, stream.as_bytes().len()).rows(), 100));
        }
    }

    #[test]
    fn five_votes_are_three_kinds() {
        let size = Size::Bytes64;
        let committees = Committees::every(size, 1).unwrap();
        let mut stream = Encoder::new(size);
        for payload in [[6; 32], [7; 32]] {
            let (epoch, view, parent) = (MOST, MOST, MOST);
            for vote in [Vote::Notarize { epoch, view, parent, payload }, Vote::Finalize { epoch, view, parent, payload }] {
                stream.vote(&vote, 0, &[9; 64], &every).unwrap();
            }
        }
        stream.vote(&Vote::Nullify { epoch: MOST, view: MOST }, 0, &[9; 64], &every).unwrap();
        let (text, summary) = ffi::audit(&committees, stream.as_bytes()).unwrap();
        let bounds = Bounds::of(&committees, stream.as_bytes().len());
        assert!(summary.evidence == 3 && 3 <= bounds.evidence() && text.len() <= bounds.text());
    }
}
