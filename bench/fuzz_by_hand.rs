//! The calls of the library by hand: an audit by the auditor of `by_hand.rs`, and the rest as docs/BINDINGS.md defines it, over
//! the votes that its reader finds.

#[allow(dead_code)]
#[path = "by_hand.rs"]
mod by_hand;

use super::calls::{Committees, Report};
use super::exports::{AttestationPlace, Range, Record, Row, Summary, Suspect, VotePlace};
use by_hand::{Attestation, Auditor, Message, Plain, Reader, Round, Scheme, Subject, VoteKind};
use std::collections::{BTreeMap, HashMap, HashSet};

pub use by_hand::{push_number, sha256};

enum Committee {
    Plain(Plain),
    Vouched { signature: usize, participants: usize },
}

impl Scheme for Committee {
    fn signature_bytes(&self) -> usize {
        match self {
            Committee::Plain(plain) => plain.signature_bytes(),
            Committee::Vouched { signature, .. } => signature + 1,
        }
    }

    fn participants(&self) -> usize {
        match self {
            Committee::Plain(plain) => plain.participants(),
            Committee::Vouched { participants, .. } => *participants,
        }
    }

    fn is_good(&self, hashed: &mut Vec<u8>, subject: &Subject, (signer, signature): Attestation) -> bool {
        match self {
            Committee::Plain(plain) => plain.is_good(hashed, subject, (signer, signature)),
            Committee::Vouched { participants, .. } => (signer as usize) < *participants && signature.last() == Some(&1),
        }
    }
}

fn committees(of: &Committees) -> by_hand::Committees<Committee> {
    let committee = |place: usize| match of {
        Committees::Plain { base, keys, .. } => Committee::Plain(by_hand::plain(base, keys[place].clone()).unwrap()),
        Committees::Vouched { signature, sizes, .. } => {
            Committee::Vouched { signature: *signature, participants: sizes[place] as usize }
        }
    };
    match of.epochs() {
        [] => by_hand::Committees::Every(committee(0)),
        epochs => by_hand::Committees::Listed(epochs.iter().copied().zip((0..).map(committee)).collect()),
    }
}

/// The report of a stream, which is read in pieces, as the program reads it.
pub fn audit(of: &Committees, stream: &[u8]) -> Report {
    let (mut auditor, mut held) = (Auditor::new(committees(of)), Vec::new());
    for piece in stream.chunks(1 + stream.len() / 3) {
        held.extend_from_slice(piece);
        auditor.advance(&mut held);
    }
    let (text, is_fault) = (auditor.text(), !held.is_empty());
    let splits = text.lines().filter(|line| line.contains("split")).count();
    let summary = Summary {
        read: auditor.read,
        evidence: text.lines().count() - splits,
        splits,
        faulted: usize::from(is_fault),
        fault_place: if is_fault { auditor.place } else { 0 },
        length: text.len(),
    };
    Report { text, summary }
}

/// A vote of a stream, where its message begins, and whether a certificate lists it.
#[derive(Clone, Copy)]
struct Vote<'a> {
    subject: Subject<'a>,
    attestation: Attestation<'a>,
    place: usize,
    is_listed: bool,
}

impl<'a> Vote<'a> {
    fn key(&self) -> (Round, u32) {
        (self.subject.round, self.attestation.0)
    }

    fn is_valid(&self, committees: &by_hand::Committees<Committee>) -> bool {
        committees.get(self.subject.round.0).is_some_and(|it| it.is_good(&mut Vec::new(), &self.subject, self.attestation))
    }

    /// Where its subject and the last byte of its signature stand in its stream.
    fn stands(&self, stream: &[u8]) -> VotePlace {
        let (signer, signature) = self.attestation;
        VotePlace {
            subject_place: offset(stream, self.subject.message),
            subject_length: self.subject.message.len(),
            verdict_place: offset(stream, signature) + signature.len() - 1,
            signer,
            kind: self.subject.kind as u32,
        }
    }

    /// What two equal votes have in common.
    fn value(&self) -> (u8, &'a [u8], Attestation<'a>) {
        (self.subject.kind as u8, self.subject.message, self.attestation)
    }

    fn contradicts(&self, other: &Vote) -> bool {
        match (self.subject.kind, other.subject.kind) {
            (VoteKind::Nullify, VoteKind::Finalize) | (VoteKind::Finalize, VoteKind::Nullify) => true,
            (VoteKind::Notarize, VoteKind::Notarize) | (VoteKind::Finalize, VoteKind::Finalize) => {
                self.subject.message != other.subject.message
            }
            _ => false,
        }
    }
}

/// The votes that a reader finds in a stream, in order, and the bytes behind its last message.
fn votes<'a>(mut reader: Reader<'a>) -> (Vec<Vote<'a>>, &'a [u8]) {
    let (length, mut votes) = (reader.rest.len(), Vec::new());
    loop {
        let place = length - reader.rest.len();
        let mut put = |subject, attestation, is_listed| votes.push(Vote { subject, attestation, place, is_listed });
        match reader.next() {
            None => return (votes, reader.rest),
            Some(Message::Vote(subject, attestation)) => put(subject, attestation, false),
            Some(Message::Certificate(subject, listed)) => listed.iter().for_each(|one| put(subject, *one, true)),
            Some(Message::Evidence(both)) => both.iter().for_each(|(subject, one)| put(*subject, *one, false)),
        }
    }
}

/// The votes by round and signer, each list in the order of the stream.
fn by_signer<'a>(votes: impl Iterator<Item = Vote<'a>>) -> BTreeMap<(Round, u32), Vec<Vote<'a>>> {
    let mut lists: BTreeMap<_, Vec<_>> = BTreeMap::new();
    for vote in votes {
        lists.entry(vote.key()).or_default().push(vote);
    }
    lists
}

/// The evidence of one signer in a round: its number, and both votes, the earliest among those that contradict.
fn evidence_of<'a>(votes: &[Vote<'a>]) -> Vec<(u32, [Vote<'a>; 2])> {
    let first = |kind: VoteKind| votes.iter().find(|vote| vote.subject.kind == kind);
    let twice = |kind: VoteKind| {
        let earliest = first(kind)?;
        votes.iter().find(|vote| vote.subject.kind == kind && vote.contradicts(earliest)).map(|other| [*earliest, *other])
    };
    let both = || Some([*first(VoteKind::Nullify)?, *first(VoteKind::Finalize)?]);
    let found = [twice(VoteKind::Notarize), twice(VoteKind::Finalize), both()];
    found.into_iter().zip(0..).filter_map(|(votes, kind)| Some((kind, votes?))).collect()
}

/// The evidence of some votes, in the order of a report.
fn evidence<'a>(committees: &by_hand::Committees<Committee>, votes: &[Vote<'a>]) -> Vec<(u32, [Vote<'a>; 2])> {
    let valid = votes.iter().copied().filter(|vote| vote.is_valid(committees));
    by_signer(valid).values().flat_map(|of_signer| evidence_of(of_signer)).collect()
}

/// The evidence of a stream as records, and the numbers of its report.
pub fn records(of: &Committees, stream: &[u8]) -> (Vec<Record>, Summary) {
    let committees = committees(of);
    let (votes, _) = votes(committees.reader(stream));
    let mut places = HashMap::new();
    for vote in &votes {
        places.entry(vote.value()).or_insert((vote.place, vote.stands(stream)));
    }
    let record = |(kind, [first, second]): (u32, [Vote; 2])| {
        let ((epoch, view), signer) = first.key();
        let ((first_place, first_vote), (second_place, second_vote)) = (places[&first.value()], places[&second.value()]);
        Record { epoch, view, first_place, second_place, first_vote, second_vote, signer, kind }
    };
    (evidence(&committees, &votes).into_iter().map(record).collect(), audit(of, stream).summary)
}

/// Where the verdicts of a stream stand.
pub fn verdict_places(of: &Committees, stream: &[u8]) -> Vec<usize> {
    let Committees::Vouched { signature, .. } = of else {
        return Vec::new();
    };
    let (votes, _) = votes(committees(of).reader(stream));
    votes.iter().map(|vote| offset(stream, vote.attestation.1) + signature).collect()
}

/// Where a part of a stream begins.
fn offset(stream: &[u8], part: &[u8]) -> usize {
    part.as_ptr() as usize - stream.as_ptr() as usize
}

/// The attestations of a stream that have to be verified: those of suspects in their rounds, and of certificates of these
/// rounds. Each has the index of the first that is the same but for the verdict.
pub fn suspects(of: &Committees, stream: &[u8]) -> Vec<Suspect> {
    let Committees::Vouched { signature, .. } = of else {
        return Vec::new();
    };
    let committees = committees(of);
    let (mut votes, _) = votes(committees.reader(stream));
    votes.retain(|vote| of.size(vote.subject.round.0).is_some_and(|size| vote.attestation.0 < size));
    let is_suspect = |votes: &&Vec<Vote>| votes.iter().any(|one| votes.iter().any(|other| one.contradicts(other)));
    let suspects: HashSet<_> =
        by_signer(votes.iter().copied()).values().filter(is_suspect).map(|votes| votes[0].key()).collect();
    let rounds: HashSet<_> = suspects.iter().map(|(round, _)| *round).collect();
    votes.retain(|vote| suspects.contains(&vote.key()) || vote.is_listed && rounds.contains(&vote.subject.round));
    let place = |vote: &Vote| {
        let (epoch, view) = vote.subject.round;
        let VotePlace { subject_place, subject_length, verdict_place, signer, kind } = vote.stands(stream);
        AttestationPlace { epoch, view, verdict_place, subject_place, subject_length, signer, kind }
    };
    let same = |one: &Vote, other: &Vote| {
        let signed = |vote: &Vote| (vote.subject.kind as u32, vote.attestation.0);
        signed(one) == signed(other) && one.subject.message == other.subject.message
            && one.attestation.1[..*signature] == other.attestation.1[..*signature]
    };
    let first = |vote: &Vote| votes.iter().position(|one| same(one, vote)).unwrap();
    votes.iter().map(|vote| Suspect { place: place(vote), first: first(vote) }).collect()
}

/// The evidence of what is stored with a batch behind it, as messages. They are one stream: a message that is cut off at the end
/// of what is stored goes on in the batch, and behind a fault nothing is read.
pub fn store(of: &Committees, stored: &[u8], batch: &[u8]) -> Vec<u8> {
    let committees = committees(of);
    let both = [stored, batch].concat();
    let (all, _) = votes(committees.reader(&both));
    let mut messages = Vec::new();
    for (kind, both) in evidence(&committees, &all) {
        messages.push(7 + kind as u8);
        for vote in both {
            messages.extend_from_slice(vote.subject.message);
            push_number(&mut messages, u64::from(vote.attestation.0));
            messages.extend_from_slice(vote.attestation.1);
        }
    }
    messages
}

/// The messages of a stream as rows, and the numbers of the reading.
pub fn index(of: &Committees, stream: &[u8]) -> (Vec<Row>, Summary) {
    let committees = committees(of);
    let (mut reader, mut rows, mut place) = (committees.reader(stream), Vec::new(), 0);
    while let Some(message) = reader.next() {
        let ((epoch, view), attestations) = match message {
            Message::Vote(subject, _) => (subject.round, 1),
            Message::Certificate(subject, listed) => (subject.round, listed.len()),
            Message::Evidence([(subject, _), _]) => (subject.round, 2),
        };
        let length = stream.len() - reader.rest.len() - place;
        rows.push(Row { epoch, view, place, length, attestations, kind: u32::from(stream[place]) });
        place += length;
    }
    let faulted = usize::from(place < stream.len());
    let summary = Summary { read: rows.len(), faulted, fault_place: faulted * place, ..Summary::default() };
    (rows, summary)
}

/// The word that SplitMix64 gives from a state.
fn mix(state: u64) -> u64 {
    let mut z = state.wrapping_add(0x9e3779b97f4a7c15);
    z = (z ^ (z >> 30)).wrapping_mul(0xbf58476d1ce4e5b9);
    z = (z ^ (z >> 27)).wrapping_mul(0x94d049bb133111eb);
    z ^ (z >> 31)
}

/// The class of a round.
pub fn class_of(epoch: u64, view: u64, seed: u64, classes: u32) -> u32 {
    (mix(mix(seed ^ epoch) ^ view) % u64::from(classes)) as u32
}

/// Where the messages of a class stand, neighbours joined.
pub fn ranges(rows: &[Row], seed: u64, classes: u32, which: u32) -> Vec<Range> {
    let mut ranges: Vec<Range> = Vec::new();
    for row in rows.iter().filter(|row| class_of(row.epoch, row.view, seed, classes) == which) {
        match ranges.last_mut() {
            Some(last) if last.place + last.length == row.place => last.length += row.length,
            _ => ranges.push(Range { place: row.place, length: row.length }),
        }
    }
    ranges
}

/// The bytes of some ranges, one after another.
pub fn joined(stream: &[u8], ranges: &[Range]) -> Vec<u8> {
    ranges.iter().flat_map(|range| &stream[range.place..range.place + range.length]).copied().collect()
}

/// The report of the bytes of some ranges.
pub fn audit_ranges(of: &Committees, stream: &[u8], ranges: &[Range]) -> Report {
    audit(of, &joined(stream, ranges))
}
