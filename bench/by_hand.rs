//! The auditor as one would write it by hand in Rust, without proofs: what the proved program is measured against.
//! It takes the same arguments, reads the same messages in pieces, and prints the same lines. A vote that changes nothing is
//! not verified, nor is a certificate; the votes of a certificate that verifies are not verified again.

use std::collections::{BTreeMap, BTreeSet};
use std::fmt::Write as _;
use std::io::{Read, Write};

const ROUND_CONSTANTS: [u32; 64] = [
    0x428a2f98, 0x71374491, 0xb5c0fbcf, 0xe9b5dba5, 0x3956c25b, 0x59f111f1, 0x923f82a4, 0xab1c5ed5,
    0xd807aa98, 0x12835b01, 0x243185be, 0x550c7dc3, 0x72be5d74, 0x80deb1fe, 0x9bdc06a7, 0xc19bf174,
    0xe49b69c1, 0xefbe4786, 0x0fc19dc6, 0x240ca1cc, 0x2de92c6f, 0x4a7484aa, 0x5cb0a9dc, 0x76f988da,
    0x983e5152, 0xa831c66d, 0xb00327c8, 0xbf597fc7, 0xc6e00bf3, 0xd5a79147, 0x06ca6351, 0x14292967,
    0x27b70a85, 0x2e1b2138, 0x4d2c6dfc, 0x53380d13, 0x650a7354, 0x766a0abb, 0x81c2c92e, 0x92722c85,
    0xa2bfe8a1, 0xa81a664b, 0xc24b8b70, 0xc76c51a3, 0xd192e819, 0xd6990624, 0xf40e3585, 0x106aa070,
    0x19a4c116, 0x1e376c08, 0x2748774c, 0x34b0bcb5, 0x391c0cb3, 0x4ed8aa4a, 0x5b9cca4f, 0x682e6ff3,
    0x748f82ee, 0x78a5636f, 0x84c87814, 0x8cc70208, 0x90befffa, 0xa4506ceb, 0xbef9a3f7, 0xc67178f2,
];

/// SHA-256 of some bytes (FIPS 180-4).
pub fn sha256(bytes: &[u8]) -> [u8; 32] {
    let mut state: [u32; 8] = [
        0x6a09e667, 0xbb67ae85, 0x3c6ef372, 0xa54ff53a, 0x510e527f, 0x9b05688c, 0x1f83d9ab, 0x5be0cd19,
    ];
    let compress = compression();
    let mut chunks = bytes.chunks_exact(64);
    for chunk in &mut chunks {
        compress(&mut state, chunk.try_into().unwrap());
    }
    let rest = chunks.remainder();
    let mut last = [0; 128];
    last[..rest.len()].copy_from_slice(rest);
    last[rest.len()] = 0x80;
    let end = if rest.len() < 56 { 64 } else { 128 };
    last[end - 8..end].copy_from_slice(&(bytes.len() as u64 * 8).to_be_bytes());
    for chunk in last[..end].chunks_exact(64) {
        compress(&mut state, chunk.try_into().unwrap());
    }
    let mut digest = [0; 32];
    for (place, word) in digest.chunks_exact_mut(4).zip(state) {
        place.copy_from_slice(&word.to_be_bytes());
    }
    digest
}

/// The compression function: by the processor's instructions for SHA-256 where it has them, unless this is built to do without.
fn compression() -> fn(&mut [u32; 8], &[u8; 64]) {
    #[cfg(all(target_arch = "x86_64", not(portable)))]
    if is_x86_feature_detected!("sha") && is_x86_feature_detected!("ssse3") && is_x86_feature_detected!("sse4.1") {
        // Safe, since the processor was asked for each instruction set that the function uses.
        return |state, block| unsafe { compress_by_instructions(state, block) };
    }
    compress
}

/// Four rounds at a time. The instructions want the state as (f e b a) and (h g d c), lowest word first.
#[cfg(all(target_arch = "x86_64", not(portable)))]
#[target_feature(enable = "sha,ssse3,sse4.1")]
fn compress_by_instructions(state: &mut [u32; 8], block: &[u8; 64]) {
    use std::arch::x86_64::*;

    fn load(words: &[u32]) -> __m128i {
        let words: &[u32; 4] = words.try_into().unwrap();
        unsafe { _mm_loadu_si128(words.as_ptr().cast()) }
    }
    let abcd = _mm_shuffle_epi32(load(&state[..4]), 0xb1);
    let efgh = _mm_shuffle_epi32(load(&state[4..]), 0x1b);
    let (first, second) = (_mm_alignr_epi8(abcd, efgh, 8), _mm_blend_epi16(efgh, abcd, 0xf0));
    let (mut feba, mut hgdc) = (first, second);
    let mut words = [_mm_setzero_si128(); 4];
    for t in 0..16 {
        let here = t % 4;
        words[here] = if t < 4 {
            let mut read = [0; 4];
            for (word, bytes) in read.iter_mut().zip(block[16 * t..].chunks_exact(4)) {
                *word = u32::from_be_bytes(bytes.try_into().unwrap());
            }
            load(&read)
        } else {
            let (next, before, last) = (words[(t + 1) % 4], words[(t + 2) % 4], words[(t + 3) % 4]);
            let sum = _mm_add_epi32(_mm_sha256msg1_epu32(words[here], next), _mm_alignr_epi8(last, before, 4));
            _mm_sha256msg2_epu32(sum, last)
        };
        let added = _mm_add_epi32(words[here], load(&ROUND_CONSTANTS[4 * t..4 * t + 4]));
        hgdc = _mm_sha256rnds2_epu32(hgdc, feba, added);
        feba = _mm_sha256rnds2_epu32(feba, hgdc, _mm_shuffle_epi32(added, 0x0e));
    }
    let abef = _mm_shuffle_epi32(_mm_add_epi32(feba, first), 0x1b);
    let ghcd = _mm_shuffle_epi32(_mm_add_epi32(hgdc, second), 0xb1);
    unsafe {
        _mm_storeu_si128(state[..4].as_mut_ptr().cast(), _mm_blend_epi16(abef, ghcd, 0xf0));
        _mm_storeu_si128(state[4..].as_mut_ptr().cast(), _mm_alignr_epi8(ghcd, abef, 8));
    }
}

fn compress(state: &mut [u32; 8], block: &[u8; 64]) {
    let mut words = [0u32; 64];
    for (word, bytes) in words.iter_mut().zip(block.chunks_exact(4)) {
        *word = u32::from_be_bytes(bytes.try_into().unwrap());
    }
    for t in 16..64 {
        let (x, y) = (words[t - 15], words[t - 2]);
        let low = x.rotate_right(7) ^ x.rotate_right(18) ^ (x >> 3);
        let high = y.rotate_right(17) ^ y.rotate_right(19) ^ (y >> 10);
        words[t] = words[t - 16].wrapping_add(low).wrapping_add(words[t - 7]).wrapping_add(high);
    }
    let [mut a, mut b, mut c, mut d, mut e, mut f, mut g, mut h] = *state;
    for t in 0..64 {
        let high = e.rotate_right(6) ^ e.rotate_right(11) ^ e.rotate_right(25);
        let choice = (e & f) ^ (!e & g);
        let one = h.wrapping_add(high).wrapping_add(choice).wrapping_add(ROUND_CONSTANTS[t]).wrapping_add(words[t]);
        let low = a.rotate_right(2) ^ a.rotate_right(13) ^ a.rotate_right(22);
        let majority = (a & b) ^ (a & c) ^ (b & c);
        (h, g, f, e, d, c, b, a) = (g, f, e, d.wrapping_add(one), c, b, a, one.wrapping_add(low).wrapping_add(majority));
    }
    for (word, add) in state.iter_mut().zip([a, b, c, d, e, f, g, h]) {
        *word = word.wrapping_add(add);
    }
}

/// Appends a number in groups of seven bits.
pub fn push_number(bytes: &mut Vec<u8>, mut number: u64) {
    while number >= 128 {
        bytes.push(number as u8 | 0x80);
        number >>= 7;
    }
    bytes.push(number as u8);
}

/// What a stream holds.
pub enum Message<'a> {
    Vote(Subject<'a>, Attestation<'a>),
    Certificate(Subject<'a>, Vec<Attestation<'a>>),
    Evidence([(Subject<'a>, Attestation<'a>); 2]),
}

/// Reads messages, with signatures of this many bytes and certificates of at most this many participants.
#[derive(Clone, Copy)]
pub struct Reader<'a> {
    pub rest: &'a [u8],
    pub signature_bytes: usize,
    pub bound: u64,
}

impl<'a> Reader<'a> {
    fn take(&mut self, count: usize) -> Option<&'a [u8]> {
        let (taken, rest) = self.rest.split_at_checked(count)?;
        self.rest = rest;
        Some(taken)
    }

    /// A number in groups of seven bits, of at most this many bits.
    fn number(&mut self, bits: u32) -> Option<u64> {
        let mut value = 0u64;
        for group in 0.. {
            let byte = self.take(1)?[0];
            let (low, shift) = (u64::from(byte & 0x7f), group * 7);
            if shift >= bits || (shift + 7 > bits && low >> (bits - shift) != 0) || (byte == 0 && group > 0) {
                return None;
            }
            value |= low << shift;
            if byte < 0x80 {
                return Some(value);
            }
        }
        None
    }

    fn attestation(&mut self) -> Option<Attestation<'a>> {
        Some((self.number(32)? as u32, self.take(self.signature_bytes)?))
    }

    /// What is signed: a round, and for any kind but a nullify a proposal.
    fn subject(&mut self, kind: VoteKind) -> Option<Subject<'a>> {
        let start = self.rest;
        let round = (self.number(64)?, self.number(64)?);
        let mut proposal = NONE;
        if kind != VoteKind::Nullify {
            let parent = self.number(64)?;
            proposal = Proposal { parent, payload: self.take(32)?.try_into().unwrap() };
        }
        let message = &start[..start.len() - self.rest.len()];
        Some(Subject { kind, round, proposal, message })
    }

    fn certificate(&mut self) -> Option<Vec<Attestation<'a>>> {
        let count = self.number(32)?;
        if count == 0 || count > self.bound {
            return None;
        }
        let mut listed = Vec::with_capacity((count as usize).min(self.rest.len() / (1 + self.signature_bytes)));
        let mut next = 0;
        for _ in 0..count {
            let (signer, signature) = self.attestation()?;
            if u64::from(signer) < next || u64::from(signer) >= self.bound {
                return None;
            }
            next = u64::from(signer) + 1;
            listed.push((signer, signature));
        }
        Some(listed)
    }

    fn message(&mut self) -> Option<Message<'a>> {
        let tag = self.take(1)?[0];
        Some(match tag {
            0 | 3 | 5 => {
                let subject = self.subject([VoteKind::Notarize, VoteKind::Nullify, VoteKind::Finalize][tag as usize / 2])?;
                Message::Vote(subject, self.attestation()?)
            }
            1 | 2 | 4 | 6 => {
                let kinds = [VoteKind::Notarize, VoteKind::Notarize, VoteKind::Nullify, VoteKind::Finalize];
                let subject = self.subject(kinds[tag as usize / 2])?;
                Message::Certificate(subject, self.certificate()?)
            }
            7 | 8 | 9 => {
                let (one, other) = match tag {
                    7 => (VoteKind::Notarize, VoteKind::Notarize),
                    8 => (VoteKind::Finalize, VoteKind::Finalize),
                    _ => (VoteKind::Nullify, VoteKind::Finalize),
                };
                let first = (self.subject(one)?, self.attestation()?);
                let second = (self.subject(other)?, self.attestation()?);
                let is_same = one == other && first.0.proposal == second.0.proposal;
                if first.0.round != second.0.round || first.1.0 != second.1.0 || is_same {
                    return None;
                }
                Message::Evidence([first, second])
            }
            _ => return None,
        })
    }
}

/// The messages at the front. Where there is none, the rest stays as it is.
impl<'a> Iterator for Reader<'a> {
    type Item = Message<'a>;

    fn next(&mut self) -> Option<Message<'a>> {
        let mut behind = *self;
        let message = behind.message()?;
        *self = behind;
        Some(message)
    }
}

/// A signer and a signature.
pub type Attestation<'a> = (u32, &'a [u8]);

pub type Round = (u64, u64);

#[derive(Clone, Copy, PartialEq)]
pub enum VoteKind {
    Notarize,
    Nullify,
    Finalize,
}

#[derive(Clone, Copy, PartialEq)]
pub struct Proposal {
    pub parent: u64,
    pub payload: [u8; 32],
}

/// What stands for the proposal of a nullify.
const NONE: Proposal = Proposal { parent: 0, payload: [0; 32] };

#[derive(Clone, Copy)]
pub struct Subject<'a> {
    pub kind: VoteKind,
    pub round: Round,
    pub proposal: Proposal,
    pub message: &'a [u8],
}

struct Kept {
    first: Proposal,
    other: Option<Proposal>,
}

/// The earliest votes of one kind by signer, and the earliest with another proposal.
#[derive(Default)]
struct Votes(BTreeMap<u32, Kept>);

impl Votes {
    fn is_news(&self, signer: u32, proposal: Proposal) -> bool {
        match self.0.get(&signer) {
            None => true,
            Some(kept) => kept.other.is_none() && kept.first != proposal,
        }
    }

    fn keep(&mut self, signer: u32, proposal: Proposal) {
        self.0
            .entry(signer)
            .and_modify(|kept| {
                if kept.other.is_none() && kept.first != proposal {
                    kept.other = Some(proposal);
                }
            })
            .or_insert(Kept { first: proposal, other: None });
    }
}

/// What is kept of a round, each by kind: votes, and the first proposal that is certified.
#[derive(Default)]
struct Tally {
    votes: [Votes; 3],
    certified: [Option<Proposal>; 3],
    is_split: bool,
}

impl Tally {
    fn is_news(&self, subject: &Subject) -> bool {
        !self.is_split && self.certified[subject.kind as usize] != Some(subject.proposal)
    }

    fn certify(&mut self, subject: &Subject) {
        let [_, nullified, finalized] = &self.certified;
        self.is_split |= match subject.kind {
            VoteKind::Notarize => false,
            VoteKind::Nullify => finalized.is_some(),
            VoteKind::Finalize => nullified.is_some(),
        };
        let first = self.certified[subject.kind as usize].get_or_insert(subject.proposal);
        self.is_split |= *first != subject.proposal;
    }
}

/// A committee, and how its signatures are verified.
pub trait Scheme {
    fn signature_bytes(&self) -> usize;

    fn participants(&self) -> usize;

    fn is_good(&self, hashed: &mut Vec<u8>, subject: &Subject, attestation: Attestation) -> bool;

    fn faults(&self) -> usize {
        (self.participants() - 1) / 3
    }

    fn is_certified(&self, hashed: &mut Vec<u8>, subject: &Subject, listed: &[Attestation]) -> bool {
        listed.len() + self.faults() >= self.participants() && listed.iter().all(|one| self.is_good(hashed, subject, *one))
    }
}

/// A committee under the plain scheme: the namespaces of the kinds, each with its length before it, and the keys.
pub struct Plain {
    names: [Vec<u8>; 3],
    keys: Vec<[u8; 32]>,
}

impl Scheme for Plain {
    fn signature_bytes(&self) -> usize {
        32
    }

    fn participants(&self) -> usize {
        self.keys.len()
    }

    fn is_good(&self, hashed: &mut Vec<u8>, subject: &Subject, (signer, signature): Attestation) -> bool {
        let Some(key) = self.keys.get(signer as usize) else {
            return false;
        };
        let name = &self.names[subject.kind as usize];
        hashed.clear();
        hashed.extend_from_slice(name);
        hashed.extend_from_slice(key);
        hashed.extend_from_slice(subject.message);
        sha256(hashed) == signature
    }
}

pub enum Committees<S> {
    Every(S),
    Listed(BTreeMap<u64, S>),
}

impl<S: Scheme> Committees<S> {
    pub fn get(&self, epoch: u64) -> Option<&S> {
        match self {
            Committees::Every(committee) => Some(committee),
            Committees::Listed(committees) => committees.get(&epoch),
        }
    }

    fn greatest(&self) -> &S {
        match self {
            Committees::Every(committee) => committee,
            Committees::Listed(committees) => committees.values().max_by_key(|committee| committee.participants()).unwrap(),
        }
    }

    pub fn reader<'a>(&self, bytes: &'a [u8]) -> Reader<'a> {
        let greatest = self.greatest();
        Reader { rest: bytes, signature_bytes: greatest.signature_bytes(), bound: greatest.participants() as u64 }
    }
}

pub struct Auditor<S> {
    committees: Committees<S>,
    rounds: BTreeMap<Round, Tally>,
    hashed: Vec<u8>,
    /// How many messages were read, and the bytes that they take.
    pub read: usize,
    pub place: usize,
}

impl<S: Scheme> Auditor<S> {
    pub fn new(committees: Committees<S>) -> Self {
        Auditor { committees, rounds: BTreeMap::new(), hashed: Vec::new(), read: 0, place: 0 }
    }

    fn vote(&mut self, subject: &Subject, attestation: Attestation) {
        let Some(committee) = self.committees.get(subject.round.0) else {
            return;
        };
        let votes = &mut self.rounds.entry(subject.round).or_default().votes[subject.kind as usize];
        let signer = attestation.0;
        if votes.is_news(signer, subject.proposal) && committee.is_good(&mut self.hashed, subject, attestation) {
            votes.keep(signer, subject.proposal);
        }
    }

    fn certificate(&mut self, subject: &Subject, listed: &[Attestation]) {
        let Some(committee) = self.committees.get(subject.round.0) else {
            return;
        };
        let tally = self.rounds.entry(subject.round).or_default();
        if tally.is_news(subject) && committee.is_certified(&mut self.hashed, subject, listed) {
            tally.certify(subject);
            for (signer, _) in listed {
                tally.votes[subject.kind as usize].keep(*signer, subject.proposal);
            }
            return;
        }
        let votes = &mut tally.votes[subject.kind as usize];
        for attestation in listed {
            if votes.is_news(attestation.0, subject.proposal) && committee.is_good(&mut self.hashed, subject, *attestation) {
                votes.keep(attestation.0, subject.proposal);
            }
        }
    }

    fn message(&mut self, message: &Message) {
        match message {
            Message::Vote(subject, attestation) => self.vote(subject, *attestation),
            Message::Certificate(subject, listed) => self.certificate(subject, listed),
            Message::Evidence(votes) => {
                for (subject, attestation) in votes {
                    self.vote(subject, *attestation);
                }
            }
        }
    }

    /// Reads the messages at the front of what is held, and drops their bytes.
    pub fn advance(&mut self, held: &mut Vec<u8>) {
        let mut reader = self.committees.reader(held);
        for message in reader.by_ref() {
            self.message(&message);
            self.read += 1;
        }
        let count = held.len() - reader.rest.len();
        held.drain(..count);
        self.place += count;
    }

    pub fn text(&self) -> String {
        let (mut text, mut splits) = (String::new(), String::new());
        for ((epoch, view), tally) in &self.rounds {
            let [notarizes, nullifies, finalizes] = &tally.votes;
            let mut signers = BTreeSet::new();
            signers.extend(notarizes.0.keys().chain(finalizes.0.keys()));
            let mut named = 0;
            for signer in signers {
                let length = text.len();
                let place = format!("{epoch} {view} {signer}");
                for (word, votes) in [("conflicting-notarize", notarizes), ("conflicting-finalize", finalizes)] {
                    if let Some(Kept { first, other: Some(other) }) = votes.0.get(signer) {
                        write!(text, "{place} {word}").unwrap();
                        push(&mut text, first);
                        push(&mut text, other);
                        text.push('\n');
                    }
                }
                if let (Some(_), Some(kept)) = (nullifies.0.get(signer), finalizes.0.get(signer)) {
                    write!(text, "{place} nullify-finalize").unwrap();
                    push(&mut text, &kept.first);
                    text.push('\n');
                }
                named += usize::from(text.len() > length);
            }
            if tally.is_split {
                let least = self.committees.get(*epoch).unwrap().faults() + 1;
                writeln!(splits, "{epoch} {view} split {named} {least}").unwrap();
            }
        }
        text + &splits
    }
}

/// Appends the words of a proposal.
fn push(text: &mut String, proposal: &Proposal) {
    write!(text, " {} ", proposal.parent).unwrap();
    for byte in proposal.payload {
        write!(text, "{byte:02x}").unwrap();
    }
}

/// The committee of these keys, or nothing where there is none or one comes twice.
pub fn plain(base: &[u8], mut keys: Vec<[u8; 32]>) -> Option<Plain> {
    keys.sort();
    if keys.is_empty() || keys.windows(2).any(|pair| pair[0] == pair[1]) {
        return None;
    }
    let names = ["_NOTARIZE", "_NULLIFY", "_FINALIZE"].map(|suffix| {
        let mut name = Vec::new();
        push_number(&mut name, (base.len() + suffix.len()) as u64);
        name.extend_from_slice(base);
        name.extend_from_slice(suffix.as_bytes());
        name
    });
    Some(Plain { names, keys })
}

fn key(text: &str) -> Option<[u8; 32]> {
    if text.len() != 64 || !text.bytes().all(|byte| byte.is_ascii_hexdigit()) {
        return None;
    }
    Some(std::array::from_fn(|i| u8::from_str_radix(&text[2 * i..2 * i + 2], 16).unwrap()))
}

/// The committee whose keys these texts are.
fn committee(base: &str, texts: &[String]) -> Option<Plain> {
    plain(base.as_bytes(), texts.iter().map(|text| key(text)).collect::<Option<_>>()?)
}

pub fn committees(arguments: &[String]) -> Option<Committees<Plain>> {
    let (base, mut texts) = arguments.split_first()?;
    if !texts.first()?.starts_with('@') {
        return Some(Committees::Every(committee(base, texts)?));
    }
    let mut listed = BTreeMap::new();
    while let Some((first, behind)) = texts.split_first() {
        let epoch: u64 = first.strip_prefix('@')?.parse().ok()?;
        let does_rise = listed.last_key_value().is_none_or(|(last, _)| *last < epoch);
        if *first != format!("@{epoch}") || !does_rise {
            return None;
        }
        let count = behind.iter().position(|text| text.starts_with('@')).unwrap_or(behind.len());
        listed.insert(epoch, committee(base, &behind[..count])?);
        texts = &behind[count..];
    }
    Some(Committees::Listed(listed))
}

/// Ends with a status, and says why.
fn end(status: i32, said: &str) -> ! {
    let _ = writeln!(std::io::stderr(), "{said}");
    std::process::exit(status);
}

fn main() {
    let arguments = std::env::args_os().skip(1).map(|text| text.into_string().ok()).collect::<Option<Vec<_>>>();
    let Some(committees) = arguments.and_then(|arguments| committees(&arguments)) else {
        end(2, "usage: audit NAMESPACE KEY...");
    };
    let mut auditor = Auditor::new(committees);
    let mut held: Vec<u8> = Vec::new();
    loop {
        let piece = held.len().max(65536) as u64;
        match std::io::stdin().take(piece).read_to_end(&mut held) {
            Ok(0) => break,
            Ok(_) => {}
            Err(_) => end(3, "audit: read failed"),
        }
        auditor.advance(&mut held);
    }
    let mut output = std::io::stdout();
    if output.write_all(auditor.text().as_bytes()).and_then(|()| output.flush()).is_err() {
        end(3, "audit: write failed");
    }
    if !held.is_empty() {
        end(1, &format!("audit: fault at byte {}", auditor.place));
    }
}
