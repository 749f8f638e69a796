//! Random committees and streams for `bench/fuzz`.

use super::by_hand::{push_number, sha256};
use super::calls::Committees;

/// SplitMix64.
pub struct Random(pub u64);

impl Random {
    pub fn next(&mut self) -> u64 {
        self.0 = self.0.wrapping_add(0x9e3779b97f4a7c15);
        let mut z = self.0;
        z = (z ^ (z >> 30)).wrapping_mul(0xbf58476d1ce4e5b9);
        z = (z ^ (z >> 27)).wrapping_mul(0x94d049bb133111eb);
        z ^ (z >> 31)
    }

    pub fn below(&mut self, bound: u64) -> u64 {
        self.next() % bound
    }

    pub fn one_in(&mut self, number: u64) -> bool {
        self.below(number) == 0
    }

    pub fn pick<T: Copy>(&mut self, from: &[T]) -> T {
        from[self.below(from.len() as u64) as usize]
    }

    fn bytes(&mut self) -> [u8; 32] {
        std::array::from_fn(|_| self.next() as u8)
    }

    fn shuffle<T>(&mut self, list: &mut [T]) {
        for i in (1..list.len()).rev() {
            list.swap(i, self.below(i as u64 + 1) as usize);
        }
    }

    /// A 64-bit number: a small one, one beside an edge of an encoding or of a type, or any.
    fn number(&mut self) -> u64 {
        match self.below(6) {
            0 | 1 => self.below(4),
            2 => (1 << (7 * (1 + self.below(9)))) - 1 + self.below(2),
            3 => self
                .pick(&[1 << 31, 1 << 32, 1 << 53, 1 << 62, 1 << 63, u64::MAX])
                .wrapping_sub(1)
                .saturating_add(self.below(3)),
            4 => u64::MAX - self.below(3),
            _ => self.next() >> self.below(64),
        }
    }
}

/// A key that shares some of its first bytes with others.
fn key(random: &mut Random, common: &[u8; 32]) -> [u8; 32] {
    let (mut key, shared) = (random.bytes(), random.pick(&[0, 1, 2, 2, 3, 8, 31]));
    key[..shared].copy_from_slice(&common[..shared]);
    key
}

/// The number of participants of a committee.
fn size(random: &mut Random) -> u32 {
    if random.one_in(24) { 130 } else { 1 + random.below(7) as u32 }
}

/// The base of namespaces. Those of 118 and 119 bytes have namespaces of 126 to 128 bytes, whose lengths have one byte and two.
fn base(random: &mut Random) -> Vec<u8> {
    let length = match random.below(4) {
        0 => random.pick(&[0, 118, 119, 120]),
        1 => random.below(8),
        2 => random.below(128),
        _ => random.below(300),
    };
    (0..length).map(|_| random.next() as u8).collect()
}

/// The keys of a committee, in any order.
fn keys(random: &mut Random, common: &[u8; 32]) -> Vec<[u8; 32]> {
    let mut keys: Vec<[u8; 32]> = (0..size(random)).map(|_| key(random, common)).collect();
    keys.sort();
    keys.dedup();
    random.shuffle(&mut keys);
    keys
}

pub fn committees(random: &mut Random) -> Committees {
    let (is_plain, signature) = (random.one_in(2), random.pick(&[48, 64, 64, 96]));
    let mut epochs = Vec::new();
    if !random.one_in(if is_plain { 2 } else { 8 }) {
        epochs.extend((0..3).map(|_| random.number()));
        epochs.sort();
        epochs.dedup();
    }
    let count = epochs.len().max(1);
    if is_plain {
        let common = random.bytes();
        let mut keys: Vec<_> = (0..count).map(|_| keys(random, &common)).collect();
        if random.one_in(4) {
            keys[count - 1] = keys[0].clone();
        }
        return Committees::Plain { base: base(random), epochs, keys };
    }
    Committees::Vouched { signature, epochs, sizes: (0..count).map(|_| size(random)).collect() }
}

#[derive(Clone, Copy, PartialEq)]
enum Kind {
    Notarize,
    Nullify,
    Finalize,
}

const KINDS: [Kind; 3] = [Kind::Notarize, Kind::Nullify, Kind::Finalize];

/// What the messages of a stream are about: few rounds and few proposals, so that votes contradict and certificates too.
struct Scene<'a> {
    committees: &'a Committees,
    /// The keys of each committee of the plain scheme in ascending order: the participants.
    keys: Vec<Vec<[u8; 32]>>,
    rounds: Vec<(u64, u64)>,
    parents: [u64; 2],
    payloads: [[u8; 32]; 2],
}

/// An epoch with a committee, or now and then one beside it.
fn epoch(random: &mut Random, committees: &Committees) -> u64 {
    match committees.epochs() {
        [] => random.number(),
        epochs => {
            let epoch = random.pick(epochs);
            if random.one_in(6) { epoch.wrapping_add(1) } else { epoch }
        }
    }
}

fn scene<'a>(random: &mut Random, committees: &'a Committees) -> Scene<'a> {
    let mut keys = match committees {
        Committees::Plain { keys, .. } => keys.clone(),
        Committees::Vouched { .. } => Vec::new(),
    };
    keys.iter_mut().for_each(|keys| keys.sort());
    let (view, payload, parent) = (random.number(), random.bytes(), random.number());
    let views = [view, view, view.wrapping_add(1), view ^ (1 << 63), view ^ (1 << 32), random.number()];
    let rounds = (0..1 + random.below(3)).map(|_| (epoch(random, committees), random.pick(&views))).collect();
    let mut other = payload;
    other[random.below(32) as usize] ^= 1 << random.below(8);
    Scene {
        committees,
        keys,
        rounds,
        parents: [parent, random.pick(&[parent, parent ^ (1 << 63), parent ^ 1])],
        payloads: [payload, other],
    }
}

impl Scene<'_> {
    fn size(&self, round: (u64, u64)) -> u64 {
        u64::from(self.committees.size(round.0).unwrap_or(self.committees.greatest_size()))
    }

    /// The encoding of a proposal, or of the round of a nullify.
    fn subject(&self, random: &mut Random, kind: Kind, round: (u64, u64)) -> Vec<u8> {
        let mut bytes = Vec::new();
        put_number(random, &mut bytes, round.0);
        put_number(random, &mut bytes, round.1);
        if kind != Kind::Nullify {
            let (parent, payload) = (random.pick(&self.parents), random.pick(&self.payloads));
            put_number(random, &mut bytes, parent);
            bytes.extend(payload);
        }
        bytes
    }

    /// A signature under the plain scheme, or any bytes and a verdict. One that is not valid is of any participant, of any kind
    /// or changed in a bit.
    fn signature(
        &self,
        random: &mut Random,
        (kind, signer): (Kind, u64),
        round: (u64, u64),
        subject: &[u8],
        is_valid: bool,
    ) -> Vec<u8> {
        match self.committees {
            Committees::Vouched { signature, .. } => {
                let verdict = if is_valid { 1 } else { random.pick(&[0, 2, 255]) };
                [vec![8 + u8::from(random.one_in(4)); *signature], vec![verdict]].concat()
            }
            Committees::Plain { base, .. } => {
                // in an epoch without a committee, and now and then in another, with the keys of any
                let place = self.committees.place(round.0).filter(|_| is_valid || !random.one_in(4));
                let keys = &self.keys[place.unwrap_or(random.below(self.keys.len() as u64) as usize)];
                if is_valid {
                    return hash(keys, base, kind, signer, subject).to_vec();
                }
                match random.below(3) {
                    0 => hash(keys, base, kind, random.below(keys.len() as u64), subject).to_vec(),
                    1 => hash(keys, base, random.pick(&KINDS), signer, subject).to_vec(),
                    _ => {
                        let mut hash = hash(keys, base, kind, signer, subject);
                        hash[random.below(32) as usize] ^= 1 << random.below(8);
                        hash.to_vec()
                    }
                }
            }
        }
    }

    /// A participant of a committee, or now and then one behind the last.
    fn signer(&self, random: &mut Random, round: (u64, u64)) -> u64 {
        let size = self.size(round);
        if random.one_in(16) { size + random.below(2) } else { random.below(size) }
    }

    fn put_vote(
        &self,
        random: &mut Random,
        bytes: &mut Vec<u8>,
        (kind, signer): (Kind, u64),
        round: (u64, u64),
        subject: &[u8],
    ) {
        let is_valid = !random.one_in(8);
        bytes.extend(subject);
        put_number(random, bytes, signer);
        bytes.extend(self.signature(random, (kind, signer), round, subject, is_valid));
    }

    /// Two votes of a signer in a round, which mostly contradict; now and then of two signers, two rounds or one proposal.
    fn put_evidence(&self, random: &mut Random, bytes: &mut Vec<u8>, [first, second]: [Kind; 2], round: (u64, u64)) {
        let signer = self.signer(random, round);
        let subject = self.subject(random, first, round);
        self.put_vote(random, bytes, (first, signer), round, &subject);
        let other_round = if random.one_in(24) { random.pick(&self.rounds) } else { round };
        let other_signer = if random.one_in(24) { self.signer(random, round) } else { signer };
        let mut other = self.subject(random, second, other_round);
        while other == subject && !random.one_in(8) {
            other = self.subject(random, second, round);
        }
        self.put_vote(random, bytes, (second, other_signer), other_round, &other);
    }

    /// The signers of a certificate: a quorum, about as many, or any number; now and then as no certificate may list them.
    fn signers(&self, random: &mut Random, round: (u64, u64)) -> Vec<u64> {
        let size = self.size(round);
        let quorum = size - (size - 1) / 3;
        let count = match random.below(8) {
            0 => quorum - 1,
            1 => quorum + 1,
            2 => size,
            3 => 1 + random.below(size),
            _ => quorum,
        };
        let mut signers: Vec<u64> = (0..size).collect();
        random.shuffle(&mut signers);
        signers.truncate(count as usize);
        signers.sort();
        match random.below(48) {
            0 => signers.push(size + random.below(2)),
            1 => signers.extend(signers.last().copied()),
            2 => signers.reverse(),
            _ => {}
        }
        signers
    }

    fn put_certificate(&self, random: &mut Random, bytes: &mut Vec<u8>, kind: Kind, round: (u64, u64)) {
        let (subject, signers, is_sound) = (self.subject(random, kind, round), self.signers(random, round), !random.one_in(4));
        bytes.extend(&subject);
        put_number(random, bytes, signers.len() as u64);
        for signer in signers {
            let is_valid = is_sound || !random.one_in(4);
            put_number(random, bytes, signer);
            bytes.extend(self.signature(random, (kind, signer), round, &subject, is_valid));
        }
    }

    fn put_message(&self, random: &mut Random, bytes: &mut Vec<u8>) {
        use Kind::*;
        let (tag, round) = (random.below(10), random.pick(&self.rounds));
        bytes.push(tag as u8);
        match tag {
            0 | 3 | 5 => {
                let kind = KINDS[tag as usize / 2];
                let (signer, subject) = (self.signer(random, round), self.subject(random, kind, round));
                self.put_vote(random, bytes, (kind, signer), round, &subject);
            }
            1 | 2 | 4 | 6 => {
                self.put_certificate(random, bytes, [Notarize, Notarize, Nullify, Finalize][tag as usize / 2], round)
            }
            7 => self.put_evidence(random, bytes, [Notarize, Notarize], round),
            8 => self.put_evidence(random, bytes, [Finalize, Finalize], round),
            _ => self.put_evidence(random, bytes, [Nullify, Finalize], round),
        }
    }
}

/// The signature of the plain scheme, of a participant of the committee of these keys.
fn hash(keys: &[[u8; 32]], base: &[u8], kind: Kind, signer: u64, subject: &[u8]) -> [u8; 32] {
    let name = [&b"_NOTARIZE"[..], b"_NULLIFY", b"_FINALIZE"][kind as usize];
    let mut signed = Vec::new();
    push_number(&mut signed, (base.len() + name.len()) as u64);
    let key = keys.get(signer as usize).unwrap_or(&[0; 32]);
    signed.extend([base, name, key, subject].concat());
    sha256(&signed)
}

/// Encodes a number, and now and then breaks the encoding: by a needless last group, by a last byte of ten or of five that is
/// too large, by too many bytes, or by a bit.
fn put_number(random: &mut Random, bytes: &mut Vec<u8>, number: u64) {
    let start = bytes.len();
    push_number(bytes, number);
    if !random.one_in(1000) {
        return;
    }
    match random.below(4) {
        0 => {
            *bytes.last_mut().unwrap() |= 0x80;
            bytes.push(0);
        }
        1 => {
            let last = bytes.pop().unwrap();
            bytes.resize(start + random.pick(&[4, 9]), last | 0x80);
            bytes.push(random.pick(&[1, 2, 0x0f, 0x10, 0x7f]));
        }
        2 => {
            bytes.resize(start + 10, 0xff);
            bytes.push(1);
        }
        _ => *bytes.last_mut().unwrap() ^= 1 << random.below(8),
    }
}

/// Changes, adds, removes, repeats or cuts some bytes.
pub fn mutate(random: &mut Random, bytes: &mut Vec<u8>) {
    if bytes.is_empty() {
        return;
    }
    let place = random.below(bytes.len() as u64) as usize;
    let end = bytes.len().min(place + 1 + random.below(80) as usize);
    match random.below(7) {
        0 => bytes[place] ^= 1 << random.below(8),
        1 => bytes[place] = random.pick(&[0, 1, 0x7f, 0x80, 0xff]),
        2 => bytes.insert(place, random.next() as u8),
        3 => drop(bytes.remove(place)),
        4 => bytes.truncate(place),
        5 => {
            let copied = bytes[place..end].to_vec();
            let to = random.below(bytes.len() as u64 + 1) as usize;
            drop(bytes.splice(to..to, copied));
        }
        _ => drop(bytes.drain(place..end)),
    }
}

/// Some messages of all kinds, some of them twice, and then perhaps changed.
pub fn stream(random: &mut Random, committees: &Committees) -> Vec<u8> {
    let scene = scene(random, committees);
    let mut bytes = Vec::new();
    for _ in 0..random.below(12) {
        let start = bytes.len();
        scene.put_message(random, &mut bytes);
        if random.one_in(8) {
            bytes.extend_from_within(start..);
        }
    }
    for _ in 0..random.pick(&[0, 0, 0, 0, 0, 1, 1, 2, 4]) {
        mutate(random, &mut bytes);
    }
    bytes
}
