//! `inspect` as one would write it by hand in Rust, over the reader of `by_hand.rs`: what the proved program is measured against.
//! A fault has no line.

#[allow(dead_code)]
#[path = "by_hand.rs"]
mod by_hand;

use by_hand::{Attestation, Committees, Message, Plain, Reader, Scheme, Subject, VoteKind, committees};
use std::io::{Read, Write};

const KINDS: [&str; 10] = [
    "notarize", "notarization", "certification", "nullify", "nullification", "finalize", "finalization", "conflicting-notarize",
    "conflicting-finalize", "nullify-finalize",
];
const VOTES: [&str; 3] = ["notarize", "nullify", "finalize"];

struct Lines<'a> {
    committees: Option<&'a Committees<Plain>>,
    hashed: Vec<u8>,
    text: Vec<u8>,
}

impl Lines<'_> {
    fn push(&mut self, text: &str) {
        self.text.extend_from_slice(text.as_bytes());
    }

    fn hexadecimal(&mut self, bytes: &[u8]) {
        for byte in bytes {
            self.text.extend([byte >> 4, byte & 15].map(|digit| b"0123456789abcdef"[digit as usize]));
        }
    }

    fn judged(&mut self, why: Option<&str>) {
        match why {
            None => self.push(",\"valid\":true"),
            Some(why) => write!(self.text, ",\"valid\":false,\"why\":\"{why}\"").unwrap(),
        }
    }

    fn statement(&mut self, subject: &Subject, listed: &[Attestation], is_certificate: bool) {
        write!(self.text, "{{\"vote\":\"{}\"", VOTES[subject.kind as usize]).unwrap();
        if subject.kind != VoteKind::Nullify {
            write!(self.text, ",\"parent\":{},\"payload\":\"", subject.proposal.parent).unwrap();
            self.hexadecimal(&subject.proposal.payload);
            self.push("\"");
        }
        self.push(",\"signatures\":[");
        let committee = self.committees.map(|committees| committees.get(subject.round.0));
        let mut valid = 0;
        for (place, (signer, signature)) in listed.iter().enumerate() {
            self.push(if place > 0 { "," } else { "" });
            write!(self.text, "{{\"signer\":{signer},\"signature\":\"").unwrap();
            self.hexadecimal(signature);
            self.push("\"");
            if let Some(committee) = committee {
                let why = match committee {
                    None => Some("no committee for the epoch"),
                    Some(committee) if *signer as usize >= committee.participants() => Some("signer outside the committee"),
                    Some(committee) if committee.is_good(&mut self.hashed, subject, (*signer, signature)) => None,
                    Some(_) => Some("signature does not verify"),
                };
                valid += usize::from(why.is_none());
                self.judged(why);
            }
            self.push("}");
        }
        self.push("]");
        if let (true, Some(committee)) = (is_certificate, committee) {
            self.judged(match committee {
                None => Some("no committee for the epoch"),
                Some(committee) if listed.len() + committee.faults() < committee.participants() => Some("fewer signatures than a quorum"),
                Some(_) if valid < listed.len() => Some("a listed signature is not valid"),
                Some(_) => None,
            });
        }
        self.push("}");
    }

    fn line(&mut self, offset: usize, bytes: &[u8], message: &Message) {
        let (Message::Vote(first, _) | Message::Certificate(first, _) | Message::Evidence([(first, _), _])) = message;
        let (epoch, view) = first.round;
        write!(self.text, "{{\"offset\":{offset},\"length\":{},\"kind\":\"{}\"", bytes.len(), KINDS[bytes[0] as usize]).unwrap();
        write!(self.text, ",\"epoch\":{epoch},\"view\":{view},\"statements\":[").unwrap();
        match message {
            Message::Vote(subject, attestation) => self.statement(subject, &[*attestation], false),
            Message::Certificate(subject, listed) => self.statement(subject, listed, true),
            Message::Evidence([one, other]) => {
                self.statement(&one.0, &[one.1], false);
                self.push(",");
                self.statement(&other.0, &[other.1], false);
            }
        }
        self.push("]}\n");
    }
}

fn main() {
    let arguments: Vec<String> = std::env::args().skip(1).collect();
    let given = if arguments.is_empty() { None } else { Some(committees(&arguments).expect("committees")) };
    let mut lines = Lines { committees: given.as_ref(), hashed: Vec::new(), text: Vec::new() };
    let (mut held, mut offset) = (Vec::new(), 0);
    while std::io::stdin().take(65536).read_to_end(&mut held).unwrap() > 0 {
        let mut reader = match &given {
            None => Reader { rest: &held, signature_bytes: 32, bound: u64::from(u32::MAX) },
            Some(committees) => committees.reader(&held),
        };
        loop {
            let before = reader.rest;
            let Some(message) = reader.next() else { break };
            let bytes = &before[..before.len() - reader.rest.len()];
            lines.line(offset, bytes, &message);
            offset += bytes.len();
        }
        let count = held.len() - reader.rest.len();
        held.drain(..count);
        std::io::stdout().write_all(&lines.text).unwrap();
        lines.text.clear();
    }
}
