//! What the header bindings/simplex_audit.h declares: its structures and its calls. `bench/fuzz` takes this file as it is.

/// `struct simplex_summary`.
#[repr(C)]
#[derive(Clone, Copy, Debug, Default, PartialEq)]
pub(crate) struct Summary {
    pub read: usize,
    pub evidence: usize,
    pub splits: usize,
    pub faulted: usize,
    pub fault_place: usize,
    pub length: usize,
}

/// `struct simplex_attestation`.
#[repr(C)]
#[derive(Clone, Copy, Debug, Default, PartialEq)]
pub(crate) struct AttestationPlace {
    pub epoch: u64,
    pub view: u64,
    pub verdict_place: usize,
    pub subject_place: usize,
    pub subject_length: usize,
    pub signer: u32,
    pub kind: u32,
}

/// `struct simplex_vote_place`.
#[repr(C)]
#[derive(Clone, Copy, Debug, Default, PartialEq)]
pub(crate) struct VotePlace {
    pub subject_place: usize,
    pub subject_length: usize,
    pub verdict_place: usize,
    pub signer: u32,
    pub kind: u32,
}

/// `struct simplex_suspect`: the members of an attestation, and one more.
#[repr(C)]
#[derive(Clone, Copy, Debug, Default, PartialEq)]
pub(crate) struct Suspect {
    pub place: AttestationPlace,
    pub first: usize,
}

/// `struct simplex_record`.
#[repr(C)]
#[derive(Clone, Copy, Debug, Default, PartialEq)]
pub(crate) struct Record {
    pub epoch: u64,
    pub view: u64,
    pub first_place: usize,
    pub second_place: usize,
    pub first_vote: VotePlace,
    pub second_vote: VotePlace,
    pub signer: u32,
    pub kind: u32,
}

/// A message of a stream: `struct simplex_row`.
#[repr(C)]
#[derive(Clone, Copy, Debug, Default, PartialEq, Eq)]
pub struct Row {
    /// The epoch of its round.
    pub epoch: u64,
    /// The view of its round.
    pub view: u64,
    /// The offset of its first byte in the stream.
    pub place: usize,
    /// The number of its bytes.
    pub length: usize,
    /// How many attestations it has: one of a vote, two of evidence, and those that a certificate lists.
    pub attestations: usize,
    /// The number of its kind, 0 to 9: the tag with which it is encoded.
    pub kind: u32,
}

/// Bytes of a stream that stand together: `struct simplex_range`.
#[repr(C)]
#[derive(Clone, Copy, Debug, Default, PartialEq, Eq)]
pub struct Range {
    /// The offset of the first of them in the stream.
    pub place: usize,
    /// How many there are.
    pub length: usize,
}

/// `struct simplex_message`.
#[repr(C)]
#[derive(Clone, Copy, Debug, Default, PartialEq)]
pub(crate) struct MessageHead {
    pub epoch: u64,
    pub view: u64,
    pub parent: u64,
    pub second_parent: u64,
    pub length: usize,
    pub attestations: usize,
    pub kind: u32,
}

/// `struct simplex_accusation`.
#[repr(C)]
#[derive(Clone, Copy, Debug, Default, PartialEq)]
pub(crate) struct AccusationRecord {
    pub epoch: u64,
    pub view: u64,
    pub signer: u32,
    pub kind: u32,
    pub proved: u32,
}

#[rustfmt::skip]
extern "C" {
    pub(crate) fn simplex_version() -> u32;
    pub(crate) fn simplex_audit(
        signature: u32, epochs: *const u64, epochs_len: usize, sizes: *const u32, sizes_len: usize, stream: *const u8,
        stream_len: usize, text: *mut u8, text_len: usize, summary: *mut Summary,
    ) -> u32;
    pub(crate) fn simplex_audit_plain(
        name: *const u8, name_len: usize, epochs: *const u64, epochs_len: usize, sizes: *const u32, sizes_len: usize,
        keys: *const u8, keys_len: usize, stream: *const u8, stream_len: usize, text: *mut u8, text_len: usize,
        summary: *mut Summary,
    ) -> u32;
    pub(crate) fn simplex_store(
        signature: u32, epochs: *const u64, epochs_len: usize, sizes: *const u32, sizes_len: usize, stored: *const u8,
        stored_len: usize, batch: *const u8, batch_len: usize, evidence: *mut u8, evidence_len: usize, size: *mut usize,
    ) -> u32;
    pub(crate) fn simplex_store_plain(
        name: *const u8, name_len: usize, epochs: *const u64, epochs_len: usize, sizes: *const u32, sizes_len: usize,
        keys: *const u8, keys_len: usize, stored: *const u8, stored_len: usize, batch: *const u8, batch_len: usize,
        evidence: *mut u8, evidence_len: usize, size: *mut usize,
    ) -> u32;
    pub(crate) fn simplex_suspects(
        signature: u32, epochs: *const u64, epochs_len: usize, sizes: *const u32, sizes_len: usize, stream: *const u8,
        stream_len: usize, records: *mut Suspect, records_len: usize, needed: *mut usize,
    ) -> u32;
    pub(crate) fn simplex_records(
        signature: u32, epochs: *const u64, epochs_len: usize, sizes: *const u32, sizes_len: usize, stream: *const u8,
        stream_len: usize, records: *mut Record, records_len: usize, summary: *mut Summary,
    ) -> u32;
    pub(crate) fn simplex_records_plain(
        name: *const u8, name_len: usize, epochs: *const u64, epochs_len: usize, sizes: *const u32, sizes_len: usize,
        keys: *const u8, keys_len: usize, stream: *const u8, stream_len: usize, records: *mut Record, records_len: usize,
        summary: *mut Summary,
    ) -> u32;
    pub(crate) fn simplex_refusal(
        signature: u32, epochs: *const u64, epochs_len: usize, sizes: *const u32, sizes_len: usize,
    ) -> u32;
    pub(crate) fn simplex_refusal_plain(
        epochs: *const u64, epochs_len: usize, sizes: *const u32, sizes_len: usize, keys: *const u8, keys_len: usize,
    ) -> u32;
    pub(crate) fn simplex_index(
        signature: u32, bound: u32, stream: *const u8, stream_len: usize, rows: *mut Row, rows_len: usize,
        summary: *mut Summary,
    ) -> u32;
    pub(crate) fn simplex_class_of(epoch: u64, view: u64, seed: u64, classes: u32) -> u32;
    pub(crate) fn simplex_ranges(
        rows: *const Row, rows_len: usize, seed: u64, classes: u32, which: u32, ranges: *mut Range, ranges_len: usize,
        needed: *mut usize,
    ) -> u32;
    pub(crate) fn simplex_class_ranges(
        signature: u32, bound: u32, stream: *const u8, stream_len: usize, seed: u64, ranges: *mut Range, ranges_len: usize,
        ends: *mut usize, ends_len: usize, summary: *mut Summary,
    ) -> u32;
    pub(crate) fn simplex_audit_ranges(
        signature: u32, epochs: *const u64, epochs_len: usize, sizes: *const u32, sizes_len: usize, stream: *const u8,
        stream_len: usize, ranges: *const Range, ranges_len: usize, text: *mut u8, text_len: usize, summary: *mut Summary,
    ) -> u32;
    pub(crate) fn simplex_audit_ranges_plain(
        name: *const u8, name_len: usize, epochs: *const u64, epochs_len: usize, sizes: *const u32, sizes_len: usize,
        keys: *const u8, keys_len: usize, stream: *const u8, stream_len: usize, ranges: *const Range, ranges_len: usize,
        text: *mut u8, text_len: usize, summary: *mut Summary,
    ) -> u32;
    pub(crate) fn simplex_signed_bytes(
        name: *const u8, name_len: usize, kind: u32, epoch: u64, view: u64, parent: u64, payload: *const u8,
        payload_len: usize, bytes: *mut u8, bytes_len: usize, size: *mut usize,
    ) -> u32;
    pub(crate) fn simplex_write_vote(
        signature: u32, kind: u32, epoch: u64, view: u64, parent: u64, payload: *const u8, payload_len: usize, signer: u32,
        attested: *const u8, attested_len: usize, message: *mut u8, message_len: usize, size: *mut usize,
    ) -> u32;
    pub(crate) fn simplex_write_certificate(
        signature: u32, kind: u32, epoch: u64, view: u64, parent: u64, payload: *const u8, payload_len: usize,
        signers: *const u32, signers_len: usize, attested: *const u8, attested_len: usize, message: *mut u8,
        message_len: usize, size: *mut usize,
    ) -> u32;
    pub(crate) fn simplex_read_message(
        signature: u32, bound: u32, bytes: *const u8, bytes_len: usize, attestations: *mut AttestationPlace,
        attestations_len: usize, message: *mut MessageHead,
    ) -> u32;
    pub(crate) fn simplex_verify_evidence(
        signature: u32, epochs: *const u64, epochs_len: usize, sizes: *const u32, sizes_len: usize, evidence: *const u8,
        evidence_len: usize, accusation: *mut AccusationRecord,
    ) -> u32;
    pub(crate) fn simplex_verify_evidence_plain(
        name: *const u8, name_len: usize, epochs: *const u64, epochs_len: usize, sizes: *const u32, sizes_len: usize,
        keys: *const u8, keys_len: usize, evidence: *const u8, evidence_len: usize, accusation: *mut AccusationRecord,
    ) -> u32;
    pub(crate) fn simplex_max_faults(n: u32) -> u32;
    pub(crate) fn simplex_quorum(n: u32) -> u32;
    pub(crate) fn simplex_admits(term_length: u32, optimistic_views: u64, current: u64, pending: u64) -> u32;
    pub(crate) fn simplex_admits_outbound(term_length: u32, optimistic_views: u64, current: u64, pending: u64) -> u32;
    pub(crate) fn simplex_issuance_floor(term_length: u32, optimistic_views: u64, view: u64, floor: *mut u64) -> u32;
    pub(crate) fn simplex_leader(participants: u32, term_length: u32, epoch: u64, view: u64, number: *mut u32) -> u32;
    pub(crate) fn simplex_leader_shuffled(
        seed: *const u8, seed_len: usize, participants: u32, term_length: u32, epoch: u64, view: u64, number: *mut u32,
    ) -> u32;
}

/// `struct simplex_auditor`: a handle, which only the calls below change.
#[repr(C)]
pub(crate) struct Auditor {
    pub state: *mut std::ffi::c_void,
}

#[rustfmt::skip]
extern "C" {
    pub(crate) fn simplex_auditor_new(
        signature: u32, epochs: *const u64, epochs_len: usize, sizes: *const u32, sizes_len: usize, held: *const u8,
        held_len: usize, auditor: *mut Auditor,
    ) -> u32;
    pub(crate) fn simplex_auditor_new_plain(
        name: *const u8, name_len: usize, epochs: *const u64, epochs_len: usize, sizes: *const u32, sizes_len: usize,
        keys: *const u8, keys_len: usize, held: *const u8, held_len: usize, auditor: *mut Auditor,
    ) -> u32;
    pub(crate) fn simplex_auditor_feed(auditor: *mut Auditor, bytes: *const u8, bytes_len: usize) -> u32;
    pub(crate) fn simplex_auditor_unverified(
        auditor: *mut Auditor, bytes: *const u8, bytes_len: usize, records: *mut Suspect, records_len: usize,
        needed: *mut usize, whole: *mut usize,
    ) -> u32;
    pub(crate) fn simplex_auditor_report(
        auditor: *mut Auditor, text: *mut u8, text_len: usize, summary: *mut Summary,
    ) -> u32;
    pub(crate) fn simplex_auditor_news(auditor: *mut Auditor, text: *mut u8, text_len: usize, length: *mut usize) -> u32;
    pub(crate) fn simplex_auditor_prune(auditor: *mut Auditor, epoch: u64, view: u64) -> u32;
    pub(crate) fn simplex_auditor_votes(auditor: *mut Auditor, votes: *mut usize) -> u32;
    pub(crate) fn simplex_auditor_held(auditor: *mut Auditor, bytes: *mut u8, bytes_len: usize, length: *mut usize) -> u32;
    pub(crate) fn simplex_auditor_free(auditor: *mut Auditor) -> u32;
}
