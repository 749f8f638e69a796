/*
 * The auditor of simplex_messages for callers that speak the C ABI. It reads a stream of consensus
 * messages (docs/FORMAT.md) and reports exactly the participants who signed two contradictory
 * votes, each once for each round and kind.
 *
 * Link libsimplex_audit.a, which `make library` builds in bindings/out (docs/BINDINGS.md).
 *
 * Ownership: every buffer is the caller's. No call keeps a pointer, and none returns memory that
 *   has to be freed, but for simplex_auditor_new and .._new_plain: simplex_auditor_free frees it.
 * Pointers: none may be NULL, not even that of an empty slice, and each has the alignment of its
 *   type. What is written (text, evidence, records, rows, ranges, summary, size, needed, floor,
 *   number) overlaps nothing else that is passed. Nothing checks this at run time; GCC and Clang
 *   warn of a NULL that they can see.
 * Lengths: the length of a slice counts its elements: bytes, epochs, sizes, records, rows, ranges.
 *   A slice may be empty.
 * Threads: the library has no state. Calls may run in several threads at once if no buffer that is
 *   written is shared, but not in a signal handler, nor in the forked child of a process with
 *   threads.
 * Memory: malloc, realloc and free of the process. The library never aborts, never unwinds, and
 *   does no input or output.
 * Sizes: a number in `sizes` decides how much is allocated, so bound it if it comes from a network.
 *   A committee takes 4 bytes for each of its participants, in each call; the greatest size, 2^32 -
 *   1, takes 16 gigabytes. A round of an audit takes 8 bytes more for each of them with the first
 *   vote in each of its five vote maps, so at most 40 (docs/MEMORY.md).
 *   simplex_leader_shuffled takes up to 100 bytes for each participant while it sorts them.
 *   simplex_leader and the calls of views and quorums take no memory.
 */
#ifndef SIMPLEX_AUDIT_H
#define SIMPLEX_AUDIT_H

#include <stddef.h>
#include <stdint.h>

#if defined(__GNUC__) || defined(__clang__)
#define SIMPLEX_NONNULL __attribute__((nonnull))
#else
#define SIMPLEX_NONNULL
#endif

#ifdef __cplusplus
extern "C" {
#endif

/*
 * The version of these calls. It rises where a call is renamed or returns something else; calls may be
 * added without. Version 2 has the size of a signature as an argument: what was
 * simplex_audit_vouched_64 is simplex_audit, whose first argument is 64, and so with the others.
 */
#define SIMPLEX_VERSION 2u
uint32_t simplex_version(void);

/* How a call ended that audits, stores, lists, cuts or elects. */
#define SIMPLEX_WHOLE 0u     /* Success. The buffer is written, and an audit found no fault. */
#define SIMPLEX_FAULT 1u     /* The byte at `fault_place` starts no message. The messages before it
                                were audited or listed, and the buffer is written. */
#define SIMPLEX_ARGUMENTS 2u /* The arguments are no committees (simplex_refusal says why), or what
                                the call says. Nothing was written. */
#define SIMPLEX_MEMORY 3u    /* An allocation failed. Nothing was written. */
#define SIMPLEX_SHORT 4u     /* The buffer is too short, and as before. The length that is needed is
                                written: call again. */

/* The numbers of a report. */
struct simplex_summary {
    size_t read;        /* messages */
    size_t evidence;    /* lines of evidence */
    size_t splits;      /* lines of splits */
    size_t faulted;     /* 1 where the stream has a fault, else 0 */
    size_t fault_place; /* the 0-based offset of the first byte that starts no message, or 0 */
    size_t length;      /* bytes of the text */
};

/*
 * Audits a stream whose signatures the caller verified (docs/SIGNATURES.md). In the stream each
 * signature has `signature` bytes, 48, 64 or 96 (BLS12-381 in G1, Ed25519, BLS12-381 in G2), and one
 * byte more, the caller's verdict: 01 where the caller found the signature valid for this signer and this
 * vote, and 00 where it did not. With any other byte the signature is not valid. Payloads have 32
 * bytes.
 *
 * `sizes` are the numbers of participants of the committees, each at least 1. Without epochs there
 * is one size, that of the committee for every epoch; else the epochs rise strictly, and each has
 * the size at its place. Other epochs have no committee, and nothing is valid in them.
 * SIMPLEX_ARGUMENTS also, here and in the calls below: `signature` is none of these.
 *
 * The first `summary->length` bytes of `text` are then the lines of the report (docs/FORMAT.md),
 * with no zero byte behind them; the bytes behind them are as before.
 */
SIMPLEX_NONNULL
uint32_t simplex_audit(uint32_t signature, const uint64_t *epochs, size_t epochs_len,
                       const uint32_t *sizes, size_t sizes_len, const uint8_t *stream,
                       size_t stream_len, uint8_t *text, size_t text_len,
                       struct simplex_summary *summary);

/* The kind of an evidence in a record, in the order of the report. */
#define SIMPLEX_CONFLICTING_NOTARIZE 0u /* two notarizes for different proposals */
#define SIMPLEX_CONFLICTING_FINALIZE 1u /* two finalizes for different proposals */
#define SIMPLEX_NULLIFY_FINALIZE 2u     /* a nullify, and then a finalize */

/* The kind of a vote. */
#define SIMPLEX_NOTARIZE 0u
#define SIMPLEX_NULLIFY 1u
#define SIMPLEX_FINALIZE 2u

/* A vote of an evidence, as it stands in the stream. */
struct simplex_vote_place {
    size_t subject_place;  /* the 0-based offset of its subject, the message that is signed */
    size_t subject_length; /* bytes of the subject */
    size_t verdict_place;  /* the 0-based offset of its verdict, the byte behind the signature; under
                              the plain scheme of the signature's last byte */
    uint32_t signer;       /* below the size of the epoch's committee */
    uint32_t kind;         /* SIMPLEX_NOTARIZE, SIMPLEX_NULLIFY or SIMPLEX_FINALIZE */
};

/* An evidence of a report, and where its two votes stand in the stream. */
struct simplex_record {
    uint64_t epoch;      /* of the round of both votes */
    uint64_t view;       /* of that round */
    size_t first_place;  /* the 0-based offset of the first message that carries the first vote */
    size_t second_place; /* and of the first that carries the second */
    struct simplex_vote_place first_vote;  /* the first vote, in the message at `first_place` */
    struct simplex_vote_place second_vote; /* the second, in the message at `second_place` */
    uint32_t signer;     /* of both votes, below the size of the epoch's committee */
    uint32_t kind;       /* SIMPLEX_CONFLICTING_NOTARIZE, .._CONFLICTING_FINALIZE or
                            SIMPLEX_NULLIFY_FINALIZE */
};

/*
 * Audits a stream as simplex_audit does, and writes the evidence of the report as
 * records, one for each line of evidence and in the same order. A message carries a vote if it is
 * the vote, if its certificate lists the vote, or if it is evidence with the vote; votes are the
 * same with the same kind, proposal or round, signer and signature. The place of a vote is the
 * offset of the tag of the first message that carries it. The second place may be before the
 * first, and both may be the same: evidence carries two votes.
 *
 * Take each vote from its own offsets, not from the message: a certificate or an evidence that
 * carries it may hold another vote of the signer whose signature is invalid. With n = 48, 64 or 96
 * the signature is the n bytes before `verdict_place`, and under the plain scheme the 32 bytes that
 * end with the one there. What was signed is the length of the kind's namespace, the namespace, and
 * the bytes of the subject. Both are valid, so a verdict is 01. The vote as a message, ready to hand
 * on: the tag SIMPLEX_ROW_NOTARIZE, .._NULLIFY or .._FINALIZE, the subject, and what ends with the
 * verdict: the signer's number, right before the signature, and the signature.
 *
 * `summary` is that of the audit: `evidence` is the number of records, `length` the bytes of the
 * text that simplex_audit writes. The first `summary->evidence` records are written;
 * those behind them are as before. Where `records` is too short the status is SIMPLEX_SHORT: the
 * summary is written and the records are as before. After SIMPLEX_ARGUMENTS and SIMPLEX_MEMORY both
 * are as before. Where there is evidence the stream is read twice; the second reading verifies
 * nothing.
 */
SIMPLEX_NONNULL
uint32_t simplex_records(uint32_t signature, const uint64_t *epochs, size_t epochs_len,
                         const uint32_t *sizes, size_t sizes_len, const uint8_t *stream,
                         size_t stream_len, struct simplex_record *records, size_t records_len,
                         struct simplex_summary *summary);

/* An attestation that has to be verified, and where it stands in the stream. */
struct simplex_suspect {
    uint64_t epoch;        /* of its round */
    uint64_t view;         /* of its round */
    size_t verdict_place;  /* the 0-based offset of its verdict, the byte behind the signature */
    size_t subject_place;  /* the 0-based offset of its subject, the message that is signed */
    size_t subject_length; /* bytes of the subject */
    uint32_t signer;       /* below the size of the epoch's committee */
    uint32_t kind;         /* SIMPLEX_NOTARIZE, SIMPLEX_NULLIFY or SIMPLEX_FINALIZE */
    size_t first;          /* the index in the list of the first that is the same, or its own */
};

/*
 * The first of two steps of deferred verification: lists the attestations of a stream that have to
 * be verified before the stream is audited. The stream is as simplex_audit reads it,
 * but its verdicts may still be any bytes, such as zeros. For an honest stream nothing is listed.
 *
 * A signer of a committee is suspect in a round where two votes that claim to be that signer's
 * contradict, and then the round is suspect, too. Listed are, in the order of the stream, the votes
 * of suspects in their rounds, also those in evidence; and for each certificate of a suspect round
 * all attestations whose signer is in the committee of the epoch. With n = 48, 64 or 96 the
 * signature is the n bytes before `verdict_place`, and what was signed is the length of the kind's
 * namespace, the namespace, and the bytes of the subject.
 *
 * The caller writes 01 to each `verdict_place` where it verified the signature, else 00, and
 * audits. The report depends on no verdict of another attestation (docs/BINDINGS.md, "What is
 * proved"). A vote comes as often as messages repeat it. Two are the same with the same kind,
 * subject, signer and signature: verify one whose `first` is its own index, and write the verdict of
 * `records[first]` to any other.
 *
 * The first `*needed` records are written; those behind them are as before. The status is
 * SIMPLEX_WHOLE, SIMPLEX_ARGUMENTS, SIMPLEX_MEMORY or SIMPLEX_SHORT; where `records` is too short
 * `*needed` is written, and nothing else. What is behind a fault of the stream is ignored; the
 * audit reports the fault. Votes are held before they are verified, so bound the size of a stream
 * from untrusted senders: the only vote of a round takes some 900 bytes and 8 for each participant.
 */
SIMPLEX_NONNULL
uint32_t simplex_suspects(uint32_t signature, const uint64_t *epochs, size_t epochs_len,
                          const uint32_t *sizes, size_t sizes_len, const uint8_t *stream,
                          size_t stream_len, struct simplex_suspect *records, size_t records_len,
                          size_t *needed);

/*
 * Writes the evidence of `stored` and of the messages of `batch` behind it, as messages. `stored`
 * is what an earlier call wrote, or empty; so a stream is audited batch by batch, and no handle is
 * held meanwhile. The signers whom `stored` accuses stay accused. Votes of earlier batches that
 * contradict nothing in their batch are not stored: a batch has to hold every vote of its rounds.
 * What is behind a fault of the batch is ignored, so audit the batch to learn of a fault. Nothing
 * checks `stored`: behind a fault in it no message of the batch is read, and the status is
 * SIMPLEX_WHOLE. What an earlier call wrote has no fault: audit it first, and a fault shows damage.
 * Changed or truncated bytes may have no fault, as where a signature is no longer valid; what they
 * accused is then lost: guard what you store by a checksum.
 *
 * The first `*size` bytes of `evidence` are then the messages; the bytes behind them are as before.
 * The status is SIMPLEX_WHOLE, SIMPLEX_ARGUMENTS, SIMPLEX_MEMORY or SIMPLEX_SHORT. `evidence` may
 * not overlap `stored`.
 *
 * Each call reads all of `stored` again. So a stream of n batches with an evidence each, stored one
 * behind the other, takes time in n^2. If no round comes in two batches, call with `stored` empty
 * and append what each call writes to a file: each batch is then read once, and the evidence in the
 * file is the same, in the order of the batches.
 *
 * To learn what is new, call simplex_records on `stored` with `batch` behind it: a record with
 * at least one place of `stored_len` or more is new, and any other was stored before. This too
 * reads all of `stored`, however short the batch is.
 */
SIMPLEX_NONNULL
uint32_t simplex_store(uint32_t signature, const uint64_t *epochs, size_t epochs_len,
                       const uint32_t *sizes, size_t sizes_len, const uint8_t *stored,
                       size_t stored_len, const uint8_t *batch, size_t batch_len, uint8_t *evidence,
                       size_t evidence_len, size_t *size);

/*
 * Audits, lists records and stores evidence, as the calls above, for the plain scheme, whose
 * signatures are hashes that anyone can compute. `epochs` and `sizes` are those of simplex_audit, and
 * `keys` the keys of the participants one after another, of 32 bytes each: first as many as the first
 * size says, of the first committee, then those of the second, and so on. `keys_len` counts bytes,
 * exactly 32 for each participant. The keys of a committee stand in any order, none twice; the same
 * key may be in several. A participant's number is the place of its key in ascending order among
 * those of its committee. `name` is the base of the namespaces of votes.
 */
SIMPLEX_NONNULL
uint32_t simplex_audit_plain(const uint8_t *name, size_t name_len, const uint64_t *epochs,
                             size_t epochs_len, const uint32_t *sizes, size_t sizes_len,
                             const uint8_t *keys, size_t keys_len, const uint8_t *stream,
                             size_t stream_len, uint8_t *text, size_t text_len,
                             struct simplex_summary *summary);
SIMPLEX_NONNULL
uint32_t simplex_records_plain(const uint8_t *name, size_t name_len, const uint64_t *epochs,
                               size_t epochs_len, const uint32_t *sizes, size_t sizes_len,
                               const uint8_t *keys, size_t keys_len, const uint8_t *stream,
                               size_t stream_len, struct simplex_record *records,
                               size_t records_len, struct simplex_summary *summary);
SIMPLEX_NONNULL
uint32_t simplex_store_plain(const uint8_t *name, size_t name_len, const uint64_t *epochs,
                             size_t epochs_len, const uint32_t *sizes, size_t sizes_len,
                             const uint8_t *keys, size_t keys_len, const uint8_t *stored,
                             size_t stored_len, const uint8_t *batch, size_t batch_len,
                             uint8_t *evidence, size_t evidence_len, size_t *size);

/* Why committees are refused. */
#define SIMPLEX_REFUSED_NOTHING 0u      /* They are not. */
#define SIMPLEX_REFUSED_SIGNATURE 1u    /* `signature` is not 48, 64 or 96. */
#define SIMPLEX_REFUSED_NO_COMMITTEE 2u /* There is no size, so no committee. */
#define SIMPLEX_REFUSED_COUNT 3u        /* There are not as many sizes as epochs, or without epochs
                                           more than one. */
#define SIMPLEX_REFUSED_EPOCHS 4u       /* The epochs do not rise strictly. */
#define SIMPLEX_REFUSED_EMPTY 5u        /* A size is 0. */
#define SIMPLEX_REFUSED_LENGTH 6u       /* `keys_len` is not 32 for each participant: there are too
                                           few keys, too many, or part of one. */
#define SIMPLEX_REFUSED_REPEATED 7u     /* A key stands twice in a committee. */
#define SIMPLEX_REFUSED_UNKNOWN 8u      /* An allocation failed before it was known whether a key
                                           stands twice; all before that is right. */

/*
 * Why the calls that take these arguments return SIMPLEX_ARGUMENTS: the first of the causes above that
 * holds, in their order; SIMPLEX_REFUSED_NOTHING exactly if the calls take them as committees. For
 * other causes of SIMPLEX_ARGUMENTS, such as a range outside the stream, see the call.
 * simplex_refusal takes no memory, and never returns what is said of keys; simplex_refusal_plain does
 * not look at signatures, and takes about as much memory as the committees for a moment.
 */
SIMPLEX_NONNULL
uint32_t simplex_refusal(uint32_t signature, const uint64_t *epochs, size_t epochs_len,
                         const uint32_t *sizes, size_t sizes_len);
SIMPLEX_NONNULL
uint32_t simplex_refusal_plain(const uint64_t *epochs, size_t epochs_len, const uint32_t *sizes,
                               size_t sizes_len, const uint8_t *keys, size_t keys_len);

/*
 * An audit in parts (docs/SHARDS.md): list the messages of a stream as rows, take the ranges of each
 * class of rounds, and audit those of each class apart, in threads or processes that share the
 * bytes. An audit never compares votes of two rounds, so the reports of all classes together are
 * that of the stream: the same lines, those of evidence in the order of rounds, signers and kinds,
 * and then those of splits in the order of rounds.
 */

/* The kind of a message in a row: the tag with which it is encoded. */
#define SIMPLEX_ROW_NOTARIZE 0u
#define SIMPLEX_ROW_NOTARIZATION 1u
#define SIMPLEX_ROW_CERTIFICATION 2u
#define SIMPLEX_ROW_NULLIFY 3u
#define SIMPLEX_ROW_NULLIFICATION 4u
#define SIMPLEX_ROW_FINALIZE 5u
#define SIMPLEX_ROW_FINALIZATION 6u
#define SIMPLEX_ROW_CONFLICTING_NOTARIZE 7u
#define SIMPLEX_ROW_CONFLICTING_FINALIZE 8u
#define SIMPLEX_ROW_NULLIFY_FINALIZE 9u

/* A message of a stream. */
struct simplex_row {
    uint64_t epoch;      /* of its round */
    uint64_t view;       /* of its round */
    size_t place;        /* the 0-based offset of its first byte */
    size_t length;       /* its bytes */
    size_t attestations; /* 1 of a vote, 2 of evidence, and those that a certificate lists */
    uint32_t kind;       /* SIMPLEX_ROW_.. */
};

/* Bytes of a stream that stand together. */
struct simplex_range {
    size_t place;  /* the 0-based offset of the first of them */
    size_t length; /* how many there are */
};

/*
 * Lists the messages of a stream, up to its end or first fault: a row for each, in their order.
 * `signature` is the bytes of a signature: 32 under the plain scheme; or 48, 64 or 96, each with a
 * verdict behind it. `bound` is the number of participants of the greatest committee in any epoch,
 * and one bound serves a whole audit. Nothing is verified.
 *
 * The first `summary->read` rows are then written; those behind them are as before. `faulted` and
 * `fault_place` are the stream's, and `evidence`, `splits` and `length` are 0. Where `rows` is too
 * short the status is SIMPLEX_SHORT: the summary is written and the rows are as before. The first
 * row begins at 0 and each other where the one before it ends. SIMPLEX_ARGUMENTS: `signature` is
 * none of these, or `bound` is 0. While it runs it holds up to 144 bytes for each
 * message, and 200 more.
 */
SIMPLEX_NONNULL
uint32_t simplex_index(uint32_t signature, uint32_t bound, const uint8_t *stream, size_t stream_len,
                       struct simplex_row *rows, size_t rows_len, struct simplex_summary *summary);

/*
 * The class of a round, from 0 on, of so many classes: all parts of an audit take one seed and one
 * number of classes. Rounds are spread evenly, but a sender who knows the seed can send rounds of
 * one class alone, so draw it anew. 0 where `classes` is 0.
 */
uint32_t simplex_class_of(uint64_t epoch, uint64_t view, uint64_t seed, uint32_t classes);

/*
 * The bytes of the class `which` of `classes`, as ranges of the stream that the rows are of, in
 * their order, neighbours joined: one after another they are exactly the messages whose rounds are
 * of this class. The rows are those of simplex_index, all or any neighbouring ones.
 *
 * The first `*needed` ranges are written; those behind them are as before. The status is
 * SIMPLEX_WHOLE, SIMPLEX_ARGUMENTS, SIMPLEX_MEMORY or SIMPLEX_SHORT; where `ranges` is too short
 * `*needed` is written, and nothing else. There are at most as many ranges as rows.
 * SIMPLEX_ARGUMENTS: `classes` is 0, `which` is not below it, or a row ends at 2^64 or behind.
 */
SIMPLEX_NONNULL
uint32_t simplex_ranges(const struct simplex_row *rows, size_t rows_len, uint64_t seed,
                        uint32_t classes, uint32_t which, struct simplex_range *ranges,
                        size_t ranges_len, size_t *needed);

/*
 * The ranges of all classes, of as many as `ends` has room for, in one reading of a stream, of which
 * nothing is copied: those of a class are what simplex_ranges writes for it from the rows of
 * simplex_index, where `signature` and `bound` are explained. They stand one class after another:
 * those of class i begin where those of class i - 1 end, and end at `ends[i]`.
 *
 * The first `summary->length` ranges are written, and all of `ends`; the ranges behind them are as
 * before. `read`, `faulted` and `fault_place` are the stream's, and `evidence` and `splits` are 0.
 * Where `ranges` is too short the status is SIMPLEX_SHORT: the summary is written, and `ranges` and
 * `ends` are as before. There are at most as many ranges as messages. SIMPLEX_ARGUMENTS:
 * `signature` is none of these, `bound` is 0, or `ends_len` is 0 or 2^32 or more. While it runs it
 * holds up to 96 bytes for each range, and 100 for each class.
 */
SIMPLEX_NONNULL
uint32_t simplex_class_ranges(uint32_t signature, uint32_t bound, const uint8_t *stream,
                              size_t stream_len, uint64_t seed, struct simplex_range *ranges,
                              size_t ranges_len, size_t *ends, size_t ends_len,
                              struct simplex_summary *summary);

/*
 * Audits the bytes of the ranges of a stream, one range after another, as simplex_audit
 * and simplex_audit_plain do a stream. Offsets in the summary count these bytes. None is copied but
 * those of a message that stands in several ranges. `signature` is 48, 64 or 96.
 *
 * SIMPLEX_ARGUMENTS also: `signature` is none of these, a range is not within the stream, or the
 * ranges have 2^64 bytes or more together. They may overlap and stand in any order.
 */
SIMPLEX_NONNULL
uint32_t simplex_audit_ranges(uint32_t signature, const uint64_t *epochs, size_t epochs_len,
                              const uint32_t *sizes, size_t sizes_len, const uint8_t *stream,
                              size_t stream_len, const struct simplex_range *ranges,
                              size_t ranges_len, uint8_t *text, size_t text_len,
                              struct simplex_summary *summary);
SIMPLEX_NONNULL
uint32_t simplex_audit_ranges_plain(const uint8_t *name, size_t name_len, const uint64_t *epochs,
                                    size_t epochs_len, const uint32_t *sizes, size_t sizes_len,
                                    const uint8_t *keys, size_t keys_len, const uint8_t *stream,
                                    size_t stream_len, const struct simplex_range *ranges,
                                    size_t ranges_len, uint8_t *text, size_t text_len,
                                    struct simplex_summary *summary);

/*
 * Messages in bytes: what a signer signs, votes and certificates as messages, the message at the
 * front of some bytes, and one piece of evidence by itself.
 *
 * What a vote says is given by its kind (SIMPLEX_NOTARIZE, SIMPLEX_NULLIFY or SIMPLEX_FINALIZE), the
 * epoch and the view of its round, the view of the proposal's parent, and the 32 bytes of its
 * payload. A nullify has neither: `parent` is 0 and `payload_len` 0. `signature` is the bytes of a
 * signature: 32 under the plain scheme; or 48, 64 or 96, and then one byte more stands behind each
 * signature, the caller's verdict, also in what is given to these calls. No call writes a verdict of
 * its own.
 *
 * Where the buffer is too short the status is SIMPLEX_SHORT, and the length that is needed is
 * written. With room for 63 bytes and 5 more for each number of a signer and for their count, behind
 * the signatures, it never is; of signed bytes, for 81 more than the name.
 */

/*
 * The bytes that a signer signs: how long the namespace is, as a number, the namespace, and the
 * proposal or the round. The namespace is `name`, the base of the application's, and behind it
 * _NOTARIZE, _NULLIFY or _FINALIZE. The first `*size` bytes of `bytes` are then these, and those
 * behind them as before. SIMPLEX_ARGUMENTS: the numbers are of no vote.
 */
SIMPLEX_NONNULL
uint32_t simplex_signed_bytes(const uint8_t *name, size_t name_len, uint32_t kind, uint64_t epoch,
                              uint64_t view, uint64_t parent, const uint8_t *payload,
                              size_t payload_len, uint8_t *bytes, size_t bytes_len, size_t *size);

/*
 * A vote as a message. `attested` is the signature, and behind it its verdict if it has one.
 * SIMPLEX_ARGUMENTS: `signature` is no such size, `attested` has not its bytes, or the numbers are
 * of no vote.
 */
SIMPLEX_NONNULL
uint32_t simplex_write_vote(uint32_t signature, uint32_t kind, uint64_t epoch, uint64_t view,
                            uint64_t parent, const uint8_t *payload, size_t payload_len,
                            uint32_t signer, const uint8_t *attested, size_t attested_len,
                            uint8_t *message, size_t message_len, size_t *size);

/*
 * A certificate as a message. `kind` is SIMPLEX_ROW_NOTARIZATION, .._CERTIFICATION (a notarization
 * that a node accepted), .._NULLIFICATION or .._FINALIZATION. The signers ascend, and there is at
 * least one; `signatures` are theirs one after another, each as simplex_write_vote takes it.
 * SIMPLEX_ARGUMENTS: `signature` is no such size, `kind` is none of these, the signers do not ascend
 * or there is none, there is not one signature for each, or the numbers are of no such certificate.
 */
SIMPLEX_NONNULL
uint32_t simplex_write_certificate(uint32_t signature, uint32_t kind, uint64_t epoch, uint64_t view,
                                   uint64_t parent, const uint8_t *payload, size_t payload_len,
                                   const uint32_t *signers, size_t signers_len,
                                   const uint8_t *signatures, size_t signatures_len,
                                   uint8_t *message, size_t message_len, size_t *size);

/* What a message is. */
struct simplex_message {
    uint64_t epoch;         /* of its round */
    uint64_t view;          /* of its round */
    uint64_t parent;        /* of the proposal that is voted for or certified, or of the first vote of
                               evidence; 0 of a round */
    uint64_t second_parent; /* of the second vote of evidence, else 0 */
    size_t length;          /* its bytes */
    size_t attestations;    /* 1 of a vote, 2 of evidence, and those that a certificate lists */
    uint32_t kind;          /* SIMPLEX_ROW_.. */
};

/* An attestation of a message, and where it stands: the members are those of simplex_suspect. */
struct simplex_attestation {
    uint64_t epoch;
    uint64_t view;
    size_t verdict_place;
    size_t subject_place;
    size_t subject_length;
    uint32_t signer; /* as the message has it */
    uint32_t kind;
};

/*
 * Reads the message at the front of some bytes; the next one begins `message->length` bytes further.
 * Each attestation is listed with the places of its subject and its signature in the bytes. The last
 * byte of the signature is at `verdict_place`; if there are verdicts, that is the verdict. The last
 * 32 bytes of a subject are the payload, but of a nullify. `bound` is as in simplex_index. Nothing
 * is verified.
 *
 * The first `message->attestations` records are written; those behind them are as before. The status
 * is SIMPLEX_WHOLE; SIMPLEX_FAULT: no message is at the front, and nothing was written; SIMPLEX_SHORT:
 * `message` alone was written; SIMPLEX_MEMORY; or SIMPLEX_ARGUMENTS: `signature` is no such size, or
 * `bound` is 0.
 */
SIMPLEX_NONNULL
uint32_t simplex_read_message(uint32_t signature, uint32_t bound, const uint8_t *bytes,
                              size_t bytes_len, struct simplex_attestation *attestations,
                              size_t attestations_len, struct simplex_message *message);

/* Whom an evidence accuses. */
struct simplex_accusation {
    uint64_t epoch;  /* of the round of both votes */
    uint64_t view;   /* of that round */
    uint32_t signer; /* of both votes */
    uint32_t kind;   /* SIMPLEX_CONFLICTING_NOTARIZE, .._CONFLICTING_FINALIZE or
                        SIMPLEX_NULLIFY_FINALIZE */
    uint32_t proved; /* 1 where both signatures are valid, else 0 */
};

/*
 * Judges one piece of evidence by itself: one message with two votes that contradict, as
 * simplex_store writes them. It is proved where both votes are valid under the committee of their
 * epoch: where an audit of this message alone accuses the signer. Who is to judge whom needs no more
 * than the message, and the name and keys, or the sizes and signatures that the caller verified.
 * `signature` is 48, 64 or 96.
 *
 * The status is SIMPLEX_WHOLE, and then the accusation is written, whether it is proved or not.
 * SIMPLEX_FAULT: the bytes are not exactly one message that is evidence. SIMPLEX_ARGUMENTS:
 * `signature` is none of these, or the arguments are no committees. After these and SIMPLEX_MEMORY
 * nothing was written.
 */
SIMPLEX_NONNULL
uint32_t simplex_verify_evidence(uint32_t signature, const uint64_t *epochs, size_t epochs_len,
                                 const uint32_t *sizes, size_t sizes_len, const uint8_t *evidence,
                                 size_t evidence_len, struct simplex_accusation *accusation);
SIMPLEX_NONNULL
uint32_t simplex_verify_evidence_plain(const uint8_t *name, size_t name_len, const uint64_t *epochs,
                                       size_t epochs_len, const uint32_t *sizes, size_t sizes_len,
                                       const uint8_t *keys, size_t keys_len,
                                       const uint8_t *evidence, size_t evidence_len,
                                       struct simplex_accusation *accusation);

/*
 * How many of n participants may lie, the greatest f with 3f + 1 <= n, and how many are a quorum,
 * n - f. Both are 0 where n is 0.
 */
uint32_t simplex_max_faults(uint32_t n);
uint32_t simplex_quorum(uint32_t n);

/* The answers to questions about views. */
#define SIMPLEX_NO 0u
#define SIMPLEX_YES 1u
#define SIMPLEX_NONE 2u /* Terms have no views; or, where a call says so, views are above
                           2^64 - 1. */

/*
 * Whether a node in view `current` takes votes of the view `pending`, and whether it sends messages
 * of it. SIMPLEX_NONE also where the next term's start plus the term length plus 1 is above
 * 2^64 - 1.
 */
uint32_t simplex_admits(uint32_t term_length, uint64_t optimistic_views, uint64_t current,
                        uint64_t pending);
uint32_t simplex_admits_outbound(uint32_t term_length, uint64_t optimistic_views, uint64_t current,
                                 uint64_t pending);

/*
 * The earliest view from which messages of a view may be issued. SIMPLEX_YES: it is written to
 * `floor`. SIMPLEX_NO: no lookahead bounds it. SIMPLEX_NONE: terms have no views. In the last two
 * `floor` is as before.
 */
SIMPLEX_NONNULL
uint32_t simplex_issuance_floor(uint32_t term_length, uint64_t optimistic_views, uint64_t view,
                                uint64_t *floor);

/*
 * The number of the participant who leads a view of an epoch, in terms of `term_length` views: in
 * the order of the numbers, or in the order that a seed gives. SIMPLEX_WHOLE: it is written to
 * `number`. SIMPLEX_ARGUMENTS: there is no participant, or terms have no views. SIMPLEX_MEMORY, with
 * a seed alone: an allocation failed. In the last two `number` is as before. simplex_leader takes no
 * memory and constant time. simplex_leader_shuffled copies the seed, hashes it once with each
 * participant and sorts the hashes.
 */
SIMPLEX_NONNULL
uint32_t simplex_leader(uint32_t participants, uint32_t term_length, uint64_t epoch, uint64_t view,
                        uint32_t *number);
SIMPLEX_NONNULL
uint32_t simplex_leader_shuffled(const uint8_t *seed, size_t seed_len, uint32_t participants,
                                 uint32_t term_length, uint64_t epoch, uint64_t view,
                                 uint32_t *number);

/*
 * An auditor that the library owns, for a node that runs for long. It is fed a stream as it comes,
 * at the cost of the new bytes, and returns what each piece completes. The struct is a handle: set
 * `state` to NULL, have one of the two calls below make an auditor, and free it at the end. Only
 * these calls change a handle, and a copy of it is never used. A handle is used by one call at a
 * time, in any thread.
 *
 * Each of these calls returns a status. SIMPLEX_ARGUMENTS, but of the two that make an auditor: the
 * handle owns none, such as after it was freed, and nothing changed. SIMPLEX_MEMORY: an allocation
 * failed; nothing that was fed is lost, and the call can be made again.
 */
struct simplex_auditor {
    void *state;
};

/* The stream would have 2^64 bytes. */
#define SIMPLEX_LONG 5u

/*
 * Makes an auditor of a stream whose signatures the caller verified, with 48, 64 or 96 bytes each
 * and the verdict behind it; or of one of the plain scheme. Committees are those of an audit.
 *
 * `held` is what simplex_auditor_held gave of another auditor, or no bytes. The new auditor was fed
 * these bytes, so it accuses everyone whom the other one would accuse after any further bytes, from
 * the other one's floor on. Two things differ: the evidence in `held` is news again, and the floor is
 * the first round, so prune it to the floor of the other one. If `held` has a fault nothing more can
 * be fed: feed no bytes, and the status says so.
 *
 * What the handle owned before is freed. SIMPLEX_ARGUMENTS: there are no such committees, or
 * `signature` is none of these. After it and SIMPLEX_MEMORY the handle is as before.
 */
SIMPLEX_NONNULL
uint32_t simplex_auditor_new(uint32_t signature, const uint64_t *epochs, size_t epochs_len,
                             const uint32_t *sizes, size_t sizes_len, const uint8_t *held,
                             size_t held_len, struct simplex_auditor *auditor);
SIMPLEX_NONNULL
uint32_t simplex_auditor_new_plain(const uint8_t *name, size_t name_len, const uint64_t *epochs,
                                   size_t epochs_len, const uint32_t *sizes, size_t sizes_len,
                                   const uint8_t *keys, size_t keys_len, const uint8_t *held,
                                   size_t held_len, struct simplex_auditor *auditor);

/*
 * Feeds the next bytes of the stream, cut anywhere: SIMPLEX_WHOLE. With any other status no byte was
 * fed. SIMPLEX_FAULT: a byte before these starts no message, and nothing behind it is read; its
 * offset is in the report. SIMPLEX_LONG: the stream would have 2^64 bytes.
 */
SIMPLEX_NONNULL
uint32_t simplex_auditor_feed(struct simplex_auditor *auditor, const uint8_t *bytes,
                              size_t bytes_len);

/*
 * Deferred verification, piece by piece: lists the attestations of the next bytes that have to be
 * verified before they are fed. The verdicts may be any bytes, and nothing is fed. What was fed has
 * to end with a whole message. Of the whole messages at the front of `bytes`, `*whole` bytes
 * together, each attestation is listed whose round is at the floor or above it and whose signer is
 * in the committee of the epoch; the audit judges no other one. The members are as in
 * simplex_suspects, and places are offsets in `bytes`.
 *
 * The caller writes 01 to each `verdict_place` where it verified the signature, else 00, feeds the
 * first `*whole` bytes, and keeps the others for the next call. It need not verify again a vote that
 * it verified: the same kind, subject, signer and signature have the same verdict.
 *
 * SIMPLEX_WHOLE: the first `*needed` records are written. SIMPLEX_FAULT: they are written, and the
 * byte at `*whole` starts no message, whatever follows; feed all of `bytes`, and the report has the
 * fault. SIMPLEX_SHORT: `*needed` and `*whole` alone are written. SIMPLEX_ARGUMENTS also if what was
 * fed ends within a message, or the auditor is one of the plain scheme, which verifies the
 * signatures itself. After it and SIMPLEX_MEMORY nothing is written.
 */
SIMPLEX_NONNULL
uint32_t simplex_auditor_unverified(struct simplex_auditor *auditor, const uint8_t *bytes,
                                    size_t bytes_len, struct simplex_suspect *records,
                                    size_t records_len, size_t *needed, size_t *whole);

/*
 * The report of all that was fed, from the floor on, with the statuses of an audit. Messages and
 * offsets are counted from what the auditor was made with. After SIMPLEX_MEMORY of a feed they are
 * counted from what was held then, which stands for all that was fed before.
 */
SIMPLEX_NONNULL
uint32_t simplex_auditor_report(struct simplex_auditor *auditor, uint8_t *text, size_t text_len,
                                struct simplex_summary *summary);

/*
 * What arose since the last look, as lines of a report: the evidence, each once however the stream
 * was cut, and then the splits, a round again when more participants are accused there. After
 * SIMPLEX_WHOLE the first `*length` bytes of `text` are written, and what they say is no news any
 * more. After SIMPLEX_SHORT `*length` bytes are needed, and all of it is still news.
 */
SIMPLEX_NONNULL
uint32_t simplex_auditor_news(struct simplex_auditor *auditor, uint8_t *text, size_t text_len,
                              size_t *length);

/*
 * Gives up all rounds below a floor: what is known of them is dropped, and their messages are read
 * and not judged from now on. News of them that were not looked at stay. A floor below the present
 * one changes nothing.
 */
SIMPLEX_NONNULL
uint32_t simplex_auditor_prune(struct simplex_auditor *auditor, uint64_t epoch, uint64_t view);

/*
 * How many valid votes are recorded, from the floor on: for each signer and round the earliest of
 * each kind, and of notarizes and finalizes also the earliest with another proposal.
 */
SIMPLEX_NONNULL
uint32_t simplex_auditor_votes(struct simplex_auditor *auditor, size_t *votes);

/*
 * Few messages that can stand for all that was fed, from the floor on, and behind them the bytes
 * after the last whole message: what a node stores to go on after a restart. For a round of n
 * participants they are at most 5n messages without a certificate and three with one. It reads all
 * that is held. SIMPLEX_SHORT: `*length` bytes are needed.
 */
SIMPLEX_NONNULL
uint32_t simplex_auditor_held(struct simplex_auditor *auditor, uint8_t *bytes, size_t bytes_len,
                              size_t *length);

/* Frees the auditor. The handle owns none then, and can be used again. */
SIMPLEX_NONNULL
uint32_t simplex_auditor_free(struct simplex_auditor *auditor);

#ifdef __cplusplus
}
#endif

#endif
