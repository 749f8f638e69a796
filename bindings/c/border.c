/*
 * Tries what the contracts of the calls say of buffers and refusals, from C: buffers that fit, that
 * are a byte too short or empty, empty slices, arguments that are no committees, verdicts, stored
 * evidence with faulty batches and faulty stored bytes, each kind of record, the bytes of its votes,
 * records that are new, audits in parts, rows and ranges that are invalid, messages that are written and read again, one
 * piece of evidence by itself, a committee of 65,536, calls at once in several threads, and each
 * allocation failing in turn.
 * Every buffer is a block of its own, so that AddressSanitizer and valgrind see an access outside.
 *
 *     border < STREAM             STREAM: the sample of crates/audit
 *     border --limit < STREAM     also what needs more memory than the process may have
 *
 * Linked with -Wl,--wrap=malloc,--wrap=realloc,--wrap=free.
 */
#include "../simplex_audit.h"
#include <pthread.h>
#include <stdio.h>
#include <stdlib.h>
#include <string.h>
#include <sys/resource.h>

static int checks, failed;

#define CHECK(test)                                                                                \
    do {                                                                                           \
        checks++;                                                                                  \
        if (!(test)) {                                                                             \
            failed++;                                                                              \
            fprintf(stderr, "border.c:%d: %s\n", __LINE__, #test);                                 \
        }                                                                                          \
    } while (0)

#define RECORD sizeof(struct simplex_suspect)
#define ATTESTATION sizeof(struct simplex_attestation)
#define EVIDENCE sizeof(struct simplex_record)
#define ROW sizeof(struct simplex_row)
#define RANGE sizeof(struct simplex_range)

/* Allocations: how many may still succeed (-1: all), and how many blocks the library holds. */
static _Thread_local long allowed = -1, blocks;

void *__real_malloc(size_t n);
void *__real_realloc(void *p, size_t n);
void __real_free(void *p);

static int refused(void)
{
    if (allowed > 0)
        allowed--;
    return allowed == 0;
}

void *__wrap_malloc(size_t n)
{
    void *p = refused() ? NULL : __real_malloc(n);
    blocks += p != NULL;
    return p;
}

void *__wrap_realloc(void *p, size_t n)
{
    void *moved = refused() ? NULL : __real_realloc(p, n);
    blocks += p == NULL && moved != NULL;
    return moved;
}

void __wrap_free(void *p)
{
    blocks -= p != NULL;
    __real_free(p);
}

/* A block of n bytes, each of them `filler`; for n = 0 too it is not NULL. */
static uint8_t *block(size_t n, uint8_t filler)
{
    uint8_t *p = malloc(n ? n : 1);
    if (!p)
        abort();
    memset(p, filler, n);
    return p;
}

static uint8_t *copy(const void *from, size_t n)
{
    uint8_t *p = block(n, 0);
    memcpy(p, from, n);
    return p;
}

static int all(const uint8_t *p, size_t n, uint8_t filler)
{
    for (size_t i = 0; i < n; i++)
        if (p[i] != filler)
            return 0;
    return 1;
}

/* The arguments of a call except its buffer. */
struct input {
    const uint8_t *name, *keys;
    size_t name_len, keys_len;
    const uint64_t *epochs;
    const uint32_t *sizes;
    size_t epochs_len, sizes_len;
    const uint8_t *stored, *stream;
    size_t stored_len, stream_len;
    int signature; /* 48, 64 or 96, or 0 for the plain scheme */
};

/* Slices of the input, as calls take them. */
#define SIZES in->epochs, in->epochs_len, in->sizes, in->sizes_len
#define KEYS in->name, in->name_len, SIZES, in->keys, in->keys_len
#define STORED in->stored, in->stored_len
#define STREAM in->stream, in->stream_len

static uint32_t audit(const struct input *in, uint8_t *text, size_t room,
                      struct simplex_summary *summary)
{
    if (!in->signature)
        return simplex_audit_plain(KEYS, STREAM, text, room, summary);
    return simplex_audit((uint32_t)in->signature, SIZES, STREAM, text, room, summary);
}

static uint32_t store(const struct input *in, uint8_t *evidence, size_t room, size_t *size)
{
    if (!in->signature)
        return simplex_store_plain(KEYS, STORED, STREAM, evidence, room, size);
    return simplex_store((uint32_t)in->signature, SIZES, STORED, STREAM, evidence, room, size);
}

static uint32_t suspects(const struct input *in, struct simplex_suspect *records, size_t room,
                         size_t *needed)
{
    return simplex_suspects((uint32_t)in->signature, SIZES, STREAM, records, room, needed);
}

static uint32_t enlist(const struct input *in, struct simplex_record *records, size_t room,
                       struct simplex_summary *summary)
{
    if (!in->signature)
        return simplex_records_plain(KEYS, STREAM, records, room, summary);
    return simplex_records((uint32_t)in->signature, SIZES, STREAM, records, room, summary);
}

/* Why the committees are refused. */
static uint32_t refusal(const struct input *in)
{
    if (!in->signature)
        return simplex_refusal_plain(SIZES, in->keys, in->keys_len);
    return simplex_refusal((uint32_t)in->signature, SIZES);
}

/* The number of participants of the greatest committee. */
static uint32_t greatest(const struct input *in)
{
    uint32_t bound = 0;
    for (size_t i = 0; i < in->sizes_len; i++)
        bound = in->sizes[i] > bound ? in->sizes[i] : bound;
    return bound;
}

/* The rows of the stream, under the bound of the greatest committee. */
static uint32_t tabulate(const struct input *in, struct simplex_row *rows, size_t room,
                         struct simplex_summary *summary)
{
    uint32_t size = in->signature ? (uint32_t)in->signature : 32;
    return simplex_index(size, greatest(in), STREAM, rows, room, summary);
}

/* The ranges of all classes of the stream, with seed 5. */
static uint32_t cut_all(const struct input *in, struct simplex_range *ranges, size_t room,
                        size_t *ends, size_t classes, struct simplex_summary *summary)
{
    uint32_t size = in->signature ? (uint32_t)in->signature : 32;
    return simplex_class_ranges(size, greatest(in), STREAM, 5, ranges, room, ends, classes, summary);
}

static uint32_t audit_ranges(const struct input *in, const struct simplex_range *ranges,
                             size_t ranges_len, uint8_t *text, size_t room,
                             struct simplex_summary *summary)
{
    if (!in->signature)
        return simplex_audit_ranges_plain(KEYS, STREAM, ranges, ranges_len, text, room, summary);
    return simplex_audit_ranges((uint32_t)in->signature, SIZES, STREAM, ranges, ranges_len, text,
                                room, summary);
}

static const struct simplex_summary untouched = {99, 99, 99, 99, 99, 99};

static int is_untouched(const struct simplex_summary *summary)
{
    return !memcmp(summary, &untouched, sizeof untouched);
}

/* The arguments are refused for this cause, and nothing is written. */
static void refuses(const struct input *in, uint32_t cause)
{
    CHECK(refusal(in) == cause);
    struct simplex_summary summary = untouched;
    size_t size = 99;
    uint8_t *buffer = block(500, 7);
    CHECK(audit(in, buffer, 500, &summary) == SIMPLEX_ARGUMENTS);
    CHECK(is_untouched(&summary));
    CHECK(enlist(in, (struct simplex_record *)buffer, 500 / EVIDENCE, &summary) == SIMPLEX_ARGUMENTS);
    CHECK(is_untouched(&summary));
    CHECK(store(in, buffer, 500, &size) == SIMPLEX_ARGUMENTS);
    CHECK(size == 99);
    const struct simplex_range whole = {0, in->stream_len};
    CHECK(audit_ranges(in, &whole, 1, buffer, 500, &summary) == SIMPLEX_ARGUMENTS);
    CHECK(is_untouched(&summary));
    if (in->signature) {
        CHECK(suspects(in, (struct simplex_suspect *)buffer, 500 / RECORD, &size) == SIMPLEX_ARGUMENTS);
        CHECK(size == 99);
    }
    CHECK(all(buffer, 500, 7));
    free(buffer);
}

/* An audit with buffers that fit, have a byte too many, and are too short. Returns the number of
 * lines of evidence. */
static size_t audits(const struct input *in, uint32_t wanted, size_t read, size_t place)
{
    struct simplex_summary summary = untouched, again;
    CHECK(refusal(in) == SIMPLEX_REFUSED_NOTHING);
    uint8_t *text = block(0, 7);
    uint32_t status = audit(in, text, 0, &summary);
    size_t n = summary.length;
    free(text);
    CHECK(status == (n ? SIMPLEX_SHORT : wanted));
    CHECK(summary.read == read && summary.fault_place == place);
    CHECK(summary.faulted == (wanted == SIMPLEX_FAULT));
    text = block(n, 7);
    again = untouched;
    CHECK(audit(in, text, n, &again) == wanted);
    CHECK(!memcmp(&summary, &again, sizeof summary));
    size_t lines = 0;
    for (size_t i = 0; i < n; i++)
        lines += text[i] == '\n';
    CHECK(lines == summary.evidence + summary.splits && (!n || text[n - 1] == '\n'));
    uint8_t *longer = block(n + 9, 7);
    CHECK(audit(in, longer, n + 9, &again) == wanted);
    CHECK(!memcmp(text, longer, n) && all(longer + n, 9, 7));
    free(longer);
    free(text);
    if (n) {
        text = block(n - 1, 7);
        again = untouched;
        CHECK(audit(in, text, n - 1, &again) == SIMPLEX_SHORT);
        CHECK(!memcmp(&summary, &again, sizeof summary) && all(text, n - 1, 7));
        free(text);
    }
    return summary.evidence;
}

/* The words of the kinds, by their numbers. */
static const char *const kinds[] = {
    [SIMPLEX_CONFLICTING_NOTARIZE] = "conflicting-notarize",
    [SIMPLEX_CONFLICTING_FINALIZE] = "conflicting-finalize",
    [SIMPLEX_NULLIFY_FINALIZE] = "nullify-finalize",
};

/* A vote of a record as a message, from its places in the stream: its tag, its subject, and what ends
 * with the verdict, the signature and before it the signer's number. */
static uint8_t *put_vote(uint8_t *at, const struct input *in, const struct simplex_vote_place *vote)
{
    static const uint8_t tags[] = {SIMPLEX_ROW_NOTARIZE, SIMPLEX_ROW_NULLIFY, SIMPLEX_ROW_FINALIZE};
    size_t attested = in->signature ? (size_t)in->signature + 1 : 32;
    for (uint32_t signer = vote->signer; signer >= 128; signer >>= 7)
        attested++;
    attested++;
    *at++ = tags[vote->kind];
    memcpy(at, in->stream + vote->subject_place, vote->subject_length);
    at += vote->subject_length;
    memcpy(at, in->stream + vote->verdict_place + 1 - attested, attested);
    return at + attested;
}

/* A record: its votes stand in the messages at its places, and the two alone have this line as their
 * report. */
static void proves(const struct input *in, const struct simplex_record *record, const char *line)
{
    const struct simplex_vote_place *first = &record->first_vote, *second = &record->second_vote;
    CHECK(record->first_place < first->subject_place && record->second_place < second->subject_place);
    CHECK(first->subject_place + first->subject_length < first->verdict_place);
    CHECK(second->subject_place + second->subject_length < second->verdict_place);
    CHECK(first->verdict_place < in->stream_len && second->verdict_place < in->stream_len);
    CHECK(first->signer == record->signer && second->signer == record->signer);
    CHECK(first->kind < 3 && second->kind < 3);
    uint8_t votes[500], text[500], *end = put_vote(put_vote(votes, in, first), in, second);
    struct input both = *in;
    struct simplex_summary summary;
    both.stream = copy(votes, (size_t)(end - votes));
    both.stream_len = (size_t)(end - votes);
    CHECK(audit(&both, text, sizeof text, &summary) == SIMPLEX_WHOLE && summary.read == 2);
    CHECK(summary.evidence == 1 && !strncmp((const char *)text, line, summary.length));
    free((void *)both.stream);
}

/* The evidence as records, with buffers as above: the same as the lines of the text, each with the
 * bytes of its two votes. */
static void enlists(const struct input *in)
{
    struct simplex_summary summary = untouched, again = untouched, of_text;
    uint8_t *buffer = block(0, 7);
    uint32_t status = enlist(in, (struct simplex_record *)buffer, 0, &summary);
    free(buffer);
    uint8_t *text = block(5000, 7);
    uint32_t wanted = audit(in, text, 4999, &of_text);
    size_t n = of_text.evidence, spare = 2;
    CHECK(status == (n ? SIMPLEX_SHORT : wanted));
    CHECK(!memcmp(&summary, &of_text, sizeof summary));
    struct simplex_record *records = (struct simplex_record *)block((n + spare) * EVIDENCE, 7);
    CHECK(enlist(in, records, n + spare, &again) == wanted);
    CHECK(!memcmp(&summary, &again, sizeof summary));
    CHECK(all((const uint8_t *)(records + n), spare * EVIDENCE, 7));
    struct simplex_record *fitting = (struct simplex_record *)block(n * EVIDENCE, 7);
    CHECK(enlist(in, fitting, n, &again) == wanted);
    CHECK(!memcmp(fitting, records, n * EVIDENCE));
    free(fitting);
    if (n) {
        buffer = block((n - 1) * EVIDENCE, 7);
        again = untouched;
        CHECK(enlist(in, (struct simplex_record *)buffer, n - 1, &again) == SIMPLEX_SHORT);
        CHECK(!memcmp(&summary, &again, sizeof summary) && all(buffer, (n - 1) * EVIDENCE, 7));
        free(buffer);
    }
    const char *line = (const char *)text;
    text[of_text.length] = 0;
    for (size_t i = 0; i < n; i++) {
        char front[99];
        CHECK(records[i].kind < 3);
        int length = snprintf(front, sizeof front, "%llu %llu %u %s ",
                              (unsigned long long)records[i].epoch,
                              (unsigned long long)records[i].view, records[i].signer,
                              kinds[records[i].kind % 3]);
        CHECK(!strncmp(line, front, (size_t)length));
        proves(in, &records[i], line);
        line = strchr(line, '\n') + 1;
    }
    free(records);
    free(text);
}

struct bytes {
    const uint8_t *at;
    size_t len;
};

/* Whether of these stored bytes with this batch behind them exactly the wanted bytes are stored. */
static int gives(const struct input *in, struct bytes stored, struct bytes batch,
                 struct bytes wanted)
{
    struct input both = *in;
    both.stored = stored.at;
    both.stored_len = stored.len;
    both.stream = batch.at;
    both.stream_len = batch.len;
    size_t size = 99;
    uint8_t *evidence = block(wanted.len, 7);
    uint32_t status = store(&both, evidence, wanted.len, &size);
    int same = size == wanted.len && !memcmp(evidence, wanted.at, wanted.len);
    free(evidence);
    return status == SIMPLEX_WHOLE && same;
}

/* The evidence of the stream, once it is stored, is stored again as it is: with the stream as a
 * batch, with an empty batch, and with one that begins with no message. Behind stored bytes that
 * begin with no message the batch is not read. */
static void stays(const struct input *in, struct bytes evidence)
{
    uint8_t *byte = block(1, 0xff);
    const struct bytes stream = {in->stream, in->stream_len}, fault = {byte, 1}, none = {byte, 0};
    CHECK(gives(in, evidence, stream, evidence));
    CHECK(gives(in, evidence, none, evidence));
    CHECK(gives(in, evidence, fault, evidence));
    CHECK(gives(in, fault, stream, none));
    free(byte);
}

/* Evidence as messages, with buffers as above. What is stored has the report of the stream. */
static void stores(const struct input *in)
{
    size_t n = 99, size;
    uint8_t *evidence = block(0, 7);
    uint32_t status = store(in, evidence, 0, &n);
    free(evidence);
    CHECK(status == (n ? SIMPLEX_SHORT : SIMPLEX_WHOLE));
    evidence = block(n, 7);
    CHECK(store(in, evidence, n, &size) == SIMPLEX_WHOLE && size == n);
    if (n) {
        uint8_t *shorter = block(n - 1, 7);
        CHECK(store(in, shorter, n - 1, &size) == SIMPLEX_SHORT && size == n);
        CHECK(all(shorter, n - 1, 7));
        free(shorter);
    }
    struct input held = *in;
    held.stream = held.stored = evidence;
    held.stream_len = n;
    held.stored_len = 0;
    struct simplex_summary summary, other;
    uint8_t *text = block(5000, 7), *as_well = block(5000, 7);
    CHECK(audit(in, text, 5000, &summary) <= SIMPLEX_FAULT);
    CHECK(audit(&held, as_well, 5000, &other) == SIMPLEX_WHOLE);
    CHECK(summary.evidence == other.evidence && other.read == other.evidence);
    CHECK(summary.splits || (summary.length == other.length && !memcmp(text, as_well, other.length)));
    free(text);
    free(as_well);
    stays(in, (struct bytes){evidence, n});
    free(evidence);
}

/* The evidence of two notarizes of this length: both without their tags, behind its own. */
static uint8_t *put_conflict(uint8_t *at, const uint8_t *first, const uint8_t *second, size_t vote)
{
    *at++ = 7;
    memcpy(at, first + 1, vote - 1);
    memcpy(at + vote - 1, second + 1, vote - 1);
    return at + 2 * (vote - 1);
}

/* The stream is two notarizes of one length that contradict, and the batch has them in the other
 * order. Evidence has the earliest valid votes, and those of the stored bytes come before those of
 * the batch. */
static void precedes(const struct input *in)
{
    const size_t vote = in->stream_len / 2, n = 2 * vote - 1;
    const uint8_t *one = in->stream, *other = in->stream + vote;
    uint8_t *stored = block(n, 0), *damaged = block(n, 0), *late = block(n, 0);
    uint8_t *turned = block(2 * vote, 0);
    memcpy(turned, other, vote);
    memcpy(turned + vote, one, vote);
    put_conflict(stored, one, other, vote);
    put_conflict(damaged, one, other, vote);
    put_conflict(late, other, one, vote);
    damaged[n - 1] ^= 1; /* now its second vote is not valid */
    const struct bytes batch = {turned, 2 * vote}, evidence = {stored, n}, changed = {damaged, n};
    const struct bytes none = {turned, 0};
    CHECK(gives(in, none, batch, (struct bytes){late, n}));
    CHECK(gives(in, evidence, batch, evidence));
    CHECK(gives(in, changed, none, none));
    CHECK(gives(in, changed, batch, evidence));
    free(turned);
    free(late);
    free(damaged);
    free(stored);
}

/* The index of the first record that is the same attestation as one: the same signer signed the same
 * bytes as a vote of the same kind, with the same signature. */
static size_t first_same(const struct input *in, const struct simplex_suspect *records, size_t one)
{
    const struct simplex_suspect *own = records + one, *it = records;
    const size_t signature = (size_t)in->signature;
    while (it->kind != own->kind || it->signer != own->signer
           || it->subject_length != own->subject_length
           || memcmp(in->stream + it->subject_place, in->stream + own->subject_place, it->subject_length)
           || memcmp(in->stream + it->verdict_place - signature,
                     in->stream + own->verdict_place - signature, signature))
        it++;
    return (size_t)(it - records);
}

/* The attestations that have to be verified, with buffers as above. The report depends on no other
 * verdict: with every other verdict flipped it is the same. Returns how many they are. */
static size_t defers(const struct input *in, const size_t *verdicts, size_t verdicts_len)
{
    size_t n = 99, needed = 99, spare = 2;
    uint8_t *buffer = block(0, 7);
    uint32_t status = suspects(in, (struct simplex_suspect *)buffer, 0, &n);
    free(buffer);
    CHECK(status == (n ? SIMPLEX_SHORT : SIMPLEX_WHOLE));
    struct simplex_suspect *records = (struct simplex_suspect *)block((n + spare) * RECORD, 7);
    CHECK(suspects(in, records, n + spare, &needed) == SIMPLEX_WHOLE && needed == n);
    CHECK(all((const uint8_t *)(records + n), spare * RECORD, 7));
    for (size_t i = 0; i < n; i++)
        CHECK(records[i].first == first_same(in, records, i));
    struct simplex_suspect *fitting = (struct simplex_suspect *)block(n * RECORD, 7);
    CHECK(suspects(in, fitting, n, &needed) == SIMPLEX_WHOLE && needed == n);
    CHECK(!memcmp(fitting, records, n * RECORD));
    free(fitting);
    if (n) {
        buffer = block((n - 1) * RECORD, 7);
        needed = 99;
        CHECK(suspects(in, (struct simplex_suspect *)buffer, n - 1, &needed) == SIMPLEX_SHORT);
        CHECK(needed == n && all(buffer, (n - 1) * RECORD, 7));
        free(buffer);
    }
    struct input other = *in;
    uint8_t *stream = copy(in->stream, in->stream_len);
    for (size_t i = 0; i < verdicts_len; i++)
        stream[verdicts[i]] ^= 1;
    other.stream = stream;
    struct simplex_suspect *again = (struct simplex_suspect *)block(n * RECORD, 7);
    CHECK(suspects(&other, again, n, &needed) == SIMPLEX_WHOLE && needed == n);
    CHECK(!memcmp(again, records, n * RECORD));
    for (size_t i = 0; i < n; i++)
        stream[again[i].verdict_place] ^= 1;
    struct simplex_summary summary, filled;
    uint8_t text[500], as_well[500];
    CHECK(audit(in, text, sizeof text, &summary) == SIMPLEX_WHOLE);
    CHECK(audit(&other, as_well, sizeof as_well, &filled) == SIMPLEX_WHOLE);
    CHECK(!memcmp(&summary, &filled, sizeof summary) && !memcmp(text, as_well, summary.length));
    free(again);
    free(stream);
    free(records);
    return n;
}

/* Rows are compared field by field: what is behind the last field is no part of them. */
static int same_rows(const struct simplex_row *one, const struct simplex_row *other, size_t n)
{
    for (size_t i = 0; i < n; i++)
        if (one[i].epoch != other[i].epoch || one[i].view != other[i].view
            || one[i].place != other[i].place || one[i].length != other[i].length
            || one[i].attestations != other[i].attestations || one[i].kind != other[i].kind)
            return 0;
    return 1;
}

/* The rows of the stream, with buffers as above: each begins where the one before it ends, the first
 * byte of its message is its kind, and all end at the fault or with the stream. */
static struct simplex_row *tabulates(const struct input *in, uint32_t wanted, size_t *rows_len)
{
    struct simplex_summary summary = untouched, again = untouched;
    uint8_t *buffer = block(0, 7);
    uint32_t status = tabulate(in, (struct simplex_row *)buffer, 0, &summary);
    size_t n = summary.read, spare = 2, place = 0;
    free(buffer);
    CHECK(status == (n ? SIMPLEX_SHORT : wanted));
    CHECK(!summary.evidence && !summary.splits && !summary.length);
    CHECK(summary.faulted == (wanted == SIMPLEX_FAULT));
    struct simplex_row *rows = (struct simplex_row *)block((n + spare) * ROW, 7);
    CHECK(tabulate(in, rows, n + spare, &again) == wanted);
    CHECK(!memcmp(&summary, &again, sizeof summary));
    CHECK(all((const uint8_t *)(rows + n), spare * ROW, 7));
    struct simplex_row *fitting = (struct simplex_row *)block(n * ROW, 7);
    CHECK(tabulate(in, fitting, n, &again) == wanted && same_rows(rows, fitting, n));
    free(fitting);
    if (n) {
        buffer = block((n - 1) * ROW, 7);
        again = untouched;
        CHECK(tabulate(in, (struct simplex_row *)buffer, n - 1, &again) == SIMPLEX_SHORT);
        CHECK(!memcmp(&summary, &again, sizeof summary) && all(buffer, (n - 1) * ROW, 7));
        free(buffer);
    }
    for (size_t i = 0; i < n; i++) {
        CHECK(rows[i].place == place && rows[i].kind == in->stream[place]);
        place += rows[i].length;
    }
    CHECK(place == (summary.faulted ? summary.fault_place : in->stream_len));
    *rows_len = n;
    return rows;
}

/* The ranges of a class, with buffers as above. */
static struct simplex_range *cuts(const struct simplex_row *rows, size_t rows_len, uint32_t classes,
                                  uint32_t which, size_t *ranges_len)
{
    size_t n = 99, needed = 99, spare = 2;
    uint8_t *buffer = block(0, 7);
    uint32_t status = simplex_ranges(rows, rows_len, 5, classes, which,
                                     (struct simplex_range *)buffer, 0, &n);
    free(buffer);
    CHECK(status == (n ? SIMPLEX_SHORT : SIMPLEX_WHOLE) && n <= rows_len);
    struct simplex_range *ranges = (struct simplex_range *)block((n + spare) * RANGE, 7);
    status = simplex_ranges(rows, rows_len, 5, classes, which, ranges, n + spare, &needed);
    CHECK(status == SIMPLEX_WHOLE && needed == n);
    CHECK(all((const uint8_t *)(ranges + n), spare * RANGE, 7));
    struct simplex_range *fitting = (struct simplex_range *)block(n * RANGE, 7);
    CHECK(simplex_ranges(rows, rows_len, 5, classes, which, fitting, n, &needed) == SIMPLEX_WHOLE);
    CHECK(needed == n && !memcmp(ranges, fitting, n * RANGE));
    free(ranges);
    if (n) {
        buffer = block((n - 1) * RANGE, 7);
        needed = 99;
        CHECK(simplex_ranges(rows, rows_len, 5, classes, which, (struct simplex_range *)buffer,
                             n - 1, &needed) == SIMPLEX_SHORT);
        CHECK(needed == n && all(buffer, (n - 1) * RANGE, 7));
        free(buffer);
    }
    *ranges_len = n;
    return fitting;
}

/* The ranges of all classes at once, with buffers as above, are those of each class from the rows. */
static void cuts_all(const struct input *in, const struct simplex_row *rows, size_t rows_len,
                     uint32_t classes)
{
    struct simplex_summary summary = untouched, again = untouched;
    size_t *ends = (size_t *)block((classes + 1) * sizeof *ends, 7), begin = 0, spare = 2;
    uint8_t *buffer = block(0, 7);
    uint32_t status = cut_all(in, (struct simplex_range *)buffer, 0, ends, classes, &summary);
    free(buffer);
    const size_t n = summary.length;
    const uint32_t wanted = summary.faulted ? SIMPLEX_FAULT : SIMPLEX_WHOLE;
    CHECK(status == (n ? SIMPLEX_SHORT : wanted) && n <= rows_len && summary.read == rows_len);
    CHECK(!n || all((uint8_t *)ends, (classes + 1) * sizeof *ends, 7));
    struct simplex_range *ranges = (struct simplex_range *)block((n + spare) * RANGE, 7);
    CHECK(cut_all(in, ranges, n + spare, ends, classes, &again) == wanted);
    CHECK(!memcmp(&summary, &again, sizeof again) && all((uint8_t *)(ends + classes), sizeof *ends, 7));
    CHECK(all((const uint8_t *)(ranges + n), spare * RANGE, 7));
    for (uint32_t which = 0; which < classes; begin = ends[which++]) {
        size_t count;
        struct simplex_range *alone = cuts(rows, rows_len, classes, which, &count);
        CHECK(ends[which] - begin == count && !memcmp(ranges + begin, alone, count * RANGE));
        free(alone);
    }
    CHECK(begin == n);
    free(ranges);
    if (n) {
        memset(ends, 7, (classes + 1) * sizeof *ends);
        ranges = (struct simplex_range *)block((n - 1) * RANGE, 7);
        CHECK(cut_all(in, ranges, n - 1, ends, classes, &again) == SIMPLEX_SHORT);
        CHECK(!memcmp(&summary, &again, sizeof again) && all((uint8_t *)ranges, (n - 1) * RANGE, 7));
        CHECK(all((uint8_t *)ends, (classes + 1) * sizeof *ends, 7));
        free(ranges);
    }
    free(ends);
}

/* The audit of ranges, with buffers as above: it is that of their bytes, one range after another. */
static struct simplex_summary audits_ranges(const struct input *in,
                                            const struct simplex_range *ranges, size_t ranges_len)
{
    struct simplex_summary summary = untouched, joined;
    struct input part = *in;
    size_t size = 0;
    for (size_t i = 0; i < ranges_len; i++)
        size += ranges[i].length;
    uint8_t *bytes = block(size, 0), *at = bytes, text[5000];
    for (size_t i = 0; i < ranges_len; at += ranges[i++].length)
        memcpy(at, in->stream + ranges[i].place, ranges[i].length);
    part.stream = bytes;
    part.stream_len = size;
    uint32_t wanted = audit(&part, text, sizeof text, &joined);
    size_t n = joined.length;
    for (size_t spare = 0; spare < 3; spare += 2) {
        uint8_t *fitting = block(n + spare, 7);
        CHECK(audit_ranges(in, ranges, ranges_len, fitting, n + spare, &summary) == wanted);
        CHECK(!memcmp(&summary, &joined, sizeof summary) && !memcmp(fitting, text, n));
        CHECK(all(fitting + n, spare, 7));
        free(fitting);
    }
    if (n) {
        uint8_t *shorter = block(n - 1, 7);
        summary = untouched;
        CHECK(audit_ranges(in, ranges, ranges_len, shorter, n - 1, &summary) == SIMPLEX_SHORT);
        CHECK(!memcmp(&summary, &joined, sizeof summary) && all(shorter, n - 1, 7));
        free(shorter);
    }
    free(bytes);
    return joined;
}

/* A range that is not within the stream is refused, and nothing is written. */
static void refuses_range(const struct input *in, size_t place, size_t length)
{
    struct simplex_summary summary = untouched;
    struct simplex_range *ranges = (struct simplex_range *)block(2 * RANGE, 0);
    uint8_t *text = block(500, 7);
    for (size_t i = 0; i < 2; i++) {
        ranges[i].place = place;
        ranges[i].length = length;
        ranges[1 - i].place = 0;
        ranges[1 - i].length = in->stream_len;
        CHECK(audit_ranges(in, ranges, 2, text, 500, &summary) == SIMPLEX_ARGUMENTS);
        CHECK(is_untouched(&summary) && all(text, 500, 7));
    }
    free(text);
    free(ranges);
}

/* Sizes of signatures, classes, rows and ranges that are refused, and nothing is written. */
static void refuses_parts(const struct input *in)
{
    struct simplex_summary summary = untouched;
    const struct simplex_range whole = {0, in->stream_len};
    uint8_t *buffer = block(500, 7);
    struct simplex_row *rows = (struct simplex_row *)buffer;
    struct simplex_range *ranges = (struct simplex_range *)buffer;
    const size_t n = in->stream_len;
    size_t needed = 99;
    for (uint32_t size = 0; size < 300; size++) {
        const int is_vouched = size == 48 || size == 64 || size == 96;
        if (in->signature && !is_vouched)
            CHECK(simplex_audit_ranges(size, SIZES, STREAM, &whole, 1, buffer, 500, &summary)
                  == SIMPLEX_ARGUMENTS);
        if (size != 32 && !is_vouched)
            CHECK(simplex_index(size, 9, STREAM, rows, 500 / ROW, &summary) == SIMPLEX_ARGUMENTS);
        CHECK(simplex_index(size, 0, STREAM, rows, 500 / ROW, &summary) == SIMPLEX_ARGUMENTS);
        if (size != 32 && !is_vouched)
            CHECK(simplex_class_ranges(size, 9, STREAM, 5, ranges, 9, &needed, 1, &summary)
                  == SIMPLEX_ARGUMENTS);
        for (uint32_t bound = 0; bound < 2; bound++)
            CHECK(simplex_class_ranges(size, bound, STREAM, 5, ranges, 9, &needed, bound ^ 1, &summary)
                  == SIMPLEX_ARGUMENTS);
    }
    const struct simplex_row over = {4, 10, SIZE_MAX - 8, 9, 1, 0};
    const struct simplex_row last = {4, 10, SIZE_MAX - 9, 9, 1, 0};
    for (uint32_t classes = 0; classes < 4; classes++)
        for (uint32_t which = classes; which < classes + 3; which++)
            CHECK(simplex_ranges(&last, 1, 5, classes, which, ranges, 9, &needed) == SIMPLEX_ARGUMENTS);
    for (uint32_t which = 0; which < 3; which++)
        CHECK(simplex_ranges(&over, 1, 5, 3, which, ranges, 9, &needed) == SIMPLEX_ARGUMENTS);
    CHECK(needed == 99 && is_untouched(&summary) && all(buffer, 500, 7));
    CHECK(simplex_ranges(&last, 1, 5, 1, 0, ranges, 9, &needed) == SIMPLEX_WHOLE && needed == 1);
    CHECK(ranges->place == SIZE_MAX - 9 && ranges->length == 9);
    free(buffer);
    refuses_range(in, n, 1);
    refuses_range(in, n + 1, 0);
    refuses_range(in, 0, n + 1);
    refuses_range(in, 1, n);
    refuses_range(in, SIZE_MAX, 0);
    refuses_range(in, SIZE_MAX, 1);
    refuses_range(in, 1, SIZE_MAX);
    if (n > 1)
        refuses_range(in, n / 2, SIZE_MAX - n / 2 + 1);
}

/* An audit in parts: cut into so many classes, each message is in the ranges of its class, and all
 * classes together have the evidence and the splits of the stream. */
static void audits_parts(const struct input *in, uint32_t wanted)
{
    struct simplex_summary whole;
    uint8_t text[5000];
    size_t rows_len, ranges_len;
    CHECK(audit(in, text, sizeof text, &whole) == wanted);
    struct simplex_row *rows = tabulates(in, wanted, &rows_len);
    CHECK(rows_len == whole.read);
    for (uint32_t classes = 1; classes < 6; classes++) {
        size_t read = 0, evidence = 0, splits = 0, length = 0, bytes = 0;
        cuts_all(in, rows, rows_len, classes);
        for (uint32_t which = 0; which < classes; which++) {
            struct simplex_range *ranges = cuts(rows, rows_len, classes, which, &ranges_len);
            struct simplex_summary part = audits_ranges(in, ranges, ranges_len);
            CHECK(!part.faulted);
            read += part.read;
            evidence += part.evidence;
            splits += part.splits;
            length += part.length;
            for (size_t i = 0; i < rows_len; i++) {
                uint32_t class = simplex_class_of(rows[i].epoch, rows[i].view, 5, classes);
                size_t covering = 0;
                for (size_t k = 0; k < ranges_len; k++)
                    covering += ranges[k].place <= rows[i].place
                                && rows[i].place - ranges[k].place < ranges[k].length;
                CHECK(class < classes && covering == (class == which));
            }
            for (size_t k = 0; k < ranges_len; k++)
                bytes += ranges[k].length;
            free(ranges);
        }
        CHECK(read == whole.read && evidence == whole.evidence && splits == whole.splits);
        CHECK(length == whole.length);
        CHECK(bytes == (whole.faulted ? whole.fault_place : in->stream_len));
    }
    free(rows);
    refuses_parts(in);
    /* ranges of any bytes: none, the stream twice, its halves, and all bytes one by one */
    const struct simplex_range twice[] = {{0, in->stream_len}, {0, in->stream_len}};
    const size_t half = in->stream_len / 2;
    const struct simplex_range turned[] = {{half, in->stream_len - half}, {0, half}, {half, 0}};
    audits_ranges(in, twice, 0);
    audits_ranges(in, twice, 2);
    audits_ranges(in, turned, 3);
    struct simplex_range *single = (struct simplex_range *)block(in->stream_len * RANGE, 0);
    for (size_t i = 0; i < in->stream_len; i++)
        single[i] = (struct simplex_range){i, 1};
    audits_ranges(in, single, in->stream_len);
    free(single);
}

/* With its k-th allocation and all later ones made to fail a call ends with SIMPLEX_MEMORY, writes
 * nothing and frees what it allocated, until k is more than the allocations that it makes. */
static void without_memory(const struct input *in)
{
    const struct simplex_range whole = {0, in->stream_len};
    const struct simplex_row row = {4, 10, 0, in->stream_len, 1, 0};
    long before = blocks;
    for (int call = in->signature ? 0 : 1; call < 8; call++)
        for (long k = 1;; k++) {
            struct simplex_summary summary = untouched;
            size_t size = 99;
            union {
                uint8_t bytes[500];
                struct simplex_suspect suspects[500 / RECORD];
                struct simplex_record records[500 / EVIDENCE];
                struct simplex_row rows[500 / ROW];
                struct simplex_range ranges[500 / RANGE];
            } to;
            uint8_t *buffer = to.bytes;
            memset(&to, 7, sizeof to);
            allowed = k;
            uint32_t status = call == 0   ? suspects(in, to.suspects, 500 / RECORD, &size)
                              : call == 1 ? audit(in, buffer, 500, &summary)
                              : call == 2 ? store(in, buffer, 500, &size)
                              : call == 3 ? enlist(in, to.records, 500 / EVIDENCE, &summary)
                              : call == 4 ? tabulate(in, to.rows, 500 / ROW, &summary)
                              : call == 5 ? simplex_ranges(&row, 1, 5, 1, 0, to.ranges, 9, &size)
                              : call == 6 ? cut_all(in, to.ranges, 500 / RANGE, &size, 1, &summary)
                                          : audit_ranges(in, &whole, 1, buffer, 500, &summary);
            int over = allowed > 0;
            allowed = -1;
            CHECK(blocks == before);
            if (over) {
                CHECK(status <= SIMPLEX_FAULT);
                CHECK(k > 1);
                break;
            }
            CHECK(status == SIMPLEX_MEMORY && all(buffer, 500, 7));
            CHECK(size == 99 && is_untouched(&summary));
        }
}

/* The sample of crates/audit: two notarizes of participant 0, of 69 bytes each. */
static void plain(const uint8_t *sample, size_t len)
{
    uint8_t *keys = block(64, 0), *name = copy("test", 4), *none = block(0, 0);
    const uint32_t one[] = {1}, two[] = {2}, *no_sizes = (const uint32_t *)none;
    struct input in = {.name = name, .name_len = 4, .keys = keys, .keys_len = 32, .stream = sample,
                       .stream_len = len, .stored = none, .epochs = (const uint64_t *)none,
                       .sizes = one, .sizes_len = 1};
    CHECK(len == 138);
    CHECK(audits(&in, SIMPLEX_WHOLE, 2, 0) == 1);
    stores(&in);
    precedes(&in);
    enlists(&in);
    audits_parts(&in, SIMPLEX_WHOLE);
    without_memory(&in);
    in.stream_len = 137;
    CHECK(audits(&in, SIMPLEX_FAULT, 1, 69) == 0);
    stores(&in);
    enlists(&in);
    audits_parts(&in, SIMPLEX_FAULT);
    in.stream_len = 0;
    CHECK(audits(&in, SIMPLEX_WHOLE, 0, 0) == 0);
    stores(&in);
    enlists(&in);
    audits_parts(&in, SIMPLEX_WHOLE);
    in.stream_len = len;
    in.name_len = 0;
    CHECK(audits(&in, SIMPLEX_WHOLE, 2, 0) == 0);
    in.name_len = 4;
    for (size_t n = 0; n <= 64; n++)
        if (n != 32) {
            in.keys_len = n;
            refuses(&in, SIMPLEX_REFUSED_LENGTH);
        }
    in.sizes = two;
    for (size_t n = 0; n < 64; n++) {
        in.keys_len = n;
        refuses(&in, SIMPLEX_REFUSED_LENGTH);
    }
    in.keys_len = 64;
    refuses(&in, SIMPLEX_REFUSED_REPEATED);
    in.sizes = no_sizes;
    in.sizes_len = 0;
    refuses(&in, SIMPLEX_REFUSED_NO_COMMITTEE);
    in.sizes = two;
    in.sizes_len = 1;
    keys[32] = 1;
    CHECK(audits(&in, SIMPLEX_WHOLE, 2, 0) == 1);
    keys[0] = 2; /* now the key of the sample's signer is not there */
    CHECK(audits(&in, SIMPLEX_WHOLE, 2, 0) == 0);
    free(none);
    free(name);
    free(keys);
}

/* The same under a committee for each of some epochs, whose keys stand one behind the other. */
static void plain_by_epoch(const uint8_t *sample, size_t len)
{
    enum { ALL = 4 * 32 };
    uint8_t *keys = block(ALL, 9), *name = copy("test", 4), *none = block(0, 0);
    const uint64_t epoch = sample[1], epochs[] = {epoch, epoch + 1, epoch + 2, epoch};
    const uint32_t first[] = {3, 1}, second[] = {1, 3}, zero[] = {0, 4}, most[] = {UINT32_MAX, 1};
    for (int i = 0; i < 4; i++)
        keys[32 * i] = (uint8_t)i;
    struct input in = {.name = name, .name_len = 4, .keys = keys, .keys_len = ALL, .stream = sample,
                       .stream_len = len, .stored = none, .epochs = epochs, .epochs_len = 2,
                       .sizes = first, .sizes_len = 2};
    /* the sample's signer is the third of the first committee: */
    memset(keys + 64, 0, 32);
    CHECK(audits(&in, SIMPLEX_WHOLE, 2, 0) == 1);
    stores(&in);
    precedes(&in);
    enlists(&in);
    audits_parts(&in, SIMPLEX_WHOLE);
    without_memory(&in);
    /* now of the second, whose epoch is the next one */
    in.sizes = second;
    CHECK(audits(&in, SIMPLEX_WHOLE, 2, 0) == 0);
    in.epochs = epochs + 1;
    CHECK(audits(&in, SIMPLEX_WHOLE, 2, 0) == 0);
    in.epochs = epochs;
    /* the same key in both committees, and then twice in one */
    memset(keys, 0, 32);
    CHECK(audits(&in, SIMPLEX_WHOLE, 2, 0) == 1);
    in.sizes = first;
    refuses(&in, SIMPLEX_REFUSED_REPEATED);
    /* each cause hides those behind it */
    in.keys_len = ALL - 1;
    refuses(&in, SIMPLEX_REFUSED_LENGTH);
    in.keys_len = ALL - 32;
    refuses(&in, SIMPLEX_REFUSED_LENGTH);
    in.sizes = most;
    refuses(&in, SIMPLEX_REFUSED_LENGTH);
    in.sizes = zero;
    refuses(&in, SIMPLEX_REFUSED_EMPTY);
    in.epochs = epochs + 2;
    refuses(&in, SIMPLEX_REFUSED_EPOCHS);
    in.sizes_len = 1;
    refuses(&in, SIMPLEX_REFUSED_COUNT);
    in.sizes_len = 0;
    refuses(&in, SIMPLEX_REFUSED_NO_COMMITTEE);
    /* without memory it is not known whether a key stands twice, and nothing stays allocated */
    in.epochs = epochs;
    in.sizes = second;
    in.sizes_len = 2;
    in.keys_len = ALL;
    for (int twice = 0; twice < 2; twice++) {
        const uint32_t known = twice ? SIMPLEX_REFUSED_REPEATED : SIMPLEX_REFUSED_NOTHING;
        long before = blocks, k = 0;
        uint32_t cause;
        do {
            allowed = ++k;
            cause = refusal(&in);
            allowed = -1;
            CHECK(blocks == before);
            CHECK(cause == known || cause == SIMPLEX_REFUSED_UNKNOWN);
        } while (cause == SIMPLEX_REFUSED_UNKNOWN && k < 1000);
        CHECK(cause == known && k > 1);
        in.sizes = first;
    }
    free(none);
    free(name);
    free(keys);
}

/* A signer's number, seven bits a byte, with a signature of this size and a verdict. */
static uint8_t *put_attestation(uint8_t *at, uint32_t signer, size_t signature, uint8_t verdict)
{
    for (; signer >= 128; signer >>= 7)
        *at++ = (uint8_t)(signer | 128);
    *at++ = (uint8_t)signer;
    memset(at, 0xee, signature);
    at[signature] = verdict;
    return at + signature + 1;
}

/* A notarize in view 10 of an epoch, with a signature of this size and a verdict. */
static uint8_t *put_notarize(uint8_t *at, uint8_t epoch, uint32_t signer, uint8_t payload,
                             size_t signature, uint8_t verdict)
{
    const uint8_t head[] = {0, epoch, 10, 5};
    memcpy(at, head, 4);
    memset(at + 4, payload, 32);
    return put_attestation(at + 36, signer, signature, verdict);
}

/* A finalize in view 10 of an epoch, whose signature is valid. */
static uint8_t *put_finalize(uint8_t *at, uint8_t epoch, uint32_t signer, uint8_t payload,
                             size_t signature)
{
    uint8_t *end = put_notarize(at, epoch, signer, payload, signature, 1);
    at[0] = 5;
    return end;
}

/* A nullify of view 10 of an epoch, whose signature is valid. */
static uint8_t *put_nullify(uint8_t *at, uint8_t epoch, uint32_t signer, size_t signature)
{
    const uint8_t head[] = {3, epoch, 10};
    memcpy(at, head, 3);
    return put_attestation(at + 3, signer, signature, 1);
}

/* Two notarizes that contradict, the second with this verdict. */
static size_t two(uint8_t *stream, uint8_t epoch, uint32_t signer, size_t signature,
                  uint8_t verdict)
{
    uint8_t *end = put_notarize(stream, epoch, signer, 6, signature, 1);
    return (size_t)(put_notarize(end, epoch, signer, 7, signature, verdict) - stream);
}

/* The input with these committees. */
static struct input under(struct input in, const uint64_t *epochs, size_t epochs_len,
                          const uint32_t *sizes, size_t sizes_len)
{
    in.epochs = epochs;
    in.epochs_len = epochs_len;
    in.sizes = sizes;
    in.sizes_len = sizes_len;
    return in;
}

static size_t accused(struct input *in, const uint64_t *epochs, size_t epochs_len,
                      const uint32_t *sizes, size_t sizes_len)
{
    *in = under(*in, epochs, epochs_len, sizes, sizes_len);
    return audits(in, SIMPLEX_WHOLE, 2, 0);
}

static void refuses_sizes(struct input in, const uint64_t *epochs, size_t epochs_len,
                          const uint32_t *sizes, size_t sizes_len, uint32_t cause)
{
    in = under(in, epochs, epochs_len, sizes, sizes_len);
    refuses(&in, cause);
    in.signature++;
    CHECK(refusal(&in) == SIMPLEX_REFUSED_SIGNATURE);
}

static void vouched(int signature)
{
    uint8_t *none = block(0, 0), room[400];
    const uint64_t epochs[] = {3, 4, 4, 2}, *no_epochs = (const uint64_t *)copy("", 0);
    const uint32_t four[] = {4, 4, 4}, low_high[] = {1, 4}, high_low[] = {4, 1}, zero[] = {4, 0};
    size_t n = two(room, 4, 2, (size_t)signature, 1);
    uint8_t *stream = copy(room, n);
    struct input in = {.stored = none, .stream = stream, .stream_len = n, .signature = signature};
    /* which committee is that of the epoch */
    CHECK(accused(&in, no_epochs, 0, four, 1) == 1);
    stores(&in);
    precedes(&in);
    enlists(&in);
    without_memory(&in);
    CHECK(accused(&in, epochs, 2, low_high, 2) == 1);
    stores(&in);
    enlists(&in);
    without_memory(&in);
    CHECK(accused(&in, epochs, 2, high_low, 2) == 0);
    CHECK(accused(&in, epochs, 1, four, 1) == 0);
    CHECK(accused(&in, no_epochs, 0, low_high, 1) == 0);
    /* arguments that are no committees */
    refuses_sizes(in, no_epochs, 0, four, 0, SIMPLEX_REFUSED_NO_COMMITTEE);
    refuses_sizes(in, no_epochs, 0, zero, 2, SIMPLEX_REFUSED_COUNT);
    refuses_sizes(in, no_epochs, 0, zero + 1, 1, SIMPLEX_REFUSED_EMPTY);
    refuses_sizes(in, epochs, 1, four, 0, SIMPLEX_REFUSED_NO_COMMITTEE);
    refuses_sizes(in, epochs, 1, four, 2, SIMPLEX_REFUSED_COUNT);
    refuses_sizes(in, epochs + 2, 2, zero + 1, 1, SIMPLEX_REFUSED_COUNT);
    refuses_sizes(in, epochs, 2, zero, 2, SIMPLEX_REFUSED_EMPTY);
    refuses_sizes(in, epochs, 3, four, 3, SIMPLEX_REFUSED_EPOCHS);
    refuses_sizes(in, epochs + 2, 2, zero, 2, SIMPLEX_REFUSED_EPOCHS);
    /* only 01 is the verdict of a valid signature */
    for (int verdict = 0; verdict < 256; verdict++) {
        stream[n - 1] = (uint8_t)verdict;
        CHECK(accused(&in, no_epochs, 0, four, 1) == (verdict == 1));
    }
    stream[n - 1] = 1;
    in.stream_len = n - 1;
    in.sizes_len = 1;
    CHECK(audits(&in, SIMPLEX_FAULT, 1, n / 2) == 0);
    enlists(&in);
    audits_parts(&in, SIMPLEX_FAULT);
    free((void *)no_epochs);
    free(stream);
    free(none);
}

/* A notarization in view 10 of an epoch, with valid signatures of participants 0, 1 and 2. */
static uint8_t *put_notarization(uint8_t *at, uint8_t epoch, uint8_t payload, size_t signature)
{
    const uint8_t head[] = {1, epoch, 10, 5};
    memcpy(at, head, 4);
    memset(at + 4, payload, 32);
    at[36] = 3;
    at += 37;
    for (uint32_t signer = 0; signer < 3; signer++)
        at = put_attestation(at, signer, signature, 1);
    return at;
}

/* Nine rounds whose messages alternate: in each two notarizes that contradict, a nullify and an
 * evidence; in each third two certificates that contradict as well. */
static void in_parts(size_t signature)
{
    static const uint32_t four[] = {4};
    static const uint64_t epoch[] = {0};
    const size_t vote = 38 + signature;
    uint8_t room[20000], votes[400], *end = room, *none = block(0, 0);
    for (uint8_t kind = 0; kind < 6; kind++)
        for (uint8_t i = 0; i < 9; i++) {
            const uint32_t signer = i % 4;
            two(votes, i, signer, signature, 1);
            if (kind < 2)
                end = put_notarize(end, i, signer, 6 + kind, signature, 1);
            else if (kind == 2)
                end = put_nullify(end, i, 3, signature);
            else if (kind == 3)
                end = put_conflict(end, votes, votes + vote, vote);
            else if (i % 3 == 0)
                end = put_notarization(end, i, kind, signature);
        }
    uint8_t *stream = copy(room, (size_t)(end - room));
    struct input in = {.stored = none, .stream = stream, .stream_len = (size_t)(end - room),
                       .signature = (int)signature, .epochs = epoch, .sizes = four, .sizes_len = 1};
    /* each certificate's signers are accused in the rounds that have both */
    CHECK(audits(&in, SIMPLEX_WHOLE, 42, 0) == 6 + 3 * 3 + 1);
    audits_parts(&in, SIMPLEX_WHOLE);
    struct simplex_summary summary;
    struct simplex_row rows[42];
    CHECK(tabulate(&in, rows, 42, &summary) == SIMPLEX_WHOLE && summary.read == 42);
    CHECK(rows[10].epoch == 1 && rows[10].view == 10 && rows[10].place == 10 * vote);
    CHECK(rows[10].length == vote && rows[10].attestations == 1);
    CHECK(rows[20].attestations == 1 && rows[20].kind == SIMPLEX_ROW_NULLIFY);
    CHECK(rows[30].attestations == 2 && rows[30].kind == SIMPLEX_ROW_CONFLICTING_NOTARIZE);
    CHECK(rows[40].attestations == 3 && rows[40].kind == SIMPLEX_ROW_NOTARIZATION);
    free(stream);
    free(none);
}

/* Two votes of participant 2 in epoch 4 that contradict, behind one in another epoch, and around
 * those of others in their round. */
static void deferred(int signature)
{
    uint8_t *none = block(0, 0), room[800], *end = room;
    const size_t vote = 38 + (size_t)signature;
    const size_t verdicts[] = {vote - 1, 2 * vote - 1, 3 * vote - 1, 4 * vote - 1, 5 * vote - 1};
    const uint32_t four[] = {4, 4}, two_members[] = {2, 2};
    const uint64_t epochs[] = {3, 4};
    end = put_notarize(end, 3, 2, 6, (size_t)signature, 1);
    end = put_notarize(end, 4, 2, 6, (size_t)signature, 1);
    end = put_notarize(end, 4, 3, 7, (size_t)signature, 1); /* a signer who does not contradict */
    end = put_notarize(end, 4, 9, 7, (size_t)signature, 1); /* a signer outside the committee */
    end = put_notarize(end, 4, 2, 7, (size_t)signature, 1);
    uint8_t *stream = copy(room, (size_t)(end - room));
    struct input in = {.stored = none, .stream = stream, .stream_len = (size_t)(end - room),
                       .signature = signature, .epochs = epochs, .epochs_len = 2, .sizes = four,
                       .sizes_len = 2};
    CHECK(defers(&in, verdicts, 5) == 2);
    struct simplex_suspect records[2];
    size_t needed;
    CHECK(suspects(&in, records, 2, &needed) == SIMPLEX_WHOLE && needed == 2);
    for (size_t i = 0; i < 2; i++) {
        const size_t at = (i ? 4 : 1) * vote;
        CHECK(records[i].epoch == 4 && records[i].view == 10);
        CHECK(records[i].verdict_place == at + vote - 1);
        CHECK(records[i].subject_place == at + 1 && records[i].subject_length == 35);
        CHECK(records[i].signer == 2 && records[i].kind == SIMPLEX_NOTARIZE);
    }
    without_memory(&in);
    in.sizes = two_members; /* now nobody of the stream is in a committee */
    CHECK(defers(&in, verdicts, 5) == 0);
    in.sizes = four;
    in.stream_len = 4 * vote; /* without the last vote the stream is honest */
    CHECK(defers(&in, verdicts, 4) == 0);
    in.stream_len = 0;
    CHECK(defers(&in, verdicts, 0) == 0);
    free(stream);
    free(none);
}

/* Votes of a participant who contradicts, some of them repeated: one is the same with another
 * verdict, and none with another signature, payload, signer or kind. */
static void deferred_repeats(size_t signature)
{
    static const size_t firsts[] = {0, 1, 0, 3, 1, 5};
    static const uint32_t four[] = {4};
    static const uint64_t epoch[] = {0};
    const size_t vote = 38 + signature;
    uint8_t room[1000], *end = room;
    end = put_notarize(end, 4, 2, 6, signature, 1);
    end = put_notarize(end, 4, 2, 7, signature, 1);
    end = put_notarize(end, 4, 2, 6, signature, 0);
    end = put_notarize(end, 4, 2, 6, signature, 1);
    room[4 * vote - 2] ^= 1; /* another signature */
    end = put_notarize(end, 4, 2, 7, signature, 1);
    end = put_finalize(end, 4, 2, 6, signature);
    uint8_t *stream = copy(room, (size_t)(end - room));
    struct input in = {.stored = stream, .stream = stream, .stream_len = (size_t)(end - room),
                       .signature = (int)signature, .epochs = epoch, .sizes = four, .sizes_len = 1};
    struct simplex_suspect records[6];
    size_t needed;
    CHECK(suspects(&in, records, 6, &needed) == SIMPLEX_WHOLE && needed == 6);
    for (size_t i = 0; i < 6; i++)
        CHECK(records[i].first == firsts[i]);
    free(stream);
}

/* A vote of each kind by a participant who contradicts: all three are listed, each by its kind. */
static void deferred_kinds(size_t signature)
{
    static const uint32_t kind[] = {SIMPLEX_NOTARIZE, SIMPLEX_FINALIZE, SIMPLEX_NULLIFY};
    static const uint32_t four[] = {4};
    static const uint64_t epoch[] = {0};
    const size_t vote = 38 + signature, nullify = 5 + signature;
    const size_t verdicts[] = {vote - 1, 2 * vote - 1, 2 * vote + nullify - 1};
    uint8_t room[400], *end = room;
    end = put_notarize(end, 4, 2, 6, signature, 1);
    end = put_finalize(end, 4, 2, 6, signature);
    end = put_nullify(end, 4, 2, signature);
    uint8_t *stream = copy(room, (size_t)(end - room));
    struct input in = {.stored = stream, .stream = stream, .stream_len = (size_t)(end - room),
                       .signature = (int)signature, .epochs = epoch, .sizes = four, .sizes_len = 1};
    CHECK(defers(&in, verdicts, 3) == 3);
    struct simplex_suspect records[3];
    size_t needed;
    CHECK(suspects(&in, records, 3, &needed) == SIMPLEX_WHOLE && needed == 3);
    for (size_t i = 0; i < 3; i++) {
        CHECK(records[i].kind == kind[i] && records[i].signer == 2);
        CHECK(records[i].verdict_place == verdicts[i] && records[i].subject_place == i * vote + 1);
        CHECK(records[i].subject_length == (kind[i] == SIMPLEX_NULLIFY ? 2 : 35));
    }
    free(stream);
}

/* The only record of a stream, under a committee of four for every epoch. */
static struct simplex_record only_record(const uint8_t *stream, size_t len, size_t signature)
{
    static const uint32_t four[] = {4};
    static const uint64_t epoch[] = {0};
    uint8_t *whole = copy(stream, len);
    struct input in = {.stored = whole, .stream = whole, .stream_len = len,
                       .signature = (int)signature, .epochs = epoch, .sizes = four, .sizes_len = 1};
    struct simplex_record record[1];
    struct simplex_summary summary;
    CHECK(enlist(&in, record, 1, &summary) == SIMPLEX_WHOLE && summary.evidence == 1);
    enlists(&in);
    free(whole);
    return record[0];
}

/* Whether the only record of a stream has this kind and these places. */
static int stands_at(const uint8_t *stream, size_t len, size_t signature, uint32_t kind,
                     size_t first, size_t second)
{
    const struct simplex_record record = only_record(stream, len, signature);
    return record.epoch == 4 && record.view == 10 && record.signer == 2 && record.kind == kind &&
           record.first_place == first && record.second_place == second;
}

/* Whether a vote of signer 2 stands there: its subject, of this length, and its verdict. */
static int is_there(const struct simplex_vote_place *vote, uint32_t kind, size_t subject,
                    size_t length, size_t verdict)
{
    return vote->kind == kind && vote->signer == 2 && vote->subject_place == subject &&
           vote->subject_length == length && vote->verdict_place == verdict;
}

/* The first message that carries a vote holds other attestations, whose signatures are invalid: the
 * vote stands at its own offsets. */
static void held_apart(size_t signature)
{
    const size_t vote = 38 + signature, attested = signature + 2;
    uint8_t room[1200], votes[400], *end = votes, *at;
    end = put_notarize(end, 4, 2, 6, signature, 1);
    end = put_notarize(end, 4, 2, 7, signature, 0);
    /* evidence of the vote and an invalid one of its signer, in both orders, and then the valid one */
    for (int is_second = 0; is_second < 2; is_second++) {
        const uint8_t *first = votes + (is_second ? vote : 0), *second = votes + (is_second ? 0 : vote);
        at = put_conflict(room, first, second, vote);
        const size_t batch = (size_t)(at - room);
        end = put_notarize(at, 4, 2, 7, signature, 1);
        struct simplex_record record = only_record(room, (size_t)(end - room), signature);
        size_t subject = is_second ? vote : 1;
        CHECK(record.first_place == 0 && record.second_place == batch);
        CHECK(is_there(&record.first_vote, SIMPLEX_NOTARIZE, subject, 35, subject + vote - 2));
        CHECK(is_there(&record.second_vote, SIMPLEX_NOTARIZE, batch + 1, 35, batch + vote - 1));
    }
    /* a certificate that lists the vote between two attestations that are invalid, behind one that
     * lists the signer with an invalid signature */
    end = room;
    for (int is_valid = 0; is_valid < 2; is_valid++) {
        at = end;
        end = put_notarize(end, 4, 0, 6, signature, 0) - attested;
        at[0] = SIMPLEX_ROW_NOTARIZATION;
        *end++ = is_valid ? 3 : 1;
        if (is_valid)
            end = put_attestation(end, 1, signature, 0);
        end = put_attestation(end, 2, signature, (uint8_t)is_valid);
        if (is_valid)
            end = put_attestation(end, 3, signature, 0);
    }
    const size_t place = (size_t)(at - room), behind = (size_t)(end - room);
    end = put_notarize(end, 4, 2, 7, signature, 1);
    struct simplex_record record = only_record(room, (size_t)(end - room), signature);
    CHECK(record.first_place == place && record.second_place == behind);
    CHECK(is_there(&record.first_vote, SIMPLEX_NOTARIZE, place + 1, 35, place + 36 + 2 * attested));
    CHECK(is_there(&record.second_vote, SIMPLEX_NOTARIZE, behind + 1, 35, behind + vote - 1));
    /* a nullify has a shorter subject */
    end = put_finalize(room, 4, 2, 6, signature);
    end = put_nullify(end, 4, 2, signature);
    record = only_record(room, (size_t)(end - room), signature);
    CHECK(is_there(&record.first_vote, SIMPLEX_NULLIFY, vote + 1, 2, vote + 2 + attested));
    CHECK(is_there(&record.second_vote, SIMPLEX_FINALIZE, 1, 35, vote - 1));
}

/* Votes on their own, in a certificate and as evidence: a place is that of the first message that
 * carries the vote. */
static void placed(size_t signature)
{
    const size_t vote = 38 + signature;
    uint8_t room[1200], *end = room;
    /* one vote twice, a vote of another, one that is not valid, and then the other vote */
    end = put_notarize(end, 4, 1, 6, signature, 1);
    end = put_notarize(end, 4, 2, 6, signature, 1);
    end = put_notarize(end, 4, 2, 6, signature, 1);
    end = put_notarize(end, 4, 2, 7, signature, 0);
    end = put_notarize(end, 4, 2, 7, signature, 1);
    CHECK(stands_at(room, (size_t)(end - room), signature, SIMPLEX_CONFLICTING_NOTARIZE, vote,
                    4 * vote));
    /* a certificate that lists the first vote, and evidence with both: the notarizes without their
     * tags */
    uint8_t votes[400], *at = votes;
    at = put_notarize(at, 4, 2, 6, signature, 1);
    at = put_notarize(at, 4, 2, 7, signature, 1);
    end = room;
    *end++ = 1;
    memcpy(end, votes + 1, 35);
    end += 35;
    *end++ = 1;
    memcpy(end, votes + 36, vote - 36);
    end += vote - 36;
    const size_t certificate = (size_t)(end - room);
    end = put_conflict(end, votes, votes + vote, vote);
    CHECK(stands_at(room, (size_t)(end - room), signature, SIMPLEX_CONFLICTING_NOTARIZE, 0,
                    certificate));
    CHECK(stands_at(room + certificate, (size_t)(end - room) - certificate, signature,
                    SIMPLEX_CONFLICTING_NOTARIZE, 0, 0));
    /* a finalize of another, and then two that contradict */
    end = put_finalize(room, 4, 1, 6, signature);
    end = put_finalize(end, 4, 2, 6, signature);
    end = put_finalize(end, 4, 2, 7, signature);
    CHECK(stands_at(room, (size_t)(end - room), signature, SIMPLEX_CONFLICTING_FINALIZE, vote,
                    2 * vote));
    /* a finalize, and then a nullify: the nullify is the first vote of the evidence */
    end = put_finalize(room, 4, 2, 6, signature);
    end = put_nullify(end, 4, 2, signature);
    CHECK(stands_at(room, (size_t)(end - room), signature, SIMPLEX_NULLIFY_FINALIZE, vote, 0));
}

/* What a call is given that writes a message, or the bytes that are signed. */
struct said {
    uint32_t signature, kind, signer;
    uint64_t epoch, view, parent;
    const uint8_t *name, *payload, *attested;
    size_t name_len, payload_len, attested_len;
    const uint32_t *signers;
    size_t signers_len;
};

#define VOTE it->kind, it->epoch, it->view, it->parent, it->payload, it->payload_len
#define ATTESTED it->attested, it->attested_len

typedef uint32_t writer(const struct said *it, uint8_t *to, size_t room, size_t *size);

static uint32_t signs(const struct said *it, uint8_t *to, size_t room, size_t *size)
{
    return simplex_signed_bytes(it->name, it->name_len, VOTE, to, room, size);
}

static uint32_t votes(const struct said *it, uint8_t *to, size_t room, size_t *size)
{
    return simplex_write_vote(it->signature, VOTE, it->signer, ATTESTED, to, room, size);
}

static uint32_t certifies(const struct said *it, uint8_t *to, size_t room, size_t *size)
{
    return simplex_write_certificate(it->signature, VOTE, it->signers, it->signers_len, ATTESTED, to,
                                     room, size);
}

/* The call writes these bytes into a buffer that is long enough, and nothing into a shorter one nor
 * where an allocation fails. */
static void writes(writer *call, const struct said *it, const uint8_t *wanted, size_t len)
{
    const size_t rooms[] = {0, len - 1, len, len + 3};
    for (size_t i = 0; i < 4; i++) {
        size_t room = rooms[i], size = 99;
        uint8_t *to = block(room, 0xaa);
        uint32_t status = call(it, to, room, &size);
        CHECK(size == len);
        if (room < len)
            CHECK(status == SIMPLEX_SHORT && all(to, room, 0xaa));
        else
            CHECK(status == SIMPLEX_WHOLE && !memcmp(to, wanted, len) &&
                  all(to + len, room - len, 0xaa));
        free(to);
    }
    uint8_t *to = block(len, 0xaa);
    long before = blocks;
    for (long k = 1;; k++) {
        size_t size = 99;
        allowed = k;
        uint32_t status = call(it, to, len, &size);
        int over = allowed > 0;
        allowed = -1;
        CHECK(blocks == before);
        if (over) {
            CHECK(status == SIMPLEX_WHOLE && k > 1);
            break;
        }
        CHECK(status == SIMPLEX_MEMORY && size == 99 && all(to, len, 0xaa));
    }
    free(to);
}

/* The call refuses its arguments, and writes nothing. */
static void declines(writer *call, struct said it)
{
    uint8_t to[700];
    size_t size = 99;
    memset(to, 7, sizeof to);
    CHECK(call(&it, to, sizeof to, &size) == SIMPLEX_ARGUMENTS);
    CHECK(size == 99 && all(to, sizeof to, 7));
}

#define DECLINES(call, it, field, value)                                                           \
    do {                                                                                           \
        struct said other = it;                                                                    \
        other.field = value;                                                                       \
        declines(call, other);                                                                     \
    } while (0)

/* The message at the front of the bytes is of this kind, has this length and these attestations.
 * Each is a signature of `signature` bytes that ends at its verdict. */
static void reads(uint32_t signature, const uint8_t *bytes, size_t len, uint32_t kind, size_t length,
                  size_t attestations)
{
    static const struct simplex_message old = {99, 99, 99, 99, 99, 99, 99};
    uint8_t *whole = copy(bytes, len);
    for (size_t room = 0; room <= attestations + 1; room++) {
        struct simplex_attestation *found = (void *)block(room * ATTESTATION, 7);
        struct simplex_message message = old;
        uint32_t status = simplex_read_message(signature, 4, whole, len, found, room, &message);
        CHECK(message.epoch == 4 && message.view == 10 && message.kind == kind);
        CHECK(message.length == length && message.attestations == attestations);
        CHECK(message.parent == (kind == 3 || kind == 9 ? 0 : 5));
        CHECK(message.second_parent == (kind < 7 ? 0 : 5));
        if (room < attestations) {
            CHECK(status == SIMPLEX_SHORT && all((uint8_t *)found, room * ATTESTATION, 7));
        } else {
            CHECK(status == SIMPLEX_WHOLE);
            for (size_t i = 0; i < attestations; i++) {
                const struct simplex_attestation *it = &found[i];
                const uint8_t *verdict = whole + it->verdict_place;
                CHECK(it->epoch == 4 && it->view == 10);
                CHECK(it->subject_length == (it->kind == SIMPLEX_NULLIFY ? 2 : 35));
                CHECK(whole[it->subject_place] == 4 && whole[it->subject_place + 1] == 10);
                if (signature != 32)
                    CHECK(*verdict <= 1 && all(verdict - signature, signature, 0xee));
                CHECK(*(verdict - signature - (signature == 32 ? 0 : 1)) == it->signer);
            }
            CHECK(all((uint8_t *)(found + attestations), (room - attestations) * ATTESTATION, 7));
        }
        free(found);
    }
    /* a byte too short, and arguments that are refused */
    struct simplex_attestation none[1];
    struct simplex_message message;
    memcpy(&message, &old, sizeof old); /* its padding too, which is compared */
    memset(none, 7, sizeof none);
    CHECK(simplex_read_message(signature, 4, whole, length - 1, none, 1, &message) == SIMPLEX_FAULT);
    CHECK(simplex_read_message(signature, 4, whole, 0, none, 1, &message) == SIMPLEX_FAULT);
    CHECK(simplex_read_message(signature, 0, whole, len, none, 1, &message) == SIMPLEX_ARGUMENTS);
    CHECK(simplex_read_message(33, 4, whole, len, none, 1, &message) == SIMPLEX_ARGUMENTS);
    CHECK(!memcmp(&message, &old, sizeof old) && all((uint8_t *)none, sizeof none, 7));
    long before = blocks;
    for (long k = 1;; k++) {
        allowed = k;
        uint32_t status = simplex_read_message(signature, 4, whole, len, none, 0, &message);
        int over = allowed > 0;
        allowed = -1;
        CHECK(blocks == before);
        if (over) {
            CHECK(status == SIMPLEX_SHORT && k > 1);
            break;
        }
        CHECK(status == SIMPLEX_MEMORY && !memcmp(&message, &old, sizeof old));
    }
    free(whole);
}

/* Messages that are written are those that the other tests put together by hand, and are read again. */
static void messages(size_t signature)
{
    uint8_t wanted[700], payload[32], attested[300], *end;
    const uint32_t three[] = {0, 1, 2}, falling[] = {0, 2, 1}, twice[] = {1, 1, 2};
    memset(payload, 6, 32);
    memset(attested, 0xee, sizeof attested);
    for (size_t i = 1; i <= 3; i++)
        attested[i * (signature + 1) - 1] = 1;
    struct said it = {.signature = (uint32_t)signature, .epoch = 4, .view = 10, .parent = 5,
                      .name = payload, .payload = payload, .payload_len = 32, .signer = 2,
                      .attested = attested, .attested_len = signature + 1};
    /* votes: each kind, a signer of three bytes, and every verdict as it is given */
    end = put_notarize(wanted, 4, 2, 6, signature, 1);
    writes(votes, &it, wanted, (size_t)(end - wanted));
    reads(it.signature, wanted, (size_t)(end - wanted), 0, (size_t)(end - wanted), 1);
    it.kind = SIMPLEX_FINALIZE;
    end = put_finalize(wanted, 4, 2, 6, signature);
    writes(votes, &it, wanted, (size_t)(end - wanted));
    it.kind = SIMPLEX_NOTARIZE;
    it.signer = 70000;
    for (unsigned verdict = 0; verdict < 256; verdict += 51) {
        attested[signature] = (uint8_t)verdict;
        end = put_notarize(wanted, 4, 70000, 6, signature, (uint8_t)verdict);
        writes(votes, &it, wanted, (size_t)(end - wanted));
    }
    attested[signature] = 1;
    it.signer = 2;
    struct said nullify = it;
    nullify.kind = SIMPLEX_NULLIFY;
    nullify.parent = nullify.payload_len = 0;
    end = put_nullify(wanted, 4, 2, signature);
    writes(votes, &nullify, wanted, (size_t)(end - wanted));
    reads(it.signature, wanted, (size_t)(end - wanted), 3, (size_t)(end - wanted), 1);
    /* what is signed */
    it.name_len = 32;
    wanted[0] = 41;
    memset(wanted + 1, 6, 32);
    memcpy(wanted + 33, "_NOTARIZE\x04\x0a\x05", 12);
    memset(wanted + 45, 6, 32);
    writes(signs, &it, wanted, 77);
    nullify.name_len = 0;
    writes(signs, &nullify, (const uint8_t *)"\x08_NULLIFY\x04\x0a", 11);
    /* certificates */
    it.signers = three;
    it.signers_len = 3;
    it.attested_len = 3 * (signature + 1);
    it.kind = 1;
    end = put_notarization(wanted, 4, 6, signature);
    writes(certifies, &it, wanted, (size_t)(end - wanted));
    reads(it.signature, wanted, (size_t)(end - wanted), 1, (size_t)(end - wanted), 3);
    it.kind = wanted[0] = 2;
    writes(certifies, &it, wanted, (size_t)(end - wanted));
    it.kind = wanted[0] = 6;
    writes(certifies, &it, wanted, (size_t)(end - wanted));
    /* refusals */
    DECLINES(certifies, it, kind, 0);
    DECLINES(certifies, it, kind, 3);
    DECLINES(certifies, it, kind, 4); /* a nullification has neither parent nor payload */
    DECLINES(certifies, it, kind, 7);
    DECLINES(certifies, it, signature, 49);
    DECLINES(certifies, it, signers, falling);
    DECLINES(certifies, it, signers, twice);
    DECLINES(certifies, it, signers_len, 2);
    DECLINES(certifies, it, attested_len, it.attested_len - 1);
    DECLINES(certifies, it, payload_len, 31);
    it.signers_len = it.attested_len = 0;
    declines(certifies, it);
    it.kind = SIMPLEX_NOTARIZE;
    it.attested_len = signature + 1;
    DECLINES(votes, it, kind, 3);
    DECLINES(votes, it, signature, 0);
    DECLINES(votes, it, attested_len, signature);
    DECLINES(votes, it, payload_len, 0);
    DECLINES(votes, nullify, parent, 5);
    DECLINES(votes, nullify, payload_len, 32);
    DECLINES(signs, it, kind, 3);
    DECLINES(signs, it, payload_len, 31);
    DECLINES(signs, nullify, parent, 1);
}

/* The evidence is judged so, and no other arguments are. */
static void judges(size_t signature, const uint8_t *evidence, size_t len, uint32_t kind,
                   uint32_t proved)
{
    static const uint64_t epochs[] = {4, 5};
    static const uint32_t four[] = {4, 4};
    static const struct simplex_accusation old = {99, 99, 99, 99, 99};
    const uint32_t size = (uint32_t)signature;
    uint8_t *whole = copy(evidence, len);
    struct simplex_accusation it = old;
    CHECK(simplex_verify_evidence(size, epochs, 0, four, 1, whole, len, &it) == SIMPLEX_WHOLE);
    CHECK(it.epoch == 4 && it.view == 10 && it.signer == 2 && it.kind == kind);
    CHECK(it.proved == proved);
    it = old;
    CHECK(simplex_verify_evidence(size, epochs, 2, four, 2, whole, len, &it) == SIMPLEX_WHOLE);
    CHECK(it.proved == proved);
    /* under no committee of the epoch, and under one without the signer, nothing is proved */
    CHECK(simplex_verify_evidence(size, epochs + 1, 1, four, 1, whole, len, &it) == SIMPLEX_WHOLE);
    CHECK(it.signer == 2 && it.proved == 0);
    static const uint32_t two[] = {2};
    CHECK(simplex_verify_evidence(size, epochs, 0, two, 1, whole, len, &it) == SIMPLEX_WHOLE);
    CHECK(it.proved == 0);
    memcpy(&it, &old, sizeof old); /* its padding too, which is compared */
    CHECK(simplex_verify_evidence(size, epochs, 0, four, 1, whole, len - 1, &it) == SIMPLEX_FAULT);
    CHECK(simplex_verify_evidence(size, epochs, 0, four, 1, whole, 0, &it) == SIMPLEX_FAULT);
    CHECK(simplex_verify_evidence(32, epochs, 0, four, 1, whole, len, &it) == SIMPLEX_ARGUMENTS);
    CHECK(simplex_verify_evidence(size, epochs, 0, four, 2, whole, len, &it) == SIMPLEX_ARGUMENTS);
    CHECK(!memcmp(&it, &old, sizeof old));
    long before = blocks;
    for (long k = 1;; k++) {
        allowed = k;
        uint32_t status = simplex_verify_evidence(size, epochs, 0, four, 1, whole, len, &it);
        int over = allowed > 0;
        allowed = -1;
        CHECK(blocks == before);
        if (over) {
            CHECK(status == SIMPLEX_WHOLE && k > 1);
            break;
        }
        CHECK(status == SIMPLEX_MEMORY && !memcmp(&it, &old, sizeof old));
    }
    free(whole);
}

/* Evidence of each kind by itself; with a byte behind it; and messages that are none. */
static void accuses(size_t signature)
{
    static const uint32_t four[] = {4};
    static const uint64_t epoch[] = {0};
    const size_t vote = 38 + signature;
    uint8_t cast[400], room[700], *end;
    struct simplex_accusation it = {99, 99, 99, 99, 99};
    for (uint32_t verdict = 0; verdict < 2; verdict++) {
        size_t n = two(cast, 4, 2, signature, (uint8_t)verdict);
        end = put_conflict(room, cast, cast + n / 2, n / 2);
        judges(signature, room, (size_t)(end - room), SIMPLEX_CONFLICTING_NOTARIZE, verdict);
        reads((uint32_t)signature, room, (size_t)(end - room), 7, (size_t)(end - room), 2);
        room[0] = 8;
        judges(signature, room, (size_t)(end - room), SIMPLEX_CONFLICTING_FINALIZE, verdict);
    }
    const size_t len = (size_t)(end - room);
    CHECK(simplex_verify_evidence((uint32_t)signature, epoch, 0, four, 1, room, len + 1, &it) ==
          SIMPLEX_FAULT);
    /* a nullify and a finalize, each without its tag */
    end = put_nullify(cast, 4, 2, signature);
    const size_t first = (size_t)(end - cast), both = first + vote - 1;
    room[0] = 9;
    memcpy(room + 1, cast + 1, first - 1);
    put_finalize(cast, 4, 2, 6, signature);
    memcpy(room + first, cast + 1, vote - 1);
    judges(signature, room, both, SIMPLEX_NULLIFY_FINALIZE, 1);
    reads((uint32_t)signature, room, both, 9, both, 2);
    end = put_notarize(room, 4, 2, 6, signature, 1);
    CHECK(simplex_verify_evidence((uint32_t)signature, epoch, 0, four, 1, room,
                                  (size_t)(end - room), &it) == SIMPLEX_FAULT);
    end = put_notarization(room, 4, 6, signature);
    CHECK(simplex_verify_evidence((uint32_t)signature, epoch, 0, four, 1, room,
                                  (size_t)(end - room), &it) == SIMPLEX_FAULT);
    CHECK(it.epoch == 99 && it.proved == 99);
}

/* The sample's two notarizes as evidence, under the plain scheme. */
static void accuses_plain(const uint8_t *sample)
{
    uint8_t *keys = block(64, 0), room[200];
    size_t len = (size_t)(put_conflict(room, sample, sample + 69, 69) - room);
    struct simplex_accusation it = {99, 99, 99, 99, 99};
    const uint8_t *name = (const uint8_t *)"test";
    const uint64_t epochs[] = {sample[1], sample[1] + 1};
    const uint32_t sizes[] = {1, 1};
    CHECK(simplex_verify_evidence_plain(name, 4, epochs, 0, sizes, 1, keys, 32, room, len, &it) == SIMPLEX_WHOLE);
    CHECK(it.epoch == sample[1] && it.view == sample[2] && it.signer == 0 && it.proved == 1);
    CHECK(it.kind == SIMPLEX_CONFLICTING_NOTARIZE);
    CHECK(simplex_verify_evidence_plain(name, 3, epochs, 0, sizes, 1, keys, 32, room, len, &it) == SIMPLEX_WHOLE);
    CHECK(it.proved == 0);
    /* the committee of its epoch decides, with the keys at its place */
    keys[63] = 1;
    CHECK(simplex_verify_evidence_plain(name, 4, epochs, 2, sizes, 2, keys, 64, room, len, &it) == SIMPLEX_WHOLE);
    CHECK(it.proved == 1);
    CHECK(simplex_verify_evidence_plain(name, 4, epochs + 1, 1, sizes, 1, keys, 32, room, len, &it) == SIMPLEX_WHOLE);
    CHECK(it.proved == 0);
    keys[31] = 1;
    keys[63] = 0;
    CHECK(simplex_verify_evidence_plain(name, 4, epochs, 2, sizes, 2, keys, 64, room, len, &it) == SIMPLEX_WHOLE);
    CHECK(it.proved == 0);
    keys[31] = 0;
    it.proved = 99;
    CHECK(simplex_verify_evidence_plain(name, 4, epochs, 0, sizes, 1, keys, 64, room, len, &it) == SIMPLEX_ARGUMENTS);
    CHECK(simplex_verify_evidence_plain(name, 4, epochs, 0, sizes, 1, keys, 0, room, len, &it) == SIMPLEX_ARGUMENTS);
    CHECK(simplex_verify_evidence_plain(name, 4, epochs, 0, sizes, 2, keys, 64, room, len, &it) == SIMPLEX_ARGUMENTS);
    CHECK(simplex_verify_evidence_plain(name, 4, epochs, 0, sizes, 1, keys, 32, sample, 69, &it) == SIMPLEX_FAULT);
    CHECK(it.proved == 99);
    /* the sample's first vote, written anew */
    struct said vote = {.signature = 32, .epoch = sample[1], .view = sample[2],
                        .parent = sample[3], .payload = sample + 4, .payload_len = 32,
                        .name = name, .name_len = 4, .attested = sample + 37, .attested_len = 32};
    writes(votes, &vote, sample, 69);
    const uint32_t first[] = {0};
    uint8_t wanted[70];
    memcpy(wanted, sample, 36);
    wanted[0] = 1;
    wanted[36] = 1;
    memcpy(wanted + 37, sample + 36, 33);
    vote.kind = 1;
    vote.signers = first;
    vote.signers_len = 1;
    writes(certifies, &vote, wanted, 70);
    vote.attested_len = 33;
    declines(certifies, vote);
    free(keys);
}

/* The records of what was stored with the stream behind it, as a batch: those with at least one
 * place in the batch are those that what was stored does not have. Returns how many they are. */
static size_t renewed(const struct input *in)
{
    struct input both = *in, before = *in;
    uint8_t *whole = block(in->stored_len + in->stream_len, 0);
    memcpy(whole, in->stored, in->stored_len);
    memcpy(whole + in->stored_len, in->stream, in->stream_len);
    both.stream = whole;
    both.stream_len = in->stored_len + in->stream_len;
    before.stream = in->stored;
    before.stream_len = in->stored_len;
    struct simplex_record records[9], stored[9];
    struct simplex_summary summary, of_stored;
    size_t fresh = 0;
    CHECK(enlist(&both, records, 9, &summary) == SIMPLEX_WHOLE);
    CHECK(enlist(&before, stored, 9, &of_stored) == SIMPLEX_WHOLE);
    for (size_t i = 0; i < summary.evidence; i++) {
        const struct simplex_record *it = &records[i];
        int is_new = it->first_place >= in->stored_len || it->second_place >= in->stored_len;
        int accused = 0;
        for (size_t k = 0; k < of_stored.evidence; k++)
            accused |= it->epoch == stored[k].epoch && it->view == stored[k].view
                       && it->signer == stored[k].signer && it->kind == stored[k].kind;
        CHECK(is_new == !accused);
        fresh += is_new;
    }
    CHECK(summary.evidence - fresh == of_stored.evidence);
    free(whole);
    return fresh;
}

/* What a batch adds: evidence with one vote stored and the other in the batch, and evidence with
 * both votes in the batch. */
static void renews(size_t signature)
{
    static const uint32_t four[] = {4};
    static const uint64_t epoch[] = {0};
    for (int nullified = 0; nullified < 2; nullified++) {
        uint8_t room[600], stored[600] = {0}, *end = room;
        size_t n;
        end = put_finalize(end, 4, 2, 6, signature);
        end = nullified ? put_nullify(end, 4, 2, signature) : put_finalize(end, 4, 2, 7, signature);
        struct input in = {.stored = stored, .stream = room, .stream_len = (size_t)(end - room),
                           .signature = (int)signature, .epochs = epoch, .sizes = four,
                           .sizes_len = 1};
        CHECK(renewed(&in) == 1);
        CHECK(store(&in, stored, sizeof stored, &n) == SIMPLEX_WHOLE);
        in.stored_len = n;
        CHECK(renewed(&in) == 0); /* the same batch again */
        end = room;
        end = nullified ? put_finalize(end, 4, 2, 7, signature) : put_nullify(end, 4, 2, signature);
        end += two(end, 4, 1, signature, 1);
        in.stream_len = (size_t)(end - room);
        CHECK(renewed(&in) == 2);
        in.stream_len = 0;
        CHECK(renewed(&in) == 0);
    }
}

/* Two notarizes of a signer that contradict, under a committee of 65,536: whether the report, the
 * records, what is stored and the list of suspects have the signer, each or none. One call of each,
 * as a call sorts as many participants. */
static int is_member(uint32_t signer)
{
    static const uint64_t epoch[] = {4};
    static const uint32_t size[] = {65536};
    uint8_t room[400], buffer[500];
    size_t n = two(room, 4, signer, 64, 1), stored = 99, needed = 99;
    const struct input in = {.stored = room, .stream = room, .stream_len = n, .signature = 64,
                             .epochs = epoch, .epochs_len = 1, .sizes = size, .sizes_len = 1};
    struct simplex_record record[1];
    struct simplex_suspect suspect[2];
    struct simplex_summary summary, of_records;
    CHECK(audit(&in, buffer, sizeof buffer, &summary) == SIMPLEX_WHOLE && summary.read == 2);
    CHECK(enlist(&in, record, 1, &of_records) == SIMPLEX_WHOLE);
    CHECK(!memcmp(&summary, &of_records, sizeof summary));
    CHECK(store(&in, buffer, sizeof buffer, &stored) == SIMPLEX_WHOLE);
    CHECK(suspects(&in, suspect, 2, &needed) == SIMPLEX_WHOLE && needed == 2 * summary.evidence);
    CHECK(stored == (summary.evidence ? n - 1 : 0));
    if (!summary.evidence)
        return 0;
    CHECK(summary.evidence == 1 && record[0].signer == signer && suspect[1].signer == signer);
    return 1;
}

/* A committee of 65,536: participant 65,535 is the last, also of those that certificates list. */
static void many(void)
{
    static const uint32_t size[] = {65536};
    static const uint64_t epoch[] = {0};
    CHECK(is_member(65535) && !is_member(65536));
    for (uint32_t signer = 65535; signer < 65537; signer++) {
        const uint8_t head[] = {4, 4, 10, 1}; /* a nullification that lists one signer */
        uint8_t room[400], text[500], *end = put_finalize(room, 4, signer, 6, 64);
        const size_t vote = (size_t)(end - room);
        memcpy(end, head, 4);
        end = put_attestation(end + 4, signer, 64, 1);
        const struct input in = {.stream = room, .stream_len = (size_t)(end - room),
                                 .signature = 64, .epochs = epoch, .sizes = size, .sizes_len = 1};
        struct simplex_summary summary;
        uint32_t status = audit(&in, text, sizeof text, &summary);
        if (signer == 65535)
            CHECK(status == SIMPLEX_WHOLE && summary.read == 2 && summary.evidence == 1);
        else
            CHECK(status == SIMPLEX_FAULT && summary.fault_place == vote && !summary.evidence);
    }
}

/* Leaders of 65,536 participants: by numbers each is one view behind the one before it, and by a
 * seed those of two views differ. */
static void many_lead(void)
{
    uint32_t number = 99, next = 99;
    uint8_t *seed = copy("seed", 4);
    for (uint64_t view = 1; view < 140000; view += 65535) {
        CHECK(simplex_leader(65536, 1, 0, view, &number) == SIMPLEX_WHOLE);
        CHECK(number == view % 65536);
    }
    CHECK(simplex_leader(65536, 1, 1, 65534, &number) == SIMPLEX_WHOLE && number == 65535);
    CHECK(simplex_leader(65536, 1, 1, 65535, &number) == SIMPLEX_WHOLE && number == 0);
    CHECK(simplex_leader_shuffled(seed, 4, 65536, 1, 0, 65535, &number) == SIMPLEX_WHOLE);
    CHECK(simplex_leader_shuffled(seed, 4, 65536, 1, 0, 65536, &next) == SIMPLEX_WHOLE);
    CHECK(number < 65536 && next < 65536 && number != next);
    free(seed);
}

static void numbers(void)
{
    CHECK(simplex_version() == SIMPLEX_VERSION);
    CHECK(simplex_class_of(0, 0, 0, 0) == 0 && simplex_class_of(3, 10, 5, 0) == 0);
    CHECK(simplex_class_of(0, 0, 0, 1) == 0 && simplex_class_of(0, 0, 0, 16) == 15);
    CHECK(simplex_class_of(0, 1, 0, 16) == 14 && simplex_class_of(1, 0, 0, 16) == 14);
    CHECK(simplex_class_of(5, 123456789, 0, 1000) == 466);
    CHECK(simplex_class_of(UINT64_MAX, UINT64_MAX, 0, 64) == 54);
    CHECK(simplex_class_of(5, 123456789, 1, 1000) != simplex_class_of(123456789, 5, 1, 1000));
    CHECK(simplex_max_faults(0) == 0 && simplex_quorum(0) == 0);
    CHECK(simplex_max_faults(1) == 0 && simplex_quorum(1) == 1);
    CHECK(simplex_max_faults(4) == 1 && simplex_quorum(4) == 3);
    CHECK(simplex_max_faults(UINT32_MAX) == 1431655764 && simplex_quorum(UINT32_MAX) == 2863311531);
    CHECK(simplex_admits(0, 0, 1, 1) == SIMPLEX_NONE);
    CHECK(simplex_admits_outbound(0, 0, 1, 1) == SIMPLEX_NONE);
    CHECK(simplex_admits(1, 0, UINT64_MAX, 1) == SIMPLEX_NONE);
    CHECK(simplex_admits_outbound(1, 0, UINT64_MAX, 1) == SIMPLEX_NONE);
    CHECK(simplex_admits(1, 0, 10, 11) == SIMPLEX_YES);
    CHECK(simplex_admits(1, 0, 10, 14) == SIMPLEX_NO);
    uint64_t floor = 99;
    CHECK(simplex_issuance_floor(0, 2, 13, &floor) == SIMPLEX_NONE && floor == 99);
    CHECK(simplex_issuance_floor(5, 0, 13, &floor) == SIMPLEX_NO && floor == 99);
    CHECK(simplex_issuance_floor(5, 2, 13, &floor) == SIMPLEX_YES && floor == 10);
    uint32_t number = 99;
    uint8_t *seed = block(0, 0), *words = copy("seed", 4);
    CHECK(simplex_leader(0, 1, 3, 10, &number) == SIMPLEX_ARGUMENTS && number == 99);
    CHECK(simplex_leader(4, 0, 3, 10, &number) == SIMPLEX_ARGUMENTS && number == 99);
    CHECK(simplex_leader_shuffled(seed, 0, 0, 1, 3, 10, &number) == SIMPLEX_ARGUMENTS && number == 99);
    CHECK(simplex_leader(4, 1, 3, 10, &number) == SIMPLEX_WHOLE);
    /* terms of one view: each leads once in four views */
    unsigned led = 0, led_by_seed = 0;
    for (uint64_t view = 10; view < 14; view++) {
        CHECK(simplex_leader(4, 1, 3, view, &number) == SIMPLEX_WHOLE && number < 4);
        led |= 1u << number;
        CHECK(simplex_leader_shuffled(seed, 0, 4, 1, 3, view, &number) == SIMPLEX_WHOLE && number < 4);
        led_by_seed |= 1u << number;
    }
    CHECK(led == 15 && led_by_seed == 15);
    long before = blocks;
    for (int shuffled = 0; shuffled < 2; shuffled++)
        for (long k = 1;; k++) {
            number = 99;
            allowed = k;
            uint32_t status = shuffled ? simplex_leader_shuffled(words, 4, 4, 1, 3, 10, &number)
                                       : simplex_leader(4, 1, 3, 10, &number);
            int over = allowed > 0;
            allowed = -1;
            CHECK(blocks == before);
            if (over) {
                /* without a seed nothing is allocated */
                CHECK(status == SIMPLEX_WHOLE && number < 4 && (k > 1) == shuffled);
                break;
            }
            CHECK(status == SIMPLEX_MEMORY && number == 99);
        }
    free(words);
    free(seed);
}

/* What needs more memory than there is. */
static void limited(const uint8_t *sample, size_t len)
{
    const struct rlimit gigabyte = {1 << 30, 1 << 30};
    const uint32_t most[] = {UINT32_MAX};
    const uint64_t epoch[] = {0};
    CHECK(setrlimit(RLIMIT_AS, &gigabyte) == 0);
    for (size_t epochs = 0; epochs < 2; epochs++) {
        struct simplex_summary summary = untouched;
        uint8_t text[9] = {7, 7, 7, 7, 7, 7, 7, 7, 7};
        uint32_t status = simplex_audit(64, epoch, epochs, most, 1, sample, len, text,
                                                   sizeof text, &summary);
        CHECK(status == SIMPLEX_MEMORY && is_untouched(&summary) && all(text, sizeof text, 7));
    }
    CHECK(simplex_refusal(64, epoch, 0, most, 1) == SIMPLEX_REFUSED_NOTHING);
    uint32_t number = 99;
    CHECK(simplex_leader_shuffled(sample, 0, UINT32_MAX, 1, 3, 10, &number) == SIMPLEX_MEMORY && number == 99);
    CHECK(simplex_leader(UINT32_MAX, 1, 3, 10, &number) == SIMPLEX_WHOLE && number == 13);
}

/* Many audits of a thread's own. */
static void *work(void *with)
{
    int signature = *(int *)with;
    const uint32_t four[] = {4};
    const uint64_t epoch[] = {0};
    uint8_t room[400];
    size_t n = two(room, 0, 1, (size_t)signature, 1);
    struct input in = {.epochs = epoch, .epochs_len = 1, .sizes = four, .sizes_len = 1,
                       .stored = room, .stream = room, .stream_len = n, .signature = signature};
    long wrong = 0;
    for (int i = 0; i < 300; i++) {
        struct simplex_summary summary;
        uint8_t text[300];
        wrong += audit(&in, text, sizeof text, &summary) != SIMPLEX_WHOLE || summary.evidence != 1;
    }
    return (void *)wrong;
}

/* Four threads, with stacks of 64 kilobytes. */
static void threads(void)
{
    static int signatures[] = {48, 64, 96, 64};
    pthread_t running[4];
    pthread_attr_t attributes;
    CHECK(pthread_attr_init(&attributes) == 0);
    CHECK(pthread_attr_setstacksize(&attributes, 65536) == 0);
    for (int i = 0; i < 4; i++)
        CHECK(pthread_create(&running[i], &attributes, work, &signatures[i]) == 0);
    CHECK(pthread_attr_destroy(&attributes) == 0);
    for (int i = 0; i < 4; i++) {
        void *wrong;
        CHECK(pthread_join(running[i], &wrong) == 0 && wrong == NULL);
    }
}

int main(int argc, char **argv)
{
    uint8_t room[200];
    size_t len = fread(room, 1, sizeof room, stdin);
    uint8_t *sample = copy(room, len);
    plain(sample, len);
    plain_by_epoch(sample, len);
    vouched(48);
    vouched(64);
    vouched(96);
    in_parts(48);
    in_parts(64);
    in_parts(96);
    deferred(48);
    deferred(64);
    deferred(96);
    deferred_kinds(48);
    deferred_kinds(64);
    deferred_kinds(96);
    deferred_repeats(48);
    deferred_repeats(64);
    deferred_repeats(96);
    placed(48);
    placed(64);
    placed(96);
    held_apart(48);
    held_apart(64);
    held_apart(96);
    renews(48);
    renews(64);
    renews(96);
    messages(48);
    messages(64);
    messages(96);
    accuses(48);
    accuses(64);
    accuses(96);
    accuses_plain(sample);
    many();
    many_lead();
    numbers();
    threads();
    if (argc > 1 && !strcmp(argv[1], "--limit"))
        limited(sample, len);
    free(sample);
    printf("%d of %d checks of the border hold\n", checks - failed, checks);
    return failed != 0;
}
