/*
 * Tries the calls on an auditor that the library owns, over random streams:
 *
 *     auditor STREAMS [SEED]
 *
 * Each stream is cut at random. Between its pieces the news are looked at or not, allocations fail,
 * and the auditor is made again of what it held. In the end what was told has to be the evidence of
 * the whole stream by an audit: each line once if the auditor was never made again. Nothing is left
 * allocated.
 *
 * Linked with -Wl,--wrap=malloc,--wrap=realloc,--wrap=free.
 */
#include "../simplex_audit.h"
#include <stdio.h>
#include <stdlib.h>
#include <string.h>

static int checks, failed;

#define CHECK(test)                                                                                \
    do {                                                                                           \
        checks++;                                                                                  \
        if (!(test)) {                                                                             \
            failed++;                                                                              \
            fprintf(stderr, "auditor.c:%d: %s\n", __LINE__, #test);                                \
        }                                                                                          \
    } while (0)

/* Allocations: how many may still succeed (-1: all), and how many blocks are held. */
static long allowed = -1, blocks;

void *__real_malloc(size_t n);
void *__real_realloc(void *p, size_t n);
void __real_free(void *p);

static int refused(void)
{
    if (allowed > 0)
        allowed--;
    return allowed == 0;
}

void *__wrap_malloc(size_t n)
{
    void *p = refused() ? NULL : __real_malloc(n);
    blocks += p != NULL;
    return p;
}

void *__wrap_realloc(void *p, size_t n)
{
    void *moved = refused() ? NULL : __real_realloc(p, n);
    blocks += p == NULL && moved != NULL;
    return moved;
}

void __wrap_free(void *p)
{
    blocks -= p != NULL;
    __real_free(p);
}

static uint64_t state = 1;

/* A number below `n`. */
static uint32_t below(uint32_t n)
{
    state = state * 6364136223846793005u + 1442695040888963407u;
    return (uint32_t)((state >> 33) % n);
}

/* An exact copy, so that sanitizers see an access outside; it is never NULL. */
static uint8_t *copy(const uint8_t *from, size_t n)
{
    uint8_t *p = __real_malloc(n ? n : 1);
    if (!p)
        abort();
    memcpy(p, from, n);
    return p;
}

/* ---- streams */

#define PARTICIPANTS 4
#define VIEWS 6

static uint8_t *put_attestation(uint8_t *at, uint8_t signer, size_t signature, uint8_t verdict)
{
    *at++ = signer;
    memset(at, 0xee, signature);
    at[signature] = verdict;
    return at + signature + 1;
}

/* A round, and for all but nullifies a parent and a payload. */
static uint8_t *put_subject(uint8_t *at, uint8_t tag, uint8_t view, uint8_t payload)
{
    *at++ = tag;
    *at++ = 3;
    *at++ = view;
    if (tag < 3 || tag > 4) {
        *at++ = 0;
        memset(at, payload, 32);
        at += 32;
    }
    return at;
}

/* A vote, or, one time of eight, a certificate of three participants. */
static uint8_t *put_message(uint8_t *at, size_t signature)
{
    static const uint8_t votes[] = {0, 3, 5}, certificates[] = {1, 4, 6};
    uint8_t kind = (uint8_t)below(3), view = (uint8_t)(1 + below(VIEWS));
    uint8_t payload = (uint8_t)(6 + below(3));
    if (below(8) == 0) {
        at = put_subject(at, certificates[kind], view, payload);
        *at++ = 3;
        for (uint8_t signer = 0; signer < 3; signer++)
            at = put_attestation(at, signer, signature, below(9) != 0);
        return at;
    }
    at = put_subject(at, votes[kind], view, payload);
    return put_attestation(at, (uint8_t)below(PARTICIPANTS + 1), signature, below(5) != 0);
}

/* ---- lines that were told */

struct text {
    uint8_t *at;
    size_t len, room;
};

static void append(struct text *text, const uint8_t *bytes, size_t n)
{
    if (text->len + n > text->room) {
        text->room = 2 * (text->len + n);
        uint8_t *longer = __real_realloc(text->at, text->room);
        if (!longer)
            abort();
        text->at = longer;
    }
    memcpy(text->at + text->len, bytes, n);
    text->len += n;
}

/* The length of the line that begins here, its newline counted. */
static size_t line_at(const struct text *text, size_t place)
{
    const uint8_t *end = memchr(text->at + place, '\n', text->len - place);
    return end ? (size_t)(end - text->at) + 1 - place : 0;
}

static int is_split(const uint8_t *line, size_t n)
{
    static const char word[] = " split ";
    for (size_t i = 0; i + sizeof word - 1 <= n; i++)
        if (!memcmp(line + i, word, sizeof word - 1))
            return 1;
    return 0;
}

/* How often a line of one text stands in another. */
static size_t times(const struct text *text, const uint8_t *line, size_t n)
{
    size_t found = 0;
    for (size_t place = 0, m; place < text->len; place += m) {
        m = line_at(text, place);
        if (!m)
            return 99;
        found += m == n && !memcmp(text->at + place, line, n);
    }
    return found;
}

/* Whether each line of a text, or of its evidence alone, stands in another, and at most so often. */
static int each_stands(const struct text *of, const struct text *in, size_t most, int splits)
{
    for (size_t place = 0, n; place < of->len; place += n) {
        n = line_at(of, place);
        if (!n)
            return 0;
        size_t found = times(in, of->at + place, n);
        if ((splits || !is_split(of->at + place, n)) && (found < 1 || found > most))
            return 0;
    }
    return 1;
}

/* ---- the calls */

/* Room for no record. */
static struct simplex_suspect no_record[1];

static const uint64_t epochs[] = {3};
static const uint32_t sizes[] = {PARTICIPANTS};

/* Makes an auditor of what another held, in its place, at first with an allocation failing. */
static void make(struct simplex_auditor *auditor, uint32_t signature, const uint8_t *held, size_t n)
{
    uint8_t *bytes = copy(held, n);
    void *before = auditor->state;
    allowed = 1 + (long)below(40);
    uint32_t status = simplex_auditor_new(signature, epochs, 1, sizes, 1, bytes, n, auditor);
    allowed = -1;
    if (status == SIMPLEX_MEMORY) {
        CHECK(auditor->state == before);
        status = simplex_auditor_new(signature, epochs, 1, sizes, 1, bytes, n, auditor);
    }
    CHECK(status == SIMPLEX_WHOLE && auditor->state);
    __real_free(bytes);
}

/* Feeds a piece, and again after a failed allocation. */
static void feed(struct simplex_auditor *auditor, const uint8_t *at, size_t n)
{
    uint8_t *piece = copy(at, n);
    uint32_t status;
    allowed = below(3) ? -1 : 1 + (long)below(30);
    while ((status = simplex_auditor_feed(auditor, piece, n)) == SIMPLEX_MEMORY)
        allowed = below(2) ? -1 : 1 + (long)below(60);
    allowed = -1;
    CHECK(status == SIMPLEX_WHOLE);
    __real_free(piece);
}

/* The news, with a buffer that is a byte too short before. */
static void look(struct simplex_auditor *auditor, struct text *told)
{
    size_t needed = 99, again = 99;
    uint8_t none[1] = {7};
    uint32_t status = simplex_auditor_news(auditor, none, 0, &needed);
    CHECK(status == (needed ? SIMPLEX_SHORT : SIMPLEX_WHOLE) && none[0] == 7);
    if (!needed)
        return;
    uint8_t *text = __real_malloc(needed);
    if (!text)
        abort();
    memset(text, 7, needed);
    CHECK(simplex_auditor_news(auditor, text, needed - 1, &again) == SIMPLEX_SHORT && again == needed);
    for (size_t i = 0; i < needed; i++)
        CHECK(text[i] == 7);
    allowed = 1;
    again = 99;
    CHECK(simplex_auditor_news(auditor, text, needed, &again) == SIMPLEX_MEMORY && again == 99);
    allowed = -1;
    CHECK(simplex_auditor_news(auditor, text, needed, &again) == SIMPLEX_WHOLE && again == needed);
    append(told, text, needed);
    CHECK(simplex_auditor_news(auditor, text, needed, &again) == SIMPLEX_WHOLE && again == 0);
    __real_free(text);
}

/* What is held; free it. */
static uint8_t *hold(struct simplex_auditor *auditor, size_t *n)
{
    uint8_t none[1] = {7};
    uint32_t status = simplex_auditor_held(auditor, none, 0, n);
    CHECK(status == (*n ? SIMPLEX_SHORT : SIMPLEX_WHOLE) && none[0] == 7);
    uint8_t *held = __real_malloc(*n ? *n : 1);
    if (!held)
        abort();
    CHECK(simplex_auditor_held(auditor, held, *n, n) == SIMPLEX_WHOLE);
    return held;
}

/* The report of a stream, by an audit of it. */
static struct text audited(uint32_t signature, const uint8_t *stream, size_t n, uint32_t *status)
{
    struct text text = {0};
    struct simplex_summary summary;
    const struct simplex_range whole = {0, n};
    text.room = 65536;
    text.at = __real_malloc(text.room);
    if (!text.at)
        abort();
    *status = simplex_audit_ranges(signature, epochs, 1, sizes, 1, stream, n, &whole, 1, text.at,
                                   text.room, &summary);
    text.len = summary.length;
    return text;
}

/* The auditor's own report is that of an audit. */
static void reports(struct simplex_auditor *auditor, const struct text *wanted, uint32_t ended)
{
    struct simplex_summary summary;
    uint8_t *text = __real_malloc(wanted->len ? wanted->len : 1);
    if (!text)
        abort();
    CHECK(simplex_auditor_report(auditor, text, wanted->len, &summary) == ended);
    CHECK(summary.length == wanted->len && !memcmp(text, wanted->at, wanted->len));
    __real_free(text);
}

static void stream(uint32_t signature)
{
    static uint8_t room[1 << 16];
    const size_t messages = below(60);
    uint8_t *end = room;
    for (size_t i = 0; i < messages; i++)
        end = put_message(end, signature);
    const size_t len = (size_t)(end - room);
    struct simplex_auditor auditor = {NULL};
    struct text told = {0};
    uint32_t status;
    int made_again = 0;
    make(&auditor, signature, room, 0);
    for (size_t at = 0, n; at < len; at += n) {
        n = 1 + below(below(4) ? 400 : 4000);
        if (n > len - at)
            n = len - at;
        feed(&auditor, room + at, n);
        if (below(3) == 0)
            look(&auditor, &told);
        if (below(6) == 0) {
            size_t held_len;
            uint8_t *held = hold(&auditor, &held_len);
            look(&auditor, &told);
            make(&auditor, signature, held, held_len);
            __real_free(held);
            made_again = 1;
        }
    }
    look(&auditor, &told);
    struct text wanted = audited(signature, room, len, &status);
    CHECK(status == SIMPLEX_WHOLE);
    CHECK(each_stands(&wanted, &told, made_again ? 99999 : 1, 1));
    CHECK(each_stands(&told, &wanted, 1, 0));
    reports(&auditor, &wanted, SIMPLEX_WHOLE);
    __real_free(wanted.at);
    __real_free(told.at);
    CHECK(simplex_auditor_free(&auditor) == SIMPLEX_WHOLE && !auditor.state);
    CHECK(blocks == 0);
}

/* What has to be verified of some bytes, and how many of them are whole messages: with a buffer that is
 * a record too short before, and with allocations failing. Free the records. */
static struct simplex_suspect *list(struct simplex_auditor *auditor, const uint8_t *at, size_t n,
                                    size_t *needed, size_t *whole)
{
    uint8_t *bytes = copy(at, n);
    size_t some = 99, most = 99;
    uint32_t status = SIMPLEX_MEMORY;
    for (long k = 1; status == SIMPLEX_MEMORY; k++) {
        CHECK(some == 99 && most == 99);
        allowed = k;
        status = simplex_auditor_unverified(auditor, bytes, n, no_record, 0, &some, &most);
        allowed = -1;
    }
    CHECK(status == (some ? SIMPLEX_SHORT : SIMPLEX_WHOLE) && most <= n);
    const size_t size = some * sizeof(struct simplex_suspect);
    struct simplex_suspect *records = __real_malloc(size ? size : 1);
    if (!records)
        abort();
    memset(records, 7, size);
    if (some) {
        status = simplex_auditor_unverified(auditor, bytes, n, records, some - 1, needed, whole);
        CHECK(status == SIMPLEX_SHORT);
        for (size_t i = 0; i < size; i++)
            CHECK(((uint8_t *)records)[i] == 7);
    }
    status = simplex_auditor_unverified(auditor, bytes, n, records, some, needed, whole);
    CHECK(status == SIMPLEX_WHOLE && *needed == some && *whole == most);
    __real_free(bytes);
    return records;
}

/* A stream whose verdicts are wrong as it comes: those of what is listed are set right, and no other.
 * The report is that of the stream. */
static void deferred(uint32_t signature)
{
    static uint8_t room[1 << 16], wrong[1 << 16];
    static size_t verdicts[1 << 10];
    size_t places = 0;
    uint8_t *end = room;
    struct simplex_attestation found[PARTICIPANTS];
    for (size_t i = below(60); i; i--) {
        struct simplex_message message;
        uint8_t *at = end;
        end = put_message(at, signature);
        CHECK(simplex_read_message(signature, PARTICIPANTS, at, (size_t)(end - at), found,
                                   PARTICIPANTS, &message) == SIMPLEX_WHOLE);
        for (size_t k = 0; k < message.attestations; k++)
            verdicts[places++] = (size_t)(at - room) + found[k].verdict_place;
    }
    const size_t len = (size_t)(end - room);
    memcpy(wrong, room, len);
    for (size_t i = 0; i < places; i++)
        wrong[verdicts[i]] ^= 1;
    struct simplex_auditor auditor = {NULL};
    uint32_t status;
    make(&auditor, signature, room, 0);
    size_t fed = 0, needed, whole;
    for (size_t at = 0; at < len;) {
        at += 1 + below(400);
        if (at > len)
            at = len;
        struct simplex_suspect *records = list(&auditor, wrong + fed, at - fed, &needed, &whole);
        for (size_t i = 0; i < needed; i++) {
            const size_t place = fed + records[i].verdict_place;
            const struct simplex_suspect *of = records + records[i].first;
            CHECK(records[i].first <= i && of->first == records[i].first);
            CHECK(of->signer == records[i].signer && of->kind == records[i].kind);
            CHECK(records[i].signer < PARTICIPANTS && records[i].epoch == 3);
            wrong[place] = room[place];
        }
        feed(&auditor, wrong + fed, whole);
        fed += whole;
        __real_free(records);
    }
    CHECK(fed == len);
    struct text wanted = audited(signature, room, len, &status);
    reports(&auditor, &wanted, SIMPLEX_WHOLE);
    __real_free(wanted.at);
    /* below the floor nothing is listed, and what starts no message is told */
    CHECK(simplex_auditor_prune(&auditor, 4, 0) == SIMPLEX_WHOLE);
    __real_free(list(&auditor, room, len, &needed, &whole));
    CHECK(needed == 0 && whole == len);
    wrong[0] = 0xff;
    status = simplex_auditor_unverified(&auditor, wrong, 1, no_record, 0, &needed, &whole);
    CHECK(status == SIMPLEX_FAULT && needed == 0 && whole == 0);
    feed(&auditor, wrong, 1);
    whole = 99;
    status = simplex_auditor_unverified(&auditor, wrong, 0, no_record, 0, &needed, &whole);
    CHECK(status == SIMPLEX_ARGUMENTS && whole == 99);
    CHECK(simplex_auditor_free(&auditor) == SIMPLEX_WHOLE && blocks == 0);
}

/* Handles that own nothing, arguments that are refused, pruning, and a fault. */
static void refusals(void)
{
    struct simplex_auditor auditor = {NULL};
    struct simplex_summary summary;
    uint8_t bytes[400] = {0xff};
    size_t n = 99;
    CHECK(simplex_auditor_feed(&auditor, bytes, 1) == SIMPLEX_ARGUMENTS);
    CHECK(simplex_auditor_report(&auditor, bytes, 0, &summary) == SIMPLEX_ARGUMENTS);
    CHECK(simplex_auditor_news(&auditor, bytes, 0, &n) == SIMPLEX_ARGUMENTS && n == 99);
    CHECK(simplex_auditor_held(&auditor, bytes, 0, &n) == SIMPLEX_ARGUMENTS && n == 99);
    CHECK(simplex_auditor_votes(&auditor, &n) == SIMPLEX_ARGUMENTS && n == 99);
    CHECK(simplex_auditor_prune(&auditor, 3, 1) == SIMPLEX_ARGUMENTS);
    size_t m = 99;
    CHECK(simplex_auditor_unverified(&auditor, bytes, 1, no_record, 1, &n, &m) == SIMPLEX_ARGUMENTS);
    CHECK(n == 99 && m == 99);
    CHECK(simplex_auditor_free(&auditor) == SIMPLEX_ARGUMENTS);
    CHECK(simplex_auditor_new(65, epochs, 1, sizes, 1, bytes, 0, &auditor) == SIMPLEX_ARGUMENTS);
    CHECK(simplex_auditor_new(64, epochs, 0, sizes, 0, bytes, 0, &auditor) == SIMPLEX_ARGUMENTS);
    const uint32_t members[] = {1, 2};
    CHECK(simplex_auditor_new_plain(bytes, 1, epochs, 0, members, 1, bytes, 31, bytes, 0, &auditor) ==
          SIMPLEX_ARGUMENTS);
    CHECK(!auditor.state);
    CHECK(simplex_auditor_new_plain(bytes, 1, epochs, 0, members + 1, 1, bytes + 32, 64, bytes, 0,
                                    &auditor) == SIMPLEX_ARGUMENTS);
    CHECK(simplex_auditor_new_plain(bytes, 1, epochs, 1, members, 1, bytes, 32, bytes, 0, &auditor) ==
          SIMPLEX_WHOLE);
    CHECK(simplex_auditor_new_plain(bytes, 1, epochs, 0, members, 1, bytes, 32, bytes, 0, &auditor) ==
          SIMPLEX_WHOLE);
    CHECK(simplex_auditor_unverified(&auditor, bytes, 0, no_record, 1, &n, &m) == SIMPLEX_ARGUMENTS);
    CHECK(simplex_auditor_feed(&auditor, bytes, 1) == SIMPLEX_WHOLE);
    CHECK(simplex_auditor_feed(&auditor, bytes, 1) == SIMPLEX_FAULT);
    CHECK(simplex_auditor_report(&auditor, bytes, 0, &summary) == SIMPLEX_FAULT);
    CHECK(summary.faulted && summary.fault_place == 0);
    CHECK(simplex_auditor_new(64, epochs, 1, sizes, 1, bytes, 0, &auditor) == SIMPLEX_WHOLE);
    uint8_t *end = put_attestation(put_subject(bytes, 0, 5, 6), 2, 64, 1);
    CHECK(simplex_auditor_feed(&auditor, bytes, (size_t)(end - bytes)) == SIMPLEX_WHOLE);
    CHECK(simplex_auditor_votes(&auditor, &n) == SIMPLEX_WHOLE && n == 1);
    CHECK(simplex_auditor_prune(&auditor, 3, 5) == SIMPLEX_WHOLE);
    CHECK(simplex_auditor_votes(&auditor, &n) == SIMPLEX_WHOLE && n == 1);
    CHECK(simplex_auditor_prune(&auditor, 3, 6) == SIMPLEX_WHOLE);
    CHECK(simplex_auditor_votes(&auditor, &n) == SIMPLEX_WHOLE && n == 0);
    CHECK(simplex_auditor_held(&auditor, bytes, sizeof bytes, &n) == SIMPLEX_WHOLE && n == 0);
    CHECK(simplex_auditor_prune(&auditor, 3, 5) == SIMPLEX_WHOLE);
    end = put_attestation(put_subject(bytes, 0, 5, 7), 2, 64, 1);
    CHECK(simplex_auditor_feed(&auditor, bytes, (size_t)(end - bytes)) == SIMPLEX_WHOLE);
    CHECK(simplex_auditor_votes(&auditor, &n) == SIMPLEX_WHOLE && n == 0);
    CHECK(simplex_auditor_free(&auditor) == SIMPLEX_WHOLE);
    CHECK(simplex_auditor_free(&auditor) == SIMPLEX_ARGUMENTS);
    CHECK(blocks == 0);
}

int main(int argc, char **argv)
{
    static const uint32_t signatures[] = {48, 64, 96};
    const long streams = argc > 1 ? strtol(argv[1], NULL, 10) : 1000;
    state = argc > 2 ? strtoull(argv[2], NULL, 10) : 1;
    refusals();
    for (long i = 0; i < streams; i++) {
        stream(signatures[i % 3]);
        deferred(signatures[i % 3]);
    }
    printf("%d checks, %d failed\n", checks, failed);
    return failed != 0;
}
