/*
 * Four participants sign votes by Ed25519. One notarizes two payloads, one nullifies a round and
 * finalizes in it, and one forges a vote of another. The caller verifies each vote by libcrypto,
 * writes the stream with its verdicts, and asks who equivocated. Then it defers verification: of
 * the same votes behind an honest round it verifies only those of suspects. With an argument the
 * program prints the first stream, and nothing else.
 */
#include "../simplex_audit.h"
#include <openssl/evp.h>
#include <stdio.h>
#include <stdlib.h>
#include <string.h>

#define MEMBERS 4

/* By the kind of a vote: its tag in a stream, and the namespace under which it is signed. */
static const uint8_t tags[] = {0, 3, 5};
static const char *const names[] = {"demo_NOTARIZE", "demo_NULLIFY", "demo_FINALIZE"};

struct bytes {
    uint8_t at[4096];
    size_t len;
};

struct vote {
    uint32_t kind; /* SIMPLEX_NOTARIZE, SIMPLEX_NULLIFY or SIMPLEX_FINALIZE */
    uint32_t signer;
    uint64_t epoch, view, parent;
    uint8_t payload[32];
    uint8_t signature[64];
};

static void put(struct bytes *b, const void *from, size_t n)
{
    if (n > sizeof b->at - b->len)
        abort();
    memcpy(b->at + b->len, from, n);
    b->len += n;
}

static void put_byte(struct bytes *b, uint8_t x)
{
    put(b, &x, 1);
}

/* A number: seven bits a byte, the lowest first, each byte but the last with its top bit set. */
static void put_number(struct bytes *b, uint64_t n)
{
    for (; n >= 128; n >>= 7)
        put_byte(b, (uint8_t)((n & 127) | 128));
    put_byte(b, (uint8_t)n);
}

/* The proposal, or the round of a nullify. */
static void put_subject(struct bytes *b, const struct vote *v)
{
    put_number(b, v->epoch);
    put_number(b, v->view);
    if (v->kind != SIMPLEX_NULLIFY) {
        put_number(b, v->parent);
        put(b, v->payload, sizeof v->payload);
    }
}

/* The namespace of a kind, behind its length. What is signed is this, and then the subject. */
static void put_name(struct bytes *b, uint32_t kind)
{
    put_number(b, strlen(names[kind]));
    put(b, names[kind], strlen(names[kind]));
}

static void put_signed(struct bytes *b, const struct vote *v)
{
    put_name(b, v->kind);
    put_subject(b, v);
}

/* A message of the stream: the tag, the subject, the signer, the signature and the verdict. */
static void put_message(struct bytes *b, const struct vote *v, int verified)
{
    put_byte(b, tags[v->kind]);
    put_subject(b, v);
    put_number(b, v->signer);
    put(b, v->signature, sizeof v->signature);
    put_byte(b, verified ? 1 : 0);
}

static void sign(EVP_PKEY *key, struct vote *v)
{
    struct bytes m = {.len = 0};
    size_t n = sizeof v->signature;
    EVP_MD_CTX *context = EVP_MD_CTX_new();
    put_signed(&m, v);
    if (EVP_DigestSignInit(context, NULL, NULL, NULL, key) != 1
        || EVP_DigestSign(context, v->signature, &n, m.at, m.len) != 1)
        abort();
    EVP_MD_CTX_free(context);
}

static int verifies(EVP_PKEY *key, const struct bytes *m, const uint8_t *signature)
{
    EVP_MD_CTX *context = EVP_MD_CTX_new();
    int verified = EVP_DigestVerifyInit(context, NULL, NULL, NULL, key) == 1
                   && EVP_DigestVerify(context, signature, 64, m->at, m->len) == 1;
    EVP_MD_CTX_free(context);
    return verified;
}

static int vote_verifies(EVP_PKEY **keys, const struct vote *v)
{
    struct bytes m = {.len = 0};
    put_signed(&m, v);
    return v->signer < MEMBERS && verifies(keys[v->signer], &m, v->signature);
}

/* A vote of `signer` in a view of epoch 3, signed with the key `with`. */
static struct vote vote(EVP_PKEY **keys, uint32_t kind, uint64_t view, uint32_t signer,
                        uint32_t with, uint8_t payload)
{
    struct vote v = {.kind = kind, .signer = signer, .epoch = 3, .view = view, .parent = 5};
    memset(v.payload, payload, sizeof v.payload);
    sign(keys[with], &v);
    return v;
}

/* The committee of epoch 3 has four participants. */
static const uint64_t epochs[] = {3};
static const uint32_t sizes[] = {MEMBERS};

static void audit(const struct bytes *stream, char *text, size_t room,
                  struct simplex_summary *summary)
{
    uint32_t status = simplex_audit(64, epochs, 1, sizes, 1, stream->at, stream->len,
                                               (uint8_t *)text, room, summary);
    if (status != SIMPLEX_WHOLE) {
        fprintf(stderr, "status %u\n", (unsigned)status);
        exit(1);
    }
}

/* Whether the signature before a verdict is valid for a signer and for the subject that stands there. */
static int verifies_at(EVP_PKEY **keys, const struct bytes *stream, uint32_t kind, uint32_t signer,
                       size_t subject, size_t length, size_t verdict)
{
    struct bytes m = {.len = 0};
    put_name(&m, kind);
    put(&m, stream->at + subject, length);
    return verifies(keys[signer], &m, stream->at + verdict - 64);
}

/* Verifies a vote of evidence from where it stands in a stream: whoever is shown it can do so. */
static void prove(EVP_PKEY **keys, const struct bytes *stream, const struct simplex_vote_place *it)
{
    if (!verifies_at(keys, stream, it->kind, it->signer, it->subject_place, it->subject_length,
                     it->verdict_place))
        abort();
}

/* Prints where the votes of the evidence stand in a stream. */
static void print_places(EVP_PKEY **keys, const struct bytes *stream)
{
    struct simplex_record records[10];
    struct simplex_summary summary;
    uint32_t status = simplex_records(64, epochs, 1, sizes, 1, stream->at, stream->len,
                                                 records, 10, &summary);
    if (status != SIMPLEX_WHOLE)
        abort();
    for (size_t i = 0; i < summary.evidence; i++) {
        prove(keys, stream, &records[i].first_vote);
        prove(keys, stream, &records[i].second_vote);
        printf("votes of participant %u at bytes %zu and %zu\n", (unsigned)records[i].signer,
               records[i].first_place, records[i].second_place);
    }
}

/* Verifies the signatures of a stream that have to be verified, each vote once, and writes the
 * verdicts into it. Returns how many were verified. */
static size_t verify_suspects(EVP_PKEY **keys, struct bytes *stream)
{
    struct simplex_suspect records[100];
    size_t needed, verified = 0;
    uint32_t status = simplex_suspects(64, epochs, 1, sizes, 1, stream->at, stream->len,
                                                  records, 100, &needed);
    if (status != SIMPLEX_WHOLE)
        abort();
    for (size_t i = 0; i < needed; i++) {
        const struct simplex_suspect *it = &records[i];
        uint8_t *verdict = stream->at + it->verdict_place;
        if (it->first != i) {
            *verdict = stream->at[records[it->first].verdict_place];
            continue;
        }
        *verdict = (uint8_t)verifies_at(keys, stream, it->kind, it->signer, it->subject_place,
                                        it->subject_length, it->verdict_place);
        verified++;
    }
    return verified;
}

int main(int argc, char **argv)
{
    (void)argv;
    EVP_PKEY *secrets[MEMBERS], *publics[MEMBERS];
    for (int i = 0; i < MEMBERS; i++) {
        uint8_t seed[32] = {(uint8_t)i, 42}, key[32];
        size_t n = sizeof key;
        secrets[i] = EVP_PKEY_new_raw_private_key(EVP_PKEY_ED25519, NULL, seed, sizeof seed);
        if (!secrets[i] || EVP_PKEY_get_raw_public_key(secrets[i], key, &n) != 1)
            abort();
        publics[i] = EVP_PKEY_new_raw_public_key(EVP_PKEY_ED25519, NULL, key, n);
        if (!publics[i])
            abort();
    }
    const struct vote votes[] = {
        vote(secrets, SIMPLEX_NOTARIZE, 10, 0, 0, 0xaa),
        vote(secrets, SIMPLEX_NOTARIZE, 10, 1, 1, 0xaa),
        vote(secrets, SIMPLEX_NOTARIZE, 10, 2, 2, 0xaa),
        vote(secrets, SIMPLEX_NOTARIZE, 10, 3, 3, 0xaa),
        vote(secrets, SIMPLEX_NOTARIZE, 10, 0, 0, 0xbb), /* 0 votes for another payload */
        vote(secrets, SIMPLEX_NOTARIZE, 10, 3, 1, 0xbb), /* 1 forges a vote of 3 */
        vote(secrets, SIMPLEX_NULLIFY, 10, 2, 2, 0),     /* 2 nullifies the round */
        vote(secrets, SIMPLEX_FINALIZE, 10, 2, 2, 0xaa), /* and finalizes in it */
        vote(secrets, SIMPLEX_FINALIZE, 10, 1, 1, 0xaa),
    };
    const size_t n = sizeof votes / sizeof *votes;
    struct bytes stream = {.len = 0};
    for (size_t i = 0; i < n; i++)
        put_message(&stream, &votes[i], vote_verifies(publics, &votes[i]));
    if (argc > 1)
        return fwrite(stream.at, 1, stream.len, stdout) != stream.len;
    char text[1024], again[1024];
    struct simplex_summary summary, deferred;
    audit(&stream, text, sizeof text, &summary);
    printf("%zu messages, %zu equivocators\n", summary.read, summary.evidence);
    fwrite(text, 1, summary.length, stdout);
    print_places(publics, &stream);

    /* The same votes behind an honest round, with no verdict yet. */
    stream.len = 0;
    for (uint32_t i = 0; i < MEMBERS; i++) {
        const struct vote honest = vote(secrets, SIMPLEX_NOTARIZE, 9, i, i, 0xaa);
        put_message(&stream, &honest, 0);
    }
    size_t verified = verify_suspects(publics, &stream);
    printf("deferred: %zu of %d signatures of an honest round verified\n", verified, MEMBERS);
    for (size_t i = 0; i < n; i++)
        put_message(&stream, &votes[i], 0);
    verified = verify_suspects(publics, &stream);
    audit(&stream, again, sizeof again, &deferred);
    if (deferred.length != summary.length || memcmp(text, again, summary.length) != 0)
        abort();
    printf("deferred: %zu of %zu signatures of both rounds verified\n", verified, MEMBERS + n);
    for (int i = 0; i < MEMBERS; i++) {
        EVP_PKEY_free(secrets[i]);
        EVP_PKEY_free(publics[i]);
    }
    return 0;
}
