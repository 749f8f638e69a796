/*
 * What memory the calls take that read a stream: the most bytes that the library held at once, as
 * it asked for them. What the C library adds to a block is not counted, nor the old block while one
 * grows.
 *
 *     memory PARTICIPANTS < STREAM
 *
 * STREAM has signatures of 48 bytes with verdicts, under one committee for every epoch. For each of
 * simplex_audit_.., simplex_records_.. and simplex_suspects_.. a line is printed: its word, the
 * number of evidence, records or suspects, and the bytes. The status is 0 where each call ended
 * well and gave back all that it held.
 *
 * Linked with -Wl,--wrap=malloc,--wrap=realloc,--wrap=free.
 */
#include "../simplex_audit.h"
#include <stdio.h>
#include <stdlib.h>

void *__real_malloc(size_t n);
void *__real_realloc(void *p, size_t n);
void __real_free(void *p);

/* The bytes that are held, and the most that were. In front of each block its length stands. */
static size_t held, most;

#define FRONT 16

static void *counted(size_t *block, size_t n)
{
    if (!block)
        return NULL;
    *block = n;
    held += n;
    if (held > most)
        most = held;
    return (char *)block + FRONT;
}

static size_t *block_of(void *p)
{
    return (size_t *)((char *)p - FRONT);
}

void *__wrap_malloc(size_t n)
{
    return counted(__real_malloc(n + FRONT), n);
}

void *__wrap_realloc(void *p, size_t n)
{
    if (!p)
        return __wrap_malloc(n);
    size_t before = *block_of(p);
    size_t *moved = __real_realloc(block_of(p), n + FRONT);
    if (moved)
        held -= before;
    return counted(moved, n);
}

void __wrap_free(void *p)
{
    if (!p)
        return;
    held -= *block_of(p);
    __real_free(block_of(p));
}

/* Standard input to its end; NULL where there is no memory for it. */
static uint8_t *read_all(size_t *len)
{
    size_t room = 1 << 16, more;
    uint8_t *bytes = malloc(room);
    *len = 0;
    while (bytes && (more = fread(bytes + *len, 1, room - *len, stdin))) {
        *len += more;
        if (*len == room)
            bytes = realloc(bytes, room *= 2);
    }
    return bytes;
}

/* Begins to count anew, and returns what is held. */
static size_t begin(void)
{
    most = held;
    return held;
}

/* A line, if the call ended well; where its buffer was too short it has done all but write to it. */
static int shown(const char *call, uint32_t status, size_t results, size_t before)
{
    printf("%s %zu %zu\n", call, results, most - before);
    return (status == SIMPLEX_WHOLE || status == SIMPLEX_SHORT) && held == before;
}

int main(int argc, char **argv)
{
    const uint32_t participants = argc == 2 ? (uint32_t)strtoul(argv[1], NULL, 10) : 0;
    size_t len, before, needed = 0;
    uint8_t *stream = read_all(&len);
    if (!participants || !stream)
        return 2;
    setvbuf(stdout, NULL, _IONBF, 0);
    const uint64_t epochs[1] = {0};
    const uint32_t sizes[1] = {participants};
    uint8_t text[1];
    struct simplex_record records[1];
    struct simplex_suspect suspects[1];
    struct simplex_summary summary = {0};
    before = begin();
    uint32_t status = simplex_audit(48, epochs, 0, sizes, 1, stream, len, text, 0, &summary);
    int is_well = shown("audit", status, summary.evidence, before);
    before = begin();
    status = simplex_records(48, epochs, 0, sizes, 1, stream, len, records, 0, &summary);
    is_well &= shown("records", status, summary.evidence, before);
    before = begin();
    status = simplex_suspects(48, epochs, 0, sizes, 1, stream, len, suspects, 0, &needed);
    is_well &= shown("suspects", status, needed, before);
    free(stream);
    return !is_well;
}
