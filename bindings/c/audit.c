/*
 * Audits standard input under the plain scheme, as the program `audit` does with one committee:
 *
 *     audit NAMESPACE KEY... < STREAM
 *
 * Each key has 64 hexadecimal digits. The status is 0, 1 where the stream has a fault, 2 where the
 * arguments are no namespace and keys, and 3 where an allocation, a read or a write failed.
 */
#include "../simplex_audit.h"
#include <stdio.h>
#include <stdlib.h>
#include <string.h>

#define KEY 32

static int digit(char c)
{
    if (c >= '0' && c <= '9')
        return c - '0';
    if (c >= 'a' && c <= 'f')
        return c - 'a' + 10;
    if (c >= 'A' && c <= 'F')
        return c - 'A' + 10;
    return -1;
}

/* Reads a key of 64 digits, and returns whether the text is one. */
static int read_key(const char *text, uint8_t *key)
{
    if (strlen(text) != 2 * KEY)
        return 0;
    for (int i = 0; i < KEY; i++) {
        int high = digit(text[2 * i]), low = digit(text[2 * i + 1]);
        if (high < 0 || low < 0)
            return 0;
        key[i] = (uint8_t)(16 * high + low);
    }
    return 1;
}

/* Reads standard input to its end. NULL where an allocation or a read failed. */
static uint8_t *read_all(size_t *len)
{
    size_t room = 1 << 16;
    uint8_t *bytes = malloc(room);
    *len = 0;
    while (bytes) {
        size_t more = fread(bytes + *len, 1, room - *len, stdin);
        *len += more;
        if (more == 0)
            break;
        if (*len == room) {
            uint8_t *longer = realloc(bytes, room *= 2);
            if (!longer)
                free(bytes);
            bytes = longer;
        }
    }
    if (bytes && ferror(stdin)) {
        free(bytes);
        return NULL;
    }
    return bytes;
}

/* Audits with a buffer that the text fits into: a vote takes at least 33 bytes of the stream, and
 * the text has at most 200 for each (README.md). What is not written of it takes no memory
 * where the system gives memory by the page. NULL where an allocation failed, or with keys that are
 * refused. */
static uint8_t *report(const char *name, const uint8_t *keys, size_t keys_len,
                       const uint8_t *stream, size_t len, uint32_t *status,
                       struct simplex_summary *summary)
{
    size_t room = 200 * (len / 33) + 1;
    uint8_t *text = malloc(room);
    *status = SIMPLEX_MEMORY;
    if (!text)
        return NULL;
    const uint64_t every[1] = {0}; /* no epoch: one committee for every epoch */
    const uint32_t size[1] = {(uint32_t)(keys_len / KEY)};
    *status = simplex_audit_plain((const uint8_t *)name, strlen(name), every, 0, size, 1, keys,
                                  keys_len, stream, len, text, room, summary);
    if (*status == SIMPLEX_WHOLE || *status == SIMPLEX_FAULT)
        return text;
    free(text);
    return NULL;
}

static int usage(void)
{
    fputs("usage: audit NAMESPACE KEY...\n", stderr);
    return 2;
}

int main(int argc, char **argv)
{
    struct simplex_summary summary;
    uint32_t status;
    size_t len;
    if (argc < 3)
        return usage();
    size_t keys_len = (size_t)(argc - 2) * KEY;
    uint8_t *keys = malloc(keys_len);
    for (int i = 2; keys && i < argc; i++)
        if (!read_key(argv[i], keys + (size_t)(i - 2) * KEY)) {
            free(keys);
            return usage();
        }
    uint8_t *stream = keys ? read_all(&len) : NULL;
    if (!stream) {
        fputs("audit: out of memory, or the read failed\n", stderr);
        free(keys);
        return 3;
    }
    uint8_t *text = report(argv[1], keys, keys_len, stream, len, &status, &summary);
    free(keys);
    free(stream);
    if (status == SIMPLEX_ARGUMENTS)
        return usage();
    if (!text) {
        fputs("audit: out of memory\n", stderr);
        return 3;
    }
    size_t written = fwrite(text, 1, summary.length, stdout);
    free(text);
    if (written != summary.length || fflush(stdout) != 0) {
        fputs("audit: write failed\n", stderr);
        return 3;
    }
    if (status == SIMPLEX_FAULT) {
        fprintf(stderr, "audit: fault at byte %zu\n", summary.fault_place);
        return 1;
    }
    return 0;
}
