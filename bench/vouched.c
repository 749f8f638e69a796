/*
 * What the library's audit of a file takes: a line with the messages that it read, and the least
 * processor time of some turns in nanoseconds.
 *
 *     vouched FILE PARTICIPANTS TURNS
 *
 * FILE has signatures of 64 bytes with verdicts, under one committee for every epoch.
 */
#include "../bindings/simplex_audit.h"
#include <stdio.h>
#include <stdlib.h>
#include <time.h>

static double now(void)
{
    struct timespec at;
    clock_gettime(CLOCK_PROCESS_CPUTIME_ID, &at);
    return (double)at.tv_sec * 1e9 + (double)at.tv_nsec;
}

/* The bytes of a file; NULL where it cannot be read or held. */
static uint8_t *bytes_of(const char *path, size_t *len)
{
    FILE *file = fopen(path, "rb");
    if (!file)
        return NULL;
    fseek(file, 0, SEEK_END);
    *len = (size_t)ftell(file);
    rewind(file);
    uint8_t *bytes = malloc(*len + 1);
    if (bytes && fread(bytes, 1, *len, file) != *len) {
        free(bytes);
        bytes = NULL;
    }
    fclose(file);
    return bytes;
}

int main(int argc, char **argv)
{
    if (argc != 4)
        return 2;
    size_t len;
    uint8_t *stream = bytes_of(argv[1], &len);
    if (!stream)
        return 2;
    const uint64_t epochs[1] = {0};
    const uint32_t sizes[1] = {(uint32_t)strtoul(argv[2], NULL, 10)};
    const int turns = atoi(argv[3]);
    uint8_t text[1];
    struct simplex_summary summary = {0};
    uint32_t status = SIMPLEX_WHOLE;
    double least = 0;
    for (int turn = 0; turn < turns && status == SIMPLEX_WHOLE; turn++) {
        const double begin = now();
        status = simplex_audit(64, epochs, 0, sizes, 1, stream, len, text, 0, &summary);
        const double took = now() - begin;
        if (!turn || took < least)
            least = took;
    }
    printf("%zu %.0f\n", summary.read, least);
    free(stream);
    return status != SIMPLEX_WHOLE;
}
