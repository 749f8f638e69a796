/*
 * A node that listens to votes and is killed now and then:
 *
 *     live PORT STATE PARTICIPANTS
 *
 * It connects to PORT on this machine and reads batches: four bytes with the batch's length, the
 * first the lowest, and the batch, whole messages with signatures of 64 bytes and verdicts. A batch
 * that comes again changes nothing. It prints a line for each evidence and split that a batch
 * completes. Then it stores what it holds in the file STATE, and sends a byte. Started again, it goes
 * on from STATE, and prints what is in it again. The status is 0 once the sender closes the
 * connection, and 1 after a failure.
 */
#include "../simplex_audit.h"
#include <arpa/inet.h>
#include <stdio.h>
#include <stdlib.h>
#include <sys/socket.h>
#include <unistd.h>

static int fails(const char *what)
{
    fprintf(stderr, "live: %s\n", what);
    return 1;
}

/* Prints the news. The buffer grows as the call asks for. */
static int tell(struct simplex_auditor *auditor)
{
    size_t room = 1 << 12, length;
    uint8_t *text = malloc(room);
    uint32_t status = SIMPLEX_MEMORY;
    while (text && (status = simplex_auditor_news(auditor, text, room, &length)) == SIMPLEX_SHORT) {
        free(text);
        text = malloc(room = length);
    }
    int done = text && status == SIMPLEX_WHOLE && fwrite(text, 1, length, stdout) == length;
    free(text);
    return done && fflush(stdout) == 0;
}

/* Stores what is held: first in another file, which then takes the place of STATE. */
static int store(struct simplex_auditor *auditor, const char *state)
{
    char other[4096];
    size_t room = 1 << 16, length;
    uint8_t *held = malloc(room);
    uint32_t status = SIMPLEX_MEMORY;
    while (held && (status = simplex_auditor_held(auditor, held, room, &length)) == SIMPLEX_SHORT) {
        free(held);
        held = malloc(room = length);
    }
    int named = snprintf(other, sizeof other, "%s.new", state);
    FILE *file = held && status == SIMPLEX_WHOLE && named < (int)sizeof other ? fopen(other, "wb") : NULL;
    int done = file && fwrite(held, 1, length, file) == length;
    free(held);
    return file && fclose(file) == 0 && done && rename(other, state) == 0;
}

/* Makes the auditor of what STATE has, or of nothing if there is no such file. */
static int begin(struct simplex_auditor *auditor, const char *state, uint32_t participants)
{
    static const uint64_t no_epochs[1];
    size_t room = 1 << 16, len = 0, more;
    uint8_t *held = malloc(room);
    FILE *file = fopen(state, "rb");
    while (file && held && (more = fread(held + len, 1, room - len, file)))
        if ((len += more) == room) {
            uint8_t *longer = realloc(held, room *= 2);
            if (!longer)
                free(held);
            held = longer;
        }
    if (file)
        fclose(file);
    int done = held && simplex_auditor_new(64, no_epochs, 0, &participants, 1, held, len, auditor) ==
                           SIMPLEX_WHOLE;
    free(held);
    return done;
}

/* Reads so many bytes, and returns whether they came. */
static int receives(int from, uint8_t *at, size_t n)
{
    while (n) {
        ssize_t some = read(from, at, n);
        if (some <= 0)
            return 0;
        at += some;
        n -= (size_t)some;
    }
    return 1;
}

/* Takes one batch, and returns whether it was stored. */
static int takes(struct simplex_auditor *auditor, int sender, size_t n, const char *state)
{
    uint8_t *batch = malloc(n ? n : 1);
    int done = batch && receives(sender, batch, n) &&
               simplex_auditor_feed(auditor, batch, n) == SIMPLEX_WHOLE && tell(auditor) &&
               store(auditor, state) && write(sender, "\n", 1) == 1;
    free(batch);
    return done;
}

int main(int argc, char **argv)
{
    if (argc != 4)
        return fails("usage: live PORT STATE PARTICIPANTS");
    struct simplex_auditor auditor = {NULL};
    const struct sockaddr_in at = {
        .sin_family = AF_INET,
        .sin_port = htons((uint16_t)strtoul(argv[1], NULL, 10)),
        .sin_addr.s_addr = htonl(INADDR_LOOPBACK),
    };
    int sender = socket(AF_INET, SOCK_STREAM, 0), well = 1;
    if (sender < 0 || connect(sender, (const struct sockaddr *)&at, sizeof at) != 0)
        return fails("no connection");
    if (!begin(&auditor, argv[2], (uint32_t)strtoul(argv[3], NULL, 10)) || !tell(&auditor))
        return fails("the state is damaged, or no memory");
    for (uint8_t head[4]; well && receives(sender, head, 4);)
        well = takes(&auditor, sender,
                     head[0] | (size_t)head[1] << 8 | (size_t)head[2] << 16 | (size_t)head[3] << 24,
                     argv[2]);
    simplex_auditor_free(&auditor);
    close(sender);
    return well ? 0 : fails("a batch was not taken");
}
