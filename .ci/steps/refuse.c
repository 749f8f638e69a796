// Makes allocations of a program fail: preloaded, it answers calls of malloc, calloc and realloc with a null pointer, and
// passes on every other.
//
// REFUSED is the number of the one call that fails (the first is 1). Only calls for at least as many bytes as LEAST says are
// counted; without it all are. Where a call fails, a byte is written to descriptor 9.
//
// A program says where it needs no memory by two signals: a call for exactly ENDS bytes, and one for exactly RETURNS bytes.
// With SIGNALS set each call from the first on fails until one for RETURNS bytes, which does not, and again from the next for
// ENDS bytes on. Neither signal is counted, and without SIGNALS neither fails.
//
//     cc -shared -fPIC -o refuse.so refuse.c
//     REFUSED=3 LD_PRELOAD=./refuse.so ./program 9>refused
//     SIGNALS=1 LD_PRELOAD=./refuse.so ./program 9>refused

#include <errno.h>
#include <stdlib.h>
#include <unistd.h>

extern void *__libc_malloc(size_t size);
extern void *__libc_calloc(size_t count, size_t size);
extern void *__libc_realloc(void *old, size_t size);

// What `memory::ends` and `memory::returns` of `conformance_messages`, and the tests named `without_memory`, ask for.
static const size_t ENDS = 12345;
static const size_t RETURNS = 54321;

static unsigned long allocations;
static unsigned long refused;
static size_t least;
static int has_signals;
static int ended;

__attribute__((constructor)) static void begin(void) {
    const char *number = getenv("REFUSED");
    const char *bytes = getenv("LEAST");
    allocations = 0;
    refused = number ? strtoul(number, NULL, 10) : 0;
    least = bytes ? strtoul(bytes, NULL, 10) : 0;
    has_signals = getenv("SIGNALS") != NULL;
    ended = 0;
}

static int is_numbered(size_t size) {
    if (size < least || size == ENDS || size == RETURNS) return 0;
    allocations++;
    return refused != 0 && allocations == refused;
}

static int is_refused(size_t size) {
    if (has_signals && size == ENDS) ended = 1;
    if (size == RETURNS) ended = 0;
    if (!is_numbered(size) && !ended) return 0;
    if (write(9, "!", 1) != 1) abort();
    errno = ENOMEM;
    return 1;
}

void *malloc(size_t size) { return is_refused(size) ? NULL : __libc_malloc(size); }

void *calloc(size_t count, size_t size) {
    size_t bytes;
    // What a size_t does not count is no request: the C library refuses it.
    if (__builtin_mul_overflow(count, size, &bytes)) return __libc_calloc(count, size);
    return is_refused(bytes) ? NULL : __libc_calloc(count, size);
}

void *realloc(void *old, size_t size) { return is_refused(size) ? NULL : __libc_realloc(old, size); }
