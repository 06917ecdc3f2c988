/* Lets a program fail at one call. The others go on.
 *
 *     REFUSE=N      the Nth call of malloc or realloc finds no memory
 *     FAIL_READ=N   the Nth read fails
 *     FAIL_WRITE=N  the Nth write fails
 *     BYTES=1       each read and each write moves one byte at most
 *     COUNTED=FILE  where the program ends, the counts of all three are written to this file
 *
 *     cc -shared -fPIC -O2 -o refuse.so tools/refuse.c -ldl
 *     REFUSE=3 LD_PRELOAD=./refuse.so ./pls verify tree < INPUT
 */
#define _GNU_SOURCE
#include <dlfcn.h>
#include <errno.h>
#include <stdio.h>
#include <stdlib.h>
#include <unistd.h>

struct calls {
    unsigned long count, failing;
};

static struct calls allocations, reads, writes;
static void *(*next_malloc)(size_t);
static void *(*next_realloc)(void *, size_t);
static ssize_t (*next_read)(int, void *, size_t);
static ssize_t (*next_write)(int, const void *, size_t);
static int ready, by_bytes;

static unsigned long number(const char *name) {
    const char *text = getenv(name);
    return text ? strtoul(text, 0, 10) : 0;
}

static void find(void) {
    next_malloc = dlsym(RTLD_NEXT, "malloc");
    next_realloc = dlsym(RTLD_NEXT, "realloc");
    next_read = dlsym(RTLD_NEXT, "read");
    next_write = dlsym(RTLD_NEXT, "write");
    allocations.failing = number("REFUSE");
    reads.failing = number("FAIL_READ");
    writes.failing = number("FAIL_WRITE");
    by_bytes = number("BYTES") > 0;
    allocations.count = reads.count = writes.count = 0;
    ready = 1;
}

__attribute__((constructor)) static void begin(void) { find(); }

/* Whether this call is to fail, with this error. */
static int fails(struct calls *calls, int error) {
    if (!ready || ++calls->count != calls->failing) return 0;
    errno = error;
    return 1;
}

void *malloc(size_t size) {
    if (!next_malloc) find();
    return fails(&allocations, ENOMEM) ? 0 : next_malloc(size);
}

void *realloc(void *old, size_t size) {
    if (!next_realloc) find();
    return fails(&allocations, ENOMEM) ? 0 : next_realloc(old, size);
}

ssize_t read(int file, void *into, size_t size) {
    if (!next_read) find();
    if (file != STDIN_FILENO) return next_read(file, into, size);
    return fails(&reads, EIO) ? -1 : next_read(file, into, by_bytes && size > 1 ? 1 : size);
}

ssize_t write(int file, const void *from, size_t size) {
    if (!next_write) find();
    if (file != STDOUT_FILENO) return next_write(file, from, size);
    return fails(&writes, EIO) ? -1 : next_write(file, from, by_bytes && size > 1 ? 1 : size);
}

__attribute__((destructor)) static void end(void) {
    const char *name = getenv("COUNTED");
    FILE *file;
    ready = 0;
    if (name && (file = fopen(name, "w"))) {
        fprintf(file, "%lu %lu %lu\n", allocations.count, reads.count, writes.count);
        fclose(file);
    }
}
