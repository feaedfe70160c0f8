// Refuses memory, or fails devices, of a program that is run with this library in LD_PRELOAD. For memory.py and hostile.py.
//
//   cc -O2 -shared -fPIC -o refuse.so refuse.c -ldl
//
// REFUSE_FROM=N and REFUSE_COUNT=K     the Nth allocation, counted from 1, and the K - 1 after it give no memory (K is 1 where it isn't said)
// FAIL_IO=N                            the Nth read of the standard input or write to the standard output fails with EIO
// NOTHING_IO=N                         the Nth such call, where it is a write, takes nothing
// SHORT_IO=1                           each such call moves one byte
// REFUSE_REPORT=FILE                   at the end how many allocations and such calls there were
#define _GNU_SOURCE
#include <dlfcn.h>
#include <errno.h>
#include <fcntl.h>
#include <stdatomic.h>
#include <stdio.h>
#include <stdlib.h>
#include <sys/uio.h>
#include <unistd.h>

static atomic_long allocations, calls;
static long refuse_from, refuse_count = 1, fail_io, nothing_io, short_io;
static int is_ready;
static const char *report;
static void *(*real_malloc)(size_t);
static void *(*real_realloc)(void *, size_t);
static void *(*real_calloc)(size_t, size_t);
static ssize_t (*real_read)(int, void *, size_t);
static ssize_t (*real_write)(int, const void *, size_t);
static ssize_t (*real_writev)(int, const struct iovec *, int);
// What dlsym itself asks for before the real functions are known.
static char early[65536];
static size_t early_used;

static long number(const char *name, long otherwise) {
    const char *text = getenv(name);
    return text ? atol(text) : otherwise;
}

static void find(void) {
    static int is_finding;
    if (real_writev || is_finding) return;
    is_finding = 1;
    real_malloc = dlsym(RTLD_NEXT, "malloc");
    real_realloc = dlsym(RTLD_NEXT, "realloc");
    real_calloc = dlsym(RTLD_NEXT, "calloc");
    real_read = dlsym(RTLD_NEXT, "read");
    real_write = dlsym(RTLD_NEXT, "write");
    real_writev = dlsym(RTLD_NEXT, "writev");
}

__attribute__((constructor)) static void begin(void) {
    find();
    refuse_from = number("REFUSE_FROM", 0);
    refuse_count = number("REFUSE_COUNT", 1);
    fail_io = number("FAIL_IO", 0);
    nothing_io = number("NOTHING_IO", 0);
    short_io = number("SHORT_IO", 0);
    report = getenv("REFUSE_REPORT");
    is_ready = 1;
}

__attribute__((destructor)) static void end(void) {
    if (!report || !is_ready) return;
    is_ready = 0;
    int file = open(report, O_WRONLY | O_CREAT | O_TRUNC, 0600);
    char text[64];
    int size = snprintf(text, sizeof text, "%ld %ld\n", (long)allocations, (long)calls);
    if (file >= 0) {
        if (real_write(file, text, size) != size) abort();
        close(file);
    }
}

// A program may end without its destructors.
void _exit(int status) {
    static void (*real_exit)(int) __attribute__((noreturn));
    end();
    real_exit = dlsym(RTLD_NEXT, "_exit");
    real_exit(status);
}

static int is_refused(void) {
    if (!is_ready) return 0;
    long place = ++allocations;
    return refuse_from && place >= refuse_from && place < refuse_from + refuse_count;
}

void *malloc(size_t size) {
    find();
    if (!real_malloc) {
        size_t at = early_used;
        early_used += (size + 15) / 16 * 16;
        return early_used <= sizeof early ? early + at : NULL;
    }
    if (is_refused()) {
        errno = ENOMEM;
        return NULL;
    }
    return real_malloc(size);
}

void *calloc(size_t count, size_t size) {
    if (!real_calloc) return malloc(count * size);
    if (is_refused()) {
        errno = ENOMEM;
        return NULL;
    }
    return real_calloc(count, size);
}

void *realloc(void *block, size_t size) {
    find();
    if (is_refused()) {
        errno = ENOMEM;
        return NULL;
    }
    return real_realloc(block, size);
}

void free(void *block) {
    static void (*real_free)(void *);
    if ((char *)block >= early && (char *)block < early + sizeof early) return;
    if (!real_free) real_free = dlsym(RTLD_NEXT, "free");
    real_free(block);
}

// Whether a call on a device fails.
static int fails(int file) {
    return is_ready && (file == 0 || file == 1) && ++calls == fail_io;
}

static int is_device(int file) {
    return is_ready && (file == 0 || file == 1);
}

ssize_t read(int file, void *bytes, size_t size) {
    find();
    if (fails(file)) {
        errno = EIO;
        return -1;
    }
    return real_read(file, bytes, is_device(file) && short_io && size > 1 ? 1 : size);
}

ssize_t write(int file, const void *bytes, size_t size) {
    find();
    if (fails(file)) {
        errno = EIO;
        return -1;
    }
    if (is_device(file) && nothing_io && calls >= nothing_io) return 0;
    return real_write(file, bytes, is_device(file) && short_io && size > 1 ? 1 : size);
}

// Another name of it.
ssize_t __write(int file, const void *bytes, size_t size) {
    return write(file, bytes, size);
}

ssize_t writev(int file, const struct iovec *parts, int count) {
    find();
    if (fails(file)) {
        errno = EIO;
        return -1;
    }
    if (is_device(file) && nothing_io && calls >= nothing_io) return 0;
    if (!is_device(file) || !short_io) return real_writev(file, parts, count);
    for (int k = 0; k < count; k++)
        if (parts[k].iov_len) return real_write(file, parts[k].iov_base, 1);
    return 0;
}
