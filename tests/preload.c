/* SPDX-License-Identifier: Apache-2.0 OR MIT */
/* Preloaded into the program: makes one call of the C library fail, and writes a byte to descriptor 9 where it did.

   REFUSE=N     the Nth call of malloc or realloc gives nothing
   WRITE=N      the Nth write to standard output fails, as on a full disk
   PIECE=N      a write to standard output takes N bytes at most
   SIGNALS=N    N writes to standard output are interrupted, each second one
   STORM=1      each write to standard output is interrupted
   NONE=1       each write to standard output takes nothing
   AT=N         with the five above, descriptor N is meant in place of standard output
   SHORT=N      a read gives N bytes at most, also one at a place
   CUT=N        a write to a file takes N bytes at most
   CLAIM=N      before the Nth claim of a file the shell's command BEFORE is run, as by another program */
#define _GNU_SOURCE
#include <dlfcn.h>
#include <errno.h>
#include <stdlib.h>
#include <sys/file.h>
#include <sys/uio.h>
#include <unistd.h>

static long number(const char *name)
{
    const char *text = getenv(name);
    return text ? atol(text) : 0;
}

static void mark(void)
{
    static ssize_t (*next)(int, const void *, size_t);
    if (!next)
        next = (ssize_t(*)(int, const void *, size_t))dlsym(RTLD_NEXT, "write");
    int before = errno;
    if (next(9, "x", 1) < 1)
        errno = before;
}

static int is_refused(void)
{
    static long left = -1;
    if (left < 0)
        left = number("REFUSE");
    if (left == 0 || --left > 0)
        return 0;
    mark();
    errno = ENOMEM;
    return 1;
}

void *malloc(size_t size)
{
    static void *(*next)(size_t);
    if (!next)
        next = (void *(*)(size_t))dlsym(RTLD_NEXT, "malloc");
    return is_refused() ? NULL : next(size);
}

void *realloc(void *old, size_t size)
{
    static void *(*next)(void *, size_t);
    if (!next)
        next = (void *(*)(void *, size_t))dlsym(RTLD_NEXT, "realloc");
    return is_refused() ? NULL : next(old, size);
}

ssize_t write(int file, const void *bytes, size_t length)
{
    static ssize_t (*next)(int, const void *, size_t);
    static long at = -1, left = -1, signals = -1, calls;
    if (!next)
        next = (ssize_t(*)(int, const void *, size_t))dlsym(RTLD_NEXT, "write");
    if (at < 0)
        at = getenv("AT") ? number("AT") : STDOUT_FILENO;
    if (file != at) {
        size_t most = file > STDERR_FILENO ? (size_t)number("CUT") : 0;
        return next(file, bytes, most && most < length ? most : length);
    }
    if (number("STORM")) {
        mark();
        errno = EINTR;
        return -1;
    }
    if (number("NONE")) {
        mark();
        return 0;
    }
    if (left < 0)
        left = number("WRITE");
    if (signals < 0)
        signals = number("SIGNALS");
    if (signals > 0 && calls++ % 2 == 0) {
        signals--;
        mark();
        errno = EINTR;
        return -1;
    }
    if (left > 0 && --left == 0) {
        mark();
        errno = ENOSPC;
        return -1;
    }
    size_t piece = (size_t)number("PIECE");
    return next(file, bytes, piece && piece < length ? piece : length);
}

ssize_t read(int file, void *bytes, size_t length)
{
    static ssize_t (*next)(int, void *, size_t);
    if (!next)
        next = (ssize_t(*)(int, void *, size_t))dlsym(RTLD_NEXT, "read");
    size_t most = (size_t)number("SHORT");
    return next(file, bytes, most && most < length ? most : length);
}

ssize_t pread(int file, void *bytes, size_t length, off_t place)
{
    static ssize_t (*next)(int, void *, size_t, off_t);
    if (!next)
        next = (ssize_t(*)(int, void *, size_t, off_t))dlsym(RTLD_NEXT, "pread");
    size_t most = (size_t)number("SHORT");
    return next(file, bytes, most && most < length ? most : length, place);
}

int flock(int file, int how)
{
    static int (*next)(int, int);
    static long left = -1;
    if (!next)
        next = (int (*)(int, int))dlsym(RTLD_NEXT, "flock");
    if (left < 0)
        left = number("CLAIM");
    if (left > 0 && --left == 0) {
        unsetenv("LD_PRELOAD");
        if (system(getenv("BEFORE")))
            abort();
    }
    return next(file, how);
}

/* So that no write goes another way. */
ssize_t writev(int file, const struct iovec *parts, int count)
{
    for (int i = 0; i < count; i++)
        if (parts[i].iov_len)
            return write(file, parts[i].iov_base, parts[i].iov_len);
    return 0;
}
