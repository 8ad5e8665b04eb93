/* Lets one read of standard input or one write of standard output fail, for ./fail-streams, which preloads
   it. FAIL is `read` or `write`, NTH the number of the call, from 1 on, and ERRNO its error. With FOREVER=1
   each later call fails too. Each call carries at most CHUNK bytes. A program that ends before the call
   ends with status 77, and one that writes behind a write that failed for good with status 78. */
#define _GNU_SOURCE
#include <dlfcn.h>
#include <errno.h>
#include <stdlib.h>
#include <string.h>
#include <unistd.h>

static long nth, met, chunk, forever;
static int error, is_write, has_failed;

static long number(const char *name, long usual)
{
    const char *word = getenv(name);
    return word ? atol(word) : usual;
}

__attribute__((constructor)) static void begin(void)
{
    const char *word = getenv("FAIL");
    is_write = word && strcmp(word, "write") == 0;
    nth = number("NTH", 0);
    chunk = number("CHUNK", 1 << 20);
    forever = number("FOREVER", 0);
    error = (int)number("ERRNO", EIO);
}

static int status_of(int status)
{
    return met < nth ? 77 : status;
}

__attribute__((destructor)) static void end(void)
{
    if (status_of(0) != 0)
        _Exit(77);
}

/* A program with threads ends by this, and runs no destructor. */
void _exit(int status)
{
    void (*next)(int) = (void (*)(int))dlsym(RTLD_NEXT, "_exit");
    next(status_of(status));
    __builtin_unreachable();
}

static int fails(int this_is_write)
{
    if (this_is_write != is_write || nth == 0)
        return 0;
    if (has_failed && !forever && this_is_write && error != EINTR)
        _Exit(78);
    met++;
    if (met != nth && !(forever && met > nth))
        return 0;
    has_failed = 1;
    errno = error;
    return 1;
}

ssize_t read(int file, void *bytes, size_t len)
{
    static ssize_t (*next)(int, void *, size_t);
    if (!next)
        next = (ssize_t(*)(int, void *, size_t))dlsym(RTLD_NEXT, "read");
    if (file != 0)
        return next(file, bytes, len);
    if (fails(0))
        return -1;
    return next(file, bytes, len < (size_t)chunk ? len : (size_t)chunk);
}

static ssize_t write_some(int file, const void *bytes, size_t len)
{
    static ssize_t (*next)(int, const void *, size_t);
    if (!next)
        next = (ssize_t(*)(int, const void *, size_t))dlsym(RTLD_NEXT, "write");
    if (file != 1)
        return next(file, bytes, len);
    if (fails(1))
        return -1;
    return next(file, bytes, len < (size_t)chunk ? len : (size_t)chunk);
}

ssize_t write(int file, const void *bytes, size_t len)
{
    return write_some(file, bytes, len);
}

ssize_t __write(int file, const void *bytes, size_t len)
{
    return write_some(file, bytes, len);
}
