/* Refuses one allocation of a program, for ./fail-allocations, which preloads it: the one whose number,
   from 1 on, the variable REFUSED says. Where the variable MARK says a size in bytes, it counts from behind
   the first allocation of that size. A program that ends before that one ends with status 77. */
#define _GNU_SOURCE
#include <dlfcn.h>
#include <stdlib.h>
#include <unistd.h>

static long met, refused, mark;

__attribute__((constructor)) static void begin(void)
{
    const char *word = getenv("REFUSED");
    refused = word ? atol(word) : 0;
    word = getenv("MARK");
    mark = word ? atol(word) : 0;
    met = 0;
}

__attribute__((destructor)) static void end(void)
{
    if (met < refused)
        _Exit(77);
}

/* A program with threads ends by this, and runs no destructor. */
void _exit(int status)
{
    void (*next)(int) = (void (*)(int))dlsym(RTLD_NEXT, "_exit");
    next(met < refused ? 77 : status);
    __builtin_unreachable();
}

static int is_refused(size_t size)
{
    if (mark != 0) {
        if (size == (size_t)mark)
            mark = 0;
        return 0;
    }
    return __atomic_add_fetch(&met, 1, __ATOMIC_SEQ_CST) == refused;
}

void *malloc(size_t size)
{
    static void *(*next)(size_t);
    if (!next)
        next = (void *(*)(size_t))dlsym(RTLD_NEXT, "malloc");
    return is_refused(size) ? NULL : next(size);
}

void *realloc(void *old, size_t size)
{
    static void *(*next)(void *, size_t);
    if (!next)
        next = (void *(*)(void *, size_t))dlsym(RTLD_NEXT, "realloc");
    return is_refused(size) ? NULL : next(old, size);
}
