/*
 * Stands before the C library's malloc and realloc, in a program that it is preloaded into: the call whose number the
 * variable REFUSED has, counted from 1, answers that there is no memory. With COUNTED set, the number of calls is written
 * to the file of that name when the program ends.
 */
#define _GNU_SOURCE
#include <dlfcn.h>
#include <errno.h>
#include <fcntl.h>
#include <stdlib.h>
#include <stdio.h>
#include <unistd.h>

static long calls;
static long refused = -1;

static int is_refused(void)
{
    if (refused < 0) {
        const char *number = getenv("REFUSED");
        refused = number ? atol(number) : 0;
    }
    calls = calls + 1;
    return calls == refused;
}

void *malloc(size_t size)
{
    static void *(*next)(size_t);
    if (!next)
        next = (void *(*)(size_t))dlsym(RTLD_NEXT, "malloc");
    if (is_refused()) {
        errno = ENOMEM;
        return NULL;
    }
    return next(size);
}

void *realloc(void *old, size_t size)
{
    static void *(*next)(void *, size_t);
    if (!next)
        next = (void *(*)(void *, size_t))dlsym(RTLD_NEXT, "realloc");
    if (is_refused()) {
        errno = ENOMEM;
        return NULL;
    }
    return next(old, size);
}

__attribute__((destructor)) static void tell(void)
{
    char text[32];
    const char *name = getenv("COUNTED");
    int file;
    int length;
    if (!name)
        return;
    length = snprintf(text, sizeof text, "%ld\n", calls);
    file = open(name, O_WRONLY | O_CREAT | O_TRUNC, 0600);
    if (file < 0 || write(file, text, (size_t)length) != length)
        _exit(99);
    close(file);
}
