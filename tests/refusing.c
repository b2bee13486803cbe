/* Stands before the system's allocator, and refuses the growth of one number: REFUSED, counted from 1. It says so on file
   descriptor 9. */
#define _GNU_SOURCE
#include <dlfcn.h>
#include <errno.h>
#include <stddef.h>
#include <stdlib.h>
#include <unistd.h>

static long growths, refused;

/* Whether this growth is the one. */
static int is_refused(void)
{
    if (!refused) {
        const char *number = getenv("REFUSED");
        refused = number ? atol(number) : -1;
    }
    if (++growths != refused)
        return 0;
    if (write(9, "refused", 7) != 7)
        _exit(99);
    errno = ENOMEM;
    return 1;
}

void *malloc(size_t size)
{
    static void *(*next)(size_t);
    if (!next)
        next = (void *(*)(size_t))dlsym(RTLD_NEXT, "malloc");
    return is_refused() ? NULL : next(size);
}

void *realloc(void *old, size_t size)
{
    static void *(*next)(void *, size_t);
    if (!next)
        next = (void *(*)(void *, size_t))dlsym(RTLD_NEXT, "realloc");
    return is_refused() ? NULL : next(old, size);
}
