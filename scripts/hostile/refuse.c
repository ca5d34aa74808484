/* Refuses one allocation of a process: the one whose number the environment's REFUSE_AT says, counted from 1. Where
 * REFUSE_TOLD names a file, the number of all allocations is written there at the end. Loaded before the C library. */
#define _GNU_SOURCE
#include <dlfcn.h>
#include <errno.h>
#include <stdio.h>
#include <stdlib.h>

static long allocations;

/* Counts an allocation: whether it is the one to refuse. */
static int is_refused(void)
{
    static long refused = -1;
    if (refused < 0) {
        const char *text = getenv("REFUSE_AT");
        refused = text ? atol(text) : 0;
    }
    allocations++;
    return allocations == refused;
}

void *malloc(size_t size)
{
    static void *(*next)(size_t);
    if (!next)
        *(void **)&next = dlsym(RTLD_NEXT, "malloc");
    if (is_refused()) {
        errno = ENOMEM;
        return NULL;
    }
    return next(size);
}

void *realloc(void *block, size_t size)
{
    static void *(*next)(void *, size_t);
    if (!next)
        *(void **)&next = dlsym(RTLD_NEXT, "realloc");
    if (is_refused()) {
        errno = ENOMEM;
        return NULL;
    }
    return next(block, size);
}

__attribute__((destructor)) static void tell(void)
{
    const char *path = getenv("REFUSE_TOLD");
    FILE *file = path ? fopen(path, "w") : NULL;
    if (file) {
        fprintf(file, "%ld\n", allocations);
        fclose(file);
    }
}
