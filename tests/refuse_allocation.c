/* Loaded before the C library: fails the allocation whose number, from 1, is in REFUSE, and then writes a file of the name in TOLD.
 * If MARK is set, it counts only those between an allocation of that many bytes and the next one of as many. */
#define _GNU_SOURCE
#include <dlfcn.h>
#include <errno.h>
#include <fcntl.h>
#include <stdlib.h>
#include <unistd.h>

static long seen;
static int is_within;

/* Whether an allocation of this many bytes counts. */
static int counts(size_t size)
{
    const char *mark = getenv("MARK");
    if (mark == NULL) {
        return 1;
    }
    if (size == (size_t)atol(mark)) {
        is_within = !is_within;
        return 0;
    }
    return is_within;
}

static int refused(size_t size)
{
    const char *number = getenv("REFUSE");
    const char *told = getenv("TOLD");
    if (number == NULL || !counts(size) || ++seen != atol(number)) {
        return 0;
    }
    if (told != NULL) {
        close(open(told, O_CREAT | O_WRONLY, 0600));
    }
    return 1;
}

void *malloc(size_t size)
{
    static void *(*real)(size_t);
    if (real == NULL) {
        real = dlsym(RTLD_NEXT, "malloc");
    }
    if (refused(size)) {
        errno = ENOMEM;
        return NULL;
    }
    return real(size);
}

void *realloc(void *old, size_t size)
{
    static void *(*real)(void *, size_t);
    if (real == NULL) {
        real = dlsym(RTLD_NEXT, "realloc");
    }
    if (refused(size)) {
        errno = ENOMEM;
        return NULL;
    }
    return real(old, size);
}
