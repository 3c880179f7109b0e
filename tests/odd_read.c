/* Loaded before the C library: with READS=interrupted each read is interrupted, with READS=bytes each returns one byte at most. */
#define _GNU_SOURCE
#include <errno.h>
#include <stdlib.h>
#include <string.h>
#include <sys/syscall.h>
#include <unistd.h>

enum way { UNKNOWN, WHOLE, BYTES, INTERRUPTED };

static enum way way(void)
{
    static enum way known;
    if (known == UNKNOWN) {
        const char *word = getenv("READS");
        known = word == NULL ? WHOLE : strcmp(word, "bytes") == 0 ? BYTES : INTERRUPTED;
    }
    return known;
}

ssize_t read(int fd, void *bytes, size_t count)
{
    if (way() == INTERRUPTED) {
        errno = EINTR;
        return -1;
    }
    return syscall(SYS_read, fd, bytes, way() == BYTES && count > 1 ? 1 : count);
}
