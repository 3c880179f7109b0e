// Makes syncs slow: each takes SYNC_MS longer, and if the file named by SLOW exists, the next sync of a file whose path
// ends in its first word takes as many milliseconds as its second word says, once.
#define _GNU_SOURCE
#include <dlfcn.h>
#include <stdio.h>
#include <stdlib.h>
#include <string.h>
#include <sys/types.h>
#include <unistd.h>

static int is_of(int fd, const char *end) {
    char link[64], path[4096];
    snprintf(link, sizeof link, "/proc/self/fd/%d", fd);
    ssize_t length = readlink(link, path, sizeof path), tail = (ssize_t)strlen(end);
    return length >= tail && memcmp(path + length - tail, end, tail) == 0;
}

static unsigned once(int fd) {
    const char *control = getenv("SLOW");
    char end[256];
    unsigned ms = 0;
    FILE *file = control ? fopen(control, "re") : NULL;
    if (!file) return 0;
    int is_meant = fscanf(file, "%255s %u", end, &ms) == 2 && is_of(fd, end);
    fclose(file);
    if (!is_meant) return 0;
    unlink(control);
    return ms;
}

int fdatasync(int fd) {
    static int (*real)(int);
    const char *each = getenv("SYNC_MS");
    if (!real) real = (int (*)(int))dlsym(RTLD_NEXT, "fdatasync");
    usleep(1000 * (once(fd) + (each ? atoi(each) : 0)));
    return real(fd);
}
