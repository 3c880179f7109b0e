// Fails each write to the files whose path ends in a line of the file named by FAILING, as long as that file exists, with the
// system error FAILS_WITH (a number), or EIO.
#define _GNU_SOURCE
#include <dlfcn.h>
#include <errno.h>
#include <fcntl.h>
#include <stdio.h>
#include <stdlib.h>
#include <string.h>
#include <sys/types.h>
#include <unistd.h>

static int fails(int fd) {
    const char *control = getenv("FAILING");
    char end[256], link[64], path[4096];
    FILE *file = control ? fopen(control, "re") : NULL;
    if (!file) return 0;
    snprintf(link, sizeof link, "/proc/self/fd/%d", fd);
    ssize_t length = readlink(link, path, sizeof path);
    int is_meant = 0;
    while (!is_meant && fscanf(file, "%255s", end) == 1) {
        ssize_t tail = (ssize_t)strlen(end);
        is_meant = length >= tail && memcmp(path + length - tail, end, tail) == 0;
    }
    fclose(file);
    return is_meant;
}

static int why(void) {
    const char *number = getenv("FAILS_WITH");
    return number ? atoi(number) : EIO;
}

#define GUARDED(name, parameters, arguments)                                   \
    ssize_t name parameters {                                                  \
        static ssize_t(*real) parameters;                                      \
        if (!real) real = (ssize_t(*) parameters)dlsym(RTLD_NEXT, #name);      \
        if (fails(fd)) {                                                       \
            errno = why();                                                     \
            return -1;                                                         \
        }                                                                      \
        return real arguments;                                                 \
    }

GUARDED(pwrite, (int fd, const void *bytes, size_t count, off_t place), (fd, bytes, count, place))
GUARDED(pwrite64, (int fd, const void *bytes, size_t count, off_t place), (fd, bytes, count, place))

int fdatasync(int fd) {
    static int (*real)(int);
    if (!real) real = (int (*)(int))dlsym(RTLD_NEXT, "fdatasync");
    if (fails(fd)) {
        errno = why();
        return -1;
    }
    return real(fd);
}
