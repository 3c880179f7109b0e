// Each read and write at a place of a file `node-..` moves at most MOST bytes, as the system may do on a disk that
// fills up.
#define _GNU_SOURCE
#include <dlfcn.h>
#include <stdio.h>
#include <stdlib.h>
#include <string.h>
#include <sys/types.h>
#include <unistd.h>

static size_t most(int fd, size_t count) {
    char link[64], path[4096];
    snprintf(link, sizeof link, "/proc/self/fd/%d", fd);
    ssize_t length = readlink(link, path, sizeof path - 1);
    const char *limit = getenv("MOST");
    if (length < 0 || !limit) return count;
    path[length] = 0;
    const char *slash = strrchr(path, '/');
    size_t number = (size_t)atol(limit);
    return slash && strncmp(slash, "/node-", 6) == 0 && number < count ? number : count;
}

#define SHORT(name, bytes_type, offset_type)                                   \
    ssize_t name(int fd, bytes_type bytes, size_t count, offset_type place) {  \
        static ssize_t (*real)(int, bytes_type, size_t, offset_type);          \
        if (!real) real = (ssize_t(*)(int, bytes_type, size_t, offset_type))dlsym(RTLD_NEXT, #name); \
        return real(fd, bytes, most(fd, count), place);                        \
    }

SHORT(pwrite, const void *, off_t)
SHORT(pwrite64, const void *, off64_t)
SHORT(pread, void *, off_t)
SHORT(pread64, void *, off64_t)
