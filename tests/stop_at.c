// Counts the calls with which a program changes files and folders: each that writes, syncs, makes, renames or removes. With STOP_AT
// the program is killed (SIGKILL) in place of the call with that number, from 1; with FAIL_AT that call fails, with ENOSPC. With
// REFUSED each call of that name fails, with EACCES. CALLS names a file to which the calls' names are written, one per line.
#define _GNU_SOURCE
#include <dlfcn.h>
#include <errno.h>
#include <fcntl.h>
#include <signal.h>
#include <stdio.h>
#include <stdlib.h>
#include <string.h>
#include <sys/stat.h>
#include <sys/types.h>
#include <unistd.h>

static int count;

static int number_of(const char *name) {
    const char *value = getenv(name);
    return value ? atoi(value) : 0;
}

static void note(const char *name) {
    static ssize_t (*real)(int, const void *, size_t);
    const char *calls = getenv("CALLS");
    if (!calls) return;
    if (!real) real = (ssize_t(*)(int, const void *, size_t))dlsym(RTLD_NEXT, "write");
    char line[64];
    int length = snprintf(line, sizeof line, "%s\n", name);
    int file = open(calls, O_WRONLY | O_APPEND | O_CREAT | O_CLOEXEC, 0600);
    if (file < 0) return;
    if (real(file, line, length) != length) abort();
    close(file);
}

// whether a call of this name has to fail; errno says why
static int fails(const char *name) {
    const char *refused = getenv("REFUSED");
    note(name);
    count++;
    if (number_of("STOP_AT") == count) raise(SIGKILL);
    if (number_of("FAIL_AT") == count) {
        errno = ENOSPC;
        return 1;
    }
    if (refused && strcmp(refused, name) == 0) {
        errno = EACCES;
        return 1;
    }
    return 0;
}

#define COUNTED(result, name, parameters, arguments)                           \
    result name parameters {                                                   \
        static result(*real) parameters;                                       \
        if (!real) real = (result(*) parameters)dlsym(RTLD_NEXT, #name);       \
        return fails(#name) ? -1 : real arguments;                             \
    }

COUNTED(ssize_t, pwrite, (int fd, const void *bytes, size_t count, off_t place), (fd, bytes, count, place))
COUNTED(ssize_t, pwrite64, (int fd, const void *bytes, size_t count, off_t place), (fd, bytes, count, place))
COUNTED(int, fdatasync, (int fd), (fd))
COUNTED(int, fsync, (int fd), (fd))
COUNTED(int, mkdir, (const char *path, mode_t mode), (path, mode))
COUNTED(int, rmdir, (const char *path), (path))
COUNTED(int, rename, (const char *old, const char *new), (old, new))
COUNTED(int, unlink, (const char *path), (path))
COUNTED(int, unlinkat, (int fd, const char *path, int flags), (fd, path, flags))
