// Notes in the file named by SYNCS each write and each sync of a file whose name begins with node-, and each sync of a folder,
// one per line: `write NAME`, `sync NAME` or `folder PATH`.
#define _GNU_SOURCE
#include <dlfcn.h>
#include <fcntl.h>
#include <stdio.h>
#include <stdlib.h>
#include <string.h>
#include <sys/stat.h>
#include <sys/types.h>
#include <unistd.h>

static void note(const char *what, int fd) {
    const char *notes = getenv("SYNCS");
    char link[64], path[4096], line[4200];
    struct stat status;
    if (!notes || fstat(fd, &status) != 0) return;
    snprintf(link, sizeof link, "/proc/self/fd/%d", fd);
    ssize_t length = readlink(link, path, sizeof path - 1);
    if (length < 0) return;
    path[length] = 0;
    const char *name = strrchr(path, '/') ? strrchr(path, '/') + 1 : path;
    int is_folder = S_ISDIR(status.st_mode);
    if (!is_folder && strncmp(name, "node-", 5) != 0) return;
    int count = snprintf(line, sizeof line, "%s %s\n", is_folder ? "folder" : what, is_folder ? path : name);
    int file = open(notes, O_WRONLY | O_APPEND | O_CREAT | O_CLOEXEC, 0600);
    if (file < 0) return;
    if (write(file, line, count) != count) abort();
    close(file);
}

#define NOTED(result, name, what, parameters, arguments)                       \
    result name parameters {                                                   \
        static result(*real) parameters;                                       \
        if (!real) real = (result(*) parameters)dlsym(RTLD_NEXT, #name);       \
        note(what, fd);                                                        \
        return real arguments;                                                 \
    }

NOTED(ssize_t, pwrite, "write", (int fd, const void *bytes, size_t count, off_t place), (fd, bytes, count, place))
NOTED(ssize_t, pwrite64, "write", (int fd, const void *bytes, size_t count, off_t place), (fd, bytes, count, place))
NOTED(ssize_t, write, "write", (int fd, const void *bytes, size_t count), (fd, bytes, count))
NOTED(int, fdatasync, "sync", (int fd), (fd))
NOTED(int, fsync, "sync", (int fd), (fd))
