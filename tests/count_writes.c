// Adds a byte to the file named by WRITES for each call that writes to a socket.
#define _GNU_SOURCE
#include <fcntl.h>
#include <stdlib.h>
#include <sys/socket.h>
#include <sys/stat.h>
#include <sys/syscall.h>
#include <sys/types.h>
#include <unistd.h>

static void note(int fd) {
    const char *notes = getenv("WRITES");
    struct stat status;
    if (!notes || fstat(fd, &status) != 0 || !S_ISSOCK(status.st_mode)) return;
    int file = open(notes, O_WRONLY | O_APPEND | O_CREAT | O_CLOEXEC, 0600);
    if (file < 0) return;
    if (syscall(SYS_write, file, ".", 1) != 1) abort();
    close(file);
}

ssize_t write(int fd, const void *bytes, size_t count) {
    note(fd);
    return syscall(SYS_write, fd, bytes, count);
}

ssize_t send(int fd, const void *bytes, size_t count, int flags) {
    note(fd);
    return syscall(SYS_sendto, fd, bytes, count, flags, NULL, 0);
}
