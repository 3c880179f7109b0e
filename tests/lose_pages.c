// Does to the files `node-..` what Linux does to files: a sync that fails leaves their pages clean in the cache, where reads find
// them, though they never reach the disk. The folder named by DISK has what is on the disk: what was synced.
//
// LOSES names a file. While it exists and has a line `node-N record SIZE`, the next sync of that journal after a write of that many
// bytes or more fails; with `node-N gate SIZE` the next one after a write of one byte that follows such a write. Then that file is
// removed.
#define _GNU_SOURCE
#include <dlfcn.h>
#include <errno.h>
#include <fcntl.h>
#include <pthread.h>
#include <stdio.h>
#include <stdlib.h>
#include <string.h>
#include <sys/stat.h>
#include <sys/types.h>
#include <unistd.h>

#define FILES 32
#define PAGE 4096
#define PAGES 65536

struct journal {
    dev_t device;
    ino_t inode;
    char name[256];
    size_t written, before; // how many bytes the last write had, and the one before
    unsigned char dirty[PAGES];
};

static struct journal *journals[FILES];
static pthread_mutex_t guard = PTHREAD_MUTEX_INITIALIZER;

#define REAL(result, name, parameters)                                         \
    static result(*real) parameters;                                           \
    if (!real) real = (result(*) parameters)dlsym(RTLD_NEXT, #name)

static ssize_t put(int fd, const void *bytes, size_t count, off_t place) {
    REAL(ssize_t, pwrite, (int, const void *, size_t, off_t));
    return real(fd, bytes, count, place);
}

static const char *last_part(const char *path) {
    const char *slash = strrchr(path, '/');
    return slash ? slash + 1 : path;
}

// the journal that is open here, or none if another file is
static struct journal *journal_at(int fd) {
    char link[64], path[4096];
    struct stat found;
    snprintf(link, sizeof link, "/proc/self/fd/%d", fd);
    ssize_t length = readlink(link, path, sizeof path - 1);
    if (length < 0) return NULL;
    path[length] = 0;
    const char *name = last_part(path);
    if (strncmp(name, "node-", 5) != 0 || fstat(fd, &found) != 0) return NULL;
    for (int i = 0; i < FILES; i++) {
        if (journals[i] && journals[i]->device == found.st_dev && journals[i]->inode == found.st_ino) return journals[i];
        if (journals[i]) continue;
        journals[i] = calloc(1, sizeof(struct journal));
        journals[i]->device = found.st_dev;
        journals[i]->inode = found.st_ino;
        snprintf(journals[i]->name, sizeof journals[i]->name, "%s", name);
        return journals[i];
    }
    abort();
}

static void written(int fd, off_t place, ssize_t count) {
    if (count <= 0) return;
    pthread_mutex_lock(&guard);
    struct journal *journal = journal_at(fd);
    if (journal) {
        journal->before = journal->written;
        journal->written = (size_t)count;
        for (off_t page = place / PAGE; page <= (place + count - 1) / PAGE; page++) journal->dirty[page % PAGES] = 1;
    }
    pthread_mutex_unlock(&guard);
}

ssize_t pwrite(int fd, const void *bytes, size_t count, off_t place) {
    ssize_t done = put(fd, bytes, count, place);
    written(fd, place, done);
    return done;
}

ssize_t pwrite64(int fd, const void *bytes, size_t count, off_t place) { return pwrite(fd, bytes, count, place); }

ssize_t write(int fd, const void *bytes, size_t count) {
    REAL(ssize_t, write, (int, const void *, size_t));
    ssize_t done = real(fd, bytes, count);
    off_t end = done > 0 ? lseek(fd, 0, SEEK_CUR) : -1;
    if (end >= done) written(fd, end - done, done);
    return done;
}

// whether this journal's sync is the one that has to fail
static int fails(const struct journal *journal) {
    const char *control = getenv("LOSES");
    char name[256], what[16];
    FILE *file = control ? fopen(control, "re") : NULL;
    if (!file) return 0;
    size_t size = 0;
    int is_meant = fscanf(file, "%255s %15s %zu", name, what, &size) == 3 && strcmp(name, journal->name) == 0;
    fclose(file);
    int is_gate = strcmp(what, "gate") == 0;
    is_meant = is_meant && is_gate == (journal->written == 1) && (is_gate ? journal->before : journal->written) >= size;
    if (is_meant) unlink(control);
    return is_meant;
}

// what is dirty reaches the disk
static void keep(int fd, struct journal *journal) {
    char path[4096], page[PAGE];
    struct stat found;
    snprintf(path, sizeof path, "%s/%s", getenv("DISK"), journal->name);
    int disk = open(path, O_RDWR | O_CREAT | O_CLOEXEC, 0600);
    if (disk < 0 || fstat(fd, &found) != 0) abort();
    for (off_t number = 0; number < PAGES; number++) {
        if (!journal->dirty[number]) continue;
        ssize_t count = pread(fd, page, PAGE, number * PAGE);
        if (count > 0 && put(disk, page, (size_t)count, number * PAGE) != count) abort();
    }
    if (ftruncate(disk, found.st_size) != 0) abort();
    close(disk);
}

static int synced(int fd, int (*real)(int)) {
    pthread_mutex_lock(&guard);
    struct journal *journal = journal_at(fd);
    int is_lost = journal && fails(journal);
    if (journal) {
        if (!is_lost) keep(fd, journal);
        memset(journal->dirty, 0, PAGES);
    }
    pthread_mutex_unlock(&guard);
    if (is_lost) {
        errno = EIO;
        return -1;
    }
    return real(fd);
}

int fdatasync(int fd) {
    REAL(int, fdatasync, (int));
    return synced(fd, real);
}

int fsync(int fd) {
    REAL(int, fsync, (int));
    return synced(fd, real);
}

int rename(const char *from, const char *to) {
    REAL(int, rename, (const char *, const char *));
    if (strncmp(last_part(from), "node-", 5) == 0) {
        char was[4096], is[4096];
        snprintf(was, sizeof was, "%s/%s", getenv("DISK"), last_part(from));
        snprintf(is, sizeof is, "%s/%s", getenv("DISK"), last_part(to));
        if (real(was, is) != 0) abort();
        pthread_mutex_lock(&guard);
        for (int i = 0; i < FILES && journals[i]; i++)
            if (strcmp(journals[i]->name, last_part(from)) == 0) snprintf(journals[i]->name, sizeof journals[i]->name, "%s", last_part(to));
        pthread_mutex_unlock(&guard);
    }
    return real(from, to);
}
