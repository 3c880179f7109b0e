// Sets the clocks ahead, or back, by as many seconds as the file named by SHIFT says, as long as that file exists: its first
// number is for the time of day, its second for the clock that never goes back.
#define _GNU_SOURCE
#include <fcntl.h>
#include <stdio.h>
#include <stdlib.h>
#include <sys/syscall.h>
#include <time.h>
#include <unistd.h>

static long long shift_of(clockid_t clock) {
    const char *control = getenv("SHIFT");
    char text[64];
    long long day = 0, steady = 0;
    if (!control) return 0;
    int file = open(control, O_RDONLY | O_CLOEXEC);
    if (file < 0) return 0;
    ssize_t length = read(file, text, sizeof text - 1);
    close(file);
    if (length <= 0) return 0;
    text[length] = 0;
    sscanf(text, "%lld %lld", &day, &steady);
    return clock == CLOCK_REALTIME ? day : clock == CLOCK_MONOTONIC ? steady : 0;
}

int clock_gettime(clockid_t clock, struct timespec *time) {
    int result = syscall(SYS_clock_gettime, clock, time);
    if (result == 0) time->tv_sec += shift_of(clock);
    return result;
}
