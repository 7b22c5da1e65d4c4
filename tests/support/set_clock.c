/* Gives the program another clock: CLOCK is its moment in Unix seconds, or `none` if it can't be read. */
#define _GNU_SOURCE
#include <errno.h>
#include <stdlib.h>
#include <string.h>
#include <sys/syscall.h>
#include <time.h>
#include <unistd.h>

int clock_gettime(clockid_t clock, struct timespec *time) {
    const char *moment = getenv("CLOCK");
    if (clock != CLOCK_REALTIME || !moment)
        return syscall(SYS_clock_gettime, clock, time);
    if (!strcmp(moment, "none")) {
        errno = EINVAL;
        return -1;
    }
    time->tv_sec = strtoll(moment, NULL, 10);
    time->tv_nsec = 999999999;
    return 0;
}
