/* Loaded ahead of the C library, this shifts the wall clock that a program reads by the seconds that the file named by SHIFT holds, which may
   change while it runs. Other clocks are as they were. */
#define _GNU_SOURCE
#include <fcntl.h>
#include <stdlib.h>
#include <sys/syscall.h>
#include <time.h>
#include <unistd.h>

/* The seconds in the file, and 0 where there is none. */
static long shift(void) {
    char text[32] = "";
    const char *path = getenv("SHIFT");
    int file = path ? syscall(SYS_openat, AT_FDCWD, path, O_RDONLY) : -1;
    if (file < 0)
        return 0;
    syscall(SYS_read, file, text, sizeof text - 1);
    syscall(SYS_close, file);
    return strtol(text, NULL, 10);
}

int clock_gettime(clockid_t clock, struct timespec *time) {
    int status = syscall(SYS_clock_gettime, clock, time);
    if (status == 0 && clock == CLOCK_REALTIME)
        time->tv_sec += shift();
    return status;
}
