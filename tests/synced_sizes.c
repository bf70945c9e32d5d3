/* Loaded ahead of the C library, this puts a line behind the file that SYNCS names for each file that a program has synced: the moment, in nanoseconds of
   the system's steady clock, how many bytes it had before, and its path. */
#define _GNU_SOURCE
#include <fcntl.h>
#include <limits.h>
#include <stdio.h>
#include <stdlib.h>
#include <sys/stat.h>
#include <sys/syscall.h>
#include <time.h>
#include <unistd.h>

static int told(long call, int file) {
    const char *name = getenv("SYNCS");
    char link[64], path[PATH_MAX], line[PATH_MAX + 64];
    struct stat size;
    struct timespec now;
    int answer, log;
    ssize_t count;
    if (!name || fstat(file, &size))
        return syscall(call, file);
    answer = syscall(call, file);
    if (answer)
        return answer;
    snprintf(link, sizeof link, "/proc/self/fd/%d", file);
    count = readlink(link, path, sizeof path - 1);
    path[count < 0 ? 0 : count] = 0;
    clock_gettime(CLOCK_MONOTONIC, &now);
    count = snprintf(line, sizeof line, "%lld%09ld %lld %s\n", (long long)now.tv_sec, now.tv_nsec, (long long)size.st_size, path);
    log = open(name, O_WRONLY | O_APPEND | O_CREAT, 0600);
    (void)!write(log, line, count);
    close(log);
    return 0;
}

int fsync(int file) {
    return told(SYS_fsync, file);
}

int fdatasync(int file) {
    return told(SYS_fdatasync, file);
}
