/* Loaded ahead of the C library, this puts a byte behind the file that SYNCS names for each file that a program syncs. Where a file of that name with
   `.fails` behind it is there, a sync fails instead, as one of a disk that is broken; each takes SYNC_MS milliseconds longer. */
#define _GNU_SOURCE
#include <errno.h>
#include <fcntl.h>
#include <stdio.h>
#include <stdlib.h>
#include <sys/syscall.h>
#include <unistd.h>

static int counted(long call, int file) {
    const char *name = getenv("SYNCS");
    char fails[4096];
    const char *pause = getenv("SYNC_MS");
    int told;
    if (!name)
        return syscall(call, file);
    if (pause)
        usleep(atoi(pause) * 1000);
    snprintf(fails, sizeof fails, "%s.fails", name);
    if (access(fails, F_OK) == 0) {
        errno = EIO;
        return -1;
    }
    told = open(name, O_WRONLY | O_APPEND | O_CREAT, 0600);
    (void)!write(told, "s", 1);
    close(told);
    return syscall(call, file);
}

int fsync(int file) {
    return counted(SYS_fsync, file);
}

int fdatasync(int file) {
    return counted(SYS_fdatasync, file);
}
