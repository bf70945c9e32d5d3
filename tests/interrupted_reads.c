/* Loaded ahead of the C library, this interrupts the first read of each connection that a program takes: it fails as a read that a signal
   interrupts does, and takes nothing. A byte is then put behind the file that INTERRUPTED names. Other reads are as they were. */
#define _GNU_SOURCE
#include <errno.h>
#include <fcntl.h>
#include <stdlib.h>
#include <sys/socket.h>
#include <sys/syscall.h>
#include <unistd.h>

#define MOST 65536

/* Whether nothing was read yet of the connection with this number. */
static char is_new[MOST];

static int taken(int file) {
    if (file >= 0 && file < MOST)
        is_new[file] = 1;
    return file;
}

int accept(int listener, struct sockaddr *address, socklen_t *length) {
    return taken(syscall(SYS_accept4, listener, address, length, 0));
}

int accept4(int listener, struct sockaddr *address, socklen_t *length, int flags) {
    return taken(syscall(SYS_accept4, listener, address, length, flags));
}

ssize_t recv(int file, void *bytes, size_t length, int flags) {
    const char *name = getenv("INTERRUPTED");
    if (file >= 0 && file < MOST && is_new[file] && name) {
        int told = open(name, O_WRONLY | O_APPEND | O_CREAT, 0600);
        is_new[file] = 0;
        (void)!write(told, "i", 1);
        close(told);
        errno = EINTR;
        return -1;
    }
    return syscall(SYS_recvfrom, file, bytes, length, flags, NULL, NULL);
}
