/* Loaded ahead of the C library, this makes the writes of a program to standard output short or failing: each takes at most
   WRITE_AT_MOST bytes; once FAIL_AFTER bytes were taken in all, each further one fails as on a full disk; once ZERO_AFTER bytes
   were taken, one takes nothing; and each that takes something is interrupted INTERRUPTS times before. None set: it changes nothing. */
#define _GNU_SOURCE
#include <errno.h>
#include <stdlib.h>
#include <sys/syscall.h>
#include <sys/types.h>
#include <unistd.h>

static long at_most = -1;
static long left = -1;
static long before_zero = -1;
static long interrupts = -1;
static long interrupted = 0;

static long number(const char *name) {
    const char *text = getenv(name);
    return text ? strtol(text, NULL, 10) : -1;
}

__attribute__((constructor)) static void start(void) {
    at_most = number("WRITE_AT_MOST");
    left = number("FAIL_AFTER");
    before_zero = number("ZERO_AFTER");
    interrupts = number("INTERRUPTS");
}

static size_t at_most_of(size_t length, long most) {
    return most >= 0 && length > (size_t)most ? (size_t)most : length;
}

ssize_t write(int file, const void *bytes, size_t length) {
    ssize_t taken;
    if (file != 1 || length == 0)
        return syscall(SYS_write, file, bytes, length);
    if (interrupted < interrupts) {
        interrupted++;
        errno = EINTR;
        return -1;
    }
    interrupted = 0;
    if (left == 0) {
        errno = ENOSPC;
        return -1;
    }
    if (before_zero == 0) {
        before_zero = -1;
        return 0;
    }
    length = at_most_of(at_most_of(at_most_of(length, at_most), left), before_zero);
    taken = syscall(SYS_write, file, bytes, length);
    if (left >= 0 && taken > 0)
        left -= taken;
    if (before_zero >= 0 && taken > 0)
        before_zero -= taken;
    return taken;
}
