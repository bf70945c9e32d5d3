/* Loaded ahead of the C library, this refuses one request for memory of a program: the one whose number, counted from 1, REFUSED_ALLOCATION
   holds. It says so on standard error. With COUNT_ALLOCATIONS set it refuses none, and says at the end how many there were.
   With SENDER_ALONE set it counts and refuses only those of threads that have begun to connect to somewhere.
   Counted are all ways by which a program asks the C library: malloc, calloc, realloc, reallocarray, aligned_alloc, posix_memalign, memalign,
   valloc and pvalloc, and mapping memory that belongs to no file. */
#define _GNU_SOURCE
#include <dlfcn.h>
#include <errno.h>
#include <stddef.h>
#include <stdio.h>
#include <stdlib.h>
#include <string.h>
#include <sys/mman.h>
#include <sys/socket.h>
#include <sys/syscall.h>
#include <unistd.h>

/* The number of the request that is refused; 0: none. */
static unsigned long refused;
/* Requests so far. */
static unsigned long made;
static int is_on;
/* Only those of senders count, and whether this thread is one. */
static int is_for_senders;
static __thread int is_sender;

__attribute__((constructor)) static void start(void) {
    const char *number = getenv("REFUSED_ALLOCATION");
    refused = number ? strtoul(number, NULL, 10) : 0;
    is_for_senders = getenv("SENDER_ALONE") != NULL;
    is_on = 1;
}

__attribute__((destructor)) static void tell(void) {
    char text[64];
    if (!is_on)
        return;
    is_on = 0;
    if (getenv("COUNT_ALLOCATIONS")) {
        int length = snprintf(text, sizeof text, "allocations %lu\n", made);
        (void)!write(2, text, length);
    }
}

/* A program with threads ends so, and no destructor runs then. */
void _exit(int status) {
    tell();
    syscall(SYS_exit_group, status);
    __builtin_unreachable();
}

static int is_refused(void) {
    static const char said[] = "allocation refused\n";
    if (!is_on || (is_for_senders && !is_sender) || __sync_add_and_fetch(&made, 1) != refused)
        return 0;
    (void)!write(2, said, sizeof said - 1);
    errno = ENOMEM;
    return 1;
}

/* The library's own function of that name. */
#define NEXT(name, gives, ...) \
    static gives (*next)(__VA_ARGS__); \
    if (!next) \
        next = (gives (*)(__VA_ARGS__))dlsym(RTLD_NEXT, name)

int connect(int socket, const struct sockaddr *address, socklen_t length) {
    NEXT("connect", int, int, const struct sockaddr *, socklen_t);
    is_sender = 1;
    return next(socket, address, length);
}

void *malloc(size_t size) {
    NEXT("malloc", void *, size_t);
    return is_refused() ? NULL : next(size);
}

/* dlsym itself asks for zeroed memory before it has found the library's function. */
void *calloc(size_t count, size_t size) {
    static char first[4096];
    static int is_looking;
    static void *(*next)(size_t, size_t);
    if (is_looking)
        return first;
    if (!next) {
        is_looking = 1;
        next = (void *(*)(size_t, size_t))dlsym(RTLD_NEXT, "calloc");
        is_looking = 0;
    }
    return is_refused() ? NULL : next(count, size);
}

void *realloc(void *old, size_t size) {
    NEXT("realloc", void *, void *, size_t);
    return is_refused() ? NULL : next(old, size);
}

void *reallocarray(void *old, size_t count, size_t size) {
    NEXT("reallocarray", void *, void *, size_t, size_t);
    return is_refused() ? NULL : next(old, count, size);
}

void *aligned_alloc(size_t alignment, size_t size) {
    NEXT("aligned_alloc", void *, size_t, size_t);
    return is_refused() ? NULL : next(alignment, size);
}

void *memalign(size_t alignment, size_t size) {
    NEXT("memalign", void *, size_t, size_t);
    return is_refused() ? NULL : next(alignment, size);
}

void *valloc(size_t size) {
    NEXT("valloc", void *, size_t);
    return is_refused() ? NULL : next(size);
}

void *pvalloc(size_t size) {
    NEXT("pvalloc", void *, size_t);
    return is_refused() ? NULL : next(size);
}

int posix_memalign(void **given, size_t alignment, size_t size) {
    NEXT("posix_memalign", int, void **, size_t, size_t);
    return is_refused() ? ENOMEM : next(given, alignment, size);
}

void *mmap(void *at, size_t length, int protection, int flags, int file, off_t offset) {
    NEXT("mmap", void *, void *, size_t, int, int, int, off_t);
    return (flags & MAP_ANONYMOUS) && is_refused() ? MAP_FAILED : next(at, length, protection, flags, file, offset);
}
