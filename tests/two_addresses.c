/* Loaded ahead of the C library, this gives the name two.test two addresses: 127.0.0.2, and then 127.0.0.1. Other names are looked up as ever. */
#define _GNU_SOURCE
#include <dlfcn.h>
#include <netdb.h>
#include <string.h>

typedef int lookup(const char *, const char *, const struct addrinfo *, struct addrinfo **);

int getaddrinfo(const char *node, const char *service, const struct addrinfo *hints, struct addrinfo **found) {
    lookup *real = (lookup *)dlsym(RTLD_NEXT, "getaddrinfo");
    if (node == NULL || strcmp(node, "two.test") != 0)
        return real(node, service, hints, found);
    struct addrinfo *second;
    int failed = real("127.0.0.1", service, hints, &second);
    if (failed)
        return failed;
    failed = real("127.0.0.2", service, hints, found);
    if (failed) {
        freeaddrinfo(second);
        return failed;
    }
    struct addrinfo *last = *found;
    while (last->ai_next != NULL)
        last = last->ai_next;
    last->ai_next = second;
    return 0;
}
