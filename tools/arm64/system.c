// The functions of system.h, over the C library's own.
#include "system.h"

#include <errno.h>
#include <netdb.h>
#include <stdlib.h>
#include <string.h>
#include <sys/ioctl.h>
#include <sys/socket.h>
#include <sys/types.h>

_Static_assert(_Alignof(max_align_t) == 16, "malloc's blocks are aligned to 16");
_Static_assert(sizeof(int) == 4, "an error and a descriptor have 32 bits");
_Static_assert(sizeof(size_t) == 8 && sizeof(ptrdiff_t) == 8, "a length has 64 bits");

static uint8_t nothing[16];

static struct tried tried(void *p) {
    return p ? (struct tried){true, p} : (struct tried){false, nothing};
}

struct tried rattle_alloc(size_t n, size_t a) {
    return tried(malloc(n ? n : a));
}

struct tried rattle_realloc(void *p, size_t kept, size_t n, size_t a) {
    (void)kept;
    return tried(realloc(p, n ? n : a));
}

void rattle_dealloc(void *p) {
    free(p);
}

int32_t rattle_errno(void) {
    return errno;
}

void rattle_set_errno(int32_t error) {
    errno = error;
}

static size_t count;
static char **words;

// glibc hands the functions that it calls before main what it hands main.
__attribute__((constructor)) static void keep(int argc, char **argv) {
    count = (size_t)argc;
    words = argv;
}

ptrdiff_t rattle_arg(size_t i, uint8_t *buf, size_t room) {
    if (i >= count)
        return -1;
    size_t n = strlen(words[i]);
    memcpy(buf, words[i], n < room ? n : room);
    return n <= room ? (ptrdiff_t)n : -2;
}

int32_t rattle_set_nonblocking(int32_t fd, bool on) {
    int wanted = on;
    return ioctl(fd, FIONBIO, &wanted);
}

ptrdiff_t rattle_lookup_host(const char *name, struct raw_addr *found, size_t room) {
    // Of each address once, and not once for each kind of socket.
    const struct addrinfo hints = {.ai_socktype = SOCK_STREAM};
    struct addrinfo *all = NULL;
    int error = getaddrinfo(name, NULL, &hints, &all);
    if (error)
        return error;
    size_t n = 0;
    for (const struct addrinfo *it = all; it && n < room; it = it->ai_next) {
        if ((it->ai_family != AF_INET && it->ai_family != AF_INET6) || it->ai_addrlen > sizeof found[n].bytes)
            continue;
        memcpy(found[n].bytes, it->ai_addr, it->ai_addrlen);
        found[n].len = it->ai_addrlen;
        n++;
    }
    freeaddrinfo(all);
    return (ptrdiff_t)n;
}
