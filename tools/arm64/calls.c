// Calls each function of system.h and prints what it answers, a line for each call: linked with the toolchain's own for
// x86-64, with system.c there, and with system.c on ARM it has to print the same.
#include "system.h"

#include <errno.h>
#include <fcntl.h>
#include <malloc.h>
#include <stdio.h>
#include <string.h>
#include <unistd.h>

#define COUNT(of) (sizeof(of) / sizeof *(of))

static void arguments(size_t first_missing) {
    for (size_t i = 1; i < first_missing + 2; i++)
        for (size_t room = 0; room < 14; room++) {
            uint8_t buf[16];
            memset(buf, '.', sizeof buf);
            ptrdiff_t said = rattle_arg(i, buf, room);
            printf("argument %zu %zu: %td %.16s\n", i, room, said, (char *)buf);
        }
    uint8_t name[4096];
    printf("name: %d\n", rattle_arg(0, name, sizeof name) > 0);
    printf("far: %td %td\n", rattle_arg(SIZE_MAX, name, 3), rattle_arg((size_t)1 << 32, name, 3));
}

static void errors(void) {
    for (int32_t error = -1; error < 200; error += 7) {
        rattle_set_errno(error);
        int seen = errno;
        errno = error + 1;
        printf("error %d: %d %d\n", error, seen, rattle_errno());
    }
}

// How many of the first bytes of a block are the one that was put there.
static size_t held(const void *p, size_t count, uint8_t byte) {
    size_t n = 0;
    while (n < count && ((const uint8_t *)p)[n] == byte)
        n++;
    return n;
}

static void fill(struct tried it, size_t n, size_t a, uint8_t byte) {
    memset(it.p, byte, n ? n : a);
}

static void heap(void) {
    const size_t sizes[] = {0, 1, 2, 16, 4096, 1 << 20, (size_t)1 << 62, ((size_t)1 << 63) - 1};
    for (size_t i = 0; i < COUNT(sizes); i++)
        for (size_t a = 1; a <= 16; a *= 2) {
            struct tried it = rattle_alloc(sizes[i], a);
            printf("alloc %zu %zu: %d %d %d\n", i, a, it.ok, it.p != NULL, !it.ok || (uintptr_t)it.p % a == 0);
            if (!it.ok)
                continue;
            fill(it, sizes[i], a, 7);
            size_t n = sizes[i];
            for (size_t j = 0; j < COUNT(sizes); j++) {
                size_t kept = n < sizes[j] ? n : sizes[j];
                struct tried to = rattle_realloc(it.p, kept, sizes[j], a);
                if (to.ok) {
                    it = to;
                    n = sizes[j];
                }
                // Where it failed, all is as it was.
                printf(" realloc %zu: %d %d %d\n", j, to.ok, to.p != NULL, held(it.p, to.ok ? kept : n, 7) == (to.ok ? kept : n));
                fill(it, n, a, 7);
            }
            rattle_dealloc(it.p);
        }
    struct tried one = rattle_alloc(0, 1), other = rattle_alloc(0, 1);
    printf("apart: %d\n", one.p != other.p);
    // What was freed is lent again.
    uintptr_t place = (uintptr_t)one.p;
    rattle_dealloc(one.p);
    printf("again: %d\n", (uintptr_t)rattle_alloc(0, 1).p == place);
}

static void waiting(void) {
    int pair[2];
    if (pipe(pair))
        return;
    const int files[] = {pair[0], pair[1], 99, -1, open("/dev/null", O_RDWR | O_APPEND), open("/etc/passwd", O_RDONLY)};
    for (size_t i = 0; i < COUNT(files); i++)
        for (int k = 0; k < 4; k++) {
            int was = fcntl(files[i], F_GETFL);
            errno = 0;
            int said = rattle_set_nonblocking(files[i], k < 2), why = errno, is = fcntl(files[i], F_GETFL);
            printf("waiting %zu %d: %d %s %d %d\n", i, k, said, strerror(why), !!(is & O_NONBLOCK), (was & ~O_NONBLOCK) == (is & ~O_NONBLOCK));
        }
}

static void names(void) {
    const char *const all[] = {"127.0.0.1", "::1", "localhost", "", "nowhere.invalid", "1.2.3", "0x7f.1", "fe80::1%lo", "256.1.1.1", "ip6-localhost"};
    for (size_t i = 0; i < COUNT(all); i++)
        for (size_t room = 0; room < 4; room++) {
            struct raw_addr found[4];
            memset(found, 0, sizeof found);
            ptrdiff_t said = rattle_lookup_host(all[i], found, room);
            printf("name %s %zu: %td", all[i], room, said);
            for (size_t k = 0; k < COUNT(found); k++) {
                printf(" %u:", found[k].len);
                for (size_t b = 0; b < 28; b++)
                    printf("%02x", found[k].bytes[b]);
            }
            printf("\n");
        }
    struct raw_addr found[1];
    size_t before = mallinfo2().uordblks;
    for (int i = 0; i < 1000; i++)
        rattle_lookup_host("127.0.0.1", found, 1);
    printf("names kept: %d\n", mallinfo2().uordblks > before + 1000);
}

int main(int argc, char **argv) {
    (void)argv;
    arguments((size_t)argc);
    errors();
    heap();
    waiting();
    names();
    return 0;
}
