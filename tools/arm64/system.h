// What Rattle's libraries `libc` and `os` want of C that no C library has: of it, what ldaodt calls. For x86-64 the
// toolchain brings these functions compiled; for 64-bit ARM it brings none, so system.c has them.
//
// The declaration of each stands in the toolchain, and what it has to do: those of the heap in rattle/libc/src/heap.rt,
// the others in rattle/os/src/c.rt. The proofs take those contracts as they are written, and no proof covers this code.
// A slice arrives as a pointer and a length, an array as a pointer, and `Memory`, which has no bytes, not at all.
#include <stdbool.h>
#include <stddef.h>
#include <stdint.h>

// Whether there is memory, and where. Where there is none the pointer points somewhere, too, and nothing is owned there.
struct tried {
    bool ok;
    void *p;
};

// A socket's address, in the first `len` bytes.
struct raw_addr {
    uint8_t bytes[128];
    uint32_t len;
};

// New memory of n bytes, for what is aligned to a, which divides 16. A value without bytes gets a block as well, since no
// two live ones may share an address.
struct tried rattle_alloc(size_t n, size_t a);

// The block at p becomes one of n bytes, of which the first `kept` are as they were; it may move. Where it fails, the
// block is as it was.
struct tried rattle_realloc(void *p, size_t kept, size_t n, size_t a);

// Frees what either answered.
void rattle_dealloc(void *p);

// The number of the error with which the last call of this thread failed.
int32_t rattle_errno(void);

void rattle_set_errno(int32_t error);

// Puts the argument of this number, of which 0 is the program's name, at the start of buf. Its length; -1 where there is no
// such argument; -2 where it does not fit, and then buf is full.
ptrdiff_t rattle_arg(size_t i, uint8_t *buf, size_t room);

// Sets or clears O_NONBLOCK of what a descriptor is open on. 0, or -1 with an error's number.
int32_t rattle_set_nonblocking(int32_t fd, bool on);

// Puts the first addresses of a name, of IPv4 and IPv6, at the start of `found`. How many there are; or the error of
// getaddrinfo, which is negative.
ptrdiff_t rattle_lookup_host(const char *name, struct raw_addr *found, size_t room);
