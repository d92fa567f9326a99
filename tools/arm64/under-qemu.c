// Stands for the program for ARM: runs it by qemu, under the name that it was given itself and as the same process.
// PROCESSOR is one of the first with 64 bits: it has no instruction beyond ARMv8.0.
#include <stdlib.h>
#include <unistd.h>

int main(int argc, char **argv) {
    char **words = calloc((size_t)argc + 8, sizeof *words);
    if (!words || argc < 1)
        return 127;
    char *const first[] = {QEMU, "-cpu", PROCESSOR, "-0", argv[0], PROGRAM};
    size_t n = 0;
    for (size_t i = 0; i < sizeof first / sizeof *first; i++)
        words[n++] = first[i];
    for (int i = 1; i < argc; i++)
        words[n++] = argv[i];
    execv(QEMU, words);
    return 127;
}
