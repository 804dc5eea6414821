/* Counts what a program allocates, and how many octets it copies by memcpy and memmove. It stands before the C library,
 * by LD_PRELOAD, and writes both numbers to standard error when the program ends. */
#include <stddef.h>
#include <stdio.h>

void *__libc_malloc(size_t size);
void *__libc_realloc(void *old, size_t size);
void *malloc(size_t size);
void *realloc(void *old, size_t size);
void *memcpy(void *restrict to, const void *restrict from, size_t size);
void *memmove(void *to, const void *from, size_t size);

static unsigned long allocations, copied;

void *malloc(size_t size) {
    allocations++;
    return __libc_malloc(size);
}

void *realloc(void *old, size_t size) {
    allocations++;
    return __libc_realloc(old, size);
}

void *memmove(void *to, const void *from, size_t size) {
    unsigned char *t = to;
    const unsigned char *f = from;
    copied += size;
    if (t < f) {
        for (size_t i = 0; i < size; i++) {
            t[i] = f[i];
        }
    } else {
        for (size_t i = size; i > 0; i--) {
            t[i - 1] = f[i - 1];
        }
    }
    return to;
}

void *memcpy(void *restrict to, const void *restrict from, size_t size) {
    return memmove(to, from, size);
}

__attribute__((destructor)) static void told(void) {
    fprintf(stderr, "allocations %lu copied %lu\n", allocations, copied);
}
