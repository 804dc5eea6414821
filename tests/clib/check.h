/* What each test of libgiop uses: CHECK, and a heap that counts and refuses. */
#ifndef CHECK_H
#define CHECK_H

#include "giop.h"

#include <stdio.h>
#include <stdlib.h>
#include <string.h>

static int failed, passed;

#define CHECK(what) \
    do { \
        if (what) { \
            passed++; \
        } else { \
            failed++; \
            printf("%s:%d: %s\n", __func__, __LINE__, #what); \
        } \
    } while (0)

/* The heap: `left` allocations are granted, and then none. */
static long blocks, left = -1;

void *__real_malloc(size_t size);
void *__real_realloc(void *old, size_t size);
void __real_free(void *block);
void *__wrap_malloc(size_t size);
void *__wrap_realloc(void *old, size_t size);
void __wrap_free(void *block);

static int granted(void) {
    if (left == 0) {
        return 0;
    }
    if (left > 0) {
        left--;
    }
    return 1;
}

void *__wrap_malloc(size_t size) {
    void *block = granted() ? __real_malloc(size) : NULL;
    blocks += block != NULL;
    return block;
}

void *__wrap_realloc(void *old, size_t size) {
    void *block = granted() ? __real_realloc(old, size) : NULL;
    blocks += block != NULL && old == NULL;
    return block;
}

void __wrap_free(void *block) {
    blocks -= block != NULL;
    __real_free(block);
}

#endif
