/* For a test that is linked with --wrap for malloc, realloc and free: counts what a library allocates, and refuses it. */
#ifndef MATBENCH_ALLOCATIONS_H
#define MATBENCH_ALLOCATIONS_H

#include "tried.h"

#include <stddef.h>

/* How many allocations were made, which of them is refused, counted from 0, and how many are not freed yet. */
static long allocations, refused = -1, held;

void *__real_malloc(size_t size);
void *__real_realloc(void *old, size_t size);
void __real_free(void *bytes);

void *__wrap_malloc(size_t size) {
    void *made = __atomic_fetch_add(&allocations, 1, __ATOMIC_RELAXED) == refused ? NULL : __real_malloc(size);
    if (made) __atomic_fetch_add(&held, 1, __ATOMIC_RELAXED);
    return made;
}

void *__wrap_realloc(void *old, size_t size) {
    if (!old) return __wrap_malloc(size);
    return __atomic_fetch_add(&allocations, 1, __ATOMIC_RELAXED) == refused ? NULL : __real_realloc(old, size);
}

void __wrap_free(void *bytes) {
    if (bytes) __atomic_fetch_sub(&held, 1, __ATOMIC_RELAXED);
    __real_free(bytes);
}

/* How a call ended: with want of memory and no output, with the answer as ever, or otherwise. */
typedef enum { REFUSED, WHOLE, OTHERWISE } outcome;

/* Makes a call, always the same, that has an answer. Each test has this of its own. */
static outcome answer(void);

/* Refuses each allocation of the call in turn: it ends with want of memory or has the answer as ever, and holds nothing. */
static void try_little_memory(void) {
    answer();
    long begun = allocations, before = held, refusals = 0;
    int holds = answer() == WHOLE && held == before;
    long count = allocations - begun;
    for (long i = 0; i < count; i++) {
        refused = allocations + i;
        outcome ended = answer();
        refusals += ended == REFUSED;
        holds &= ended != OTHERWISE && held == before;
    }
    refused = -1;
    hold("no memory", holds && count > 20 && refusals > count / 2);
}

#endif
