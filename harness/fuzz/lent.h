/* Areas that the fuzz target lends to the library, and what it does when a promise is broken.
 *
 * Every area is lent from the middle of a larger block: the bytes around it are compared after each call, and while
 * the call runs AddressSanitizer takes them for unreachable, in the library's code too, so that a read outside shows
 * as well. */
#ifndef LENT_H
#define LENT_H

#include <sanitizer/asan_interface.h>
#include <stdbool.h>
#include <stdint.h>
#include <stdio.h>
#include <stdlib.h>
#include <string.h>

enum { GUARD = 64, GUARD_BYTE = 0xA5 }; /* bytes around a lent area */

static void promise(bool kept, const char *words) {
    if (kept)
        return;
    fprintf(stderr, "broken promise: %s\n", words);
    abort();
}

struct lent {
    uint8_t *block;  /* guard, area, guard */
    uint8_t *before; /* what the area held when the call was made */
    size_t length;   /* in bytes */
};

static uint8_t *front(struct lent a) { return a.block + GUARD; }
static uint32_t *numbers(struct lent a) { return (uint32_t *)(void *)front(a); }

static struct lent lend(const void *content, size_t length) {
    struct lent a = {malloc(length + 2 * GUARD), malloc(length + 1), length};
    promise(a.block != NULL && a.before != NULL, "there is memory");
    memset(a.block, GUARD_BYTE, length + 2 * GUARD);
    if (length > 0 && content != NULL)
        memcpy(front(a), content, length);
    return a;
}

static struct lent lend_filled(uint8_t byte, size_t length) {
    struct lent a = lend(NULL, length);
    memset(front(a), byte, length);
    return a;
}

static void give_back(struct lent a) {
    free(a.block);
    free(a.before);
}

static void guard(struct lent a) {
    memcpy(a.before, front(a), a.length);
    ASAN_POISON_MEMORY_REGION(a.block, GUARD);
    ASAN_POISON_MEMORY_REGION(front(a) + a.length, GUARD);
}

static void unguard(struct lent a) {
    ASAN_UNPOISON_MEMORY_REGION(a.block, a.length + 2 * GUARD);
    for (size_t i = 0; i < GUARD; i++) {
        promise(a.block[i] == GUARD_BYTE, "nothing is written before a lent area");
        promise(front(a)[a.length + i] == GUARD_BYTE, "nothing is written after a lent area");
    }
}

/* Whether the bytes from a place on are as they came. */
static bool untouched_from(struct lent a, size_t from) {
    return from <= a.length && memcmp(front(a) + from, a.before + from, a.length - from) == 0;
}

static bool untouched(struct lent a) { return untouched_from(a, 0); }

#endif
