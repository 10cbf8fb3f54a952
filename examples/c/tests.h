/* What the tests in C have in common: the comparison, and changes through one journal. */
#ifndef TESTS_H
#define TESTS_H

#include <stdio.h>
#include <string.h>

#include "../../include/amiqsovik.h"

static int wrong = 0;
static uint8_t journal[AMIQSOVIK_JOURNAL_BYTES];

/* Says so where a number is not the wanted one. */
static void same(const char *what, uint64_t is, uint64_t wanted)
{
    if (is != wanted) {
        printf("%s: %#llx, and not %#llx\n", what, (unsigned long long)is, (unsigned long long)wanted);
        wrong = 1;
    }
}

static inline uint64_t word(uint64_t number, uint64_t gives) { return number | gives << 32; }

static inline void wipe(void) { same("wipe", amiqsovik_wipe(journal, sizeof journal), word(AMIQSOVIK_DONE, 0)); }

static inline uint64_t insert(uint8_t *store, size_t length, uint32_t hash, uint32_t block, uint32_t offset)
{
    return amiqsovik_insert(store, length, journal, sizeof journal, hash, block, offset);
}

static inline uint64_t remove_pair(uint8_t *store, size_t length, uint32_t hash, uint32_t block, uint32_t offset)
{
    return amiqsovik_remove(store, length, journal, sizeof journal, hash, block, offset);
}

static inline uint64_t work(uint8_t *store, size_t length, uint32_t budget)
{
    return amiqsovik_work(store, length, journal, sizeof journal, budget);
}

static inline uint64_t squeeze(uint8_t *store, size_t length, uint32_t bucket, uint32_t budget)
{
    return amiqsovik_squeeze(store, length, journal, sizeof journal, bucket, budget);
}

#endif
