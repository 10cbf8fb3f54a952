/* Tests what the header says of the gauge. It is C and C++; `try` builds and runs it. It exits with 0 if all holds. */
#include "tests.h"

enum { BLOCKS = 5, BYTES = BLOCKS * AMIQSOVIK_BLOCK_BYTES };

static const struct amiqsovik_gauge_values LAST = {-7.5, 1e300};

/* The bits of a number: 0 and -0 are two. */
static uint64_t bits(double number)
{
    uint64_t n;

    memcpy(&n, &number, sizeof n);
    return n;
}

/* What the gauge answers and writes over other numbers. */
static void gauge(const char *what, const uint8_t *store, size_t length, uint64_t answer, double bucket, double page)
{
    struct amiqsovik_gauge_values shown = LAST;

    same(what, amiqsovik_gauge(store, length, &shown), answer);
    same(what, bits(shown.per_bucket), bits(bucket));
    same(what, bits(shown.per_page), bits(page));
}

/* On a refusal both are 0. */
static void refused(const uint8_t *sound)
{
    uint8_t store[BYTES];

    gauge("no store", NULL, 0, word(AMIQSOVIK_LENGTH, 0), 0, 0);
    gauge("seven bytes", sound, 7, word(AMIQSOVIK_LENGTH, 0), 0, 0);
    memcpy(store, sound, BYTES);
    store[2 * AMIQSOVIK_BLOCK_BYTES + 9] ^= 1;
    gauge("block 2 damaged", store, BYTES, word(AMIQSOVIK_DAMAGED, 2), 0, 0);
    gauge("four of five blocks", sound, BYTES - AMIQSOVIK_BLOCK_BYTES, word(AMIQSOVIK_NOT_AN_INDEX, 1), 0, 0);
}

int main(void)
{
    static uint8_t store[BYTES];
    uint32_t hash;

    same("the size of two numbers", sizeof(struct amiqsovik_gauge_values), 16);
    wipe();
    same("format", amiqsovik_format(store, BYTES, 40, 9, 0), word(AMIQSOVIK_DONE, 0));
    gauge("an empty store", store, BYTES, word(AMIQSOVIK_DONE, 0), 0, 0);
    for (hash = 0; hash < 80; hash += 2)
        same("insert", insert(store, BYTES, hash, 7, 1), word(AMIQSOVIK_DONE, 0));
    gauge("40 in two pages", store, BYTES, word(AMIQSOVIK_DONE, 0), 20, 0.5);
    refused(store);
    /* The 41st even one takes a third page. */
    same("insert", insert(store, BYTES, 80, 7, 1), word(AMIQSOVIK_DONE, 0));
    gauge("41 in three pages", store, BYTES, word(AMIQSOVIK_DONE, 0), 20.5, 41.0 / 120.0);
    return wrong;
}
