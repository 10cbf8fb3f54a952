/* A power cut in each block store of an insert, and what recovery makes of it.
 *
 * The insert alters two blocks, so it has seven block stores: two images, head, end, the two blocks of the store, and
 * the wiped head. It counts from the end on. Here it counts from the head on: the insert before altered the same
 * blocks, and its end, which is still there, is the same.
 *
 * Make the archive first, at the top of the repository:   tools/archive
 * Then, in this folder:
 *
 *     gcc -std=c99 -Wall -Wextra -O2 cut.c ../../target/staticlib/libamiqsovik.a -o cut && ./cut
 */
#include <inttypes.h>
#include <stdio.h>
#include <string.h>

#include "../../include/amiqsovik.h"

enum { BYTES = 8 * AMIQSOVIK_BLOCK_BYTES };

/* What is on the medium: a store, and the journal that belongs to it. */
struct medium {
    uint8_t store[BYTES];
    uint8_t journal[AMIQSOVIK_JOURNAL_BYTES];
};

/* 1 if a call was done, else says why not. */
static int done(const char *call, uint64_t word)
{
    if (amiqsovik_number(word) == AMIQSOVIK_DONE)
        return 1;
    printf("%s: %s\n", call, amiqsovik_name(amiqsovik_number(word)));
    return 0;
}

/* A journal whose head is wiped, and then a store with one reading. */
static int make(struct medium *m)
{
    return done("wipe", amiqsovik_wipe(m->journal, sizeof m->journal)) &&
           done("format", amiqsovik_format(m->store, BYTES, 10, 20260516, 0)) &&
           done("insert", amiqsovik_insert(m->store, BYTES, m->journal, sizeof m->journal, 4, 104, 1));
}

/* Does the first `n` block stores of a plan, and half of the next: its first 256 bytes get there. */
static int cut(struct medium *m, const uint8_t *plan, uint32_t n)
{
    struct medium next;
    uint64_t word = AMIQSOVIK_DONE;
    uint32_t i;

    for (i = 0; i <= n; i++) {
        next = *m;
        word = amiqsovik_do_store(next.store, BYTES, next.journal, sizeof next.journal, plan, AMIQSOVIK_PLAN_BYTES, i);
        if (!done("do_store", word))
            return 0;
        if (i < n)
            *m = next;
    }
    i = amiqsovik_gives(word) * AMIQSOVIK_BLOCK_BYTES;
    if (amiqsovik_part(word) == AMIQSOVIK_PART_STORE)
        memcpy(m->store + i, next.store + i, AMIQSOVIK_BLOCK_BYTES / 2);
    else
        memcpy(m->journal + i, next.journal + i, AMIQSOVIK_BLOCK_BYTES / 2);
    return 1;
}

/* How the store stands, as it lies, or why it is refused. */
static void show(const struct medium *m)
{
    uint8_t result[AMIQSOVIK_RESULT_BYTES];
    uint64_t word = amiqsovik_standing(m->store, BYTES, result, sizeof result);

    if (amiqsovik_number(word) == AMIQSOVIK_DONE)
        printf(" %" PRIu32 " held", amiqsovik_stands(result).count);
    else
        printf(" %s, block %" PRIu32, amiqsovik_name(amiqsovik_number(word)), amiqsovik_gives(word));
}

int main(void)
{
    static struct medium before, now;
    static uint8_t plan[AMIQSOVIK_PLAN_BYTES];
    uint32_t n;
    uint64_t word, head;

    if (!make(&before))
        return 1;
    word = amiqsovik_plan_insert(before.store, BYTES, before.journal, sizeof before.journal, 4, 104, 2, plan,
                                 sizeof plan);
    if (!done("plan_insert", word))
        return 1;
    for (n = 0; n < amiqsovik_gives(word); n++) {
        now = before;
        if (!cut(&now, plan, n))
            return 1;
        head = amiqsovik_wiped(now.journal, sizeof now.journal);
        printf("cut in block store %" PRIu32 " of %" PRIu32 ": head %s,", n + 1, amiqsovik_gives(word),
               amiqsovik_number(head) == AMIQSOVIK_PENDING ? "pending" : "wiped");
        show(&now);
        if (!done("recover", amiqsovik_recover(now.store, BYTES, now.journal, sizeof now.journal)))
            return 1;
        printf("; recovered:");
        show(&now);
        printf("\n");
    }
    return 0;
}
