/* Tests what the header says of the journal: its length, its head, recovery, look, and changes in two halves. It is C
 * and C++; `try` builds and runs it. It exits with 0 if all of it holds. */
#include "tests.h"

enum { BYTES = 8 * AMIQSOVIK_BLOCK_BYTES, PLAN = AMIQSOVIK_PLAN_BYTES };

static uint8_t store[BYTES], store_before[BYTES], journal_before[sizeof journal];
static uint8_t plan[PLAN], plan_before[PLAN];

static void keep(void)
{
    memcpy(store_before, store, BYTES);
    memcpy(journal_before, journal, sizeof journal);
    memcpy(plan_before, plan, PLAN);
}

static void back(void)
{
    memcpy(store, store_before, BYTES);
    memcpy(journal, journal_before, sizeof journal);
}

/* Store, journal and plan are as they were kept. */
static void unchanged(const char *what)
{
    same(what, memcmp(store, store_before, BYTES) == 0, 1);
    same(what, memcmp(journal, journal_before, sizeof journal) == 0, 1);
    same(what, memcmp(plan, plan_before, PLAN) == 0, 1);
}

/* A wiped journal, and a store of one full page and three pairs more of one code, which wants no split. */
static void make(void)
{
    uint32_t reading;

    memset(journal, 0xA5, sizeof journal);
    memset(plan, 0x5A, PLAN);
    wipe();
    same("format", amiqsovik_format(store, BYTES, 40, 7, 1), word(AMIQSOVIK_DONE, 0));
    for (reading = 0; reading < 43; reading++)
        same("insert", insert(store, BYTES, 2, reading, 1), word(AMIQSOVIK_DONE, 0));
}

/* The changes, and the plans of insert and remove, with numbers good or not: none is done, all answer `number`. */
static void refused(const char *what, size_t bytes, size_t length, uint32_t offset, uint32_t bucket, uint32_t number)
{
    uint64_t answer = word(number, number == AMIQSOVIK_DAMAGED ? 2 : 0);

    keep();
    same(what, amiqsovik_insert(store, bytes, journal, length, 2, 99, offset), answer);
    same(what, amiqsovik_remove(store, bytes, journal, length, 2, 1, offset), answer);
    same(what, amiqsovik_work(store, bytes, journal, length, offset == 0 ? 65536 : 0), answer);
    same(what, amiqsovik_squeeze(store, bytes, journal, length, bucket, offset == 0 ? 65536 : 0), answer);
    same(what, amiqsovik_plan_insert(store, bytes, journal, length, 2, 99, offset, plan, PLAN), answer);
    same(what, amiqsovik_plan_remove(store, bytes, journal, length, 2, 1, offset, plan, PLAN), answer);
    unchanged(what);
}

/* The order is 1, 13, 2, 14, 3, and then what there was before. */
static void order(void)
{
    make();
    journal[511] ^= 1;
    store[2 * AMIQSOVIK_BLOCK_BYTES] ^= 1;
    refused("all wrong", BYTES - 1, sizeof journal - 1, 0, 2, AMIQSOVIK_LENGTH);
    refused("a short journal", BYTES, sizeof journal - 1, 0, 2, AMIQSOVIK_JOURNAL_LENGTH);
    refused("no journal", BYTES, 0, 0, 2, AMIQSOVIK_JOURNAL_LENGTH);
    refused("a number", BYTES, sizeof journal, 0, 2, AMIQSOVIK_NUMBER);
    refused("a pending head", BYTES, sizeof journal, 1, 2, AMIQSOVIK_PENDING);
    same("a step", amiqsovik_plan_work(store, BYTES, journal, sizeof journal, plan, PLAN), word(AMIQSOVIK_PENDING, 0));
    wipe();
    refused("damaged", BYTES, sizeof journal, 1, 2, AMIQSOVIK_DAMAGED);
    store[2 * AMIQSOVIK_BLOCK_BYTES] ^= 1;
    same("no bucket", squeeze(store, BYTES, 2, 0), word(AMIQSOVIK_NUMBER, 0));
}

/* The calls that take a journal and do not judge the store. */
static void lengths(void)
{
    make();
    keep();
    same("wipe", amiqsovik_wipe(NULL, 0), word(AMIQSOVIK_JOURNAL_LENGTH, 0));
    same("wiped", amiqsovik_wiped(journal, sizeof journal + 1), word(AMIQSOVIK_JOURNAL_LENGTH, 0));
    same("recover", amiqsovik_recover(store, 7, journal, 7), word(AMIQSOVIK_LENGTH, 0));
    same("recover", amiqsovik_recover(store, BYTES, journal, 7), word(AMIQSOVIK_JOURNAL_LENGTH, 0));
    same("look", amiqsovik_look(store, 7, journal, 7, 8), word(AMIQSOVIK_LENGTH, 0));
    same("look", amiqsovik_look(store, BYTES, journal, 7, 8), word(AMIQSOVIK_JOURNAL_LENGTH, 0));
    same("look", amiqsovik_look(store, BYTES, journal, sizeof journal, 8), word(AMIQSOVIK_NUMBER, 0));
    same("look", amiqsovik_look(store, BYTES, journal, sizeof journal, 7), word(AMIQSOVIK_DONE, 7));
    unchanged("lengths");
}

/* The head's bytes all count; wiping and recovering both make it wiped again, and recovering no change more. */
static void heads(void)
{
    size_t i;

    make();
    keep();
    for (i = 0; i < AMIQSOVIK_BLOCK_BYTES; i++) {
        same("a wiped head", amiqsovik_wiped(journal, sizeof journal), word(AMIQSOVIK_DONE, 0));
        journal[i] ^= 1;
        same("a pending head", amiqsovik_wiped(journal, sizeof journal), word(AMIQSOVIK_PENDING, 0));
        if (i % 2 == 0)
            wipe();
        else
            same("recover", amiqsovik_recover(store, BYTES, journal, sizeof journal), word(AMIQSOVIK_DONE, 0));
        unchanged("a wiped head");
    }
}

static uint64_t do_store(size_t plan_length, uint32_t n)
{
    return amiqsovik_do_store(store, BYTES, journal, sizeof journal, plan, plan_length, n);
}

/* A plan that is too short comes before all else; block stores that a plan does not have. */
static void plans(void)
{
    make();
    keep();
    same("255", AMIQSOVIK_RESULT_SHORT, 255);
    same("insert", amiqsovik_plan_insert(NULL, 0, NULL, 0, 2, 99, 0, plan, PLAN - 1), word(255, PLAN));
    same("remove", amiqsovik_plan_remove(NULL, 0, NULL, 0, 2, 99, 0, NULL, 0), word(255, PLAN));
    same("work", amiqsovik_plan_work(NULL, 0, NULL, 0, plan, PLAN - 1), word(255, PLAN));
    same("squeeze", amiqsovik_plan_squeeze(NULL, 0, NULL, 0, 2, plan, PLAN - 1), word(255, PLAN));
    same("a short plan", do_store(PLAN - 1, 0), word(255, PLAN));
    same("any bytes", do_store(PLAN, 0), word(AMIQSOVIK_NUMBER, 0));
    same("no bucket", amiqsovik_plan_squeeze(store, BYTES, journal, sizeof journal, 2, plan, PLAN),
         word(AMIQSOVIK_NUMBER, 0));
    same("idle", amiqsovik_plan_work(store, BYTES, journal, sizeof journal, plan, PLAN), AMIQSOVIK_STOP_IDLE << 8);
    same("idle", amiqsovik_plan_squeeze(store, BYTES, journal, sizeof journal, 0, plan, PLAN),
         AMIQSOVIK_STOP_IDLE << 8);
    unchanged("plans");
    same("a plan", amiqsovik_plan_insert(store, BYTES, journal, sizeof journal, 2, 99, 1, plan, PLAN), word(0, 7));
    keep();
    same("past the end", do_store(PLAN, 7), word(AMIQSOVIK_NUMBER, 0));
    same("past the end", do_store(PLAN, UINT32_MAX), word(AMIQSOVIK_NUMBER, 0));
    unchanged("past the end");
}

/* The block stores of an insert to overflow page 4, by part and block: images, head, end, store, wiped head. */
static void halves(void)
{
    static const uint32_t parts[] = {1, 1, 1, 1, 0, 0, 1}, blocks[] = {1, 2, 0, 15, 0, 4, 0};
    static uint8_t whole[BYTES], journal_whole[sizeof journal];
    uint32_t n;

    make();
    keep();
    same("insert", insert(store, BYTES, 2, 99, 1), word(AMIQSOVIK_DONE, 0));
    memcpy(whole, store, BYTES);
    memcpy(journal_whole, journal, sizeof journal);
    back();
    same("a plan", amiqsovik_plan_insert(store, BYTES, journal, sizeof journal, 2, 99, 1, plan, PLAN), word(0, 7));
    for (n = 0; n < 7; n++) {
        uint64_t did = do_store(PLAN, n);

        same("the answer", amiqsovik_number(did), AMIQSOVIK_DONE);
        same("the part", amiqsovik_part(did), parts[n]);
        same("the block", amiqsovik_gives(did), blocks[n]);
        same("the head", amiqsovik_number(amiqsovik_wiped(journal, sizeof journal)),
             n >= 2 && n < 6 ? AMIQSOVIK_PENDING : AMIQSOVIK_DONE);
    }
    same("the store", memcmp(store, whole, BYTES) == 0, 1);
    same("the journal", memcmp(journal, journal_whole, sizeof journal) == 0, 1);
}

/* A removal cut after each of its block stores: look shows each block as it stands after recovery, before or after. */
static void cuts(void)
{
    static uint8_t looked[BYTES];
    uint32_t n, done, k;

    make();
    keep();
    same("a plan", amiqsovik_plan_remove(store, BYTES, journal, sizeof journal, 2, 42, 1, plan, PLAN), word(0, 7));
    for (n = 0; n <= 7; n++) {
        back();
        /* The end of the insert before names the same blocks; spoilt, it does not do for this change. */
        journal[15 * AMIQSOVIK_BLOCK_BYTES] ^= 1;
        for (done = 0; done < n; done++)
            same("do_store", amiqsovik_number(do_store(PLAN, done)), AMIQSOVIK_DONE);
        for (k = 0; k < BYTES / AMIQSOVIK_BLOCK_BYTES; k++) {
            uint64_t at = amiqsovik_look(store, BYTES, journal, sizeof journal, k);
            const uint8_t *part = amiqsovik_part(at) == AMIQSOVIK_PART_JOURNAL ? journal : store;

            same("look", amiqsovik_part(at), n >= 4 && n < 7 && (k == 0 || k == 4));
            memcpy(looked + k * AMIQSOVIK_BLOCK_BYTES, part + amiqsovik_gives(at) * AMIQSOVIK_BLOCK_BYTES,
                   AMIQSOVIK_BLOCK_BYTES);
        }
        same("recover", amiqsovik_recover(store, BYTES, journal, sizeof journal), word(AMIQSOVIK_DONE, 0));
        same("look", memcmp(looked, store, BYTES) == 0, 1);
        same("before", memcmp(store, store_before, BYTES) == 0, n < 4);
        same("verify", amiqsovik_verify(store, BYTES), word(AMIQSOVIK_DONE, 0));
        same("again", remove_pair(store, BYTES, 2, 42, 1), word(n < 4 ? AMIQSOVIK_DONE : AMIQSOVIK_NOT_HELD, 0));
    }
}

int main(void)
{
    same("13", AMIQSOVIK_JOURNAL_LENGTH, 13);
    same("14", AMIQSOVIK_PENDING, 14);
    order();
    lengths();
    heads();
    plans();
    halves();
    cuts();
    return wrong;
}
